"""The night of a sensor that only knows yes and no: what happens, and what is said of it."""

from pages import *
from says import told
from traffic import Night, Post

YES_NO, UNKNOWN = 1, 2


def sensor():
    """02: "One site's sensor gave 0 for invalid at 0 V and F9 stayed silent". That session, and one after the sensor's
    kind was told."""
    night = Night("sensor",
                  "A site whose insulation sensor only knows yes and no, and says no while the voltage is still 0 V:",
                  "post 0 on channel 14, before the sensor's kind was told and after.")
    post = Post(night, 0, 14, 5000)
    precharge = dict(function=PRECHARGE, target=3850, most=20, mode=RANGE_MODE, contactors=CLOSE)

    def dead_cable(notes=None):
        post.plug_in(vehicle=None)
        post.insulation_test()
        post.say("post 0: precharge is commanded; the voltage is still 0 V when the sensor says Invalid")
        post.volt = 0
        post.cycle(PRECHARGING, modules=True, control=precharge)
        post.insulation = INVALID
        post.cycle(PRECHARGING, modules=True, control=precharge, notes=notes)

    def ending():
        post.cycle(ENDING, control=dict(function=STANDBY))
        post.insulation = VALID
        post.close(RUSHED_STOP)

    def invalid(what):
        return {"modules": told("F9", f"Post 0, channel 14: {what}", case="yes/no")}

    post.set_up(comments=("# post 0: nobody told that its sensor only knows yes and no",))
    post.idle(2)
    dead_cable()
    post.say("post 0: nothing was found, since 0 times 200 is not below 0; a fitter sees the 0 and stops the session")
    ending()
    post.set_up(sensor=UNKNOWN, comments=(told("R12", "Post 0: the fitter takes 2 for the sensor's kind."),))
    post.record(-49)
    post.time += 100
    post.set_up(sensor=YES_NO, comments=("# post 0: set up anew, with the sensor's kind",))
    post.record(-49)
    post.idle(2)
    dead_cable(invalid("Invalid at 0 V, the reading of before."))
    post.say("post 0: the plug is dried; now the sensor says Valid")
    post.insulation = VALID
    post.cycle(PRECHARGING, modules=True, control=precharge)
    post.precharge()
    post.start_charge()
    post.ramp(1000)
    post.say("post 0: neither Valid nor Invalid, and too little by any measure, but it is not 0")
    post.insulation = 1
    post.cycle(CHARGING, modules=True, control=post.wish(1000))
    post.insulation = INVALID
    post.cycle(CHARGING, modules=True, control=post.wish(0), notes=invalid("Invalid at 387 V."))
    post.record()
    post.amps = 0
    ending()
    post.idle(3)
    return night
