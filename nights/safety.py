"""The night of the safety controller: what happens, and what is said of it."""

from pages import *
from says import told
from traffic import Night, Post


class Pair(Post):
    """A post with the host and safety controller pair of 004 on its channel: both speak in each cycle, the probes in
    every tenth."""

    def __init__(self, *rest):
        super().__init__(*rest)
        self.pilots(CP_A, 0, active=0)
        self.probes = ((-100, 0, 0), (-98, 0, 0), (NOT_USED, 0, 0), (NOT_USED, 0, 0))

    def cycle(self, state, **rest):
        both = (self.closed, self.closed)
        self.frame(45, CHARGE_CONTROL, safety_control_bytes(self.duty, self.active, *both), form="s")
        self.frame(50, CHARGE_STATE, safety_state_bytes(self.duty, self.active, self.pilot, self.cable, (*both, 0, 0)),
                   form="s")
        if (self.time // 100) % 10 == 0:
            self.frame(55, PROBES, probe_bytes(*self.probes), form="s")
        super().cycle(state, **rest)

    def pilots(self, pilot, duty, active=1, closed=0, cable=NO_CABLE):
        self.pilot, self.duty, self.active, self.closed, self.cable = pilot, duty, active, closed, cable

    def screen(self, step, comment):
        """A number of the record, looked at on the service screen."""
        self.night.at(self.time - 1, step, f"# post {self.number}: {comment}")


def safety():
    night = Night("safety",
                  "The first night of a new post: on channel 7 the host and safety controller pair of 004 speaks",
                  "beside post 0's charge controller and power modules. Its frames are recorded, and change nothing",
                  "of the session. Post 1 on channel 8 has no such pair.")
    post = Pair(night, 0, 7, 3000)
    post.set_up()
    beside = Post(night, 1, 8, 3000, 4)
    beside.set_up()
    post.say("post 0: a cold night; the first probe has -10.0 °C, which is fe 70")
    post.idle(3)
    post.record()
    post.screen("probe -100", "its first probe, as a float")
    post.screen("probe 8191", "its third probe is not used")

    post.say("post 0: the host tries the safety controller's contactors; they are not DC_Power_Control's, so no F3")
    post.pilots(CP_A, 0, active=0, closed=1)
    post.idle(2)
    post.say("post 0: a car on the AC plug; duty 53.3 % with PWM active begins 82 15")
    post.pilots(CP_B, 533, cable=CABLE_32A)
    post.idle(4)
    post.pilots(CP_C, 533, closed=1, cable=CABLE_32A)
    post.idle(4)
    post.record()
    post.say("post 0: the host asks for 102.0 %; the message keeps the number")
    post.pilots(CP_C, 1020, closed=1, cable=CABLE_32A)
    post.idle(2)
    post.record()
    post.screen("duty 1020", "what the safety controller makes of it")
    post.pilots(CP_A, 0, active=0)
    post.idle(2)

    control = safety_control_bytes(533, 1)
    post.frame(60, CHARGE_CONTROL, control, told("R3", "Post 0: 6 as an extended frame."))
    post.frame(61, "9", control, told("R3", "Post 0: no message has 9."), form="s")
    post.frame(62, CHARGE_CONTROL, control[:-2], told("R4", "Post 0: 7 bytes."), form="s")
    post.frame(63, CHARGE_STATE, control + "00", told("R15", "Post 0: 9 bytes."), form="s")
    post.frame(64, CHARGE_CONTROL, "8215040000000000", told("R6", "Post 0: a third contactor, which 004 has not."),
               form="s")
    post.frame(65, CHARGE_STATE, "0000000000200000", told("R6", "Post 0: a sixth stop, which 004 has not."), form="s")
    post.record(66)
    post.idle(2)

    post.pilots(CP_B, 50)
    post.plug_in(vehicle=None)
    post.pilots(CP_C, 50, closed=1)
    post.insulation_test()
    post.precharge()
    post.start_charge()
    post.probes = ((212, 0, 0), (-1, 0, 0), (NOT_USED, 0, 0), (NOT_USED, 0, 0))
    post.ramp(1000)
    post.transfer(10, 1000)
    post.record()
    post.screen("probe 212", "the first probe is warm")
    post.screen("probe -1", "the second is just below 0, and in use")

    post.say("post 0: the controller status stays away while the pair speaks on")
    post.cycle(CHARGING, status=False, modules=True, control=post.wish(1000))
    post.cycle(CHARGING, status=False, modules=True, control=post.wish(1000), notes={
        "modules": told("F2", "Post 0: 220 ms after the latest controller status, on every event, the pair's frames "
                              "too, until a new one came, that one included.", events=5)})
    post.transfer(3, 1000)
    post.say("post 0: the power modules fall silent while the pair speaks on; W is 500 ms")
    for _ in range(4):
        post.cycle(CHARGING, control=post.wish(1000))
    post.cycle(CHARGING, control=post.wish(1000), notes={
        "control": told("F1", "Post 0: 510 ms without a Power_Modules_Status, and more, on the pair's frames too, "
                              "until one came, that one included.", events=5)})
    post.transfer(3, 1000)
    post.end_charge()
    post.pilots(CP_B, 50)
    post.close()
    post.pilots(CP_A, 0, active=0)
    post.idle(4)
    post.record()
    while beside.time < post.time:
        beside.idle(5)
    beside.record()
    return night
