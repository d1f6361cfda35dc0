"""The night of the emergency stops: what happens, and what is said of it."""

from older import OlderPost
from pages import *
from says import told
from traffic import Night, Post


def stop():
    night = Night("stop",
                  "Emergency stops, and charges that go on. Post 0 on channel 6 has the pages of 000, post 1 on channel 7",
                  "those of 001. A stop counts in the session in which it was accepted, and nowhere else.")
    post = Post(night, 0, 6, 3000)
    older = OlderPost(night, 1, 7, 3000, 4)
    post.set_up()
    older.set_up()
    post.idle(3)
    charge(post, "00a1b2c3d4e5")
    ignored(post)
    tried_again(post)
    between_sessions(post)
    next_car(post)
    older.idle(3)
    not_a_stop(older)
    by_the_vehicle(older)
    while older.time < post.time:
        older.idle(1)
    night.at(older.time + 10, "refused", "# the two stops on post 1 that were none")
    return night


def charge(post, vehicle):
    post.plug_in(vehicle=vehicle)
    post.insulation_test()
    post.precharge()
    post.start_charge()
    post.say(f"post {post.number}: power transfer")
    post.ramp(1000)
    post.transfer(3, 1000)


def ignored(post):
    """The button at the charger is pressed, and the controller goes on as if it had not been."""
    post.record()
    post.say("post 0: somebody presses the button at the charger, behind the command of this cycle")
    post.press(35, STOP_BY_EVSE)
    post.cycle(CHARGING, modules=True, control=post.wish(1000))
    for n in range(3):
        post.cycle(CHARGING, modules=True, control=post.wish(1000), notes={
            "control": told("F12", f"Post 0, channel 6: the power transfer goes on, {100 * n + 95} ms after the stop.")})
    post.record()
    post.say("post 0: pressed once more, with the hand still on it; the record keeps the later one")
    post.press(5, STOP_BY_EVSE)
    post.cycle(CHARGING, modules=True, control=post.wish(0), notes={
        "control": told("F12", "Post 0, channel 6: 0 A are asked for, in a power transfer all the same.")})
    post.record()


def tried_again(post):
    """Standby is what a stop asks for; but a stopped session does not begin anew by a repeat."""
    post.say("post 0: the controller goes to standby and lowers the voltage; neither that nor Off is a finding")
    for part in (7, 4, 1):
        post.volt, post.amps = 3900 * part // 10, 0
        post.cycle(ENDING, modules=True, control=dict(function=STANDBY, lowering=1))
    post.volt = 150
    post.cycle(ENDING, modules=True, control=dict(function=OFF))
    post.say("post 0: it repeats New_Charge_Session and begins once more; the session is the same, and so is the stop")
    post.cycle(FULL_INFO, new=(ISO_2013, DC_EXTENDED), modules=True)
    post.cycle(INSULATING, modules=True, control=dict(function=INSULATION_TEST, target=5000), notes={
        "control": told("F12", "Post 0, channel 6: an insulation test in the stopped session.")})
    post.cycle(PRECHARGING, modules=True, control=dict(function=PRECHARGE, target=3850, most=20), notes={
        "control": told("F12", "Post 0, channel 6: a precharge in the stopped session.")})
    post.close(RUSHED_STOP)
    post.record()


def between_sessions(post):
    """With no session open there is none that a stop could be accepted in."""
    post.say("post 0: the button is tried with no car there, and a test behind it")
    post.press(5, STOP_BY_EVSE)
    post.cycle(WAITING, control=dict(function=INSULATION_TEST, target=5000), notes={
        "control": told("F4", "Post 0, channel 6: an insulation test with no session open, and none that was stopped.")})
    post.cycle(WAITING, control=dict(function=OFF))
    post.record()
    post.idle(2)


def next_car(post):
    post.say("post 0: the next car; no stop was accepted in its session, and nothing is found")
    charge(post, "00ffee112233")
    post.record()
    post.end_charge()
    post.close()
    post.idle(2)
    post.record()


def not_a_stop(post):
    """Frames that look like a stop and are refused."""
    post.plug_in(vehicle="000102030405")
    post.frame(45, OLDER_STOP, "02", told("R5:0", "Post 1, channel 7: Origin 2 has no label; it is no stop."))
    post.frame(46, STOP, byte(STOP_BY_EVSE), told("R29", "Post 1, channel 7: Emergency_Stop by the pages of 000."))
    post.say("post 1: neither was accepted, and the insulation test is no finding")
    post.insulation_test()
    post.record()


def by_the_vehicle(post):
    """Each message that stands for a function, behind a stop by the vehicle."""
    control = dict(function=INSULATION_TEST)
    post.say("post 1: the vehicle stops, in the insulation test's last cycle")
    post.press(25, STOP_BY_PEV)
    post.cycle(INSULATING, modules=True, control=control, notes={
        "control": told("F12", "Post 1, channel 7: Insulation_Test after the vehicle's stop.", case="older")})
    control = dict(function=PRECHARGE, target=3850, most=20)
    for volt in (150, 1900, 3850):
        post.volt = volt
        post.cycle(PRECHARGING, modules=True, control=control, notes={
            "control": told("F12", "Post 1, channel 7: Precharge after the vehicle's stop.", case="older")})
    post.record()
    post.cycle(CHARGING, modules=True, control=post.wish(100), notes={
        "control": told("F12", "Post 1, channel 7: Charging_Loop after the vehicle's stop.", case="older")})
    post.cycle(CHARGING, modules=True, control=dict(function=POWER_TRANSFER), notes={
        "control": told("F12", "Post 1, channel 7: Charging_Loop at 0 V and 0 A counts as power transfer too.",
                        case="older")})
    post.volt = 0
    post.close(RUSHED_STOP)
    post.record()
