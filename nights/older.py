"""The night of an older controller beside a newer one: what happens, and what is said of it."""

import struct

from pages import *
from says import told
from traffic import Night, Post


class OlderPost(Post):
    """A post with the pages of 001: each function is a message of its own, and none means standby or off."""

    interface = 1
    document = "001"
    identifiers = dict(status=OLDER_STATUS, new=OLDER_NEW_SESSION, modules=OLDER_PMS, vehicle=OLDER_EV_ID,
                       change=OLDER_CHANGE, finished=OLDER_FINISHED, stop=OLDER_STOP)
    off = None

    def __init__(self, *rest):
        super().__init__(*rest)
        self.charged = 40

    def opening(self, protocol, plug):
        return older_opening_bytes(protocol, plug, volt=4200, amps=2000, capacity=76, charged=self.charged)

    def command(self, function, target=0, most=0, **_):
        if function == INSULATION_TEST:
            return TEST_LOOP, struct.pack("<H", target).hex()
        if function == PRECHARGE:
            return PRECHARGE_LOOP, struct.pack("<HH", target, most).hex()
        return CHARGING_LOOP, struct.pack("<HhB", target, most, self.charged).hex()

    def cycle(self, state, **rest):
        if self.vehicle:
            self.frame(45, EXTRA, extra_bytes(CP_STATE_C, DUTY_5))
        if (self.time // 100) % 10 == 0:
            self.frame(50, INPUTS, input_bytes(0b0001, 41, 18, 19))
        super().cycle(state, **rest)

    def insulation_test(self, target=5000):
        self.say(f"post {self.number}: insulation test at {target // 10} V; Test_Voltage goes back to 0 at its end (001)")
        for part in (0, 1, 2, 4, 4, 4):
            self.volt = target * part // 4
            self.cycle(INSULATING, modules=True, control=dict(function=INSULATION_TEST, target=target))
        for part in (6, 3, 1):
            self.volt = target * part // 40
            self.cycle(INSULATING, modules=True, control=dict(function=INSULATION_TEST))

    def end_charge(self):
        self.say(f"post {self.number}: the vehicle stops; the current comes down")
        self.frame(5, OLDER_CHANGE, byte(0))
        self.ramp(0, step=400, state=ENDING)
        self.say(f"post {self.number}: Charging_Loop at 0 V and 0 A, \"a sort of 'Standby' mode\" (001)")
        for state, part in ((ENDING, 8), (ENDING, 5), (ENDING, 3), (WELDING, 5), (WELDING, 5)):
            self.volt = self.volt * part // 10
            self.cycle(state, modules=True, control=dict(function=POWER_TRANSFER))


def older():
    night = Night("older",
                  "An older controller beside a newer one: post 0 on channel 2 has the pages of document 001, post 1 on",
                  "channel 3 those of 000. A car charges at each of them, and each is judged by its own pages.")
    old = OlderPost(night, 0, 2, 2000)
    new = Post(night, 1, 3, 2000, 4)
    night.at(1900, "setup 0 2 5000 2000 500 300 0 2",
             told("R12", "Post 0: the sheet has 2 for the interface; there are 0 and 1.", case="older"))
    old.set_up(silence=300, comments=("# post 0: set up with interface 1, the pages of 001",))
    new.set_up(comments=("# post 1: nothing is said of its interface, so it has the pages of 000",))
    crossed(night, old, new)
    for post, vehicle in ((old, "00a1b2c3d4e5"), (new, "00ffee112233")):
        post.plug_in(vehicle=vehicle)
        post.insulation_test()
        post.precharge()
        post.start_charge()
        post.say(f"post {post.number}: power transfer")
        post.ramp(1000)
        post.transfer(5, 1000)
        post.record()
    limits(old)
    wet_cable(old)
    silence(old)
    new.transfer(30, 1000)
    for post in (old, new):
        post.end_charge()
        post.close()
        post.record()
        post.idle(4)
    old.cycle(WAITING, control=dict(function=PRECHARGE, target=3850, most=20), notes={
        "control": told("F4", "Post 0: a Precharge with no car there.", case="older")})
    old.idle(2)
    old.record()
    while new.time < old.time:
        new.idle(1)
    night.at(old.time + 10, "refused", "# the seven frames that were wired to the wrong post; a refused set-up does not count")
    return night


def crossed(night, old, new):
    """Each hears a few frames of the other's."""
    old.idle(3)
    new.idle(3)
    new.frame(45, OLDER_STATUS, byte(WAITING), told("R29", "Post 1: the older controller's status on channel 3."))
    new.frame(46, OLDER_NEW_SESSION, "0201",
              told("R29", "Post 1: 001's New_Charge_Session has 8 bytes, but its length is not asked for here."))
    new.frame(47, SEQUENCE, "ff0000", told("R29", "Post 1: nor are bits that no signal of 001 covers."))
    new.frame(48, OLDER_PMS, status_bytes(0, 0, 1, 255),
              told("R3", "Post 1: 60010 as a standard frame is in nobody's table."), form="s")
    new.record(49)
    old.frame(45, STATUS, byte(WAITING), told("R29", "Post 0: the newer controller's status on channel 2."))
    old.frame(46, NEW_SESSION, "0201", told("R29", "Post 0: 000's New_Charge_Session opens nothing here."))
    old.frame(47, PMS, status_bytes(0, 0, 1, 255), told("R29", "Post 0: nor does 000's Power_Modules_Status count."))
    for post in (old, new):
        post.say(f"post {post.number}: the safety controller's frames (004) are heard on posts of either interface")
        post.frame(60, CHARGE_CONTROL, safety_control_bytes(0, 0), *post.remarked(()), form="s")
    old.record(61)
    old.idle(1)
    new.idle(1)
    old.frame(45, SEQUENCE, "010300")


def limits(post):
    post.say("post 0: Power_Modules_Limits tells 80.0 A, under the 200.0 A of the set-up")
    post.frame(1, LIMITS, limit_bytes(volt=4500, amps=800), *post.remarked(()))
    post.cycle(CHARGING, modules=True, control=post.wish(1000), notes={
        "modules": told("F8", "Post 0: 100.0 A, and 80.0 A were told.", case="older")})
    post.say("post 0: the vehicle asks for less; at the limit itself nothing is found")
    post.amps = 800
    post.transfer(2, 800)
    post.say("post 0: it asks for 460.0 V, above the 450.0 V told; on a post of 001 that is no finding")
    post.cycle(CHARGING, modules=True, control=post.wish(800, target=4600))
    post.say("post 0: a current of -0.1 A is no limit; the default is in force again, and 90.0 A are within it")
    post.frame(1, LIMITS, limit_bytes(amps=-1), *post.remarked(()))
    post.amps = 900
    post.transfer(2, 900)
    post.say("post 0: back at -50.0 A, where the default discharge limit stands; -50.1 A is too much")
    post.amps = -500
    post.cycle(CHARGING, modules=True, control=post.wish(-500))
    post.amps = -501
    post.cycle(CHARGING, modules=True, control=post.wish(-500), notes={
        "modules": told("F8", "Post 0: -50.1 A; no message of 001 tells a discharge limit.")})
    post.amps = 900
    post.transfer(2, 900)


def wet_cable(post):
    post.say("post 0: the cable gets wet; 40 kOhm at 400.0 V is just enough")
    post.volt, post.insulation = 4000, 20
    post.cycle(CHARGING, modules=True, control=post.wish(900))
    post.volt = 4001
    post.cycle(CHARGING, modules=True, control=post.wish(900), notes={
        "modules": told("F9", "Post 0, channel 2: 40 kOhm at 400.1 V while Charging_Loop is sent.", case="older")})
    post.record(-1)
    post.say("post 0: the controller asks for 0 V and 0 A; Charging_Loop counts as power transfer all the same")
    post.insulation, post.amps = 12, 0
    post.cycle(CHARGING, control=dict(function=POWER_TRANSFER))
    post.cycle(CHARGING, modules=True, control=dict(function=POWER_TRANSFER), notes={
        "modules": told("F9", "Post 0, channel 2: 24 kOhm at 400.1 V behind a Charging_Loop at 0 V and 0 A.",
                        case="older")})
    post.say("post 0: the plug is dried")
    post.volt, post.insulation = 3900, 255
    post.transfer(2, 0)
    post.ramp(1000)


def silence(post):
    post.say("post 0: the power modules fall silent; W is 300 ms, counted from their latest status")
    for _ in range(2):
        post.cycle(CHARGING, control=post.wish(1000))
    post.cycle(CHARGING, control=post.wish(1000), tick=True, notes={
        "control": told("F1", "Post 0: 310 ms without a Power_Modules_Status, and more, until one came, that one "
                              "included.", events=6)})
    post.transfer(5, 1000)
