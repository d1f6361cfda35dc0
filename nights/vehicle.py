"""The night of a talkative bus: vehicles that tell of themselves, inputs, outputs and extra information."""

from older import OlderPost
from pages import *
from says import told
from traffic import Night, Post


class Told(Post):
    """A post on whose bus the other messages of 000 stand among those that the rules ask for."""

    extra, inputs = None, None

    def cycle(self, state, **rest):
        if self.vehicle and self.extra:
            self.frame(45, *self.extra)
        if self.inputs and (self.time // 100) % 10 == 0:
            self.frame(50, *self.inputs)
        super().cycle(state, **rest)

    def tells(self, *comments):
        """What the vehicle tells of itself, each message once."""
        first, *others = (
            (BATTERY, battery_bytes(76, 40, 10, 80, 100)),
            (VOLTAGES, words(2500, 4500, 3850)),
            (CHARGE_LIMITS, words(50, 1500, 2, 60)),
            (DISCHARGE_LIMITS, words(0, 300, 0, 11)),
            (ENERGY, words(-5, 30, 46, signed=True)))
        self.frame(60, *first, *self.remarked(comments))
        for n, frame in enumerate(others, 61):
            self.frame(n, *frame)


class Din(Told):
    """ADM-CS-SECC: four outputs, four inputs, two sensors of the pistol; a car on CCS."""

    extra = CCS_EXTRA, extra_bytes(CP_STATE_C, DUTY_5)
    inputs = SECC_INPUTS, input_bytes(0b0001, 41, 18, 19)


class Mcs(Told):
    """ADM-CS-SPCC: six temperatures; a lorry on MCS."""

    extra = MCS_EXTRA, mcs_bytes(CE_STATE_C, MATED)
    inputs = SPCC_INPUTS, spcc_bytes(0b0010, 41, 42, 18, 19, 20, 21)


class Board(Told):
    """ADM-CO-CUI1: six switches, four temperatures."""

    inputs = CUI1_INPUTS, switch_bytes(0b000101, 38, 44, 17, 17)


def vehicle():
    night = Night("vehicle",
                  "Vehicles that tell of themselves, and controllers that tell of their inputs: the messages of 000 from",
                  "Sequence_Control to OCPP_Control. Posts 0, 1 and 2 on channels 9, 10 and 11 have the pages of 000, with",
                  "a controller of each make; post 3 on channel 12 has those of 001. They open no session, tell no limit",
                  "and are no sign of life.")
    din, mcs, board = Din(night, 0, 9, 4000), Mcs(night, 1, 10, 4000, 3), Board(night, 2, 11, 4000, 5)
    older = OlderPost(night, 3, 12, 4000, 7)
    for post in (din, mcs, board, older):
        post.set_up()
    permitted(din)
    no_session(din)
    charge(din)
    limits(din)
    stop_button(din)
    signs_of_life(din)
    din.end_charge()
    din.close()
    din.idle(4)
    din.record()
    mcs.idle(3)
    charge(mcs)
    gaps(mcs)
    mcs.end_charge()
    mcs.close()
    mcs.record()
    board.idle(4)
    damaged(board)
    older.idle(3)
    foreign(older)
    for post in (mcs, board, older):
        while post.time < din.time:
            post.idle(1)
    night.at(din.time + 10, "refused", "# what was damaged on posts 1 and 2, and the thirteen of post 3")
    return night


def permitted(post):
    post.idle(2)
    post.say("post 0: the depot allows charging; three outputs are on, and whoever wrote them set the reserved bits too")
    post.frame(5, SEQUENCE_CONTROL, sequence_bytes(allowed=1), *post.remarked(()))
    post.frame(6, OUTPUTS, output_bytes(0b0111, reserved=2**60 - 1))
    post.idle(1)
    post.record()


def no_session(post):
    post.tells("# post 0: a car tells of itself before it is plugged in; that opens no session")
    post.cycle(WAITING, control=dict(function=INSULATION_TEST, target=5000), notes={
        "control": told("F4", "Post 0, channel 9: an insulation test, and no New_Charge_Session came.")})
    post.cycle(WAITING, control=dict(function=OFF))


def charge(post):
    post.plug_in()
    post.frame(-35, SEQUENCE_CONTROL, sequence_bytes(allowed=1, done=1, valid=1, parameters=1))
    post.tells()
    post.insulation_test()
    post.precharge()
    post.start_charge()
    post.say(f"post {post.number}: power transfer")
    post.frame(4, OCPP, words(1000, signed=True), f"# post {post.number}: OCPP asks for 100.0 A")
    post.ramp(1000)
    post.transfer(5, 1000)
    post.record()


def limits(post):
    """A vehicle's numbers are no limits of the post."""
    post.say("post 0: 180.0 A, and the car told 150.0 A; 460.0 V asked for, and it told 450.0 V: the post's own limits count")
    post.ramp(1800)
    post.cycle(CHARGING, modules=True, control=post.wish(1800, target=4600))
    post.amps = 2001
    post.cycle(CHARGING, modules=True, control=post.wish(1800, target=4600), notes={
        "modules": told("F8", "Post 0, channel 9: 200.1 A against the 200.0 A of its set-up.")})
    post.say("post 0: power goes back; the car told 30.0 A for that, the post has 50.0 A")
    post.amps = -500
    post.frame(4, OCPP, words(-500, signed=True))
    post.cycle(CHARGING, modules=True, control=post.wish(-500))
    post.amps = 1000
    post.frame(4, ENERGY, words(-6, 29, 45, signed=True))
    post.transfer(2, 1000)
    post.record()


def stop_button(post):
    post.say("post 0: the user's stop button is pressed and let go; that is no Emergency_Stop, and no F12 follows")
    pressed = dict(allowed=1, done=1, valid=1, parameters=1)
    post.frame(5, SEQUENCE_CONTROL, sequence_bytes(**pressed, stop=1), *post.remarked(()))
    post.transfer(1, 1000)
    post.frame(5, SEQUENCE_CONTROL, sequence_bytes(**pressed))
    post.transfer(2, 1000)


def signs_of_life(post):
    post.say("post 0: the controller's status stays away; its extra information every 100 ms does not stand for it")
    post.cycle(CHARGING, status=False, modules=True, control=post.wish(1000))
    post.cycle(CHARGING, status=False, modules=True, control=post.wish(1000), notes={
        "modules": told("F2", "Post 0, channel 9: 220 ms after the latest controller status, on every event, until a new "
                              "one came, that one included.", events=4)})
    post.transfer(2, 1000)
    post.say("post 0: the power modules fall silent; what the car tells in between does not count")
    for _ in range(4):
        post.cycle(CHARGING, control=post.wish(1000))
    post.cycle(CHARGING, control=post.wish(1000), notes={
        "control": told("F1", "Post 0, channel 9: 510 ms without a Power_Modules_Status, and more, on every event, until one "
                              "came, that one included.", events=8)})
    post.frame(1, VOLTAGES, words(2500, 4500, 3900))
    post.cycle(CHARGING, control=post.wish(1000))
    post.transfer(2, 1000)


def gaps(post):
    """Bits that no signal covers, and labels that there are not."""
    post.frame(51, SEQUENCE_CONTROL, "070000", told("R6", "Post 1: bit 2 of Sequence_Control is nobody's."))
    post.frame(52, SEQUENCE_CONTROL, "030f01", told("R6", "Post 1: nor is bit 11."))
    post.frame(53, SEQUENCE_CONTROL, "030703", told("R6", "Post 1: nor bit 17."))
    post.frame(54, SPCC_INPUTS, "0051523a3b013c3d", told("R6", "Post 1: nor bit 40 of ADM_CS_SPCC_Inputs."))
    post.frame(55, MCS_EXTRA, "0a04000000000000", told("R5:0", "Post 1: neither CE_State 10 nor ID_State 4 has a label."))
    post.frame(56, MCS_EXTRA, "0904000000000000", told("R5:8", "Post 1: ID_State 4 has none."))
    post.frame(57, CCS_EXTRA, extra_bytes(5, DUTY_5), told("R5:0", "Post 1: CP_State 5 has no label; there are 0, 3, 6, 9 and 12."))
    post.transfer(3, 1000)


def damaged(post):
    post.frame(51, BATTERY, "4c00280a50", told("R4", "Post 2: EV_Information_Battery without its last byte."))
    post.frame(52, OCPP, "e80300", told("R15", "Post 2: OCPP_Control with a byte more."))
    post.frame(53, CUI1_INPUTS, switch_bytes(0, 38, 44, 17, 17), told("R3", "Post 2: 6b200 as a standard frame."), form="s")
    post.record(54)
    post.idle(3)


def foreign(post):
    """Each of them by the pages of 000 on a post that has those of 001."""
    frames = ((SEQUENCE_CONTROL, sequence_bytes(allowed=1)), (OUTPUTS, output_bytes(1)), (BATTERY, battery_bytes(76, 40, 10, 80, 100)),
              (VOLTAGES, words(2500, 4500, 3850)), (CHARGE_LIMITS, words(50, 1500, 2, 60)), (DISCHARGE_LIMITS, words(0, 300, 0, 11)),
              (ENERGY, words(-5, 30, 46, signed=True)), (CUI1_INPUTS, switch_bytes(0, 38, 44, 17, 17)),
              (SECC_INPUTS, input_bytes(1, 41, 18, 19)), (SPCC_INPUTS, spcc_bytes(2, 41, 42, 18, 19, 20, 21)),
              (CCS_EXTRA, extra_bytes(CP_STATE_C, DUTY_5)), (MCS_EXTRA, mcs_bytes(CE_STATE_C, MATED)), (OCPP, words(1000)))
    for n, (identifier, payload) in enumerate(frames):
        post.frame(51 + n, identifier, payload, told("R29", f"Post 3, channel 12: {identifier}, which 001 has not."))
    post.frame(64, SEQUENCE, sequence_bytes(allowed=1), "# post 3: Sequence_Control of its own pages is 60012, and Extra_Information 6800e")
    post.frame(65, EXTRA, extra_bytes(CP_STATE_C, DUTY_5))
    post.idle(2)
    post.record()
