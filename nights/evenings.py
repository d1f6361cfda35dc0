"""The nights: what happens, and what is said of it."""

from coming_round import coming_round
from older import older
from pages import *
from safety import safety
from says import told
from sensor import sensor
from sixteen import moved, sixteen
from stop import stop
from traffic import Night, Post
from vehicle import vehicle


def clean():
    night = Night("clean", "A clean CCS session on post 0, channel 0. Post 1 on channel 1 stands idle beside it.",
                  "No step of this night has a finding, and none is refused.")
    post = Post(night, 0, 0, 1000)
    post.set_up()
    beside = Post(night, 1, 1, 1000, phase=3)
    beside.set_up(volt=9200, charge=3000, discharge=0, silence=1000)
    post.idle(6)
    post.plug_in()
    post.record()
    post.insulation_test()
    post.precharge()
    post.record()
    post.start_charge()
    post.say("post 0: power transfer")
    post.ramp(1250)
    post.transfer(28, 1250)
    post.record()
    post.say("post 0: the vehicle asks for less")
    post.ramp(1000)
    post.say("post 0: the power modules take their limit down to these 100 A; at the limit itself nothing is found")
    post.frame(1, PARAMETERS, parameter_bytes(charge=1000))
    post.transfer(12, 1000)
    post.end_charge()
    post.record()
    post.close()
    post.record()
    post.idle(6)
    while beside.time < post.time:
        beside.cycle(WAITING, tick=(beside.time // 100) % 5 == 0)
    beside.record()
    return night


def march():
    night = Night("march",
                  "The March night. Two posts; the second was wired to the first one's channel on paper.",
                  "The set-up says so (11), and with the posts told apart by channel the low insulation on the live",
                  "cable is found on the post that has it, and on that one only.")
    left = Post(night, 0, 4, 1000)
    right = Post(night, 1, 5, 1000, phase=4)
    left.set_up()
    night.at(960, "setup 1 4 5000 2000 500 500",
             told("R11", "The fitter's sheet has channel 4 for post 1 as well; post 0 holds it."))
    night.at(961, "record 0")
    night.at(962, "record 1", told("R14", "The refused set-up set up nothing."))
    for n in range(3):
        right.frame(0, STATUS, byte(WAITING),
                    told("R1", f"Post 1's controller speaks on channel 5 ({n + 1} of 3), which nobody holds yet."))
        right.time += 100
    right.time += 100
    right.set_up(comments=("# the sheet is put right: post 1 on channel 5",))
    night.at(right.time - 49, "record 1")
    night.at(right.time - 48, "refused", "# the three frames; neither the refused set-up nor the refused look-up counts")
    left.idle(4)
    left.plug_in(vehicle="00a1b2c3d4e5")
    right.idle(2)
    right.plug_in(vehicle="00ffee112233")
    left.insulation_test()
    left.precharge(battery=3600)
    left.start_charge(battery=3600)
    right.insulation_test()
    right.precharge(battery=4000)
    right.start_charge(battery=4000)
    left.say("post 0: power transfer")
    left.ramp(1000)
    left.transfer(40, 1000)
    right.say("post 1: power transfer")
    right.ramp(1500)
    right.transfer(6, 1500)
    right.say("post 1: the cable gets wet; 84 kOhm at 403 V is still enough")
    right.volt = 4030
    right.insulation = 42
    right.transfer(2, 1500)
    right.insulation = 21
    right.say("post 1: 42 kOhm at 403 V still is; 40 kOhm at 400.0 V is just enough")
    right.transfer(1, 1500)
    right.volt, right.insulation = 4000, 20
    right.cycle(CHARGING, modules=True, control=right.wish(1500))
    right.volt = 4001
    right.cycle(CHARGING, modules=True, control=right.wish(1500),
                notes={"modules": told("F9", "Post 1, channel 5: 40 kOhm at 400.1 V, one tenth of a volt too many.")})
    right.record(-1)
    night.at(right.time, "record 0", "# post 0 charges on with its own 510 kOhm; nothing was booked to it")
    right.insulation = 6
    for commanded in ({}, {"control": told("F12", "Post 1, channel 5: the transfer is commanded once more, behind the stop.")}):
        right.frame(50, STOP, byte(STOP_BY_EVSE))
        right.cycle(CHARGING, modules=True, control=right.wish(0),
                    notes={"modules": told("F9", "Post 1, channel 5: 12 kOhm at 400 V while the current is cut; "
                                                 "the transfer is still commanded."), **commanded})
        right.amps = max(0, right.amps - 900)
    right.say("post 1: the controller opens the contactors; in standby the low reading is no finding any more",
              "(the first status below still follows a power transfer)")
    right.frame(50, STOP, byte(STOP_BY_EVSE))
    right.cycle(ENDING, modules=True, control=dict(function=STANDBY),
                notes={"modules": told("F9", "Post 1, channel 5: the last status before the standby command arrives.")})
    for part in (6, 3, 1):
        right.volt = 4000 * part // 10
        right.frame(50, STOP, byte(STOP_BY_EVSE))
        right.cycle(ENDING, modules=True, control=dict(function=STANDBY, lowering=1))
    right.close(RUSHED_STOP)
    right.record()
    right.idle(5)
    left.end_charge()
    left.close()
    left.record()
    left.idle(3)
    while right.time < left.time:
        right.idle(1)
    return night


def faults():
    night = Night("faults",
                  "A night of faults. Post 0 on channel 12 has one session after the other, each with its own trouble;",
                  "post 1 on channel 13 charges and discharges under limits that change.")
    post = Post(night, 0, 12, 5000)
    other = Post(night, 1, 13, 5000, phase=5)
    post.set_up(silence=300)
    other.set_up(discharge=300, silence=1000)
    post.idle(3)
    # Before any session.
    post.cycle(WAITING, control=dict(function=STANDBY, contactors=CLOSE), notes={
        "control": told("F3", "Post 0: the contactors close with no car there.")})
    post.cycle(WAITING, control=dict(function=INSULATION_TEST, target=5000), notes={
        "control": told("F4", "Post 0: an insulation test with no car there.")})
    post.cycle(WAITING, control=dict(function=OFF))
    post.frame(5, FINISHED, byte(CLEAN_STOP),
               told("F11", "Post 0: the controller reports the end of a session that never began."))
    post.idle(2)

    # First session: the modules fall silent.
    post.plug_in()
    post.insulation_test()
    post.precharge()
    post.start_charge()
    post.ramp(1000)
    post.transfer(5, 1000)
    post.say("post 0: the power modules fall silent; W is 300 ms, counted from their latest status")
    for _ in range(2):
        post.cycle(CHARGING, control=post.wish(1000))
    post.cycle(CHARGING, control=post.wish(1000), tick=True, notes={
        "control": told("F1", "Post 0: 310 ms without a Power_Modules_Status, and more, until one came, that one "
                              "included.", events=11)})
    for _ in range(3):
        post.cycle(CHARGING, control=post.wish(1000))
    post.transfer(5, 1000)
    post.record()
    post.end_charge()
    post.close()
    post.idle(3)

    # Second session: not allowed yet; another plug; lowering under power.
    post.say("post 0: the next car")
    for _ in range(3):
        post.cycle(NEGOTIATING)
    testing = dict(function=INSULATION_TEST, target=5000, contactors=CLOSE)
    post.cycle(FULL_INFO, new=(ISO_2013, DC_EXTENDED), control=testing, notes={
        "control": told("F5", "Post 0: the insulation test starts before the modules spoke in this session; the "
                              "Allowed of the session before does not count.")})
    post.say("post 0: the modules sleep on while New_Charge_Session is repeated; no repeat starts the count again")
    for _ in range(3):
        post.cycle(FULL_INFO, new=(ISO_2013, DC_EXTENDED))
    post.enable = 0
    post.cycle(FULL_INFO, new=(ISO_2013, DC_EXTENDED), modules=True, notes={
        "status": told("F1", "Post 0: 390 ms after the opening and no Power_Modules_Status yet, until one came, that "
                             "one included.", events=3)})
    post.cycle(FULL_INFO, new=(ISO_2013, DC_CORE), modules=True, notes={
        "new": told("F10", "Post 0: the repeat names another plug than the first one did.")})
    post.cycle(FULL_INFO, new=(ISO_2013, DC_EXTENDED), modules=True, control=testing, notes={
        "control": told("F5", "Post 0: the insulation test is commanded while the modules say Not_Allowed.")})
    post.enable = 1
    post.cycle(FULL_INFO, new=(ISO_2013, DC_EXTENDED), modules=True)
    post.insulation_test()
    post.precharge(weak=told("F9", "Post 0: 20 kOhm at 308 V under precharge; 100 Ohm per volt would be 30.8."))
    post.start_charge()
    post.ramp(800)
    post.cycle(CHARGING, modules=True, control=dict(post.wish(800), lowering=1), notes={
        "control": told("F6", "Post 0: the voltage is to be lowered in the middle of a power transfer.")})
    post.transfer(5, 800)
    # The controller is late.
    post.say("post 0: the controller status stays away; 200 ms are allowed")
    post.cycle(CHARGING, status=False, modules=True, control=post.wish(800))
    post.cycle(CHARGING, status=False, modules=True, control=post.wish(800), notes={
        "modules": told("F2", "Post 0: 220 ms after the latest controller status, until a new one came, that one "
                              "included.", events=3)})
    post.cycle(CHARGING, modules=True, control=post.wish(800))
    post.transfer(4, 800)
    post.end_charge()
    post.close()
    post.record()
    post.idle(3)

    # Post 1: a bidirectional session under changing limits.
    other.idle(8)
    other.plug_in(protocol=CHADEMO_2, plug=CHADEMO_PLUG, vehicle=None)
    other.insulation_test()

    def span(most, least, target=4200):
        return dict(function=POWER_TRANSFER, target=target, most=most, least=least, mode=RANGE_MODE, contactors=CLOSE)

    other.say("post 1: power transfer in range mode, both ways")
    other.volt, other.amps = 3900, 0
    for amps in (300, 600, 900, 1200, 1500, 1500):
        other.amps = amps
        other.cycle(CHARGING, modules=True, control=span(1500, -300))
    other.say("post 1: its modules now allow 410 V, 120 A out and 20 A back")
    other.frame(1, PARAMETERS, parameter_bytes(4100, 1200, 200))
    other.cycle(CHARGING, modules=True, control=span(1500, -300), notes={
        "modules": told("F8", "Post 1: 150 A against the new 120 A."),
        "control": told("F7", "Post 1: 420 V asked for against the new 410 V.")})
    other.amps = 1201
    other.cycle(CHARGING, modules=True, control=span(1200, -200, 4101), notes={
        "modules": told("F8", "Post 1: 120.1 A, a tenth too many."),
        "control": told("F7", "Post 1: 410.1 V, a tenth too many.")})
    other.amps = 1200
    other.say("post 1: at the limits themselves nothing is found")
    for _ in range(3):
        other.cycle(CHARGING, modules=True, control=span(1200, -200, 4100))
    other.record()
    for amps in (600, 0, -100, -200, -200):
        other.amps = amps
        other.cycle(CHARGING, modules=True, control=span(1200, -200, 4100))
    other.amps = -201
    other.cycle(CHARGING, modules=True, control=span(1200, -200, 4100), notes={
        "modules": told("F8", "Post 1: 20.1 A back out of the car against the new 20 A.")})
    other.say("post 1: numbers above the defaults, and a 0, leave the defaults in force")
    other.frame(1, PARAMETERS, parameter_bytes(9000, 0, 9000))
    for amps in (-250, -300):
        other.amps = amps
        other.cycle(CHARGING, modules=True, control=span(2000, -300, 5000))
    other.amps = -301
    other.cycle(CHARGING, modules=True, control=span(2000, -300, 5001), notes={
        "modules": told("F8", "Post 1: 30.1 A back against the default of 30 A; the 900 A received do not raise it."),
        "control": told("F7", "Post 1: 500.1 V against the default of 500 V; the 900 V received do not raise it.")})
    for amps in (-100, 1000, 2000):
        other.amps = amps
        other.cycle(CHARGING, modules=True, control=span(2000, -300))
    other.record()
    other.amps = 0
    other.cycle(ENDING, modules=True, control=dict(function=STANDBY))
    other.close(CLEAN_STOP)
    while other.time < post.time:
        other.idle(1)
    return night


def damaged():
    night = Night("damaged",
                  "A night of damaged frames on channel 20 (post 2) and channel 21 (post 3): cut, over-long, with bad",
                  "labels, unknown, standard, out of time and on channels nobody holds. All are refused, and the sound",
                  "traffic in between goes on as if nothing had been.")
    post = Post(night, 2, 20, 2000)
    beside = Post(night, 3, 21, 2000, phase=6)
    post.set_up()
    beside.set_up(silence=1000)
    post.record(-49)
    sound = status_bytes(3900, 1000, 1, 255)

    def far(n):
        return post.time + 60_000 + n

    post.idle(3)
    post.frame(45, STATUS, "-", told("R4", "A controller status that lost its only byte."))
    post.frame(46, STATUS, "0e", told("R5:0", "Controller state 14; the pages end at 13."))
    post.frame(47, "6b106", "000000000000", told("R3", "EV_Information_Battery is 6b100; no page has 6b106."))
    post.idle(2)
    post.frame(45, NEW_SESSION, "02", told("R4", "A New_Charge_Session cut in half opens nothing."))
    post.frame(46, NEW_SESSION, "0801", told("R5:0", "Protocol 8 has no label; nothing is opened."))
    post.frame(47, NEW_SESSION, "0205", told("R5:8", "Plug 5 has no label; nothing is opened."))
    post.frame(48, NEW_SESSION, "0805", told("R5:0", "Neither protocol 8 nor plug 5 has a label; 02 names the "
                                             "\"lowest start first\"."))
    post.frame(48, NEW_SESSION, "080500", told("R15", "The same with a byte behind it; the length is judged before the "
                                               "labels."))
    post.frame(48, NEW_SESSION, "0201",
               told("R3", "As a standard frame; in that form the table has 6, 7 and 8 only."), form="s")
    post.record(49)
    post.plug_in()
    post.frame(45, FINISHED, "02", told("R5:0", "State 2 has no label; the session stays open."))
    post.frame(46, FINISHED, "0000", told("R15", "One byte too many; the session stays open."))
    post.frame(47, FINISHED, "00", told("R3", "As a standard frame it ends nothing."), form="s")
    post.record(48)
    post.insulation_test()
    post.frame(45, CONTROL, control_bytes(PRECHARGE, 3850)[:-2], told("R4", "A command without its last byte."))
    post.frame(46, CONTROL, "00000000000003", told("R5:48", "Power function 3 has no label."))
    post.frame(47, CONTROL, "0000000000000f", told("R5:48", "Power function 15 has no label."))
    post.precharge()
    post.frame(45, PMS, sound[:-2], told("R4", "A status of 7 bytes."))
    post.frame(46, PMS, sound + "00", told("R15", "A status of 9 bytes."))
    post.frame(47, PMS, sound + sound * 7, told("R15", "A status of 64 bytes."))
    post.frame(48, PMS, sound[:12] + "02" + sound[14:], told("R5:48", "System_Enable 2 has no label."))
    post.start_charge()
    post.ramp(1000)
    post.transfer(4, 1000)
    night.at(post.time + 45, f"frame 20 {far(0)} 63000 x {sound[:6]}",
             told("R4", "Three bytes with a time a minute ahead; the clock does not move."))
    night.at(post.time + 46, f"frame 20 {far(1)} 63003 x {sound}",
             told("R3", "An identifier three above Power_Modules_Status, again a minute ahead."))
    post.transfer(3, 1000)
    # The cycle before ended with the command at 30 ms.
    night.at(post.time - 20, f"frame 20 {post.time - 71} 63000 x {sound}",
             told("R2", "A status one millisecond before the command already accepted."))
    night.at(post.time - 19, f"tick 20 {post.time - 900}", told("R2", "A tick almost a second back."))
    night.at(post.time - 18, f"frame 20 0 63003 x {sound}",
             told("R2", "At time 0 and unknown as well; the lowest number is given."))
    night.at(post.time - 17, f"frame 20 {post.time - 70} 6b002 x 02",
             told("R5:0", "At the very time of the latest frame, which may repeat, but with a label that is none."))
    post.transfer(6, 1000)
    for n, (channel, why) in enumerate([(19, "Nobody holds channel 19."), (22, "Nobody holds channel 22."),
                                        (31, "Channel 31 could be held, but is not."), (32, "There is no channel 32."),
                                        (4294967295, "There is no such channel.")]):
        night.at(post.time + 45 + n, f"frame {channel} {post.time + 45 + n} 6b004 x 00", told("R1", why))
    night.at(post.time + 51, f"tick 19 {post.time + 51}", told("R1", "A tick on channel 19, which nobody holds."))
    post.transfer(6, 1000)
    for bit in (2, 3, 4, 9, 12, 18, 24, 28, 29, 31):
        post.frame(45, f"{0x63000 ^ 1 << bit:x}", sound,
                   told("R3", f"The identifier of Power_Modules_Status with bit {bit} turned over."))
        post.transfer(1, 1000)
    for bit, message in ((1, "Sequence_Control"), (15, "controller status")):
        post.frame(45, f"{0x63000 ^ 1 << bit:x}", sound,
                   told("R15", f"With bit {bit} turned over it is a {message}, but one of 8 bytes."))
        post.transfer(1, 1000)
    post.frame(45, PARAMETERS, "0100010001", told("R4", "Limits of almost nothing, but cut to 5 bytes: not in force."))
    post.transfer(4, 1000)
    post.record()
    post.frame(45, STOP, "02", told("R5:0", "Origin 2 has no label."))
    post.frame(46, STOP, "00", told("R5:0", "Origin 0 has no label."))
    post.frame(47, EV_ID, "0a1b2c3d4e", told("R4", "An EV ID that lost its last byte."))
    post.frame(48, CHANGE, "02", told("R5:0", "Neither stopped nor started."))
    post.frame(49, "ffffffff", "-", told("R3", "All bits of the identifier set, and no payload."))
    post.transfer(3, 1000)
    post.end_charge()
    post.close()
    post.record()
    post.idle(4)
    n = 0
    while beside.time < post.time:
        n += 1
        if n % 25 == 0:
            beside.frame(45, STATUS, "0101", told("R15", "Post 3: an idle controller's status with a byte too many."))
        beside.cycle(WAITING, tick=n % 5 == 0)
    beside.record()
    night.at(post.time + 10, "record 16", told("R9", "A post number misread from the sheet."))
    night.at(post.time + 11, "refused", "# the night's damaged frames and ticks; the look-up of a post 16 does not count")
    return night


NIGHTS = (clean, march, faults, sensor, damaged, safety, coming_round, older, sixteen, moved, stop, vehicle)
