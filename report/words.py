"""The numbers of an answer in words: the desk's own (`explain`), and of each finding the sentence of 01, or of 02 for F12."""
from typing import NamedTuple


class Rule(NamedTuple):
    name: str
    sentence: str
    paper: str = '01'


FINDINGS = {
    1: Rule('power modules silent for longer than W in this session',
            'any event, session open: time minus the later of the opening and the latest Power_Modules_Status in this session is above W.'),
    2: Rule('controller status older than 200 ms',
            'any event, once a controller status was accepted: time minus its latest is above 200 ms (001: within 200 ms).'),
    3: Rule('contactors closed with no session open',
            'DC_Power_Control: contactors Close, no session open.'),
    4: Rule('insulation test, precharge or power transfer with no session open',
            'DC_Power_Control: insulation test, precharge or power transfer, no session open.'),
    5: Rule('insulation test, precharge or power transfer without Allowed in this session',
            'the same functions, session open, and its latest Power_Modules_Status is none or Not_Allowed.'),
    6: Rule('lowering with a function other than standby or a setpoint not 0',
            'Lowering with a function other than standby, or with any DC_Power_Control signal in Volts or Amps not 0 (000).'),
    7: Rule('target voltage above the voltage limit',
            'DC_Power_Control, function not off: Target_Voltage above the voltage limit.'),
    8: Rule('current above the charge limit or below minus the discharge limit',
            'Power_Modules_Status, session open: current above the charge limit, or below minus the discharge limit.'),
    9: Rule('insulation under 100 Ohm per volt, or Invalid by a yes/no sensor, in precharge or power transfer',
            'Power_Modules_Status, session open whose latest DC_Power_Control is precharge or power transfer: under 100 Ohm per volt of the same '
            'message\'s voltage, that is raw insulation times 200 is below raw voltage.'),
    10: Rule('another protocol or plug than the session\'s first',
             'New_Charge_Session while open with another protocol or plug than the session\'s first.'),
    11: Rule('session finished with none open',
             'Charge_Session_Finished with none open.'),
    12: Rule('insulation test, precharge or power transfer after an Emergency_Stop in this session',
             'F12 is a DC_Power_Control with insulation test, precharge or power transfer in a session after an Emergency_Stop accepted in it', '02'),
}

# 02, Req 03, of F9 on a post with such a sensor
YES_NO = 'For a yes/no sensor F9\'s insulation test is raw 0 and nothing else'

# 02, Req 11, of a post with the pages of 001
FUNCTIONS = 'Insulation_Test, Precharge and Charging_Loop count as the three functions, the latest of them standing for DC_Power_Control'
LIMITS = 'Power_Modules_Limits sets the voltage and charge limits, a current of 0 or less meaning the default'
OLDER = {4: FUNCTIONS, 5: FUNCTIONS, 8: LIMITS, 9: FUNCTIONS, 12: FUNCTIONS}


def mended(number, set_up):
    """What 02 adds to a finding's sentence on a post with that set-up."""
    if number == 9 and set_up.yes_no:
        yield YES_NO
    if number in OLDER and set_up.older:
        yield OLDER[number]


REFUSALS = {
    1: 'channel above 31, or held by no post',
    2: 'time earlier than the post\'s latest accepted frame or tick',
    3: 'identifier not in the table, standard and extended ones told apart',
    4: 'shorter than the table\'s length',
    5: 'a label signal holds a number without a label',
    6: 'a bit that no signal covers is 1',
    15: 'longer than the table\'s length',
    25: 'the post\'s count of accepted frames and ticks is at its largest',
    29: 'identifier that only the other interface has',
}

# of a set-up, which ends the replay
SET_UPS = {
    9: 'post number above 15',
    10: 'channel above 31 at set-up',
    11: 'channel held by another post',
    12: 'a post limit outside its range',
}

MALFORMED = {
    16: 'a number in the log that is not in its shortest form, or has more than five groups or 32 bits',
    17: 'a channel above 31 in a log record',
    18: 'a standard identifier above 2,047 in a log record',
    19: 'an extended identifier above 29 bits in a log record',
    20: 'a length above 9 in a log record, or more than 8 payload bytes to be logged',
    21: 'a tick\'s length, 9, with an identifier part other than 0',
}
