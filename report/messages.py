"""Frames in words: the names of the pages' messages (000, 001, 004), and what accepted ones of those say that findings and sessions are about."""
import struct
from typing import NamedTuple, Optional

EXTENDED = {
    0x63000: 'Power_Modules_Status', 0x63001: 'DC_Power_Parameters', 0x63002: 'Sequence_Control', 0x63201: 'ADM_CS_SECC_Outputs',
    0x6b000: 'Advantics_Controller_Status', 0x6b001: 'New_Charge_Session', 0x6b002: 'Charge_Status_Change', 0x6b003: 'DC_Power_Control',
    0x6b004: 'Charge_Session_Finished', 0x6b005: 'Emergency_Stop',
    0x6b100: 'EV_Information_Battery', 0x6b101: 'EV_Information_Voltages', 0x6b102: 'EV_Information_Charge_Limits',
    0x6b103: 'EV_Information_Discharge_Limits', 0x6b104: 'EV_Information_Energy', 0x6b105: 'EV_ID_CCS_Part2_DIN',
    0x6b200: 'ADM_CO_CUI1_Inputs', 0x6b201: 'ADM_CS_SECC_Inputs', 0x6b202: 'ADM_CS_SPCC_Inputs', 0x6b203: 'CCS_Extra_Information',
    0x6b204: 'MCS_Extra_Information', 0x6b300: 'OCPP_Control',
}
# 001, which shares no identifier with 000
OLDER = {
    0x60010: 'Power_Modules_Status', 0x60011: 'Power_Modules_Limits', 0x60012: 'Sequence_Control', 0x60013: 'ADM_CS_SECC_Outputs',
    0x68001: 'New_Charge_Session', 0x68002: 'Insulation_Test', 0x68003: 'Precharge', 0x68004: 'Charge_Status_Change', 0x68005: 'Charging_Loop',
    0x68006: 'Emergency_Stop', 0x68007: 'Charge_Session_Finished', 0x68009: 'Advantics_Controller_Status', 0x6800a: 'ADM_CO_CUI1_Inputs',
    0x6800b: 'ADM_CS_SECC_Inputs', 0x6800c: 'EV_ID_CCS_Part2_DIN', 0x6800d: 'ADM_CS_SPCC_Inputs', 0x6800e: 'CCS_Extra_Information',
    0x6800f: 'MCS_Extra_Information',
}
STANDARD = {6: 'ChargeControl1', 7: 'ChargeState1', 8: 'PT1000State'}

PROTOCOLS = ('CCS_DIN_70121_2012_v2', 'CCS_ISO_15118_2010_v1', 'CCS_ISO_15118_2013_v2', 'CHAdeMO_v0.9', 'CHAdeMO_v1.0-v1.1-v1.2', 'CHAdeMO_v2.0', 'CCS_PWM',
             'CCS_ISO_15118_2022')
PLUGS = ('CCS_DC_Core', 'CCS_DC_Extended', 'CHAdeMO', 'CCS_AC', 'MCS')
STATES = ('Clean_Stop', 'Rushed_Stop')
ENABLES = ('Not_Allowed', 'Allowed')
FUNCTIONS = {0: 'Off', 1: 'Standby', 2: 'Insulation_Test', 4: 'Precharge', 8: 'Power_Transfer'}
CONTACTORS = ('Open', 'Close')


class Status(NamedTuple):
    """Power_Modules_Status of either document. Volts and amperes are whole tenths."""
    volt: int
    amps: int
    kohm: int
    enable: str

    def words(self):
        return f'{tenths(self.volt)} V, {tenths(self.amps)} A, {self.kohm} kOhm, {self.enable}'


class NewSession(NamedTuple):
    protocol: str
    plug: str

    def words(self):
        return f'{self.protocol}, {self.plug}'


class Control(NamedTuple):
    """DC_Power_Control. Volts and amperes are whole tenths."""
    target: int
    most: int
    least: int
    function: str
    contactors: str
    lowering: bool

    def words(self):
        lowering = ', Lowering' if self.lowering else ''
        return (f'{self.function}, target {tenths(self.target)} V, {tenths(self.least)} to {tenths(self.most)} A, '
                f'contactors {self.contactors}{lowering}')


class Function(NamedTuple):
    """Insulation_Test, Precharge or Charging_Loop (001): the function that it counts as (02, Req 11), and what it asks for in whole tenths."""
    function: str
    volt: int
    amps: Optional[int]

    def words(self):
        amps = '' if self.amps is None else f', {tenths(self.amps)} A'
        return f'{self.function}, {tenths(self.volt)} V{amps}'


class Finished(NamedTuple):
    state: str

    def words(self):
        return self.state


def status(payload):
    volt, amps, _, _, enable, insulation = struct.unpack('<HhBBBB', payload)
    return Status(volt, amps, 2 * insulation, ENABLES[enable])


def status_in(held):
    """Of length and payload, which both documents have alike."""
    if len(held) != 9 or held[7] > 1:
        raise ValueError(f'no {EXTENDED[0x63000]}: {held[1:].hex() or "no bytes"}')
    return status(held[1:])


def new_session(payload):
    protocol, plug = payload
    return NewSession(PROTOCOLS[protocol], PLUGS[plug])


def older_session(payload):
    protocol, plug, *_ = struct.unpack('<BBHHBB', payload)
    return NewSession(PROTOCOLS[protocol], PLUGS[plug])


def insulation_test(payload):
    volt, = struct.unpack('<H', payload)
    return Function('Insulation_Test', volt, None)


def precharge(payload):
    return Function('Precharge', *struct.unpack('<HH', payload))


def charging_loop(payload):
    volt, amps, _ = struct.unpack('<HhB', payload)
    return Function('Power_Transfer', volt, amps)


def control(payload):
    target, most, least, last = struct.unpack('<HhhB', payload)
    return Control(target, most, least, FUNCTIONS[last & 15], CONTACTORS[last >> 6 & 1], last >> 7 == 1)


def finished(payload):
    state, = payload
    return Finished(STATES[state])


READERS = {0x63000: status, 0x6b001: new_session, 0x6b003: control, 0x6b004: finished,
           0x60010: status, 0x68001: older_session, 0x68002: insulation_test, 0x68003: precharge, 0x68005: charging_loop, 0x68007: finished}
# their identifiers as parts of a log's records: doubled, and one more, in groups of seven bits
PARTS = {identifier: bytes((2 * identifier & 127 | 129, 2 * identifier >> 7 & 127 | 128, 2 * identifier >> 14)) for identifier in READERS}
STATUSES = frozenset(PARTS[identifier] for identifier, reader in READERS.items() if reader is status)
OTHERS = frozenset(PARTS.values()) - STATUSES


def read(record):
    """What an accepted frame says, if it is one of these; ValueError where it cannot have been accepted."""
    if not record.extended or record.identifier not in READERS:
        return None
    try:
        return READERS[record.identifier](record.payload)
    except (struct.error, LookupError, ValueError) as error:
        raise ValueError(f'no {name(record)}: {record.payload.hex() or "no bytes"}') from error


def name(record):
    if record.is_tick:
        return 'tick'
    known = (EXTENDED | OLDER if record.extended else STANDARD).get(record.identifier)
    return known or f'{"extended" if record.extended else "standard"} identifier {record.identifier:x}'


def accepted_words(record):
    message = read(record)
    return f'{name(record)}: {message.words()}' if message else name(record)


def tenths(number):
    return f'{number / 10:.1f}'
