"""Identifiers, label numbers and payloads of the maker's pages (000, behind it 004, and 001)."""

import struct

# Numbers of 000's label tables.
WAITING, NEGOTIATING, FULL_INFO, INSULATING, PRECHARGING, WAITING_FOR_CHARGE, CHARGING, ENDING, WELDING, CLOSING, \
    AUTHORISING = range(1, 12)
OFF, STANDBY, INSULATION_TEST, PRECHARGE, POWER_TRANSFER = 0, 1, 2, 4, 8
TARGET_MODE, RANGE_MODE = 0, 1
OPEN, CLOSE = 0, 1
CLEAN_STOP, RUSHED_STOP = 0, 1
STOP_BY_EVSE, STOP_BY_PEV = 1, 3
VALID, INVALID = 255, 0  # of an insulation sensor that only gives a boolean value
ISO_2013, CHADEMO_2 = 2, 5
DC_EXTENDED, CHADEMO_PLUG, DC_CORE = 1, 2, 0

PMS, PARAMETERS, STATUS, NEW_SESSION, CHANGE, CONTROL, FINISHED, STOP, EV_ID = (
    "63000", "63001", "6b000", "6b001", "6b002", "6b003", "6b004", "6b005", "6b105")


SEQUENCE_CONTROL, OUTPUTS, BATTERY, VOLTAGES, CHARGE_LIMITS, DISCHARGE_LIMITS, ENERGY, CUI1_INPUTS, SECC_INPUTS, \
    SPCC_INPUTS, CCS_EXTRA, MCS_EXTRA, OCPP = (
        "63002", "63201", "6b100", "6b101", "6b102", "6b103", "6b104", "6b200", "6b201", "6b202", "6b203", "6b204", "6b300")
DUTY_5, CP_STATE_C = 50, 6
CE_STATE_C, MATED = 6, 1


def byte(number):
    return f"{number:02x}"


def status_bytes(volt, amps, enable, insulation, modules=34, enclosure=27):
    """Power_Modules_Status: tenths, degrees, and the raw insulation of 2 kOhm each."""
    return struct.pack("<HhBBBB", volt, amps, modules + 40, enclosure + 40, enable, insulation).hex()


def control_bytes(function, target=0, most=0, least=0, mode=TARGET_MODE, contactors=OPEN, lowering=0):
    last = function | mode << 5 | contactors << 6 | lowering << 7
    return (struct.pack("<Hhh", target, most, least) + bytes([last])).hex()


def parameter_bytes(volt=0, charge=0, discharge=0, target=0):
    return struct.pack("<HHHh", volt, charge, discharge, target).hex()


def sequence_bytes(allowed=0, start=0, done=0, valid=0, parameters=0, stop=0):
    """Sequence_Control: a byte for before a session, one for the negotiation, one for the power stages."""
    return bytes([flags(allowed, start), flags(done, valid, parameters), stop]).hex()


def output_bytes(outputs, reserved=0):
    """ADM_CS_SECC_Outputs: four bits and sixty."""
    return struct.pack("<Q", outputs | reserved << 4).hex()


def battery_bytes(capacity, present, least, target, most):
    """EV_Information_Battery: kWh and percent."""
    return struct.pack("<HBBBB", capacity, present, least, target, most).hex()


def words(*numbers, signed=False):
    """EV_Information of voltages, limits and energies: 16 bits each."""
    return struct.pack(f"<{len(numbers)}{'h' if signed else 'H'}", *numbers).hex()


def input_bytes(inputs, *celsius):
    """ADM_CS_SECC_Inputs: four bits, and the temperatures of the processor and of the pistol's two sensors."""
    return (bytes([inputs, 0, 0, 0, 0]) + bytes(degrees + 40 for degrees in celsius)).hex()


def spcc_bytes(inputs, *celsius):
    """ADM_CS_SPCC_Inputs: four bits, four temperatures, a byte that no signal covers, and two temperatures more."""
    degrees = bytes(degrees + 40 for degrees in celsius)
    return (bytes([inputs]) + degrees[:4] + bytes(1) + degrees[4:]).hex()


def switch_bytes(switches, *celsius):
    """ADM_CO_CUI1_Inputs: six bits and twenty-six, and four temperatures."""
    return (struct.pack("<I", switches) + bytes(degrees + 40 for degrees in celsius)).hex()


def extra_bytes(state, duty):
    return struct.pack("<BH5x", state, duty).hex()


def mcs_bytes(state, mated):
    return struct.pack("<BB6x", state, mated).hex()


# 004: standard identifiers, byte 0 highest.
CHARGE_CONTROL, CHARGE_STATE, PROBES = "6", "7", "8"
CP_A, CP_B, CP_C = 1, 2, 3
NO_CABLE, CABLE_32A = 0, 3
NOT_USED = 0x1fff


def flags(*bits):
    return sum(bit << place for place, bit in enumerate(bits))


def safety_control_bytes(duty, active, first=0, second=0):
    return struct.pack(">HB5x", active << 15 | duty, flags(first, second)).hex()


def safety_state_bytes(duty, active, pilot, cable, contactors):
    """`contactors` are the two contactors and their errors; no fault of the pilot, and no stop."""
    return struct.pack(">HBBB3x", active << 15 | duty, pilot, cable, flags(*contactors)).hex()


def probe_bytes(*probes):
    """Four times tenths of a degree, whether that probe stops the charge, and whether its self-test failed."""
    words = ((tenths & 0x3fff) << 2 | flags(stopped, failed) for tenths, stopped, failed in probes)
    return struct.pack(">4H", *words).hex()


# 001: label numbers are those of 000.
OLDER_PMS, LIMITS, SEQUENCE, OLDER_NEW_SESSION, TEST_LOOP, PRECHARGE_LOOP, OLDER_CHANGE, CHARGING_LOOP, OLDER_STOP, \
    OLDER_FINISHED, OLDER_STATUS, INPUTS, OLDER_EV_ID, EXTRA = (
        "60010", "60011", "60012", "68001", "68002", "68003", "68004", "68005", "68006", "68007", "68009", "6800b",
        "6800c", "6800e")


def older_opening_bytes(protocol, plug, volt, amps, capacity, charged):
    """New_Charge_Session: tenths, kWh of 2 each, percent."""
    return struct.pack("<BBHHBB", protocol, plug, volt, amps, capacity // 2, charged).hex()


def limit_bytes(volt=0, amps=0):
    return struct.pack("<HhI", volt, amps, 0).hex()
