#!/usr/bin/env python3
"""Holds the C headers to the maker's documents and to the list of refusals: the place, factor, unit and sign of every signal, the number of every label, the
identifier and length of every message, the number of every refusal, the bit of every finding. A header in which two of them have changed places has to be
found."""
import re
import sys
from pathlib import Path

HERE = Path(__file__).resolve().parent
ROOT = HERE.parents[1]
# a message of the documents, in the order of the kinds, and what the headers call it where they shorten it
MESSAGES = {
    'Power_Modules_Status': None, 'DC_Power_Parameters': None, 'Advantics_Controller_Status': 'controller_status', 'New_Charge_Session': None, 'Charge_Status_Change': None,
    'DC_Power_Control': None, 'Charge_Session_Finished': None, 'Emergency_Stop': None, 'EV_ID_CCS_Part2_DIN': 'ev_id',
    'ChargeControl1': 'charge_control_1', 'ChargeState1': 'charge_state_1', 'PT1000State': 'pt1000_state',
}
# those of document 001, in the order of their kinds, which follow: the names of theirs begin with OLDER_, those of their signals with the message's too
OLDER = {
    **dict.fromkeys(['Power_Modules_Status', 'Power_Modules_Limits', 'Sequence_Control', 'ADM_CS_SECC_Outputs', 'New_Charge_Session', 'Insulation_Test', 'Precharge',
                     'Charge_Status_Change', 'Charging_Loop', 'Emergency_Stop', 'Charge_Session_Finished']),
    'Advantics_Controller_Status': 'controller_status', 'ADM_CO_CUI1_Inputs': None, 'ADM_CS_SECC_Inputs': None, 'EV_ID_CCS_Part2_DIN': 'ev_id',
    'ADM_CS_SPCC_Inputs': None, 'CCS_Extra_Information': None, 'MCS_Extra_Information': None,
}
# the rest of document 000, whose kinds follow those: the names of their signals begin with the message's
REST = dict.fromkeys(['Sequence_Control', 'ADM_CS_SECC_Outputs', 'EV_Information_Battery', 'EV_Information_Voltages', 'EV_Information_Charge_Limits',
                      'EV_Information_Discharge_Limits', 'EV_Information_Energy', 'ADM_CO_CUI1_Inputs', 'ADM_CS_SECC_Inputs', 'ADM_CS_SPCC_Inputs',
                      'CCS_Extra_Information', 'MCS_Extra_Information', 'OCPP_Control'])
# signals whose names would not say whose they are
SIGNALS = {
    ('Advantics_Controller_Status', 'State'): 'CONTROLLER_STATE', ('Charge_Session_Finished', 'State'): 'FINISHED_STATE', ('Emergency_Stop', 'Origin'): 'STOP_ORIGIN',
    **{('EV_ID_CCS_Part2_DIN', f'Byte{n}'): f'EV_ID_BYTE{n}' for n in range(6)},
}
# a unit of the documents, and what the headers call it
UNITS = {'Volts': 'V', 'Amps': 'A', 'kOhms': 'kOhm', 'kWh': 'kWh', 'kW': 'kW', '°C': '°C', '%': '%'}
# a special number of a probe, which has raw numbers beside it: no label
SPECIAL = ['TempSensorNotUsed']


def alike(name, words):
    return name.replace('_', '') == re.sub(r'\W|_', '', words).upper()


def document(*files):
    """Each message's identifier, length, and signals: name, factor, unit, offset, whether signed, labels."""
    messages = {}
    for file in files:
        for line in (HERE / file).read_text().splitlines():
            message, ident, size, signal, _, _, words, factor, offset, labels, unit = line.split(' ')
            pairs = [] if labels == '-' else [(n, int(v)) for n, v in (p.rsplit('=', 1) for p in labels.split(';')) if n not in SPECIAL]
            messages.setdefault(message, (int(ident, 16), int(size), []))[2].append((signal, factor, unit, int(offset), 'Signed' in words.split(','), sorted(pairs, key=lambda p: p[1])))
    return messages


def enum(text, tag):
    """The constants of an enum: name without the prefix, number, comment."""
    body = re.search(rf'^enum rokemaipu_{tag} \{{\n(.*?)^\}};$', text, re.S | re.M)
    return [] if not body else [(n, int(v), c or '') for n, v, c in re.findall(r'^ *ROKEMAIPU_(\w+) = (\d+),? *(?:/\* (.*?) \*/)?$', body.group(1), re.M)]


def held(header, pages, names, messages, before, first, whole=True):
    """The faults of some documents' messages, whose names begin with `before` and whose kinds with `first`, and how many signals and labels were compared. The
    names of the signals are whole where they begin with the message's."""
    said, seen = [], [0, 0]
    kinds = enum(header, 'kind')[first:][:len(names)]
    if len(kinds) != len(names) or len(messages) < len(names):
        said.append(f'{len(kinds)} kinds')
    for k, (message, short) in enumerate(names.items()):
        ident, size, signals = messages[message]
        tag = before + (short or message.lower())
        form = f'0x{ident:x}' if ident > 0x7ff else f'standard {ident}'
        if k < len(kinds) and kinds[k] != (tag.upper(), first + k, form):
            said.append(f'{message}: the kind is {kinds[k]}')
        if f'/* {message}: {"extended " if ident > 0x7ff else ""}{form}, {size} byte{"s"[:size > 1]} */\nenum rokemaipu_{tag} {{' not in pages:
            said.append(f'{message}: its identifier and length')
        places = enum(pages, tag)
        if len(places) != len(signals):
            said.append(f'{message}: {len(places)} places')
        like = ''
        for place, ((name, number, comment), (signal, factor, unit, offset, signed, labels)) in enumerate(zip(places, signals)):
            wanted = None if whole else SIGNALS.get((message, signal))
            if number != place or not (name == wanted if wanted else alike(name, f'{tag}_{signal}' if whole else signal)):
                said.append(f'{message}.{signal}: {name} = {number}')
            # `likewise` is the first comment of that factor
            like = comment if comment != 'likewise' and factor != '1' else like
            words = like if comment == 'likewise' else comment
            if (factor != '1') != words.startswith(f'{factor} ') or (offset != 0) != (f'plus {-offset}' in words) or signed != (', signed' in words):
                said.append(f'{message}.{signal}: {words!r}, where the document has {factor}, {offset}, {"signed" if signed else "unsigned"}')
            told = re.match(r'(?:[0-9.]+ )?(V|A|kOhm|kWh|kW|°C|%)(?![A-Za-z])', words)
            if (told[1] if told else None) != (None if unit == '-' else UNITS[unit]):
                said.append(f'{message}.{signal}: {words!r}, where the document has the unit {unit}')
            seen[0] += 1
            # an older signal with the labels of one above has its enum
            own = re.fullmatch(r'of rokemaipu_(\w+)', comment)
            own = own[1] if own and before else name.lower()
            if bool(labels) != (comment == f'of rokemaipu_{own}'):
                said.append(f'{message}.{signal}: {comment!r} and {len(labels)} labels')
            have = enum(pages, own) if labels else []
            if [v for _, v, _ in have] != [v for _, v in labels] or any(not n.startswith(own.upper() + '_') or not alike(n[len(own) + 1:], w) for (n, _, _), (w, _) in zip(have, labels)):
                said.append(f'{message}.{signal}: the labels are {[h[:2] for h in have]}, the document has {labels}')
            seen[1] += len(have)
    return said, seen


def faults(header, pages, refusals):
    said, seen = held(header, pages, MESSAGES, document('000.txt', '004.txt'), '', 0, whole=False)
    more, older = held(header, pages, OLDER, document('001.txt'), 'older_', len(MESSAGES))
    last, rest = held(header, pages, REST, document('000.txt'), '', len(MESSAGES) + len(OLDER))
    said += more + last
    kinds = len(enum(header, 'kind'))
    if kinds != len(MESSAGES) + len(OLDER) + len(REST) or f'#define ROKEMAIPU_KINDS {kinds} ' not in header:
        said.append(f'{kinds} kinds in all')
    wanted = sorted((int(n), w) for w, n in re.findall(r'^number_of \(?(\w+)(?: \w+\))? = (\d+)$', refusals, re.M))
    have = enum(header, 'refused')
    if len(have) != len(wanted) or any(v != n or not alike(name, f'R{n}{w}') for (name, v, _), (n, w) in zip(have, wanted)):
        said.append(f'the refusals are {[h[:2] for h in have]}, the list has {wanted}')
    have = enum(header, 'finding')
    if [v for _, v, _ in have] != [1 << k for k in range(12)] or any(not name.startswith(f'F{k}_') for k, (name, _, _) in enumerate(have, 1)):
        said.append(f'the findings are {[h[:2] for h in have]}')
    if [seen, older, rest] != [[61, 62], [78, 66], [67, 31]]:
        said.append(f'{seen}, {older} and {rest} signals and labels were compared, not 61 and 62, 78 and 66, and 67 and 31')
    return said


def swapped(text, first, second):
    if text.count(first) != 1 or text.count(second) != 1:
        sys.exit(f'header.py: {first!r} or {second!r} stands not once')
    return text.replace(first, '\0').replace(second, first).replace('\0', second)


header, pages = (ROOT / 'include/rokemaipu.h').read_text(), (ROOT / 'include/rokemaipu_pages.h').read_text()
refusals = (ROOT / 'crates/refusals/specs/Refusals.antt').read_text()
found = faults(header, pages, refusals)
for fault in found:
    print('headers:', fault, file=sys.stderr)
if found:
    sys.exit(f'headers: {len(found)} faults')
for first, second in (('ROKEMAIPU_POWER_MODULES_TEMPERATURE = 2', 'ROKEMAIPU_ENCLOSURE_TEMPERATURE = 3'), ('STATE_CLEAN_STOP', 'STATE_RUSHED_STOP'), ('PRECHARGE = 4', 'POWER_TRANSFER = 8'),
                      ('0x6b003, 7', '0x6b002, 1'), ('/* 2 kOhm', '/* 1 kOhm'), ('ROKEMAIPU_MAXIMUM_VOLTAGE = 0,           /* 0.1 V */', 'ROKEMAIPU_MAXIMUM_VOLTAGE = 0,           /* 0.1 A */'),
                      ('/* 0.1 °C, signed', '/* 0.1 %, signed'), ('OLDER_PRECHARGE_TARGET_VOLTAGE = 0', 'OLDER_PRECHARGE_MAXIMUM_CURRENT = 1'),
                      ('/* 2 kWh', '/* 2 kOhm plus'), ('ID_STATE_UNMATED', 'ID_STATE_MATED = '), ('OLDER_CCS_EXTRA_INFORMATION_CP_DUTY_CYCLE = 1', 'OLDER_CCS_EXTRA_INFORMATION_RESERVED = 2'),
                      ('EV_PRESENT_VOLTAGE = 2 ', 'EV_MAXIMUM_VOLTAGE = 1'), ('/* kW */\n};\n\n/* EV_Information_Discharge', '/* kWh */\n};\n\n/* EV_Information_Discharge'),
                      ('EV_TARGET_ENERGY_REQUEST = 1,  /* kWh, signed */', 'EV_TARGET_ENERGY_REQUEST = 1,  /* kWh */'), ('ROKEMAIPU_ENCLOSURE_TEMPERATURE = 3,     /* °C plus 40', 'ROKEMAIPU_ENCLOSURE_TEMPERATURE = 3,     /* A plus 40')):
    other = swapped(pages, first, second) if second in pages else pages.replace(first, second)
    if not faults(header, other, refusals):
        sys.exit(f'header.py: {first!r} and {second!r} in each other\'s place were not found')
for first, second in (('R4_TOO_SHORT', 'R15_TOO_LONG'), ('R9_NO_SUCH_POST = 9', 'R14_NOT_SET_UP = 14'), ('ROKEMAIPU_F7', 'ROKEMAIPU_F8'), ('ROKEMAIPU_EMERGENCY_STOP = 7', 'ROKEMAIPU_EV_ID = 8'),
                      ('ROKEMAIPU_OLDER_PRECHARGE = 18', 'ROKEMAIPU_OLDER_CHARGING_LOOP = 20'), ('ROKEMAIPU_PT1000_STATE = 11', 'ROKEMAIPU_OLDER_POWER_MODULES_STATUS = 12'),
                      ('ROKEMAIPU_CCS_EXTRA_INFORMATION = 40', 'ROKEMAIPU_OLDER_CCS_EXTRA_INFORMATION = 28')):
    if not faults(swapped(header, first, second), pages, refusals):
        sys.exit(f'header.py: {first!r} and {second!r} in each other\'s place were not found')
print('headers: the places of 206 signals and the numbers of 159 labels are the documents\', '
      f'{len(enum(header, "refused"))} refusals and {len(enum(header, "finding"))} findings by their numbers')
