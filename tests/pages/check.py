#!/usr/bin/env python3
"""check.py [FOLDER]: holds the tables of the crates to the maker's documents: every message and row of page_rows and page_charger (the code's) and of
page_table (the definitions'), every label of messages, and which field of a message's type each signal is, in reading and in writing (the definitions', to
which the code is proved equal).

000.txt, 004.txt and 001.txt were extracted from documents 000, 004 and 001 by extract.py. A table typed wrongly in src/ and specs/ alike is proved equal and is wrong: here
it fails.
"""
import re
import sys
from collections import namedtuple
from pathlib import Path

ROOT = Path(sys.argv[1]) if len(sys.argv) > 1 else Path(__file__).resolve().parents[2]
# some messages of a document, in the order of their kinds (01, "Frames and signals"; 02, Req 04, Req 11, Req 14): the form of their identifiers (ours), where
# their rows stand, and where the definitions of reading and of writing do
Document = namedtuple('Document', 'text, messages, extended, code, specs, read, write')
DOCUMENTS = (
    Document('000.txt', ['Power_Modules_Status', 'DC_Power_Parameters', 'Advantics_Controller_Status', 'New_Charge_Session', 'Charge_Status_Change',
                         'DC_Power_Control', 'Charge_Session_Finished', 'Emergency_Stop', 'EV_ID_CCS_Part2_DIN'],
             True, ['page_charger/src/lib.rt'], 'specs/Charger.antt', ['message_parts/specs/Watched.antt', 'message_charger/specs/Build.antt'],
             ['message_charger/specs/Take.antt']),
    Document('004.txt', ['ChargeControl1', 'ChargeState1', 'PT1000State'],
             False, ['page_rows/src/safety.rt'], 'specs/Safety.antt', ['message_safety/specs/Build.antt', 'message_probes/specs/Build.antt'],
             ['message_safety/specs/Take.antt', 'message_probes/specs/Take.antt']),
    Document('001.txt', ['Power_Modules_Status', 'Power_Modules_Limits', 'Sequence_Control', 'ADM_CS_SECC_Outputs', 'New_Charge_Session', 'Insulation_Test', 'Precharge',
                         'Charge_Status_Change', 'Charging_Loop', 'Emergency_Stop', 'Charge_Session_Finished', 'Advantics_Controller_Status', 'ADM_CO_CUI1_Inputs',
                         'ADM_CS_SECC_Inputs', 'EV_ID_CCS_Part2_DIN', 'ADM_CS_SPCC_Inputs', 'CCS_Extra_Information', 'MCS_Extra_Information'],
             True, ['page_rows/src/older.rt'], 'specs/Older.antt',
             ['message_inputs/specs/Build.antt', 'message_extra/specs/Build.antt', 'message_sequence/specs/Build.antt', 'older_power/specs/Build.antt'],
             ['message_inputs/specs/Take.antt', 'message_extra/specs/Take.antt', 'message_sequence/specs/Take.antt', 'older_power/specs/Take.antt']),
    Document('000.txt', ['Sequence_Control', 'ADM_CS_SECC_Outputs', 'EV_Information_Battery', 'EV_Information_Voltages', 'EV_Information_Charge_Limits',
                         'EV_Information_Discharge_Limits', 'EV_Information_Energy', 'ADM_CO_CUI1_Inputs', 'ADM_CS_SECC_Inputs', 'ADM_CS_SPCC_Inputs',
                         'CCS_Extra_Information', 'MCS_Extra_Information', 'OCPP_Control'],
             True, ['page_rows/src/vehicle.rt', 'page_rows/src/inputs.rt'], 'specs/Rest.antt',
             ['message_inputs/specs/Build.antt', 'message_extra/specs/Build.antt', 'message_sequence/specs/Build.antt', 'message_vehicle/specs/Build.antt'],
             ['message_inputs/specs/Take.antt', 'message_extra/specs/Take.antt', 'message_sequence/specs/Take.antt', 'message_vehicle/specs/Take.antt']),
)
# where those of 001 stand that it lays out as 000 does: the types that older_types takes from message_types
ALIKE = (['message_parts/specs/Watched.antt', 'message_charger/specs/Build.antt'], ['message_charger/specs/Take.antt'])
# 000 and 001 have messages of one name: a kind is a document's message
KINDS = [(d.text, m) for d in DOCUMENTS for m in d.messages]
CRATES = ROOT / 'crates'
TABLE = ROOT / 'crates/page_table'
# label type, and the names of its number and label functions
LABELS = {
    ('Power_Modules_Status', 'System_Enable'): 'enable',
    ('Advantics_Controller_Status', 'State'): 'state',
    ('New_Charge_Session', 'Communication_Protocol'): 'protocol',
    ('New_Charge_Session', 'Plug_and_pins'): 'plug',
    ('Charge_Status_Change', 'Vehicle_Ready_for_Charging'): 'status',
    ('DC_Power_Control', 'Power_Function'): 'function',
    ('DC_Power_Control', 'Setpoints_Mode'): 'mode',
    ('DC_Power_Control', 'Output_Contactors'): 'contactors',
    ('DC_Power_Control', 'Lower_Output_Voltage'): 'lowering',
    ('Charge_Session_Finished', 'State'): 'end',
    ('Emergency_Stop', 'Origin'): 'origin',
    ('ChargeState1', 'CS_CurrentCpState'): 'cp',
    ('ChargeState1', 'CS_CurrentPpState'): 'pp',
    ('Sequence_Control', 'Start_Charge_Authorisation'): 'permission',
    ('Sequence_Control', 'CHAdeMO_Start_Button'): 'button',
    ('Sequence_Control', 'CCS_Authorisation_Done'): 'step',
    ('Sequence_Control', 'CCS_Authorisation_Valid'): 'validity',
    ('Sequence_Control', 'Charge_Parameters_Done'): 'step',
    ('Sequence_Control', 'User_Stop_Button'): 'button',
    ('CCS_Extra_Information', 'CP_State'): 'pilot',
    ('MCS_Extra_Information', 'CE_State'): 'ce',
    ('MCS_Extra_Information', 'ID_State'): 'mating',
}
# a special number of a probe, which has raw numbers beside it: no label
SPECIAL = ['TempSensorNotUsed']
# names of the document that a name of the language cannot carry
NAMES = {
    'CCS_DIN_70121_2012_v2': 'CcsDin70121v2012',
    'CCS_ISO_15118_2010_v1': 'CcsIso15118v2010',
    'CCS_ISO_15118_2013_v2': 'CcsIso15118v2013',
    'CCS_ISO_15118_2022': 'CcsIso15118v2022',
    'CHAdeMO_v0.9': 'Chademo09',
    'CHAdeMO_v1.0-v1.1-v1.2': 'Chademo10',
    'CHAdeMO_v2.0': 'Chademo20',
    'NoCableDetected': 'NoCable',
    '13A': 'Amps13',
    '20A': 'Amps20',
    '32A': 'Amps32',
    '63/70A': 'Amps63',
    'Type1_Connected': 'Type1',
    'Type1_ConnectedButtonPressed': 'Type1Pressed',
}
# a message's type, and the field of each signal: the mapping is ours, since the document's names are longer
FIELDS = {
    'Power_Modules_Status': ('PowerModulesStatus', {'Present_Voltage': 'voltage', 'Present_Current': 'current', 'Power_Modules_Temperature': 'modules',
                                                    'Enclosure_Temperature': 'enclosure', 'System_Enable': 'enable', 'Insulation_Resistance': 'insulation'}),
    'DC_Power_Parameters': ('DcPowerParameters', {'Maximum_Voltage': 'voltage', 'Maximum_Charge_Current': 'charge', 'Maximum_Discharge_Current': 'discharge',
                                                  'Range_Target_Current': 'target'}),
    'Advantics_Controller_Status': ('ControllerStatus', {'State': 'state'}),
    'New_Charge_Session': ('NewChargeSession', {'Communication_Protocol': 'protocol', 'Plug_and_pins': 'plug'}),
    'Charge_Status_Change': ('ChargeStatusChange', {'Vehicle_Ready_for_Charging': 'status'}),
    'DC_Power_Control': ('DcPowerControl', {'Target_Voltage': 'target', 'Current_Range_Max': 'max', 'Current_Range_Min': 'min', 'Power_Function': 'function',
                                            'Reserved': 'reserved', 'Setpoints_Mode': 'mode', 'Output_Contactors': 'contactors', 'Lower_Output_Voltage': 'lowering'}),
    'Charge_Session_Finished': ('ChargeSessionFinished', {'State': 'state'}),
    'Emergency_Stop': ('EmergencyStop', {'Origin': 'origin'}),
    'EV_ID_CCS_Part2_DIN': ('EvId', {f'Byte{n}': f'byte{n}' for n in range(6)}),
    'ChargeControl1': ('ChargeControl1', {'CC_TargetDutyCycle': 'duty', 'CC_PWM_Active': 'pwm', 'CC_Contactor1State': 'contactor1', 'CC_Contactor2State': 'contactor2'}),
    'ChargeState1': ('ChargeState1', {'CS_CurrentDutyCycle': 'duty', 'CS_PWM_Active': 'pwm', 'CS_CurrentCpState': 'cp', 'CS_CpShortCircuit': 'short', 'CS_DiodeFault': 'diode',
                                      'CS_CurrentPpState': 'pp', 'CS_Contactor1State': 'contactor1', 'CS_Contactor2State': 'contactor2', 'CS_Contactor1Error': 'error1',
                                      'CS_Contactor2Error': 'error2', 'CS_Estop1ChargingAbort': 'estop1', 'CS_Estop2ChargingAbort': 'estop2',
                                      'CS_Estop3ChargingAbort': 'estop3', 'CS_ImdRcmChargingAbort': 'imdabort', 'CS_ImdRcmTestFailure': 'imdfailure'}),
    'PT1000State': ('Pt1000State', {f'PT{n}_{word}': f'{field}{n}' for n in range(1, 5)
                                    for word, field in (('Temperature', 'temperature'), ('ChargingStopped', 'stopped'), ('SelftestFailed', 'failed'))}),
    'Sequence_Control': ('SequenceControl', {'Start_Charge_Authorisation': 'authorisation', 'CHAdeMO_Start_Button': 'chademo', 'CCS_Authorisation_Done': 'done',
                                             'CCS_Authorisation_Valid': 'valid', 'Charge_Parameters_Done': 'parameters', 'User_Stop_Button': 'stop'}),
    'ADM_CS_SECC_Outputs': ('SeccOutputs', {**{f'Digital_Output{n}': f'output{n}' for n in range(1, 5)}, 'Reserved': 'reserved'}),
    'ADM_CO_CUI1_Inputs': ('CuiInputs', {**{f'SWITCH{n}': f'switch{n}' for n in range(6)}, 'Reserved': 'reserved', 'Colibri_Temperature': 'colibri',
                                         'CPU_Temperature': 'cpu', 'Pistol_PTC1': 'pistol1', 'Pistol_PTC2': 'pistol2'}),
    'ADM_CS_SECC_Inputs': ('SeccInputs', {**{f'Digital_Input{n}': f'input{n}' for n in range(1, 5)}, 'Reserved': 'reserved', 'CPU_Temperature': 'cpu',
                                          'Pistol_PTC1': 'pistol1', 'Pistol_PTC2': 'pistol2'}),
    'ADM_CS_SPCC_Inputs': ('SpccInputs', {**{f'Digital_Input{n}': f'input{n}' for n in range(1, 5)}, 'Reserved': 'reserved', 'CPU_Temperature0': 'cpu0',
                                          'CPU_Temperature1': 'cpu1', 'PT1K_A': 'pt1ka', 'PT1K_B': 'pt1kb', 'PT1KS_C': 'pt1ksc', 'PT1KS_D': 'pt1ksd'}),
    'CCS_Extra_Information': ('CcsExtraInformation', {'CP_State': 'state', 'CP_Duty_Cycle': 'duty', 'Reserved': 'reserved'}),
    'MCS_Extra_Information': ('McsExtraInformation', {'CE_State': 'ce', 'ID_State': 'id', 'Reserved': 'reserved'}),
    'EV_Information_Battery': ('EvInformationBattery', {'Battery_Capacity': 'capacity', **{f'{word}_State_of_Charge': word.lower()
                                                                                         for word in ('Present', 'Minimum', 'Target', 'Maximum')}}),
    'EV_Information_Voltages': ('EvInformationVoltages', {f'EV_{word}_Voltage': word.lower() for word in ('Minimum', 'Maximum', 'Present')}),
    **{f'EV_Information_{way}_Limits': ('EvInformationLimits', {f'EV_{end}_{way}_{word}': end[:3].lower() + word.lower()
                                                                       for end in ('Minimum', 'Maximum') for word in ('Current', 'Power')})
       for way in ('Charge', 'Discharge')},
    'EV_Information_Energy': ('EvInformationEnergy', {f'EV_{word}_Energy_Request': word.lower() for word in ('Minimum', 'Target', 'Maximum')}),
    'OCPP_Control': ('OcppControl', {'Dynamic_Target_Current': 'target'}),
}
# of 001, where it has other signals than 000's message of that name
OLDER_FIELDS = {
    'Power_Modules_Limits': ('PowerModulesLimits', {'Maximum_Voltage': 'voltage', 'Maximum_Current': 'current', 'Reserved': 'reserved'}),
    'New_Charge_Session': ('NewChargeSession', {'Communication_Protocol': 'protocol', 'Plug_and_pins': 'plug', 'EV_Maximum_Voltage': 'voltage',
                                                'EV_Maximum_Current': 'current', 'Battery_Capacity': 'capacity', 'State_of_Charge': 'charge'}),
    'Insulation_Test': ('InsulationTest', {'Test_Voltage': 'voltage'}),
    'Precharge': ('PrechargeTarget', {'Target_Voltage': 'voltage', 'Maximum_Current': 'current'}),
    'Charging_Loop': ('ChargingLoop', {'Target_Voltage': 'voltage', 'Target_Current': 'current', 'State_of_Charge': 'charge'}),
}
faults = []


def fault(text):
    faults.append(text)
    print('pages:', text, file=sys.stderr)


def lowest(big, size, start, width):
    """The signal's lowest bit in the payload number: the last bit of the way from the highest down, and its place where byte 0 is highest."""
    if not big:
        return start
    for _ in range(width - 1):
        start += 15 if start % 8 == 0 else -1
    return 8 * (size - 1 - start // 8) + start % 8


def paper_signals(document):
    """Each signal of the document's messages that are built: its names, its message's and its own row, its labels, and the document's words for its type."""
    signals = []
    for line in (Path(__file__).parent / document.text).read_text().splitlines():
        message, ident, size, signal, start, width, words, _, _, labels, _ = line.split(' ')
        if message not in document.messages:
            continue
        words = words.split(',')
        pairs = [] if labels == '-' else [(n, int(v)) for n, v in (p.rsplit('=', 1) for p in labels.split(';')) if n not in SPECIAL]
        big, size, start, width = 'Big_Endian' in words, int(size), int(start), int(width)
        page = (int(ident, 16), document.extended, size, big)
        row = (KINDS.index((document.text, message)), start, width, lowest(big, size, start, width), 'Signed' in words, sum(1 << v for _, v in pairs))
        signals.append((message, signal, page, row, sorted(pairs, key=lambda p: p[1]), words))
    return sorted(signals, key=lambda s: s[3][0])


def number(text):
    return {'true': True, 'false': False}[text] if text in ('true', 'false') else int(text, 0)


def numbers(text):
    return tuple(number(word) for word in re.split(r'[ ,]+', text.strip()))


def alike(name, words):
    """A constant's name, or the word behind a row, is the document's."""
    return name.replace('_', '').upper() == words.replace('_', '').upper()


def constants(text, type_name):
    """Each constant of the type: its name and what it holds, in order."""
    return [(name, numbers(held)) for name, held in re.findall(rf'^(?:pub )?const (\w+): {type_name} = {type_name}\(([^)]*)\);$', text, re.M)]


def array(text, name, type_name):
    """The names that a constant array lists."""
    body = re.search(rf'^(?:pub )?const {name}: \[{type_name}; \d+\] = \[(.*?)\];$', text, re.S | re.M).group(1)
    return re.findall(r'^\s*(\w+),$', body, re.M)


def held(place, have, wanted):
    if len(have) != len(wanted):
        fault(f'{place}: {len(have)} entries, the documents have {len(wanted)}')
    for k, (h, w) in enumerate(zip(have, wanted)):
        if h != w:
            fault(f'{place}: entry {k} is {h}, the document says {w}')


papers = [paper_signals(document) for document in DOCUMENTS]

# ---- the messages: identifier, form, bytes, byte order, place of the first row
pages = {}
for k, (kind, page) in enumerate(((document.text, s[0]), s[2]) for document, signals in zip(DOCUMENTS, papers) for s in signals):
    if pages.setdefault(kind, (page, k))[0] != page:
        fault(f'{kind}: its signals disagree on the message')
wanted = [(*pages[m][0], pages[m][1]) for m in KINDS]
code = (CRATES / 'page_rows/src/contents.rt').read_text()
specs = (TABLE / 'specs/Messages.antt').read_text()
listed = constants(code, 'Message')[:-1]
held('src/contents.rt', [page for _, page in listed], wanted)
names = [name for name, _ in listed]
if names != [name for some in ('MESSAGES', 'OLDER', 'REST') for name in array(code, some, 'Message')]:
    fault('src/contents.rt: the constants and the arrays do not list the same names in the same order')
said = re.findall(r'^\s*(?:∷ )?\(([^)]*)\)  -- (\w+)$', specs, re.M)
held('specs/Messages.antt', [numbers(page) for page, _ in said], wanted)
for place, have in (('src/contents.rt', names), ('specs/Messages.antt', [name for _, name in said])):
    for name, (document, message) in zip(have, KINDS):
        if not alike(name.removeprefix('OLD_') if document == '001.txt' else name, message):
            fault(f'{place}: {name} stands where the document has {message}')

# ---- the rows, and the labels
rows = seen = 0
labels = (ROOT / 'crates/message_types/specs/Labels.antt').read_text()
for document, signals in zip(DOCUMENTS, papers):
    code = '\n'.join((CRATES / file).read_text() for file in document.code)
    place = ', '.join(document.code)
    specs = (TABLE / document.specs).read_text()
    listed = constants(code, 'Line')
    if 'LINES' in code:
        names = [name for name, _ in listed]
        if names != array(code, 'LINES', 'Line'):
            fault(f'{place}: the constants and the arrays do not list the same names in the same order')
    else:
        # a row in each arm, at its place in the table, or the name of its constant
        named = dict(listed)
        arms = re.findall(r'^\s*(\d+) => (?:Line\(([^)]*)\)|([A-Z0-9_]+)), // (\w+)$', code, re.M)
        held(f'{place}, the places', [int(at) for at, *_ in arms], list(range(rows, rows + len(signals))))
        listed = [(name, named.pop(constant) if constant else numbers(row)) for _, row, constant, name in arms]
        names = [name for name, _ in listed]
        for constant in named:
            fault(f'{place}: {constant} stands at no place of the table')
    held(place, [row for _, row in listed], [row for _, _, _, row, *_ in signals])
    # in specs/ the lowest bit is computed
    said = re.findall(r'^\s*(?:∷ )?line((?: \w+)+)  -- (\w+)$', specs, re.M)
    held(document.specs, [numbers(row) for row, _ in said], [row[:3] + row[4:] for _, _, _, row, *_ in signals])
    for where, have in ((place, names), (document.specs, [name for _, name in said])):
        for name, (message, signal, *_) in zip(have, signals):
            if not alike(name, signal) and not name.endswith('_' + signal.upper()):
                fault(f'{where}: {name} stands where the document has {message}.{signal}')

    for message, signal, _, _, pairs, words in signals:
        # 004 has no word for a label set
        if document.text != '004.txt' and ('Label_set' in words) != bool(pairs):
            fault(f'{message}.{signal}: {words} with {len(pairs)} labels')
        if not pairs:
            continue
        name = LABELS[message, signal]
        have = [(v, int(n)) for v, n in re.findall(rf'^{name}_number {name}\.(\w+) = (\d+)$', labels, re.M)]
        wanted = [(NAMES.get(n, n.replace('_', '')), v) for n, v in pairs]
        if [(a.lower(), b) for a, b in have] != [(a.lower(), b) for a, b in wanted]:
            fault(f'{message}.{signal}: the labels are {have}, the document says {wanted}')
        seen += len(have)
    rows += len(signals)

# ---- the fields: a signal's place in its message is the number that its field is read from, and its place among the numbers that are written
def defined(files, sort):
    """The text of the one definition of that type."""
    text = '\n'.join((ROOT / 'crates' / f).read_text() for f in files)
    found = re.findall(rf'^abbrev pub (\w+) : {sort}\n((?:\1 .*|    .*|\n(?=    ))(?:\n(?:    .*))*)', text, re.M)
    if len(found) != 1:
        fault(f'{sort}: {len(found)} definitions')
        return ''
    return found[0][1]


taken = re.findall(r'\w+', ' '.join(re.findall(r'^pub use message_types::\{([^}]*)\};', (CRATES / 'older_types/src/lib.rt').read_text(), re.M)))
fields = 0
for document, signals in zip(DOCUMENTS, papers):
    for message in document.messages:
        sort, named = FIELDS[message] if document.text != '001.txt' else OLDER_FIELDS.get(message) or FIELDS[message]
        wanted = [named[signal] for m, signal, *_ in signals if m == message]
        reading, writing = ALIKE if document.text == '001.txt' and sort in taken else (document.read, document.write)
        read = {int(k): field for field, k in re.findall(r'(\w+) = [^;={}]*\(f (\d+)\)', defined(reading, rf'\(ℕ → ℤ\) → {sort}'))}
        held(f'{document.text} {sort}, as it is read', [read.get(k) for k in range(len(wanted))], wanted)
        held(f'{document.text} {sort}, as it is written', re.findall(r'\bm\.(\w+)', defined(writing, rf'{sort} → List ℤ')), wanted)
        fields += len(wanted)
if fields != rows:
    fault(f'{fields} fields were compared, not {rows}')
if (len(KINDS), rows, seen) != (43, 206, 159):
    fault(f'{len(KINDS)} messages, {rows} signals and {seen} labels were compared, not 43, 206 and 159')

if faults:
    sys.exit(f'pages: {len(faults)} faults')
print(f'pages: {len(KINDS)} messages, {rows} signals with their fields and {seen} labels are those of the documents')
