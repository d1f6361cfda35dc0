"""What tools/report reads and knows: the night log against 02's bytes and the second program, names against the desk's words and the maker's document."""
import io
import random
import unittest
from pathlib import Path

import said
from second import ROOT, records, records_of
from words import number, record, some_lines
from report import messages, nightlog, words
from says import SAYS_02

# 02, Req 01: what is refused with each number
DAMAGED = {16: b'\x80\x00', 17: b'\x01\x20', 18: b'\x01\x01\x80\x20', 19: b'\x01\x01\x81\x80\x80\x80\x04', 20: b'\x01\x01\x00\x0a', 21: b'\x01\x01\x02\x09'}


def read(log, piece=nightlog.PIECE):
    """As the second program tells it."""
    records = nightlog.Log(io.BytesIO(log), piece)
    found = [nightlog.Raw(*raw).record().desk_line() for raw in records]
    ending = records.ending
    return found, f'CUT@{ending.byte}' if ending.cut else f'BAD R{ending.refusal}@{ending.byte}' if ending.refusal else 'END'


def numbered(label):
    name, number = label.rsplit('=', 1)
    return int(number), name


class NightLogs(unittest.TestCase):
    maxDiff = 1000

    def test_there_and_back(self):
        lines = some_lines(31, 4000)
        self.assertEqual(read(b''.join(map(record, lines))), (lines, 'END'))

    def test_cut_after_every_byte(self):
        log = b''.join(map(record, some_lines(32, 25)))
        for size in range(len(log) + 1):
            told = records(log[:size])
            for piece in (1, 7, 65536):
                self.assertEqual(read(log[:size], piece), told, f'cut after byte {size}, in pieces of {piece}')

    def test_in_pieces(self):
        lines = some_lines(34, 20000)
        log = b''.join(map(record, lines))
        for piece in (21, 1000, 65536):
            for tail, ending in (b'', 'END'), (b'\x80', f'CUT@{len(log)}'), (b'\x01\x20' + log[:100], f'BAD R17@{len(log)}'):
                self.assertEqual(read(log + tail, piece), (lines, ending), piece)

    def test_any_bytes(self):
        """Beginnings of records with any bytes behind them."""
        r = random.Random(35)
        some = (0, 1, 2, 3, 8, 9, 10, 15, 16, 31, 32, 127, 128, 129, 255)
        logs = [r.randbytes(r.randrange(12)) if r.random() < 0.5 else bytes(r.choice(some) for _ in range(r.randrange(24))) for _ in range(5000)]
        for log, told in zip(logs, records_of(logs), strict=True):
            self.assertEqual(read(log), told, log.hex())

    def test_malformed(self):
        lines = some_lines(33, 20)
        log = b''.join(map(record, lines))
        for number, bytes_ in DAMAGED.items():
            self.assertEqual(read(log + bytes_ + log), (lines, f'BAD R{number}@{len(log)}'))
        largest = b'\xff\xff\xff\xff\x0f'
        for bytes_ in (b'\x80', b'\x80' * 4, b'\x80' * 5, largest, largest + b'\x00', b'\xff\xff\xff\xff\x10', b'\x81\x00', b'\x00\x00\x00\x09'):
            self.assertEqual(read(bytes_), records(bytes_), bytes_)

    def test_bounds(self):
        """Whole records with a number on either side of each bound."""
        numbers = [number(n) for n in (0, 127, 128, 2**14 - 1, 2**14, 2**21, 2**28 - 1, 2**28, 2**32 - 1, 2**32, 2**34, 2**35)]
        logs = [time + b'\x01\x01\x00' for time in (*numbers, b'\x80\x00', b'\x80\x80\x00', b'\xff' * 4 + b'\x00')]
        parts = [number(n) for power in (0, 7, 12, 14, 21, 28, 30, 32) for n in range(max(0, 2**power - 2), min(2**32, 2**power + 2))]
        logs += [b'\x01\x01' + part + held for part in parts for held in (b'\x01\x00', b'\x09')]
        logs += [b'\x01' + channel + b'\x01\x00' for channel in (b'\x1f', b'\x20', b'\x9f\x00', b'\x80\x01')]
        logs += [b'\x01\x01\x01' + length + bytes(12) for length in (b'\x08', b'\x09', b'\x0a', b'\x88\x00')]
        for log, told in zip(logs, records_of(logs), strict=True):
            self.assertEqual(read(log), told, log.hex())


class Words(unittest.TestCase):
    def test_findings(self):
        self.assertEqual({k: rule.name for k, rule in words.FINDINGS.items()}, said.names())
        for k in said.FINDINGS:
            self.assertTrue(said.quoted(k), f'F{k}')

    def test_refusals(self):
        self.assertEqual(words.REFUSALS, said.refusals())
        self.assertEqual(words.MALFORMED, said.refusals(range(16, 22)))

    def test_messages(self):
        rows, older, safety = ([line.split(' ') for line in Path(ROOT / f'tests/pages/{page}.txt').read_text().splitlines()] for page in ('000', '001', '004'))
        for known, held in ((messages.EXTENDED, rows), (messages.OLDER, older), (messages.STANDARD, safety)):
            self.assertEqual(known, {int(row[1], 16): row[0] for row in held})
        labels, of_older = ({(row[0], row[3]): dict(numbered(label) for label in row[9].split(';')) for row in held if row[9] != '-'} for held in (rows, older))
        for message, signal, held in (
            ('New_Charge_Session', 'Communication_Protocol', messages.PROTOCOLS), ('New_Charge_Session', 'Plug_and_pins', messages.PLUGS),
            ('Charge_Session_Finished', 'State', messages.STATES), ('Power_Modules_Status', 'System_Enable', messages.ENABLES),
            ('DC_Power_Control', 'Power_Function', messages.FUNCTIONS), ('DC_Power_Control', 'Output_Contactors', messages.CONTACTORS),
        ):
            self.assertEqual(held if isinstance(held, dict) else dict(enumerate(held)), labels[message, signal], signal)
            if message != 'DC_Power_Control':
                self.assertEqual(of_older[message, signal], labels[message, signal], f'{signal} of 001')

    def test_what_02_adds(self):
        """The nights quote the same sentences, or the beginning of them."""
        for quoted, sentence in ((SAYS_02['F9 yes/no'], words.YES_NO), (SAYS_02['F4 older'], words.FUNCTIONS), (SAYS_02['F9 older'], words.FUNCTIONS),
                                 (SAYS_02['F8 older'], words.LIMITS)):
            self.assertTrue(sentence.startswith(quoted), quoted)

    def test_the_three_functions(self):
        for line, want in (
            ('frame 2 1 68002 x 8813', 'Insulation_Test: Insulation_Test, 500.0 V'), ('frame 2 1 68003 x 0a0f1400', 'Precharge: Precharge, 385.0 V, 2.0 A'),
            ('frame 2 1 68005 x 68109cff50', 'Charging_Loop: Power_Transfer, 420.0 V, -10.0 A'), ('frame 2 1 68006 x 01', 'Emergency_Stop'),
            ('frame 2 1 60010 x a00f83ff41000164', 'Power_Modules_Status: 400.0 V, -12.5 A, 200 kOhm, Allowed'),
            ('frame 2 1 68001 x 0201a00fd0073264', 'New_Charge_Session: CCS_ISO_15118_2013_v2, CCS_DC_Extended'),
        ):
            raw, = nightlog.Log(io.BytesIO(record(line)))
            self.assertEqual(messages.accepted_words(nightlog.Raw(*raw).record()), want)
