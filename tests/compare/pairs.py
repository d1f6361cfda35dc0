"""pairs.py COMMAND...: runs the program compare, which COMMAND starts, against the second program. What is not as it should be ends it with status 1."""
import os
import random
import re
import subprocess
import sys
import tempfile
from collections import Counter
from pathlib import Path

TESTS = Path(__file__).resolve().parents[1]
sys.path += [str(TESTS / 'nightlog'), str(TESTS / 'report')]

import second
from words import record, some_lines

COMMAND = sys.argv[1:]
NIGHTS = TESTS.parent / 'nights'
NIGHTLOG = [*COMMAND[:-1], str(Path(COMMAND[-1]).with_name('nightlog'))]
MOST = 512
USAGE = 'usage: compare FIRST SECOND [FROM TO]; FROM and TO cut both logs to the records from FROM to TO ms, both included\n'
TICKS = [record(f'tick 4 {time}') for time in range(1000)]


def same(got, want, what):
    if got != want:
        got, want = str(got), str(want)
        at = max(0, len(os.path.commonprefix([got, want])) - 100)
        sys.exit(f'tests/compare: {what} | got {got[at:at + 400]!r} | want {want[at:at + 400]!r}')


def called(*words, **more):
    """What the program writes on standard output and on standard error."""
    done = subprocess.run([*COMMAND, *map(str, words)], **{'stdout': subprocess.PIPE, 'stderr': subprocess.PIPE, 'timeout': 120, **more})
    if done.returncode:
        sys.exit(f'tests/compare: {words}: ended with {done.returncode}')
    return (done.stdout or b'').decode(), (done.stderr or b'').decode()


def compared(first, other, *window, **more):
    Path('a.log').write_bytes(first)
    Path('b.log').write_bytes(other)
    return called('a.log', 'b.log', *window, **more)


class Side:
    """A log by the second program: its lines as `nightlog show` has them, and those of the window by their numbers in the file, from 1."""

    def __init__(self, told, window):
        self.lines, self.ending = told
        least, most = window or (0, 2**32 - 1)
        self.numbers = [n for n, line in enumerate(self.lines, 1) if least <= int(line.split(' ')[2]) <= most]

    def line(self, place):
        """Of the window's record at that place, from 1."""
        number = self.numbers[place - 1]
        return f'{number} {self.lines[number - 1]}'

    def on(self, channel, place):
        """The window's record at that place of the channel."""
        own = [k for k, number in enumerate(self.numbers, 1) if self.lines[number - 1].split(' ')[1] == channel]
        return self.line(own[place - 1]) if place <= len(own) else '-'

    def step(self):
        return b''.join(record(self.lines[number - 1]) for number in self.numbers).hex() or '-'


def wanted(asked, told=None):
    """What the program should write, for each pair of logs and its window: of both streams. `told` are the lines and endings of logs too long for a step."""
    told = told or second.records_of([log for first, other, _ in asked for log in (first, other)])
    pairs = [(Side(told[2 * k], window), Side(told[2 * k + 1], window)) for k, (_, _, window) in enumerate(asked)]
    answers = second.answers(f'compare {first.step()} {other.step()} {MOST} {MOST}' for first, other in pairs)
    return [in_lines(*sides, answer) for sides, answer in zip(pairs, answers)]


def in_lines(first, other, answer):
    sides = list(zip(('a.log', 'b.log'), (first, other)))
    for name, side in sides:
        if side.ending != 'END':
            return '', f'compare: {name}: R26, {side.ending}\n'
    if refused := re.fullmatch(r'R27:([12])', answer):
        name, side = sides[int(refused[1]) - 1]
        return '', f'compare: {name}: R27, {len(side.numbers)} records where 512 are compared; FROM TO cuts both logs to a window\n'
    lists = [part.split('=')[1] for part in answer.split(' ')[1:]]
    numbers, numbers2, channels = ([] if part == '-' else part.split(',') for part in lists)
    lines = [f'first {first.line(int(n))}' for n in numbers] + [f'second {other.line(int(n))}' for n in numbers2]
    for part in channels:
        channel, place = part.split(':')
        lines.append(f'channel {channel} place {place}: first {first.on(channel, int(place))}; second {other.on(channel, int(place))}')
    lines += [f'compared {len(first.numbers)} and {len(other.numbers)} records', 'differ' if lines else 'same']
    return ''.join(f'{line}\n' for line in lines), ''


def held(asked, what):
    """Each pair as the second program has it; how often each ending came."""
    came = Counter()
    for (first, other, window), want in zip(asked, wanted(asked)):
        got = compared(first, other, *window or ())
        same(got, want, f'{what}: {first.hex()[:200]} {other.hex()[:200]} {window}')
        came[(got[0].split('\n')[-2:-1] or re.findall(r'R\d+', got[1])[:1])[0]] += 1
    return came


def examples():
    """By hand: 02's words, and what the second program says of the same."""
    a, b, c = record('tick 4 0'), record('tick 4 1'), record('frame 5 2 6b001 x 0201')
    for first, other, want in [
        (b'', b'', 'compared 0 and 0 records\nsame\n'),
        (a + c, c + a, 'compared 2 and 2 records\nsame\n'),
        (a + a + a, a, 'first 2 tick 4 0\nfirst 3 tick 4 0\nchannel 4 place 2: first 2 tick 4 0; second -\ncompared 3 and 1 records\ndiffer\n'),
        (a + b, b + a, 'channel 4 place 1: first 1 tick 4 0; second 1 tick 4 1\ncompared 2 and 2 records\ndiffer\n'),
        (b'', c, 'second 1 frame 5 2 6b001 x 0201\nchannel 5 place 1: first -; second 1 frame 5 2 6b001 x 0201\ncompared 0 and 1 records\ndiffer\n'),
    ]:
        same(compared(first, other), (want, ''), f'{first.hex()} {other.hex()}')
        held([(first, other, None)], 'an example')


def changed(r, records):
    """The other recorder's: a few records fewer, more, changed, repeated or in another place; now and then a cut or damaged file."""
    records = list(records)
    for _ in range(r.choice([0, 1, 1, 2, 3])):
        at = r.randrange(len(records) + 1)
        what = r.randrange(5)
        if what == 0 and at < len(records):
            del records[at]
        elif what == 1 and at < len(records):
            records.insert(r.randrange(len(records) + 1), records[at])
        elif what == 2 and at < len(records):
            records.insert(r.randrange(len(records)), records.pop(at))
        else:
            records.insert(at, some_record(r))
    if r.random() < 0.3:
        records.sort(key=channel_of)
    log = bytearray(b''.join(records))
    fate = r.random()
    if fate < 0.06:
        del log[r.randrange(len(log) + 1):]
    elif fate < 0.12 and log:
        log[r.randrange(len(log))] = r.randrange(256)
    return bytes(log)


def channel_of(bytes_):
    """The channel of a record: the number behind its time."""
    at = next(k for k, byte in enumerate(bytes_) if byte < 128)
    return bytes_[at + 1]


def some_record(r):
    """Of few channels, times and payloads, so that many are alike."""
    head = f'{r.choice([0, 4, 4, 31])} {r.choice([0, 1, 200, 4294967295])}'
    return record(r.choice([f'tick {head}', f'frame {head} 1 {r.choice("xs")} {r.choice(["-", "00", "01"])}', f'frame {head} 6b000 x 01']))


def randomly():
    seed = random.randrange(10**6)
    r = random.Random(seed)
    asked = []
    for _ in range(400):
        records = [some_record(r) for _ in range(r.choice([0, 1, 2, 3, 5, 8, 20]))]
        window = r.choice([None, None, (0, 0), (1, 200), (200, 4294967295), (2, 199), (0, 4294967295)])
        pair = [b''.join(records), changed(r, records)]
        r.shuffle(pair)
        asked.append((*pair, window))
    lines = [b''.join(map(record, some_lines(seed + k, 60))) for k in range(4)]
    asked += [(first, other, None) for first in lines for other in lines]
    came = held(asked, f'seed {seed}')
    for ending in 'same', 'differ', 'R26':
        same(came[ending] > 9, True, f'seed {seed}: {ending} came {came[ending]} times')


def many():
    """512 records and one more, on either side; behind a malformed record it is 26 all the same; a window makes room."""
    full, more, bad = b''.join(TICKS[:MOST]), b''.join(TICKS[:MOST + 1]), record('tick 32 0')
    asked = [(full, full, None), (full, b'', None), (b'', full, None), (full, b''.join(TICKS[MOST:2 * MOST - 24]), None)]
    asked += [(more, full, None), (full, more, None), (more, more, None), (b''.join(TICKS[:600]), b'', None)]
    asked += [(more + bad, full, None), (more, full + bad, None), (more, more + b'\x80', None), (b''.join(TICKS[:600]) + bad, more, None)]
    asked += [(more, more, (0, 511)), (more, full, (1, 512)), (b''.join(TICKS), b''.join(TICKS[1:]), (0, 400)), (b''.join(TICKS), b''.join(TICKS), (400, 912))]
    came = held(asked, 'about 512 records')
    same((came['same'], came['R26'], came['R27']), (2, 4, 5), 'how often each came')
    # the longest lines: a frame of five groups of time, an identifier of 29 bits and eight bytes
    longest = [record(f'frame 31 {2**32 - 1 - k} {2**29 - 1:x} x {k:016x}') for k in range(2 * MOST)]
    same(len(longest[0]), 20, 'the longest record')
    held([(b''.join(longest[:MOST]), b''.join(longest[MOST:]), None)], '1,024 lines')
    held([(b''.join(longest[:MOST + 1]), b'', None)], '513 longest records')


def nights():
    """A night with one record taken out: that one is told, and its channel with what follows it."""
    for log in sorted(NIGHTS.glob('*.log')):
        lines, ending = second.records(log.read_bytes())
        if ending != 'END':
            continue
        bytes_ = [record(line) for line in lines][:MOST]
        for at in range(0, len(bytes_), max(1, len(bytes_) // 5)):
            less = b''.join(bytes_[:at] + bytes_[at + 1:])
            came = held([(b''.join(bytes_), less, None), (less, b''.join(bytes_), None)], f'{log.stem} without record {at + 1}')
            same(came['differ'], 2, log.stem)
            out, _ = compared(b''.join(bytes_), less)
            same(len(re.findall(r'^(?:first|second) ', out, re.MULTILINE)), 1, f'{log.stem}: one surplus')


def windows():
    """Of logs of many pieces: both ends included, numbers those of the file."""
    r = random.Random(3)
    lines = [f'tick {r.randrange(32)} {n * 7}' for n in range(60_000)]
    others = lines[:100] + lines[101:30_000] + ['tick 4 210000'] + lines[30_000:]
    first, other = b''.join(map(record, lines)), b''.join(map(record, others))
    for window in (209_000, 211_000), (700, 700), (700, 3000), (0, 3500), (419_000, 4294967295), (1, 6):
        want, = wanted([(first, other, window)], [(lines, 'END'), (others, 'END')])
        same(compared(first, other, *window), want, f'the window {window} of a long log')
    window = (209_000, 211_000)
    out, _ = compared(first, other, *window)
    same(out.split('\n')[0], 'second 30000 tick 4 210000', 'the number in the file')
    shown = subprocess.run([*NIGHTLOG, 'show', 'b.log'], capture_output=True, text=True, check=True, timeout=60).stdout.split('\n')
    same(shown[30_000 - 1], 'tick 4 210000', 'the line of nightlog show with that number')
    told = f'first 101 {lines[100]}\nchannel {lines[100].split(" ")[1]} place 1: first 101 {lines[100]}; second -\ncompared 1 and 0 records\ndiffer\n'
    same(compared(first, other, 700, 700), (told, ''), 'a window of one time')
    same(compared(first, other, 701, 706), ('compared 0 and 0 records\nsame\n', ''), 'a window between two times')
    same(compared(first, other, 0, 4294967295)[1], 'compare: a.log: R27, 60000 records where 512 are compared; FROM TO cuts both logs to a window\n', 'all of it')
    # what stands behind the window is read too: a broken log is never the same
    size = len(first)
    same(compared(first + record('tick 32 0'), other, *window), ('', f'compare: a.log: R26, BAD R17@{size}\n'), 'malformed behind the window')
    same(compared(first, other + b'\x00\x04', *window), ('', f'compare: b.log: R26, CUT@{len(other)}\n'), 'cut behind the window')


def cuts():
    log = b''.join(map(record, some_lines(5, 12)))
    whole = b''.join(map(record, some_lines(5, 11)))
    asked = [pair for size in range(len(log) + 1) for pair in ((log[:size], whole, None), (whole, log[:size], None))]
    came = held(asked, 'cut after each byte')
    same(came['R26'], 2 * (len(log) + 1 - 13), 'cuts within a record')


def calls():
    Path('a.log').write_bytes(TICKS[0])
    Path('folder').mkdir()
    for words in ((), ('a.log',), ('a.log', 'a.log', '0'), ('a.log', 'a.log', '0', '1', '2'), ('a.log', 'a.log', '1', '0'), ('a.log', 'a.log', '01', '2'),
                  ('a.log', 'a.log', '-1', '2'), ('a.log', 'a.log', '0', '4294967296'), ('a.log', 'a.log', '', '2'), ('a.log', 'a.log', '0', 'x'),
                  ('a.log', 'a.log', '0', '1' * 40)):
        same(called(*words), ('', USAGE), words)
    same(called('a.log', 'a.log', '0', '0'), ('compared 1 and 1 records\nsame\n', ''), 'a window of one time')
    for words in ('missing', 'a.log'), ('a.log', 'missing'):
        same(called(*words), ('', 'compare: missing: No such file or directory\n'), words)
    for words in ('folder', 'a.log'), ('a.log', 'folder'):
        same(called(*words), ('', 'compare: folder: reading: Is a directory\n'), words)
    same(called('n/' * 2500, 'a.log'), ('', 'compare: FIRST: File name too long\n'), 'a long name')
    same(called('a.log', 'n/' * 2500), ('', 'compare: SECOND: File name too long\n'), 'a long name')
    read, write = os.pipe()
    same(called('a.log', f'/dev/fd/{read}', pass_fds=[read])[1], f'compare: /dev/fd/{read}: finding its length: Illegal seek\n', 'a pipe')
    os.close(read)
    os.close(write)
    failing = 'compare: writing standard output: No space left on device\n'
    with open('/dev/full', 'wb') as full:
        same(compared(TICKS[0], TICKS[1], stdout=full), ('', failing), 'lines that cannot be written')
        same(compared(b''.join(TICKS[:MOST]), b''.join(record(f'frame 4 {n} 6b000 x 01') for n in range(MOST)), stdout=full), ('', failing), 'many of them')


def injected():
    """A file whose length the system tells otherwise: shorter, as one that grows meanwhile; longer, as one that was cut meanwhile. A read that fails."""
    if len(COMMAND) > 1:
        return

    def under(name, fault):
        traced = ['strace', '-qq', '-o', '/dev/null', '-P', os.path.realpath(name), '-e', f'trace={fault.split(":")[0]}', '-e', f'inject={fault}']
        done = subprocess.run([*traced, *COMMAND, 'a.log', 'b.log'], capture_output=True, text=True, timeout=60)
        return done.stdout, ''.join(line for line in done.stderr.splitlines(True) if not line.startswith('strace: '))

    ten = b''.join(TICKS[:10])
    Path('a.log').write_bytes(ten)
    Path('b.log').write_bytes(ten)
    for name, counts in ('a.log', '3 and 10'), ('b.log', '10 and 3'):
        out, said = under(name, f'lseek:retval={3 * len(TICKS[0])}')
        same((out.split('\n')[-3:], said), ([f'compared {counts} records', 'differ', ''], ''), 'a file that grows')
        same(under(name, f'lseek:retval={20 * len(TICKS[0])}'), ('', f'compare: {name}: the file changed while it was read\n'), 'a file that is cut')
        same(under(name, 'pread64:error=EIO'), ('', f'compare: {name}: reading: Input/output error\n'), 'a read that fails')


def memory():
    """It does not grow with the logs: room for an emulator's own memory, and for no log of 4 MB."""
    if len(COMMAND) > 1:
        return
    sizes = []
    for count in (1000, 800_000):
        Path('a.log').write_bytes(TICKS[5] * count)
        peak = subprocess.run(['bash', '-c', 'ulimit -v 8192; "$@" a.log a.log 6 6', 'bash', *COMMAND], capture_output=True, text=True, timeout=120)
        sizes.append((peak.returncode, peak.stdout, peak.stderr))
    same(sizes, [(0, 'compared 0 and 0 records\nsame\n', '')] * 2, 'in 8 MB')


with tempfile.TemporaryDirectory() as room:
    os.chdir(room)
    for part in (examples, randomly, many, nights, windows, cuts, calls, injected, memory):
        part()
print('tests/compare: ok')
