"""night.py COMMAND...: runs the program replay, which COMMAND starts, against the second program. What is not as it should be ends it with status 1."""
import errno
import os
import pty
import random
import re
import subprocess
import sys
import tempfile
from collections import Counter
from pathlib import Path

TESTS = Path(__file__).resolve().parents[1]
sys.path += [str(TESTS / 'nightlog'), str(TESTS / 'report')]

from second import replay as by_second
from words import record

COMMAND = sys.argv[1:]
NIGHTS = TESTS.parent / 'nights'
POSTS = '# two posts\n\nsetup 0 2 5000 2000 500 500\nsetup 15 31 4000 1000 0 60000\n'


def same(got, want, what):
    if got != want:
        at = max(0, len(os.path.commonprefix([got, want])) - 100)
        sys.exit(f'tests/replay: {what} | got {got[at:at + 400]!r} | want {want[at:at + 400]!r}')


def filed(posts, log):
    """The names of their files; texts and bytes are put into files first."""
    files = []
    for name, held in (('a.posts', posts), ('a.log', log)):
        if isinstance(held, Path):
            name = str(held)
        else:
            Path(name).write_bytes(held.encode() if isinstance(held, str) else held)
        files.append(name)
    return files


def second(posts, log):
    """The lines by the second program, and the ending."""
    return by_second(*filed(posts, log))


def replay(posts, log, **more):
    """What the program writes on standard output and on standard error."""
    files = filed(posts, log)
    done = subprocess.run([*COMMAND, *files], **{'stdout': subprocess.PIPE, 'stderr': subprocess.PIPE, 'timeout': 120, **more})
    if done.returncode:
        sys.exit(f'tests/replay: {files}: ended with {done.returncode}')
    return (done.stdout or b'').decode(), (done.stderr or b'').decode()


def joined(lines):
    return ''.join(f'{line}\n' for line in lines)


def summary(ending, lines):
    answers = [line.split(' ')[2] for line in lines]
    refused = Counter(int(answer[1:]) for answer in answers if answer[0] == 'R')
    found = Counter(k for answer in answers if answer[0] == 'A' for k in range(1, 32) if int(answer[1:]) >> (k - 1) & 1)
    counts = f'{len(answers)} records: {len(answers) - refused.total()} accepted, {refused.total()} refused'
    return joined([ending, counts, *(f'R{n}: {refused[n]}' for n in sorted(refused)), *(f'F{n}: {found[n]}' for n in sorted(found))])


def held(posts, log, ending, lines, what):
    out, said = replay(posts, log)
    same(out, joined(lines), f'{what}: the lines')
    same(said, summary(ending, lines), f'{what}: the summary')


def some_steps(seed, count):
    """Traffic of both posts and of a channel that is nobody's, with frames that are refused."""
    r = random.Random(seed)
    for n in range(count):
        head = f'{r.choice([2, 2, 31, 31, 5])} {n * 7}'
        yield r.choice([f'tick {head}', f'frame {head} 6b000 x {r.choice(["01", "02", "0b", "0e"])}', f'frame {head} 6b003 x {r.randbytes(7).hex()}',
                        f'frame {head} 6b00{r.randrange(9)} x {r.randbytes(r.randrange(9)).hex() or "-"}'])


def nights():
    for posts in sorted(NIGHTS.glob('*.posts')):
        log = posts.with_suffix('.log')
        held(posts, log, 'END', second(posts, log)[0], posts.stem)


def rounds():
    """02, Req 09: both posts ticked every hour for a hundred days, a controller that speaks and is late once an hour: three rounds and no refusal."""
    hour = 3600 * 1000
    times = [2**32 - 5 * hour + n * hour for n in range(24 * 100)]
    steps = [step for time in times for step in (f'tick 2 {time % 2**32}', f'frame 2 {time % 2**32} 6b000 x 01', f'tick 2 {(time + 200) % 2**32}',
                                                 f'tick 31 {(time + 7) % 2**32}', f'tick 2 {(time + 201) % 2**32}')]
    log = b''.join(map(record, steps))
    want, ending = second(POSTS, log)
    same(ending, 'END', 'a hundred days: the second program')
    late = ['A2', 'A2', 'A0', 'A0', 'A2']
    same([line.split(' ')[2] for line in want], ['A0', 'A0', *late[2:], *late * (len(times) - 1)], 'a hundred days: the answers')
    held(POSTS, log, 'END', want, 'a hundred days')


def cuts():
    """02: a log may be cut anywhere; the records wholly before the cut have their lines."""
    bytes_ = [record(step) for step in some_steps(1, 30)]
    log = b''.join(bytes_)
    want, _ = second(POSTS, log)
    for size in range(len(log) + 1):
        count = at = 0
        while count < len(bytes_) and at + len(bytes_[count]) <= size:
            at += len(bytes_[count])
            count += 1
        ending = 'END' if at == size else f'CUT@{at}'
        held(POSTS, log[:size], ending, want[:count], f'cut after byte {size}')
        same(second(POSTS, log[:size]), (want[:count], ending), f'cut after byte {size}: the second program')


def pieces():
    """A log of many pieces, whole, cut and with a malformed record behind them: the byte is the file's."""
    log = b''.join(map(record, some_steps(2, 40_000)))
    want, _ = second(POSTS, log)
    held(POSTS, log, 'END', want, 'a long log')
    held(POSTS, log + record('tick 2 300')[:3], f'CUT@{len(log)}', want, 'a long log that is cut')
    held(POSTS, log + record('tick 32 300') + log, f'BAD R17@{len(log)}', want, 'a malformed record behind a long log')


def setups():
    log = record('tick 2 300') + record('tick 3 300')
    held('setup 0 2 5000 2000 500 500', log, 'END', ['1 0 A0', '2 - R1'], "02's example, no line feed at the end")
    held('', log, 'END', ['1 - R1', '2 - R1'], 'no set-up')
    held('#' * 65_535, log, 'END', ['1 - R1', '2 - R1'], 'the longest file of posts')
    same(replay('#' * 65_536, log), ('', 'replay: a.posts: longer than 65,535 bytes\n'), 'a longer one')
    for line, number in (('16 4 5000 2000 500 500', 9), ('1 32 5000 2000 500 500', 10), ('1 2 5000 2000 500 500', 11), ('1 4 0 2000 500 500', 12),
                         ('1 4 5000 2000 500 500 2', 12), ('1 4 5000 2000 500 500 0 2', 12)):
        told = f'replay: a.posts: line 5: the set-up is refused\nSETUP R{number}\n'
        same(replay(f'{POSTS}setup {line}\nno line\n', log), ('', told), f'setup {line}')
        same(second(f'{POSTS}setup {line}\n', log), ([], f'SETUP R{number}'), f'setup {line}: the second program')
    for line in ('setup', 'setup 1', 'setup 1 4 5000 2000 500', 'setup 1 4 5000 2000 500 500 0 0 0', 'setup 01 4 5000 2000 500 500', ' setup 1 4 5000 2000 500 500', 'tick 2 300', 'setup 1 4 5000 2000 500 500\r'):
        told = 'replay: a.posts: line 5: no setup POST CHANNEL VOLT CHG DIS W [SENSOR [IFACE]]\n'
        same(replay(f'{POSTS}{line}\n', log), ('', told), f'the line {line!r}')


def sixteen():
    """02, Req 13: sixteen posts, each with its own number in a line, and with a seventeenth no line at all."""
    posts = [f'setup {post} {31 - post} 5000 2000 500 500\n' for post in range(16)]
    log = b''.join(record(f'tick {channel} 300') for channel in range(32))
    lines = [f'{n} - R1' for n in range(1, 17)] + [f'{n} {32 - n} A0' for n in range(17, 33)]
    same(second(''.join(posts), log), (lines, 'END'), 'sixteen posts: the second program')
    held(''.join(posts), log, 'END', lines, 'sixteen posts')
    told = 'replay: a.posts: line 17: the set-up is refused\nSETUP R9\n'
    same(replay(''.join([*posts, 'setup 16 0 5000 2000 500 500\n']), log), ('', told), 'a seventeenth post')


def interfaces():
    """02, Req 11: an older post beside a newer one, each by its own pages."""
    posts = 'setup 0 2 5000 2000 500 500 0 1\nsetup 1 31 5000 2000 500 500 0 0\n'
    log = b''.join(record(f'frame {channel} 300 {identifier} x 01') for channel in (2, 31) for identifier in ('68009', '6b000'))
    lines = ['1 0 A0', '2 0 R29', '3 1 R29', '4 1 A0']
    same(second(posts, log), (lines, 'END'), 'both interfaces: the second program')
    held(posts, log, 'END', lines, 'both interfaces')


def files():
    missing, folder = Path('missing'), Path('folder')
    folder.mkdir()
    log = record('tick 2 300')
    same(replay(missing, log), ('', 'replay: missing: No such file or directory\n'), 'no POSTS')
    same(replay(POSTS, missing), ('', 'replay: missing: No such file or directory\n'), 'no LOG')
    same(replay(folder, log), ('', 'replay: folder: reading: Is a directory\n'), 'a folder for POSTS')
    same(replay(POSTS, folder), ('', 'replay: folder: reading: Is a directory\n'), 'a folder for LOG')
    with open('/dev/full', 'wb') as full:
        for count in (1, 20_000):
            same(replay(POSTS, log * count, stdout=full), ('', 'replay: writing standard output: No space left on device\n'), f'{count} lines that cannot be written')
    done = subprocess.run([*COMMAND, 'a.posts'], capture_output=True, timeout=30)
    same(done.stderr.decode(), 'usage: replay POSTS LOG\n', 'one argument')


def changes():
    """A log that is cut while it is replayed: the lines of what was read, and the reason. One that grows meanwhile is replayed to the length that it had."""
    tick = record('tick 2 300')
    count = 40_000
    want = [f'{n} 0 A0' for n in range(1, count + 1)]
    for grows in False, True:
        files = filed(POSTS, tick * count)
        run = subprocess.Popen([*COMMAND, *files], stdout=subprocess.PIPE, stderr=subprocess.PIPE, bufsize=0, pipesize=4096)
        # the lines of one piece do not fit into the pipe, so the program waits for this to be read
        first = run.stdout.read(1)
        if grows:
            with open(files[1], 'ab') as log:
                log.write(tick * count + b'\x80')
        else:
            os.truncate(files[1], 10 * len(tick))
        out, said = run.communicate(timeout=120)
        got = (first + out).decode().splitlines()
        if grows:
            same(joined(got), joined(want), 'the lines of a log that grows')
            same(said.decode(), summary('END', want), 'the summary of a log that grows')
        else:
            same(joined(got), joined(want[:len(got)]), 'the lines of a log that is cut')
            same(str(10 < len(got) < count), 'True', f'{len(got)} lines of a log that is cut')
            same(said.decode(), 'replay: a.log: the file changed while it was read\n', 'a log that is cut')


def all_told(master):
    """All that a terminal was told: the system hands it over piece by piece, after the writer has ended too, and says EIO behind the last one."""
    told = b''
    while True:
        try:
            told += os.read(master, 65_536)
        except OSError as reason:
            if reason.errno != errno.EIO:
                raise
            os.close(master)
            return told


def progress():
    """A progress line of a long log, and only where standard error is a terminal."""
    for count, shown in ((1000, False), (250_000, True)):
        master, slave = pty.openpty()
        replay(POSTS, record('tick 2 300') * count, stdout=subprocess.DEVNULL, stderr=slave)
        os.close(slave)
        told = all_told(master).decode()
        same(str('\rreplay: 2' in told), str(shown), f'progress over {count} records: {told!r}')
        same(told[told.rindex('\x1b[K') + 3:], summary('END', [f'{n} 0 A0' for n in range(1, count + 1)]).replace('\n', '\r\n'), 'the summary behind it')


def peak(records):
    """The most memory in kB that a replay of so many ticks had when all but its last 80,000 bytes were read: more than the pipe and its reader hold, so that it is
    still there. What wait4 would tell counts this interpreter's memory too."""
    Path('a.posts').write_text(POSTS)
    Path('a.log').write_bytes(record('tick 2 300') * records)
    size = sum(len(f'{n} 0 A0\n') for n in range(1, records + 1))
    with subprocess.Popen([*COMMAND, 'a.posts', 'a.log'], stdout=subprocess.PIPE, stderr=subprocess.DEVNULL, pipesize=65_536) as run:
        run.stdout.read(size - 80_000)
        status = Path(f'/proc/{run.pid}/status').read_text()
        same(str(len(run.stdout.read())), '80000', f'the rest of {records} lines')
    return int(re.search(r'VmHWM:\s*(\d+) kB', status)[1])


def memory():
    """It does not grow with the log: forty times the records have nearly 2 MB more of log and twice that of lines. The rest is room for an emulator's own memory."""
    short, long = peak(10_000), peak(400_000)
    if long > short + 1024:
        sys.exit(f'tests/replay: {short} kB for 10,000 records, {long} kB for 400,000')


with tempfile.TemporaryDirectory() as room:
    os.chdir(room)
    for part in (nights, rounds, cuts, pieces, setups, sixteen, interfaces, files, changes, progress, memory):
        part()
print('tests/replay: ok')
