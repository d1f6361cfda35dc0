"""night.py COMMAND...: runs nightlog, which COMMAND starts, against words.py. Anything that is not as it should be ends it with status 1."""
import concurrent.futures
import math
import os
import random
import re
import resource
import signal
import socket
import subprocess
import sys
import tempfile
import threading
import time

import traced
from words import record, some_lines

COMMAND = sys.argv[1:]
SEED = random.randrange(10**6)
KILLS = 100


def hold(said, *shown):
    if not said:
        sys.exit(f'tests/nightlog: {" | ".join(map(str, shown))}')


def same(got, want, what):
    """Where they differ both are shown, long ones from a little before that on."""
    got, want = repr(got), repr(want)
    at = max(0, len(os.path.commonprefix([got, want])) - 100)
    hold(got == want, what, 'got ' + got[at:at + 400], 'want ' + want[at:at + 400])


def nightlog(*words, told='', **more):
    """What the program writes on standard output and on standard error."""
    if isinstance(told, list):
        told = ''.join(line + '\n' for line in told)
    if 'stdin' not in more:
        more['input'] = told.encode()
    more = {'stdout': subprocess.PIPE, **more}
    ended = subprocess.run([*COMMAND, *words], stderr=subprocess.PIPE, timeout=30, **more)
    hold(ended.returncode == 0, words, f'ended with {ended.returncode}', ended.stderr)
    return (ended.stdout or b'').decode(), ended.stderr.decode()


def written(path):
    with open(path, 'rb') as f:
        return f.read()


def write(path, bytes_):
    with open(path, 'wb') as f:
        f.write(bytes_)


def whole(parts, size):
    """How many of the records stand whole within the first bytes, and how many bytes they take."""
    count = at = 0
    while count < len(parts) and at + len(parts[count]) <= size:
        at += len(parts[count])
        count += 1
    return count, at


def appended(path, count, flushed=None, more=''):
    """Where not all of them are known to be flushed it is said how many are."""
    return f'nightlog: {path}: {count} records appended{"" if flushed is None else f", {flushed} flushed"}{more}\n'


def zeros(path, log):
    """Four zeros or more at the end of a log are told."""
    rest = len(log.rstrip(b'\0'))
    return f'nightlog: {path}: {len(log) - rest} zero bytes at its end, from byte {rest} on\n' if len(log) - rest >= 4 else ''


def cut_back(path, at, left):
    return f'nightlog: {path}: cut back to byte {at}, {left} bytes of a piece left over\n'


def there_and_back():
    """A log of every kind of record, made in two runs, is the paper's bytes and is shown as the same lines; a long one is read in pieces."""
    lines = ['frame 2 300 6b000 x 01', *some_lines(1, 400)]
    same(record(lines[0]).hex(), 'ac020281c0350101', "02's own record")
    bytes_ = b''.join(map(record, lines))
    for part, before in (lines[:150], b''), (lines[150:], b''.join(map(record, lines[:150]))):
        same(nightlog('append', 'a.log', told=part), ('', zeros('a.log', before) + appended('a.log', len(part))), 'append')
    same(written('a.log'), bytes_, 'the bytes of 401 records')
    same(nightlog('show', 'a.log'), (''.join(line + '\n' for line in lines), ''), 'show')
    same(nightlog('check', 'a.log'), ('401 records, END\n', zeros('a.log', bytes_)), 'check')

    long = 300000 // len(bytes_)
    write('long.log', bytes_ * long + b'\x80')
    shown, said = nightlog('show', 'long.log')
    same(shown, ''.join(line + '\n' for line in lines) * long, 'a log of some pieces, shown')
    same(said, f'nightlog: long.log: CUT@{long * len(bytes_)}\n', 'its ending')
    same(nightlog('append', 'long.log', told=['tick 7 7'])[1],
         cut_back('long.log', long * len(bytes_), 1) + appended('long.log', 1), 'a log of some pieces, appended to')
    same(nightlog('check', 'long.log'), (f'{401 * long + 1} records, END\n', ''), 'a log of some pieces')


def cuts():
    """02: "A log cut after any byte reads as exactly the records wholly before the cut, and tells whether a piece is left over"."""
    lines = some_lines(2, 34)
    parts = list(map(record, lines))
    bytes_ = b''.join(parts)
    more = 'frame 31 4294967295 1fffffff x 0001020304050607'
    sample = random.Random(3).sample(range(len(bytes_) + 1), 40)

    def cut_after(size):
        name = f'cut.{size}'
        write(name, bytes_[:size])
        count, at = whole(parts, size)
        ending = 'END' if at == size else f'CUT@{at}'
        told = zeros(name, bytes_[:size])
        same(nightlog('check', name), (f'{count} records, {ending}\n', told), f'cut after byte {size}')
        if size in sample:
            said = told + (cut_back(name, at, size - at) if at < size else '')
            same(nightlog('append', name, told=[more]), ('', said + appended(name, 1)), f'appended after a cut at {size}')
            same(written(name), bytes_[:at] + record(more), f'appended after a cut at {size}')
        os.remove(name)

    with concurrent.futures.ThreadPoolExecutor(os.cpu_count()) as pool:
        list(pool.map(cut_after, range(len(bytes_) + 1)))
    return len(bytes_) + 1


def feed(pipe, lines):
    """Ten lines at a time, so that not all of them are there before the kill comes."""
    try:
        for i in range(0, len(lines), 10):
            pipe.write(''.join(line + '\n' for line in lines[i:i + 10]).encode())
            time.sleep(0.001)
    except BrokenPipeError:
        pass


def killed(r, path, lines, waits):
    """Some of the lines reach the file before the program is killed."""
    before = os.path.getsize(path) if os.path.exists(path) else 0
    run = subprocess.Popen([*COMMAND, 'append', path], stdin=subprocess.PIPE, stderr=subprocess.DEVNULL, bufsize=0)
    feed(run.stdin, lines[:10])
    patience = time.monotonic() + 10
    while waits and (not os.path.exists(path) or os.path.getsize(path) <= before):
        hold(time.monotonic() < patience and run.poll() is None, 'nothing was appended before the kill')
        time.sleep(0.0005)
    feeder = threading.Thread(target=feed, args=(run.stdin, lines[10:]))
    feeder.start()
    time.sleep(r.uniform(0, 0.03))
    run.kill()
    run.wait()
    feeder.join()
    run.stdin.close()


def kills():
    """Killed at any moment the file holds a prefix of what was fed, and all that it held before; the next run goes on from there."""
    print(f'nightlog: kills from seed {SEED}')
    r, kept, bytes_, inside = random.Random(SEED), [], b'', 0
    for turn in range(KILLS):
        lines = some_lines(r.random(), 600)
        parts = list(map(record, lines))
        # a kill that waits for no record may come before the piece of the last turn is cut off
        killed(r, 'killed.log', lines, turn % 10 != 9)
        got = written('killed.log') if os.path.exists('killed.log') else b''
        hold(got[:len(bytes_)] == bytes_, f'turn {turn}: a record of an earlier turn is lost')
        rest = got[len(bytes_):]
        if turn % 10 == 9 and rest == left:
            continue
        hold(b''.join(parts).startswith(rest), f'turn {turn}: not a prefix of what was fed')
        count, at = whole(parts, len(rest))
        inside += 0 < count < len(parts)
        kept += lines[:count]
        bytes_ += rest[:at]
        # the plug is pulled in the middle of the next record
        left = parts[count][:r.randrange(len(parts[count]))] if count < len(parts) else b''
        write('killed.log', bytes_ + left)
    ending = f'CUT@{len(bytes_)}' if left else 'END'
    same(nightlog('check', 'killed.log'), (f'{len(kept)} records, {ending}\n', zeros('killed.log', bytes_ + left)), 'after the kills')
    same(nightlog('show', 'killed.log')[0], ''.join(line + '\n' for line in kept), 'after the kills')
    hold(inside >= KILLS // 2, f'only {inside} of {KILLS} kills left some but not all of their records')
    return inside


def full_disk():
    """A file that may grow no further holds the whole records before that, the line is named, and nothing follows."""
    lines = some_lines(4, 40)
    parts = list(map(record, lines))
    r = random.Random(5)
    for limit in [0, 1, len(parts[0]), *r.sample(range(2, sum(map(len, parts))), 12)]:
        def small():
            signal.signal(signal.SIGXFSZ, signal.SIG_IGN)
            resource.setrlimit(resource.RLIMIT_FSIZE, (limit, limit))
        name = f'full.{limit}'
        count, at = whole(parts, limit)
        same(nightlog('append', name, told=lines, preexec_fn=small),
             ('', f'nightlog: {name}: writing line {count + 1}: File too large\n' + appended(name, count)), f'a file of {limit} bytes at most')
        same(written(name), b''.join(parts)[:at], f'a file of {limit} bytes at most')
    same(nightlog('append', '/dev/full', told=['tick 1 2'])[1],
         'nightlog: /dev/full: writing line 1: No space left on device\n'
         'nightlog: /dev/full: flushing: Invalid argument\n' + appended('/dev/full', 0, 0), 'a full device')
    with open('/dev/full', 'w') as full:
        same(nightlog('show', 'a.log', stdout=full)[1], 'nightlog: writing standard output: No space left on device\n', 'shown on a full device')


def unflushed(lines, until):
    """How many of the lines, told at that moment in one piece, are appended to a file of which no flush succeeds. No more is told, so that the
    program ends by a flush alone."""
    write('unflushed.log', b'')
    run = subprocess.Popen([*traced.failing('fsync:error=EIO'), *COMMAND, 'append', 'unflushed.log'], stdin=subprocess.PIPE, stderr=subprocess.PIPE, bufsize=0)
    clock = threading.Timer(20, run.kill)
    clock.start()
    time.sleep(max(0, until - time.time()))
    run.stdin.write(''.join(line + '\n' for line in lines).encode())
    said = run.stderr.read().decode()
    clock.cancel()
    run.wait()
    run.stdin.close()
    count = re.fullmatch(r'nightlog: unflushed.log: flushing: Input/output error\nnightlog: unflushed.log: (\d+) records appended, 0 flushed\n', said)
    hold(count, 'a file that cannot be flushed', repr(said))
    return int(count[1])


def flushes():
    """A flush comes before the program waits for more lines, and amid those of one piece where the clock's second changes."""
    hold(unflushed(['tick 1 1', 'tick 1 2'], time.time()) in (1, 2), 'flushed before the next wait')
    many = ['tick 1 1'] * 7000
    for early in [0.03, 0.01, 0.005, 0.002, 0.001] * 4:
        if 0 < unflushed(many, math.floor(time.time() + 0.5) + 1 - early) < len(many):
            return
    hold(False, 'no flush amid a piece when the second changes')


def changed():
    """A file that is cut while it is shown: the lines of the first piece, whole, and then the reason."""
    lines = some_lines(6, 10000)
    parts = list(map(record, lines))
    write('shrinks.log', b''.join(parts))
    run = subprocess.Popen([*COMMAND, 'show', 'shrinks.log'], stdout=subprocess.PIPE, stderr=subprocess.PIPE, bufsize=0)
    # the lines of one piece do not fit into a pipe, so the program waits for this to be read
    first = run.stdout.read(1)
    os.truncate('shrinks.log', 0)
    shown, said = run.communicate(timeout=30)
    same((first + shown).decode(), ''.join(line + '\n' for line in lines[:whole(parts, 65536)[0]]), 'shown while it is cut')
    same(said.decode(), 'nightlog: shrinks.log: the file changed while it was read\n', 'cut while it is shown')


def refusals():
    told = ['tick 1 1', 'hello', '', '# words', 'tick 32 1', 'frame 1 2 800 s -', 'frame 1 2 20000000 x -', 'frame 1 2 3 s 000102030405060708',
            'tick 1', 'tick 1 2 3', 'frame 1 2 3 s', 'frame 1 2 3 s 0', 'frame 1 2 3 y -', 'tick 01 1', 'tick 1 4294967296', 'x' * 70000, '#' * 70000,
            'frame 1 2 7ff s -', 'setup 0 2 1 1 1 1', 'frame 32 2 800 s 000102030405060708', 'frame 1 2 1fffffff x 0001020304050607']
    refused = {5: 'R17', 6: 'R18', 7: 'R19', 8: 'R20', 20: 'R17'}
    other = {n: 'no frame or tick' for n in (2, 9, 10, 11, 12, 13, 14, 15, 16, 19)}
    said = ''.join(f'nightlog: line {n}: {words}\n' for n, words in sorted({**refused, **other}.items()))
    same(nightlog('append', 'bad.log', told=told)[1], said + appended('bad.log', 3), 'lines that are refused')
    same(written('bad.log'), b''.join(record(told[n]) for n in (0, 17, 20)), 'between lines that are refused')

    good = record('tick 1 1')
    damaged = {16: b'\x80\x00', 17: b'\x01\x20', 18: b'\x01\x01\x80\x20', 19: b'\x01\x01\x81\x80\x80\x80\x04', 20: b'\x01\x01\x00\x0a', 21: b'\x01\x01\x02\x09'}
    for number, bytes_ in damaged.items():
        log = good + bytes_ + good
        write('damaged.log', log)
        ending = f'BAD R{number}@{len(good)}'
        same(nightlog('check', 'damaged.log'), (f'1 records, {ending}\n', ''), 'damaged')
        same(nightlog('show', 'damaged.log'), ('tick 1 1\n', f'nightlog: damaged.log: {ending}\n'), 'damaged')
        same(nightlog('append', 'damaged.log', told=['tick 1 1']), ('', f'nightlog: damaged.log: {ending}: nothing is appended\n'), 'damaged')
        same(written('damaged.log'), log, 'a damaged log is left as it was')


def torn_input(told):
    """A standard input that gives these bytes and then an error: a connection whose other end is closed with bytes unread."""
    ours, theirs = socket.socketpair()
    ours.send(b'unread')
    theirs.sendall(told)
    theirs.close()
    return ours


def last_lines():
    """A last line without its line feed may be a piece of one, as `tick 4 1` is of `tick 4 12345`: it is named, and nothing of it is in the file."""
    for rest, left_out in ('tick 4 1', True), ('frame 1 2 3 s 00', True), ('hello', True), ('x' * 70000, True), ('# words', False), ('', False):
        said = 'nightlog: line 2: no line feed\n' if left_out else ''
        lines, what = 'tick 1 1\n' + rest, f'the last line {rest[:20]!r}'
        same(nightlog('append', 'last.log', told=lines), ('', said + appended('last.log', 1)), what)
        same(written('last.log'), record('tick 1 1'), what)
        os.remove('last.log')
        with torn_input(lines.encode()) as stdin:
            same(nightlog('append', 'last.log', stdin=stdin)[1], 'nightlog: reading standard input: Connection reset by peer\n' + said + appended('last.log', 1), what)
        same(written('last.log'), record('tick 1 1'), what)
        os.remove('last.log')


def zeros_at_the_end():
    """A pulled plug may leave zeros, and `00 00 00 00` is a record: they are told, nothing is cut away or lost, and the night goes on."""
    one, more = record('frame 2 300 6b000 x 01'), 'tick 7 7'
    for count in (*range(4), 4, 5, 8, 100_000, 65_536, 65_535, 131_072 - len(one)):
        for front in one, b'':
            log = front + bytes(count)
            write('zeros.log', log)
            records, rest = bool(front) + count // 4, count % 4
            end = len(log) - rest
            told = zeros('zeros.log', log)
            hold(bool(told) == (count >= 4), 'the test itself')
            same(nightlog('check', 'zeros.log'), (f'{records} records, {f"CUT@{end}" if rest else "END"}\n', told), f'{count} zeros')
            same(nightlog('append', 'zeros.log', told=[more])[1], told + (cut_back('zeros.log', end, rest) if rest else '') + appended('zeros.log', 1), f'{count} zeros, appended to')
            same(written('zeros.log') == log[:end] + record(more), True, f'{count} zeros, appended to')
    # zeros behind a torn record are malformed: nothing is appended, and the zeros are told
    torn = one + one[:5] + bytes(50)
    write('torn.log', torn)
    ending = f'BAD R16@{len(one)}'
    same(nightlog('check', 'torn.log'), (f'1 records, {ending}\n', zeros('torn.log', torn)), 'a torn record and zeros')
    same(nightlog('append', 'torn.log', told=[more])[1], zeros('torn.log', torn) + f'nightlog: torn.log: {ending}: nothing is appended\n', 'a torn record and zeros')
    same(written('torn.log'), torn, 'a torn record and zeros')


def two():
    """Two that append to one file: the one whose file has another length than it left says so, cuts nothing and stops; the other goes on."""
    def told(run, line, size):
        run.stdin.write(line.encode() + b'\n')
        patience = time.monotonic() + 10
        while os.path.getsize('two.log') < size:
            hold(time.monotonic() < patience and run.poll() is None, 'nothing was appended')
            time.sleep(0.001)

    write('two.log', b'')
    first, second = (subprocess.Popen([*COMMAND, 'append', 'two.log'], stdin=subprocess.PIPE, stderr=subprocess.PIPE, bufsize=0) for _ in range(2))
    told(first, 'tick 1 1', 4)
    second.stdin.close()
    same(second.stderr.read().decode(), appended('two.log', 0), 'the second one, which had nothing to append')
    second.wait()
    second = subprocess.Popen([*COMMAND, 'append', 'two.log'], stdin=subprocess.PIPE, stderr=subprocess.PIPE, bufsize=0)
    told(second, 'tick 2 2', 8)
    first.stdin.write(b'tick 1 3\n')
    same(first.stderr.read().decode(), 'nightlog: two.log: 8 bytes where this program left 4: another one writes to it\n' + appended('two.log', 1), 'the first one')
    first.wait()
    first.stdin.close()
    told(second, 'tick 2 4', 12)
    second.stdin.close()
    same(second.stderr.read().decode(), appended('two.log', 2), 'the second one')
    second.wait()
    same(written('two.log'), b''.join(map(record, ['tick 1 1', 'tick 2 2', 'tick 2 4'])), 'two on one file')
    for run in first, second:
        run.stderr.close()


def errors():
    usage = 'usage: nightlog append FILE < LINES; nightlog show FILE; nightlog check FILE\n'
    os.mkdir('folder')
    for words, said in [
        ((), usage), (('show',), usage), (('shows', 'a.log'), usage), (('show', 'a.log', 'b.log'), usage),
        (('show', 'none.log'), 'nightlog: none.log: No such file or directory\n'),
        (('check', 'none.log'), 'nightlog: none.log: No such file or directory\n'),
        (('append', 'none/night.log'), 'nightlog: none/night.log: No such file or directory\n'),
        (('append', 'folder'), 'nightlog: folder: Is a directory\n'),
        (('show', 'folder'), 'nightlog: folder: reading: Is a directory\n'),
        (('check', 'folder'), 'nightlog: folder: reading: Is a directory\n'),
        (('check', 'n' * 300), f'nightlog: {"n" * 300}: File name too long\n'),
        (('check', 'n/' * 2500), 'nightlog: FILE: File name too long\n'),
    ]:
        same(nightlog(*words), ('', said), words)
    hold(not os.path.exists('none.log'), 'show or check made a file')
    same(nightlog('append', 'folder/new.log'), ('', appended('folder/new.log', 0)), 'a new file in a folder')
    same(nightlog('check', 'folder/new.log'), ('0 records, END\n', ''), 'a new file')
    here = os.open('.', os.O_RDONLY)
    same(nightlog('append', 'folder/new.log', stdin=here)[1],
         'nightlog: reading standard input: Is a directory\n' + appended('folder/new.log', 0), 'an input that cannot be read')
    os.close(here)


def main():
    began = time.monotonic()
    with tempfile.TemporaryDirectory() as folder:
        os.chdir(folder)
        there_and_back()
        places = cuts()
        inside = kills()
        full_disk()
        flushes()
        changed()
        refusals()
        last_lines()
        zeros_at_the_end()
        two()
        errors()
        calls = traced.held(COMMAND)
        os.chdir('/')
    print(f'nightlog: {places} cuts, {KILLS} kills ({inside} amid their records), {calls} calls in their order, full disks and refusals as they should be, in {time.monotonic() - began:.0f} s')


main()
