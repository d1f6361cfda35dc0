"""gateway.py FOLDER PROCESSOR RUN GATEWAY: runs examples/gateway.c, which RUN and GATEWAY start, over recordings of the nights. What all of them found, and all
logs, are left in FOLDER. What is not as it should be ends it with status 1."""
import os
import re
import signal
import socket
import struct
import subprocess
import sys
import time
from pathlib import Path

ROOT = Path(__file__).resolve().parents[2]
sys.path.append(str(ROOT / 'tools'))

from machine import command

FOLDER, PROCESSOR = Path(sys.argv[1]), sys.argv[2]
GATEWAY = [*sys.argv[3].split(), sys.argv[4]]
NIGHTS = ('march', 'faults', 'safety', 'clean', 'sixteen', 'stop', 'vehicle')
LOG = FOLDER / 'gateway.log'


def same(got, want, what):
    if got != want:
        at = max(0, len(os.path.commonprefix([got, want])) - 100)
        sys.exit(f'tests/examples: {PROCESSOR}: {what} | got {got[at:at + 400]!r} | want {want[at:at + 400]!r}')


def gateway(posts, recording, *interfaces):
    done = subprocess.run([*GATEWAY, posts, LOG, *interfaces], input=recording, capture_output=True, timeout=100)
    return done.returncode, done.stdout.decode(), done.stderr.decode()


def by_replay(posts):
    """What a replay of the gateway's own log finds, as the gateway tells it; and how many were refused."""
    shown = subprocess.run([*command('nightlog'), 'show', LOG], capture_output=True, text=True, check=True).stdout.splitlines()
    played = subprocess.run([*command('replay'), posts, LOG], capture_output=True, text=True, check=True).stdout.splitlines()
    found = []
    for line, answer in zip(shown, played, strict=True):
        if numbers := re.fullmatch(r'\d+ \d+ A([1-9]\d*)', answer):
            words = line.split(' ')[:5 if line.startswith('frame') else 3]
            found.append(' '.join(words + [f'F{k}' for k in range(1, 33) if int(numbers[1]) >> (k - 1) & 1]))
    return ''.join(f'{line}\n' for line in found), sum(' R' in answer for answer in played), shown


def recording_of(night):
    """By candump's converter, from 2026 on."""
    return subprocess.run([ROOT / 'tools/log2candump', '--start', '1773532800.250', ROOT / f'nights/{night}.log', '-'], capture_output=True, check=True).stdout


def nights():
    told, logs = '', b''
    for night in NIGHTS:
        posts, recording = ROOT / f'nights/{night}.posts', recording_of(night)
        LOG.unlink(missing_ok=True)
        status, found, said = gateway(posts, recording)
        want, refused, shown = by_replay(posts)
        same((status, found), (0, want), f'{night}: what was found')
        same(said, f'gateway: {refused} frames and ticks refused\n', f'{night}: what was refused')
        frames = [line for line in shown if line.startswith('frame')]
        same(len(frames), recording.count(b'\n'), f'{night}: the frames in the log')
        times = sorted({int(line.split(' ')[2]) for line in shown if line.startswith('tick')})
        same({late - early for early, late in zip(times, times[1:])}, {100}, f'{night}: from tick to tick')
        told, logs = told + found, logs + LOG.read_bytes()
    if not all(re.search(rf' F{k}\b', told) for k in (1, 2, 3, 4, 9)):
        sys.exit('tests/examples: the nights find less than they should')
    (FOLDER / f'found.{PROCESSOR}').write_text(told)
    (FOLDER / f'log.{PROCESSOR}').write_bytes(logs)
    return told.count('\n')


def log_first():
    """What is no frame is left out and counted; a piece at the log's end is cut off, and the records before it stay; a malformed log is left as it is."""
    posts = ROOT / 'nights/march.posts'
    lines = b'(1.000000) can4 123#R\n(1.000000) can4 0006B000##01\n(1.000000) can 0006B000#01\n(1.000000) can4 0006B000#0\nhello\n(1.000000) can4 0006B000#02\n'
    LOG.write_bytes(b'\xac\x02\x04\x00\x09' + b'\x80')
    status, found, said = gateway(posts, lines)
    same((status, said), (0, f'gateway: {LOG}: cut back to byte 5\ngateway: 5 lines of the recording are no frames\ngateway: 0 frames and ticks refused\n'), 'a cut log')
    same(by_replay(posts)[2], ['tick 4 300', 'frame 4 1000 6b000 x 02'], 'behind a cut')
    for log in b'\x00\x20\x00\x09', b'\xff\xff\xff\xff\xff':
        LOG.write_bytes(log)
        same(gateway(posts, lines), (1, '', f'gateway: {LOG}: a record is malformed, and nothing is appended\n'), 'a malformed log')
        same(LOG.read_bytes(), log, 'a malformed log')
    LOG.unlink()
    (FOLDER / 'posts').write_text('setup 0 4 5000 2000 500 500\nsetup 1 4 5000 2000 500 500\n')
    same(gateway(FOLDER / 'posts', lines), (1, '', 'gateway: line 2 of the posts: the set-up is refused\n'), 'a refused set-up')
    same(gateway(posts, lines, 'none9')[:2], (1, ''), 'an interface that is not there')


def on_a_bus():
    """Frames from a vcan interface with a number, where there is one and the processor's own socket can be had."""
    names = sorted(path.name for path in Path('/sys/class/net').glob('vcan[0-9]*'))
    if not names or len(GATEWAY) > 1:
        return 'no vcan interface here' if not names else 'no bus under an emulator'
    posts = FOLDER / 'posts'
    channel = int(re.search(r'\d+$', names[0])[0])
    posts.write_text(f'setup 0 {channel} 5000 2000 500 500\n')
    LOG.unlink(missing_ok=True)
    run = subprocess.Popen([*GATEWAY, posts, LOG, names[0]], stdout=subprocess.PIPE, stderr=subprocess.PIPE, text=True)
    time.sleep(0.5)
    with socket.socket(socket.PF_CAN, socket.SOCK_RAW, socket.CAN_RAW) as bus:
        bus.bind((names[0],))
        bus.send(struct.pack('=IB3x8s', 0x6b003 | socket.CAN_EFF_FLAG, 7, bytes.fromhex('a00f0000000048')))
    time.sleep(0.5)
    run.send_signal(signal.SIGTERM)
    found, said = run.communicate(timeout=10)
    want, refused, _ = by_replay(posts)
    same((run.returncode, found, said), (0, want, f'gateway: {refused} frames and ticks refused\n'), 'on a bus')
    if not re.search(r'(?m)^frame .* 6b003 x .*F3', found):
        sys.exit(f'tests/examples: on a bus only {found!r} was found')
    return f'frames from {names[0]} too'


found = nights()
log_first()
print(f'gateway, {PROCESSOR}: {found} findings in {len(NIGHTS)} nights, those of the replay of its own log; {on_a_bus()}')
