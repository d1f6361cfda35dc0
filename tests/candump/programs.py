"""The programs of candump/ as they are called, and the line that `candump -L` has for a frame, from nothing of candump/."""
import subprocess
from pathlib import Path

ROOT = Path(__file__).resolve().parents[2]
PROGRAMS = ROOT / 'candump/target/release'


def called(*words, told=b'', **more):
    """Exit status, standard output and standard error."""
    done = subprocess.run(list(map(str, words)), input=told, capture_output=True, timeout=50, **more)
    return done.returncode, done.stdout, done.stderr.decode()


def candump2log(*words, told=b''):
    return called(PROGRAMS / 'candump2log', *words, told=told)


def log2candump(*words, told=b''):
    return called(PROGRAMS / 'log2candump', *words, told=told)


def is_frame(desk_line):
    return desk_line.startswith('frame ')


def candump_line(desk_line, start=0, interface='can{}'):
    """candump.c writes "(%010lu.%06lu) %*s %s"; start is in ms."""
    _, channel, time, identifier, form, payload = desk_line.split(' ')
    at = start + int(time)
    identifier = identifier.upper().zfill(8 if form == 'x' else 3)
    return f'({at // 1000:010}.{at % 1000:03}000) {interface.format(channel)} {identifier}#{payload.upper().strip("-")}\n'


def candump_text(desk_lines, **more):
    """Without the ticks, which have no line."""
    return ''.join(candump_line(line, **more) for line in desk_lines if is_frame(line)).encode()
