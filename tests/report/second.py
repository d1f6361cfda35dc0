"""What the second program answers: to a desk script, of a log, of a night. Nothing of report/ is used."""
import re
import subprocess
from pathlib import Path

ROOT = Path(__file__).resolve().parents[2]
SECOND = ROOT / 'second/target/release/second'


def told(*words, script=None):
    return subprocess.run([SECOND, *words], input=script, capture_output=True, text=True, check=True, timeout=60).stdout.splitlines()


def answers(steps):
    return told('answer', script=''.join(f'{step}\n' for step in steps))


def records(log):
    """The records of a log as desk lines, and how it ends."""
    told, = records_of([log])
    return told


def records_of(logs):
    found = (re.fullmatch(r'L \d+((?: [tf],\S+)*) (\S+.*)', answer) for answer in answers(f'logr {log.hex() or "-"}' for log in logs))
    return [([desk_line(record) for record in each[1].split()], each[2]) for each in found]


def desk_line(record):
    word, time, channel, *frame = record.split(',')
    return ' '.join([{'t': 'tick', 'f': 'frame'}[word], channel, time, *frame])


def replay(posts, log):
    """The lines of a night, of which posts and log are files, and how it ends."""
    *lines, ending = told('replay', posts, log)
    return lines, ending
