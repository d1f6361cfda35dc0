"""LINES: what a replay writes, a line for each record (02, Req 05), read one by one."""
import re
from typing import NamedTuple, Optional

from .faults import Fault
from .words import FINDINGS, REFUSALS

LINE = re.compile(rb'([1-9]\d*) (?:(?P<post>\d+) (?:A(?P<findings>\d+)|R(?:5 (?P<start>\d+)|(?P<refusal>[2-46-9]|[1-9]\d)))|- R1)')
# more than 02's longest line has
LONGEST = 64
# answers that are kept in mind
KNOWN = 10000


class Answer(NamedTuple):
    """Refusal 0: accepted, and `numbers` are the findings. Refusal 1 has no post, and 5 alone has a start bit. `unknown` is a number that no paper has."""
    post: Optional[int]
    numbers: tuple = ()
    refusal: int = 0
    start: Optional[int] = None
    unknown: Optional[str] = None


def read(file):
    """The answers of a file's lines; the last may lack its line feed."""
    known, count = {}, 0
    while line := file.readline(LONGEST):
        count += 1
        head, _, tail = line.partition(b' ')
        answer = known.get(tail)
        if answer is None or head != b'%d' % count:
            answer = told(count, line.removesuffix(b'\n'))
            if len(known) < KNOWN:
                known[tail] = answer
        yield answer


def told(count, line):
    found = LINE.fullmatch(line)
    if found is None:
        raise Fault(f'line {count}: no line of a replay')
    if int(found[1]) != count:
        raise Fault(f'line {count}: counts {int(found[1])}')
    post, findings, start, refusal = (number and int(number) for number in found.group('post', 'findings', 'start', 'refusal'))
    if findings is not None:
        # finding k is bit k - 1
        numbers = tuple(k + 1 for k in range(findings.bit_length()) if findings >> k & 1)
        unknown = next((f'finding {number}' for number in numbers if number not in FINDINGS), None)
        return Answer(post, numbers, unknown=unknown)
    number = 1 if post is None else 5 if start is not None else refusal
    return Answer(post, refusal=number, start=start, unknown=None if number in REFUSALS else f'refusal {number}')
