"""POSTS: the set-ups of a replay, lines `setup POST CHANNEL VOLT CHG DIS W [SENSOR [IFACE]]` of the desk, with `#` comments."""
import re
from typing import NamedTuple

from .faults import Fault

NUMBER = r' (0|[1-9]\d{0,9})'
SET_UP = re.compile('setup' + NUMBER * 6 + f'(?:{NUMBER}(?:{NUMBER})?)?', re.ASCII)


class SetUp(NamedTuple):
    """Volts and amperes are whole tenths, the silence W is in ms; an older post has the pages of 001."""
    post: int
    channel: int
    volt: int
    charge: int
    discharge: int
    silence: int
    yes_no: bool
    older: bool


class Refused(NamedTuple):
    """The line whose set-up ends the replay before its first record, and the refusal's number."""
    line: int
    number: int


def read(text):
    """The set-up of each post, in ascending order, and the first that is refused, behind which nothing is read.
    01: "Setting up a post again, on its own channel or a free one, frees its old channel"."""
    posts = {}
    for number, line in enumerate(text.split('\n'), 1):
        if line == '' or line.startswith('#'):
            continue
        found = SET_UP.fullmatch(line)
        numbers = [int(each) for each in found.groups(default='0')] if found else [2**32]
        if max(numbers) >= 2**32:
            raise Fault(f'line {number}: not setup POST CHANNEL VOLT CHG DIS W [SENSOR [IFACE]]')
        if refusal := judged(posts, *numbers):
            return in_order(posts), Refused(number, refusal)
        *limits, sensor, interface = numbers
        posts[numbers[0]] = SetUp(*limits, yes_no=sensor == 1, older=interface == 1)
    return in_order(posts), None


def in_order(posts):
    return [posts[post] for post in sorted(posts)]


def judged(posts, post, channel, volt, charge, discharge, silence, sensor, interface):
    """01's and 02's refusal of a set-up, the lowest that applies; 0 where there is none."""
    if post > 15:
        return 9
    if channel > 31:
        return 10
    if any(other.channel == channel for other in posts.values() if other.post != post):
        return 11
    fits = 1 <= volt <= 65535 and 1 <= charge <= 32767 and discharge <= 32767 and 100 <= silence <= 60000
    return 0 if fits and sensor <= 1 and interface <= 1 else 12
