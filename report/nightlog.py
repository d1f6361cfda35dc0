"""The records of a night log, by the words of 02, Req 01, piece by piece: a log of any length takes the memory of a piece."""
import re
from typing import NamedTuple, Optional

PIECE, LONGEST = 65536, 20

# Numbers: groups of seven bits, low group first, the high bit set on all but the last; shortest form only, at most five groups and 32 bits. A part is an
# identifier doubled, and one more for an extended one: 11 bits or 29.
NUMBER = rb'(?:[\x00-\x7f]|[\x80-\xff]{1,3}[\x01-\x7f]|[\x80-\xff]{4}[\x01-\x0f])'
EVEN, EVEN_MORE = (b'[' + b''.join(b'\\x%02x' % n for n in range(first, first + 128, 2)) + b']' for first in (0, 128))
ODD, ODD_MORE = (b'[' + b''.join(b'\\x%02x' % n for n in range(first, first + 128, 2)) + b']' for first in (1, 129))
STANDARD = rb'%s|%s[\x01-\x1f]' % (EVEN, EVEN_MORE)
EXTENDED = rb'%s|%s(?:[\x80-\xff]{0,2}[\x01-\x7f]|[\x80-\xff]{3}[\x01-\x03])' % (ODD, ODD_MORE)
# a length and as many bytes
HELD = b'|'.join(rb'\x%02x.{%d}' % (length, length) for length in range(9))
FORM = rb'%s[\x00-\x1f](?:(?:%s|%s)(?:%s)|\x00\x09)' % (NUMBER, STANDARD, EXTENDED, HELD)
RECORD = re.compile(rb'(%s)([\x00-\x1f])(?:(%s|%s)(%s)|\x00\x09)' % (NUMBER, STANDARD, EXTENDED, HELD), re.DOTALL)
RECORDS = re.compile(rb'(?:%s)*' % FORM, re.DOTALL)


class Record(NamedTuple):
    time: int
    channel: int
    identifier: Optional[int]
    extended: bool
    payload: bytes

    @property
    def is_tick(self):
        return self.identifier is None

    def desk_line(self):
        if self.is_tick:
            return f'tick {self.channel} {self.time}'
        return f'frame {self.channel} {self.time} {self.identifier:x} {"x" if self.extended else "s"} {self.payload.hex() or "-"}'


class Raw(NamedTuple):
    """A record as it stands in the log but for its time and channel: its identifier's part, and length and payload together; both empty for a tick."""
    time: int
    channel: int
    part: bytes
    held: bytes

    def record(self):
        if not self.held:
            return Record(self.time, self.channel, None, False, b'')
        part = value(self.part)
        return Record(self.time, self.channel, part // 2, part % 2 == 1, self.held[1:])


class Ending(NamedTuple):
    """Why no more is read, and the byte behind the last whole record."""
    cut: bool
    refusal: Optional[int]
    byte: int


class Cut(Exception):
    pass


class Bad(Exception):
    def __init__(self, refusal):
        self.refusal = refusal


class Log:
    """Its whole records, each as the parts of a Raw; behind the last of them `ending` is told."""

    def __init__(self, file, piece=PIECE):
        self.file, self.piece, self.ending = file, piece, None

    def __iter__(self):
        at, rest = 0, b''
        while self.ending is None:
            piece = self.file.read(self.piece)
            rest += piece
            size = RECORDS.match(rest).end()
            for time, channel, part, held in RECORD.findall(rest, 0, size):
                yield value(time), channel[0], part, held
            at, rest = at + size, rest[size:]
            if not piece or len(rest) >= LONGEST:
                self.ending = ending(rest, at)


def ending(rest, at):
    """What stands behind the whole records. The earliest bad part decides, and goes before a cut."""
    try:
        if rest:
            judge(rest)
    except Cut:
        return Ending(True, None, at)
    except Bad as bad:
        return Ending(False, bad.refusal, at)
    return Ending(False, None, at)


def judge(log):
    """Of bytes that begin with no whole record."""
    _, at = number_at(log, 0)
    channel, at = number_at(log, at)
    if channel > 31:
        raise Bad(17)
    part, at = number_at(log, at)
    if part % 2 == 0 and part // 2 > 2047:
        raise Bad(18)
    if part % 2 == 1 and part // 2 >= 2**29:
        raise Bad(19)
    length, at = number_at(log, at)
    if length > 9:
        raise Bad(20)
    if length == 9 and part != 0:
        raise Bad(21)
    raise Cut


def number_at(log, at):
    number = 0
    for place in range(5):
        if at + place == len(log):
            raise Cut
        group = log[at + place]
        number |= (group & 0x7f) << 7 * place
        if group < 0x80:
            if group == 0 and place > 0 or number >= 2**32:
                raise Bad(16)
            return number, at + place + 1
    raise Bad(16)


def value(groups):
    """Of a number that is well-formed; four groups are the times of most of a night."""
    if len(groups) == 4:
        return groups[0] & 127 | (groups[1] & 127) << 7 | (groups[2] & 127) << 14 | groups[3] << 21
    number = 0
    for group in reversed(groups):
        number = number << 7 | group & 127
    return number
