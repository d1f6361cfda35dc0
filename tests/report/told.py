"""What a replay tells of a night, from its lines and the records as desk lines: all that must be on the page."""
import struct
from typing import NamedTuple, Optional

ROUND = 2**32


class Finding(NamedTuple):
    """`time` is as received."""
    post: int
    number: int
    time: int
    count: int


class Refusal(NamedTuple):
    """`time` is as received, `came` the latest accepted time before it, unrolled."""
    number: int
    count: int
    channel: int
    post: Optional[int]
    time: int
    start: Optional[int]
    line: str
    came: Optional[int]


def set_ups(posts):
    return [line for line in posts.splitlines() if line and not line.startswith('#')]


class Told:
    """`times`, and those of sessions and statuses, are unrolled: of each post by its own differences, and its first is the closest to the time before.
    `at` has those of the accepted records by their count."""

    def __init__(self, posts, heard, lines):
        self.channels = {int(line.split(' ')[1]): int(line.split(' ')[2]) for line in set_ups(posts)}
        self.older = {int(line.split(' ')[1]) for line in set_ups(posts) if line.split(' ')[8:] == ['1']}
        self.records, self.accepted = len(lines), {post: 0 for post in self.channels}
        self.findings, self.refusals = [], []
        self.sessions = {post: [] for post in self.channels}
        self.statuses = {post: [] for post in self.channels}
        self.times, self.at, self.latest = [], {}, {}
        for count, (line, step) in enumerate(zip(lines, heard, strict=True), 1):
            self.take(count, line.split(' '), step.split(' '), step)

    def take(self, count, line, step, heard):
        post, answer, channel, time = line[1], line[2], int(step[1]), int(step[2])
        if answer[0] == 'R':
            self.refusals.append(Refusal(int(answer[1:]), count, channel, None if post == '-' else int(post), time,
                                         int(line[3]) if line[3:] else None, heard, self.times[-1] if self.times else None))
            return
        post, found = int(post), int(answer[1:])
        self.accepted[post] += 1
        self.findings += [Finding(post, k, time, count) for k in range(1, found.bit_length() + 1) if found >> (k - 1) & 1]
        at = self.latest[post] = self.at[count] = self.unrolled(post, time)
        self.times.append(at)
        if step[0] == 'frame':
            self.frame(post, at, *step[3:])

    def unrolled(self, post, time):
        """Of all times with these low 32 bits."""
        if post in self.latest:
            turns = (self.latest[post] - time + ROUND - 1) // ROUND
            return time + turns * ROUND
        before = self.times[-1] if self.times else time
        return min((time + (before // ROUND + turn) * ROUND for turn in (-1, 0, 1)), key=lambda each: abs(each - before))

    def frame(self, post, time, identifier, form, payload):
        sessions = self.sessions[post]
        is_open = bool(sessions) and sessions[-1][1] is None
        opening, finished, status = ('68001', '68007', '60010') if post in self.older else ('6b001', '6b004', '63000')
        if (identifier, form) == (opening, 'x') and not is_open:
            sessions.append((time, None))
        elif (identifier, form) == (finished, 'x') and is_open:
            sessions[-1] = (sessions[-1][0], time)
        elif (identifier, form) == (status, 'x'):
            volt, amps, _, _, _, insulation = struct.unpack('<HhBBBB', bytes.fromhex(payload))
            self.statuses[post].append((time, volt / 10, amps / 10, 2 * insulation))


def clock(time):
    """As it was received."""
    seconds, ms = divmod(time % ROUND, 1000)
    return f'{seconds // 3600}:{seconds % 3600 // 60:02}:{seconds % 60:02}.{ms:03}'


def ms(words):
    """A time on the page, with or without its milliseconds."""
    hours, minutes, seconds = words.split(':')
    return round(1000 * (3600 * int(hours) + 60 * int(minutes) + float(seconds)))
