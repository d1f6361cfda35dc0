"""A night: each record of the log with its line of the replay, one after the other, and what that makes of each post."""
from . import clock, messages
from .curves import Reading, Readings
from .faults import Fault
from .groups import Block, Lane
from .nightlog import Raw

# sessions of a post and of a page, and refusals of one number that differ, which are told one by one
MOST_SESSIONS, PAGE_SESSIONS, MOST_KINDS = 300, 2400, 200


class Session:
    """01: "opens at a New_Charge_Session accepted while none is open, and closes at Charge_Session_Finished"."""

    def __init__(self, time, first):
        self.opened, self.first = time, first
        self.closed = self.state = None
        # the highest voltage, the strongest current, out or back, and the lowest insulation
        self.volt = self.amps = self.kohm = None

    def hear(self, status):
        if self.volt is None:
            self.volt, self.amps, self.kohm = status.volt, status.amps, status.kohm
            return
        self.volt, self.kohm = max(self.volt, status.volt), min(self.kohm, status.kohm)
        if abs(status.amps) > abs(self.amps):
            self.amps = status.amps


class Post:
    """`bounds` are the lowest and the highest of volts, amperes and kOhm; of `sessions` the first are kept, and all are counted."""

    def __init__(self, set_up, most_sessions):
        self.set_up, self.number, self.most_sessions = set_up, set_up.post, most_sessions
        self.sessions, self.all_sessions, self.session, self.latest = [], 0, None, None
        self.findings, self.readings, self.bounds = {}, Readings(), None
        self.accepted = self.refused = 0
        self.first = self.last = None

    def accept(self, count, raw, answer, now):
        """Its unrolled time; the first is that which the night's clock, at `now`, is closest to."""
        received, _, part, held = raw
        if self.last is not None:
            time = clock.later(self.last, received)
        else:
            time = received if now is None else clock.near(now, received)
        self.accepted += 1
        if self.first is None:
            self.first = time
        self.last = time
        for number in answer.numbers:
            lane = self.findings.get(number)
            if lane is None:
                lane = self.findings[number] = Lane()
            lane.add(time, count, raw, answer)
        # most of a night is these
        if part in messages.STATUSES:
            self.read(time, messages.status_in(held))
        elif part in messages.OTHERS:
            self.hear(time, messages.read(Raw(*raw).record()))
        return time

    def hear(self, time, message):
        if isinstance(message, messages.NewSession) and not self.session:
            self.session = self.latest = Session(time, message)
            self.all_sessions += 1
            if len(self.sessions) < self.most_sessions:
                self.sessions.append(self.session)
        elif isinstance(message, messages.Finished) and self.session:
            self.session.closed, self.session.state = time, message.state
            self.session = None

    def read(self, time, status):
        values = status[:3]
        self.readings.add(Reading(time, *values))
        if self.bounds is None:
            self.bounds = [[value, value] for value in values]
        else:
            for bound, value in zip(self.bounds, values):
                if value < bound[0]:
                    bound[0] = value
                elif value > bound[1]:
                    bound[1] = value
        if self.session:
            self.session.hear(status)

    def total(self):
        return sum(lane.total for lane in self.findings.values())


class Night:
    """`begin` and `end` are the first and the last accepted time, none where nothing was accepted; `refused` is the set-up that ended the replay, if one
    did. Times are unrolled, post by post, as the watch counts them."""

    def __init__(self, name, set_ups, refused=None):
        self.name, self.refused, self.ending, self.records = name, refused, None, 0
        # each post has the same share of a page, so that none has its sessions cut short by another's
        share = min(MOST_SESSIONS, PAGE_SESSIONS // max(1, len(set_ups)))
        self.posts = [Post(set_up, share) for set_up in set_ups]
        self.by_channel = {post.set_up.channel: post for post in self.posts}
        # by the number of the refusal: its marks, and those alike, of one channel, identifier and start bit; `others` are further ones, counted
        self.refusals, self.kinds, self.others = {}, {}, {}
        self.begin = self.end = self.now = None

    def play(self, log, answers):
        """A line for each record."""
        records = iter(log)
        for raw in records:
            answer = next(answers, None)
            if answer is None:
                raise Fault(f'{self.records} lines for {self.records + 1 + sum(1 for _ in records)} records')
            self.records += 1
            self.take(self.records, raw, answer)
        if more := sum(1 for _ in answers):
            raise Fault(f'{self.records + more} lines for {self.records} records')
        self.ending = log.ending

    def skip(self, log, answers):
        """Of a replay that a refused set-up ended there is no line."""
        if next(answers, None):
            raise Fault(f'lines, though line {self.refused.line} of the posts is refused')
        self.records = sum(1 for _ in log)
        self.ending = log.ending

    def take(self, count, raw, answer):
        post = self.by_channel.get(raw[1])
        if answer.post != (post.number if post else None):
            raise Fault(f'line {count}: not the post that holds channel {raw[1]}')
        if answer.unknown:
            raise Fault(f'line {count}: {answer.unknown} is unknown here')
        if answer.refusal:
            self.refuse(count, raw, answer)
            if post:
                post.refused += 1
            return
        try:
            time = post.accept(count, raw, answer, self.now)
        except ValueError as error:
            raise Fault(f'line {count}: accepted, but it is {error}') from error
        if self.begin is None:
            self.begin = self.end = time
        elif time > self.end:
            self.end = time
        elif time < self.begin:
            self.begin = time
        self.now = time

    def refuse(self, count, raw, answer):
        """It is drawn at the time of the latest accepted record before it: its own may be what is wrong with it."""
        number = answer.refusal
        self.refusals.setdefault(number, Lane()).add(self.now, count, raw, answer)
        kinds, kind = self.kinds.setdefault(number, {}), (raw[1], raw[2], answer.start, bool(raw[3]))
        if kind in kinds:
            kinds[kind].add(raw[0], count, raw)
        elif len(kinds) < MOST_KINDS:
            kinds[kind] = Block(raw[0], count, raw, answer)
        elif number in self.others:
            self.others[number].add(raw[0], count, raw)
        else:
            self.others[number] = Block(raw[0], count, raw, answer)

    @property
    def accepted(self):
        return sum(post.accepted for post in self.posts)

    def found(self):
        """Number to how often, over all posts."""
        numbers = sorted({number for post in self.posts for number in post.findings})
        return {number: sum(post.findings[number].total for post in self.posts if number in post.findings) for number in numbers}
