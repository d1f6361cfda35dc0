"""Marks that lie too close together to be told apart become one, with their number. Nothing is left out: a group counts all of its marks, and lists the
first of them."""
from array import array

# widths in a drawing, of a mark and of a digit or sign
MARK, DIGIT = 7, 8
# blocks that are kept of a lane; with so many a block is under four units of a drawing wide, less than a mark
MOST = 512
# marks of alike that are listed one by one, of a page with few of them
LISTED = 200
# marks on a page, and times in its lists
MOST_MARKS, MOST_LISTED = 2500, 40000


class Block:
    """Marks in a row: how many, their earliest and latest time, the first and the last record's count, the first mark's raw record and answer, and
    record and time of the first marks in the order in which they came."""
    __slots__ = ('number', 'low', 'high', 'first', 'last', 'raw', 'answer', 'listed')

    def __init__(self, time, count, raw, answer):
        self.number, self.low, self.high, self.first, self.last, self.raw, self.answer = 1, time, time, count, count, raw, answer
        self.listed = array('Q', (count, raw[0]))

    def add(self, time, count, raw):
        self.number += 1
        self.low, self.high, self.last = min(self.low, time), max(self.high, time), count
        if len(self.listed) < 2 * LISTED:
            self.listed.extend((count, raw[0]))

    def joined(self, other):
        """With a block of later times."""
        both = Block(self.low, self.first, self.raw, self.answer)
        both.number, both.high = self.number + other.number, max(self.high, other.high)
        both.first, both.last = min(self.first, other.first), max(self.last, other.last)
        both.listed = (self.listed + other.listed)[:2 * LISTED]
        return both

    def each(self, most):
        """Count and time of the first records."""
        return list(zip(self.listed[:2 * most:2], self.listed[1:2 * most:2]))


class Lane:
    """The marks of one number: of a post's finding, or of a refusal. Marks of one stretch of time are a block, and stretches become wider where there are
    too many blocks: nobody knows the night's length before its end."""

    def __init__(self, most=MOST):
        self.total, self.blocks, self.shift, self.most = 0, {}, 0, most
        # what was refused before anything was accepted has no time
        self.early = None

    def add(self, time, count, raw, answer):
        self.total += 1
        if time is None:
            block = self.early
            if block is None:
                self.early = Block(0, count, raw, answer)
            else:
                block.add(0, count, raw)
            return
        block = self.blocks.get(time >> self.shift)
        if block is not None:
            block.add(time, count, raw)
            return
        self.blocks[time >> self.shift] = Block(time, count, raw, answer)
        while len(self.blocks) > self.most:
            self.widen()

    def widen(self):
        self.shift += 1
        wider = {}
        for place, block in sorted(self.blocks.items()):
            before = wider.get(place >> 1)
            wider[place >> 1] = block if before is None else before.joined(block)
        self.blocks = wider

    def in_order(self, begin):
        """The blocks by their times; the early ones stand at the night's beginning."""
        blocks = sorted(self.blocks.values(), key=lambda block: (block.low, block.first))
        if self.early:
            self.early.low = self.early.high = begin
            blocks.insert(0, self.early)
        return blocks


class Groups:
    """The groups of all lanes as a page draws and lists them. Where a page would have too many, all marks of a cell of the drawing become one."""

    def __init__(self, night, scale):
        self.scale, cell = scale, 0
        self.group(night, cell)
        while self.count() > MOST_MARKS:
            cell += 2 * MARK
            self.group(night, cell)
        self.listed = max(10, min(LISTED, MOST_LISTED // max(1, self.count() + sum(len(kinds) for kinds in night.kinds.values()))))

    def group(self, night, cell):
        self.findings = {post.number: self.of(post.findings, night.begin, cell) for post in night.posts}
        self.refusals = self.of(night.refusals, night.begin, cell)

    def of(self, lanes, begin, cell):
        """Number to groups, the numbers ascending."""
        return {number: grouped(lane.in_order(begin), self.scale, cell) for number, lane in sorted(lanes.items())}

    def count(self):
        return sum(len(groups) for lanes in (*self.findings.values(), self.refusals) for groups in lanes.values())

    def all_of(self, post):
        """(number, group) of a post's findings, in the order of the log."""
        return sorted(((number, group) for number, groups in self.findings[post.number].items() for group in groups), key=lambda pair: (pair[1].first, pair[0]))


def grouped(blocks, scale, cell=0):
    """Blocks in the order of their times. A group has room behind it for its number, unless all of a cell of such a width is a group."""
    groups = []
    for block in blocks:
        if groups and is_near(groups[-1], block, scale, cell):
            groups[-1] = groups[-1].joined(block)
        else:
            groups.append(block)
    return groups


def is_near(group, block, scale, cell):
    if cell:
        return scale.x(group.low) // cell == scale.x(block.low) // cell
    return scale.x(block.low) - scale.x(group.high) < room(group.number)


def room(number):
    return MARK if number == 1 else MARK + DIGIT * len(times(number))


def times(number):
    return f'×{number:,}'
