"""The time axis that all drawings of a page share."""
from . import clock
from .markup import short, tag, text

WIDTH, LEFT, RIGHT = 1000, 96, 44
PLOT = WIDTH - LEFT - RIGHT
MOST_TICKS = 11


class Scale:
    def __init__(self, begin, end):
        self.begin, self.end = begin, end

    def x(self, time):
        return LEFT + PLOT * (time - self.begin) / max(1, self.end - self.begin)

    def ticks(self):
        return clock.ticks(self.begin, self.end, MOST_TICKS)

    def grid(self, top, bottom):
        return tag('path', class_='grid', d=''.join(f'M{short(self.x(time))} {short(top)}V{short(bottom)}' for time, _ in self.ticks()))

    def labels(self, y):
        return ''.join(tag('text', text(words), class_='tick', x=self.x(time), y=y, text_anchor='middle') for time, words in self.ticks())
