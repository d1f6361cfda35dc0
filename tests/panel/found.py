"""What the replay finds on each post, and how the page has to say it."""
import subprocess

from depot import PROGRAMS, RUN
from documents import FINDINGS
from report.clock import lasting, told

POSTS = 16
ROUND = 2**32


def answers(posts, log):
    """Post and findings of each record; None for one that is refused."""
    lines = subprocess.run([*RUN, PROGRAMS / 'replay', posts, log], capture_output=True, text=True, check=True).stdout.splitlines()
    words = (line.split(' ') for line in lines)
    return [(int(post), int(answer[1:])) if answer.startswith('A') else None for _, post, answer, *_ in words]


class Found:
    """Of one post, up to now."""

    def __init__(self):
        self.latest, self.each = None, {}

    def hear(self, word, time):
        if word:
            self.latest = word, time
            self.each.update({k: time for k in range(1, len(FINDINGS) + 1) if word >> (k - 1) & 1})

    def box(self, last):
        """The latest finding, as of the post's latest accepted time."""
        if self.latest is None:
            return None
        word, time = self.latest
        names = [f'F{k} {words}' for k, words in enumerate(FINDINGS, 1) if word >> (k - 1) & 1]
        return [f"Latest finding {told(time)}, {lasting((last - time) % ROUND)} before the post's latest", names]

    def lines(self, tallies):
        """Of each finding that occurred its words, its tally and the time of its latest."""
        return [f'F{k} {FINDINGS[k - 1]}: {tallies[k - 1][1]}, latest {told(time)}' for k, time in sorted(self.each.items())]


def found(answers, lines):
    """On each post, of these records."""
    posts = [Found() for _ in range(POSTS)]
    for answer, line in zip(answers, lines):
        if answer:
            posts[answer[0]].hear(answer[1], int(line.split(' ')[2]))
    return posts
