"""The desk, by target/bin/desk, with an exit status.

usage: desk [lent] < SCRIPT
  SCRIPT   steps, a line for each; every one is answered with a line
  lent     runs the steps on a lent table
Exit status: 0 all well; 1 a line that is no step (?), a set-up that is refused, or a log of logr or replay that is cut or bad;
2 something could not be read or written, or the call is wrong. Any other refusal is an answer like every other.
"""
import sys
from collections import deque

from messages import Messages
from passing import FAILED, PARTLY, WELL, asked, run

# more than the words of the steps that are told apart
HEAD = 8


class Script:
    """The word of each step whose answer is still to come. Of a line no more than its head is kept: a comment may be of any length."""

    def __init__(self):
        self.words, self.head = deque(), b''

    def hear(self, piece):
        first, *rest = piece.split(b'\n')
        self.head += first[:HEAD - len(self.head)]
        for line in rest:
            self.end_line()
            self.head = line[:HEAD]
        if not piece:
            self.end_line()

    def end_line(self):
        if self.head and not self.head.startswith(b'#'):
            self.words.append(self.head.split(b' ')[0])
        self.head = b''


class Judge:
    def __init__(self):
        self.script, self.worst = Script(), WELL

    def answered(self, line):
        word = self.script.words.popleft() if self.script.words else b''
        refused = word == b'setup' and line.startswith(b'R')
        ended = word in (b'logr', b'replay') and not line.endswith(b'END')
        if line == b'?' or refused or ended:
            self.worst = max(self.worst, PARTLY)

    def said(self, _):
        """The desk says nothing on standard error but what it could not do."""
        self.worst = FAILED


def main(words):
    if asked('desk', words, __doc__.split('\n\n', 1)[1]):
        return WELL
    judge = Judge()
    done = run('desk', words, Messages([], judge.said).hear, Messages([], judge.answered).hear, judge.script.hear)
    return judge.worst if done else FAILED


sys.exit(main(sys.argv[1:]))
