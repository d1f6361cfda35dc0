"""Two night logs compared by target/bin/compare, with the exit status of cmp.

usage: compare FIRST SECOND [FROM TO]
  FIRST, SECOND  night logs, files of any length; at most 512 records of each are compared
  FROM, TO       only the records whose time in ms lies between are compared, FROM and TO included
It prints
  first N LINE   a record that FIRST has and SECOND has not, counting repeats, of which the later ones are listed; second N LINE likewise;
                 LINE is its line of nightlog show and N that line's number, with FROM TO too: `nightlog show FIRST | sed -n Np` prints it
  channel C place P: first N LINE; second N LINE
                 a channel whose two sequences differ, and the records at the first place where they do, from 1 among those of the channel that are
                 compared; - for a sequence that has ended
  compared N and M records
  same, differ   the last line; same where each channel's records are, in their order, however the channels stand between each other
Exit status: 0 same; 1 differ; 2 a log is cut or malformed (R26, with the byte of the file) or has more than 512 records to compare (R27), something could not
be read or written, or the call is wrong.
"""
import sys

from messages import Messages
from passing import FAILED, WELL, asked, run

SAME, DIFFER = 0, 1


class Judge:
    """Of the last line, where nothing was said on standard error."""

    def __init__(self):
        self.last, self.silent = b'', True

    def told(self, line):
        self.last = line

    def said(self, _):
        self.silent = False

    def status(self):
        return {b'same': SAME, b'differ': DIFFER}.get(self.last, FAILED) if self.silent else FAILED


def main(words):
    if asked('compare', words, __doc__.split('\n\n', 1)[1]):
        return WELL
    judge = Judge()
    done = run('compare', words, Messages([], judge.said).hear, Messages([], judge.told).hear)
    return judge.status() if done else FAILED


sys.exit(main(sys.argv[1:]))
