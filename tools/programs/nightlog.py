"""The night log in a file, by target/bin/nightlog, with an exit status.

usage: nightlog append FILE < LINES; nightlog show FILE; nightlog check FILE
  append   writes LINES, desk lines frame CHANNEL TIME ID x|s HEX and tick CHANNEL TIME, each with its line feed, to the end of FILE
  show     prints the records of FILE as such lines
  check    counts the records of FILE and tells how it ends: END, CUT@BYTE or BAD R<n>@BYTE
Exit status: 0 all well; 1 the log is cut or bad or ends in zeros, or a line was left out; 2 something could not be read, written or flushed, another
program writes to FILE, or the call is wrong.
"""
import os
import re
import sys

from messages import Messages
from passing import FAILED, PARTLY, WELL, asked, run

LEFT_OUT = re.compile(rb'nightlog: line \d+: (no frame or tick|no line feed|R\d+)')
OF_A_LINE = re.compile(rb'nightlog: line \d+: .+')
# behind the file's name
APPENDED = re.compile(rb'\d+ records appended')
CUT_OR_BAD = re.compile(rb'cut back to byte \d+, \d+ bytes of a piece left over|(CUT@\d+|BAD R\d+@\d+)(: nothing is appended)?'
                        rb'|\d+ zero bytes at its end, from byte \d+ on')
COUNTED = re.compile(rb'\d+ records, (END|CUT@\d+|BAD R\d+@\d+)')


class Judge:
    def __init__(self, words):
        self.worst, self.ended = WELL, False
        self.about = b'nightlog: ' + os.fsencode(words[1]) + b': ' if len(words) == 2 else b'\n'

    def of(self, message):
        """A file may be named `line 7`: what is told of a line has the program's own words first. What is not known is a failure."""
        if LEFT_OUT.fullmatch(message):
            return PARTLY
        if message.startswith(self.about):
            rest = message[len(self.about):]
            self.ended = self.ended or APPENDED.fullmatch(rest) is not None
            return WELL if APPENDED.fullmatch(rest) else PARTLY if CUT_OR_BAD.fullmatch(rest) else FAILED
        return PARTLY if OF_A_LINE.fullmatch(message) else FAILED

    def said(self, message):
        self.worst = max(self.worst, self.of(message))

    def counted(self, line):
        found = COUNTED.fullmatch(line)
        self.ended = True
        self.worst = max(self.worst, FAILED if not found else WELL if found[1] == b'END' else PARTLY)


def main(words):
    if asked('nightlog', words, __doc__.split('\n\n', 1)[1]):
        return WELL
    judge = Judge(words)
    done = run('nightlog', words, Messages([judge.about], judge.said).hear, Messages([], judge.counted).hear if words[:1] == ['check'] else None,
               made=words[:1] == ['append'] and len(words) == 2)
    # append and check end with a count, whatever came before; a log that is shown need not hold a record
    silent = judge.worst == WELL and not judge.ended and words[:1] != ['show']
    return judge.worst if done and not silent else FAILED


sys.exit(main(sys.argv[1:]))
