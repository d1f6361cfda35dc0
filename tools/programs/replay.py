"""Replays a night log by target/bin/replay, with an exit status: a line for each record, and then how the log ends and every number that occurred, in words.

usage: replay [--lines] POSTS LOG
  POSTS    the set-ups of the posts: setup POST CHANNEL VOLT CHG DIS W [SENSOR [IFACE]], blank lines and comments with #
  LOG      the night log
  --lines  leaves everything as the program writes it: the lines on standard output, the ending and the counts on standard error
Exit status: 0 all well; 1 the log is cut or bad, or a set-up is refused or is none; 2 something could not be read or written, or the call is wrong.
"""
import os
import re
import signal
import sys
from pathlib import Path

sys.path.append(str(Path(__file__).resolve().parents[2]))

from messages import Messages
from passing import FAILED, PARTLY, WELL, asked, die_by, run, say, write_all
from report.words import FINDINGS, MALFORMED, REFUSALS, SET_UPS

# how far a long log is, on a line that the next one goes over, and the line wiped
PROGRESS = re.compile(rb'(\rreplay: \d+ records, byte \d+|\r\x1b\[K)*')
ENDING = re.compile(rb'END|CUT@(\d+)|BAD R(\d+)@(\d+)|SETUP R(\d+)')
COUNTS = re.compile(rb'\d+ records: \d+ accepted, \d+ refused|([FR])(\d+): (\d+)')
# behind the name of POSTS
NO_SET_UP = re.compile(rb'line \d+: (the set-up is refused|no setup .*)')


class Judge:
    def __init__(self, files):
        self.worst, self.ended, self.summary, self.others = WELL, False, [], []
        self.heads = [b'replay: ' + os.fsencode(name) + b': ' for name in files]

    def said(self, message):
        """What is not known is a failure."""
        message = message[PROGRESS.match(message).end():]
        if ENDING.fullmatch(message):
            self.ended = True
            self.worst = max(self.worst, WELL if message == b'END' else PARTLY)
        elif not COUNTS.fullmatch(message):
            of_posts = self.heads and message.startswith(self.heads[0]) and NO_SET_UP.fullmatch(message[len(self.heads[0]):])
            self.worst = max(self.worst, PARTLY if of_posts else FAILED)
        words = in_words(message)
        (self.others if words is None else self.summary).append(message if words is None else words)

    def left(self):
        """What was said and has no words here, since this was asked last."""
        others, self.others = self.others, []
        return b''.join(other + b'\n' for other in others)


def in_words(message):
    """An ending or a count of the summary; None where it is neither."""
    if counted := COUNTS.fullmatch(message):
        letter, number, times = counted.groups()
        if letter is None:
            return message.decode()
        name = FINDINGS[int(number)].name if letter == b'F' else REFUSALS[int(number)]
        return f'{int(times):7} times {letter.decode()}{int(number)} {name}'
    if not (found := ENDING.fullmatch(message)):
        return None
    cut, refusal, byte, set_up = (number and int(number) for number in found.groups())
    words = 'the log is whole'
    if cut is not None:
        words = f'a piece of a record is left over from byte {cut} on'
    elif refusal is not None:
        words = f'malformed from byte {byte} on, {MALFORMED[refusal]}'
    elif set_up is not None:
        words = SET_UPS[set_up]
    return f'{message.decode()}: {words}'


def main(words):
    if asked('replay', words, __doc__.split('\n\n', 1)[1]):
        return WELL
    only_lines = words[:1] == ['--lines']
    files = words[1:] if only_lines else words
    judge = Judge(files)
    messages = Messages(judge.heads, judge.said)

    def heard(piece):
        messages.hear(piece)
        return None if only_lines else judge.left()

    done = run('replay', files, heard)
    if judge.summary and not only_lines:
        done = written('\n' + ''.join(f'{line}\n' for line in judge.summary)) and done
    return judge.worst if done and (judge.ended or judge.worst != WELL) else FAILED


def written(words):
    try:
        write_all(1, words.encode())
    except BrokenPipeError:
        die_by(signal.SIGPIPE)
    except OSError as error:
        say(f'replay: writing standard output: {error.strerror}')
        return False
    return True


sys.exit(main(sys.argv[1:]))
