"""How tools/report is called."""
import argparse
import os
import sys
from pathlib import Path

from . import lines, nightlog, picture, posts
from .faults import Fault
from .night import Night
from .page import page

DESCRIPTION = """\
Writes a night as one page of HTML, with nothing beside it: the sessions, findings, refusals and readings of each post.

  POSTS    the set-ups of the replay, desk lines: setup POST CHANNEL VOLT CHG DIS W [SENSOR [IFACE]]
  LOG      the night log
  LINES    what `replay POSTS LOG` wrote on standard output; - is standard input
  OUT      the page; - is standard output
"""
ENDING = 'Exit status: 0 where the page is written, 2 where something cannot be read or written, or does not belong together; what, is told on standard error.'


def main():
    try:
        report(arguments())
    except Fault as fault:
        print(f'report: {fault}', file=sys.stderr)
        sys.exit(2)


def arguments():
    parser = argparse.ArgumentParser(prog='report', usage='report [--name NAME] [--screenshot PNG] POSTS LOG LINES OUT', description=DESCRIPTION,
                                     epilog=ENDING, formatter_class=argparse.RawDescriptionHelpFormatter)
    parser.add_argument('posts', metavar='POSTS', help=argparse.SUPPRESS)
    parser.add_argument('log', metavar='LOG', help=argparse.SUPPRESS)
    parser.add_argument('lines', metavar='LINES', help=argparse.SUPPRESS)
    parser.add_argument('out', metavar='OUT', help=argparse.SUPPRESS)
    parser.add_argument('--name', help='the night\'s name; else that of LOG')
    parser.add_argument('--screenshot', metavar='PNG', help='have Chromium take a picture of the page')
    return parser.parse_args()


def report(asked):
    if asked.screenshot and asked.out == '-':
        raise Fault('--screenshot: there is no picture of standard output')
    with opened(asked.posts) as file:
        set_ups, refused = told(asked.posts, posts.read, read(file, asked.posts))
    night = Night(shown(asked.name or Path(asked.log).stem), set_ups, refused)
    with opened(asked.log) as log, opened(asked.lines) as answers:
        play = night.skip if refused else night.play
        told(asked.lines, play, nightlog.Log(Named(log, asked.log)), lines.read(Named(answers, asked.lines)))
    written = page(night, (shown(asked.posts), shown(asked.log))).encode()
    write(asked.out, written)
    if asked.screenshot:
        picture.take(asked.out, asked.screenshot)


def told(name, reader, *given):
    """A fault is that of the file."""
    try:
        return reader(*given)
    except Unreadable:
        raise
    except Fault as fault:
        raise Fault(f'{"standard input" if name == "-" else name}: {fault}') from fault


def shown(name):
    """A file's name on the page: of its bytes those that are no text, and what cannot be printed, by their numbers."""
    words = os.fsencode(name).decode(errors='backslashreplace')
    return ''.join(letter if letter.isprintable() else letter.encode('unicode_escape').decode() for letter in words)


def opened(name):
    try:
        return open(0 if name == '-' else name, 'rb', closefd=name != '-')
    except OSError as error:
        raise Unreadable(name, error) from error


class Unreadable(Fault):
    def __init__(self, name, error):
        super().__init__(f'{name}: cannot be read: {error.strerror}')


class Named:
    """A file whose faults in reading tell its name."""

    def __init__(self, file, name):
        self.file, self.name = file, name

    def read(self, size):
        try:
            return self.file.read(size)
        except OSError as error:
            raise Unreadable(self.name, error) from error

    def readline(self, size):
        try:
            return self.file.readline(size)
        except OSError as error:
            raise Unreadable(self.name, error) from error


def read(file, name):
    """What is no text is no line either."""
    return Named(file, name).read(-1).decode(errors='replace')


def write(name, written):
    try:
        with open(1 if name == '-' else name, 'wb', closefd=name != '-') as file:
            file.write(written)
    except OSError as error:
        raise Fault(f'{"standard output" if name == "-" else name}: cannot be written: {error.strerror}') from error
