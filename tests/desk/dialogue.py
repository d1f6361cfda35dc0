"""dialogue.py COMMAND...: a dialogue with the desk, which COMMAND starts: each step is told once the one before is answered, through pipes that stay open and
at a terminal. An answer that does not come ends it with status 1."""
import os
import select
import subprocess
import sys
import tty

STEPS = [('setup 0 4 5000 1000 500 500', 'A'), ('# words', None), ('frame 4 110 6b003 x a00f0000000048', 'A12'), ('tick 4 109', 'R2'), ('hello', '?'),
         ('logw t 300 2 0000000000', 'A 5 ac02020009'), ('tick 5 1', 'R1'), ('read1 68009 x 07', 'A 68009x:7'), ('index', 'I - - - - 0' + ' -' * 27)]


def answer(fd):
    got = b''
    while not got.endswith(b'\n'):
        if not select.select([fd], [], [], 20)[0]:
            return None
        got += os.read(fd, 1000)
    return got.decode()[:-1]


def dialogue(how, command, told, heard, **streams):
    run = subprocess.Popen(command, **streams)
    # half of a step before its end: the desk waits for the rest, and has answered what came before
    for step, want in STEPS:
        os.write(told, step[:5].encode())
        os.write(told, step[5:].encode() + b'\n')
        if want is not None and (got := answer(heard)) != want:
            run.kill()
            sys.exit(f'tests/desk: {how}: {step!r} is answered {got!r}, not {want!r}')
    run.kill()
    run.wait()


def main(command):
    read, told = os.pipe()
    heard, write = os.pipe()
    dialogue('through pipes', command, told, heard, stdin=read, stdout=write)
    ours, theirs = os.openpty()
    tty.setraw(theirs)
    dialogue('at a terminal', command, ours, ours, stdin=theirs, stdout=theirs)


main(sys.argv[1:])
