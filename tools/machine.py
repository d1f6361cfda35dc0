"""How the programs are run. Those of target/bin are for x86-64, and `make programs` puts those for aarch64 into a folder below;
on another machine than x86-64, where its own are not built, Debian's emulator runs them. What is installed has its programs in bin, and they
are the machine's own."""
import os
import shutil
import sys
from pathlib import Path

ROOT = Path(__file__).resolve().parents[1]
INSTALLED = (ROOT / 'bin').is_dir()
PROGRAMS = ROOT / 'bin' if INSTALLED else ROOT / 'target/bin'


def command(program):
    machine = os.uname().machine
    own = PROGRAMS / machine / program
    if INSTALLED or machine == 'x86_64':
        return [str(PROGRAMS / program)]
    return [str(own)] if own.exists() else [*emulator(), str(PROGRAMS / program)]


def emulator():
    if shutil.which('qemu-x86_64') is None:
        print('qemu-x86_64, which runs the programs of x86-64 here, is not on the PATH', file=sys.stderr)
        sys.exit(2)
    return ['qemu-x86_64', '-L', '/usr/x86_64-linux-gnu']
