#!/usr/bin/env python3
"""Composes the nights: desk scripts of whole evenings at a charger, with comments, and their answers.

The traffic follows the cycles of the maker's pages (000 and 001). The answers come from the second program, never from here.
Each finding and each refusal must be announced in a comment directly before its step, and nothing else may be.

    make.py [--second PROGRAM]           writes NAME.desk and NAME.answers beside this file
    make.py --check [--second PROGRAM]   writes nothing, fails where a stored file is not what would be written
"""

import argparse
import pathlib
import sys

sys.dont_write_bytecode = True

import checks
from evenings import NIGHTS

HERE = pathlib.Path(__file__).resolve().parent
SECOND = HERE.parent / "second" / "target" / "release" / "second"


def main():
    arguments = argparse.ArgumentParser(description=__doc__, formatter_class=argparse.RawDescriptionHelpFormatter)
    arguments.add_argument("--second", type=pathlib.Path, default=SECOND, help="the second program")
    arguments.add_argument("--check", action="store_true", help="write nothing, compare with the stored files")
    chosen = arguments.parse_args()
    if not chosen.second.exists():
        sys.exit(f"make.py: no {chosen.second}; build the second program first, or name it with --second")
    faults, files = [], {}
    for compose in NIGHTS:
        night = compose()
        text = night.text()
        answers = checks.answers_of(chosen.second, text)
        faults += checks.all_of(chosen.second, night.name, text, answers)
        files[HERE / f"{night.name}.desk"] = text
        files[HERE / f"{night.name}.answers"] = answers
        print(f"{night.name}: {len(answers.splitlines())} steps")
    if chosen.check:
        stale = [path.name for path, text in files.items() if not path.exists() or path.read_text() != text]
        faults += [f"{name} is not what make.py composes" for name in stale]
    if faults:
        sys.exit("\n".join(faults))
    if not chosen.check:
        for path, text in files.items():
            path.write_text(text)


if __name__ == "__main__":
    main()
