#!/usr/bin/env python3
"""The nights as night logs: NAME.posts has the set-ups of NAME.desk, NAME.log its frames and ticks in the bytes of 02's
Req 01. The bytes come from the second program, never from here.

A replay has its set-ups before the first record. So a refused set-up stays away, since it would end the replay, and a
late one comes first, which gives an answer to the frames and ticks that its channel had before it; but no other answer
may change by that. A frame that no log can hold stays away as well. A night with a release, or with a post that is set
up twice, is no replay.

    logs.py [--second PROGRAM] [NAME..]           writes NAME.posts and NAME.log beside this file; without a name, of
                                                  every night that is a replay
    logs.py --check [--second PROGRAM] [NAME..]   writes nothing, fails where a stored file is not what would be written
"""

import argparse
import pathlib
import sys

sys.dont_write_bytecode = True

from checks import answers_of, channel_of, is_step

HERE = pathlib.Path(__file__).resolve().parent
SECOND = HERE.parent / "second" / "target" / "release" / "second"

# No record is longer: 5 bytes of time, 1 of channel, 5 of identifier, 1 of length, 8 of payload.
BUFFER = "00" * 20


class NoReplay(Exception):
    pass


def numbered_steps(name):
    """Each step with its line number and its answer."""
    script = (HERE / f"{name}.desk").read_text().splitlines()
    steps = [(number, line) for number, line in enumerate(script, 1) if is_step(line)]
    answers = (HERE / f"{name}.answers").read_text().splitlines()
    return [(number, line, answer) for (number, line), answer in zip(steps, answers, strict=True)]


def posts_of(name, steps):
    """The lines of NAME.posts, and at which line of the script each of its channels was set up."""
    lines = [f"# The posts of nights/{name}.desk."]
    since, posts = {}, set()
    before = []
    for number, step, answer in steps:
        word, *fields = step.split(" ")
        if channel_of(step):
            before.append(channel_of(step))
        if word == "release" and answer == "A":
            raise NoReplay(f"line {number} releases post {fields[0]}")
        if word == "setup" and answer == "A":
            post, channel = fields[:2]
            if post in posts:
                raise NoReplay(f"line {number} sets post {post} up again")
            if before:
                lines.append(f"# in the script behind {len(before)} records, {before.count(channel)} on its channel:")
            lines.append(step)
            posts.add(post)
            since[channel] = number
        elif word == "setup":
            lines.append(f"# refused in the script ({answer}): {step}")
    return lines, since


def written(second, steps):
    """Which steps the log holds, with their bytes, and what it says of the others."""
    def asked(step):
        word, channel, time, *frame = step.split(" ")
        return " ".join(["logw", word[0], time, channel, *frame, BUFFER]) + "\n"

    heard = [step for step in steps if channel_of(step[1])]
    kept, log, refused = [], b"", []
    for step, answer in zip(heard, answers_of(second, "".join(asked(line) for _, line, _ in heard)).splitlines()):
        outcome, *rest = answer.split(" ")
        if outcome == "A":
            kept.append(step)
            log += bytes.fromhex(rest[1])[:int(rest[0])]
        else:
            refused.append((step[0], outcome))
    return kept, log, refused


def check_answers(second, posts, since, kept):
    """The same answers, but for what came on a channel before its set-up."""
    set_ups = list(filter(is_step, posts))
    script = [*set_ups, *(line for _, line, _ in kept)]
    answers = answers_of(second, "".join(line + "\n" for line in script)).splitlines()
    for (number, line, was), answer in zip(kept, answers[len(set_ups):], strict=True):
        early = was == "R1" and number < since.get(channel_of(line), 0)
        if answer != was and not early:
            raise NoReplay(f"line {number} is answered {was}, and {answer} with every set-up before it")


def files_of(second, name):
    steps = numbered_steps(name)
    posts, since = posts_of(name, steps)
    kept, log, refused = written(second, steps)
    check_answers(second, posts, since, kept)
    text = "".join(line + "\n" for line in posts)
    return {HERE / f"{name}.posts": text.encode(), HERE / f"{name}.log": log}, kept, refused


def main():
    arguments = argparse.ArgumentParser(description=__doc__, formatter_class=argparse.RawDescriptionHelpFormatter)
    arguments.add_argument("--second", type=pathlib.Path, default=SECOND, help="the second program")
    arguments.add_argument("--check", action="store_true", help="write nothing, compare with the stored files")
    arguments.add_argument("names", nargs="*", metavar="NAME", help="a night")
    chosen = arguments.parse_args()
    if not chosen.second.exists():
        sys.exit(f"logs.py: no {chosen.second}; build the second program first, or name it with --second")
    faults, files = [], {}
    for name in chosen.names or sorted(path.stem for path in HERE.glob("*.desk")):
        try:
            made, kept, refused = files_of(chosen.second, name)
        except NoReplay as why:
            print(f"{name}: no replay: {why}")
            faults += [f"{name} is no replay"] if chosen.names or (HERE / f"{name}.log").exists() else []
            continue
        files |= made
        print(f"{name}: {len(kept)} records, {len(refused)} that no log can hold")
        for number, refusal in refused:
            print(f"  {name}.desk:{number}: {refusal}")
    if chosen.check:
        stale = [path.name for path, made in files.items() if not path.exists() or path.read_bytes() != made]
        faults += [f"{name} is not what logs.py writes" for name in stale]
    if faults:
        sys.exit("\n".join(faults))
    if not chosen.check:
        for path, made in files.items():
            path.write_bytes(made)


if __name__ == "__main__":
    main()
