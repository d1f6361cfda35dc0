"""What must hold of a night and its answers."""

import re
import subprocess

from ages import Times, changed
from pages import *

ANNOUNCED = re.compile(r"# (F[0-9]+|R[0-9]+(?::[0-9]+)?)(?: from here for ([0-9]+) events)?: ")


def is_step(line):
    return line != "" and not line.startswith("#")


def answers_of(second, text):
    run = subprocess.run([str(second), "answer"], input=text.encode(), stdout=subprocess.PIPE, check=True)
    return run.stdout.decode()


def marks(step, answer):
    """What an answer says: F and R numbers, 5 with its start bit."""
    if answer.startswith("R"):
        return {answer.split()[0]}
    if step.split()[0] in ("frame", "tick") and answer.startswith("A"):
        return {f"F{k + 1}" for k in range(12) if int(answer[1:]) >> k & 1}
    return set()


def channel_of(step):
    fields = step.split()
    return fields[1] if fields[0] in ("frame", "tick") else None


def check_announcements(name, text, answers):
    """Each finding and refusal is announced directly before its step, and nothing that does not come."""
    faults, runs, announced = [], [], set()
    given = iter(answers.splitlines())
    for number, line in enumerate(text.splitlines(), 1):
        if line.startswith("#"):
            found = ANNOUNCED.match(line)
            if found and found[2]:
                runs.append([found[1], None, int(found[2]), number])
            elif found:
                announced.add(found[1])
            continue
        answer = next(given)
        if answer == "?" or answer.startswith("X"):
            faults.append(f"{name}:{number}: no step: {line}")
        expected = set(announced)
        announced = set()
        if channel_of(line) and not answer.startswith("R"):
            for run in runs:
                run[1] = run[1] or channel_of(line)
                if run[1] == channel_of(line):
                    expected.add(run[0])
                    run[2] -= 1
            runs = [run for run in runs if run[2] > 0]
        if expected != marks(line, answer):
            faults.append(f"{name}:{number}: announced {sorted(expected)}, but {answer}: {line}")
    faults.extend(f"{name}:{run[3]}: {run[2]} events of the run never came" for run in runs)
    faults.extend([f"{name}: announced at the end, but no step follows"] if announced else [])
    return faults


def check_the_check(name, text, answers):
    """The check above must object to each announcement left out or with another start bit, and to one too many, here
    and there."""
    lines = text.splitlines()
    faults = []
    for place, line in enumerate(lines):
        announces = ANNOUNCED.match(line)
        plain_step = place % 10 == 0 and is_step(line) and not lines[place - 1].startswith("#")
        wrong = []
        if announces:
            wrong.append([])
        number, _, start = announces[1].partition(":") if announces else ("", "", "")
        if start:
            wrong.append([line.replace(announces[1], f"{number}:{int(start) + 1}", 1)])
        if plain_step:
            wrong.append(["# F4: nothing of the kind", line])
        for instead in wrong:
            other = lines[:place] + instead + lines[place + 1:]
            if not check_announcements(name, "\n".join(other), answers):
                faults.append(f"{name}:{place + 1}: a changed announcement goes unnoticed")
    return faults


def by_post(text, answers):
    """Each step with its answer and the post that it is about: the one that it names, or that holds its channel."""
    holders = {}
    for step, answer in zip(filter(is_step, text.splitlines()), answers.splitlines()):
        word, *fields = step.split()
        if word in ("setup", "release") and answer == "A":
            holders = {channel: post for channel, post in holders.items() if post != fields[0]}
        if word == "setup" and answer == "A":
            holders[fields[1]] = fields[0]
        named = fields[0] if word in ("setup", "release", "record") else None
        yield step, answer, holders.get(channel_of(step)) if channel_of(step) else named


def check_counts(name, text, answers):
    """02: "Every operation keeps them equal to the count over that post's history": what a record and `refused` say is
    what the answers before them come to."""
    faults, counts, refused = [], {}, 0
    for step, answer, post in by_post(text, answers):
        word = step.split()[0]
        if word == "setup" and answer == "A":
            counts[post] = [0] * 13
        elif channel_of(step) and answer.startswith("R"):
            refused += 1
        elif channel_of(step):
            found = int(answer[1:])
            of = counts[post]
            of[:] = [of[0] + 1, *(tally + (found >> k & 1) for k, tally in enumerate(of[1:]))]
        elif word == "record" and answer.startswith("K"):
            n, *tallies = counts[post]
            if f" n={n} tally={','.join(map(str, tallies))} " not in answer:
                faults.append(f"{name}: {step}: {answer}, but n={n} and {tallies}")
        elif word == "refused" and answer != f"N {refused}":
            faults.append(f"{name}: {step}: {answer}, but {refused} were refused")
    return faults


def check_index(name, text, answers):
    """02: an index "from channel to post [...] kept true by set-up, second set-up and release, and found equal to a search
    over the posts": what it says is what the accepted set-ups and releases before it come to."""
    faults, held = [], {}
    for step, answer in zip(filter(is_step, text.splitlines()), answers.splitlines()):
        word, *fields = step.split()
        if word in ("setup", "release") and answer == "A":
            held.pop(fields[0], None)
        if word == "setup" and answer == "A":
            held[fields[0]] = fields[1]
        if word == "index":
            said = {(str(channel), post) for channel, post in enumerate(answer.split()[1:]) if post != "-"}
            if said != {(channel, post) for post, channel in held.items()} or len(answer.split()) != 33:
                faults.append(f"{name}: {step}: {answer}, but {held}")
    return faults


def check_ages(name, text, answers):
    """02: "the record keeps times as received and ages beside them": what a record says is what the accepted steps before
    it come to; and no other age would do."""
    faults, times = [], {}
    for step, answer, post in by_post(text, answers):
        word, *fields = step.split()
        if word == "setup" and answer == "A":
            times[post] = Times()
        elif channel_of(step) and answer.startswith("A"):
            times[post].hear(int(fields[1]), "".join(fields[2:4]) or None)
        elif word == "record" and answer.startswith("K"):
            if not times[post].are_in(answer):
                faults.append(f"{name}: {step}: other times or ages: {answer}")
            if any(map(times[post].are_in, changed(answer))):
                faults.append(f"{name}: {step}: a changed age goes unnoticed")
    return faults


# Who opens a session, ends it and stops it, by the pages of 000 and of 001.
OPENINGS, ENDS, STOPS = {NEW_SESSION, OLDER_NEW_SESSION}, {FINISHED, OLDER_FINISHED}, {STOP, OLDER_STOP}


def powers(identifier, payload):
    """02: "a DC_Power_Control with insulation test, precharge or power transfer", or what stands for it on a post of 001."""
    functions = (INSULATION_TEST, PRECHARGE, POWER_TRANSFER)
    return (identifier in (TEST_LOOP, PRECHARGE_LOOP, CHARGING_LOOP)
            or identifier == CONTROL and int(payload[-2:], 16) & 15 in functions)


def check_stops(name, text, answers):
    """02: F12 "in a session after an Emergency_Stop accepted in it; the record's session part keeps the stop": each answer
    has F12, and each record the stop, where the accepted frames before it say so."""
    faults, stops = [], {}  # by post: none where no session is open, else the latest stop in it as its record has it, or ""
    for step, answer, post in by_post(text, answers):
        word, *fields = step.split()
        if word == "setup" and answer == "A":
            stops[post] = None
        elif word == "frame" and answer.startswith("A"):
            time, identifier, _, payload = fields[1:]
            if (int(answer[1:]) >> 11 & 1 == 1) != (powers(identifier, payload) and bool(stops[post])):
                faults.append(f"{name}: {step}: {answer}, but the stop is {stops[post]!r}")
            if identifier in OPENINGS and stops[post] is None:
                stops[post] = ""
            if identifier in STOPS and stops[post] is not None:
                stops[post] = f"{identifier}x:{int(payload, 16)}@{time}+"
            if identifier in ENDS:
                stops[post] = None
        elif word == "record" and answer.startswith("K"):
            if f" sstop={stops[post] or '- '}" not in answer:
                faults.append(f"{name}: {step}: {answer}, but the stop is {stops[post]!r}")
    return faults


def check_refused_leave_no_trace(second, name, text, answers):
    """01: "A refused frame is part of no history and moves no clock"; 02, of the refused count: "that count is now the
    only thing a refused one changes"."""
    steps = list(filter(is_step, text.splitlines()))
    told = [(step, "N 0" if step == "refused" else answer) for step, answer in zip(steps, answers.splitlines())]
    accepted = [(step, answer) for step, answer in told if not answer.startswith("R")]
    without = answers_of(second, "".join(step + "\n" for step, _ in accepted))
    same = without.splitlines() == [answer for _, answer in accepted]
    return [] if same else [f"{name}: the answers change when the refused steps are left out"]


def check_channels_apart(second, name, text, answers):
    """01: "A frame or tick goes to the post that holds its channel"; the others' traffic changes nothing."""
    pairs = list(zip(filter(is_step, text.splitlines()), answers.splitlines()))
    faults = []
    for channel in sorted({channel_of(step) for step, _ in pairs} - {None}):
        alone = [(step, answer) for step, answer in pairs
                 if channel_of(step) == channel or step.split()[0] in ("setup", "release")]
        without = answers_of(second, "".join(step + "\n" for step, _ in alone))
        if without.splitlines() != [answer for _, answer in alone]:
            faults.append(f"{name}: channel {channel} answers otherwise with the other channels silent")
    return faults


def all_of(second, name, text, answers):
    return (check_announcements(name, text, answers)
            + check_the_check(name, text, answers)
            + check_counts(name, text, answers)
            + check_index(name, text, answers)
            + check_ages(name, text, answers)
            + check_stops(name, text, answers)
            + check_refused_leave_no_trace(second, name, text, answers)
            + check_channels_apart(second, name, text, answers))
