#!/usr/bin/env python3
"""tests/run_traces.py PROGRAM: holds `trade trace` and `trade state` against `trade run`, over all examples and all cases of runs.

The lines of a trace that begin with `[`, with the account lines at its end, are the run's text, with `--all` and without. Without it the trace is what it is
with it, but for the steps of which nothing but the first line is printed, the settings that change no value, and the signals that were not taken since they
were submitted before. The lines of a state that are not indented are the run's account lines; of a leaf that lives the lines `holds` add up to what it has
used, and its quantum with what it receives less what it lends to its quota; of an init its quantum less what it hands on; so for capabilities. With `--at N` a
state is that of a list of the first N turns, each `rest` being the turns that the trace has of it, with the settings and signals before the last of them. The
last line is 'N passed, M failed', and the exit status is 1 where one failed.
"""
import pathlib
import re
import subprocess
import sys
import tempfile

TOP = pathlib.Path(__file__).resolve().parent.parent
SECONDS = 120
ITEM = re.compile(r" +(quantum|hands|holds|lends|receives) (\d+)(?: caps (\d+))?")
SETTING = re.compile(r"input (.*)\.(\d) = (\d+)$")
SIGNAL = re.compile(r"signal (.*)!(\d)$")
TAKEN = re.compile(r"turn \d+ (.*) on (\d) at 0$")
STEP = re.compile(r"^turn (\d+) (?:\S+ -> )+(\S+) ", re.M)
# The most turns that a list may have.
MOST_TURNS = 1000000
ACCOUNT = re.compile(r"account .* quota (\d+)(?: used (\d+))?(?: caps (\d+))?(?: taken (\d+))?(?: steps \S+ (\w+))?$")


def output(program, *words):
    """What the program writes, where it is done."""
    ran = subprocess.run([program, *map(str, words)], stdin=subprocess.DEVNULL, stdout=subprocess.PIPE, stderr=subprocess.DEVNULL, timeout=SECONDS)
    return ran.stdout.decode() if ran.returncode == 0 else None


def runs():
    """The scenario and the turns of each run."""
    for turns in sorted((TOP / "examples").glob("*.turns")):
        yield turns.parent / f"{turns.name.split('.')[0]}.toml", turns
    for folder in sorted((TOP / "tests" / "cases").iterdir()):
        if (folder / "command").read_text().split()[0] in ("run", "trace", "state") and (folder / "turns").exists():
            yield folder / "scenario.toml", folder / "turns"


def of_trace(text):
    """What a trace has of the run's text."""
    lines = text.splitlines(keepends=True)
    last = max((i for i, line in enumerate(lines) if line.startswith("end after ")), default=len(lines))
    return "".join([line for line in lines[:last] if line.startswith("[")] + lines[last + 1 :])


def changes_in(text):
    """What a trace of all steps has of those that change something: all lines but the first ones of steps behind which there is no other, settings that change
    no value, and signals that are submitted again before they are taken; those of a leaf that has exited change none."""
    lines = text.splitlines(keepends=True)
    heads = [line.startswith(("turn ", "input ", "signal ", "end after ")) for line in lines] + [True]
    values, exited, submitted, kept = {}, set(), set(), []
    for i, line in enumerate(lines):
        setting, account = SETTING.match(line), ACCOUNT.match(line.rstrip("\n"))
        signal, taken = SIGNAL.match(line), TAKEN.match(line)
        if taken:
            submitted.discard(taken.groups())
        if account and account.group(5) == "exited":
            exited.add(line.split(" quota ")[0].removeprefix("account "))
        if setting:
            label, value = setting.group(1), setting.group(3)
            if label not in exited and values.get((label, setting.group(2)), "0") != value:
                kept.append(line)
            values[label, setting.group(2)] = value
        elif signal:
            kept += [line] * (signal.groups() not in submitted)
            submitted.add(signal.groups())
        elif not (line.startswith("turn ") and heads[i + 1]):
            kept.append(line)
    return "".join(kept)


def adds_up(block):
    """Whether the items below an account line, the first of a block, add up to it."""
    account = ACCOUNT.match(block[0])
    if account is None:
        return False
    quota, used, caps, taken, phase = account.groups()
    if phase in ("pending", "exited"):
        return not any(ITEM.match(line) for line in block[1:])
    sums = {}
    for what, *amount in (item.groups() for item in map(ITEM.match, block[1:]) if item):
        old = sums.get(what, (0, 0))
        sums[what] = tuple(old[i] + int(amount[i] or 0) for i in (0, 1))
    given, received, handed, lent, held = (sums.get(what, (0, 0)) for what in ("quantum", "receives", "hands", "lends", "holds"))
    left = tuple(given[i] + received[i] - handed[i] - lent[i] for i in (0, 1))
    return left == (int(quota), int(caps or 0)) and held == (int(used or 0), int(taken or 0))


def blocks(text):
    """The account lines of a state, each with the lines below it."""
    found = []
    for line in text.splitlines():
        if line.startswith(" "):
            found[-1].append(line)
        else:
            found.append([line])
    return found


def listed(program, scenario, text, room):
    """Each line of a list of turns, with its number of turns, which a setting and a signal have none of; in place of each `rest` the turns that a trace has of
    it. Nothing, where these are more than a list may have."""
    found, number, front = [], 0, ""
    for line in (line for line in text.splitlines() if line and not line.startswith("#")):
        front += f"{line}\n"
        if line != "rest":
            found.append((line, 0 if "=" in line or "!" in line else int(line.split(" ")[1])))
            number += found[-1][1]
            continue
        (room / "front").write_text(front)
        changes = output(program, "trace", scenario, room / "front")
        if int(re.search(r"^end after (\d+) turns$", changes, re.M)[1]) > MOST_TURNS:
            return None
        steps = [step for step in STEP.findall(output(program, "trace", "--all", scenario, room / "front")) if int(step[0]) > number]
        found += [(f"{name} 1", 1) for _, name in steps]
        number += len(steps)
    return found if number <= MOST_TURNS else None


def first(turns, most):
    """The lines of the first so many of these turns, with the settings and signals before the last of them."""
    lines = []
    for line, count in turns:
        taken = min(count, most)
        if not count and most:
            lines.append(f"{line}\n")
        elif taken:
            lines.append(f"{line.split(' ')[0]} {taken}\n")
        most -= taken
    return "".join(lines)


def states_on_the_way(program, scenario, turns):
    """The numbers of turns after which a state is not that of a list with so many turns."""
    with tempfile.TemporaryDirectory() as name:
        room = pathlib.Path(name)
        all_turns, fewer = listed(program, scenario, turns.read_text(), room), room / "turns"
        if all_turns is None:
            return
        number = sum(count for _, count in all_turns)
        for most in sorted({0, 1, 2, 5, number // 2, max(number - 1, 0), number, number + 1}):
            fewer.write_text(first(all_turns, most))
            if output(program, "state", "--at", str(most), scenario, turns) != output(program, "state", scenario, fewer):
                yield most


def faults(program, run, scenario, turns):
    """What of the trace and the state of a run is not as the run's text says."""
    changes, steps = output(program, "trace", scenario, turns), output(program, "trace", "--all", scenario, turns)
    if changes is None or of_trace(changes) != run:
        yield "trace"
    if steps is None or of_trace(steps) != run:
        yield "trace --all"
    if changes is None or steps is None or changes_in(steps) != changes:
        yield "trace beside trace --all"
    state = output(program, "state", scenario, turns)
    if state is None:
        yield "state"
        return
    accounts = [line for line in run.splitlines() if line.startswith("account ")]
    if [block[0] for block in blocks(state)] != accounts:
        yield "accounts of state"
    yield from (f"items of {block[0]}" for block in blocks(state) if not adds_up(block))
    yield from (f"state --at {most}" for most in states_on_the_way(program, scenario, turns))


def main(words):
    if len(words) != 1:
        sys.exit(__doc__)
    program, passed, failed = str(pathlib.Path(words[0]).resolve()), 0, 0
    for scenario, turns in runs():
        run = output(program, "run", scenario, turns)
        if run is None:
            continue
        found = list(faults(program, run, scenario, turns))
        passed, failed = passed + (not found), failed + bool(found)
        for fault in found:
            print(f"FAILED {scenario}, {turns.name}: {fault}")
    print(f"{passed} passed, {failed} failed")
    return 1 if failed or not passed else 0


if __name__ == "__main__":
    sys.exit(main(sys.argv[1:]))
