#!/usr/bin/env python3
"""tests/run_turns.py PROGRAM: holds `trade turns`, also with `--seed N` and `--signals N`, against `trade run`, over all examples and the scenarios of all cases.

A run over such a list is done. Where the list isn't cut and a run may have as many, 16 more turns of each leaf change nothing. A line of a list with a seed has
1 to 16 turns. The same seed gives the same list. Of the scenarios in which two leaves take turns, some have lists that differ from seed to seed.

With `--signals N` a list begins with the turns that there are without, and has all signals N times, leaves as in the tree, each time with turns behind them. A
run over it is the run over `rest` in place of these turns, where neither list is cut and none was chosen by chance. Where no leaf has a signal, nothing is
added. The last line is 'N passed, M failed', and the exit status is 1 where one failed.
"""
import pathlib
import re
import subprocess
import sys
import tempfile

TOP = pathlib.Path(__file__).resolve().parent.parent
SECONDS = 120
SEEDS = ("0", "1", "4294967295")
CUT = "# cut after "
MOST, MORE = 1_000_000, 16
SIGNALS = 2
OF_LEAF = re.compile(r"^ +([\w-]+) quantum .* signals (\d) own ", re.M)


def output(program, *words):
    """What the program writes, where it is done."""
    ran = subprocess.run([program, *map(str, words)], stdin=subprocess.DEVNULL, stdout=subprocess.PIPE, stderr=subprocess.DEVNULL, timeout=SECONDS)
    return ran.stdout.decode() if ran.returncode == 0 else None


def scenarios():
    """The scenarios of the examples and of the cases."""
    yield from sorted((TOP / "examples").glob("*.toml"))
    for folder in sorted((TOP / "tests" / "cases").iterdir()):
        if (folder / "scenario.toml").exists():
            yield folder / "scenario.toml"


def listed(text):
    """The leaf and the number of turns of each line, and whether the list is cut."""
    lines = text.splitlines()
    cut = bool(lines) and lines[-1].startswith(CUT)
    turns = [(name, int(count)) for name, count in (line.split(" ") for line in lines[: len(lines) - cut] if "!" not in line)]
    if cut and lines[-1] != f"{CUT}{sum(count for _, count in turns)} turns":
        return turns, None
    return turns, cut


def faults(program, scenario, text, most):
    """What of a list is not as it should be."""
    turns, cut = listed(text)
    if cut is None:
        yield "its last line"
    if any(not 1 <= count <= most for _, count in turns):
        yield "the turns of a line"
    with tempfile.TemporaryDirectory() as room:
        path, more = pathlib.Path(room, "turns"), pathlib.Path(room, "more")
        path.write_text(text)
        names = sorted({name for name, _ in turns})
        more.write_text(text + "".join(f"{name} {MORE}\n" for name in names))
        run = output(program, "run", scenario, path)
        if run is None:
            yield "its run"
        elif not cut and sum(count for _, count in turns) + MORE * len(names) <= MOST and run != output(program, "run", scenario, more):
            yield "rest at its end"


def signal_faults(program, scenario, text, words):
    """What of a list with signals, which has the words besides, is not as it should be beside the text of the list without."""
    more = output(program, "turns", "--signals", SIGNALS, *words, scenario)
    signals = [f"{name}!{number}" for name, count in OF_LEAF.findall(output(program, "tree", scenario)) for number in range(int(count))]
    if more is None or more != output(program, "turns", *words, "--signals", SIGNALS, scenario):
        yield "none, or another one with its options in another order"
        return
    if CUT in text or CUT in more:
        return
    if not more.startswith(text) or (not signals and more != text):
        yield "its beginning"
    if [line for line in more.splitlines() if "!" in line] != SIGNALS * signals:
        yield "its signals"
    yield from faults(program, scenario, more, 16 if words else MOST)
    if not words and signals:
        with tempfile.TemporaryDirectory() as room:
            path, other = pathlib.Path(room, "turns"), pathlib.Path(room, "rest")
            path.write_text(more)
            other.write_text("rest\n" + SIGNALS * "\n".join([*signals, "rest\n"]))
            if output(program, "run", scenario, path) != output(program, "run", scenario, other):
                yield "its run beside that with rest"


def main(words):
    if len(words) != 1:
        sys.exit(__doc__)
    program, passed, failed, differ, seen = str(pathlib.Path(words[0]).resolve()), 0, 0, 0, set()
    for scenario in scenarios():
        rounds = output(program, "turns", scenario)
        if rounds is None or scenario.read_bytes() in seen:
            continue
        seen.add(scenario.read_bytes())
        lists = {seed: output(program, "turns", "--seed", seed, scenario) for seed in SEEDS}
        found = [f"rounds: {fault}" for fault in faults(program, scenario, rounds, MOST)]
        for seed, text in lists.items():
            if text is None or text != output(program, "turns", "--seed", seed, scenario):
                found.append(f"seed {seed}: not the same again")
            else:
                found += [f"seed {seed}: {fault}" for fault in faults(program, scenario, text, 16)]
        found += [f"signals: {fault}" for fault in signal_faults(program, scenario, rounds, [])]
        found += [f"signals by chance: {fault}" for fault in signal_faults(program, scenario, lists[SEEDS[1]] or "", ["--seed", SEEDS[1]])]
        differ += len({name for name, _ in listed(rounds)[0]}) > 1 and len(set(lists.values())) == len(SEEDS)
        passed, failed = passed + (not found), failed + bool(found)
        for fault in found:
            print(f"FAILED {scenario}, {fault}")
    if not differ:
        print("FAILED no lists that differ from seed to seed")
        failed += 1
    print(f"{passed} passed, {failed} failed")
    return 1 if failed or not passed else 0


if __name__ == "__main__":
    sys.exit(main(sys.argv[1:]))
