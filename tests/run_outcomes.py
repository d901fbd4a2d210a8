#!/usr/bin/env python3
"""tests/run_outcomes.py PROGRAM: holds `trade outcomes` against `trade run`, over all examples and the scenarios of all cases.

The turns that are written for each outcome give its lines and accounts, as many turns as it says, and no two outcomes are the same. Where the text isn't cut, runs
over turns by chance end with one of the outcomes. A scenario without races has one outcome. At least one scenario has several. The last line
is 'N passed, M failed', and the exit status is 1 where one failed.
"""
import pathlib
import re
import subprocess
import sys
import tempfile
import time
import tomllib

TOP = pathlib.Path(__file__).resolve().parent.parent
SECONDS = 120
SEEDS = [str(seed) for seed in range(6)]
HEAD = re.compile(r"^outcome (\d+) after (\d+) turns\n", re.MULTILINE)
LAST = re.compile(r"(?:^|(?<=\n))(?:(\d+) outcomes?|# cut after 10000000 turns, (\d+) outcomes so far)\n\Z")
# More turns than a list may have are not run again. Where a search takes long, few of its outcomes are looked at, as each is a search anew.
MOST_TURNS, LONG, MOST_OUTCOMES, FEW_OUTCOMES = 1_000_000, 0.25, 40, 2
ACCOUNT, CUT = "account ", "# cut after "


def output(program, *words):
    """What the program writes, where it is done."""
    ran = subprocess.run([program, *map(str, words)], stdin=subprocess.DEVNULL, stdout=subprocess.PIPE, stderr=subprocess.DEVNULL, timeout=SECONDS)
    return ran.stdout.decode() if ran.returncode == 0 else None


def scenarios():
    """The scenarios of the examples and of the cases."""
    yield from sorted((TOP / "examples").glob("*.toml"))
    for folder in sorted((TOP / "tests" / "cases").iterdir()):
        if (folder / "scenario.toml").exists():
            yield folder / "scenario.toml"


def read(text):
    """The number of turns and the text of each outcome, and whether the text is cut. None where it has another form."""
    last = LAST.search(text)
    if not last:
        return None
    body, heads = text[: last.start()], list(HEAD.finditer(text))
    ends = [head.start() for head in heads[1:]] + [len(body)]
    found = [(int(head[2]), body[head.end() : end]) for head, end in zip(heads, ends)]
    if [int(head[1]) for head in heads] != list(range(1, len(heads) + 1)) or len(heads) != int(last[1] or last[2]):
        return None
    return found, last[1] is None


def outcome_of(run, quiet):
    """A run's lines, leaf by leaf, of leaves that provide nothing, and its accounts."""
    lines = run.splitlines(keepends=True)
    first = next(place for place, line in enumerate(lines) if line.startswith(ACCOUNT + "init "))
    said = "".join(line for label in quiet for line in lines[:first] if line.startswith(f"[{label}] "))
    return said + "".join(lines[first:])


def counted(listed):
    """How many turns a list of turns has; its lines have numbers of at most seven digits."""
    counts = [line.split(" ")[1] for line in listed.splitlines() if not line.startswith("#")]
    return sum(map(int, counts)) if all(len(count) <= 7 for count in counts) else None


def quiet_leaves(scenario):
    """The labels of the leaves that provide nothing, in preorder."""
    def walk(nodes, label):
        for node in nodes:
            own = f"{label} -> {node['name']}"
            if "program" in node or "code" in node:
                if "provides" not in node:
                    yield own
            else:
                yield from walk(node.get("start", []), own)

    return list(walk(tomllib.loads(scenario.read_text()).get("start", []), "init"))


def faults(program, scenario, found, is_cut, most, room):
    """What of the outcomes of a scenario, of which so many are looked at, is not as it should be."""
    quiet, texts = quiet_leaves(scenario), [text for _, text in found]
    if len(set(texts)) != len(texts):
        yield "two outcomes are the same"
    for number, (turns, text) in enumerate(found[:most], 1):
        listed = output(program, "outcomes", "--turns", number, scenario)
        if listed is None or counted(listed) != turns or listed.startswith(f"# {turns} turns, more than a list may have\n") != (turns > MOST_TURNS):
            yield f"the turns of outcome {number}"
        elif turns <= MOST_TURNS:
            path = room / "turns"
            path.write_text(listed)
            run = output(program, "run", scenario, path)
            if run is None or outcome_of(run, quiet) != text:
                yield f"the run over the turns of outcome {number}"
    if output(program, "outcomes", "--turns", len(found) + 1, scenario) is not None:
        yield "turns of an outcome that is none"
    for seed in SEEDS if not is_cut else []:
        by_chance = output(program, "turns", "--seed", seed, scenario)
        if by_chance.startswith(CUT) or f"\n{CUT}" in by_chance:
            continue
        path = room / "turns"
        path.write_text(by_chance)
        run = output(program, "run", scenario, path)
        if run is None or outcome_of(run, quiet) not in texts:
            yield f"the run over turns by seed {seed} has none of the outcomes"


def main(words):
    if len(words) != 1:
        sys.exit(__doc__)
    program, passed, failed, several, seen = str(pathlib.Path(words[0]).resolve()), 0, 0, 0, set()
    with tempfile.TemporaryDirectory() as folder:
        for scenario in scenarios():
            if scenario.read_bytes() in seen:
                continue
            seen.add(scenario.read_bytes())
            start = time.monotonic()
            text = output(program, "outcomes", scenario)
            most = MOST_OUTCOMES if time.monotonic() - start < LONG else FEW_OUTCOMES
            if text is None:
                continue
            outcomes = read(text)
            if outcomes is None:
                found = ["the form of the text"]
            else:
                found = list(faults(program, scenario, *outcomes, most, pathlib.Path(folder)))
                several += len(outcomes[0]) > 1
                if len(outcomes[0]) != 1 and not outcomes[1] and not re.search(r"^ *race ", output(program, "races", scenario), re.MULTILINE):
                    found.append("several outcomes without a race")
            passed, failed = passed + (not found), failed + bool(found)
            for fault in found:
                print(f"FAILED {scenario}, {fault}")
    if not several:
        print("FAILED no scenario has several outcomes")
        failed += 1
    print(f"{passed} passed, {failed} failed")
    return 1 if failed or not passed else 0


if __name__ == "__main__":
    sys.exit(main(sys.argv[1:]))
