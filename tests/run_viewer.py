#!/usr/bin/env python3
"""tests/run_viewer.py PROGRAM: tests the page that shows a run, over all examples with their turns, with those of `trade turns`, and with signals.

The tests are `viewer/test.mjs`, which node's own test runner runs; where node is not there, this says so, and passes. It ends with 0 where all tests passed.
"""
import os
import pathlib
import re
import shutil
import subprocess
import sys
import tempfile

TOP = pathlib.Path(__file__).resolve().parent.parent


def output(program, *words):
    """What the program writes."""
    return subprocess.run([program, *words], stdin=subprocess.DEVNULL, stdout=subprocess.PIPE, check=True).stdout


def put_pair(folder, name, tree, trace):
    """Puts the two texts of a run where the tests look for them."""
    (folder / f"{name}.tree").write_bytes(tree)
    (folder / f"{name}.trace").write_bytes(trace)


def put_runs(program, folder):
    """The texts of all examples: over each of their lists of turns, and over turns that bring all work to rest, with all steps; also over turns by chance in
    which each signal is submitted three times, where there are signals."""
    for scenario in sorted((TOP / "examples").glob("*.toml")):
        tree, made = output(program, "tree", scenario), folder / f"{scenario.stem}.turns"
        made.write_bytes(output(program, "turns", scenario))
        put_pair(folder, f"{scenario.stem}-made", tree, output(program, "trace", "--all", scenario, made))
        if re.search(rb" signals [1-3] own ", tree):
            made.write_bytes(output(program, "turns", "--signals", "3", "--seed", "1", scenario))
            put_pair(folder, f"{scenario.stem}-signals", tree, output(program, "trace", scenario, made))
        for turns in sorted(scenario.parent.glob(f"{scenario.stem}.*turns")):
            put_pair(folder, turns.stem, tree, output(program, "trace", scenario, turns))


def put_outcome(program, folder):
    """The texts of the example with two outcomes, over the turns that lead to the second."""
    scenario, made = TOP / "examples" / "shared_count.toml", folder / "second_outcome.turns"
    made.write_bytes(output(program, "outcomes", "--turns", "2", scenario))
    put_pair(folder, "second_outcome", output(program, "tree", scenario), output(program, "trace", scenario, made))


def main():
    program, node = str(pathlib.Path(sys.argv[1]).resolve()), shutil.which("node")
    if node is None:
        print("The page was not tested, as node is not there.")
        return 0
    with tempfile.TemporaryDirectory() as room:
        put_runs(program, pathlib.Path(room))
        put_outcome(program, pathlib.Path(room))
        known = {**os.environ, "VIEWER_DATA": room}
        done = subprocess.run([node, "--test", TOP / "viewer" / "test.mjs"], env=known, stdout=subprocess.PIPE, stderr=subprocess.STDOUT, text=True)
    lines = done.stdout.splitlines()
    if done.returncode != 0:
        print("\n".join(lines))
    print("The page: " + ", ".join(line.removeprefix("# ") for line in lines if line.startswith(("# pass ", "# fail "))))
    return done.returncode


if __name__ == "__main__":
    sys.exit(main())
