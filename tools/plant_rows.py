#!/usr/bin/env python3
"""tools/plant_rows.py NAME..: searches crates for wrong bodies that their contracts let through (`rt plant`), and writes the row of each in docs/PROOFS.md.
tools/plant_rows.py --list: prints the crates whose sources, definitions or proofs are newer than their row, and those that have no row.

A row has how many bodies were refused, how many met a contract, on how many the tactics met a limit, and the commit of the crate's files, which have to be
committed. What `rt plant` prints is printed. It proves the crate first, and may take hours (--minutes N, 240 if left out). A search that did not try all of its
bodies writes no row, and the tool ends with 1.
"""
import argparse
import re
import subprocess
import sys

sys.dont_write_bytecode = True
from crates import PARTS, TOP, listed  # noqa: E402

PROOFS = TOP / "docs/PROOFS.md"
# More bodies than any crate has.
MOST = 10000
# A crate's row: its name, what was refused, what met a contract, what was not judged, and the commit.
ROW = re.compile(r"\| `(\w+)` \| (\d+) \| (\d+) \| (\d+) \| (\w+|—) (?=\|)")
TABLE = re.compile(r"^\| Crate \| Refused \|.*\n(?:\|.*\n)+", re.M)
HEAD, SIDE_BY_SIDE = ("Crate", "Refused", "Met", "Not judged", "Commit"), 3


class NoRow(Exception):
    """Why a crate's row can't be written."""


def git(*words):
    """What a command of git prints."""
    return subprocess.run(["git", *words], cwd=TOP, check=True, stdout=subprocess.PIPE, text=True).stdout.strip()


def files(name):
    """The folders of a crate that a row is of."""
    return [f"crates/{name}/{part}" for part in PARTS]


def rows(text):
    """For each crate that has a row, its numbers and its commit."""
    return {found[1]: found.groups()[1:] for found in ROW.finditer(text)}


def table(of_crates):
    """The table of all rows, by the names of their crates, in columns side by side, and at the end their sums."""
    cells = [[f"`{name}`", *row] for name, row in sorted(of_crates.items())]
    cells.append(["together", *(f"{sum(int(row[column]) for row in of_crates.values()):,}" for column in range(3)), ""])
    height = -(-len(cells) // SIDE_BY_SIDE)
    cells += [[""] * len(HEAD)] * (height * SIDE_BY_SIDE - len(cells))
    lines = [HEAD * SIDE_BY_SIDE, ["---"] * len(HEAD) * SIDE_BY_SIDE, *([cell for row in cells[at::height] for cell in row] for at in range(height))]
    return "".join("|" + "|".join(line) + "|\n" if line[0] == "---" else "| " + " | ".join(line) + " |\n" for line in lines)


def written(text, of_crates):
    """The document with this table in place of its own."""
    if len(TABLE.findall(text)) != 1:
        raise NoRow(f"{PROOFS.name} has no table of wrong bodies, or several")
    return TABLE.sub(lambda _: table(of_crates), text)


def numbers(said):
    """What was refused, what met a contract, and what was not judged, by the last line of a search."""
    last = re.search(r"^plants crate=.*$", said, re.M)
    counts = dict(re.findall(r"([\w-]+)=(\d+)", last[0])) if last else {}
    if not {"refused", "proves", "not-judged", "not-run"} <= counts.keys():
        raise NoRow("the search did not end")
    if counts["not-run"] != "0" or sum(map(int, counts.values())) >= MOST:
        raise NoRow("not all bodies were tried: give more --minutes")
    return counts["refused"], counts["proves"], counts["not-judged"]


def searched(name, minutes):
    """The row of a crate: the numbers of a search in it, and the commit."""
    if git("status", "--porcelain", "--", *files(name)):
        raise NoRow("its files are not committed")
    command = ["rt", "plant", "--max", str(MOST), "--minutes", str(minutes)]
    said = subprocess.run(command, cwd=TOP / "crates" / name, check=False, stdin=subprocess.DEVNULL, stdout=subprocess.PIPE, text=True).stdout
    print(said, end="", flush=True)
    return *numbers(said), git("rev-parse", "--short=8", "HEAD")


def old_rows():
    """A line for each crate whose files have changed since the commit of its row, and for each crate that has none."""
    of_crates = rows(PROOFS.read_text(encoding="utf-8"))
    for name in sorted(listed(TOP)):
        if name not in of_crates:
            yield f"{name} has no row"
            continue
        commit = of_crates[name][3]
        last = git("log", "-1", "--format=%h", "--abbrev=8", "HEAD" if commit == "—" else f"{commit}..HEAD", "--", *files(name))
        if last:
            yield f"{name}: the row is of {commit}, and {last} changed the crate"


def main():
    words = argparse.ArgumentParser(description=__doc__, formatter_class=argparse.RawDescriptionHelpFormatter)
    words.add_argument("names", nargs="*", metavar="NAME")
    words.add_argument("--list", action="store_true")
    words.add_argument("--minutes", type=int, default=240)
    given = words.parse_args()
    unknown = [name for name in given.names if name not in listed(TOP)]
    if unknown or given.list == bool(given.names):
        words.error(f"no crate {unknown[0]}" if unknown else "give names of crates, or --list")
    if given.list:
        print("\n".join(old_rows()) or "All crates have a row, and none has changed since.")
        return 0
    failed = False
    for name in given.names:
        try:
            row = searched(name, given.minutes)
            text = PROOFS.read_text(encoding="utf-8")
            PROOFS.write_text(written(text, {**rows(text), name: row}), encoding="utf-8")
        except NoRow as why:
            print(f"{name} has no new row: {why}", file=sys.stderr)
            failed = True
    return 1 if failed else 0


if __name__ == "__main__":
    sys.exit(main())
