#!/usr/bin/env python3
"""tools/gate_table.py [--anew] [MEASURED..]: writes the table of crates of docs/GATE.md anew.

It counts the lines of each crate and its edits. The seconds and the memory are those that tools/measure_gate.py printed into the files MEASURED; what these do not
have stays as it is. A crate whose proof, tests or edits were measured by several files has the last figure. The seconds of edits are taken with --anew alone:
of runs that tried all.
"""
import pathlib
import re
import sys

sys.dont_write_bytecode = True
from crates import TOP, listed  # noqa: E402

PAGE = TOP / "docs" / "GATE.md"
HEAD = "| Crate | Code | Tests | Specs | Proofs | Edits | Proof, s | Tests, s | Edits, s | MB |\n|---|---|---|---|---|---|---|---|---|---|\n"
# A line of what was measured: the crate, the seconds of its proof, tests and edits, and the memory.
MEASURED = re.compile(r"^(\w+) +(\d+) +(\d+) +(\d+) +(\d+)$", re.M)
TESTED = re.compile(r"#\[cfg\(test\)\]\nmod (\w+);")
NONE = "–"


def lines(files):
    """How many lines some files have."""
    return sum(path.read_bytes().count(b"\n") for path in files)


def counts(name):
    """The lines of code, tests, definitions and proofs of a crate, and its edits."""
    folder = TOP / "crates" / name
    sources = sorted((folder / "src").rglob("*.rt"))
    tests = {test for path in sources for test in TESTED.findall(path.read_text(encoding="utf-8"))}
    of_tests = [path for path in sources if path.stem in tests]
    antt = [lines((folder / part).rglob("*.antt")) for part in ("specs", "proofs")]
    return [lines(sources) - lines(of_tests), lines(of_tests), *antt, len(list((folder / "must-fail").glob("*.edit")))]


def number(cell):
    """The number of a cell, 0 where there is none."""
    return int(cell.replace(",", "")) if cell.replace(",", "").isdigit() else 0


def old_rows(table):
    """For each crate, in the order of a table, its seconds and memory there."""
    rows = {}
    for line in table.split("\n"):
        cells = [cell.strip() for cell in line.strip("|").split("|")]
        if len(cells) >= 9 and cells[0].startswith("`"):
            rows[cells[0].strip("`")] = [number(cell) for cell in [*cells[6:10], "0"][:4]]
    return rows


def measured(texts):
    """The seconds and the memory of each crate that some texts have; a proof that was not measured has 0."""
    found = {}
    for text in texts:
        for name, *figures in MEASURED.findall(text):
            old = found.setdefault(name, [0, 0, 0, 0])
            found[name] = [int(new) or before for new, before in zip(figures, old)]
    return found


def row(cells, of_sum=False):
    """A row of the table."""
    return "| " + " | ".join(f"{cell:,}" if of_sum and isinstance(cell, int) else str(cell) for cell in cells) + " |\n"


def table_of(old, new):
    """The table, by the seconds and the memory of the old one and what was measured since."""
    text, sums = HEAD, [0] * 8
    names = [*(name for name in old if name in listed(TOP)), *(name for name in listed(TOP) if name not in old)]
    for name in names:
        seconds = [figure or before for figure, before in zip(new.get(name, [0] * 4), old.get(name, [0] * 4))]
        cells = [*counts(name), *seconds]
        sums = [total + cell for total, cell in zip(sums, cells)]
        text += row([f"`{name}`", *cells[:5], *(cell or NONE for cell in cells[5:])])
    return text + row(["together", *sums, ""], of_sum=True)


def main(words):
    page = PAGE.read_text(encoding="utf-8")
    begin, end = page.index("| Crate |"), page.index("\n", page.index("| together |")) + 1
    texts = [pathlib.Path(word).read_text(encoding="utf-8", errors="replace") for word in words if word != "--anew"]
    found = measured(texts)
    if "--anew" not in words:
        found = {name: [proof, tests, 0, most] for name, (proof, tests, _, most) in found.items()}
    PAGE.write_text(page[:begin] + table_of(old_rows(page[begin:end]), found) + page[end:], encoding="utf-8")
    return 0


if __name__ == "__main__":
    sys.exit(main(sys.argv[1:]))
