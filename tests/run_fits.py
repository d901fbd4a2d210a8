#!/usr/bin/env python3
"""tests/run_fits.py PROGRAM: holds `trade fit` against `trade check` and `trade size`, over all examples, all cases and random changes of their numbers.

What `fit` prints is accepted by `check`. `size` of it prints each number as its least, and `fit` of it prints it again. It has the lines of the text that it was
made of, with other numbers for the keys of quantities alone, and in lists of them. With `--donations` the same holds, and lines of programs may differ in the last
word of `open` and `upgrade`. A scenario that is accepted has a fit, but for one with no place for `upgrade-caps`, and with `--donations` for one whose sessions hold
one another without end or with a program given as code. The last line is 'N passed, M failed', and the exit status is 1 where one failed.
"""
import pathlib
import random
import re
import subprocess
import sys
import tempfile

TOP = pathlib.Path(__file__).resolve().parent.parent
SECONDS = 120
CHANGES = 200
KEYS = "need-caps", "need", "upgrades", "upgrade-caps", "quantum", "ram", "caps"
QUANTITY = re.compile(r"(?<![\w-])(?:" + "|".join(KEYS) + r")(?![\w-])\s*=")
VALUE = re.compile(r"\[[^\]]*\]|'[^']*'|\"[^\"]*\"|\+?\w+")
GIVES = re.compile(r"^\s*(?:open\s+\S+\s+\S+|upgrade\s+\S+)\s+(\d+)\s*$")
PAIR = re.compile(r"(?: (?:need|quantum)| upgrade \d+) (\d+) least (\d+)(?: caps (\d+) least (\w+))?$")
WAYS = [], ["--donations"]


def result_of(program, *words):
    """What the program writes, and its status."""
    ran = subprocess.run([program, *map(str, words)], stdin=subprocess.DEVNULL, stdout=subprocess.PIPE, stderr=subprocess.PIPE, timeout=SECONDS)
    return ran.stdout, ran.stderr, ran.returncode


def texts():
    """The scenarios of all examples and cases."""
    files = sorted((TOP / "examples").glob("*.toml")) + sorted((TOP / "tests" / "cases").glob("*/scenario.toml"))
    return sorted({file.read_bytes() for file in files})


def changed(text, choice):
    """A text with other numbers in some of its lines."""
    lines = text.split(b"\n")
    numbers = [place for place, line in enumerate(lines) if re.search(rb"=.*\d|\b(?:open|upgrade)\b.*\d", line)]
    for place in choice.sample(numbers, min(len(numbers), 3)):
        new = str(choice.choice([0, 1, 4095, 4096, 8192, 65536, 1 << 20])).encode()
        lines[place] = re.sub(rb"\d+(?=[KMG]?\W*$)", new, lines[place])
    return b"\n".join(lines)


def without_values(text, with_programs):
    """A text without the values of quantities, and perhaps without the numbers that its programs give."""
    kept, at = "", 0
    for key in QUANTITY.finditer(text):
        value = VALUE.search(text, key.end())
        if value is not None and key.end() >= at:
            kept += text[at : key.end()] + re.match(r"\s*", text[key.end() :])[0]
            at = value.end()
    text = kept + text[at:]
    if with_programs:
        text = "\n".join(line[: found.start(1)] if (found := GIVES.match(line)) else line for line in text.split("\n"))
    return text


def are_least(size):
    """Whether each number of a text of `size` is its least."""
    found = [PAIR.search(line) for line in size.decode().splitlines()]
    return bool(found) and all(pair and pair[1] == pair[2] and pair[3] == pair[4] for pair in found)


def holds(program, room, text, way):
    """What is wrong with the fit of a text, if anything."""
    old, new = room / "old.toml", room / "new.toml"
    old.write_bytes(text)
    fit, said, status = result_of(program, "fit", *way, old)
    if status != 0:
        accepted = result_of(program, "check", old)[2] == 0
        expected = not fit and status == 1 and said.startswith(b"trade: ")
        may_fail = b"\nno place for upgrade-caps" in said or bool(way) and (b"\ncode of" in said or b"\nnone for" in said)
        return None if expected and (may_fail or not accepted) else f"status {status}, {said!r}"
    new.write_bytes(fit)
    if result_of(program, "check", new)[2] != 0:
        return "check refuses it"
    if not are_least(result_of(program, "size", new)[0]):
        return "size prints other numbers"
    if result_of(program, "fit", *way, new)[0] != fit:
        return "it has another fit"
    if without_values(text.decode(), way) != without_values(fit.decode(), way):
        return "something else differs"
    return None


def main():
    program = str(pathlib.Path(sys.argv[1]).resolve())
    choice = random.Random(11)
    all_texts = texts()
    asked = all_texts + [changed(choice.choice(all_texts), choice) for _ in range(CHANGES)]
    passed = failed = 0
    with tempfile.TemporaryDirectory() as name:
        for text in asked:
            for way in WAYS:
                wrong = holds(program, pathlib.Path(name), text, way)
                if wrong is None:
                    passed += 1
                else:
                    failed += 1
                    print(f"FAILED fit {' '.join(way)} of {text[:200]!r}: {wrong}")
    print(f"{passed} passed, {failed} failed")
    return 1 if failed else 0


if __name__ == "__main__":
    sys.exit(main())
