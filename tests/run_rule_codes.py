#!/usr/bin/env python3
"""tests/run_rule_codes.py [PROGRAM]: holds the table of `trade rule` against the documents, and the program against the table.

The codes and names in crates/gq_rule_texts/src have to be those that docs/SCENARIOS.md and docs/MACHINE.md list: no code is missing in one of both, none is
twice in the table, and each has one name. The codes of a family are numbered from 1. Each text has the same parts. The example of each rule has to show its code and name, and a command that a text names has to be one of the program's
(crates/gq_command/src/entries.rt). With PROGRAM, what it prints for `rule` has to be the lines of the whole table in their order, and for each code its text:
so `main` hands over the table that is proved of. The last line is 'N passed, M failed', and the exit status is 1 where one failed.
"""
import collections
import pathlib
import re
import subprocess
import sys

TOP = pathlib.Path(__file__).resolve().parent.parent
SOURCES = TOP / "crates" / "gq_rule_texts" / "src"
DOCUMENTS = TOP / "docs" / "SCENARIOS.md", TOP / "docs" / "MACHINE.md"
COMMANDS = TOP / "crates" / "gq_command" / "src" / "entries.rt"
# An entry of the table: the code, the name, the rule, the text and the example.
ENTRY = re.compile(r'entry!\(\s*"([SMCVBUX]\d+)",\s*"(\w+)",\s*"((?:[^"\\]|\\.)*)",\s*"((?:[^"\\]|\\.)*)",\s*"((?:[^"\\]|\\.)*)"\s*\)', re.DOTALL)
# The first cell of a row of a document's table: a code and its name, perhaps with the leaf before it, as a fault of budgets has.
LISTED = re.compile(r"^\| (?:LEAF)?`(?:: )?([SMCVBUX]\d+) (\w+)", re.MULTILINE)
NAMED = re.compile(r"`trade ([a-z]+)")
# What each text has.
PARTS = "\n\nWhat usually leads to it:\n- ", "\n\nWhat to do: "
FILES = ("scenario_rules", "program_rules", "verifier_rules", "limit_rules")


def listed():
    """The names that the documents have for each code."""
    names = collections.defaultdict(set)
    for document in DOCUMENTS:
        for code, name in LISTED.findall(document.read_text()):
            names[code].add(name)
    return names


def findings():
    """What is held against what: what was looked at, and what is wrong there, if anything is."""
    entries = [entry for path in sorted(SOURCES.glob("*.rt")) for entry in ENTRY.findall(path.read_text())]
    names = listed()
    count = sum(path.read_text().count("entry!(") for path in SOURCES.glob("*.rt"))
    yield "the entries of the table", None if entries and len(entries) == count else f"{len(entries)} of {count} can be read"
    commands = set(re.findall(r'\bname: "([a-z]+)",\n    takes', COMMANDS.read_text()))
    yield "the commands of the program", None if commands else "none is found"
    for code, times in sorted(collections.Counter(code for code, *_ in entries).items()):
        yield f"{code} stands once", None if times == 1 else f"it stands {times} times"
    for letter in "SMCVBUX":
        numbers = sorted(int(code[1:]) for code, *_ in entries if code[0] == letter)
        yield f"the numbers of {letter}", None if numbers and numbers == list(range(1, len(numbers) + 1)) else f"they are {numbers}"
    for code in sorted(names.keys() - {code for code, *_ in entries}):
        yield code, "the documents list it, and the table has no such code"
    for code, name, _, text, example in entries:
        yield f"{code} in the documents", None if names[code] == {name} else f"the table has {name}, and they have {sorted(names[code]) or 'no such code'}"
        shown = re.search(rf"\b{code}\b", example) and (code.startswith("X") or f"{code} {name}" in example)
        yield f"the example of {code}", None if shown else f"it is {example!r}"
        lacking = [part for part in PARTS if part not in plain(text)]
        yield f"the parts of the text of {code}", f"it lacks {lacking}" if lacking else None
        unknown = set(NAMED.findall(re.sub(r"\s+", " ", text))) - commands
        yield f"the commands in the text of {code}", f"there is no {sorted(unknown)}" if unknown else None


def plain(literal):
    """The text of a string literal."""
    return re.sub(r"\\\n\s*", "", literal).replace('\\"', '"').replace("\\\\", "\\")


def printed(program):
    """What is wrong with what the program prints of rules."""
    entries = [[plain(part) for part in entry] for name in FILES for entry in ENTRY.findall((SOURCES / f"{name}.rt").read_text())]
    order = sorted(entries, key=lambda entry: ("SMCVBUX".index(entry[0][0]), int(entry[0][1:])))
    wanted = "".join(f"{code} {name}: {rule}\n" for code, name, rule, _, _ in order)
    yield "the lines of `rule`", differs(wanted, said(program, "rule"))
    for code, name, _, text, example in order:
        for word in (code, code.lower()):
            yield f"the text of {word}", differs(f"{code} {name}\n\n{text}\n\nExample: {example}\n", said(program, "rule", word))


def said(program, *words):
    """What the program prints."""
    return subprocess.run([program, *words], capture_output=True, text=True, timeout=60, check=False).stdout


def differs(wanted, got):
    """What is wrong where two texts differ."""
    return None if wanted == got else f"wanted {wanted[:200]!r}, got {got[:200]!r}"


def main():
    passed = failed = 0
    for what, wrong in [*findings(), *(it for program in sys.argv[1:] for it in printed(program))]:
        if wrong is None:
            passed += 1
        else:
            failed += 1
            print(f"FAILED {what}: {wrong}")
    print(f"{passed} passed, {failed} failed")
    return 1 if failed or not passed else 0


if __name__ == "__main__":
    sys.exit(main())
