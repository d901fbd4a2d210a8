#!/usr/bin/env python3
"""Runs a program over the cases in tests/cases and over the examples: run_cases.py PROGRAM [NAME..]

A case is a folder, named by what it shows. It has
  scenario.toml   the scenario,
  turns           the turns; without the file there are none,
  command         a command of the program without its files, as `run`, `check`, `asm LEAF` or `tree --dot`: they stand right behind
                  its first word, or the scenario's where a word is SCENARIO; or `stored` for the scenario and the turns in one
                  text on standard input, or `unverified` for a run with tests by the program `unverified`, where it is built,
                  in place of PROGRAM,
  stdout, stderr, status   what the program has to write, and the exit status that it has to end with,
  length          where it is there: the number of bytes to which the scenario is filled up with number signs, which
                  a comment in its last line is made of.
An example is a file NAME.toml in examples/ with NAME.turns, the turns, and NAME.out, what its run writes; NAME.other.turns and NAME.other.out are
other turns and what the run over them writes.

A table is a file in tests/tables: many small cases of one frame. Its key `case` has them, and each says
  line            the line on standard error, after `trade: `, of a case that is refused; without it the case passes,
  below           what stands below that line, without the two blanks that each of its lines begins with,
  wrong           the leaf and the number of the first wrong step, of a run with tests,
  out             what is written to standard output, where it passes, or by `faults`, of which paths are the files' names alone,
  status          where it is neither 0 for what passes nor 1 for what is refused.
`command`, `scenario` and `turns` are as above, in a case or in the table for all cases; `words` are the words of a command
line as they are. In all of them `<name>` stands for what the case, or else the table, has under this name; [N, TEXT] there
is N times the text. A case with `of` has the scenario that the table has under that name, with the text `old` in it, which stands there
once, replaced by `new`.

Names after PROGRAM are those of the cases or tables to run; without any, all are run. The last line is 'N passed, M failed',
and the exit status is 1 where a case failed.
"""
import pathlib
import subprocess
import sys
import tempfile
import tomllib

TOP = pathlib.Path(__file__).resolve().parent.parent
CASES = TOP / "tests" / "cases"
TABLES = TOP / "tests" / "tables"
EXAMPLES = TOP / "examples"
UNVERIFIED = TOP / "crates" / "unverified" / "out" / "unverified"
OF_TURNS = {"run", "trace", "state", "peaks"}
DEEPEST = 4
SECONDS = 120


def optional(path):
    return path.read_bytes() if path.exists() else b""


def scenario_of(folder):
    """The text of a case's scenario, filled up where the case gives a length."""
    text = (folder / "scenario.toml").read_bytes()
    length = optional(folder / "length")
    return text.ljust(int(length), b"#") if length else text


def words_of(command, files, turns):
    """The words of a command of a case, with the files of its scenario and its turns; `faults` is given turns where there are some."""
    name, *more = command.split(" ")
    if "SCENARIO" in more:
        return [name, *(str(files[0]) if word == "SCENARIO" else word for word in more)]
    takes_turns = name in OF_TURNS or (name == "faults" and turns)
    return [name, *map(str, files if takes_turns else files[:1]), *more]


def result_of(program, command, scenario, turns):
    """What a run writes to both streams, and its exit status. A command that is a list has the words as they are."""
    with tempfile.TemporaryDirectory() as room:
        paths = [pathlib.Path(room, name) for name in ("scenario.toml", "turns")]
        for path, text in zip(paths, (scenario, turns)):
            path.write_bytes(text)
        words, given = command, b""
        if command == "stored":
            words, given = [], scenario + (b"%%\n" + turns if turns else b"")
        elif command == "unverified":
            program, words = str(UNVERIFIED), list(map(str, paths))
        elif isinstance(command, str):
            words = words_of(command, paths, turns)
        ran = subprocess.run([program, *words], input=given, capture_output=True, timeout=SECONDS)
    out = ran.stdout.replace(room.encode() + b"/", b"") if command == "faults" else ran.stdout
    return out, ran.stderr, ran.returncode


def filled(text, words):
    """A text with what stands in it for a name replaced by what the name has."""
    for _ in range(DEEPEST):
        for name, value in words.items():
            if isinstance(value, str):
                text = text.replace(f"<{name}>", value)
    return text


def changed(words):
    """The scenario of a case that has the one of a name with a change, and else its own."""
    if "of" not in words:
        return words.get("scenario", "")
    text, old = words[words["of"]], words.get("old", "")
    if old and text.count(old) != 1:
        raise ValueError(f"{old!r} does not stand once in {words['of']}")
    return text.replace(old, words["new"]) if old else text


def tabled(table):
    """The command, the scenario, the turns and the wanted result of each case of a table."""
    for case in table["case"]:
        words = {**table, **case}
        words |= {name: value[1] * value[0] for name, value in words.items() if name not in ("case", "words") and isinstance(value, list)}
        words["scenario"] = changed(words)
        scenario, turns, out = (filled(words.get(key, ""), words).encode() for key in ("scenario", "turns", "out"))
        line = b"trade: " + words["line"].encode() + b"\n" if "line" in words else b""
        line += "".join(f"  {below}\n" for below in words.get("below", "").splitlines()).encode()
        line = b"wrong " + words["wrong"].encode() + b"\n" if "wrong" in words else line
        command = words["words"] if "words" in words else words["command"]
        yield command, scenario, turns, (out, line, words.get("status", 1 if line else 0))


def cases():
    """The name, the command, the scenario, the turns and the wanted result of each case."""
    for folder in sorted(it for it in CASES.iterdir() if it.is_dir()):
        wanted = optional(folder / "stdout"), optional(folder / "stderr"), int(optional(folder / "status"))
        command = (folder / "command").read_text().strip()
        yield folder.name, command, scenario_of(folder), optional(folder / "turns"), wanted
    for path in sorted(TABLES.glob("*.toml")):
        for number, case in enumerate(tabled(tomllib.loads(path.read_text())), 1):
            yield f"{path.stem} {number}", *case
    for turns in sorted(EXAMPLES.glob("*.turns")):
        scenario = EXAMPLES / turns.name.split(".")[0]
        wanted = turns.with_suffix(".out").read_bytes(), b"", 0
        yield f"examples/{turns.stem}", "run", scenario.with_suffix(".toml").read_bytes(), turns.read_bytes(), wanted


def shortened(text):
    return text if len(text) <= 400 else text[:400] + b" .."


def main(words):
    if not words or words[0].startswith("-"):
        sys.exit(__doc__)
    program, names = str(pathlib.Path(words[0]).resolve()), words[1:]
    passed = failed = skipped = 0
    for name, command, scenario, turns, wanted in cases():
        if names and name not in names and name.split(" ")[0] not in names:
            continue
        if command == "unverified" and not UNVERIFIED.exists():
            skipped += 1
            continue
        try:
            got = result_of(program, command, scenario, turns)
        except (OSError, subprocess.TimeoutExpired) as error:
            got = b"", str(error).encode(), None
        if got == wanted:
            passed += 1
            continue
        failed += 1
        print(f"FAILED {name}")
        for what, want, have in zip(("stdout", "stderr", "status"), wanted, got):
            if want != have:
                want, have = [shortened(it) if isinstance(it, bytes) else it for it in (want, have)]
                print(f"  {what}: wanted {want}\n  {what}: got    {have}")
    if skipped:
        print(f"{skipped} cases were left out: {UNVERIFIED} is not built")
    print(f"{passed} passed, {failed} failed")
    return 1 if failed or not passed else 0


if __name__ == "__main__":
    sys.exit(main(sys.argv[1:]))
