#!/usr/bin/env python3
"""Hands texts of any bytes to the commands of a program that read a scenario or turns: run_hostile_texts.py PROGRAM

Long, deep and broken texts have to be refused with the line that stands beside each; texts made of a scenario by random changes, always the same ones, have to
be done or refused, by `check`, `tree` and `faults` with the same line; of those that are done `size` prints no quantity that is less than its least one. So it
is with texts of turns that have settings, signals and `rest`, by `run`, `trace`, `state`, `peaks` and `faults`.

A refusal is one line on standard error, with nothing on standard output (but for `faults`, of which the first line there has the same fault) and exit status 1.
The program may take no more memory than 64 MiB and 50 times the text; 640 times, where the text is one of tables that have one key each, since the TOML reader
takes room for fifteen keys for each table. The last line is 'N passed, M failed', and the exit status is 1 where one failed.
"""
import pathlib
import random
import re
import resource
import subprocess
import sys
import tempfile

TOP = pathlib.Path(__file__).resolve().parent.parent
SECONDS = 120
CHANGES, CHANGES_OF_TURNS = 600, 300
OF_TURNS = {"run", "trace", "state", "peaks"}
OF_LEAVES = {"list", "why"}
COMMANDS = [
    *([word] for word in ("check", "run", "tree", "size", "fit", "turns", "races", "trace", "state", "peaks", "faults", "list", "why")),
    ["tree", "--dot"],
    ["fit", "--donations"],
    ["turns", "--seed", "7"],
    ["turns", "--signals", "2"],
]
# A scenario with an input and a signal, and the greatest length of a text of turns.
SIGNALLED = b'''version = 4
ram = "64K"
caps = 10
[[start]]
name = "a"
quantum = "8K"
caps = 2
inputs = [9]
signals = 1
program = """
main
end
on 0
end
"""
'''
MOST_TURNS_TEXT = 16 * 2**20
# Accounts of SIGNALLED after so many signals.
ENDED = "account init quota 57344 caps 8\naccount init -> a quota 8192 used 0 caps 2 taken 0 steps {0}/{0} serving\n"
# The program may take so many times the text, beside 64 MiB.
TIMES, TIMES_OF_TABLES = 50, 640


def leaves(number):
    """So many leaves under the root, each with an empty program."""
    leaf = '[[start]]\nname = "n{}"\nquantum = 0\nprogram = "main\\nend"\n'
    return 'version = 1\nram = "64K"\n' + "".join(leaf.format(place) for place in range(number))


def named(name):
    """A scenario of one leaf with this name, as a text in TOML."""
    return f'version = 1\nram = "64K"\n[[start]]\nname = "{name}"\nquantum = 0\nprogram = ""\n'


def texts():
    """The name of each text, the text, and the line that refuses it."""
    yield "arrays in one another", b"a = " + b"[" * 500000 + b"]" * 500000, "S1 NotToml"
    yield "arrays that are not closed", b"a = " + b"[" * 1000000, "S1 NotToml"
    yield "inline tables in one another", b"a = " + b"{a=" * 250000 + b"1" + b"}" * 250000, "S1 NotToml"
    yield "a dotted key", b"a" + b".a" * 500000 + b" = 1\n", "S1 NotToml"
    yield "a dotted table", b"[" + b"a." * 500000 + b"a]\n", "S1 NotToml"
    yield "a long number", b"version = 1\nram = " + b"9" * 1000000 + b"\nstart = []\n", "S1 NotToml"
    yield "a number beyond 64 bits", b"version = 1\nram = 18446744073709551616\nstart = []\n", "S1 NotToml"
    yield "a negative number", b"version = 1\nram = -4096\nstart = []\n", "S3 BadValue ram"
    for number in ("4", "4294967296", "9223372036854775807", "-1"):
        yield f"{number} signals", SIGNALLED.replace(b"signals = 1", f"signals = {number}".encode()), "S3 BadValue signals"
    yield "a name of control characters", named("\\u0000\\u0001").encode(), "S3 BadValue name"
    yield "a name beyond ASCII", named("é").encode(), "S3 BadValue name"
    yield "a name with a line feed", named("a\\nb").encode(), "S3 BadValue name"
    yield "a name without bytes", named("").encode(), "S3 BadValue name"
    yield "a name of 17 bytes", named("a" * 17).encode(), "S3 BadValue name"
    yield "a long name", named("a" * 900000).encode(), "S3 BadValue name"
    yield "many keys", b"version = 1\n" + b"".join(b"k%d = 1\n" % place for place in range(80000)), "S4 UnknownKey ?"
    yield "many empty leaves", b"[[start]]\n" * 100000, "S2 MissingKey version"
    yield "15000 leaves", leaves(15000).encode(), "S6 TooMany"
    yield "zeros", b"\0" * 1048576, "S1 NotToml"
    yield "no UTF-8", b"\xff" * 1048576, "S1 NotToml"
    yield "a cut character", 'version = 1 # é'.encode()[:-1], "S1 NotToml"
    yield "line feeds", b"\n" * 1048576, "S2 MissingKey version"
    yield "a byte too many", b"\n" * 1048577, "S6 TooMany"
    yield "17 MiB", b"\n" * 17825792, "S6 TooMany"
    text = b'version = 1\nram = "64K"\n[[start]]\nname = "a"\nquantum = 0\nprogram = \'\'\'\nmain\n' + b'say "x"\n' * 100000 + b"end\n'''\n"
    yield "a program of 100000 statements", text, "a: M8 TooLong line 4098"
    code = b'version = 1\nram = "64K"\n[[start]]\nname = "a"\nquantum = 0\ncode = "' + b"00" * 450000 + b'"\n'
    yield "a code of 450000 bytes", code, "a: C6 TrailingBytes"


def tables():
    """The same of texts of tables."""
    yield "many tables", b"".join(b"[a.b%d.c]\nx=1\n" % place for place in range(60000)), "S4 UnknownKey ?"
    yield "tables in one another", b"".join(b"[b%d%s]\n" % (place, b".a" * 78) for place in range(6300)), "S4 UnknownKey ?"


def texts_of_turns():
    """The name of each text of turns of SIGNALLED, the text, and the line that refuses it, or what a run over it writes."""
    yield "many signals", b"a!0\n" * 1000000, None, ENDED.format(1).replace("1/1 serving", "0/1 running")
    yield "many settings", b"a.0 = 9\n" * 500000, None, ENDED.format(1).replace("1/1 serving", "0/1 running")
    yield "many lines that bring all to rest", b"rest\n" * 500000, None, ENDED.format(1)
    yield "many signals and much rest", b"a!0\nrest\n" * 100000, None, ENDED.format(200001)
    yield "a signal of a long number", b"a!" + b"0" * 1000000, "U1 BadLine line 1", None
    yield "signals in one line", b"a!0" * 1000000, "U1 BadLine line 1", None
    yield "exclamation marks", b"!" * 1000000, "U1 BadLine line 1", None
    yield "zeros in turns", b"\0" * 1000000, "U1 BadLine line 1", None
    yield "a signal that is not there, at the end", b"a!0\n" * 500000 + b"a!1", "U6 NoSignal line 500001", None
    yield "a byte too many of turns", b"#" * MOST_TURNS_TEXT + b"\n", "U3 TooMany line 0", None


def changed(text, source):
    """The text with some of its bytes replaced, left out, doubled or moved."""
    text = bytearray(text)
    for _ in range(source.randrange(1, 6)):
        place, length = source.randrange(len(text)), source.randrange(1, 12)
        piece = text[place : place + length]
        kind = source.randrange(4)
        if kind == 0:
            text[place : place + length] = bytes(source.randrange(256) for _ in piece)
        elif kind == 1:
            del text[place : place + length]
        elif kind == 2:
            text[place:place] = piece * source.randrange(1, 4)
        else:
            text[source.randrange(len(text)) : 0] = piece
        if not text:
            text = bytearray(b"x")
    return bytes(text)


def result_of(program, words, room, text, times=TIMES, list_of_turns=b""):
    """How a run of the program over this text ends, within its memory."""
    path = room / "scenario.toml"
    path.write_bytes(text)
    turns = room / "turns"
    turns.write_bytes(list_of_turns)
    most = 64 * 2**20 + times * (len(text) + len(list_of_turns))
    takes_turns = words[0] in OF_TURNS or words[0] == "faults" and list_of_turns
    files = [str(path)] + ([str(turns)] if takes_turns else []) + (["a"] if words[0] in OF_LEAVES else [])
    ran = subprocess.run(
        [program, *words, *files],
        capture_output=True,
        timeout=SECONDS,
        preexec_fn=lambda: resource.setrlimit(resource.RLIMIT_AS, (most, most)),
    )
    return ran.stdout, ran.stderr, ran.returncode


def is_refusal(stdout, stderr, status):
    """A refusal: one line of printable characters, and nothing else."""
    line = stderr[:-1]
    return status == 1 and not stdout and stderr.startswith(b"trade: ") and stderr.endswith(b"\n") and all(32 <= byte < 127 for byte in line)


def is_done(stdout, stderr, status):
    """A check that is done: a line for each leaf and each signal, and nothing else."""
    return status == 0 and not stderr and all(line.startswith((b"budget init -> ", b"signal init -> ")) for line in stdout.splitlines())


def is_tree(stdout, stderr, status):
    """A tree that is done: the root's line, and below it those of nodes and of what leaves open."""
    first, *others = stdout.splitlines()
    below = rb" {2,}([\w-]+ quantum|opens [\w-]+ of init -> |offers [\w-]+ from [\w-]+$)"
    return status == 0 and not stderr and first.startswith(b"init quantum ") and all(re.match(below, line) for line in others)


def is_size(stdout, stderr, status):
    """The least quantities of a scenario that is accepted: no `open` is short, and no quantity of a node or need is less than its least one."""
    lines = stdout.splitlines()
    pairs = [pair for line in lines if b" upgrade " not in line for pair in re.findall(rb" (?:need|quantum|caps) (\d+) least (\d+)", line)]
    printed = bool(pairs) and all(line.startswith(b"size ") for line in lines)
    return status == 0 and not stderr and printed and all(int(has) >= int(least) for has, least in pairs)


def first_fault(printed):
    """The fault that `faults` prints first."""
    return printed.split(b"\n")[0].split(b": ", 1)[-1]


def are_faults(got, checked):
    """Faults of which the first is the one that `check` prints, in lines of printable characters; none where that is done."""
    printed, stderr, status = got
    if checked[2] == 0:
        return got == (b"", b"", 0)
    return (b"trade: " + first_fault(printed) + b"\n", stderr, status) == (checked[1], *checked[1:])


def turns_judged(program, room):
    """What is tried with each text of turns, and how it ended where it is wrong."""
    for name, text, line, written in texts_of_turns():
        got = result_of(program, ["run"], room, SIGNALLED, list_of_turns=text)
        faults = result_of(program, ["faults"], room, SIGNALLED, list_of_turns=text)
        wanted = (b"", f"trade: {line}\n".encode(), 1) if line else (written.encode(), b"", 0)
        yield name, None if got == wanted and are_faults(faults, (b"", *got[1:])) else (got[0][:200], got[1:], faults[0][:200], faults[1:])
    source, folders = random.Random(2), sorted((TOP / "tests" / "cases").glob("*/turns"))
    pairs = [(turns.with_name("scenario.toml").read_bytes(), turns.read_bytes()) for turns in folders if "cut" not in turns.parent.name]
    samples = [(scenario, turns) for scenario, turns in pairs if b"version = 4" in scenario and turns]
    for _ in range(CHANGES_OF_TURNS):
        scenario, turns = source.choice(samples)
        text = changed(turns, source)
        run, *others = (result_of(program, [word], room, scenario, list_of_turns=text) for word in ("run", "trace", "state", "peaks"))
        faults = result_of(program, ["faults"], room, scenario, list_of_turns=text)
        same = all(other == run for other in others) if run[2] else all(other[1:] == (b"", 0) for other in others)
        ends = is_refusal(*run) if run[2] else not run[1]
        yield f"{text!r} of {scenario!r}", None if ends and same and are_faults(faults, (b"", *run[1:])) else (run, *others, faults)


def main():
    program = sys.argv[1]
    passed = failed = 0
    with tempfile.TemporaryDirectory() as folder:
        room = pathlib.Path(folder)
        given = [(text, TIMES) for text in texts()] + [(text, TIMES_OF_TABLES) for text in tables()]
        for (name, text, line), times in given:
            for words in COMMANDS:
                got = result_of(program, words, room, text, times)
                printed = first_fault(got[0]) if words == ["faults"] else b""
                if (printed, *got[1:]) == (line.encode() if words == ["faults"] else b"", f"trade: {line}\n".encode(), 1):
                    passed += 1
                else:
                    failed += 1
                    print(f"FAILED {' '.join(words)} of {name}: {got[0][:100]} {got[1][:200]} {got[2]}")
        source = random.Random(1)
        cases = sorted((TOP / "tests" / "cases").glob("*/scenario.toml"))
        samples = [path.read_bytes() for path in cases if path.parent.name.startswith("check-") or re.search(rb"^version = [34]", path.read_bytes())]
        for _ in range(CHANGES):
            text = changed(source.choice(samples), source)
            got, tree, size, faults = (result_of(program, [word], room, text) for word in ("check", "tree", "size", "faults"))
            refused = is_refusal(*got) and tree == got and (size == got or is_refusal(*size) or size[2] == 0)
            if (refused or is_done(*got) and is_tree(*tree) and is_size(*size)) and are_faults(faults, got):
                passed += 1
            else:
                failed += 1
                print(f"FAILED check, tree, size and faults of {text!r}: {got}, {tree}, {size}, {faults}")
        for name, wrong in turns_judged(program, room):
            passed, failed = passed + (wrong is None), failed + (wrong is not None)
            if wrong is not None:
                print(f"FAILED turns: {name}: {wrong}")
    print(f"{passed} passed, {failed} failed")
    sys.exit(1 if failed else 0)


if __name__ == "__main__":
    main()
