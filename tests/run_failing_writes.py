#!/usr/bin/env python3
"""Runs a program whose output can not be written, or not all of it: run_failing_writes.py PROGRAM

Standard output is a full device, or a pipe whose reader closes it after some bytes. The program has to end with status 4. It prints `trade: file fault` and why
for the full device, and nothing for the pipe, and what the reader has got is a prefix of what the run writes where all is written. The runs are those of the
examples, one of thousands of signals, and one of 200,000 lines, which is longer than a pipe holds; and so are tried the other commands, over each example, and
those that read nothing, and `faults` over scenarios, turns and signals that have one fault and many. Each command prints one short text at least, which leaves
the program's buffer only at its end.

Where standard error is a full device, a refusal has the status that it has otherwise, and writes nothing to standard output. The last line is
'N passed, M failed', and the exit status is 1 where a run failed.
"""
import os
import pathlib
import subprocess
import sys
import tempfile
import tomllib

TOP = pathlib.Path(__file__).resolve().parent.parent
EXAMPLES = TOP / "examples"
LINES = 200_000
SECONDS = 120
FULL = b"trade: file fault\n  standard output: No space left on device (os error 28)\n", 4
CLOSED = b"", 4
LONG = '''
version = 1
ram = "4K"
[[start]]
name = "a"
quantum = "4K"
program = """
main
loop 4
loop 65535
index 0
out
end
end
end
"""
'''


FAULTY = 'version = 1\nram = "64K"\n' + "".join(f"key{place} = 1\n" for place in range(5000)) + 'start = []\n'


def first_leaf(nodes):
    """The name of a leaf below these nodes."""
    return first_leaf(nodes[0]["start"]) if "start" in nodes[0] else nodes[0]["name"]


def commands():
    """The name and the words of each command that is no run: over each example, and without one."""
    for scenario in sorted(EXAMPLES.glob("*.toml")):
        leaf = first_leaf(tomllib.loads(scenario.read_text())["start"])
        for words in (["check"], ["tree"], ["tree", "--dot"], ["size"], ["fit"], ["fit", "--donations"], ["turns"], ["turns", "--seed", "7"], ["turns", "--signals", "3"]):
            yield f"{' '.join(words)} of {scenario.name}", [*words, str(scenario)]
        for words in (["trace"], ["trace", "--all"], ["state"], ["state", "--at", "3"], ["peaks"]):
            yield f"{' '.join(words)} of {scenario.name}", [*words, str(scenario), str(scenario.with_suffix(".turns"))]
        for words in (["asm"], ["list"], ["list", "--numbers"], ["why"]):
            yield f"{' '.join(words)} of {leaf} of {scenario.name}", [*words, str(scenario), leaf]
    for name in ("shared_count.toml", "signal_race.toml"):
        yield f"races of {name}", ["races", str(EXAMPLES / name)]
    yield "outcomes of shared_count.toml", ["outcomes", str(EXAMPLES / "shared_count.toml")]
    thermostat = str(EXAMPLES / "thermostat.toml")
    yield "turns with many signals", ["turns", "--signals", "5000", thermostat]
    for words in (["rule"], ["rule", "V12"], ["rule", "U6"], ["--version"], ["--help"]):
        yield " ".join(words), words


def whole(program, words):
    """What the run writes."""
    return subprocess.run([program, *words], capture_output=True, timeout=SECONDS, check=True).stdout


def to_full_device(program, words):
    """What is printed on standard error, and the status, where nothing can be written."""
    with open("/dev/full", "wb") as full:
        ran = subprocess.run([program, *words], stdout=full, stderr=subprocess.PIPE, timeout=SECONDS)
    return ran.stderr, ran.returncode


def to_closed_pipe(program, words, count):
    """What a reader got that closes the pipe after so many bytes, what it reports, and the status."""
    source, target = os.pipe()
    if not count:
        os.close(source)
    ran = subprocess.Popen([program, *words], stdout=target, stderr=subprocess.PIPE)
    os.close(target)
    got = b""
    if count:
        while len(got) < count and (more := os.read(source, count - len(got))):
            got += more
        os.close(source)
    reported = ran.communicate(timeout=SECONDS)[1]
    return got, (reported, ran.returncode)


def unreported(program, words):
    """What a command writes to standard output, and its status, where its line on standard error can't be written."""
    with open("/dev/full", "wb") as full:
        ran = subprocess.run([program, *words], stdout=subprocess.PIPE, stderr=full, timeout=SECONDS)
    return ran.stdout, ran.returncode


def results(program, room):
    """What was wanted of each run, and what came."""
    hello, no_leaf, no_version = str(EXAMPLES / "hello.toml"), room / "no_leaf", room / "no_version"
    no_leaf.write_text("init 1\n")
    no_version.write_text('ram = "64K"\n')
    for status, words in ((1, ["run", hello, str(no_leaf)]), (1, ["check", str(no_version)]), (1, ["rule", "V20"]), (2, ["walk"]), (4, ["check", "no such file"])):
        yield f"{' '.join(words)}, with a full standard error", (b"", status), unreported(program, words)
    for scenario in sorted(EXAMPLES.glob("*.toml")):
        words = ["run", str(scenario), str(scenario.with_suffix(".turns"))]
        yield f"{scenario.name} to a full device", FULL, to_full_device(program, words)
        yield f"{scenario.name} to a closed pipe", (b"", CLOSED), to_closed_pipe(program, words, 0)
    for name, words in commands():
        text = whole(program, words)
        yield f"{name}, whole", True, bool(text)
        yield f"{name} to a full device", FULL, to_full_device(program, words)
        yield f"{name} to a closed pipe", (b"", CLOSED), to_closed_pipe(program, words, 0)
    one, none = room / "one.toml", room / "none"
    one.write_text('version = 1\nram = "64K"\nkey = 1\nstart = []\n')
    none.write_text("no turn\n")
    for name, words in (("faults, one", [str(one)]), ("faults of turns, one", [str(EXAMPLES / "hello.toml"), str(none)])):
        words = ["faults", *words]
        ran = subprocess.run([program, *words], capture_output=True, timeout=SECONDS)
        yield f"{name}, whole", (1, True), (ran.returncode, 0 < len(ran.stdout) < 65536)
        yield f"{name} to a full device", FULL, to_full_device(program, words)
        yield f"{name} to a closed pipe", (b"", CLOSED), to_closed_pipe(program, words, 0)
    faulty, wrong, unknown = room / "faulty.toml", room / "wrong", room / "unknown"
    faulty.write_text(FAULTY)
    wrong.write_text("no turn\n" * 5000)
    unknown.write_text("rest\n" + "controller!1\n" * 5000)
    of_turns, of_signals = [str(EXAMPLES / "hello.toml"), str(wrong)], [str(EXAMPLES / "thermostat.toml"), str(unknown)]
    for name, words in (("faults", [str(faulty)]), ("faults of turns", of_turns), ("faults of signals", of_signals)):
        words = ["faults", *words]
        text = subprocess.run([program, *words], capture_output=True, timeout=SECONDS).stdout
        yield f"{name}, whole", True, text.count(b"\n") >= 10_000
        yield f"{name} to a full device", FULL, to_full_device(program, words)
        for count in (0, 1, 17, 65536, 65537, 100_000):
            yield f"{name} to a pipe closed after {count}", (text[:count], CLOSED), to_closed_pipe(program, words, count)
    ticks = room / "ticks"
    ticks.write_text("rest\n" + "sensor_drv.0 = 190\ncontroller!0\nrest\n" * 10_000)
    words = ["run", str(EXAMPLES / "thermostat.toml"), str(ticks)]
    text = whole(program, words)
    yield "lines of a run with signals", True, text.count(b"\n") >= 20_000
    yield "a run with signals to a full device", FULL, to_full_device(program, words)
    for count in (0, 65536, 100_000):
        yield f"a run with signals to a pipe closed after {count}", (text[:count], CLOSED), to_closed_pipe(program, words, count)
    scenario, turns = room / "long.toml", room / "turns"
    scenario.write_text(LONG)
    turns.write_text(f"a {3 * LINES + 10}\n")
    words = ["run", str(scenario), str(turns)]
    text = whole(program, words)
    yield "lines of a long run", True, text.count(b"\n") >= LINES
    yield "a long run to a full device", FULL, to_full_device(program, words)
    for count in (0, 1, 17, 65535, 65536, 65537, 1_000_000):
        yield f"a long run to a pipe closed after {count}", (text[:count], CLOSED), to_closed_pipe(program, words, count)


def main(words):
    if len(words) != 1 or words[0].startswith("-"):
        sys.exit(__doc__)
    passed = failed = 0
    with tempfile.TemporaryDirectory() as folder:
        for what, wanted, got in results(str(pathlib.Path(words[0]).resolve()), pathlib.Path(folder)):
            if wanted == got:
                passed += 1
            else:
                failed += 1
                print(f"FAILED {what}\n  wanted {str(wanted)[:200]}\n  got    {str(got)[:200]}")
    print(f"{passed} passed, {failed} failed")
    return 1 if failed or not passed else 0


if __name__ == "__main__":
    sys.exit(main(sys.argv[1:]))
