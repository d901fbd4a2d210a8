#!/usr/bin/env python3
"""Refuses each growth of host memory of a run in turn: run_refused_growths.py PROGRAM.., of which each is `trade` or `benchmark`

The runs are that of each example, with paths and in the stored form, and those of a few cases: a program given as code, the budgets
of a scenario, its tree and its graph, the code of a leaf, and its program as text; and those that read no file: what a code means, and the version. For each growth that the run asks for, one after the
other, the program is run with that growth refused. It then has to write nothing to standard output, to report
`trade: host memory refused`, and to end with status 3. With none refused it has to write the text of the example or the case.
So are run some texts of the table of faults, of which a prefix may have been written before a growth is refused.

Turns take no host memory: each case of a run, also traced and with its accounts at its end, asks for as many growths where each line of its turns has one turn as where it has all of its own.

The crates of component memory are run so by the program `benchmark`: with a growth refused it has to write nothing to standard
output, to end standard error with a line after `benchmark: `, and to end with status 1.

A program that the C compiler `cc` builds (tests/refuse_growth.c) refuses the growths. As many runs go side by side as there are processors. The last line is 'N passed, M failed',
and the exit status is 1 where a run failed.
"""
import concurrent.futures
import os
import pathlib
import subprocess
import sys
import tempfile
import tomllib

TOP = pathlib.Path(__file__).resolve().parent.parent
sys.path.insert(0, str(TOP / "tests"))
sys.dont_write_bytecode = True
from run_cases import tabled  # noqa: E402

EXAMPLES = TOP / "examples"
CASES = TOP / "tests" / "cases"
SOME_CASES = "code-run", "check-two-leaves", "check-client-and-server", "check-two-inits-deep", "asm-hello", "asm-code-in-capitals"
OF_DESIGNERS = (
    "list-every-statement", "list-a-program-given-as-code", "list-numbers-of-blocks",
    "tree-inits", "graph-inits", "tree-version-2", "graph-a-leaf-after-another",
    "offer-deep-tree", "offer-tree-dot",
)
OF_SIZES = "size-servers-of-servers", "size-of-an-open-that-gives-too-little", "why-every-statement", "why-a-server-of-two"
OF_FITS = "fit-servers-of-servers", "fit-donations-of-servers-of-servers"
OF_RUNS = (
    "turns-inits", "turns-version-2", "races-stores-of-a-shared-server", "outcomes-of-a-pool-that-two-clients-share",
    "trace-an-upgrade-and-a-buffer", "trace-all-inits",
    "state-in-a-call", "state-version-2", "state-at-a-request-at-hand", "peaks-echo",
)
OF_TURNS = {"run", "trace", "state", "peaks"}
RULES = TOP / "tests" / "tables" / "rule.toml"
FAULTS = TOP / "tests" / "tables" / "faults.toml"
# Of each kind one: of no TOML, of tables, of counts and names, of texts and codes, of rules, of routes, of budgets and of turns.
SOME_FAULTS = {
    "S1", "S2", "S3", "S4", "S5", "S6", "S7", "M1", "C2", "V12", "V13", "V14", "V18", "V19", "S8", "S9", "S10", "S11", "S12", "S13", "S14", "S15", "B1", "B2",
    "B3", "U1",
}
SOURCE = TOP / "tests" / "refuse_growth.c"
SECONDS = 120
REFUSED = b"", b"trade: host memory refused\n", 3
SOME_WORKS = "words 1", "heap 1 64", "slices 1 64", "pool 1 64", "sessions 1 1"


def built(room):
    """The shared object that refuses growths."""
    shared = room / "refuse_growth.so"
    compiler = os.environ.get("CC", "cc")
    subprocess.run([compiler, "-O1", "-shared", "-fPIC", "-o", shared, SOURCE, "-ldl"], check=True)
    return shared


def result_of(program, shared, words, given, refused):
    """What a run writes to both streams, its exit status, and how many growths it asked for. Its standard input is a file: what a read of a pipe gives, and so
    how a buffer grows, hangs on when the other end writes."""
    with tempfile.NamedTemporaryFile("r") as count, tempfile.TemporaryFile() as stream:
        stream.write(given)
        stream.seek(0)
        settings = dict(os.environ, LD_PRELOAD=str(shared), GROWTH_REFUSED=str(refused), GROWTH_COUNT=count.name)
        ran = subprocess.run([program, *words], stdin=stream, capture_output=True, timeout=SECONDS, env=settings)
        return (ran.stdout, ran.stderr, ran.returncode), int(count.read() or 0)


def refused_in_turn(program, shared, name, words, given, text):
    """What was wanted and what came of a run, and of it with each growth refused."""
    whole, growths = result_of(program, shared, words, given, 0)
    yield f"{name}, refused: none", (text, b"", 0), whole
    yield f"{name}, refused: any", True, growths > 0
    for number in range(1, growths + 1):
        yield f"{name}, refused: growth {number} of {growths}", REFUSED, result_of(program, shared, words, given, number)[0]


def runs():
    """The name, the words, the standard input and the text of each run."""
    for scenario in sorted(EXAMPLES.glob("*.toml")):
        turns = scenario.with_suffix(".turns")
        text = scenario.with_suffix(".out").read_bytes()
        yield f"{scenario.name} by paths", ["run", str(scenario), str(turns)], b"", text
        yield f"{scenario.name} stored", [], scenario.read_bytes() + b"%%\n" + turns.read_bytes(), text
    for words, _, _, (text, _, status) in tabled(tomllib.loads(RULES.read_text())):
        if status == 0:
            yield " ".join(words), words, b"", text
    yield "--version", ["--version"], b"", b"trade 2.0.0\n"
    for name in SOME_CASES + OF_DESIGNERS + OF_SIZES + OF_FITS + OF_RUNS:
        case = CASES / name
        command, *more = (case / "command").read_text().split()
        files = [str(case / "scenario.toml")] + ([str(case / "turns")] if command in OF_TURNS else [])
        yield name, [command, *files, *more], b"", (case / "stdout").read_bytes()


def faults(room):
    """The code, the words, and what is written, of `faults` over the first text with each of some faults; and the codes that the table lacks."""
    codes, found = set(SOME_FAULTS), []
    for _, text, given, wanted in tabled(tomllib.loads(FAULTS.read_text())):
        code = wanted[1].split(b": ")[-1].split(b" ")[0].decode().strip()
        if code not in codes:
            continue
        codes.remove(code)
        folder = room / code
        folder.mkdir()
        (folder / "scenario.toml").write_bytes(text)
        (folder / "turns").write_bytes(given)
        found.append((code, folder, ["faults", str(folder / "scenario.toml"), *([str(folder / "turns")] if given else [])], wanted))
    return found, codes


def faulty(program, shared, code, folder, words, wanted):
    """What was wanted and what came of `faults` of a code, and of it with each growth refused."""
    (out, *rest), growths = result_of(program, shared, words, b"", 0)
    yield f"faults of {code}, refused: none", wanted, (out.replace(f"{folder}/".encode(), b""), *rest)
    yield f"faults of {code}, refused: any", True, growths > 0
    for number in range(1, growths + 1):
        (prefix, *ends), _ = result_of(program, shared, words, b"", number)
        yield f"faults of {code}, refused: growth {number} of {growths}", (True, *REFUSED[1:]), (out.startswith(prefix), *ends)


def works(benchmark, shared, work):
    """What was wanted and what came of a work in component memory, and of it with each growth refused."""
    whole, growths = result_of(benchmark, shared, work.split(), b"", 0)
    yield f"{work}, refused: none", 0, whole[2]
    yield f"{work}, refused: any", True, growths > 0
    for number in range(1, growths + 1):
        (out, err, status), _ = result_of(benchmark, shared, work.split(), b"", number)
        reported = err.endswith(b"\n") and err.splitlines()[-1].startswith(b"benchmark: ")
        yield f"{work}, refused: growth {number} of {growths}", (b"", True, 1), (out, reported, status)


def turns_of_one(turns):
    """As many lines of turns, of one turn each."""
    lines = [line.split(b" ") for line in turns.splitlines()]
    return b"".join(line[0] + b" 1\n" if len(line) == 2 else b" ".join(line) + b"\n" for line in lines)


def turns_alone(program, shared, scenario, turns, few):
    """The growths that a case of a run asks for with one turn on each line, and with all of its turns."""
    few.write_bytes(turns_of_one(turns.read_bytes()))
    for word in sorted(OF_TURNS):
        (_, _, status), growths = result_of(program, shared, [word, str(scenario), str(turns)], b"", 0)
        if status == 0:
            yield f"{scenario}, growths of {word}", result_of(program, shared, [word, str(scenario), str(few)], b"", 0)[1], growths


def all_of(program, shared, room):
    """What is tried of a program, each as something that gives what was wanted and what came."""
    if pathlib.Path(program).name == "benchmark":
        return [works(program, shared, work) for work in SOME_WORKS]
    found, lacking = faults(room)
    cases = [(case / "scenario.toml", case / "turns") for case in sorted(CASES.glob("run-*")) if (case / "turns").exists()]
    cases += [(example, example.with_suffix(".turns")) for example in sorted(EXAMPLES.glob("*.toml"))]
    return [
        *(refused_in_turn(program, shared, *given) for given in runs()),
        *(faulty(program, shared, *given) for given in found),
        *(turns_alone(program, shared, *given, room / f"few{place}") for place, given in enumerate(cases)),
        [("faults that the table lacks", set(), lacking)],
    ]


def main(words):
    if not words or words[0].startswith("-"):
        sys.exit(__doc__)
    passed = failed = 0
    with tempfile.TemporaryDirectory() as folder, concurrent.futures.ThreadPoolExecutor(len(os.sched_getaffinity(0))) as pool:
        room = pathlib.Path(folder)
        shared = built(room)
        tried = [one for word in words for one in all_of(str(pathlib.Path(word).resolve()), shared, room)]
        for outcomes in pool.map(list, tried):
            for what, wanted, got in outcomes:
                if wanted == got:
                    passed += 1
                else:
                    failed += 1
                    print(f"FAILED {what}\n  wanted {wanted}\n  got    {got}")
    print(f"{passed} passed, {failed} failed")
    return 1 if failed or not passed else 0


if __name__ == "__main__":
    sys.exit(main(sys.argv[1:]))
