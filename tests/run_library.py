#!/usr/bin/env python3
"""Tries the C library, library/libtrade.a, which `./trade library` or ./check builds: run_library.py

- A C compiler, and a C++ compiler where there is one, take the header with all warnings as errors. No symbol is global but the functions of the header.
- tests/run_by_library.c does what `trade run` does: every case of `run`, and every example, has to give the same bytes and the same status. So it does with a
  call for each turn, and under the address and undefined-behaviour sanitizers, where the compiler has them.
- No case calls the allocator between load and drop, and none leaves a block. Where the n-th call is refused, for each n, the status is 3 and no block is left.
- tests/many_signals.c submits a million signals. None calls the allocator, and all leaves together take the steps that a signal has, and no more.
- tests/misuse_library.c calls with numbers that are out of range, small buffers and empty handles; under the sanitizers, too.
- library/example/ is built by its Makefile and given good and bad measurements. The programs of docs/LIBRARY.md print what stands below them.
- library/trade.py gives what the calls give, where libtrade.so is there. A world that nobody closes is reported, and none is used or freed on another thread.

The last line is 'N passed, M failed', and the exit status is 1 where one failed.
"""
import os
import pathlib
import re
import shutil
import subprocess
import sys
import tempfile
import threading
import warnings

TOP = pathlib.Path(__file__).resolve().parent.parent
sys.path[:0] = [str(TOP / "tests"), str(TOP / "library")]
sys.dont_write_bytecode = True
from run_cases import cases, shortened  # noqa: E402

LIBRARY, TESTS, EXAMPLES = TOP / "library", TOP / "tests", TOP / "examples"
CC, CXX, MAKE = os.environ.get("CC", "cc"), os.environ.get("CXX", "c++"), os.environ.get("MAKE", "make")
WARNINGS = ["-Wall", "-Wextra", "-Wpedantic", "-Werror"]
SANITIZERS = ["-g", "-fsanitize=address,undefined", "-fno-sanitize-recover=all"]
WRAPPED = ["-DCOUNTED", "-Wl,--wrap=malloc,--wrap=realloc,--wrap=free"]
CPP = '#include "trade.h"\nint main() { trade_world world = TRADE_EMPTY; trade_drop(&world); return world.at != NULL; }\n'
# A scenario that is refused.
SHORT = b"version = 1\nram = 4097\nstart = []\n"
# The scenarios of which each allocation is refused in turn.
REFUSED_IN = "echo.toml", "thermostat.toml", "uart_eth_timer.toml", "capabilities.toml"
COUNTS = re.compile(rb"load (\d+) later (\d+) left (\d+) empty (\d) (\d)\n\Z")
# How many signals are submitted, plainly and under the sanitizers.
MANY, MANY_SANITIZED = 1_000_000, 10_000
# The steps that an example takes at its start, those of its signals together, one of each, for the inputs 0; and whether these are as many as there may be.
OF_SIGNALS = {"uart_eth_timer.toml": (17, (58, 58, 11, 59), True), "signal_race.toml": (10, (13, 13), True), "thermostat.toml": (17, (52,), False)}
STEPS = re.compile(rb"start (\d+) steps (\d+) full (\d+) load (\d+) later (\d+) left (\d+)\n\Z")
SECONDS = 120
# Measurements, and what the thermostat answers on both streams.
MEASURED = [
    ("195", "heater 80", None),
    ("warm", None, "no number of tenths of a degree"),
    ("215", "heater 0", None),
    ("", None, "no number of tenths of a degree"),
    ("214\r", "heater 4", None),
    ("1001", None, "the sensor can't measure 1001"),
    ("189", "heater 100", None),
    ("-1", None, "no number of tenths of a degree"),
    ("99999999999999999999", None, "no number of tenths of a degree"),
    ("190", "heater 100", None),
    ("1000", "heater 0", None),
    ("0000191", "heater 96", None),
]
# As many measurements as there are seconds in a day.
DAY = 86400
# A controller that takes no ticks; and the line behind which a tick of examples/thermostat.toml gets 1001 steps more.
NO_TICKS = """version = 4
ram = "4K"
caps = 1
""" + "".join(f"[[start]]\nname = \"{name}\"\nquantum = 0\ncaps = 0\nprogram = \"main\\nend\"\n" for name in ("sensor_drv", "heater_drv", "controller"))
HEADING, SLOW = "\non 0\n", "\non 0\n  loop 1000\n  end\n"


class Tally:
    """What passed, and what failed."""

    def __init__(self):
        self.passed = self.failed = 0

    def expect(self, name, wanted, got):
        """Compares what was wanted with what came."""
        if wanted == got:
            self.passed += 1
            return
        self.failed += 1
        wanted, got = ([shortened(it) if isinstance(it, bytes) else it for it in side] if isinstance(side, tuple) else side for side in (wanted, got))
        print(f"FAILED {name}\n  wanted {wanted}\n  got    {got}")


def ran(words, given=b"", **settings):
    """What a program writes to both streams, and its exit status."""
    done = subprocess.run(list(map(str, words)), input=given, capture_output=True, timeout=SECONDS, env={**os.environ, **settings})
    return done.stdout, done.stderr, done.returncode


def compiled(room, name, source, flags):
    """The program that the C compiler makes of a source and the library."""
    program = room / f"program_{name}"
    subprocess.run([CC, "-std=c11", "-O1", *WARNINGS, f"-I{LIBRARY}", *flags, source, LIBRARY / "libtrade.a", "-o", program], check=True)
    return program


def has_sanitizers(room):
    """Whether the compiler has the sanitizers, and what it builds with them runs."""
    source = room / "empty.c"
    source.write_text("int main(void) { return 0; }\n")
    how = {"stdout": subprocess.DEVNULL, "stderr": subprocess.DEVNULL, "check": False}
    return (
        subprocess.run([CC, *SANITIZERS, source, "-o", room / "empty"], **how).returncode == 0
        and subprocess.run([room / "empty"], **how).returncode == 0
    )


def try_header(room, tally):
    """The header by itself, in both languages."""
    only, source = room / "only.c", room / "only.cc"
    only.write_text('#include "trade.h"\n#include "trade.h"\n')
    tally.expect("the header in C", 0, subprocess.run([CC, "-std=c11", *WARNINGS, f"-I{LIBRARY}", "-fsyntax-only", only]).returncode)
    if not shutil.which(CXX):
        print("there is no C++ compiler to try the header with")
        return
    source.write_text(CPP)
    words = [CXX, "-std=c++11", *WARNINGS, f"-I{LIBRARY}", source, LIBRARY / "libtrade.a", "-o", room / "only"]
    tally.expect("the header in C++", 0, subprocess.run(words).returncode)
    tally.expect("a program in C++", 0, subprocess.run([room / "only"]).returncode)


def try_symbols(tally):
    """No symbol of the archive and of the shared library is global but the functions of the header."""
    functions = sorted(set(re.findall(r"\b(trade_\w+)\(", (LIBRARY / "trade.h").read_text())))
    for name, words in ("libtrade.a", ["-g"]), ("libtrade.so", ["-D"]):
        if (LIBRARY / name).is_file() and shutil.which("nm"):
            listed = subprocess.run(["nm", *words, "--defined-only", "-f", "posix", LIBRARY / name], capture_output=True, text=True, check=True).stdout
            found = sorted(words[0].partition("@")[0] for line in listed.splitlines() if len(words := line.split()) > 1 and words[1] != "A")
            tally.expect(f"the symbols of {name}", functions, found)


def of_runs():
    """The name, the scenario, the turns and the wanted result of each case of `run`."""
    return [(name, scenario, turns, wanted) for name, command, scenario, turns, wanted in cases() if command == "run"]


def try_runs(room, tally, what, program):
    """Every case of `run`, by a program that does the same by the library."""
    files = room / "scenario.toml", room / "turns"
    for name, scenario, turns, wanted in of_runs():
        for path, text in zip(files, (scenario, turns)):
            path.write_bytes(text)
        tally.expect(f"{what}: {name}", wanted, ran([program, *files]))


def try_counts(room, tally, program):
    """No call of the allocator between load and drop, and nothing left, in every case; and each of some refused in turn."""
    files = room / "scenario.toml", room / "turns"
    for name, scenario, turns, wanted in of_runs():
        for path, text in zip(files, (scenario, turns)):
            path.write_bytes(text)
        out, err, status = ran([program, *files], COUNTS="1")
        found = COUNTS.search(err)
        tally.expect(f"counts: {name}", (*wanted, b"0", b"0", b"1"), (out, COUNTS.sub(b"", err), status, *(found.group(2, 3, 5) if found else ())))
    for name in REFUSED_IN:
        turns = (EXAMPLES / name).with_suffix(".turns")
        refuse_each(tally, program, name, EXAMPLES / name, turns)
    files[0].write_bytes(SHORT)
    refuse_each(tally, program, "a refused scenario", files[0], files[1])


def refuse_each(tally, program, name, scenario, turns):
    """Refuses each call of the allocator in turn that loading a scenario makes."""
    found = COUNTS.search(ran([program, scenario, turns], COUNTS="1")[1])
    calls = int(found[1]) if found else 0
    tally.expect(f"{name}: loading calls the allocator", True, calls > 0)
    for number in range(1, calls + 1):
        out, err, status = ran([program, scenario, turns], COUNTS="1", FAIL=str(number))
        found = COUNTS.search(err)
        wanted = b"", b"trade: host memory refused\n", 3, b"0", b"1", b"1"
        tally.expect(f"{name}: call {number} of {calls} refused", wanted, (out, COUNTS.sub(b"", err), status, *(found.group(3, 4, 5) if found else ())))


def try_many(tally, what, program, count, counted):
    """Many signals, one after the other: what they take, and no call of the allocator."""
    for name, (start, of_each, is_full) in OF_SIGNALS.items():
        out, err, status = ran([program, EXAMPLES / name, count])
        found = STEPS.match(out)
        tally.expect(f"{what}: many signals of {name} end", (True, b"", 0), (bool(found), err or out[:400] * (not found), status))
        if found:
            taken, steps, full, load, later, left = map(int, found.groups())
            wanted = start, sum(of_each) * (count // len(of_each)), count if is_full else 0, counted, 0, 0
            tally.expect(f"{what}: many signals of {name}", wanted, (taken, steps, full, load > 0, later, left))
    tally.expect(f"{what}: signals of a system that has none", 1, ran([program, EXAMPLES / "echo.toml", count])[2])


def try_misuse(room, tally, what, program):
    """Numbers out of range, small buffers and empty handles."""
    short = room / "short.toml"
    short.write_bytes(SHORT)
    tally.expect(f"{what}: misuse", (b"", b"", 0), ran([program, EXAMPLES / "echo.toml", EXAMPLES / "uart_eth_timer.toml", short]))


def try_example(room, tally):
    """The control loop of library/example, built by its Makefile in a copy of library/."""
    copy = room / "library"
    shutil.copytree(LIBRARY, copy, ignore=shutil.ignore_patterns("__pycache__", "thermostat"))
    if not shutil.which(MAKE):
        print(f"there is no {MAKE} to build the example with")
        words = [CC, "-std=c11", "-O2", *WARNINGS, f"-I{copy}", copy / "example/thermostat.c", copy / "libtrade.a", "-o", copy / "example/thermostat"]
        subprocess.run(words, check=True)
    else:
        subprocess.run([MAKE, "-s", "-C", copy / "example", f"CC={CC}"], check=True)
    program, scenario = copy / "example/thermostat", EXAMPLES / "thermostat.toml"
    given = "".join(f"{line}\n" for line, _, _ in MEASURED).encode()
    said = "".join(f"{said}\n" for _, said, _ in MEASURED if said).encode()
    faults = "".join(f"line {number}: {fault}\n" for number, (_, _, fault) in enumerate(MEASURED, 1) if fault).encode()
    tally.expect("the example", (said, faults, 0), ran([program, scenario], given))
    tally.expect("the example without a line feed at the end", (b"heater 60\n", b"", 0), ran([program, scenario], b"200"))
    tally.expect("the example without measurements", (b"", b"", 0), ran([program, scenario]))
    tally.expect("the example for a day", (b"heater 60\n" * DAY, b"", 0), ran([program, scenario], b"200\n" * DAY))
    other = room / "other.toml"
    other.write_bytes(SHORT)
    tally.expect("the example with a bad scenario", (b"", f"{other}: S3 BadValue ram\n".encode(), 1), ran([program, other]))
    other.write_text(scenario.read_text().replace(HEADING, SLOW))
    slow = b"a tick may take 1062 steps, and there is time for 1000\n"
    tally.expect("the example with a slow scenario", (b"", slow, 1), ran([program, other], b"200\n"))
    other.write_text(NO_TICKS)
    tally.expect("the example without a tick", (b"", b"the controller takes no ticks\n", 1), ran([program, other], b"200\n"))
    tally.expect("the example with another scenario", (b"", b"the scenario has no component sensor_drv\n", 1), ran([program, EXAMPLES / "echo.toml"]))
    tally.expect("the example without a scenario", (b"", b"usage: thermostat SCENARIO\n", 2), ran([program]))


def try_document(room, tally):
    """The programs of docs/LIBRARY.md print what stands in the code block behind them, below the line that runs them."""
    text = (TOP / "docs/LIBRARY.md").read_text()
    blocks = re.findall(r"```(c|python)\n(.*?)```\n(.*?)(?=\n```|\n## |\Z)", text, re.S)
    tally.expect("the languages of docs/LIBRARY.md", ["c", "python"], [language for language, _, _ in blocks])
    for language, program, behind in blocks:
        wanted = re.search(r"prints\n\n((?:    .*\n)+)", behind)
        lines = "".join(line[4:] + "\n" for line in wanted[1].splitlines()) if wanted else "no lines"
        source = room / f"first.{language}"
        source.write_text(program)
        if language == "c":
            scenario = (EXAMPLES / "thermostat.toml").read_bytes()
            tally.expect("the program in C of docs/LIBRARY.md", (lines.encode(), b"", 0), ran([compiled(room, "first", source, [])], scenario))
        elif (LIBRARY / "libtrade.so").is_file():
            done = subprocess.run([sys.executable, source], cwd=TOP, capture_output=True, text=True, timeout=SECONDS)
            tally.expect("the program in Python of docs/LIBRARY.md", (lines, "", 0), (done.stdout, done.stderr, done.returncode))


def refusal_of(call):
    """The exception that a call raises, with its text."""
    try:
        call()
    except (TypeError, ValueError, LookupError, RuntimeError) as error:
        return type(error).__name__, str(error)
    return None


def try_python(tally):
    """library/trade.py, over the same examples."""
    import trade  # noqa: PLC0415

    text = (EXAMPLES / "echo.toml").read_text()
    with trade.World.load(text) as world:
        srv, cli = world.leaf("srv"), world.leaf(b"cli")
        tally.expect("python: numbers", (3, 2, 0, 1, 1, 2), (world.nodes, world.leaves, srv, cli, world.node(srv), world.node(cli)))
        tally.expect("python: labels", ["init", "init -> srv", "init -> cli"], [world.label(node) for node in range(world.nodes)])
        tally.expect("python: budgets", (trade.Budget(0, 0, 9), trade.Budget(8192, 0, 6)), (world.budget(srv), world.budget(cli)))
        tally.expect("python: a turn", trade.Turn(trade.Event.QUIET, None), world.turn(srv))
        tally.expect("python: no turn", trade.Turn(trade.Event.IDLE, None), world.turn(srv))
        said = []
        for _ in range(8):
            said += [turns.line for leaf in (srv, cli) if (turns := world.turns(leaf, 100)).line is not None]
        tally.expect("python: lines", ["42"], said)
        tally.expect("python: no turns", trade.Turns(0, trade.Event.IDLE, None), world.turns(cli, 5))
        tally.expect("python: accounts", (trade.Account(65536, 0, 0, 0, 0, 0, None), trade.Account(0, 0, 0, 0, 6, 6, trade.Phase.EXITED)),
                     (world.account(0), world.account(2)))
        tally.expect("python: no such leaf", ("IndexError", "no leaf 2"), refusal_of(lambda: world.turn(2)))
        tally.expect("python: no such leaf, below 0", ("IndexError", "no leaf -1"), refusal_of(lambda: world.turns(-1, 1)))
        tally.expect("python: no such node", ("IndexError", "no node 3"), refusal_of(lambda: world.account(3)))
        tally.expect("python: no such name", ("KeyError", "'who'"), refusal_of(lambda: world.leaf("who")))
        tally.expect("python: no input", ("InputError", "leaf 0 has no input 0"), refusal_of(lambda: world.set_input(srv, 0, 1)))
    tally.expect("python: closed", (0, 0), (world.nodes, world.leaves))
    tally.expect("python: refused", ("Refused", "S3 BadValue ram"), refusal_of(lambda: trade.World.load(SHORT)))
    tally.expect("python: faults", ("S3 BadValue ram", None), (trade.fault_of(SHORT), trade.fault_of(text)))
    tally.expect("python: a number for a text", ("TypeError", "no text: 3"), refusal_of(lambda: trade.World.load(3)))
    alone = {**os.environ, "TRADE_LIBRARY": "/no/such/library.so"}
    ended = subprocess.run([sys.executable, "-c", "import trade; trade.World.load('')"], cwd=LIBRARY, env=alone, capture_output=True, text=True).stderr
    tally.expect("python: no library", True, "OSError: /no/such/library.so: " in ended and "(`./trade library` builds libtrade.so" in ended)
    try_python_signals(tally, trade)


def try_python_signals(tally, trade):
    """Inputs and signals of library/trade.py, and its turns of all leaves."""
    with trade.World.load((EXAMPLES / "thermostat.toml").read_bytes()) as world:
        sensor, line, heater, controller = map(world.leaf, ("sensor_drv", "line_drv", "heater_drv", "controller"))
        tally.expect("python: work to do", False, world.is_at_rest())
        tally.expect("python: a start without lines", ([], True), (list(world.run()), world.is_at_rest()))
        tally.expect("python: a reaction", trade.Reaction(28, 61), world.reaction(controller, 0))
        said = []
        for tenths in (195, 215, 100):
            world.set_input(sensor, 0, tenths)
            world.signal(controller, 0)
            world.signal(controller, 0)
            said.append((world.is_at_rest(), list(world.run()), world.is_at_rest()))
        wanted = [(False, [(line, tenths), (heater, power)], True) for tenths, power in (("195", "80"), ("215", "0"), ("100", "100"))]
        tally.expect("python: inputs and signals", wanted, said)
        # (A signal between two lines, when the controller has taken the one before.)
        world.signal(controller, 0)
        said = []
        for leaf, text in world.run():
            said.append((leaf, text))
            if len(said) < 6 and leaf == line:
                world.signal(controller, 0)
        tally.expect("python: signals between lines", ([(line, "100"), (heater, "100")] * 4, True), (said, world.is_at_rest()))
        fault = "1001 is not within the values of input 0 of leaf 0"
        tally.expect("python: a large input", ("InputError", fault), refusal_of(lambda: world.set_input(sensor, 0, 1001)))
        numbers = (controller, 1), (controller, -1), (controller, 1 << 40), (sensor, 0), (5, 0), (-1, 0)
        faults = [("SignalError", f"leaf {leaf} has no signal {signal}") for leaf, signal in numbers]
        calls = {
            "leaf is no whole number: 0.5": lambda: world.turn(0.5),
            "leaf is no whole number: '0'": lambda: world.turn("0"),
            "node is no whole number: None": lambda: world.label(None),
            "most is no whole number: 1.0": lambda: world.turns(0, 1.0),
            "number is no whole number: 1.5": lambda: world.set_input(sensor, 0, 1.5),
            "input is no whole number: 0.0": lambda: world.set_input(sensor, 0.0, 1),
            "signal is no whole number: '0'": lambda: world.signal(controller, "0"),
            "leaf is no whole number: b'4'": lambda: world.reaction(b"4", 0),
        }
        tally.expect("python: no whole numbers", [("TypeError", text) for text in calls], [refusal_of(call) for call in calls.values()])
        tally.expect("python: no such signal", faults, [refusal_of(lambda: world.signal(*given)) for given in numbers])
        tally.expect("python: no bounds of it", faults, [refusal_of(lambda: world.reaction(*given)) for given in numbers])
        tally.expect("python: nothing of that was a signal", True, world.is_at_rest())
        lines = world.run()
        world.signal(controller, 0)
        tally.expect("python: a first line", (line, "100"), next(lines, None))
    tally.expect("python: closed between two lines", [], list(lines))
    tally.expect("python: at rest where it is closed", (True, []), (world.is_at_rest(), list(world.run())))


def left_by(makes):
    """What is freed, and what warnings there are, where the last name of a world that this makes is gone."""
    import trade  # noqa: PLC0415

    library, freed = trade._calls(), []
    drop = library.trade_drop
    library.trade_drop = lambda world: (freed.append(world), drop(world))
    try:
        with warnings.catch_warnings(record=True) as given:
            warnings.simplefilter("always")
            worlds = [makes()]
            worlds.clear()
            return len(freed), [(it.category.__name__, str(it.message).partition(" <")[0]) for it in given]
    finally:
        library.trade_drop = drop


def on_a_thread(call):
    """What a call returns on another thread."""
    results = []
    thread = threading.Thread(target=lambda: results.append(call()))
    thread.start()
    thread.join()
    return results.pop()


def try_python_ends(tally):
    """How a world of library/trade.py ends, and that it stays on the thread that loaded it."""
    import trade  # noqa: PLC0415

    text, unclosed = (EXAMPLES / "echo.toml").read_bytes(), ("ResourceWarning", "unclosed world")

    def closed():
        world = trade.World.load(text)
        world.close()
        return world

    tally.expect("python: a world that was closed", (1, []), left_by(closed))
    tally.expect("python: a world that nobody closed", (1, [unclosed]), left_by(lambda: trade.World.load(text)))
    tally.expect("python: one of another thread", (0, [unclosed]), left_by(lambda: on_a_thread(lambda: trade.World.load(text))))
    tally.expect("python: one that holds nothing", (0, []), left_by(trade.World))
    stays = "RuntimeError", "a world stays on the thread that loaded it, and this is another thread"
    with trade.World.load(text) as world:
        world.turns(0, 100)
        calls = (
            lambda: world.nodes, lambda: world.turn(0), lambda: world.turns(0, 1), lambda: list(world.run()), lambda: world.account(0),
            lambda: world.signal(0, 0), lambda: world.reaction(0, 0), world.is_at_rest, world.close,
        )
        tally.expect("python: calls on another thread", [stays] * len(calls), [on_a_thread(lambda: refusal_of(call)) for call in calls])
        tally.expect("python: the world after them", 3, world.nodes)
    world.close()
    tally.expect("python: closed twice", 0, world.nodes)


def main():
    if len(sys.argv) != 1:
        sys.exit(__doc__)
    if not (LIBRARY / "libtrade.a").is_file():
        sys.exit("library/libtrade.a is not there: ./trade library builds it")
    tally, by_library, many, misuse = Tally(), TESTS / "run_by_library.c", TESTS / "many_signals.c", TESTS / "misuse_library.c"
    with tempfile.TemporaryDirectory() as name:
        room = pathlib.Path(name)
        try_header(room, tally)
        try_symbols(tally)
        try_runs(room, tally, "by trade_turns", compiled(room, "turns", by_library, []))
        try_runs(room, tally, "by trade_turn", compiled(room, "turn", by_library, ["-DONE_BY_ONE"]))
        try_counts(room, tally, compiled(room, "counted", by_library, WRAPPED))
        try_many(tally, "counted", compiled(room, "many", many, WRAPPED), MANY, True)
        try_misuse(room, tally, "plain", compiled(room, "misuse", misuse, []))
        if has_sanitizers(room):
            try_runs(room, tally, "sanitized", compiled(room, "sanitized", by_library, SANITIZERS))
            try_many(tally, "sanitized", compiled(room, "many_sanitized", many, SANITIZERS), MANY_SANITIZED, False)
            try_misuse(room, tally, "sanitized", compiled(room, "misuse_sanitized", misuse, SANITIZERS))
        else:
            print(f"{CC} has no address and undefined-behaviour sanitizers, so nothing was tried under them")
        try_example(room, tally)
        try_document(room, tally)
    if (LIBRARY / "libtrade.so").is_file():
        try_python(tally)
        try_python_ends(tally)
    else:
        print("library/libtrade.so is not there, so library/trade.py was not tried")
    print(f"{tally.passed} passed, {tally.failed} failed")
    return 1 if tally.failed or not tally.passed else 0


if __name__ == "__main__":
    sys.exit(main())
