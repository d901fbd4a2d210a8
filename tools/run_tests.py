#!/usr/bin/env python3
"""tools/run_tests.py [--all]: runs the test scripts over the program and the C library as they are built, as many side by side as there are processors.

It prints what each script wrote when it ends, with its seconds, and at last which failed. It ends with 0 where all passed. What is not built is named with the
command that builds it. That is a failure where it is the program, and with --all wherever it is.
"""
import concurrent.futures
import pathlib
import subprocess
import sys
import time

sys.dont_write_bytecode = True
from crates import TOP  # noqa: E402
from processors import processors  # noqa: E402

TRADE, BENCHMARK = TOP / "crates/trade/out/trade", TOP / "crates/benchmark/out/benchmark"
LIBRARY = TOP / "library/libtrade.a"
# What each script tests, the script, and what has to be built, of which it is given the programs; those that take longest come first.
SCRIPTS = [
    ("refused growths", "run_refused_growths.py", [TRADE]),
    ("refused growths of component memory", "run_refused_growths.py", [BENCHMARK]),
    ("the library for programs in C", "run_library.py", [LIBRARY]),
    ("the image without an operating system", "run_bare.py", [LIBRARY]),
    ("failing writes", "run_failing_writes.py", [TRADE]),
    ("hostile texts", "run_hostile_texts.py", [TRADE]),
    ("outcomes", "run_outcomes.py", [TRADE]),
    ("fitted scenarios", "run_fits.py", [TRADE]),
    ("cases", "run_cases.py", [TRADE]),
    ("traces and states", "run_traces.py", [TRADE]),
    ("lists of turns", "run_turns.py", [TRADE]),
    ("the page that shows a run", "run_viewer.py", [TRADE]),
    ("installing", "run_install.py", [LIBRARY]),
    ("the texts of rules", "run_rule_codes.py", [TRADE]),
]
BUILT_BY = {TRADE: "./trade build", BENCHMARK: "./check", LIBRARY: "./trade library"}


def run(script, built):
    """Runs a script. Gives whether it passed, its seconds, and what it wrote."""
    start = time.monotonic()
    command = [sys.executable, "-B", str(TOP / "tests" / script), *(str(path) for path in built if path != LIBRARY)]
    ran = subprocess.run(command, cwd=TOP, check=False, stdin=subprocess.DEVNULL, stdout=subprocess.PIPE, stderr=subprocess.STDOUT, text=True, errors="replace")
    return ran.returncode == 0, time.monotonic() - start, ran.stdout


def main(words):
    failed, passed, running = [], 0, {}
    with concurrent.futures.ThreadPoolExecutor(processors()) as pool:
        for what, script, built in SCRIPTS:
            missing = [path for path in built if not path.is_file()]
            if missing:
                print(f"{what}: not tried: {missing[0].relative_to(TOP)} is not built. `{BUILT_BY[missing[0]]}` builds it", flush=True)
                failed += [what] if missing[0] == TRADE or "--all" in words else []
            else:
                running[pool.submit(run, script, built)] = what
        for future in concurrent.futures.as_completed(running):
            is_well, seconds, text = future.result()
            print(f"== {running[future]}: {'passed' if is_well else 'FAILED'}, {seconds:.0f} s\n{text}", end="", flush=True)
            passed += is_well
            failed += [] if is_well else [running[future]]
    print(f"{passed} of {len(SCRIPTS)} scripts passed" + (f"; FAILED: {', '.join(failed)}" if failed else ""))
    return 1 if failed else 0


if __name__ == "__main__":
    sys.exit(main(sys.argv[1:]))
