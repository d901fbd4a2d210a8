#!/usr/bin/env python3
"""Takes the tables of the footprint in docs/LIBRARY.md: footprint.py, over library/libtrade.a. It needs a C compiler, and `size`.

The first table: bytes of code and constants that a program links that loads, runs and drops, one that also prints faults, and the bytes that a system takes.
The second one: for some scenarios the bytes of heap after a load and at most while loading, the calls of the allocator, and the stack of a load and of turns.
"""
import os
import pathlib
import subprocess
import sys
import tempfile

TOP = pathlib.Path(__file__).resolve().parent.parent
LIBRARY, EXAMPLES = TOP / "library", TOP / "examples"
CC = os.environ.get("CC", "cc")
WRAPPED = "-Wl,--wrap=malloc,--wrap=realloc,--wrap=free"
LEAVES = 64
# Programs, each with the calls that it makes.
PROGRAMS = {
    "no call": "",
    "load, run, drop": "trade_load(t, 1, &w); uint32_t l = 0, n; size_t s; trade_run(&w, 1, &l, &n, t, 1, &s); trade_drop(&w);",
    "and the line of a fault": "trade_load(t, 1, &w); uint32_t l = 0, n; size_t s; trade_run(&w, 1, &l, &n, t, 1, &s); trade_fault(t, 1, t, 1, &s); trade_drop(&w);",
}
MAIN = '#include "trade.h"\nstatic uint8_t t[2]; static trade_world w = TRADE_EMPTY;\nint main(void) {{ (void)t; (void)w; {} }}\n'


def linked(room, name, calls):
    """The bytes of code and constants of a program."""
    source, program = room / f"{name}.c", room / name
    source.write_text(MAIN.format(calls))
    words = [CC, "-O2", f"-I{LIBRARY}", source, LIBRARY / "libtrade.a", "-Wl,--gc-sections", "-o", program]
    subprocess.run(words, check=True)
    return int(subprocess.run(["size", program], check=True, capture_output=True, text=True).stdout.splitlines()[1].split()[0])


def many_leaves():
    """A scenario of as many leaves as there may be."""
    leaf = "[[start]]\nname = \"c{}\"\nquantum = \"4K\"\nprogram = '''\nmain\nend\n'''\n"
    return f'version = 1\nram = "{4 * LEAVES + 4}K"\n' + "".join(leaf.format(number) for number in range(LEAVES))


def main():
    if len(sys.argv) != 1:
        sys.exit(__doc__)
    with tempfile.TemporaryDirectory() as name:
        room = pathlib.Path(name)
        sizes = {what: linked(room, f"program{number}", calls) for number, (what, calls) in enumerate(PROGRAMS.items())}
        print("| A program that calls | Code and constants, bytes |\n|---|---|")
        for what, size in list(sizes.items())[1:]:
            print(f"| {what} | {size - sizes['no call']:,} |")
        counter = room / "footprint"
        subprocess.run([CC, "-O2", f"-I{LIBRARY}", TOP / "benchmarks/footprint.c", LIBRARY / "libtrade.a", WRAPPED, "-pthread", "-o", counter], check=True)
        (room / "64 leaves.toml").write_text(many_leaves())
        print("\n| Scenario | Text | Heap after the load | At most | Calls | Stack of the load | Stack of turns |\n|---|---|---|---|---|---|---|")
        for path in [*(EXAMPLES / f"{name}.toml" for name in ("hello", "thermostat", "workstation")), room / "64 leaves.toml"]:
            ran = subprocess.run([counter, path], check=True, capture_output=True, text=True).stdout.split()
            after, most, calls, later, load, turns = map(int, ran)
            print(f"| {path.stem} | {path.stat().st_size:,} | {after:,} | {most:,} | {calls:,}, later {later} | {load:,} | {turns:,} |")
    return 0


if __name__ == "__main__":
    sys.exit(main())
