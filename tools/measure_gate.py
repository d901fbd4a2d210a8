#!/usr/bin/env python3
"""tools/measure_gate.py [COMMAND..]: runs ./check, or that command, and prints the processor seconds of each crate's proof, tests and edits, and the most memory
that one of its checks took, in megabytes.

It looks at the running checks twice a second, so what a check takes between the last look and its end is not counted. It ends with the
status of what it ran. Where it is interrupted it ends what it ran, and prints what was taken so far.

How long the same check takes changes with what others do on the machine, by a factor of two and more. So once a minute it does a small piece of work that
is always the same, and prints at the end what that took, as a hint of how fast the machine was.
"""
import array
import os
import signal
import statistics
import subprocess
import sys
import time

TOP = os.path.dirname(os.path.dirname(os.path.abspath(__file__)))
TICKS = os.sysconf("SC_CLK_TCK")
# The piece of work: so many places of a table of so many numbers are looked at, one after the other.
STEPS, TABLE = 300_000, array.array("L", range(1 << 20))


def words_of(process):
    """The command of a process, or nothing where it has ended."""
    try:
        with open(f"/proc/{process}/cmdline", "rb") as command:
            return command.read().decode(errors="replace").split("\0")
    except OSError:
        return []


def state_of(process):
    """Of a process: its parent, when it started (by which it differs from a later one of its number), and its processor seconds without its children."""
    try:
        with open(f"/proc/{process}/stat", encoding="utf-8", errors="replace") as line:
            fields = line.read().rpartition(")")[2].split()
        return fields[1], fields[19], (int(fields[11]) + int(fields[12])) / TICKS
    except (OSError, IndexError, ValueError):
        return "", "", 0.0


def most_memory(process):
    """The most memory that a process has taken so far, in megabytes."""
    try:
        with open(f"/proc/{process}/status", encoding="utf-8", errors="replace") as lines:
            return next((int(line.split()[1]) // 1000 for line in lines if line.startswith("VmHWM:")), 0)
    except OSError:
        return 0


def is_below(process, top):
    """Whether a process was started by another one, or by one that it started."""
    while process not in ("", "0", top):
        process = state_of(process)[0]
    return process == top


def kind_of(process, words):
    """Which crate a check is of, and whether it is of its proof, its tests or an edit; nothing where it is no check."""
    if "--crate-name" not in words or not words[0].endswith("rattle"):
        return None
    try:
        folder = os.readlink(f"/proc/{process}/cwd")
    except OSError:
        return None
    name = words[words.index("--crate-name") + 1]
    if "rt-edit" in folder:
        return name, "edits"
    return name, "tests" if "--test" in words else "proof"


def look(top, taken, kinds, memory):
    """Notes how long each check has taken that runs below a process, and how much memory those of each crate."""
    for process in filter(str.isdigit, os.listdir("/proc")):
        words = words_of(process)
        kind = kind_of(process, words) if words else None
        if kind and is_below(process, top):
            _, start, seconds = state_of(process)
            kinds[process, start] = kind
            taken[process, start] = max(taken.get((process, start), 0.0), seconds)
            memory[kind[0]] = max(memory.get(kind[0], 0), most_memory(process))


def piece():
    """The processor seconds that the piece of work takes now."""
    start, at = time.process_time(), 1
    for _ in range(STEPS):
        at = TABLE[(at * 1103515245 + 12345) % len(TABLE)]
    return time.process_time() - start


def interrupt(_signal, _frame):
    """Ends the run as the keyboard does."""
    raise KeyboardInterrupt


def main():
    signal.signal(signal.SIGTERM, interrupt)
    ran = subprocess.Popen(sys.argv[1:] or ["./check"], cwd=TOP)
    start, taken, kinds, memory, pieces = time.monotonic(), {}, {}, {}, []
    try:
        while ran.poll() is None:
            if time.monotonic() - start >= 60 * len(pieces):
                pieces.append(piece())
            look(str(ran.pid), taken, kinds, memory)
            time.sleep(0.5)
    except KeyboardInterrupt:
        ran.terminate()
        ran.wait()
    together = {}
    for process, kind in kinds.items():
        together[kind] = together.get(kind, 0.0) + taken[process]
    print(f"{'crate':20}{'proof':>8}{'tests':>8}{'edits':>8}{'MB':>8}")
    for name in sorted({name for name, _ in together}):
        print(f"{name:20}" + "".join(f"{together.get((name, kind), 0):8.0f}" for kind in ("proof", "tests", "edits")) + f"{memory[name]:8}")
    print(f"together {sum(together.values()):.0f} processor seconds, in {time.monotonic() - start:.0f} seconds")
    if pieces:
        print(f"a piece of work took {min(pieces):.3f} to {max(pieces):.3f} processor seconds, {statistics.median(pieces):.3f} in the middle")
    return ran.returncode


if __name__ == "__main__":
    sys.exit(main())
