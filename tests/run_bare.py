#!/usr/bin/env python3
"""Tries library/bare/, a system without an operating system, in QEMU: run_bare.py

- Its Makefile builds the image, warnings being errors, and prints what to do where the library or QEMU is not there.
- It boots, and loads examples/thermostat.toml. Each measurement that comes in on the serial line changes the power as it has to; bad lines are answered.
- It takes 1,000 ticks and more, each with a reaction. No call of the allocator comes after the load. The stack and the heap have room left.
- An arena that is too small, a scenario that is refused, one without the thermostat's components, a processor without SSE4.2: each ends with a line.

The last line is 'N passed, M failed', and the exit status is 1 where one failed. Without QEMU it prints a line, and passes nothing.
"""
import os
import pathlib
import queue
import re
import shutil
import subprocess
import sys
import tempfile
import threading
import time

sys.dont_write_bytecode = True
TOP = pathlib.Path(__file__).resolve().parent.parent
BARE, LIBRARY = TOP / "library/bare", TOP / "library"
QEMU, MAKE = "qemu-system-x86_64", os.environ.get("MAKE", "make")
SECONDS = 60
TICKS = 1000
# Measurements, and the line that the image prints for each.
MEASURED = [
    ("195", "heater 80"),
    ("215", "heater 0"),
    ("warm", "no number of tenths of a degree"),
    ("214", "heater 4"),
    ("1001", "the sensor can't measure 1001"),
    ("189", "heater 100"),
    ("99999999999999999999", "no number of tenths of a degree"),
    ("1000", "heater 0"),
]
FIGURES = {
    "ticks": re.compile(r"ticks (\d+), reactions (\d+)\Z"),
    "heap": re.compile(r"heap (\d+) bytes, at most (\d+), calls (\d+), after the load (\d+)\Z"),
    "stack": re.compile(r"stack (\d+) bytes, while loading (\d+)\Z"),
}
SMALL = 'version = 4\nram = "8K"\ncaps = 1\n\n[[start]]\nname = "a"\nquantum = "4K"\ncaps = 0\nprogram = \'\'\'\nmain\nend\n\'\'\'\n'


class Counts:
    """How many checks passed, and what was wrong."""

    def __init__(self):
        self.passed, self.failed = 0, 0

    def check(self, is_well, what):
        self.passed += bool(is_well)
        if not is_well:
            self.failed += 1
            print(f"FAILED: {what}")


class Machine:
    """A machine in QEMU that runs an image: lines go in and come out by its serial line."""

    def __init__(self, image, processor="Nehalem"):
        command = [QEMU, "-cpu", processor, "-m", "32M", "-display", "none", "-serial", "stdio", "-no-reboot", "-kernel", str(image)]
        self.process = subprocess.Popen(command, stdin=subprocess.PIPE, stdout=subprocess.PIPE, stderr=subprocess.DEVNULL)
        self.lines = queue.Queue()
        threading.Thread(target=self.read, daemon=True).start()

    def read(self):
        for line in self.process.stdout:
            self.lines.put(line.decode(errors="replace").rstrip("\r\n"))
        self.lines.put(None)

    def line(self):
        """The next line that comes out, or nothing where the machine has ended or does not answer."""
        try:
            return self.lines.get(timeout=SECONDS)
        except queue.Empty:
            return None

    def send(self, text):
        self.process.stdin.write(f"{text}\n".encode())
        self.process.stdin.flush()

    def end(self):
        self.process.kill()
        self.process.wait()


def make(folder, *words, env=None):
    """Builds the image in a copy of library/bare. Gives the exit status and what was written."""
    ran = subprocess.run([MAKE, *words], cwd=folder, capture_output=True, text=True, check=False, env=env)
    return ran.returncode, ran.stdout + ran.stderr


def copied(room):
    """A copy of library/bare with what it is built of, in the same places."""
    (room / "library").mkdir(parents=True)
    for name in "libtrade.a", "trade.h":
        shutil.copy(LIBRARY / name, room / "library")
    shutil.copytree(BARE, room / "library/bare", ignore=shutil.ignore_patterns("*.o", "*.elf"))
    (room / "examples").mkdir()
    shutil.copy(TOP / "examples/thermostat.toml", room / "examples")
    return room / "library/bare"


def figures(machine):
    """The figures that `status` prints, each as its numbers, and the lines of accounts."""
    machine.send("status")
    found = {}
    while len(found) < len(FIGURES):
        line = machine.line()
        if line is None:
            return None
        found |= {name: [int(number) for number in match.groups()] for name, form in FIGURES.items() if (match := form.match(line))}
    return found


def tries_the_image(counts, folder):
    """The thermostat: its lines, its ticks, and what it needs."""
    status, text = make(folder, "thermostat.elf", "HERTZ=200")
    counts.check(status == 0, f"the image is not built: {text}")
    if status != 0:
        return
    machine = Machine(folder / "thermostat.elf")
    try:
        counts.check(machine.line() == "a tick takes at most 61 steps", "the bound of a tick")
        counts.check(machine.line() == "loaded, 200 ticks a second", "the load")
        # The input is 0 at first, so the heater is at its most.
        counts.check(machine.line() == "heater 100", "the first tick")
        for sent, expected in MEASURED:
            machine.send(sent)
            line = machine.line()
            counts.check(line == expected, f"{sent}: {line} and not {expected}")
        found, until = figures(machine), time.monotonic() + SECONDS
        while found and found["ticks"][0] < TICKS and time.monotonic() < until:
            time.sleep(0.5)
            found = figures(machine)
        counts.check(found, "the figures")
        if found:
            ticks, reactions = found["ticks"]
            counts.check(ticks >= TICKS and reactions >= TICKS * 0.9, f"{ticks} ticks, {reactions} reactions")
            counts.check(found["heap"][3] == 0 and 0 < found["heap"][0] <= found["heap"][1], f"the allocator: {found['heap']}")
            counts.check(0 < found["stack"][0] < found["stack"][1] < 0x20000, f"the stack: {found['stack']}")
            print(f"{ticks} ticks; heap {found['heap'][0]} bytes, at most {found['heap'][1]}; stack {found['stack'][0]} bytes, while loading {found['stack'][1]}")
    finally:
        machine.end()


def ends_with(counts, folder, expected, *words, processor="Nehalem"):
    """An image that ends with a line."""
    make(folder, "clean")
    status, text = make(folder, "thermostat.elf", *words)
    counts.check(status == 0, f"the image is not built: {text}")
    if status != 0:
        return
    machine = Machine(folder / "thermostat.elf", processor)
    try:
        line = machine.line()
        counts.check(line == expected, f"{words}: {line} and not {expected}")
    finally:
        machine.end()


def tries_refusals(counts, folder, room):
    """What an image prints that can't run, and what make prints that can't build or start one."""
    (room / "small.toml").write_text(SMALL)
    (room / "bad.toml").write_text(SMALL.replace("main\n", "mian\n"))
    ends_with(counts, folder, "the arena of 4096 bytes is too small", "ARENA=4096")
    ends_with(counts, folder, "the scenario has no component sensor_drv", f"SCENARIO={room}/small.toml")
    ends_with(counts, folder, "a: M1 UnknownWord line 1", f"SCENARIO={room}/bad.toml")
    ends_with(counts, folder, "this processor has no SSE4.1, SSE4.2 or POPCNT", processor="core2duo")
    make(folder, "clean")
    make(folder, "thermostat.elf")
    status, text = make(folder, "run", "QEMU=no-such-qemu")
    counts.check(status != 0 and "qemu-system-x86" in text, f"make run without QEMU: {text}")
    (folder.parent / "libtrade.a").unlink()
    status, text = make(folder, "thermostat.elf")
    counts.check(status != 0 and "./trade library" in text, f"make without the library: {text}")


def main():
    if not shutil.which(QEMU):
        print(f"The bare image was not tried: there is no {QEMU}. Debian's package qemu-system-x86 has it.")
        return 0
    counts = Counts()
    with tempfile.TemporaryDirectory() as name:
        room = pathlib.Path(name)
        folder = copied(room)
        tries_the_image(counts, folder)
        tries_refusals(counts, folder, room)
    print(f"{counts.passed} passed, {counts.failed} failed")
    return 1 if counts.failed else 0


if __name__ == "__main__":
    sys.exit(main())
