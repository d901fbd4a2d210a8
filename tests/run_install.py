#!/usr/bin/env python3
"""Tries `./trade install` and `./trade uninstall`, over the program and the library as they are built: run_install.py

- Into an empty folder: each file is there. The program, the page, a program in C by pkg-config, by CMake and by make, the module for Python, completions and man
  pages work from there, as far as these tools are there.
- With DESTDIR; over what another version installed; where a file can't be written, nothing is left. `uninstall` leaves nothing but what stood there before.

The last line is 'N passed, M failed', and the exit status is 1 where one failed.
"""
import os
import pathlib
import re
import shutil
import subprocess
import sys
import tempfile

sys.dont_write_bytecode = True
TOP = pathlib.Path(__file__).resolve().parent.parent
sys.path.insert(0, str(TOP / "tools"))
from crates import Crates  # noqa: E402
from install import missing  # noqa: E402

EXAMPLES = TOP / "examples"
CC = os.environ.get("CC", "cc")
PROGRAM = """#include <trade.h>
#include <stdio.h>
int main(void) {
    static const char text[] = "version = 1\\nram = 4096\\nstart = []\\n";
    trade_world world = TRADE_EMPTY;
    uint32_t status = trade_load((const uint8_t *)text, sizeof text - 1, &world);
    printf("%u %u\\n", (unsigned)status, (unsigned)trade_nodes(&world));
    trade_drop(&world);
}
"""
CMAKE = """cmake_minimum_required(VERSION 3.13)
project(first C)
find_package(trade {version} REQUIRED)
add_executable(first first.c)
target_link_libraries(first trade::trade)
"""
MAKEFILE = "first: first.c\n\t$(CC) -I$(PREFIX)/include -o $@ first.c $(PREFIX)/lib/libtrade.a\n"
EXPECTED = b"0 1\n"


class Counts:
    """How many checks passed, and what was wrong."""

    def __init__(self):
        self.passed, self.failed = 0, 0

    def expect(self, what, wanted, found):
        self.passed += wanted == found
        if wanted != found:
            self.failed += 1
            print(f"FAILED: {what}: {found!r} and not {wanted!r}")


def trade(*words, **env):
    """What `./trade` does: its status and what it wrote."""
    ran = subprocess.run([TOP / "trade", *words], cwd=TOP, env={**os.environ, **env}, capture_output=True, text=True, check=False)
    return ran.returncode, ran.stdout, ran.stderr


def ran(*words, **how):
    """What a command writes, or its status and its errors."""
    done = subprocess.run([str(word) for word in words], capture_output=True, check=False, stdin=subprocess.DEVNULL, **how)
    return done.stdout if done.returncode == 0 else (done.returncode, done.stderr)


def paths_below(folder):
    """All that is in a folder."""
    return sorted(str(path.relative_to(folder)) for path in folder.rglob("*"))


def tries_the_program(counts, prefix):
    """The program, and the page that shows a run."""
    trade_program, hello = prefix / "bin/trade", (EXAMPLES / "hello.toml", EXAMPLES / "hello.turns")
    wanted = ran(TOP / "crates/trade/out/trade", "run", *hello)
    counts.expect("a run", wanted, ran(trade_program, "run", *hello))
    page, same = ran(prefix / "bin/trade-view", *hello), ran(TOP / "view", *hello)
    counts.expect("the page", True, isinstance(page, bytes) and page == same and b"</html>" in page)
    counts.expect("the schema", (TOP / "docs/scenario.schema.json").read_bytes(), (prefix / "share/trade/scenario.schema.json").read_bytes())


def tries_c(counts, prefix, room, version):
    """A program in C, by the three ways to find the library."""
    (room / "first.c").write_text(PROGRAM)
    (room / "Makefile").write_text(MAKEFILE)
    (room / "CMakeLists.txt").write_text(CMAKE.format(version=version))
    if shutil.which("make"):
        ran("make", f"PREFIX={prefix}", cwd=room)
        counts.expect("a program by make", EXPECTED, ran(room / "first"))
    if shutil.which("pkg-config"):
        env = {**os.environ, "PKG_CONFIG_PATH": str(prefix / "lib/pkgconfig")}
        counts.expect("the version by pkg-config", f"{version}\n".encode(), ran("pkg-config", "--modversion", "trade", env=env))
        flags = ran("pkg-config", "--cflags", "--libs", "trade", env=env).decode().split()
        ran(CC, room / "first.c", *flags, "-o", room / "by_pkg_config")
        counts.expect("a program by pkg-config", EXPECTED, ran(room / "by_pkg_config"))
    if shutil.which("cmake"):
        ran("cmake", "-S", room, "-B", room / "build", f"-DCMAKE_PREFIX_PATH={prefix}")
        ran("cmake", "--build", room / "build")
        counts.expect("a program by CMake", EXPECTED, ran(room / "build/first"))
        (room / "CMakeLists.txt").write_text(CMAKE.format(version=int(version.partition(".")[0]) + 1))
        refused = ran("cmake", "-S", room, "-B", room / "later", f"-DCMAKE_PREFIX_PATH={prefix}")
        counts.expect("a later version by CMake", True, isinstance(refused, tuple))


def tries_python(counts, prefix):
    """The module for Python, with the library that was installed."""
    if not (prefix / "lib/libtrade.so").is_file():
        print("there is no libtrade.so, so the module for Python was not tried")
        return
    code = "from trade import World\nwith World.load('version = 1\\nram = 4096\\nstart = []\\n') as world: print(world.nodes)"
    env = {**os.environ, "PYTHONPATH": str(prefix / "lib/python3/dist-packages")}
    counts.expect("the module for Python", b"1\n", ran(sys.executable, "-B", "-c", code, cwd="/", env=env))


def completed(prefix, *words):
    """The words that bash completes the last of these words to."""
    script = (
        f"source {prefix}/share/bash-completion/completions/trade; COMP_WORDS=(trade {' '.join(map(repr, words))}); COMP_CWORD={len(words)}; "
        'COMPREPLY=(); _trade; printf "%s\\n" "${COMPREPLY[@]}"'
    )
    env = {**os.environ, "PATH": f"{prefix}/bin:{os.environ['PATH']}"}
    written = ran("bash", "--norc", "-c", script, cwd=EXAMPLES, env=env)
    return sorted(written.decode().split()) if isinstance(written, bytes) else written


def tries_completions(counts, prefix):
    """Commands, options, files, leaves and codes."""
    helped = ran(prefix / "bin/trade", "--help").decode()
    commands = re.findall(r"^  ([a-z]+)  +[A-Z]", helped.partition("\nOptions:")[0], re.M)
    counts.expect("all commands", sorted([*commands, "--help", "--version"]), completed(prefix, ""))
    for command in commands:
        if command != "help":
            options = sorted(re.findall(r"(--[a-z-]+)", ran(prefix / "bin/trade", command, "--help").decode().partition("\nOptions:")[2]))
            counts.expect(f"the options of {command}", options, completed(prefix, command, "--"))
    named = {start: sorted(path.name for path in EXAMPLES.glob(f"{start}*")) for start in ("therm", "ech")}
    counts.expect("a file", named["therm"], completed(prefix, "run", "therm"))
    counts.expect("a leaf", ["cli", "srv"], completed(prefix, "why", "echo.toml", ""))
    counts.expect("a leaf behind an option", ["srv"], completed(prefix, "list", "--numbers", "echo.toml", "s"))
    counts.expect("a number", [], completed(prefix, "turns", "--seed", ""))
    counts.expect("a file behind a number", named["ech"], completed(prefix, "turns", "--seed", "3", "ech"))
    counts.expect("a code", ["V12"], completed(prefix, "rule", "V12"))


def tries_manual(counts, prefix):
    """The man pages, without a warning, with each command and each function."""
    if not shutil.which("man"):
        print("there is no man, so the man pages were not tried")
        return
    for path, words in ("man1/trade.1", ["thermostat"]), ("man3/libtrade.3", ["trade_load", "trade_run", "TRADE_EMPTY"]):
        done = subprocess.run(["man", "--warnings", "-l", str(prefix / "share/man" / path)], capture_output=True, text=True, check=False, env={**os.environ, "MANWIDTH": "200", "LC_ALL": "C"})
        counts.expect(f"{path} without warnings", (0, ""), (done.returncode, done.stderr))
        for word in words if path.startswith("man3") else re.findall(r"^  ([a-z]+)  +[A-Z]", ran(prefix / "bin/trade", "--help").decode(), re.M):
            counts.expect(f"{word} in {path}", True, word in done.stdout)


def tries_ends(counts, room, prefix):
    """What stands afterwards: nothing of it, and all else."""
    (prefix / "bin/mine").write_text("mine")
    before = paths_below(prefix)
    counts.expect("installed again", 0, trade("install", prefix)[0])
    counts.expect("the same files", before, paths_below(prefix))
    counts.expect("uninstall", 0, trade("uninstall", prefix)[0])
    counts.expect("what is left", ["bin", "bin/mine"], paths_below(prefix))
    status, _, fault = trade("uninstall", prefix)
    counts.expect("nothing to uninstall", (1, f"./trade uninstall: nothing is installed at {prefix}\n"), (status, fault))
    destination = room / "destination"
    counts.expect("with DESTDIR", 0, trade("install", "/opt/trade", DESTDIR=str(destination))[0])
    counts.expect("below DESTDIR", True, (destination / "opt/trade/bin/trade").is_file())
    counts.expect("uninstall with DESTDIR", 0, trade("uninstall", "/opt/trade", DESTDIR=str(destination))[0])
    counts.expect("nothing left below DESTDIR", [], [path for path in paths_below(destination) if (destination / path).is_file()])


def tries_refusals(counts, room):
    """Places that can't be written, bad words, and what is not built."""
    (room / "file").write_text("")
    status, _, fault = trade("install", room / "file/below")
    counts.expect("below a file", (1, True), (status, fault.startswith("./trade install: nothing is installed: ") and "Not a directory" in fault))
    blocked = room / "blocked"
    (blocked / "share/trade/viewer/page.html/x").mkdir(parents=True)
    before = paths_below(blocked)
    status, _, fault = trade("install", blocked)
    counts.expect("over a folder", (1, True), (status, "page.html" in fault))
    counts.expect("nothing half installed", before, paths_below(blocked))
    counts.expect("no PREFIX", 2, trade("install")[0])
    crates = Crates()
    built = TOP / "crates/trade/out/trade"
    counts.expect("no program", True, "`./trade build`" in str(missing(room / "none", room / "none", crates)))
    counts.expect("no library", True, "`./trade library`" in str(missing(built, room / "none", crates)))


def main():
    counts = Counts()
    with tempfile.TemporaryDirectory() as name:
        room = pathlib.Path(name)
        prefix, work = room / "prefix", room / "work"
        work.mkdir()
        status, _, fault = trade("install", prefix)
        counts.expect("install", (0, ""), (status, fault))
        if status == 0:
            version = ran(prefix / "bin/trade", "--version").decode().split()[1]
            tries_the_program(counts, prefix)
            tries_c(counts, prefix, work, version)
            tries_python(counts, prefix)
            tries_completions(counts, prefix)
            tries_manual(counts, prefix)
            tries_ends(counts, room, prefix)
            tries_refusals(counts, room)
    print(f"{counts.passed} passed, {counts.failed} failed")
    return 1 if counts.failed else 0


if __name__ == "__main__":
    sys.exit(main())
