#!/usr/bin/env python3
"""tools/build.py PROGRAM: proves and builds the crates that a program stands on, side by side with all processors, and then the program. A static library
for programs in C, as gq_library, is built the same way.

It reports on standard error which crate of how many was proved, and how long that took. What was built from the same sources before is kept. It ends with 0
where the program was built; what the toolchain said of a crate is in crates/NAME/out/build.log.
"""
import concurrent.futures
import os
import re
import sys
import time

from crates import TOP, Crates
from made_from import MADE, is_made_from, origins, put_down

# Of so many crates that are left, each gets one job more.
LAST = 10
LINES_A_SECOND = 8
# A row of the table of docs/GATE.md: the crate, and the processor seconds of its proof.
ROW = re.compile(r"^\| `(\w+)` \|(?: [^|]* \|){5} ([0-9,]+) \|", re.M)


def measured():
    """The processor seconds of each crate's proof, as docs/GATE.md has them."""
    return {name: int(number.replace(",", "")) for name, number in ROW.findall((TOP / "docs" / "GATE.md").read_text(encoding="utf-8"))}


def seconds(name, crates, table):
    """About how many processor seconds the proof of a crate takes: enough to know what is to be built first."""
    lines = sum(path.read_bytes().count(b"\n") for path in (crates.folder(name) / "src").rglob("*.rt"))
    return table.get(name, lines / LINES_A_SECOND)


def heights(names, crates):
    """For each crate, how many seconds the longest way from it up to the program takes: what is to be built first."""
    found, table = {}, measured()
    for name in reversed(names):
        found[name] = seconds(name, crates, table) + max((found[above] for above in found if name in crates.own(above)), default=0)
    return found


def jobs_of(is_first, beside, left, processors):
    """How many jobs a crate gets that is built beside others, when so many crates are left.

    It gets its share of the processors. What has the longest way left gets more, at the cost of more processor time; and so does each of the last crates,
    which are too few to keep all processors busy with a job each.
    """
    fewest = 1 + (1 if is_first else 0) + (1 if left <= LAST else 0)
    return min(max(processors // beside, fewest), processors)


def build(name, crates, origin, when, jobs):
    """Builds a crate where it is not built from these sources yet, as they were at a time. Gives the seconds that it took, or None where it failed."""
    start, out = time.monotonic(), crates.folder(name) / "out"
    if is_made_from(name, crates, origin):
        return 0.0
    out.mkdir(exist_ok=True)
    (out / MADE).unlink(missing_ok=True)
    with open(out / "build.log", "wb") as log:
        if not crates.build(name, jobs, log):
            return None
    put_down(name, crates, origin, when)
    return time.monotonic() - start


def main():
    program, crates, when = sys.argv[1], Crates(), time.time()
    names = [*crates.below(program), program]
    height, origin = heights(names, crates), origins(names, crates)
    left, running, done, begun = sorted(names, key=lambda name: -height[name]), {}, [], {}
    processors = os.cpu_count() or 1
    with concurrent.futures.ThreadPoolExecutor(processors) as pool:
        while left or running:
            ready = [name for name in left if all(used in done for used in crates.own(name))][: processors - len(running)]
            beside, now = [*running.values(), *ready], time.monotonic()
            # Of what is being built only the rest is on the way.
            ahead = {name: height[name] - (now - begun.get(name, now)) for name in beside}
            for name in ready:
                jobs = jobs_of(ahead[name] == max(ahead.values()), len(beside), len(left), processors)
                left.remove(name)
                begun[name] = now
                running[pool.submit(build, name, crates, origin[name], when, jobs)] = name
            finished, _ = concurrent.futures.wait(running, return_when=concurrent.futures.FIRST_COMPLETED)
            for future in finished:
                name = running.pop(future)
                took = future.result()
                if took is None:
                    print(f"{name} could not be built: see crates/{name}/out/build.log", file=sys.stderr)
                    return 1
                done.append(name)
                print(f"{len(done)} of {len(names)}: {name}, {took:.0f} s", file=sys.stderr, flush=True)
    return 0


if __name__ == "__main__":
    sys.exit(main())
