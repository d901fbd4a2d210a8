#!/usr/bin/env python3
"""buildall.py TOP [-j WORKERS] [-k JOBS] NAME..: builds these crates and all below them, those that are not built from these sources."""
import sys, time, pathlib, concurrent.futures, argparse
a = argparse.ArgumentParser(); a.add_argument("top"); a.add_argument("-j", type=int, default=4); a.add_argument("-k", type=int, default=1); a.add_argument("names", nargs="+")
q = a.parse_args()
sys.path.insert(0, q.top + "/tools")
from crates import Crates
from made_from import MADE, is_made_from, origins, put_down
import build as B
crates, when = Crates(q.top), time.time()
order = []
for n in q.names:
    for m in [*crates.below(n), n]:
        if m not in order: order.append(m)
# order topologically
done_o, names = set(), []
def visit(n):
    if n in done_o: return
    done_o.add(n)
    for u in crates.own(n): visit(u)
    names.append(n)
for n in order: visit(n)
names = [n for n in names if n in order]
origin = origins(names, crates)
height = B.heights(names, crates)
todo = [n for n in names if not is_made_from(n, crates, origin[n])]
print("to build:", len(todo), todo, flush=True)
done = set(names) - set(todo)
left = sorted(todo, key=lambda n: -height[n]); running = {}; failed = []
begun = time.monotonic()
def build(name):
    return B.build(name, crates, origin[name], when, q.k)
with concurrent.futures.ThreadPoolExecutor(q.j) as pool:
    while left or running:
        for n in [n for n in left if all(u in done for u in crates.own(n))][: q.j - len(running)]:
            left.remove(n); running[n] = pool.submit(build, n)
        if not running: break
        concurrent.futures.wait(running.values(), return_when=concurrent.futures.FIRST_COMPLETED, timeout=5)
        for n in [n for n, f in running.items() if f.done()]:
            s = running.pop(n).result()
            if s is None:
                failed.append(n); print("FAILED", n, flush=True)
            else:
                done.add(n); print(f"{n} {s:.0f} s, at {time.monotonic()-begun:.0f}, {len(left)+len(running)} left", flush=True)
print("failed:", failed, "left:", left, flush=True)
