#!/usr/bin/env python3
"""putdown.py TOP NAME..: notes that these crates and all below them are built from the sources as they stand (after a change of layout alone)."""
import sys, time
sys.path.insert(0, sys.argv[1] + "/tools")
from crates import Crates
from made_from import origins, put_down
c = Crates(sys.argv[1]); names = []
for n in sys.argv[2:]:
    for m in [*c.below(n), n]:
        if m not in names: names.append(m)
o = origins(names, c)
for n in names:
    if c.product(n).exists(): put_down(n, c, o[n], time.time())
    else: print("not built:", n)
