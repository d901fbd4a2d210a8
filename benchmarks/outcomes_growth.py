#!/usr/bin/env python3
"""Takes the table of growth of docs/BENCHMARKS.md: outcomes_growth.py TRADE, the program crates/trade/out/trade.

So many clients share a server that counts its calls in its own memory, and each calls it so often and shows the last number that it was told. For each pair of
numbers: how many settled worlds are seen, in how many turns, how many outcomes there are, the median of the times (of one that takes a second, that of one run), and in how many orders the requests can be
made. Worlds and turns are counted here by the states of clients and server. The number of outcomes, and the turns of one client, have to be those of the program.
"""
import math
import statistics
import subprocess
import sys
import tempfile
import time

ROUNDS = 3
MOST = 10_000_000
# The turns of the start, and of a request of each kind with all that settles after it.
TURNS = {"start": 2, "open": 4, "call": 14, "last call": 13, "close": 4}
SERVER = """
[[start]]
name = "srv"
quantum = "8K"
provides = "tally"
program = '''
main
  slice o0 16
end
open
end
call 0
  drop
  push 0
  push 0
  load o0
  push 1
  add
  store o0
  push 0
  load o0
end
close 0
end
'''
"""
CLIENT = """
[[start]]
name = "c{number}"
quantum = "16K"
route = [{{ service = "tally", child = "srv" }}]
program = '''
main
  open o0 tally 8192
{calls}  out
  close o0
end
'''
"""
CALL = "  push 0\n  call o0\n"


def scenario(clients, calls):
    """The text of a scenario with so many clients, each of so many calls."""
    all_calls = "  drop\n".join([CALL] * calls)
    ram = 16 * clients + 16
    head = f'version = 1\nram = "{ram}K"\n\n[interface.tally]\narg = 10\nreply = 255\nneed = "8K"\n'
    return head + SERVER + "".join(CLIENT.format(number=number, calls=all_calls) for number in range(clients))


def outcomes(trade, text):
    """What `trade outcomes` writes of a scenario, and the seconds that it took."""
    with tempfile.NamedTemporaryFile("w", suffix=".toml") as file:
        file.write(text)
        file.flush()
        start = time.perf_counter()
        ran = subprocess.run([trade, "outcomes", file.name], stdin=subprocess.DEVNULL, stdout=subprocess.PIPE, check=True)
        return ran.stdout.decode(), time.perf_counter() - start


def edges(state, calls):
    """The number and the kind of each request that a client can make next."""
    for number, (made, _) in enumerate(state):
        if made < calls + 2:
            yield number, "open" if made == 0 else "close" if made == calls + 1 else "last call" if made == calls else "call"


def counted(clients, calls):
    """The settled worlds that are seen, the turns that are taken, and the outcomes. A client has made so many requests, and was told a last number."""
    first = (tuple((0, 0) for _ in range(clients)), 0)
    seen, stack, turns, ends = {first}, [first], TURNS["start"], set()
    while stack and turns <= MOST:
        state, count = stack.pop()
        is_end = True
        for number, kind in edges(state, calls):
            is_end, then = False, count + kind.endswith("call")
            told = then if kind == "last call" else state[number][1]
            world = (*state[:number], (state[number][0] + 1, told), *state[number + 1 :]), then
            turns += TURNS[kind]
            if world not in seen:
                seen.add(world)
                stack.append(world)
        if is_end:
            ends.add(state)
    return len(seen), turns, len(ends)


def row(trade, clients, calls):
    """A row of the table, where the search is not cut."""
    worlds, turns, ends = counted(clients, calls)
    if turns > MOST:
        return f"{clients} clients, {calls} calls: more than {MOST} turns"
    text = scenario(clients, calls)
    runs = [outcomes(trade, text)]
    runs += [outcomes(trade, text) for _ in range(ROUNDS - 1 if runs[0][1] < 1 else 0)]
    if not runs[0][0].endswith(f"\n{ends} outcomes\n"):
        sys.exit(f"{clients} clients, {calls} calls: {ends} outcomes are due")
    orders = math.factorial(clients * (calls + 2)) // math.factorial(calls + 2) ** clients
    taken = statistics.median(seconds for _, seconds in runs)
    return f"{clients} clients, {calls} calls: {worlds} worlds, {turns} turns, {ends} outcomes, {taken:.3f} s, {float(orders):.1e} orders"


def main(words):
    if len(words) != 1:
        sys.exit(__doc__)
    for calls in (1, 2, 4, 8):
        alone = outcomes(words[0], scenario(1, calls))[0]
        if not alone.startswith(f"outcome 1 after {counted(1, calls)[1]} turns\n"):
            sys.exit(f"a client with {calls} calls takes other turns")
    for clients in range(2, 9):
        for calls in (1, 2, 4, 8):
            print(row(words[0], clients, calls), flush=True)


if __name__ == "__main__":
    main(sys.argv[1:])
