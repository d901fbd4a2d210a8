#!/usr/bin/env python3
"""Takes the times of docs/BENCHMARKS.md: run.py BENCHMARK TRADE, the programs crates/benchmark/out/benchmark and crates/trade/out/trade.

Each program is run several times, and the median of the times counts. The C compiler `cc` makes malloc.c, whose blocks stand beside those of the heap.
"""
import os
import re
import statistics
import subprocess
import sys
import tempfile
import time

SECONDS = 0.5
ROUNDS = 7
LIBRARY = os.path.join(os.path.dirname(os.path.abspath(__file__)), "..", "library")
CLASSES = [16, 32, 64, 128, 256, 512, 1024, 2048]


def program(statements):
    """A program text of these statements in `main`."""
    return "".join(["main\n", *(line + "\n" for line in statements), "end\n"]).encode()


def short():
    """4096 statements of one word and a number."""
    return program(["push 1", "out"] * 2048)


def long():
    """4096 statements that say 64 bytes each."""
    return program(['say "' + "x" * 64 + '"'] * 4096)


def nested():
    """Blocks four deep, 4096 statements in all."""
    block = ["loop 2", "push 1", "if", "loop 2", "push 0", "if", "else", "end", "end", "else", "drop", "end", "end"]
    statements = sum(1 for line in block if line not in ("else", "end"))
    return program(block * (4096 // statements))


def balanced():
    """Blocks four deep that take each operand they put, 4096 statements in all."""
    block = ["loop 2", "push 1", "if", "loop 2", "push 0", "if", "else", "end", "end", "else", "end", "end"]
    statements = sum(1 for line in block if line not in ("else", "end"))
    return program(block * (4096 // statements))


def spaces():
    """4096 statements that make a space and free it."""
    return program(["space o0 4096", "free o0"] * 2048)


def making():
    """Loops and arms that make and free, 4095 statements in all."""
    first = ["loop 2", "block o0 64", "free o0", "push 1", "if", "block o1 64", "free o1"]
    block = [*first, "else", "space o2 4096", "free o2", "end", "end"]
    statements = sum(1 for line in block if line not in ("else", "end"))
    return program(block * (4096 // statements))


def sessions():
    """4096 statements, of sessions to each of 64 services with a call."""
    statements = []
    for number in range(819):
        service = f"s{number // 8 % 8}{number % 8}"
        statements += [f"open o0 {service} 8192", "push 1", "call o0", "out", "close o0"]
    return program(statements + ['say "done"'])


def scenario(leaves, text):
    """A scenario with so many leaves of this program."""
    head = 'version = 1\nram = "64M"\n'
    leaf = "[[start]]\nname = \"leaf{}\"\nquantum = 0\nprogram = '''\n{}'''\n"
    return (head + "".join(leaf.format(number, text.decode()) for number in range(leaves))).encode()


def greatest():
    """A scenario of 64 leaves, filled up to 1 MiB with one comment."""
    text = scenario(64, program(["push 1", "out"] * 512))
    return text + b"#" * (2**20 - len(text))


def once(command, given=b""):
    """The nanoseconds of each thing that a program measures, done once."""
    ran = subprocess.run([str(word) for word in command], input=given, capture_output=True, check=True)
    lines = re.findall(r"^(.*): (\d+) in (\d+) ns$", ran.stderr.decode(), re.M)
    return {name: int(nanoseconds) / max(1, int(times)) for name, times, nanoseconds in lines}


def medians(command, given=b""):
    """The median of several runs, of each thing that a program measures."""
    runs = [once(command, given) for _ in range(ROUNDS)]
    return {name: statistics.median(run[name] for run in runs) for name in runs[0]}


def measured(benchmark, work, given):
    """The nanoseconds of a piece of work, done so often that it takes a while."""
    first = once([benchmark, work, 1], given)[work]
    return medians([benchmark, work, max(1, int(SECONDS * 1e9 / max(first, 1)))], given)[work]


def code_of(text, trade):
    """The code of a program text, by `trade asm`."""
    with tempfile.NamedTemporaryFile(suffix=".toml") as file:
        file.write(scenario(1, text))
        file.flush()
        ran = subprocess.run([trade, "asm", file.name, "leaf0"], capture_output=True, check=True)
    return bytes.fromhex(ran.stdout.decode())


def table(*heads):
    """The head of a table."""
    print("\n| " + " | ".join(heads) + " |")
    print("|" + "---|" * len(heads))


def row(*cells):
    """A row of a table."""
    print("| " + " | ".join(str(cell) for cell in cells) + " |", flush=True)


def programs(benchmark, trade):
    """Programs and scenarios."""
    texts = {"4096 short statements": short(), "4096 texts of 64 bytes": long(), "blocks four deep": nested()}
    rows = []
    for name, text in texts.items():
        code = code_of(text, trade)
        rows += [("assemble", name, text, len(text)), ("encode", name, text, len(code)), ("decode", name, code, len(code))]
    text = greatest()
    rows.append(("read", "a scenario of 64 leaves and 1 MiB", text, len(text)))
    table("Work", "Of", "Bytes in", "Time", "MB/s")
    for work, name, given, size in rows:
        nanoseconds = measured(benchmark, work, given)
        row(work, name, size, f"{nanoseconds / 1e6:.3f} ms", f"{size * 1e3 / nanoseconds:.0f}")


def verifier(benchmark):
    """The verifier, with 64 interfaces."""
    texts = {"4096 short statements": short(), "blocks four deep": balanced(), "spaces": spaces(), "sessions": sessions()}
    texts["loops and arms that make and free"] = making()
    table("Verified", "Statements", "Time", "Each statement")
    for name, text in texts.items():
        count = sum(1 for line in text.decode().split("\n") if line not in ("", "main", "else", "end"))
        nanoseconds = measured(benchmark, "verify", text)
        row(name, count, f"{nanoseconds / 1e6:.3f} ms", f"{nanoseconds / count:.0f} ns")


def server(number, opens):
    """A leaf that provides a service of its number, and opens these in `main` and calls each of them for each of its own calls."""
    own = [f"open o{place} s{other} 8192" for place, other in enumerate(opens)]
    calls = [line for place, _ in enumerate(opens) for line in (f"call o{place}",)]
    text = ["main", *own, "end", "open", "end", "call 0", *calls, "end", "close 0", "end"]
    return f'[[start]]\nname = "l{number}"\nquantum = "1M"\nprovides = "s{number}"\nprogram = \'\'\'\n' + "\n".join(text) + "\n\'\'\'\n"


def client(number, opens):
    """A leaf that opens these services, calls each once and closes them."""
    lines = [line for other in opens for line in (f"open o0 s{other} 8192", "push 1", "call o0", "out", "close o0")]
    text = ["main", *lines, "end"]
    return f'[[start]]\nname = "l{number}"\nquantum = "1M"\nprogram = \'\'\'\n' + "\n".join(text) + "\n\'\'\'\n"


def users(leaves):
    """A scenario of 64 leaves with 64 services."""
    head = 'version = 1\nram = "64M"\ndefault-route = [{ any-service = true, any-child = true }]\n'
    interfaces = "".join(f'[interface.s{number}]\narg = 9\nreply = 9\nneed = "8K"\n' for number in range(64))
    return (head + interfaces + "".join(leaves)).encode()


def alone(text):
    """The same leaves with programs of as many lines, none of which is of a session."""
    text = re.sub(r'^provides = .*\n', "", text.decode(), flags=re.M)
    return re.sub(r"'{3}\n(.*?)'{3}", lambda found: f"'''\n{same_length(found[1].count(chr(10)))}'''", text, flags=re.S).encode()


def same_length(lines):
    """A program text of so many lines, or of one less."""
    return program(["push 1", "out"] * ((lines - 2) // 2)).decode()


def checked_by_clock(trade, text):
    """The milliseconds of `trade check` of a text by the clock, the median of some runs, and what it printed."""
    with tempfile.NamedTemporaryFile(suffix=".toml") as file:
        file.write(text)
        file.flush()
        took = []
        for _ in range(ROUNDS):
            start = time.perf_counter()
            ran = subprocess.run([trade, "check", file.name], capture_output=True)
            took.append(time.perf_counter() - start)
    return statistics.median(took) * 1e3, ran


def budgets(trade):
    """`trade check` of 64 leaves, the whole run of the program, beside that of programs of as many lines without sessions."""
    texts = {
        "without sessions": scenario(64, program(["push 1", "out"])),
        "in a chain, each the client of the next": users([client(0, [1])] + [server(n, [n + 1] if n < 63 else []) for n in range(1, 64)]),
        "in a star, one the client of 63": users([client(0, range(1, 64))] + [server(n, []) for n in range(1, 64)]),
        "in a star, 63 the clients of one": users([server(0, [])] + [client(n, [0]) for n in range(1, 64)]),
        "each the client of the eight next": users([client(0, range(1, 9))] + [server(n, range(n + 1, min(n + 9, 64))) for n in range(1, 64)]),
        "each the client of all later ones": users([client(0, range(1, 64))] + [server(n, range(n + 1, 64)) for n in range(1, 64)]),
    }
    table("64 leaves", "Time of `trade check`", "Of as many lines without sessions", "Greatest budget")
    for name, text in texts.items():
        took, ran = checked_by_clock(trade, text)
        lines = ran.stdout.decode().split("\n")[:-1]
        printed = max((int(line.split()[-1]) for line in lines), default=None)
        row(name, f"{took:.1f} ms", f"{checked_by_clock(trade, alone(text))[0]:.1f} ms", printed if printed is not None else ran.stderr.decode().strip())


def words(benchmark):
    """Numbers and bytes that are cleared, in dataspaces; and numbers in a `Vec`."""
    took = medians([benchmark, "words", 20])
    table("Of 1 MiB", "Frames in a row", "Frames apart", "`Vec<u8>`")
    for name in ["store4 in sequence", "load4 in sequence", "store4 at random", "load4 at random"]:
        row(name, *(f"{took[f'{where} {name}']:.1f} ns" for where in ["dataspace", "scattered", "Vec"]))
    name = "clear of 2048 bytes"
    row(name, *(f"{took[f'{where} {name}']:.0f} ns" for where in ["dataspace", "scattered"]), "")


def frames(benchmark):
    """Frames, and what is made for 64 MiB."""
    took = medians([benchmark, "frames", 5])
    table("Work", "Time")
    for name in ["frame first take", "frame take and give", "Vec of a frame"]:
        row(name, f"{took[name]:.0f} ns")
    for name in ["Pages::new of 64 MiB", "Accounts::new of 64 MiB", "Vec of 64 MiB"]:
        row(name, f"{took[name] / 1e6:.3f} ms")


def blocks(benchmark):
    """Blocks of each class, beside those of other heaps."""
    with tempfile.TemporaryDirectory() as folder:
        malloc = os.path.join(folder, "malloc")
        source = os.path.join(os.path.dirname(os.path.abspath(__file__)), "malloc.c")
        subprocess.run(["cc", "-O2", "-fno-builtin", "-o", malloc, source], check=True)
        took = {size: {} for size in CLASSES}
        for size in CLASSES:
            for command in ([benchmark, "heap", 10, size], [malloc, 10, size], [benchmark, "list", 10, size]):
                took[size].update(medians(command))
    phases = ["first alloc", "free", "alloc again", "alloc and free, no other block", "alloc and free, all others in use"]
    for phase in phases:
        names = [name for name in ["heap", "malloc", "calloc", "list"] if f"{name} {phase}" in took[16]]
        table(phase, *names)
        for size in CLASSES:
            row(f"{size} bytes", *(f"{took[size][f'{name} {phase}']:.0f} ns" for name in names))


def others(benchmark):
    """Slices and pools."""
    table("Work", "Time")
    for size in [4064, 65504]:
        row(f"slice of {size} bytes, alloc and free", f"{medians([benchmark, 'slices', 5, size])['slice alloc and free']:.0f} ns")
    took = medians([benchmark, "pool", 20])
    for name in ["pool first take", "pool give", "pool take again"]:
        row(f"{name}, entries of 16 bytes", f"{took[name]:.0f} ns")


def trades(benchmark):
    """Sessions from the ask to the close, beside others."""
    table("Others that are open", "A session", "Two replies")
    for count in [1, 100, 10000]:
        took = medians([benchmark, "sessions", 100000, count])
        row(count, f"{took['session']:.0f} ns", f"{took['two replies']:.0f} ns")
    took = medians([benchmark, "accesses", 1000000])
    table("A byte of a space", "Time")
    for name in ["byte by slot", "byte by address"]:
        row(name, f"{took[name]:.1f} ns")


def system(leaves, service=""):
    """A scenario of these leaves, each a name, keys and a program, with all memory that there can be."""
    head = 'version = 1\nram = "64M"\ndefault-route = [{ any-service = true, any-child = true }]\n' + service
    return head + "".join(f'[[start]]\nname = "{name}"\n{keys}\nprogram = """\n{text}\n"""\n' for name, keys, text in leaves)


def rounds(body, before="", after=""):
    """A program that does this in 65535 * 1000 rounds."""
    return "\n".join(["main", *before.split(", "), "loop 1000", "loop 65535", *body.split(", "), "end", "end", *after.split(", "), "end"]).replace("\n\n", "\n")


def words_of(size):
    """Reads and writes words, 16 bytes apart, over a space of so many bytes."""
    body = f"index 0, push 16, mul, mod {size - 3}, dup, load4 o0, store4 o0"
    return system([("a", f"quantum = {size}", rounds(body, f"space o0 {size}", "free o0"))])


def answered(trade, scenario, turns):
    """The processor seconds of a run."""
    with tempfile.TemporaryDirectory() as room:
        paths = [os.path.join(room, name) for name in ("scenario.toml", "turns")]
        for path, text in zip(paths, (scenario, turns)):
            with open(path, "w", encoding="utf-8") as file:
                file.write(text)
        with open(os.devnull, "wb") as null:
            running = subprocess.Popen([trade, "run", *paths], stdout=null)
            _, status, used = os.wait4(running.pid, 0)
    if status:
        sys.exit(f"a run ended with status {status}")
    return used.ru_utime + used.ru_stime


def turn(trade, scenario, turns):
    """The nanoseconds of a turn: the least of some runs, less the least without turns."""
    count = sum(int(line.split(" ")[1]) for line in turns.splitlines())
    whole, idle = (min(answered(trade, scenario, text) for _ in range(ROUNDS)) for text in (turns, ""))
    return f"{(whole - idle) / count * 1e9:.1f}"


def works():
    """Runs of one or two leaves, by what they do: a name, the scenario and the turns of each."""
    service = '[interface.echo]\narg = 1000\nreply = 2000\nneed = "8K"\nobject = 100\n'
    server = ("srv", 'quantum = 0\nprovides = "echo"', "main\nend\nopen\nend\ncall 0\npush 2\nmul\nend\nclose 0\nend")
    client = ("cli", 'quantum = "16K"', rounds("open o0 echo 8192, push 21, call o0, drop, close o0"))
    return [
        ("numbers", system([("a", 'quantum = "4K"', rounds("index 0, push 16, mul, push 3, add, drop"))]), "a 1000000\n"),
        ("words of a space of 1 MiB", words_of(1048576), "a 1000000\n"),
        ("blocks of 64 bytes, made and freed", system([("a", 'quantum = "4K"', rounds("block o0 64, free o0"))]), "a 1000000\n"),
        ("a session opened, called and closed", system([server, client], service), "srv 1\n" + "cli 3\nsrv 3\n" * 100000),
        ("lines of numbers", system([("a", 'quantum = "4K"', rounds("index 0, out"))]), "a 1000000\n"),
    ]


def library(trade):
    """A turn by the C library beside one of a run, where library/libtrade.a is built."""
    archive = os.path.join(LIBRARY, "libtrade.a")
    if not os.path.isfile(archive):
        print(f"{archive} is not there: no turns by the library")
        return
    table("Work", "`trade run`, ns a turn", "`trade_turns`", "`trade_turn`")
    with tempfile.TemporaryDirectory() as room:
        program, paths = os.path.join(room, "program"), [os.path.join(room, name) for name in ("scenario.toml", "turns")]
        source = os.path.join(os.path.dirname(__file__), "turns_by_library.c")
        subprocess.run([os.environ.get("CC", "cc"), "-std=c11", "-O2", f"-I{LIBRARY}", source, archive, "-o", program], check=True)
        for name, scenario, turns in works():
            for path, text in zip(paths, (scenario, turns)):
                with open(path, "w", encoding="utf-8") as file:
                    file.write(text)
            taken = [min(float(subprocess.check_output([program, *paths, how])) for _ in range(ROUNDS)) for how in ("turns", "turn")]
            row(name, turn(trade, scenario, turns), *(f"{each:.1f}" for each in taken))


def runs(trade):
    """A turn of a run, by what it does, by how many leaves there are, and by how much memory is in use."""
    table("Work", "ns a turn")
    for name, scenario, turns in works():
        row(name, turn(trade, scenario, turns))
    table("Leaves", "a turn on each line, ns", "ten on each line, ns", "all at once, ns")
    for leaves in (1, 8, 64):
        scenario = system([(f"l{n}", 'quantum = "4K"', rounds("index 0, push 16, mul, drop")) for n in range(leaves)])
        lists = ["".join(f"l{n % leaves} {each}\n" for n in range(count // each)) for each, count in ((1, 200000), (10, 1000000), (10000, 1000000))]
        row(leaves, *(turn(trade, scenario, turns) for turns in lists))
    table("Space", "words, ns a turn")
    for size in (4096, 65536, 1048576, 16777216, 67108864):
        row(f"{size // 1024} KiB", turn(trade, words_of(size), "a 1000000\n"))


def checked(trade, scenario):
    """The processor seconds of a check, the least of some runs, and the most host memory that it takes, in KiB."""
    with tempfile.NamedTemporaryFile(suffix=".toml") as file:
        file.write(scenario)
        file.flush()
        # (a child of this process would begin with the memory of this one, a child of `time` does not)
        held = subprocess.run(["/usr/bin/time", "-f", "%M", trade, "check", file.name], capture_output=True, check=True).stderr
        took = []
        for _ in range(ROUNDS):
            running = subprocess.Popen([trade, "check", file.name], stdout=subprocess.DEVNULL)
            _, _, used = os.wait4(running.pid, 0)
            took.append(used.ru_utime + used.ru_stime)
    return min(took), int(held.split()[-1])


def grown(trade, *heads_and_scenarios):
    """Rows of checks: what each is of, its statements, its text, what it takes, for each statement (beyond leaves without any), and its host memory."""
    table("Of", "Statements", "Text", "Time of `trade check`", "Each statement", "Host memory")
    for head, text in heads_and_scenarios:
        took, memory = checked(trade, text)
        statements, least = text.count(b"push") + text.count(b"out"), checked(trade, scenario(text.count(b"start"), program([])))[0]
        each = f"{(took - least) / statements * 1e9:.0f} ns"
        row(head, statements, f"{len(text) // 1024} KiB", f"{took * 1e3:.1f} ms", each, f"{memory / 1024:.1f} MB")


def growth(trade):
    """How checks and runs grow: with leaves, texts, turns and sessions."""
    pairs = ["push 1", "out"]
    grown(trade, *((f"{leaves} leaves of 16 KiB", scenario(leaves, program(pairs * 1483))) for leaves in (1, 4, 16, 64)))
    grown(trade, *((f"64 leaves, {size} KiB in all", scenario(64, program(pairs * ((size * 16 - 62) // 11)))) for size in (16, 64, 256, 1024)))
    service = '[interface.echo]\narg = 1000\nreply = 2000\nneed = "8K"\nobject = 100\n'
    server = ("srv", 'quantum = 0\nprovides = "echo"', "main\nend\nopen\nend\ncall 0\npush 2\nmul\nend\nclose 0\nend")
    table("Turns", "numbers, ns a turn", "lines of numbers, ns a turn")
    for count in (100000, 300000, 1000000):
        numbers = system([("a", 'quantum = "4K"', rounds("index 0, push 16, mul, push 3, add, drop"))])
        row(count, turn(trade, numbers, f"a {count}\n"), turn(trade, system([("a", 'quantum = "4K"', rounds("index 0, out"))]), f"a {count}\n"))
    table("Sessions that stay open beside it", "a session opened, called and closed, ns a turn")
    for others in (0, 60, 960, 3720):
        leaves = [(f"c{n}", 'quantum = "512K"', "main\n" + "".join(f"open o{k} echo 8192\n" for k in range(60)) + "loop 60000\nend\n"
                   + "".join(f"close o{k}\n" for k in range(60)) + "end") for n in range(others // 60)]
        client = ("cli", 'quantum = "16K"', rounds("open o0 echo 8192, push 21, call o0, drop, close o0"))
        opened = "srv 1\n" + "".join(f"c{n} 1\nsrv 2\n" * 60 for n in range(others // 60))
        taken = opened + "cli 3\nsrv 3\n" * 100000
        scenario_text = system([server, client, *leaves], service)
        whole, idle = (min(answered(trade, scenario_text, text) for _ in range(ROUNDS)) for text in (taken, opened))
        row(others, f"{(whole - idle) / 600000 * 1e9:.1f}")


def taken(trade, words, *texts):
    """The least processor milliseconds of some runs of these words over these texts, whatever their status, and the bytes that one writes."""
    with tempfile.TemporaryDirectory() as room:
        paths = [os.path.join(room, str(place)) for place in range(len(texts))]
        for path, text in zip(paths, texts):
            with open(path, "wb") as file:
                file.write(text if isinstance(text, bytes) else text.encode())
        printed, least = os.path.join(room, "printed"), []
        for _ in range(ROUNDS):
            with open(printed, "wb") as out:
                running = subprocess.Popen([trade, *words, *paths], stdout=out, stderr=subprocess.DEVNULL)
                _, _, used = os.wait4(running.pid, 0)
            least.append(used.ru_utime + used.ru_stime)
        return min(least) * 1e3, os.path.getsize(printed)


def in_words(milliseconds, size):
    return f"{milliseconds:.1f} ms, {size / 1024:.0f} KiB"


def designers(trade):
    """What the commands of designers take beside `run` and `check` of the same texts."""
    service = '[interface.echo]\narg = 1000\nreply = 2000\nneed = "8K"\nobject = 100\n'
    server = ("srv", 'quantum = 0\nprovides = "echo"', "main\nend\nopen\nend\ncall 0\npush 2\nmul\nend\nclose 0\nend")
    client = ("cli", 'quantum = "16K"', rounds("open o0 echo 8192, push 21, call o0, drop, close o0"))
    many = system([(f"l{n}", 'quantum = "4K"', rounds("index 0, push 16, mul, drop")) for n in range(64)])
    table("Turns", "`run`", "`trace`", "`trace --all`", "`state`")
    for name, scenario_text, turns in [
        ("a million of numbers", system([("a", 'quantum = "4K"', rounds("index 0, push 16, mul, push 3, add, drop"))]), "a 1000000\n"),
        ("a million, of which a third write lines", system([("a", 'quantum = "4K"', rounds("index 0, out"))]), "a 1000000\n"),
        ("a million of 64 leaves", many, "".join(f"l{n % 64} 10\n" for n in range(100000))),
        ("600,000 of sessions, opened, called and closed", system([server, client], service), "srv 1\n" + "cli 3\nsrv 3\n" * 100000),
    ]:
        row(name, *(in_words(*taken(trade, words, scenario_text, turns)) for words in (["run"], ["trace"], ["trace", "--all"], ["state"])))
    faulty = 'version = 1\nram = "64K"\n' + "".join(f"key{place} = 1\n" for place in range(10000)) + "start = []\n"
    broken = scenario(64, program(["push 1", "out"] * 500 + ["add"]))
    table("Scenario", "`check`", "`tree`", "`size`", "`races`", "`turns`", "`faults`")
    for name, text in [
        ("64 leaves, 1 MiB", greatest()),
        ("64 leaves that go round", many),
        ("10,000 unknown keys", faulty),
        ("64 leaves that break a rule", broken),
    ]:
        row(name, *(in_words(*taken(trade, [word], text)) for word in ("check", "tree", "size", "races", "turns", "faults")))


def main():
    benchmark, trade = sys.argv[1], sys.argv[2]
    programs(benchmark, trade)
    verifier(benchmark)
    budgets(trade)
    words(benchmark)
    frames(benchmark)
    blocks(benchmark)
    others(benchmark)
    trades(benchmark)
    runs(trade)
    library(trade)
    growth(trade)
    designers(trade)


if __name__ == "__main__":
    main()
