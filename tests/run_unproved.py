#!/usr/bin/env python3
"""tests/run_unproved.py PROGRAM: compares `./trade` where no program is built with PROGRAM, the proved one, by exit status and both streams.

It works in a copy of the repository. The first call there compiles what `run`, `check` and `asm` need, the first of another command the whole program, and the
others take what was kept. So some calls of `./trade` are tried: by relative names, by names that lead up, from standard input, from a pipe, with help, with words
that are none, with much output, and to a full device; and all cases of tests/run_cases.py over the program that is kept. Where a source changes, the program is
compiled anew. It takes some ten minutes and is no part of ./check. The last line is 'N passed, M failed', and the exit status is 1 where one failed.
"""
import pathlib
import subprocess
import sys
import tempfile

TOP = pathlib.Path(__file__).resolve().parent.parent
sys.path[:0] = [str(TOP / "tests"), str(TOP / "tools")]
sys.dont_write_bytecode = True
from unproved import NOTE, SMALL, WHOLE  # noqa: E402

MUCH = """version = 1
ram = "64K"
[[start]]
name = "much"
quantum = "4K"
program = '''
main
loop 20000
say "0123456789012345678901234567890123456789012345678901234567890123"
end
end
'''
"""
ASK_KEPT = "import sys; sys.path.insert(0, 'tools'); from unproved import *; print(is_kept(Crates(), WHOLE))"


def answer(words, given=b"", at=TOP):
    """What a command writes to both streams, and its status."""
    ran = subprocess.run(words, input=given, capture_output=True, cwd=at, check=False)
    return ran.stdout, ran.stderr, ran.returncode


def calls(room):
    """Calls of `./trade`, with what they are given on standard input."""
    (room / "much.toml").write_text(MUCH)
    (room / "much.turns").write_text("much 50000\n")
    stored = (TOP / "examples" / "echo.toml").read_bytes() + b"%%\n" + (TOP / "examples" / "echo.turns").read_bytes()
    return [
        (["run", "examples/echo.toml", "examples/echo.turns"], b""),
        (["run", "examples/../examples/hello.toml", str(TOP / "examples" / "hello.turns")], b""),
        (["asm", "examples/hello.toml", "hello"], b""),
        (["list", "examples/hello.toml", "hello"], b""),
        (["tree", "--dot", "examples/inits.toml"], b""),
        (["rule", "v12"], b""),
        (["--version"], b""),
        (["check", "examples/none.toml"], b""),
        (["run", "--help"], b""),
        (["walk"], b""),
        (["state", "--at", "5", "examples/echo.toml", "examples/echo.turns"], b""),
        (["run", str(room / "much.toml"), str(room / "much.turns")], b""),
        ([], stored),
    ]


def compared(program, copy, room):
    """What was wanted of each call of a copy without a built program, and what came."""
    note = NOTE.encode()
    little = [(["check", "examples/hello.toml"], b""), *(call for call in calls(room) if call[0] and call[0][0] in ("run", "asm", "check") and "--help" not in call[0])]
    little = [call for call in little if "examples/none.toml" not in call[0]]
    for which, given_calls in ((SMALL, little), (WHOLE, [(["list", "examples/echo.toml", "srv"], b""), *calls(room)])):
        for number, (words, given) in enumerate(given_calls):
            out, said, status = answer([program, *words], given)
            first = which.said.encode() if number == 0 else b""
            yield f"./trade {' '.join(words)}, by {which.name}", (out, note + first + said, status), answer([str(copy / "trade"), *words], given)
        full = '"$0" run examples/echo.toml examples/echo.turns > /dev/full'
        _, said, status = answer(["bash", "-c", full, program])
        yield f"a full device, by {which.name}", (b"", note + said, status), answer(["bash", "-c", full, str(copy / "trade")])
    piped = 'exec "$0" run <(cat examples/echo.toml) /dev/stdin < examples/echo.turns'
    out, said, status = answer(["bash", "-c", piped, program])
    yield piped, (out, note + said, status), answer(["bash", "-c", piped, str(copy / "trade")])
    yield "all cases", 0, cases_passed(copy)
    source = copy / "crates" / WHOLE.name / "src" / "main.rt"
    text = source.read_text(encoding="utf-8")
    for what, changed, is_kept in (("another source", text + "// more\n", b"False\n"), ("the source as it was", text, b"True\n")):
        source.write_text(changed, encoding="utf-8")
        yield what, (is_kept, b"", 0), answer([sys.executable, "-B", "-c", ASK_KEPT], at=copy)
    source.write_text("fn main( {}\n", encoding="utf-8")
    out, said, status = answer([str(copy / "trade"), "--version"])
    yield "a source that can't be compiled", (b"", 125, True, True), (out, status, b"There is no unproved answer: " in said, b"./trade build" in said)


def cases_passed(copy):
    """The status of the cases over the program that is kept in a copy."""
    ran = subprocess.run([sys.executable, "-B", "tests/run_cases.py", str(copy / WHOLE.path.relative_to(TOP))], cwd=TOP, check=False)
    return ran.returncode


def main():
    if len(sys.argv) != 2:
        sys.exit(__doc__)
    program = str(pathlib.Path(sys.argv[1]).resolve())
    passed = failed = 0
    with tempfile.TemporaryDirectory() as copy, tempfile.TemporaryDirectory() as room:
        files = subprocess.run(["git", "ls-files", "--cached", "--others", "--exclude-standard", "-z"], cwd=TOP, capture_output=True, check=True).stdout
        subprocess.run(["xargs", "-0", "cp", "--parents", "-t", copy], cwd=TOP, input=files, check=True)
        for what, wanted, got in compared(program, pathlib.Path(copy), pathlib.Path(room)):
            passed, failed = passed + (wanted == got), failed + (wanted != got)
            if wanted != got:
                print(f"FAILED {what}\n  wanted {str(wanted)[:400]}\n  got    {str(got)[:400]}")
    print(f"{passed} passed, {failed} failed")
    return 1 if failed else 0


if __name__ == "__main__":
    sys.exit(main())
