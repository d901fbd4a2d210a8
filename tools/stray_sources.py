#!/usr/bin/env python3
"""tools/stray_sources.py: prints the code, definitions and proofs that stand in no crate of crates.txt. `rt ci` refuses them: work in progress is a patch."""
import pathlib
import subprocess
import sys

from crates import PARTS, TOP, listed


def is_in_a_crate(path, crates):
    """Whether a file stands in the code, the definitions or the proofs of a crate."""
    parts = pathlib.PurePosixPath(path).parts
    return len(parts) > 3 and parts[0] == "crates" and parts[1] in crates and parts[2] in PARTS


def main():
    command = ["git", "ls-files", "-z", "--cached", "--others", "--exclude-standard", "*.rt", "*.antt"]
    names = subprocess.run(command, check=True, stdout=subprocess.PIPE, text=True, cwd=TOP)
    crates = listed(TOP)
    for path in filter(None, names.stdout.split("\0")):
        if (TOP / path).is_file() and not is_in_a_crate(path, crates):
            print(path)
    return 0


if __name__ == "__main__":
    sys.exit(main())
