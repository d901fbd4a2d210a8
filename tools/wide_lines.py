#!/usr/bin/env python3
"""tools/wide_lines.py: prints the lines of code, definitions, proofs and documents that have more than 160 characters."""
import pathlib
import subprocess
import sys

WIDTH = 160


def may_be_wide(name, line):
    """Rows of tables and addresses in documents."""
    return name.endswith(".md") and (line.startswith("|") or "http" in line)


def main():
    listed = subprocess.run(["git", "ls-files", "--cached", "--others", "--exclude-standard", "*.rt", "*.antt", "*.md"], check=True, stdout=subprocess.PIPE, text=True)
    for name in filter(lambda name: pathlib.Path(name).is_file(), listed.stdout.splitlines()):
        with open(name, encoding="utf-8", errors="replace") as lines:
            for number, line in enumerate(lines, 1):
                line = line.rstrip("\n")
                if len(line) > WIDTH and not may_be_wide(name, line):
                    print(f"{name}:{number}: {len(line)}")
    return 0


if __name__ == "__main__":
    sys.exit(main())
