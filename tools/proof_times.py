#!/usr/bin/env python3
"""tools/proof_times.py FOLDER: prints where the time of a check from nothing went, by what it kept in that folder.

Remove crates/NAME/out/incremental, run `rt check` in crates/NAME, and then this on crates/NAME/out/incremental. A check writes what it has checked file by
file, so the time between one file and the one before is what that file took. It prints the seconds, the megabytes and the name of the 40 that took longest:
a name that ends in `Lts` is the borrow checker's part of a function's proof, `Proof` what its clauses and `search` took, `Answers` answers by hand.
"""
import pathlib
import sys

MOST = 40


def kept(folder):
    """When each file of a folder was written, its bytes and its name, in the order of time."""
    files = [(path.stat(), path) for path in pathlib.Path(folder).rglob("*") if path.is_file()]
    return sorted((stat.st_mtime, stat.st_size, path.name) for stat, path in files)


def main(words):
    if len(words) != 1 or not pathlib.Path(words[0]).is_dir():
        sys.exit(__doc__)
    files = kept(words[0])
    taken = [(time - before, size, name) for (before, _, _), (time, size, name) in zip(files, files[1:])]
    for seconds, size, name in sorted(taken, reverse=True)[:MOST]:
        print(f"{seconds:8.1f} s {size / 1e6:8.2f} MB  {name}")
    print(f"{sum(seconds for seconds, _, _ in taken):8.1f} s in all, {len(files)} files")
    return 0


if __name__ == "__main__":
    sys.exit(main(sys.argv[1:]))
