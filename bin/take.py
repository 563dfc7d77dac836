#!/usr/bin/env python3
"""Copies crates into a repository of one's own, with those that they stand on.

    bin/ledger take FOLDER CRATE..

Each crate goes to FOLDER/crates with its src/, specs/ and proofs/, and its line to FOLDER/crates.txt. A crate that is
there under the same name is replaced by this one. HANDLES, the list of what the crates may do beside reading and
computing (start threads, say), is copied where there is none. Prints the crates, lowest first.
"""
import pathlib
import shutil
import sys

from build import TOP, below, stands_on

PARTS = ("src", "specs", "proofs")


def name_of(line):
    return line.split("#")[0].partition(":")[0].strip().split(" ")[0]


def listed(path, lines):
    """The list of crates at this path with these lines, each in the place of the one that names the same crate."""
    kept = path.read_text().splitlines() if path.exists() else []
    for line in lines:
        same = [at for at, other in enumerate(kept) if name_of(other) == name_of(line)]
        if same:
            kept[same[0]] = line
        else:
            kept.append(line)
    return "".join(line + "\n" for line in kept)


def take(name, folder):
    for part in PARTS:
        to = folder / "crates" / name / part
        shutil.rmtree(to, ignore_errors=True)
        if (TOP / "crates" / name / part).exists():
            shutil.copytree(TOP / "crates" / name / part, to)


def main():
    if len(sys.argv) < 3:
        sys.exit("bin/ledger take FOLDER CRATE..")
    folder, asked, crates = pathlib.Path(sys.argv[1]), sys.argv[2:], stands_on()
    for name in asked:
        if name not in crates:
            sys.exit(f"crates.txt has no {name}")
    wanted = set().union(*(below(crates, name) for name in asked))
    folder.mkdir(parents=True, exist_ok=True)
    lines = [line for line in (TOP / "crates.txt").read_text().splitlines() if name_of(line) in wanted]
    for line in lines:
        take(name_of(line), folder)
        print(name_of(line))
    (folder / "crates.txt").write_text(listed(folder / "crates.txt", lines))
    if not (folder / "HANDLES").exists():
        shutil.copy(TOP / "HANDLES", folder)


if __name__ == "__main__":
    main()
