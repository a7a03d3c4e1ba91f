#!/usr/bin/env python3
"""Makes a repository for one program over crates of this repository, or of another one.

  bench/repository.py FOLDER TOP NAME CRATE..

FOLDER gets the crates CRATE.. of the repository TOP and all crates that these use, a crates.txt with their lines and the line
`NAME: CRATE..`, and an empty crates/NAME/src and crates/NAME/proofs. What rt kept in FOLDER's out/ folders stays.
"""
import os
import shutil
import sys


def crates(top):
    """The crates of a repository, each with the names in its line."""
    listed = {}
    with open(os.path.join(top, "crates.txt"), encoding="utf-8") as file:
        for line in file:
            name, colon, below = line.partition("#")[0].partition(":")
            if colon:
                listed[name.split()[0]] = below.split()
    return listed


def used(listed, names):
    """The crates named and all that they use, in the order of the list."""
    found, todo = set(), list(names)
    while todo:
        name = todo.pop()
        if name not in found:
            found.add(name)
            todo += [it for it in listed[name] if it in listed]
    return [name for name in listed if name in found]


def copy(crate, to):
    """Copies a crate's sources, and leaves what rt kept for it."""
    os.makedirs(to, exist_ok=True)
    for part in ("src", "specs", "proofs"):
        shutil.rmtree(os.path.join(to, part), ignore_errors=True)
        if os.path.isdir(os.path.join(crate, part)):
            shutil.copytree(os.path.join(crate, part), os.path.join(to, part))


def main(folder, top, name, *names):
    listed = crates(top)
    unknown = [it for it in names if it not in listed]
    if unknown or not names:
        sys.exit(f"repository.py: {top}/crates.txt has no {unknown[0]}" if unknown else __doc__)
    wanted = used(listed, names)
    for crate in wanted:
        copy(os.path.join(top, "crates", crate), os.path.join(folder, "crates", crate))
    for part in ("src", "proofs"):
        shutil.rmtree(os.path.join(folder, "crates", name, part), ignore_errors=True)
        os.makedirs(os.path.join(folder, "crates", name, part))
    shutil.copy(os.path.join(top, "HANDLES"), folder)
    with open(os.path.join(folder, "crates.txt"), "w", encoding="utf-8") as file:
        for crate in wanted:
            file.write(" ".join([f"{crate}:", *listed[crate]]) + "\n")
        file.write(" ".join([f"{name}:", *names]) + "\n")


if len(sys.argv) < 5:
    sys.exit(__doc__)
main(*sys.argv[1:])
