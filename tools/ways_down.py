#!/usr/bin/env python3
"""Counts the ways down from each crate to those below it, by crates.txt.

    tools/ways_down.py

`rt` makes a sum of all that stands below a library, before and after its proof, by going along each of these ways and reading every file anew, so
that their number is time for which each crate above waits. Prints the crates with the most ways, and names of crates.txt that their crate cites nowhere.
It is no part of the gate.
"""
import functools
import re
from pathlib import Path

TOP = Path(__file__).resolve().parent.parent
SHOWN = 15


def crates():
    """The crates of the repository that each crate names."""
    lines = [line.split('#')[0].partition(':') for line in (TOP / 'crates.txt').read_text().splitlines()]
    named = {name.split()[0]: uses.split() for name, colon, uses in lines if colon}
    return {name: [it for it in uses if it in named] for name, uses in named.items()}


def cites(name, other):
    """Whether a file of a crate says the name of another."""
    files = [it for part in ['src', 'specs', 'proofs'] for it in (TOP / 'crates' / name / part).rglob('*') if it.suffix in ['.rt', '.antt']]
    return any(re.search(rf'\b{other}\b', it.read_text()) for it in files)


def main():
    below = crates()

    @functools.cache
    def ways(name):
        return 1 + sum(ways(it) for it in below[name])

    for name in sorted(below, key=ways)[-SHOWN:]:
        print(f'{ways(name):7} {name}')
    for name, uses in below.items():
        for it in uses:
            if not cites(name, it):
                print(f'{name} cites nothing of {it}')


main()
