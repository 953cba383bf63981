#!/usr/bin/env python3
"""What the list of crates costs the gate, and which of its entries no file of a crate names.

rt goes along every path from a crate down to those below it, twice for each library, to sum up their sources. So the time grows with the number
of these paths, and each crate in the list of another one adds all of its own.

    bench/dependencies.py           the crates with the most paths, and how many there are in all
    bench/dependencies.py --unnamed the entries that neither src nor specs nor proofs of their crate name: take one away only where the crate is
                                    still proved without it, since methods of its types may be called by nobody's name
"""
import os
import re
import sys

ROOT = os.path.dirname(os.path.dirname(os.path.abspath(__file__)))


def lists():
    found = {}
    with open(f"{ROOT}/crates.txt", encoding="utf-8") as it:
        for line in it:
            said = re.match(r"(\w+):(.*)", line)
            if said:
                found[said[1]] = said[2].split()
    return found


def paths(listed, name, known):
    if name not in known:
        known[name] = 1 + sum(paths(listed, it, known) for it in listed[name] if it in listed)
    return known[name]


def named(name):
    words = set()
    for part in ("src", "specs", "proofs"):
        for at, _, files in os.walk(f"{ROOT}/crates/{name}/{part}"):
            for file in files:
                with open(f"{at}/{file}", encoding="utf-8") as it:
                    text = it.read()
                words |= {*re.findall(r"Rattle\.(\w+)\b", text), *re.findall(r"\b([a-z_]\w*)::", text)}
    return words


def main():
    listed, known = lists(), {}
    if sys.argv[1:] == ["--unnamed"]:
        for name in listed:
            left = [it for it in listed[name] if it in listed and it not in named(name)]
            if left:
                print(f"{name}: {' '.join(left)}")
        return
    for name in sorted(listed, key=lambda it: -paths(listed, it, known))[:20]:
        print(f"{known[name]:8} {name}")
    libraries = [it for it in listed if not os.path.isfile(f"{ROOT}/crates/{it}/src/main.rt")]
    print(f"{sum(known[it] for it in libraries):8} of all libraries")


main()
