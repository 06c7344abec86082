#!/usr/bin/env python3
"""Counts for docs/DESIGN-PASS.md what no grep counts. usage: tools/design_counts.py [--list], at the top of a checkout."""
import collections
import glob
import re
import sys

SET = {"flags", "parts", "masses", "fills", "carry"}
HEAD = re.compile(r'^[ ]*(?:pub(?:\([a-z]+\))? )?(?:extern "C" )?fn (\w+)(?:<[^>]*>)?\(([^)]*)\)', re.M)


def functions():
    """(crate, name, names of the parameters) of each function of src/."""
    for path in sorted(glob.glob("crates/*/src/*.rt")):
        crate = path.split("/")[1]
        for m in HEAD.finditer(open(path, encoding="utf-8").read()):
            yield crate, m.group(1), re.findall(r"(\w+): ", m.group(2))


def main(listed):
    all_of = list(functions())
    flume = lambda crate: "flume" in crate or crate in ("nine", "nineturbulence")  # noqa: E731
    box = collections.defaultdict(set)
    for crate, name, _ in all_of:
        if not flume(crate):
            box[name].add(crate)
    twins = [(crate, name) for crate, name, _ in all_of if flume(crate) and (name in box or name.endswith("9") and name[:-1] in box)]
    slices = [(crate, name) for crate, name, given in all_of if len(SET & set(given)) >= 4]
    both = [(crate, name) for crate, name, given in all_of if len(SET & set(given)) >= 4 and "masses2" in given]
    for label, found in (
        ("flume functions that a function of the box has the name of, but for a 9 at the end", twins),
        ("functions that take four or five of flags, parts, masses, fills, carry", slices),
        ("of these with a second set", both),
    ):
        print(len(found), label)
        if listed:
            for crate, name in found:
                print("   ", crate, name)


if __name__ == "__main__":
    main("--list" in sys.argv[1:])
