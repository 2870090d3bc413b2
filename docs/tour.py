#!/usr/bin/env python3
"""Draws the crates of crates.txt into README.md, each above those that it stands on. With --check it writes nothing and says
whether the drawing is the one that README.md has; the exit status is 0 only then."""

import pathlib
import re
import sys

ROOT = pathlib.Path(__file__).resolve().parent.parent
README = ROOT / "README.md"
BEGIN = "<!-- drawn from crates.txt by docs/tour.py -->\n"
END = "<!-- end of the drawing -->\n"


def read_crates():
    """For each crate of the repository the crates that its line names, and what the line says of it."""
    crates = {}
    for line in (ROOT / "crates.txt").read_text(encoding="utf-8").splitlines():
        found = re.fullmatch(r"(\w+)(?: staticlib)?:([\w ]*)# (.+)", line)
        if found:
            crates[found[1]] = (found[2].split(), found[3])
        elif line and not line.startswith("#"):
            raise ValueError(f"no crate with what it is: {line}")
    return crates


def beneath(crates, name):
    """All crates of the repository that a crate stands on, directly or not."""
    direct = [below for below in crates[name][0] if below in crates]
    return set(direct).union(*(beneath(crates, below) for below in direct))


def directly(crates, name):
    """Those that it stands on with no other between them."""
    all_below = beneath(crates, name)
    further = set().union(*(beneath(crates, below) for below in all_below))
    return [below for below in crates[name][0] if below in all_below - further]


def level(crates, name):
    return 1 + max((level(crates, below) for below in directly(crates, name)), default=-1)


def drawing(crates):
    names = max(map(len, crates))
    on = {name: ", ".join(directly(crates, name)) for name in crates}
    width = max(map(len, on.values()))
    layers = {}
    for name in crates:
        layers.setdefault(level(crates, name), []).append(name)
    rule = f"  {'-' * names}   {'-' * width}\n"
    rows = [f"  {'crate':{names}}   stands on\n"]
    for number in sorted(layers, reverse=True):
        rows.append(rule)
        rows += [f"  {name:{names}}   {on[name]:{width}}   {crates[name][1]}".rstrip() + "\n" for name in layers[number]]
    return f"{BEGIN}```\n{''.join(rows)}```\n{END}"


def main():
    text = README.read_text(encoding="utf-8")
    head, begin, rest = text.partition(BEGIN)
    _, end, tail = rest.partition(END)
    if not begin or not end:
        raise ValueError("README.md has no place for the drawing")
    drawn = head + drawing(read_crates()) + tail
    if "--check" not in sys.argv[1:]:
        README.write_text(drawn, encoding="utf-8")
    elif drawn != text:
        print("README.md does not have the drawing of crates.txt: run python3 docs/tour.py")
        sys.exit(1)


main()
