#!/usr/bin/env python3
"""Says where docs/MAP.md, crates.txt and the tree don't agree; the status is then 1.

usage: tools/check_map.py

The crates are in the same order under the same headings in both; each folder of crates/ has a line in both; what
a row of the map says that a crate depends on is in its line of crates.txt; the layers of its diagram, from the
top down, are headings from the last up, and the crates that a layer shows stand under its heading. Python 3.9 or
later, no packages.
"""
import os
import re
import sys

TOP = os.path.dirname(os.path.dirname(os.path.abspath(__file__)))


def read(name):
    with open(f"{TOP}/{name}", encoding="utf-8") as file:
        return file.read().split("\n")


def diagram(headings, listed):
    """What in the map's diagram isn't so."""
    said, layers = [], []
    for line in read("docs/MAP.md"):
        layer = re.match(r"    (\w+) +\S.*?((?:ca_\w+ ?)+)(?:  <-.*| *)$", line)
        if line.startswith("Each layer"):
            break
        if layer:
            heading = layer[1].capitalize()
            layers.append(heading)
            said += [f"in the diagram, but not under {heading}: {it}" for it in layer[2].split() if (heading, it) not in listed]
    if layers != [it for it in reversed(headings) if it in layers] or not layers:
        said.append("the layers of the diagram are no headings, or stand in another order")
    return said


def main():
    heading, listed, libraries = "", [], {}
    for line in read("crates.txt"):
        if line.startswith("# ") and not line.endswith("."):
            heading = line[2:]
        elif ":" in line and not line.startswith("#"):
            name, _, below = line.partition(":")
            listed.append((heading, name))
            libraries[name] = below.split()
    heading, shown, said = "", [], []
    for line in read("docs/MAP.md"):
        row = re.match(r"\| `(ca_\w+|cellaware)` \| .* \| (.*) \|$", line)
        if line.startswith("### "):
            heading = line[4:]
        elif line.startswith("## "):
            heading = ""
        elif row and heading:
            shown.append((heading, row[1]))
            said += [f"{row[1]} doesn't stand on {it}" for it in re.findall(r"`(\w+)`", row[2]) if it not in libraries.get(row[1], [])]
    said += [f"not in the map, or at another place: {it[1]} ({it[0]})" for it in listed if it not in shown]
    said += [f"not in crates.txt, or at another place: {it[1]} ({it[0]})" for it in shown if it not in listed]
    if not said and listed != shown:
        said.append("the crates stand in another order")
    headings = list(dict.fromkeys(it[0] for it in listed))
    said += diagram(headings, listed)
    folders = sorted(it for it in os.listdir(f"{TOP}/crates") if os.path.isdir(f"{TOP}/crates/{it}/src"))
    said += [f"no line in crates.txt: {it}" for it in folders if it not in libraries]
    print("\n".join(said) if said else f"{len(listed)} crates agree")
    return 1 if said else 0


if __name__ == "__main__":
    sys.exit(main())
