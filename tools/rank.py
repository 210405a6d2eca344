#!/usr/bin/env python3
"""The candidates of a diagnosis, those that explain most first, instance by instance.

    tools/rank.py CANDIDATES [MOST]

CANDIDATES is what `diagnose` writes: a CSV text with the columns instance, cell, defect and explained. A line
is printed for each instance: the most records that one of its defects explains, its name, its cell, and its
candidates with what each of them explains. Instances that explain more come first, and else they stay in the
order of the file; of each instance so do its defects. At most MOST lines are printed, all where it isn't
given. Not proved: it orders what the program has found, and leaves out nothing.
"""
import csv
import sys

HEADER = ["instance", "cell", "defect", "explained"]


def instances_of(records):
    """For each instance, in the order of the file, its cell and its candidates."""
    found = {}
    for instance, cell, defect, explained in records:
        found.setdefault(instance, (cell, []))[1].append((int(explained), defect))
    return found


def line_of(instance, cell, defects):
    ranked = sorted(defects, key=lambda one: -one[0])
    listed = " ".join(f"{defect}:{explained}" for explained, defect in ranked)
    return f"{ranked[0][0]} {instance} {cell} {listed}"


def main(words):
    if len(words) not in (1, 2) or (len(words) == 2 and not words[1].isdigit()):
        sys.exit("usage: tools/rank.py CANDIDATES [MOST]")
    with open(words[0], newline="", encoding="latin-1") as file:
        rows = list(csv.reader(file))
    if not rows or rows[0] != HEADER:
        sys.exit(f"{words[0]}: the first record isn't {','.join(HEADER)}")
    found = instances_of(rows[1:])
    ranked = sorted(found.items(), key=lambda one: -max(explained for explained, _ in one[1][1]))
    most = int(words[1]) if len(words) == 2 else len(ranked)
    for instance, (cell, defects) in ranked[:most]:
        print(line_of(instance, cell, defects))


main(sys.argv[1:])
