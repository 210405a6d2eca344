#!/usr/bin/env python3
"""Measures `bridges` on every instance of the chips of bench/chips.py, one run an instance.

usage: bench/bridges.py PROGRAM [examples|mapped].. [--budget N] [--strengths TABLE] [--chip NAME]

A CSV record a chip: its instances, its bridges, how many of them have which verdict, pairs of all runs together, seconds
of user time of all runs, and of the longest. With --strengths cells are read under that table. Python 3.9 or later, no
packages.
"""
import csv
import os
import re
import sys
import tempfile

from chips import OSU, TOP, counts, mapped, run

VERDICTS = ["bridges", "credited", "unexposable", "untestable", "aborted", "port", "wide", "pairs"]


def library_of(cells):
    """The names of the subcircuits of a library."""
    with open(cells) as text:
        return {line.split()[1].upper() for line in text if line[:8].upper() == ".SUBCKT "}


def instances_of(netlist, names):
    """The names of the instances of library cells in a netlist, in order."""
    with open(netlist) as text:
        found = re.findall(r"^\s*(\\?[\w$]+)\s+(\\\S+\s|[\w$]+)\s*\(", text.read(), re.M)
    return [name.strip().lstrip("\\") for cell, name in found if cell.upper() in names]


def record(writer, program, strengths, name, budget, files, folder):
    stil, report = os.path.join(folder, "p.stil"), os.path.join(folder, "r.csv")
    instances, sums, times, refused = instances_of(files[1], library_of(files[0])), dict.fromkeys(VERDICTS, 0), [], ""
    for instance in instances:
        status, line, used = run([program, *strengths, "bridges", *files, instance, stil, report, str(budget)])
        if status != 0:
            refused = f"{instance}: {line}"
            continue
        times.append(used)
        for word, count in counts(line).items():
            sums[word] += int(count)
    writer.writerow([name, budget, len(instances), *[sums[it] for it in VERDICTS], f"{sum(times):.2f}", f"{max(times, default=0):.2f}", refused])
    sys.stdout.flush()


def main(words):
    program, budget, strengths, sets, chosen, rest = os.path.abspath(words[0]), 64, [], [], None, list(words[1:])
    while rest:
        word = rest.pop(0)
        if word == "--budget":
            budget = int(rest.pop(0))
        elif word == "--strengths":
            strengths = ["strengths", rest.pop(0)]
        elif word == "--chip":
            chosen = rest.pop(0)
        else:
            sets.append(word)
    sets = sets or ["examples", "mapped"]
    writer = csv.writer(sys.stdout, lineterminator="\n")
    writer.writerow(["chip", "budget", "instances", *VERDICTS, "user seconds", "longest", "refused"])
    with tempfile.TemporaryDirectory() as folder:
        chips = []
        if "examples" in sets:
            at = f"{TOP}/examples"
            chips += [("c17", f"{at}/cells.sp", f"{at}/c17.v", "-"), ("add4", f"{at}/fa28.sp", f"{at}/add4.v", "-"),
                      ("acc", f"{at}/fa28.sp", f"{at}/acc.v", f"{at}/scan.csv")]
        if "mapped" in sets and os.path.isdir(OSU):
            chips += mapped(folder)
        for name, *files in chips:
            if chosen in (None, name):
                record(writer, program, strengths, name, budget, files, folder)


if __name__ == "__main__":
    main(sys.argv[1:])
