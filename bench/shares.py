#!/usr/bin/env python3
"""Prints what test generation spends its time on, a CSV record for each chip, by samples of `perf`.

usage: bench/shares.py PROGRAM [mapped|wide|aes|made]..

PROGRAM is one that bench/unproved.py built with frame pointers (RUSTFLAGS="-C force-frame-pointers=yes"). The records
have the user seconds, the shares in percent of searches, of the attempts among them and of crediting, and the
milliseconds of crediting for each pair. It needs Debian's linux-perf, and for the mapped
chips yosys and qflow-tech-osu035. Other work on the machine makes the times larger, and not the shares.
"""
import csv
import os
import re
import subprocess
import sys
import tempfile

from chips import DESIGNS, TOP, counts, library, netlist_of, of_adders, run

# what is looked for among the names of functions
PARTS = {"searches": r"Trail>::find$", "attempts": r"Attempts>::try_ways$", "credits": r"Credits::credit_in$"}


def shares(folder, words):
    """The counts that a command prints, its user seconds, and the share of each part."""
    data = f"{folder}/perf.data"
    status, line, used = run(["perf", "record", "-q", "-o", data, "-F", "300", "-g", *words])
    if status != 0:
        raise SystemExit(line)
    told = subprocess.run(["perf", "report", "-i", data, "--children", "-g", "none", "--stdio", "--percent-limit", "0"],
                          capture_output=True, text=True, check=True).stdout
    found = dict.fromkeys(PARTS, 0.0)
    for it in told.splitlines():
        fields = re.match(r"\s+([0-9.]+)%\s+[0-9.]+%\s+\S+\s+\S+\s+\[\.\] (.*?)\s*$", it)
        if fields:
            for part, name in PARTS.items():
                if re.search(name, fields.group(2)):
                    found[part] = max(found[part], float(fields.group(1)))
    return counts(line.splitlines()[-1]), used, found


def chips(folder, sets):
    """The name of each chip, and the words that follow the program's name."""
    cells = library(folder)
    out = [f"{folder}/p.stil", f"{folder}/r.csv", "64"]
    if "mapped" in sets:
        for name, is_clocked in DESIGNS.items():
            yield name, ["atpg", cells, *netlist_of(folder, name, is_clocked), *out]
        yield "mult8_fa", ["atpg", cells, *of_adders(folder, "mult8", False), *out]
    if "wide" in sets:
        for name, is_clocked in [("mult16", False), ("mac16", True)]:
            yield f"{name}_fa", ["atpg", cells, *of_adders(folder, name, is_clocked), *out]
    if "aes" in sets:
        netlist, table = netlist_of(folder, "aes", True, "-nordff")
        plain = f"{folder}/aes_plain.v"
        with open(plain, "w") as text:
            subprocess.run([f"{TOP}/tools/plain_netlist.py", netlist], stdout=text, check=True)
        yield "aes", ["atpg", cells, plain, table, *out]
    if "made" in sets:
        yield "make 4096", ["make", "4096"]


def main(words):
    program = os.path.abspath(words[0])
    sets = words[1:] or ["mapped", "wide", "aes", "made"]
    writer = csv.writer(sys.stdout)
    writer.writerow("chip seconds pairs searches attempts credits ms_a_pair".split())
    with tempfile.TemporaryDirectory() as folder:
        for name, rest in chips(folder, sets):
            found, used, parts = shares(folder, [program, *rest])
            pairs = int(found["pairs"])
            each = 10 * parts["credits"] * used / pairs if pairs else 0
            writer.writerow([name, f"{used:.2f}", pairs, *(f"{parts[it]:.0f}" for it in PARTS), f"{each:.2f}"])
            sys.stdout.flush()


if __name__ == "__main__":
    main(sys.argv[1:])
