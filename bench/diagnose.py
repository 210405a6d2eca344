#!/usr/bin/env python3
"""Injects defects into a chip, makes the log of each by `simulate`, and looks for it among the candidates.

usage: bench/diagnose.py PROGRAM CELLS NETLIST [--defects N] [--budget N] [--seed N]

The chip has no scan cells. `atpg` makes its patterns and names its defects; N of these (1 if it isn't said) are taken at
random. Under each pair `simulate` says what each output ends with, without the defect and with it: a place at which the
faulty chip ends with the opposite is logged, and one at which it may end with either is logged at random, as a tester may see
either. Then `diagnose` has to list the defect. A CSV record is printed for each: the defect, the records of its log, the
candidates, how many of them explain more records than it does, and the seconds of user time.
The exit status is 1 where a defect isn't listed. Python 3.9 or later, no packages.
"""
import argparse
import csv
import os
import random
import re
import resource
import subprocess
import sys
import tempfile

PAIR = re.compile(r'"pair \d+": V \{ "_pi_"=([01]+);.*?\}\s*V \{ "_pi_"=([01]+);', re.S)


def run(words):
    """What a command prints, and its user seconds; it has to end well."""
    before = resource.getrusage(resource.RUSAGE_CHILDREN).ru_utime
    done = subprocess.run(words, capture_output=True, text=True)
    if done.returncode != 0:
        sys.exit(f"{' '.join(words)}: {done.stderr.strip()}")
    return done.stdout, resource.getrusage(resource.RUSAGE_CHILDREN).ru_utime - before


def records(path):
    with open(path, newline="", encoding="latin-1") as file:
        return list(csv.reader(file))[1:]


def fails(good, faulty, source):
    """Whether the place may be logged: a value is expected there, and the chip ends with another."""
    if good == "X":
        return False
    return source.random() < 0.5 if faulty == "X" else faulty != good


def log_of(words, instance, defect, pairs, source):
    """The records of a log: a pair and an output."""
    found = []
    for number, (first, last) in enumerate(pairs):
        printed, _ = run([*words, instance, defect, first, last])
        for line in printed.splitlines():
            name, good, faulty = line.rsplit(" ", 2)
            if fails(good, faulty, source):
                found.append((number, name))
    return found


def main():
    parser = argparse.ArgumentParser(usage=__doc__)
    parser.add_argument("program")
    parser.add_argument("cells")
    parser.add_argument("netlist")
    parser.add_argument("--defects", type=int, default=1)
    parser.add_argument("--budget", type=int, default=64)
    parser.add_argument("--seed", type=int, default=1)
    given = parser.parse_args()
    source = random.Random(given.seed)
    files = [given.cells, given.netlist, "-"]
    writer = csv.writer(sys.stdout, lineterminator="\n")
    writer.writerow(["instance", "defect", "records", "candidates", "explain more", "seconds"])
    missed = 0
    with tempfile.TemporaryDirectory() as folder:
        stil, report, log, out = (os.path.join(folder, name) for name in ("p.stil", "r.csv", "l.csv", "c.csv"))
        run([given.program, "atpg", *files, stil, report, str(given.budget)])
        with open(stil, encoding="utf-8") as file:
            pairs = PAIR.findall(file.read())
        defects = [(record[0], record[2]) for record in records(report)]
        for _ in range(given.defects):
            instance, defect = source.choice(defects)
            found = log_of([given.program, "simulate", *files], instance, defect, pairs, source)
            with open(log, "w", newline="", encoding="latin-1") as file:
                csv.writer(file, lineterminator="\n").writerows([("pair", "output"), *found])
            _, used = run([given.program, "diagnose", *files, stil, log, out])
            listed = {(record[0], record[2]): int(record[3]) for record in records(out)}
            here = listed.get((instance, defect))
            missed += here is None
            more = "" if here is None else sum(one > here for one in listed.values())
            writer.writerow([instance, defect, len(found), len(listed), more, f"{used:.2f}"])
    sys.exit(1 if missed else 0)


if __name__ == "__main__":
    main()
