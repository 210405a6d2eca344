#!/usr/bin/env python3
"""Measures what docs/FIGURES.md shows, and writes each table into that page.

usage: bench/figures.py PROGRAM [matrices|commands|chips|made|certificates|diagnosis|bridges|large|hostile|texts|limits].. [--fuzz COUNT]

PROGRAM is the built program. A table of the page is between a line `<!-- NAME -->` and the next blank line; the names are those above,
all of them if none is said. The line `<!-- build -->` is followed by the commit and the size of the program. Run it on a quiet machine, with
Debian's `yosys` and `qflow-tech-osu035` installed for the real library and the mapped chips.
"""
import csv
import os
import re
import subprocess
import sys
import tempfile
import time

from chips import OSU, library, netlist_of

HERE = os.path.dirname(os.path.abspath(__file__))
TOP = os.path.dirname(HERE)
PAGE = f"{TOP}/docs/FIGURES.md"


def printed(words, **how):
    return subprocess.run(words, stdout=subprocess.PIPE, text=True, check=False, **how).stdout


def records(words):
    return list(csv.reader(printed(words).splitlines()))


def table(rows):
    """The Markdown table of rows, of which the first is the header."""
    header, *rest = rows
    lines = ["| " + " | ".join(header) + " |", "|" + "---|" * len(header)]
    return lines + ["| " + " | ".join(row) + " |" for row in rest]


def matrices(program):
    # (cells that are refused have no numbers)
    found = [it for it in records([f"{HERE}/matrix.sh", program])[1:] if len(it) > 8 and it[5]]
    rows = [["cell", "transistors", "inputs", "defects", "records", "seconds"]]
    whole = [it for it in found if it[0] == "osu035"]
    for it in found:
        # (of the real library only the slowest cells have a row of their own)
        if it[0] != "osu035" or float(it[8] or 0) > 0.05:
            rows.append([f"`{it[1]}`", it[2], it[3], f"{int(it[5]):,}", f"{int(it[7]):,}", f"{float(it[8]):.3f}" if it[8] else it[9]])
    if whole:
        rows.append([f"all {len(whole)} cells of the real library together", "", "", f"{sum(int(it[5]) for it in whole):,}",
                     f"{sum(int(it[7]) for it in whole):,}", f"{sum(float(it[8]) for it in whole):.2f}"])
    return table(rows)


def commands(program):
    rows = [["what", "milliseconds of one run"]]
    for what, runs, seconds in records([f"{HERE}/commands.sh", program])[1:]:
        rows.append([what, f"{1000 * float(seconds) / int(runs):.1f}" if runs else seconds])
    return table(rows)


def generation(program, sets, more=()):
    rows = [["chip", "budget", "defects", "credited", "unexposable", "untestable", "aborted", "pairs", "user seconds", "MiB"]]
    for it in records([f"{HERE}/chips.py", program, *sets, *more])[1:]:
        rows.append([f"`{it[0]}`", *[f"{int(field):,}" if field.isdigit() else field for field in it[1:8]], it[8], it[9]])
    return table(rows)


def chips(program):
    return generation(program, ["examples", "mapped"]) + generation(program, ["wide", "aes"], ["--budgets", "64,128"])[2:]


def made(program):
    return generation(program, ["made"])


def certificates(program):
    rows = [["chip", "untestable by `atpg`", "claimed so", "aborted by `atpg`", "claimed so", "answer", "`atpg`, seconds", "`certify`", "`verify`",
             "bytes of CERT", "`certify`, MiB", "`verify`, MiB"]]
    for it in records([f"{HERE}/certify.py", program])[1:]:
        rows.append([f"`{it[0]}`", it[5], it[7], it[6], it[8], it[9], *it[10:13], f"{int(it[13]):,}", *it[14:16]])
    return table(rows)


def diagnosis(program):
    rows = [["chip", "injected defect", "records", "candidates", "of which explain more", "user seconds"]]
    with tempfile.TemporaryDirectory() as folder:
        for name, cells, netlist, _ in chips_of(folder):
            found = records([f"{HERE}/diagnose.py", program, cells, netlist, "--budget", "1024", "--defects", "4"])[1:]
            rows += [[f"`{name}`", f"`{' '.join(it[:2])}`", *it[2:6]] for it in found]
    return table(rows)


def bridges(program):
    rows = [["chip", "budget", "instances", "bridges", "credited", "unexposable", "untestable", "aborted", "port", "wide", "pairs", "user seconds", "longest"]]
    for it in records([f"{HERE}/bridges.py", program])[1:]:
        rows.append([f"`{it[0]}`", *[f"{int(field):,}" for field in it[1:11]], *it[11:13]])
    return table(rows)


def chips_of(folder):
    """The chips without scan cells for which a log is made."""
    at = f"{TOP}/examples"
    yield "c17", f"{at}/cells.sp", f"{at}/c17.v", "-"
    if os.path.isdir(OSU):
        yield "mult8", library(folder), *netlist_of(folder, "mult8", False)


def large(program):
    rows = [["text", "what `check` says", "user seconds", "MiB"]]
    for it in records([f"{HERE}/chips.py", program, "rows", "large"])[1:]:
        rows.append([it[0], it[2], it[8], it[9]])
    return table(rows)


def timed(words, **how):
    began = time.time()
    last = printed(words, stderr=subprocess.STDOUT, **how).strip().splitlines()[-1]
    return last, f"{time.time() - began:.0f}"


# What `fuzz_texts.py` changes, by its kinds.
KINDS = {"sp": "cells, with resistors too", "v": "netlists", "csv": "tables of scan cells and of strengths", "order": "events of a run",
         "stil": "patterns", "log": "logs of failing outputs", "cert": "certificates"}


def hostile(program):
    tools = f"{TOP}/tools"
    rows = [["what", "command", "result", "seconds"]]
    began, result = time.time(), ""
    with subprocess.Popen([f"{tools}/refuse_memory.sh", program], stdout=subprocess.PIPE, text=True) as refuse:
        for line in refuse.stdout:
            if line.startswith("  "):
                # (the words of the command, after its result)
                shown = f"`{line.strip()}`"
                rows.append(["one request for memory refused, each in a run of its own", shown, result.strip(), f"{time.time() - began:.0f}"])
                began = time.time()
            result = line
    rows.append(["real faults of files and outputs", "`real_faults.sh PROGRAM`", *timed([f"{tools}/real_faults.sh", program])])
    return table(rows)


def texts(program, count):
    tools = f"{TOP}/tools"
    rows = [["what", "command", "result", "seconds"]]
    for kind, what in KINDS.items():
        began = time.time()
        runs = [subprocess.Popen([f"{tools}/fuzz_texts.py", program, str(count // 4), str(seed), kind], stdout=subprocess.PIPE, text=True)
                for seed in range(1, 5)]
        last = [run.communicate()[0].strip().splitlines()[-1] for run in runs]
        tried, lacking = (sum(int(it.split()[place]) for it in last) for place in (0, 2))
        rows.append([f"{what}, changed at random", f"`fuzz_texts.py PROGRAM {count // 4} SEED {kind}`, seeds 1 to 4",
                     f"{tried:,} texts, {lacking} without a named answer", f"{time.time() - began:.0f}"])
    rows.append(["certificates with one false claim, of drawn chips", f"`false_claims.py PROGRAM {count // 2} --seed 2 --chips 100`",
                 *timed([f"{HERE}/false_claims.py", program, str(count // 2), "--seed", "2", "--chips", "100"])])
    return table(rows)


def limits(program):
    rows = [["text", "what is said", "user seconds"]]
    rows += [[text, f"`{said}`", used] for text, said, used in records([f"{HERE}/limits.py", program])[1:]]
    return table(rows)


def main(words):
    program, rest, count, names = os.path.abspath(words[0]), list(words[1:]), 5000, []
    while rest:
        word = rest.pop(0)
        if word == "--fuzz":
            count = int(rest.pop(0))
        else:
            names.append(word)
    tables = {"matrices": matrices, "commands": commands, "chips": chips, "made": made, "certificates": certificates,
              "diagnosis": diagnosis, "bridges": bridges, "large": large, "hostile": hostile, "texts": lambda it: texts(it, count), "limits": limits}
    commit = printed(["git", "-C", TOP, "log", "-1", "--format=%h", "--", "crates"]).strip()
    found = {"build": [f"The program is that of commit {commit}, {os.path.getsize(program):,} bytes."]}
    found.update({name: tables[name](program) for name in names or tables})
    with open(PAGE) as page:
        text = page.read()
    for name, lines in found.items():
        text, done = re.subn(rf"(<!-- {name} -->\n)(?:.+\n)*", lambda it: it.group(1) + "\n".join(lines) + "\n", text)
        if done != 1:
            print(f"the page has {done} places for {name}:", *lines, sep="\n")
    with open(PAGE, "w") as page:
        page.write(text)


if __name__ == "__main__":
    main(sys.argv[1:])
