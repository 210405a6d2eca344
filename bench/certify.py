#!/usr/bin/env python3
"""Measures certificates: what `certify` and `verify` take on the chips of bench/chips.py, beside `atpg`.

usage: bench/certify.py PROGRAM [examples|mapped].. [--budgets N,N..]

A CSV record a run: the verdicts by `atpg`, how many defects the certificate claims to be untestable and aborted, what
`verify` answers, the seconds of user time of the three commands, the bytes of the certificate, and the greatest size of
`certify` and of `verify` in MiB. Python 3.9 or later, no packages.
"""
import csv
import os
import sys
import tempfile

from chips import OSU, TOP, counts, mapped, memory, run


def fields(line):
    found = counts(line)
    return [found[it] for it in ("defects", "credited", "unexposable", "untestable", "aborted")]


def record(writer, program, name, budget, files, folder):
    stil, report, cert = (os.path.join(folder, it) for it in ("p.stil", "r.csv", "c.txt"))
    tests, certify = ([program, command, *files, stil, out, str(budget)] for command, out in (("atpg", report), ("certify", cert)))
    verify = [program, "verify", *files, stil, cert]
    _, atpg_line, atpg_time = run(tests)
    status, line, certify_time = run(certify)
    if status != 0:
        writer.writerow([name, budget, *[""] * 13, line])
        return
    _, said, verify_time = run(verify)
    claimed = fields(line)[3:]
    writer.writerow([name, budget, *fields(atpg_line), *claimed, said, f"{atpg_time:.2f}", f"{certify_time:.2f}", f"{verify_time:.2f}",
                     os.path.getsize(cert), f"{memory(certify):.1f}", f"{memory(verify):.1f}"])
    sys.stdout.flush()


def main(words):
    program, budgets, sets, rest = os.path.abspath(words[0]), [64], [], list(words[1:])
    while rest:
        word = rest.pop(0)
        if word == "--budgets":
            budgets = [int(it) for it in rest.pop(0).split(",")]
        else:
            sets.append(word)
    sets = sets or ["examples", "mapped"]
    writer = csv.writer(sys.stdout, lineterminator="\n")
    writer.writerow("chip budget defects credited unexposable untestable aborted claimed-untestable claimed-aborted answer"
                    " atpg certify verify bytes certify-MiB verify-MiB".split())
    with tempfile.TemporaryDirectory() as folder:
        chips = []
        if "examples" in sets:
            at = f"{TOP}/examples"
            chips += [("c17", f"{at}/cells.sp", f"{at}/c17.v", "-"), ("add4", f"{at}/fa28.sp", f"{at}/add4.v", "-"),
                      ("acc", f"{at}/fa28.sp", f"{at}/acc.v", f"{at}/scan.csv")]
        if "mapped" in sets and os.path.isdir(OSU):
            chips += mapped(folder)
        for name, *files in chips:
            for budget in budgets:
                record(writer, program, name, budget, files, folder)


if __name__ == "__main__":
    main(sys.argv[1:])
