#!/usr/bin/env python3
"""Runs `rt ci` at the top of this repository and prints a table of what each crate takes of it, in processor seconds: its proof, the proof
of its tests, its must-fail edits (with the proof that they begin with), its lines of code, definitions and proofs, and the seconds of its
own proof for a thousand of them. It looks at the processes of the prover once a second (Linux), so a short one may be missed by a second.

usage: bench/gate_times.py [LOG] [--anew]

What `rt ci` prints goes to LOG, or to gate.log in a folder for scratch files. With --anew nothing that was proved before counts.
"""
import collections
import os
import subprocess
import sys
import tempfile
import time

TICKS = os.sysconf("SC_CLK_TCK")
KINDS = ("proof", "tests", "edits")


def prover_processes(top):
    """(process, its start), the crate, what it is for, and its processor seconds, for each process of the prover below `top`."""
    for process in filter(str.isdigit, os.listdir("/proc")):
        try:
            with open(f"/proc/{process}/cmdline") as file:
                words = file.read().split("\0")
            if not words[0].endswith("/rattle") or words[1] not in ("build", "check"):
                continue
            if top not in " ".join(words) and not os.readlink(f"/proc/{process}/cwd").startswith(top):
                continue
            with open(f"/proc/{process}/stat") as file:
                fields = file.read().rsplit(")", 1)[1].split()
            crate = words[words.index("--crate-name") + 1]
            kind = "edits" if words[1] == "check" else "tests" if "--test" in words else "proof"
            yield (process, fields[19]), crate, kind, sum(map(int, fields[11:15])) / TICKS
        except (OSError, ValueError, IndexError):
            continue


def lines_of(crate):
    """The lines of a crate's code, definitions and proofs."""
    count = 0
    for part in ("src", "specs", "proofs"):
        for at, _, names in os.walk(os.path.join(crate, part)):
            for name in names:
                with open(os.path.join(at, name), "rb") as file:
                    count += file.read().count(b"\n")
    return count


def row(*cells):
    print("| " + " | ".join(str(cell) for cell in cells) + " |")


def main():
    top = os.path.dirname(os.path.dirname(os.path.abspath(__file__)))
    logs = [word for word in sys.argv[1:] if word != "--anew"]
    log = logs[0] if logs else os.path.join(tempfile.mkdtemp(), "gate.log")
    seen = {}
    began = time.time()
    with open(log, "w") as output:
        words = ["rt", "ci"] + (["--anew"] if "--anew" in sys.argv[1:] else [])
        gate = subprocess.Popen(words, cwd=top, stdout=output, stderr=subprocess.STDOUT)
        while gate.poll() is None:
            for process, crate, kind, seconds in prover_processes(top):
                seen[process] = (crate, kind, seconds)
            time.sleep(1)
    took = time.time() - began
    sums = collections.defaultdict(float)
    for crate, kind, seconds in seen.values():
        sums[crate, kind] += seconds
    row("crate", *KINDS, "lines", "proof for 1,000 lines")
    row(*["---"] * (len(KINDS) + 3))
    shown = lambda seconds: round(seconds) if seconds else "-"
    for crate in sorted({crate for crate, _ in sums}):
        lines = lines_of(os.path.join(top, "crates", crate))
        each = round(1000 * (sums[crate, "proof"] + sums[crate, "tests"]) / lines) if lines else "-"
        row(f"`{crate}`", *(shown(sums[crate, kind]) for kind in KINDS), f"{lines:,}", each)
    row("all", *(f"{round(sum(sums[it] for it in sums if it[1] == kind)):,}" for kind in KINDS), "", "")
    print()
    print(f"{round(sum(sums.values())):,} processor seconds, {took / 60:.0f} minutes on {os.cpu_count()} processors")
    with open(log) as output:
        print(output.read().strip().rsplit("\n", 1)[-1])
    return gate.returncode


if __name__ == "__main__":
    sys.exit(main())
