#!/usr/bin/env python3
"""Tries `tools/plain_netlist.py` on the designs of bench/rtl as tools write them: each way has to give the same patterns and report.

usage: bench/netlists.py PROGRAM [--aes]

A design is mapped by yosys to OSU's library and written with and without `splitnets`, with `write_verilog -noattr` alone, so that
constants, vectors, concatenations and part selects stay. Flip-flops become scan cells. Two more ways are made of the first by
text: ports declared in the header, and power pins on instances with power ports. Of each way `check` and `atpg` (with the budget
64) have to say the same, and STIL and REPORT have to be the same bytes. A CSV record is printed for
each: the design, the way, what `check` says of the netlist before and after the tool, and whether all is the same. At last
netlists that can't be turned are tried, which have to be refused by line. --aes does the AES core too, by `check` alone. It needs
Debian's yosys and qflow-tech-osu035. The status is 1 where something differs. Python 3.9 or later, no packages.
"""
import csv
import os
import re
import subprocess
import sys
import tempfile

from chips import DESIGNS, HERE, OSU, TOP, library

LIB = f"{OSU}/osu035_stdcells.lib"
REFUSED = {
    "connections by position": "module m(a, z);\n  input a;\n  output z;\n  INVX1 u (a, z);\nendmodule\n",
    "two modules": "module m(a);\n  input a;\nendmodule\nmodule n(a);\n  input a;\nendmodule\n",
    "an operator": "module m(a, z);\n  input a;\n  output z;\n  assign z = ~a;\nendmodule\n",
    "behaviour": "module m(a, z);\n  input a;\n  output z;\n  reg z;\n  always @(a) z = a;\nendmodule\n",
    "a wide value on a pin": "module m(a, z);\n  input [1:0] a;\n  output z;\n  INVX1 u (.A(a), .Y(z));\nendmodule\n",
}


def said(words):
    """The first line that a command prints or tells."""
    done = subprocess.run(words, capture_output=True, text=True)
    return ((done.stdout.strip() or done.stderr.strip()).splitlines() or [""])[0]


def written(folder, name, split):
    """A design as yosys writes it."""
    path = f"{folder}/{name}.v"
    flops, flags = (f"dfflibmap -liberty {LIB};", "-nordff") if DESIGNS.get(name, True) else ("", "")
    subprocess.run(["yosys", "-q", "-p", f"read_verilog {HERE}/rtl/{name}.v; synth -flatten {flags} -top {name}; {flops} abc -liberty {LIB};"
                    f" opt_clean -purge; {split} write_verilog -noattr {path}"], check=True)
    return path


def plain(path, *words):
    """The netlist that the tool makes of this one."""
    out = f"{path}.plain"
    with open(out, "w") as file:
        subprocess.run([f"{TOP}/tools/plain_netlist.py", path, *words], stdout=file, check=True)
    return out


def scanned(path):
    """The netlist with scan cells in place of flip-flops."""
    out = f"{path}.scan"
    with open(out, "w") as file:
        subprocess.run([f"{TOP}/tools/insert_scan.py", path, "--cell", "DFFPOSX1", "--pins", "D,Q,CLK", "--chains", "2"],
                       stdout=file, stderr=subprocess.DEVNULL, check=True)
    return out


def with_header(path):
    """The same netlist with its ports declared in the header."""
    text = open(path).read()
    ports = re.findall(r"^  (input|output) (\[\d+:\d+\] )?([^;]+);\n", text, re.M)
    kinds = {name.strip(): f"{kind} {bounds}{name.strip()}" for kind, bounds, names in ports for name in names.split(",")}
    text = re.sub(r"^  (?:input|output) [^;]+;\n", "", text, flags=re.M)
    head = re.match(r"(?s).*?(module\s+\S+\s*\()(.*?)\);", text)
    order = [it.strip() for it in head.group(2).split(",")]
    text = text[:head.start(2)] + ",\n  ".join(kinds[it] for it in order) + text[head.end(2):]
    open(f"{path}.header.v", "w").write(text)
    return f"{path}.header.v"


def with_power(path):
    """The same netlist with power pins on each instance, and power ports."""
    text = open(path).read()
    text = re.sub(r"(module\s+\S+\s*\()", r"\1VPWR, VGND, ", text, count=1)
    text = re.sub(r"(module[^;]*;\n)", r"\1  inout VPWR;\n  inout VGND;\n", text, count=1)
    text = re.sub(r"(^  [A-Z]\w+ \S+ \()", r"\1.VDD(VPWR), .VSS(VGND), ", text, flags=re.M)
    open(f"{path}.power.v", "w").write(text)
    return f"{path}.power.v"


def main():
    if len(sys.argv) not in (2, 3):
        sys.exit(__doc__)
    program, others = os.path.abspath(sys.argv[1]), 0
    writer = csv.writer(sys.stdout)
    writer.writerow(["design", "way", "check before the tool", "check after it", "is as wanted"])
    with tempfile.TemporaryDirectory() as folder:
        cells = library(folder)
        for name in [*DESIGNS, *(["aes"] if "--aes" in sys.argv else [])]:
            is_clocked = DESIGNS.get(name, True)
            table = f"{TOP}/examples/scan.csv" if is_clocked else "-"
            finish = (lambda it: scanned(it)) if is_clocked else (lambda it: it)
            first = None
            for split in ("splitnets;", ""):
                raw = written(folder, name, split)
                ways = [("splitnets" if split else "no splitnets", raw, ())]
                if split:
                    ways += [("ports in the header", with_header(plain(raw)), ()),
                             ("power pins", with_power(plain(raw)), ("--power", "VDD,VPWR", "--ground", "VSS,VGND"))]
                for way, path, words in ways:
                    netlist = finish(plain(path, *words))
                    found = [said([program, "check", cells, netlist, table])]
                    if name != "aes":
                        out = [f"{folder}/p.stil", f"{folder}/r.csv"]
                        found.append(said([program, "atpg", cells, netlist, table, *out, "64"]))
                        found += [open(it).read() for it in out]
                    first = first or found
                    is_same = found == first and found[0].startswith("instances")
                    others += not is_same
                    writer.writerow([name, way, said([program, "check", cells, path, table]), found[0], "yes" if is_same else "no"])
                    sys.stdout.flush()
        for what, text in REFUSED.items():
            open(f"{folder}/no.v", "w").write(text)
            line = said([f"{TOP}/tools/plain_netlist.py", f"{folder}/no.v"])
            is_named = re.search(r"line \d+: ", line) is not None
            others += not is_named
            writer.writerow(["", what, "", line.replace(f"{folder}/", ""), "yes" if is_named else "no"])
    sys.exit(1 if others else 0)


if __name__ == "__main__":
    main()
