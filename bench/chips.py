#!/usr/bin/env python3
"""Measures test generation: seconds of user time, memory and verdicts, a CSV record for each run.

usage: bench/chips.py PROGRAM [examples|mapped|wide|aes|made|rows|large].. [--budgets N,N..] [--most N]

examples  the chips of examples/
mapped    bench/rtl mapped to OSU's library for 0.35 micrometres, where Debian's yosys and qflow-tech-osu035 are installed
wide      a multiplier of 16 bits, and the same with a sum and scan chains, of the library's full adders; not among the sets that run by themselves
aes       an AES core of bench/rtl, mapped in the same way: some 12,000 instances; nor is it
made      `make N`, for N from 64 to --most (4,096 if it isn't said)
rows      `check` of rows of inverters up to 32,768, and one more, which is refused
large     `check` of a gate netlist of nearly 64 MiB, which has too many instances, and of one with a million `assign`s
"""
import csv
import os
import resource
import subprocess
import sys
import tempfile

HERE = os.path.dirname(os.path.abspath(__file__))
TOP = os.path.dirname(HERE)
OSU = "/usr/share/qflow/tech/osu035"
# what is made of the library's full adders
ADDERS = ("alumacc; maccmap; opt_clean; read_liberty -lib {lib}; techmap -map {here}/full_adders.v; techmap; opt -fast;"
          "{flops} abc -liberty {lib}; splitnets; opt_clean -purge; clean")
LIB = f"{OSU}/osu035_stdcells.lib"
# each design, and whether it has flip-flops
DESIGNS = {"mult8": False, "alu8": False, "sec8": False, "sec32": False, "counter": True, "crc16": True, "fsm": True}


def run(words):
    """Answers the status of a command, what it printed or told, and its user seconds."""
    before = resource.getrusage(resource.RUSAGE_CHILDREN).ru_utime
    done = subprocess.run(words, capture_output=True, text=True)
    used = resource.getrusage(resource.RUSAGE_CHILDREN).ru_utime - before
    return done.returncode, done.stdout.strip() or done.stderr.strip(), used


def memory(words):
    """The greatest size of a command in MiB, which is looked at while it runs."""
    most = 0
    with subprocess.Popen(words, stdout=subprocess.DEVNULL, stderr=subprocess.DEVNULL) as process:
        while process.poll() is None:
            try:
                with open(f"/proc/{process.pid}/status") as status:
                    lines = dict(it.split(":", 1) for it in status if it.startswith(("Name", "VmHWM")))
            except OSError:
                break
            # (before its start the process still has the size of this one)
            if "python" not in lines.get("Name", "python") and "VmHWM" in lines:
                most = max(most, int(lines["VmHWM"].split()[0]))
    return most / 1024


def counts(line):
    """The numbers of a line of counts, by name."""
    return dict(it.strip().rsplit(" ", 1) for it in line.split(","))


def record(writer, name, budget, words):
    status, line, used = run(words)
    if status != 0:
        writer.writerow([name, budget, "", "", "", "", "", "", "", "", line])
        return
    found = counts(line)
    fields = ["defects", "credited", "unexposable", "untestable", "aborted", "pairs"]
    writer.writerow([name, budget, *[found[it] for it in fields], f"{used:.2f}", f"{memory(words):.1f}", ""])
    sys.stdout.flush()


def check(writer, program, name, netlist):
    """What `check` says of a netlist of inverters, the seconds and the size."""
    words = [program, "check", f"{TOP}/examples/cells.sp", netlist, "-"]
    status, line, used = run(words)
    said = line.splitlines()[0] if line else ""
    writer.writerow([name, "", said, "", "", "", "", "", f"{used:.2f}", f"{memory(words):.1f}", ""])
    sys.stdout.flush()


def write_bits(netlist):
    """Writes constants as bits, which is the form that netlists have here."""
    text = open(netlist).read().replace("1'h0", "1'b0").replace("1'h1", "1'b1")
    open(netlist, "w").write(text)


def library(folder):
    """OSU's library with pin roles."""
    cells = f"{folder}/osu035.sp"
    with open(cells, "w") as out:
        subprocess.run([f"{TOP}/tools/add_pin_roles.py", f"{OSU}/osu035_stdcells.sp", "--models", f"{OSU}/osu035_stdcells.v",
                        "--power", "vdd,vdd2", "--ground", "gnd,gnd2"], stdout=out, stderr=subprocess.DEVNULL, check=True)
    return cells


def netlist_of(folder, name, is_clocked, flags=""):
    """Maps a design, with its flip-flops in two scan chains, and gives its netlist and its scan table."""
    flops = f"dfflibmap -liberty {OSU}/osu035_stdcells.lib;" if is_clocked else ""
    netlist = f"{folder}/{name}.v"
    subprocess.run(["yosys", "-q", "-p", f"read_verilog {HERE}/rtl/{name}.v; synth -flatten {flags} -top {name}; {flops} abc -liberty {OSU}/osu035_stdcells.lib;"
                    f" opt_clean -purge; splitnets; write_verilog -noattr -noexpr -nodec {netlist}"], check=True)
    return with_scan(netlist, is_clocked)


def of_adders(folder, name, is_clocked):
    """The same for a design of the library's full adders."""
    netlist = f"{folder}/{name}_fa.v"
    adders = ADDERS.format(lib=LIB, here=HERE, flops=f" dfflibmap -liberty {LIB};" if is_clocked else "")
    subprocess.run(["yosys", "-q", "-p", f"read_verilog {HERE}/rtl/{name}.v; hierarchy -top {name}; proc; flatten; opt; wreduce; peepopt; opt_clean; {adders};"
                    f" write_verilog -noattr -noexpr -nodec {netlist}"], check=True)
    return with_scan(netlist, is_clocked)


def with_scan(netlist, is_clocked):
    """Puts the flip-flops of a mapped design in two scan chains, and gives the netlist and the scan table."""
    write_bits(netlist)
    if not is_clocked:
        return netlist, "-"
    scanned = subprocess.run([f"{TOP}/tools/insert_scan.py", netlist, "--cell", "DFFPOSX1", "--pins", "D,Q,CLK", "--chains", "2"],
                             capture_output=True, text=True, check=True).stdout
    open(netlist, "w").write(scanned)
    return netlist, f"{TOP}/examples/scan.csv"


def mapped(folder):
    """Maps the designs, and gives for each its netlist and its scan table."""
    cells = library(folder)
    for name, is_clocked in DESIGNS.items():
        yield name, cells, *netlist_of(folder, name, is_clocked)
    yield "mult8_fa", cells, *of_adders(folder, "mult8", False)


def row_of_inverters(folder, count):
    """The netlist of `count` inverters, each after the one before."""
    path = f"{folder}/row{count}.v"
    with open(path, "w") as out:
        out.write("module row (a, z);\n  input a;\n  output z;\n")
        for k in range(count - 1):
            out.write(f"  wire n{k};\n")
        for k in range(count):
            before = "a" if k == 0 else f"n{k - 1}"
            after = "z" if k == count - 1 else f"n{k}"
            out.write(f"  INV u{k} (.A({before}), .ZN({after}));\n")
        out.write("endmodule\n")
    return path


def large_netlist(folder):
    """A netlist of nearly 64 MiB: more instances than a chip may have, which is found once it is read."""
    path = f"{folder}/large.v"
    with open(path, "w") as out:
        out.write("module large (a, z);\n  input [65535:0] a;\n  output z;\n")
        size, k = 0, 0
        while size < 67_000_000:
            size += out.write(f"  INV u{k} (.A(a[{k % 65536}]), .ZN(n{k % 100000}));\n") if k else out.write("  wire " + ", ".join(f"n{it}" for it in range(100000)) + ";\n")
            k += 1
        out.write("endmodule\n")
    return path


def joined_netlist(folder):
    """Two vectors of 65,536 bits, joined by `assign` a million times, and an inverter."""
    path = f"{folder}/joined.v"
    with open(path, "w") as out:
        out.write("module joined (a, z);\n  input [65535:0] a;\n  output z;\n  wire [65535:0] w;\n")
        out.write("  assign w = a;\n" * 1_000_000)
        out.write("  INV u (.A(w[0]), .ZN(z));\nendmodule\n")
    return path


def main(words):
    program = os.path.abspath(words[0])
    budgets, most, sets, rest = [64, 1024], 4096, [], list(words[1:])
    while rest:
        word = rest.pop(0)
        if word == "--budgets":
            budgets = [int(it) for it in rest.pop(0).split(",")]
        elif word == "--most":
            most = int(rest.pop(0))
        else:
            sets.append(word)
    sets = sets or ["examples", "mapped", "made", "rows", "large"]
    writer = csv.writer(sys.stdout)
    writer.writerow("chip budget defects credited unexposable untestable aborted pairs seconds MiB why".split())
    with tempfile.TemporaryDirectory() as folder:
        out = [f"{folder}/p.stil", f"{folder}/r.csv"]
        if "examples" in sets:
            for name, cells, table in [("c17", "cells.sp", "-"), ("add4", "fa28.sp", "-"), ("acc", "fa28.sp", "scan.csv")]:
                at = f"{TOP}/examples"
                scan = table if table == "-" else f"{at}/{table}"
                for budget in budgets:
                    record(writer, name, budget, [program, "atpg", f"{at}/{cells}", f"{at}/{name}.v", scan, *out, str(budget)])
        if "mapped" in sets and os.path.isdir(OSU):
            for name, cells, netlist, table in mapped(folder):
                for budget in budgets:
                    record(writer, name, budget, [program, "atpg", cells, netlist, table, *out, str(budget)])
        if "wide" in sets and os.path.isdir(OSU):
            for name, is_clocked in [("mult16", False), ("mac16", True)]:
                netlist, table = of_adders(folder, name, is_clocked)
                for budget in budgets:
                    record(writer, f"{name}_fa", budget, [program, "atpg", library(folder), netlist, table, *out, str(budget)])
        if "aes" in sets and os.path.isdir(OSU):
            # (yosys would move flip-flops into the tables of the S-boxes without -nordff)
            mapped_netlist, table = netlist_of(folder, "aes", True, "-nordff")
            netlist = f"{folder}/aes_plain.v"
            with open(netlist, "w") as plain:
                subprocess.run([f"{TOP}/tools/plain_netlist.py", mapped_netlist], stdout=plain, check=True)
            for budget in budgets:
                record(writer, "aes", budget, [program, "atpg", library(folder), netlist, table, *out, str(budget)])
        if "made" in sets:
            number = 64
            while number <= most:
                record(writer, f"make {number}", 64, [program, "make", str(number)])
                number *= 4 if number < 1024 else 2
        if "rows" in sets:
            for count in [1024, 8192, 32768, 32769]:
                check(writer, program, f"a row of {count:,} inverters", row_of_inverters(folder, count))
        if "large" in sets:
            check(writer, program, "64 MiB of instances", large_netlist(folder))
            check(writer, program, "a million assigns of 65,536 bits", joined_netlist(folder))


if __name__ == "__main__":
    main(sys.argv[1:])
