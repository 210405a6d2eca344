#!/usr/bin/env python3
"""Puts scan cells in place of the flip-flops of a mapped gate netlist, in chains.

usage: insert_scan.py NETLIST.v --cell NAME --pins D,Q,CK [--chains N] > SCANNED.v

NETLIST.v is one module as `yosys` writes it after mapping (docs/REAL_CHIPS.md). Each instance of the flip-flop NAME, whose pins for
data, output and clock are given in this order, becomes an instance of the scan cell SFF of examples/scan.csv with the same name, data,
output and clock. The module gets the ports scan_enable and scan_hold, and for each chain scan_in<n> and scan_out<n>. The chains follow
the order of the instances and are of nearly one length. All flip-flops must have one clock, which is an input port of the module.
Python 3.9 or later, no packages.
"""
import argparse
import re
import sys


def ended(net):
    """A net as a pin takes it: an escaped name ends at a blank."""
    return f"{net} " if "\\" in net else net


def main():
    parser = argparse.ArgumentParser(usage=__doc__)
    parser.add_argument("netlist")
    parser.add_argument("--cell", required=True)
    parser.add_argument("--pins", required=True)
    parser.add_argument("--chains", type=int, default=1)
    asked = parser.parse_args()
    data, output, clock = asked.pins.split(",")
    with open(asked.netlist, encoding="utf-8") as file:
        text = file.read()
    instance = re.compile(rf"^[ \t]*{re.escape(asked.cell)}\s+(\\\S+\s|[\w$]+)\s*\((.*?)\);[ \t]*\n", re.M | re.S)
    found = []
    for name, body in instance.findall(text):
        pins = dict(re.findall(r"\.([\w$]+)\s*\(\s*([^()]*?)\s*\)", body))
        found.append((name, ended(pins[data]), ended(pins.get(output, "")), ended(pins[clock])))
    if not found:
        sys.exit(f"{asked.netlist}: no instance of {asked.cell}")
    if len({clock for _, _, _, clock in found}) != 1:
        sys.exit(f"{asked.netlist}: the flip-flops have more than one clock")
    text = instance.sub("", text)
    count = max(1, min(asked.chains, len(found)))
    lines, ports = [], ["scan_enable", "scan_hold"]
    lines += ["  input scan_enable;", "  input scan_hold;"]
    for chain in range(count):
        ports += [f"scan_in{chain}", f"scan_out{chain}"]
        lines += [f"  input scan_in{chain};", f"  output scan_out{chain};"]
    for chain in range(count):
        cells = found[len(found) * chain // count : len(found) * (chain + 1) // count]
        for place, (name, d, q, ck) in enumerate(cells):
            si = f"scan_in{chain}" if place == 0 else f"scan_path{chain}_{place - 1}"
            so = f"scan_out{chain}" if place == len(cells) - 1 else f"scan_path{chain}_{place}"
            if so.startswith("scan_path"):
                lines.append(f"  wire {so};")
            lines.append(f"  SFF {name}(.D({d}), .Q({q}), .QN(), .SI({si}), .SO({so}), .SE(scan_enable), .CK({ck}), .HOLD(scan_hold));")
    text = re.sub(r"(\bmodule\s+(?:\\\S+\s|[\w$]+)\s*\([^)]*)\)", lambda it: f"{it.group(1)}, {', '.join(ports)})", text, count=1)
    end = text.rindex("endmodule")
    sys.stdout.write(text[:end] + "\n".join(lines) + "\n" + text[end:])
    chains = f"{count} chain" + ("s" if count > 1 else "")
    print(f"{len(found)} scan cells in {chains}; the clock is {found[0][3]}", file=sys.stderr)


if __name__ == "__main__":
    main()
