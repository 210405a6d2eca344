#!/usr/bin/env python3
"""Draws small chips with flip-flops, pass gates that keep charge and scan cells, and compares credits with waves.

usage: bench/drawn.py PROGRAM [CHIPS] [SEED]          # 100 chips, seed 1

For each chip `atpg` writes patterns and a report, and `grade` grades the patterns, and up to 150 of them in another order. What
either says of a drawn part of the defects is compared with `simulate`, which knows neither rows, nor last values, nor lanes: a defect is
credited exactly where some pair detects it, with the first pair and the first observed output. It prints how much was
compared, and each difference; the status is 1 where there is one. Python 3.9 or later, no packages.
"""
import os
import random
import re
import subprocess
import sys
import tempfile

HERE = os.path.dirname(os.path.abspath(__file__))
# the name, the input pins and the output pins; TG keeps its output's charge where EN is 0
CELLS = [("INV", "A", "ZN"), ("NAND2", "A1 A2", "ZN"), ("NOR2", "A1 A2", "ZN"), ("AND2", "A1 A2", "Z"),
         ("AOI21", "A B1 B2", "ZN"), ("XOR2", "A B", "Z"), ("HA", "A B", "CO S"), ("DFF", "D CK", "Q"), ("TG", "A EN", "Z")]
PASS_GATE = """.SUBCKT TG A EN Z VDD VSS
*.PININFO A:I EN:I Z:O VDD:P VSS:G
MI EB EN VSS VSS nch W=0.4u L=0.05u
MJ EB EN VDD VDD pch W=0.6u L=0.05u
MB AB A VSS VSS nch W=0.4u L=0.05u
MC AB A VDD VDD pch W=0.6u L=0.05u
MN Z EN AB VSS nch W=0.4u L=0.05u
MP Z EB AB VDD pch W=0.6u L=0.05u
.ENDS
"""


def drawn(source, scan):
    """A netlist of a few instances, and how many ports and scan cells are bits of a pattern."""
    inputs, count = source.randint(2, 4), source.randint(3, 12)
    cells = source.randint(1, 3) if scan else 0
    nets = [f"i{k}" for k in range(inputs)] + [f"q{k}" for k in range(cells)]
    gates, driven = [], []
    for u in range(count):
        name, ins, outs = source.choice(CELLS)
        if name in ("DFF", "TG") and source.random() < 0.5:
            name, ins, outs = source.choice(CELLS[:6])
        pins = [(pin, source.choice(nets[-8:])) for pin in ins.split()]
        for pin in outs.split():
            net = f"n{u}{pin}"
            pins.append((pin, net))
            driven.append(net)
        nets += [net for _, net in pins[len(ins.split()):]]
        gates.append(f"  {name} u{u} ({', '.join(f'.{pin}({net})' for pin, net in pins)});")
    outputs = source.sample(driven, min(len(driven), source.randint(1, 4)))
    ports = [f"i{k}" for k in range(inputs)] + (["se", "ck", "hold", "si"] if cells else [])
    text = [f"module drawn({', '.join(ports + [f'o{k}' for k in range(len(outputs))] + (['so'] if cells else []))});"]
    text += [f"  input {port};" for port in ports] + [f"  output o{k};" for k in range(len(outputs))]
    if cells:
        text.append("  output so;")
    text += [f"  wire {net};" for net in driven] + [f"  wire q{k}, t{k};" for k in range(cells)]
    text += gates
    for k in range(cells):
        before, after = ("si" if k == 0 else f"t{k - 1}"), ("so" if k == cells - 1 else f"t{k}")
        text.append(f"  SFF r{k} (.D({source.choice(driven)}), .Q(q{k}), .SI({before}), .SO({after}), .SE(se), .CK(ck), .HOLD(hold));")
    text += [f"  assign o{k} = {net};" for k, net in enumerate(outputs)]
    return "\n".join(text + ["endmodule", ""]), inputs, cells


def pairs_of(stil, inputs, cells):
    """The vectors of each pair in the order of the chip's inputs: ports, and then scan cells."""
    found = []
    for part in re.split(r'"pair \d+":', stil)[1:]:
        ports = re.findall(r'"_pi_"=([01]+)', part)
        shifts = [s for s in re.findall(r'"si"=([01]+)', part)][:2] if cells else ["", ""]
        found.append(tuple(port + shift[::-1] for port, shift in zip(ports[:2], shifts)))
    return found


class Chip:
    """One chip in a folder, and what `simulate` says of it."""

    def __init__(self, program, folder, scan):
        self.words = [program, "simulate", "cells.sp", "drawn.v", scan]
        self.folder, self.known, self.asked = folder, {}, 0

    def ends(self, instance, defect, pair):
        key = (instance, defect, pair)
        if key not in self.known:
            self.asked += 1
            run = subprocess.run(self.words + [instance, defect, *pair], cwd=self.folder, capture_output=True, text=True)
            if run.returncode:
                sys.exit(f"simulate: {run.stdout}{run.stderr}")
            self.known[key] = [line.rsplit(" ", 2) for line in run.stdout.splitlines()]
        return self.known[key]

    def wanted(self, instance, defect, pairs):
        """The number of the first pair that detects the defect, and the first output, or two empty texts."""
        for number, pair in enumerate(pairs):
            for output, good, faulty in self.ends(instance, defect, pair):
                if {good, faulty} == {"0", "1"}:
                    return str(number), output
        return "", ""


def run(folder, words):
    done = subprocess.run(words, cwd=folder, capture_output=True, text=True)
    return done.returncode, (done.stdout + done.stderr).strip()


def shuffled(stil, source, count):
    """The same patterns in another order, some of them left out and some more than once."""
    head, *parts = re.split(r'  "pair \d+":', stil.rstrip().rstrip("}"))
    chosen = [source.choice(parts) for _ in range(count)] if parts else []
    return head + "".join(f'  "pair {number}":{part}' for number, part in enumerate(chosen)) + "}\n"


def main():
    if not 2 <= len(sys.argv) <= 4:
        sys.exit(__doc__)
    program = os.path.abspath(sys.argv[1])
    chips = int(sys.argv[2]) if len(sys.argv) > 2 else 100
    source = random.Random(int(sys.argv[3]) if len(sys.argv) > 3 else 1)
    compared = differing = simulated = linked = unknown = 0
    while linked < chips:
        with tempfile.TemporaryDirectory() as folder:
            scan = "scan.csv" if source.random() < 0.5 else "-"
            text, inputs, cells = drawn(source, scan != "-")
            with open(f"{folder}/drawn.v", "w", encoding="utf-8") as file:
                file.write(text)
            with open(f"{HERE}/../examples/cells.sp", encoding="utf-8") as cells_file:
                library = cells_file.read()
            with open(f"{folder}/cells.sp", "w", encoding="utf-8") as file:
                file.write(library.rstrip() + "\n" + PASS_GATE)
            with open(f"{HERE}/../examples/scan.csv", encoding="utf-8") as table, \
                    open(f"{folder}/scan.csv", "w", encoding="utf-8") as file:
                file.write(table.read())
            status, said = run(folder, [program, "atpg", "cells.sp", "drawn.v", scan, "p.stil", "r.csv", "64"])
            if status:
                sys.exit(f"a drawn chip is refused: {said}\n{text}")
            linked += 1
            with open(f"{folder}/p.stil", encoding="utf-8") as file:
                stil = file.read()
            chip = Chip(program, folder, scan)
            mixed = shuffled(stil, source, source.choice([3, 40, 150]))
            with open(f"{folder}/x.stil", "w", encoding="utf-8") as file:
                file.write(mixed)
            sets = [("atpg", stil, "r.csv")]
            for name, patterns, report in (("p.stil", stil, "g.csv"), ("x.stil", mixed, "x.csv")):
                status, said = run(folder, [program, "grade", "cells.sp", "drawn.v", scan, name, report])
                if status:
                    sys.exit(f"grade: {said}\n{text}")
                sets.append(("grade", patterns, report))
            for kind, patterns, report in sets:
                pairs = pairs_of(patterns, inputs, cells)
                with open(f"{folder}/{report}", encoding="utf-8") as file:
                    rows = [line.rstrip("\n").split(",") for line in file][1:]
                rows = [row for row in rows if row[3] != "unexposable"]
                for row in source.sample(rows, min(12, len(rows))):
                    compared += 1
                    wanted = chip.wanted(row[0], row[2], pairs)
                    unknown += any("X" in (good, faulty) for pair in pairs for _, good, faulty in chip.ends(row[0], row[2], pair))
                    if (row[4], row[5]) != wanted or (row[3] == "credited") != (wanted[0] != ""):
                        differing += 1
                        print(f"{kind}: {','.join(row)}, and by waves {','.join(wanted) or 'nothing'}\n{text}")
            simulated += chip.asked
    print(f"chips {linked}, defects compared {compared}, some with an unknown value {unknown}, "
          f"runs of simulate {simulated}, different {differing}")
    sys.exit(1 if differing else 0)


if __name__ == "__main__":
    main()
