#!/usr/bin/env python3
"""Makes a Verilog testbench that plays the patterns which `cellaware atpg` wrote.

usage: stil_testbench.py PATTERNS.stil NETLIST.v --data PATTERNS.dat [--replace INSTANCE=MODEL --netlist OUT.v]
                         [--log LOG.csv] [--seen SEEN.txt] [--scan SCAN.csv [--parallel]] > bench.v

The bench has one size, however many patterns there are: it reads their statements from PATTERNS.dat, which this tool
writes. It plays each statement in a period of its own, compares each strobed output that is L or H, prints a line for
each of the first twenty mismatches and one for each thousand pairs, and at the end how many strobes it compared and how
many didn't match. With Icarus Verilog, in the folder that has PATTERNS.dat:

    iverilog -o bench bench.v NETLIST.v CELLS.v && vvp bench

CELLS.v has the models of the library's cells, and of the scan cells, if there are some (`tools/scan_cell.v` has one).
With --replace, OUT.v is the netlist in which one instance is of another model, for example of one that behaves as the
cell does with a defect; compile OUT.v in the place of NETLIST.v. With --log, the bench writes each mismatch to LOG.csv, in the form
that `cellaware diagnose` reads; where there are scan chains, SCAN.csv is the table of scan cells, which tells their pins.
With --seen, it writes to SEEN.txt what it sees at the outputs, a line for each statement (`tools/random_patterns.py`).
With --parallel, chains aren't shifted: what their cells took is compared at once, and their state is put into them, which is some
ten times as fast on a large chip, and doesn't try the chains. SCAN.csv tells their pins, and their models have to keep their
state in `state`, as `tools/scan_cell.v` does.
Python 3.9 or later, no packages.
"""
import argparse
import csv
import re
import sys

VECTOR, SHIFT, PAIR = 1, 2, 3


def groups_of(text):
    """The signals in the order of their declaration, and the groups, as {group: [signal, ..]}."""
    block = re.search(r"Signals \{\n(.*?)\n\}", text, re.S).group(1)
    signals = re.findall(r'"([^"]+)" (In|Out);', block)
    groups = {}
    found = re.search(r"SignalGroups \{\n(.*?)\n\}", text, re.S)
    for name, members in re.findall(r"\"([^\"]+)\"='([^']*)';", found.group(1) if found else ""):
        groups[name] = re.findall(r'"([^"]+)"', members)
    return signals, groups


def module_of(netlist):
    """The name of the module of a netlist, and the range of each port that has one."""
    text = re.sub(r"//[^\n]*|/\*.*?\*/", " ", netlist, flags=re.S)
    name = re.search(r"\bmodule\s+(\\\S+|[\w$]+)", text).group(1)
    ranges = {}
    for bounds, names in re.findall(r"\b(?:input|output)\s+(?:wire\s+)?(\[[^\]]*\])\s*([^;)]*)", text):
        for port in re.findall(r"[\w$]+", re.sub(r"\b(input|output|wire)\b.*", " ", names, flags=re.S)):
            ranges[port] = bounds
    return name, ranges


def cells_of_chains(netlist, table, scan_outs):
    """For each chain, from its scan output to its scan input, its cells: the name of the data pin as `simulate` gives it, and the
    instance as the netlist spells it."""
    with open(table, newline="", encoding="utf-8") as file:
        pins = {it["cell"].upper(): it for it in csv.DictReader(file)}
    text = re.sub(r"//[^\n]*|/\*.*?\*/", " ", netlist, flags=re.S)
    behind = {}
    for cell, name, inside in re.findall(r"(?:^|;)\s*([\w$]+)\s+(\\\S+\s|[\w$]+)\s*\((\s*\..*?\))\s*\)(?=\s*;)", text, re.S):
        if cell.upper() in pins:
            row = pins[cell.upper()]
            nets = {pin.upper(): net.strip().lstrip("\\").strip() for pin, net in re.findall(r"\.\s*([\w$]+)\s*\(([^)]*)\)", inside)}
            called = f"{name.strip().lstrip(chr(92))}/{row['d'].upper()}"
            behind[nets[row["so"].upper()]] = ((called, name.strip() + " " * name.startswith(chr(92))), nets[row["si"].upper()])
    chains = []
    for net in scan_outs:
        chain = []
        while net in behind:
            cell, net = behind[net]
            chain.append(cell)
        chains.append(chain)
    return chains


class Bits:
    """Places of signals in a row of bits; values are numbers, the first signal is the lowest bit."""

    def __init__(self, signals):
        self.place = {it: k for k, it in enumerate(signals)}
        self.count = max(1, len(signals))

    def value(self, parts, letters):
        found = 0
        for signal, letter in parts:
            if letter in letters and signal in self.place:
                found |= 1 << self.place[signal]
        return found


class Statements:
    """Writes the statements of the patterns, a line each: its kind, and numbers in hexadecimal."""

    def __init__(self, out, signals, groups):
        self.out, self.groups = out, groups
        self.ins = Bits([it for it, direction in signals if direction == "In"])
        self.outs = Bits([it for it, direction in signals if direction == "Out"])
        self.scan_ins, self.scan_outs = groups.get("_si_", []), groups.get("_so_", [])
        self.length = 0

    def pair(self, number):
        self.out.write(f"{PAIR} {number:x} 0 0 0 0\n")

    def parts(self, words):
        """The letters of a statement, signal by signal."""
        return [it for word, letters in words for it in zip(self.groups.get(word, [word]), letters)]

    def vector(self, words):
        parts = self.parts(words)
        driven, high = self.ins.value(parts, "01P"), self.ins.value(parts, "1")
        compared, wanted = self.outs.value(parts, "LH"), self.outs.value(parts, "H")
        self.out.write(f"{VECTOR} {driven:x} {high:x} {self.ins.value(parts, 'P'):x} {compared:x} {wanted:x}\n")

    def shift(self, words):
        """One line for a whole shift: place by place, a bit a chain."""
        letters = dict(words)
        count = max(len(it) for it in letters.values())
        self.length = max(self.length, count)
        loaded, compared, wanted = 0, 0, 0
        for place in range(count):
            for k, signal in enumerate(self.scan_ins):
                loaded |= (letters[signal][place] == "1") << (place * len(self.scan_ins) + k)
            for k, signal in enumerate(self.scan_outs):
                at = place * len(self.scan_outs) + k
                compared |= (letters[signal][place] in "LH") << at
                wanted |= (letters[signal][place] == "H") << at
        self.out.write(f"{SHIFT} {count:x} {loaded:x} 0 {compared:x} {wanted:x}\n")


def write_statements(out, text, signals, groups):
    """Writes all statements, and answers what the bench has to know of them."""
    made = Statements(out, signals, groups)
    for line in text[text.index('Pattern "_pattern_" {') :].split("\n")[1:]:
        labelled = re.match(r'\s*"pair (\d+)": (.*)', line)
        if labelled:
            made.pair(int(labelled.group(1)))
            line = labelled.group(2)
        words = re.findall(r'"([^"]+)"=([01PLHX]+);', line)
        if line.strip().startswith("Macro"):
            made.shift(words)
        elif line.strip().startswith("V"):
            made.vector(words)
    return made


BENCH = """`timescale 1ns/1ns
module bench;
{declared}  reg [{ins}:0] in, driven, high, pulse;
  wire [{outs}:0] out;
  reg [{outs}:0] compared, wanted;
  reg [{scanned}:0] loaded, kept, shifted, taken;
  reg [{chains}:0] scan_in, scan_out;
  reg [8*{width}-1:0] names [0:{outs}];
  reg [8*{width}-1:0] cells [0:{scanned}];
  integer log, seen, file, kind, found, count, place, k, strobes, mismatches, pair;
{joined}  {module} chip({ports});

  task report(input [8*{width}-1:0] name, input value, input want);
    begin
      mismatches = mismatches + 1;
      if (mismatches <= 20) $display("pair %0d: %0s is %b, not %b", pair, name, value, want);
      if (log != 0) $fdisplay(log, "%0d,%0s", pair, name);
    end
  endtask

  task compare;
    for (k = 0; k <= {outs}; k = k + 1)
      if (compared[k]) begin
        strobes = strobes + 1;
        if (out[k] !== wanted[k]) report(names[k], out[k], wanted[k]);
      end
  endtask

  // One period: inputs at 0, outputs of chains at 40, pulses from 45 to 55, other outputs at 90.
  task period;
    begin
      #45 in = in | pulse;
      #10 in = in & ~pulse;
      #35 if (|compared) compare;
      if (seen != 0) $fdisplay(seen, "%b", out);
      #10;
    end
  endtask

  task shift_one;
    begin
{shifting}      #40;
{comparing}      #5 in = in | pulse;
      #10 in = in & ~pulse;
      #45;
    end
  endtask

  task shift_at_once;
    begin
{beginning}      #40;
{taking}      for (k = 0; k <= {scanned}; k = k + 1)
        if (kept[k]) begin
          strobes = strobes + 1;
          if (taken[k] !== shifted[k]) report(cells[k], taken[k], shifted[k]);
        end
{putting}      #60;
    end
  endtask

  initial begin
    strobes = 0; mismatches = 0; in = 0; pair = 0; log = 0; seen = 0;
{logging}{naming}    file = $fopen("{data}", "r");
    if (file == 0) begin
      $display("{data} can't be opened");
      $finish;
    end
    found = $fscanf(file, "%d", kind);
    while (found == 1) begin
      if (kind == {kind_pair}) begin
        found = $fscanf(file, " %h %h %h %h %h", pair, loaded, pulse, compared, wanted);
        if (pair % 1000 == 0 && pair > 0) $display("pair %0d, %0d mismatches", pair, mismatches);
      end else if (kind == {kind_vector}) begin
        found = $fscanf(file, " %h %h %h %h %h", driven, high, pulse, compared, wanted);
        in = (in & ~driven) | high;
        period;
      end else begin
        found = $fscanf(file, " %h %h %h %h %h", count, loaded, pulse, kept, shifted);
        pulse = {clock};
        taken = 0;
        if ({parallel}) shift_at_once;
        else for (place = 0; place < count; place = place + 1) shift_one;
        if (seen != 0) $fdisplay(seen, "%b", taken);
      end
      found = $fscanf(file, "%d", kind);
    end
    $display("%0d strobes compared, %0d mismatches", strobes, mismatches);
    if (log != 0) $fclose(log);
    if (seen != 0) $fclose(seen);
    $finish;
  end
endmodule
"""


def bench_of(made, signals, module, ranges, data, log, seen, chains, is_parallel):
    """The text of the bench. The names of the data pins of scan cells are known where a log is written."""
    whole = {}
    for name, direction in signals:
        whole.setdefault(name.split("[")[0], direction)
    declared = "".join(f"  wire {ranges.get(it, '')} {it};\n".replace("  wire  ", "  wire ") for it in whole)
    joined = "".join(f"  assign {name} = in[{made.ins.place[name]}];\n" if direction == "In"
                     else f"  assign out[{made.outs.place[name]}] = {name};\n" for name, direction in signals)
    naming = "".join(f'    names[{k}] = "{name}";\n' for name, k in made.outs.place.items())
    shifting, comparing = "", ""
    if made.scan_ins:
        enable, clock, hold = (made.ins.place[it] for it in made.groups["_ctl_"])
        shifting = f"      in[{enable}] = 1'b1; in[{hold}] = 1'b1; in[{clock}] = 1'b0;\n" + "".join(
            f"      in[{made.ins.place[it]}] = loaded[place * {len(made.scan_ins)} + {k}];\n" for k, it in enumerate(made.scan_ins))
        for k, it in enumerate(made.scan_outs):
            at, place = f"place * {len(made.scan_outs)} + {k}", made.outs.place[it]
            name = f"cells[{at}]" if chains else f"names[{place}]"
            comparing += f"      taken[{at}] = out[{place}];\n" if seen else ""
            comparing += (f"      if (kept[{at}]) begin\n        strobes = strobes + 1;\n"
                          f"        if (out[{place}] !== shifted[{at}]) report({name}, out[{place}], shifted[{at}]);\n      end\n")
    taking, putting, longest = "", "", max((len(it) for it in chains), default=0)
    for k, chain in enumerate(chains):
        for place, (name, instance) in enumerate(chain):
            naming += f'    cells[{place * len(chains) + k}] = "{name}";\n'
            taking += f"      taken[{place * len(chains) + k}] = chip.{instance}.state;\n" if is_parallel else ""
            loaded = (longest - len(chain) + place) * len(chains) + k
            putting += f"      chip.{instance}.state = loaded[{loaded}];\n" if is_parallel else ""
    beginning = shifting.split("\n")[0] + "\n" if shifting else ""
    logging = f'    log = $fopen("{log}", "w");\n    $fdisplay(log, "pair,output");\n' if log else ""
    logging += f'    seen = $fopen("{seen}", "w");\n' if seen else ""
    widest = max([len(it) for it in made.outs.place] + [len(it[0]) for chain in chains for it in chain] + [1])
    bits = max(1, made.length * max(1, len(made.scan_ins)))
    clock = f"1 << {made.ins.place[made.groups['_ctl_'][1]]}" if made.scan_ins else "0"
    return BENCH.format(declared=declared, joined=joined, naming=naming, shifting=shifting, comparing=comparing, module=module,
                        ports=", ".join(f".{it}({it})" for it in whole), ins=made.ins.count - 1, outs=made.outs.count - 1,
                        scanned=bits - 1, chains=max(1, len(made.scan_ins)) - 1, width=widest, logging=logging,
                        parallel=int(is_parallel), beginning=beginning, taking=taking, putting=putting,
                        data=data, clock=clock, kind_pair=PAIR, kind_vector=VECTOR)


def replaced(netlist, words):
    """The netlist with another model for one instance."""
    instance, model = words.split("=", 1)
    found = re.compile(rf"(^\s*)([\w$]+)(\s+\\?{re.escape(instance)}\s*\()", re.M)
    text, count = found.subn(lambda it: f"{it.group(1)}{model}{it.group(3)}", netlist)
    if count != 1:
        sys.exit(f"{instance} is the name of {count} instances")
    return text


def main():
    parser = argparse.ArgumentParser(usage=__doc__)
    parser.add_argument("patterns")
    parser.add_argument("gates")
    parser.add_argument("--data", required=True)
    parser.add_argument("--replace")
    parser.add_argument("--netlist")
    parser.add_argument("--log")
    parser.add_argument("--scan")
    parser.add_argument("--seen")
    parser.add_argument("--parallel", action="store_true")
    asked = parser.parse_args()
    with open(asked.patterns, encoding="utf-8") as file:
        text = file.read()
    with open(asked.gates, encoding="utf-8") as file:
        netlist = file.read()
    module, ranges = module_of(netlist)
    signals, groups = groups_of(text)
    with open(asked.data, "w", encoding="utf-8") as out:
        made = write_statements(out, text, signals, groups)
    chains = []
    if (asked.log or asked.parallel) and made.scan_outs:
        if not asked.scan:
            sys.exit("--log and --parallel need --scan SCAN.csv where there are scan chains")
        chains = cells_of_chains(netlist, asked.scan, made.scan_outs)
        lengths = [int(it) for it in re.findall(r"ScanLength (\d+);", text)]
        if [len(it) for it in chains] != lengths:
            sys.exit(f"the chains of the netlist have {[len(it) for it in chains]} cells, and those of the patterns {lengths}")
    sys.stdout.write(bench_of(made, signals, module, ranges, asked.data, asked.log, asked.seen, chains, asked.parallel and bool(chains)))
    if asked.replace and asked.netlist:
        with open(asked.netlist, "w", encoding="utf-8") as out:
            out.write(replaced(netlist, asked.replace))


if __name__ == "__main__":
    main()
