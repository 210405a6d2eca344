#!/usr/bin/env python3
"""Checks the verdicts of `atpg` in a second way, by bit-parallel fault simulation at the pins of cells.

usage: bench/verdicts.py PROGRAM [CHIP..] [--budget N] [--list FILE]

CHIP is c17, add4 or acc of examples/, a design of bench/rtl mapped as in bench/chips.py (mult8, alu8, sec8,
sec32, counter, crc16, fsm, mult8_fa), or mult16_fa, mac16_fa or aes, which run only where they are named. The
budget is 64 if it isn't said. FILE has lines `NAME CELLS NETLIST SCAN` of chips that are there already; they
go before those above, and all of them run where no CHIP is named.

The netlist is read anew; of PROGRAM only the matrices of cells are taken, and what `respond` says of cells. A
pair *may* show a defect where it gives the cell a row that exposes it, and a flip of the outputs that differ
is seen at an observed output. That is an upper bound, since a glitch at a pin may spoil what the first vector
left. Where no pin can glitch and no output is unknown the pair *surely* shows the defect. It is looked that:

- the patterns expect what the good chip gives;
- the pair of each credit may show the defect at the output that is named, and no earlier pair, nor this pair
  at an earlier output, surely does; and no listed pair surely shows a defect that isn't credited;
- a defect is unexposable exactly where no row exposes it;
- an untestable one has no possible row: over all vectors of a chip of at most 20 inputs, with what is seen,
  and else over those of the inputs that lead to its gate's pins, where these are at most 20. Where a chip of
  at most 20 inputs has a possible row, `grade` must credit the defect for none of its candidates: all pairs
  of its rows, or 60,000 of them, drawn with a fixed seed, up to half of them with one or two changing inputs;
- `verify` accepts the certificate, whose patterns and claims are those of `atpg`.

It prints a CSV record for each chip, and each contradiction on the standard error; the status is 1 where
there is one. The columns that end with `wrong` and `surely-earlier` count contradictions. The others don't:
`possibly-earlier` counts credits of which an earlier pair may show the defect; and of aborted defects there
are those without a possible row, which are untestable for sure, those that a candidate shows, those that none
shows (`open`), and those that weren't exhausted. `sampled` counts the defects of which only a sample was
graded. Python 3.9 or later, no packages.
"""
import argparse
import collections
import csv
import heapq
import itertools
import os
import random
import re
import subprocess
import sys
import tempfile
import time

from chips import DESIGNS, OSU, TOP, library, netlist_of, of_adders

EXAMPLES = {"c17": ("cells.sp", "-"), "add4": ("fa28.sp", "-"), "acc": ("fa28.sp", "scan.csv")}
COLUMNS = """pairs defects credited credited-wrong possibly-earlier surely-earlier
    unexposable unexposable-wrong
    untestable untestable-by-rows untestable-by-grade untestable-not-exhausted untestable-wrong
    aborted aborted-without-row aborted-detected aborted-open aborted-not-exhausted
    expected-wrong claims-wrong""".split()
RULED_OUT = {"untestable": "untestable-by-rows", "aborted": "aborted-without-row"}
WRONG = [it for it in COLUMNS if it.endswith("wrong") or it == "surely-earlier"]
MOST_INPUTS, MOST_PAIRS, SAMPLE = 20, 65536, 60000
SKIPPED = r"//[^\n]*|/\*.*?\*/|\(\*(?!\)).*?\*\)|^[ \t]*`[^\n]*"
TOKEN = re.compile(SKIPPED + r"|\\(\S+)\s|([A-Za-z_][\w$]*)|(1'[bB][01]|\d+|\S)", re.S | re.M)
CONSTANTS = [("", 0), ("", 1)]
Row = collections.namedtuple("Row", "first last flips unknown")
Gate = collections.namedtuple("Gate", "name cell inputs outputs")


def run(words):
    """What a command prints; it has to end well."""
    done = subprocess.run(words, capture_output=True, text=True)
    if done.returncode != 0:
        sys.exit(f"{' '.join(words)}: {(done.stdout + done.stderr).strip()}")
    return done.stdout.strip()


def text_of(path):
    with open(path, encoding="latin-1", newline="") as file:
        return file.read()


def records(path):
    with open(path, encoding="latin-1", newline="") as file:
        return list(csv.reader(file))[1:]


# Cells

def pins_of(cells):
    """The input pins and the output pins of each subcircuit of a library, in pin order."""
    found, name, pins = {}, "", []
    for line in re.sub(r"\n[ \t]*\+", " ", text_of(cells).upper()).splitlines():
        words = line.split()
        if words[:1] == [".SUBCKT"]:
            name, pins = words[1], words[2:]
        elif words[:1] == ["*.PININFO"]:
            roles = dict(it.rsplit(":", 1) for it in words[1:])
            found[name] = [[it for it in pins if roles.get(it) == role] for role in "IO"]
    return found


def function_of(table, count):
    """A truth table as a function of the mask of all vectors and of one for each input, as digits."""
    names = [f"x{k}" for k in range(count)]

    def text(part, depth):
        if len(set(part)) == 1:
            return "m" if part[0] else "0"
        half, name = len(part) // 2, names[depth]
        low, high = text(part[:half], depth + 1), text(part[half:], depth + 1)
        return low if low == high else f"({name}&{high}|(m^{name})&{low})"

    return eval(f"lambda {', '.join(['m', *names])}: {text(table, 0)}")


class Cell:
    """A library cell, by its matrix: the functions of its outputs, and the rows that expose each defect."""

    def __init__(self, program, cells, name, pins, folder):
        self.name, (self.inputs, self.outputs) = name, pins
        run([program, "matrix", cells, name, f"{folder}/matrix.csv"])
        with open(f"{folder}/matrix.csv", newline="") as file:
            header, *lines = csv.reader(file)
        vectors = ["".join(it) for it in itertools.product("01", repeat=len(self.inputs))]
        rows = [lines[k:k + len(self.outputs)] for k in range(0, len(lines), len(self.outputs))]
        good = {(it[0][0], it[0][1]): "".join(out[3] for out in it) for it in rows}
        if any("X" in ends or ends != good[pair[1], pair[1]] for pair, ends in good.items()):
            sys.exit(f"{name} keeps a charge, so its outputs are no functions of its inputs")
        tables = [[good[it, it][k] == "1" for it in vectors] for k in range(len(self.outputs))]
        self.functions = [function_of(it, len(self.inputs)) for it in tables]
        self.defects = header[4:]
        self.rows = [tuple(self.exposing(rows, 4 + k)) for k in range(len(self.defects))]
        # whether the outputs settle from any charge, so that they follow the last vector whatever came before
        self.is_static = not any("=X" in run([program, "respond", cells, name, it]) for it in vectors)

    @staticmethod
    def exposing(rows, field):
        """The rows that expose a defect, with the outputs that are flipped and those that are unknown."""
        for outs in rows:
            flips = sum(1 << k for k, it in enumerate(outs) if {it[3], it[field]} == {"0", "1"})
            unknown = sum(1 << k for k, it in enumerate(outs) if it[field] == "X")
            if flips:
                yield Row(int(outs[0][0], 2), int(outs[0][1], 2), flips, unknown)


# Netlists

class Netlist:
    """A gate netlist as it is written: ports, instances, and which bits are joined."""

    def __init__(self, path):
        self.bits, self.header, self.directions, self.instances, self.parents = {}, [], {}, [], {}
        statement = []
        for escaped, word, mark in TOKEN.findall(text_of(path)):
            if mark == ";":
                self.take(statement)
                statement = []
            elif escaped or word or mark:
                statement.append(("mark", mark) if mark else ("word", word) if word else ("name", escaped))

    def take(self, statement):
        (what, kind), rest = statement[0], statement[1:]
        kind = kind if what == "word" else ""
        if kind == "module":
            self.header = [text for what, text in rest[1:] if what != "mark"]
        elif kind in ("input", "output", "wire"):
            self.declare(kind, rest)
        elif kind == "assign":
            middle = rest.index(("mark", "="))
            for left, right in zip(self.operand(rest[:middle]), self.operand(rest[middle + 1:])):
                self.parents[self.home(left)] = self.home(right)
        else:
            pins, name, rest = {}, rest[0][1], rest[2:-1]
            while rest:
                end = rest.index(("mark", ")"))
                pins[rest[1][1].upper()] = self.operand(rest[3:end])
                rest = rest[end + 2:]
            nets = {pin: bits[0] for pin, bits in pins.items() if bits}
            self.instances.append((name, statement[0][1].upper(), nets))

    def declare(self, kind, rest):
        places = [None]
        if rest[0] == ("mark", "["):
            left, right = int(rest[1][1]), int(rest[3][1])
            places = range(left, right - 1, -1) if left >= right else range(left, right + 1)
            rest = rest[5:]
        for what, name in rest:
            if what != "mark":
                self.bits[name] = [(name, it) for it in places]
                if kind != "wire":
                    self.directions[name] = kind

    def operand(self, tokens):
        """The bits of an operand; a constant is a bit without a name."""
        if not tokens:
            return []
        what, text = tokens[0]
        if what == "mark":
            return [CONSTANTS[int(text[-1])]]
        return [(text, int(tokens[2][1]))] if len(tokens) > 1 else self.bits[text]

    def home(self, bit):
        """The bit that stands for all that are joined with this one; a constant for itself."""
        while bit in self.parents and self.parents[bit] != bit:
            bit = self.parents[bit]
        return bit

    def ports(self, direction):
        """The nets of the bits of the ports, by name, in header order."""
        bits = [bit for name in self.header if self.directions[name] == direction for bit in self.bits[name]]
        return {name if k is None else f"{name}[{k}]": self.home((name, k)) for name, k in bits}


class Chip:
    """A chip off its scan path: inputs, observed outputs, and gates in netlist order."""

    def __init__(self, program, files, folder):
        cells, path, table = files
        self.netlist, pins, known = Netlist(path), pins_of(cells), {}
        roles, scan = "d q qn si so se ck hold".split(), {}
        if table != "-":
            scan = {it[0].upper(): dict(zip(roles, map(str.upper, it[1:]))) for it in records(table) if it}
        self.gates, self.scanned = [], []
        for name, cell, bits in self.netlist.instances:
            nets = {pin: self.netlist.home(bit) for pin, bit in bits.items()}
            if cell in scan:
                by_role = {role: nets.get(pin) for role, pin in scan[cell].items()}
                self.scanned.append((name, scan[cell], by_role))
                continue
            if cell not in known:
                known[cell] = Cell(program, cells, cell, pins[cell], folder)
            ins, outs = ([nets.get(it) for it in some] for some in pins[cell])
            self.gates.append(Gate(name, known[cell], ins, outs))
        self.is_static = all(cell.is_static for cell in known.values())
        self.connect()
        self.sort()

    def connect(self):
        """Finds the chip inputs and the observed outputs by name, and what reads and what drives each net."""
        path = {nets[it] for _, _, nets in self.scanned for it in ("si", "so", "se", "ck", "hold")} - {None}
        ports = [self.netlist.ports(it) for it in ("input", "output")]
        self.inputs, self.outputs = ({name: it[name] for name in it if it[name] not in path} for it in ports)
        for name, pins, nets in self.scanned:
            self.inputs[f"{name}/{pins['q']}"] = nets["q"]
            self.outputs[f"{name}/{pins['d']}"] = nets["d"]
        self.readers, self.drivers = collections.defaultdict(list), {}
        for place, gate in enumerate(self.gates):
            for net in gate.inputs:
                self.readers[net].append(place)
            self.drivers.update((net, place) for net in gate.outputs if net)

    def sort(self):
        """Orders the gates so that each comes after those that feed it."""
        waiting = [len(gate.inputs) for gate in self.gates]
        ready = [*CONSTANTS, *dict.fromkeys(net for net in self.inputs.values() if net)]
        self.order, self.rank = [], [0] * len(self.gates)
        for net in ready:
            for place in self.readers[net]:
                waiting[place] -= 1
                if waiting[place] == 0:
                    self.rank[place] = len(self.order)
                    self.order.append(place)
                    ready += [it for it in self.gates[place].outputs if it]
        if len(self.order) < len(self.gates):
            sys.exit("the netlist has a loop, or a pin that nothing drives")

    def cone(self, place):
        """The names of the inputs that lead to a gate's pins, and the gates on the way, in their order."""
        found, waiting = set(), [place]
        while waiting:
            pins = self.gates[waiting.pop()].inputs
            before = {self.drivers[net] for net in pins if net in self.drivers} - found
            found |= before
            waiting += before
        nets = {net for it in [place, *found] for net in self.gates[it].inputs}
        names = [name for name, net in self.inputs.items() if net in nets]
        return names, sorted(found, key=self.rank.__getitem__)

    def values(self, inputs, every, order):
        """The good value of each net that these gates drive, from those of inputs by name; a bit a vector."""
        found = {CONSTANTS[0]: 0, CONSTANTS[1]: every}
        found.update((self.inputs[name], value) for name, value in inputs.items())
        for place in order:
            gate = self.gates[place]
            pins = [found[net] for net in gate.inputs]
            for net, function in zip(gate.outputs, gate.cell.functions):
                found[net] = function(every, *pins)
        return found

    def differences(self, place, flips, good, every):
        """Under which vectors each observed output differs, where these outputs of a gate are flipped."""
        flipped = [net for k, net in enumerate(self.gates[place].outputs) if flips >> k & 1 and net]
        changed, before = {net: good[net] ^ every for net in flipped}, -1
        queue = [self.rank[it] for net in changed for it in self.readers[net]]
        heapq.heapify(queue)
        while queue:
            at = heapq.heappop(queue)
            if at == before:
                continue
            before, gate = at, self.gates[self.order[at]]
            pins = [changed.get(net, good[net]) for net in gate.inputs]
            for net, function in zip(gate.outputs, gate.cell.functions):
                value = function(every, *pins)
                if net and value != good[net]:
                    changed[net] = value
                    for it in self.readers[net]:
                        heapq.heappush(queue, self.rank[it])
        return {name: changed[net] ^ good[net] for name, net in self.outputs.items() if net in changed}


# Patterns

class Stil:
    """A text of patterns, with the inputs and the outputs to which the bits of a pair belong, in order."""

    def __init__(self, chip, text):
        self.head, *self.parts = re.split(r'  "pair \d+":', text.rstrip().rstrip("}"))
        groups = dict(re.findall(r'"(_\w+_)"=\'(.*?)\';', self.head))
        ports, following = chip.netlist.ports("input"), {it[2]["si"]: it for it in chip.scanned}
        self.names = [re.findall(r'"([^"]+)"', groups.get(it, "")) for it in ("_pi_", "_po_")]
        self.chains, self.port_counts = [], [len(it) for it in self.names]
        for ends in re.findall(r'ScanIn "([^"]+)";\s*ScanOut "([^"]+)";', self.head):
            cells, net = [], ports[ends[0]]
            while net in following:
                name, pins, nets = following[net]
                cells.insert(0, (f"{name}/{pins['q']}", f"{name}/{pins['d']}"))
                net = nets["so"]
            self.chains.append((ends, len(cells)))
            for names, some in zip(self.names, zip(*cells)):
                names += some
        self.length = max((count for _, count in self.chains), default=0)
        if [sorted(it) for it in self.names] != [sorted(chip.inputs), sorted(chip.outputs)]:
            sys.exit("the patterns have other inputs or outputs than the netlist")

    def pairs(self):
        """The first vector, the last one, and what is expected, of each pair."""
        for part in self.parts:
            words = collections.defaultdict(list)
            for name, word in re.findall(r'"([^"]+)"=([01LHX]+);', part):
                words[name].append(word)
            found = [words["_pi_"][0], words["_pi_"][1]] if "_pi_" in words else ["", ""]
            found.append(words["_po_"][1] if "_po_" in words else "")
            for (scan_in, scan_out), count in self.chains:
                for k in (0, 1):
                    found[k] += words[scan_in][k][self.length - count:]
                found[2] += words[scan_out][2][:count]
            yield found

    def text(self, pairs):
        """A text of other pairs, each as `pairs` gives it."""
        (ins, outs), lines = self.port_counts, [self.head]
        for number, (first, last, expected) in enumerate(pairs):
            label = f'  "pair {number}": '
            blind = "X" * outs
            words = (first[:ins], blind), (last[:ins], expected[:outs]), ("", blind)
            steps = [self.step(*it) for it in words]
            if not self.chains:
                lines += [f"{label}V {{{steps[0]} }}\n", f"  V {{{steps[1]} }}\n"]
                continue
            nothing = "X" * (len(expected) - outs)
            shifts = [self.shift(it, nothing) for it in (first[ins:], last[ins:])]
            shifts.append(self.shift("0" * len(nothing), expected[outs:]))
            lines += [f'{label}{shifts[0]}\n  V {{ "_ctl_"=000;{steps[0]} }}\n  {shifts[1]}\n',
                      f'  V {{ "_ctl_"=000;{steps[1]} }}\n  V {{ "_ctl_"=0P1;{steps[2]} }}\n  {shifts[2]}\n']
        return "".join([*lines, "}\n"])

    @staticmethod
    def step(ins, outs):
        return (f' "_pi_"={ins};' if ins else "") + (f' "_po_"={outs};' if outs else "")

    def shift(self, ins, outs):
        """The statement that shifts bits in and out, with a word for each chain."""
        words, at = [[], []], 0
        for (scan_in, scan_out), count in self.chains:
            words[0].append(f'"{scan_in}"={ins[at:at + count].rjust(self.length, "0")};')
            words[1].append(f'"{scan_out}"={outs[at:at + count].ljust(self.length, "X")};')
            at += count
        return f'Macro "_shift_" {{ {" ".join(words[0] + words[1])} }}'


# What shows a defect

def minterms(pins, every):
    """Under which vectors the pins have each value; the first pin is the highest digit."""
    found = [every]
    for value in pins:
        found = [part for it in found for part in (it & ~value, it & value)]
    return found


class Flips:
    """Under which vectors flipped outputs of a gate are seen, whatever the unknown ones are."""

    def __init__(self, chip, place, good, every):
        self.words, self.known, self.seen = (chip, place, good, every), {}, {}

    def of(self, flips):
        if flips not in self.known:
            chip, place, good, every = self.words
            self.known[flips] = chip.differences(place, flips, good, every)
        return self.known[flips]

    def at(self, row):
        """The vectors by observed output."""
        key = row.flips, row.unknown
        if key not in self.seen:
            ways = [self.of(row.flips | it) for it in range(row.unknown + 1) if it & ~row.unknown == 0]
            found = dict(ways[0])
            for way in ways[1:]:
                found = {name: mask & way.get(name, 0) for name, mask in found.items()}
            self.seen[key] = {name: mask for name, mask in found.items() if mask}
        return self.seen[key]


def either(masks):
    found = 0
    for mask in masks:
        found |= mask
    return found


class Listed:
    """The pairs of a text of patterns: the good values under both vectors, and where nothing can glitch."""

    def __init__(self, chip, stil):
        pairs = list(stil.pairs())
        self.chip, self.count, self.every = chip, len(pairs), (1 << len(pairs)) - 1
        self.first, self.last, self.wrong = {}, {}, 0
        if pairs:
            columns = [dict(zip(stil.names[0], zip(*(it[k] for it in pairs)))) for k in (0, 1)]
            inputs = [{name: self.mask(bits, "1") for name, bits in it.items()} for it in columns]
            self.first, self.last = (chip.values(it, self.every, chip.order) for it in inputs)
        for name, letters in zip(stil.names[1], zip(*(it[2] for it in pairs))):
            wrong = self.last[chip.outputs[name]] ^ self.mask(letters, "H") | self.mask(letters, "X")
            self.wrong += bin(wrong).count("1")
        self.still = self.quiet_nets()

    @staticmethod
    def mask(letters, wanted):
        """A bit for each pair: whether its letter is the wanted one."""
        return int("0" + "".join("1" if it == wanted else "0" for it in reversed(letters)), 2)

    def quiet_nets(self):
        """Under which pairs each net keeps its value all the time, since no changing input leads to it."""
        ends = [*CONSTANTS, *self.chip.inputs.values()]
        found = {net: self.every ^ self.first[net] ^ self.last[net] for net in ends if self.count}
        for place in self.chip.order if self.count else []:
            gate, quiet = self.chip.gates[place], self.every
            for net in gate.inputs:
                quiet &= found[net]
            found.update((net, quiet) for net in gate.outputs)
        return found

    def showing(self, place):
        """A function from rows to the pairs that may show a defect, and those that surely do, by output."""
        nets, sure = self.chip.gates[place].inputs, self.every if self.chip.is_static else 0
        for net in nets:
            sure &= self.first[net] ^ self.last[net] | self.still[net]
        firsts, lasts = (minterms([it[net] for net in nets], self.every) for it in (self.first, self.last))
        flips = Flips(self.chip, place, self.last, self.every)

        def shown(rows):
            may, must = collections.defaultdict(int), collections.defaultdict(int)
            for row in rows:
                given = firsts[row.first] & lasts[row.last]
                for name, mask in flips.at(row).items() if given else ():
                    may[name] |= given & mask
                    must[name] |= given & mask & sure if row.unknown == 0 else 0
            return may, must

        return shown


class Exhausted:
    """All vectors of some inputs, as numbers whose digits they are, and the values of nets under each."""

    def __init__(self, chip, names, order):
        self.chip, self.count = chip, len(names)
        self.every = (1 << (1 << self.count)) - 1
        blocks = [1 << (self.count - k - 1) for k in range(self.count)]
        inputs = {name: self.every - self.every // ((1 << it) + 1) for name, it in zip(names, blocks)}
        self.values = chip.values(inputs, self.every, order)

    def ways(self, place, whole):
        """A function from rows to pairs of masks: the first and the last vectors that give a row; the last
        ones of a whole chip are such that its flip is seen."""
        pins = minterms([self.values[net] for net in self.chip.gates[place].inputs], self.every)
        flips = Flips(self.chip, place, self.values, self.every)

        def possible(rows):
            found = []
            for row in rows:
                first, last = pins[row.first], pins[row.last]
                if first and last and whole:
                    last &= either(flips.at(row).values())
                if first and last:
                    found.append((first, last))
            return found

        return possible

    def digits(self, mask):
        """The bit of each number, as a text."""
        return "".join(reversed(bin(mask | 1 << (1 << self.count))[3:]))

    def pairs(self, stil, pairs):
        """Pairs of numbers as they stand in a text of patterns, of a whole chip."""
        columns = [[self.digits(self.values[nets[it]]) for it in names]
                   for names, nets in zip(stil.names, (self.chip.inputs, self.chip.outputs))]
        letters = str.maketrans("01", "LH")
        for first, last in pairs:
            vectors = ["".join(column[it] for column in columns[0]) for it in (first, last)]
            yield (*vectors, "".join(column[last] for column in columns[1]).translate(letters))


def members(mask):
    """The numbers of the bits that are set."""
    return [k for k, digit in enumerate(reversed(bin(mask)[2:])) if digit == "1"]


def candidates(ways, inputs, draw):
    """The pairs of some ways, and whether they are a sample."""
    parts = [(members(first), members(last)) for first, last in ways]
    sizes = [len(first) * len(last) for first, last in parts]
    if sum(sizes) <= SAMPLE:
        return sorted({pair for first, last in parts for pair in itertools.product(first, last)}), False
    found, steps = set(), [1 << k for k in range(inputs)]
    steps += [a | b for a, b in itertools.combinations(steps, 2)]
    for first, last in parts:
        near, lasts = set(first), draw.sample(last, min(len(last), 2000))
        some = [(it ^ step, it) for it in lasts for step in steps if it ^ step in near]
        found.update(draw.sample(some, min(len(some), SAMPLE // 2 // len(parts))))
    for first, last in draw.choices(parts, sizes, k=SAMPLE - len(found)):
        found.add((draw.choice(first), draw.choice(last)))
    return sorted(found), True


# The checks

class Check:
    """The verdicts of one chip, and what is found of them."""

    def __init__(self, program, name, files, budget, folder):
        self.program, self.name, self.files, self.budget, self.folder = program, name, files, budget, folder
        self.found, self.shown, self.answer = collections.Counter(), set(), ""
        run([program, "atpg", *files, f"{folder}/p.stil", f"{folder}/r.csv", str(budget)])
        self.report = records(f"{folder}/r.csv")
        self.chip = Chip(program, files, folder)
        self.stil = Stil(self.chip, text_of(f"{folder}/p.stil"))

    def tell(self, what, line):
        self.found[what] += 1
        print(f"{self.name}: {what}: {','.join(line)}", file=sys.stderr)

    def defects(self):
        """The lines of the report by gate: the gate's place, and the lines for each set of exposing rows."""
        lines = iter(self.report)
        for place, gate in enumerate(self.chip.gates):
            groups = collections.defaultdict(list)
            for defect, rows in zip(gate.cell.defects, gate.cell.rows):
                line, due = next(lines, []), [gate.name, gate.cell.name, defect]
                if line[:3] != due:
                    sys.exit(f"{self.name}: the report has {','.join(line)} where {','.join(due)} is due")
                groups[rows].append(line)
            yield place, groups
        if next(lines, None):
            sys.exit(f"{self.name}: the report is longer than the chip's list of defects")

    def listed(self):
        """Looks at what is credited and what is unexposable, by the listed pairs."""
        pairs = Listed(self.chip, self.stil)
        self.found.update({"pairs": pairs.count, "expected-wrong": pairs.wrong, "defects": len(self.report)})
        for place, groups in self.defects():
            shown = pairs.showing(place) if pairs.count else None
            for rows, lines in groups.items():
                may, must = shown(rows) if shown and rows else ({}, {})
                for line in lines:
                    self.found[line[3]] += 1
                    if (line[3] == "unexposable") != (rows == ()):
                        self.tell("unexposable-wrong", line)
                    self.credit(line, may, must)

    def credit(self, line, may, must):
        """Looks at one defect: the pairs that may show it and those that surely do, by output."""
        surely, before, is_late = either(must.values()), -1, False
        if line[3] == "credited":
            pair, outputs = int(line[4]), list(self.chip.outputs)
            before = (1 << pair) - 1
            is_late = any(must.get(it, 0) >> pair & 1 for it in outputs[:outputs.index(line[5])])
            if not may.get(line[5], 0) >> pair & 1:
                self.tell("credited-wrong", line)
            self.found["possibly-earlier"] += 1 if either(may.values()) & before else 0
        if surely & before or is_late:
            self.tell("surely-earlier", line)

    def exhaust(self):
        """Looks at what is untestable or aborted, by all vectors of the chip or of what leads to the pins."""
        names, whole, waiting = list(self.chip.inputs), None, []
        if len(names) <= MOST_INPUTS:
            whole = Exhausted(self.chip, names, self.chip.order)
        for place, groups in self.defects():
            groups = {rows: [it for it in lines if it[3] in RULED_OUT] for rows, lines in groups.items()}
            possible = self.possible(place, whole) if any(groups.values()) else None
            for rows, lines in groups.items():
                ways = possible(rows) if possible and lines else []
                if ways and whole:
                    waiting.append((lines, ways))
                    continue
                ruled_out = possible and not ways
                for line in lines:
                    self.found[RULED_OUT[line[3]] if ruled_out else f"{line[3]}-not-exhausted"] += 1
        self.judge(waiting, whole)

    def possible(self, place, whole):
        """A function from rows to the ways in which they are possible; none where too many inputs are."""
        if whole:
            return whole.ways(place, True)
        names, order = self.chip.cone(place)
        return Exhausted(self.chip, names, order).ways(place, False) if len(names) <= MOST_INPUTS else None

    def judge(self, waiting, whole):
        """Has `grade` try candidates for the defects that have possible rows."""
        draw, batch = random.Random(1), []
        for lines, ways in waiting:
            pairs, is_sample = candidates(ways, whole.count, draw)
            self.found["sampled"] += len(lines) if is_sample else 0
            if len(batch) + len(pairs) > MOST_PAIRS:
                self.grade(batch, whole)
                batch = []
            batch += pairs
        if batch:
            self.grade(batch, whole)
        for line in [it for lines, _ in waiting for it in lines]:
            is_shown = tuple(line[:3]) in self.shown
            if line[3] == "aborted":
                self.found["aborted-detected" if is_shown else "aborted-open"] += 1
            elif is_shown:
                self.tell("untestable-wrong", line)
            else:
                self.found["untestable-by-grade"] += 1

    def grade(self, pairs, whole):
        """Has `grade` say which defects some pairs show, and keeps those that are credited."""
        stil, report = f"{self.folder}/candidates.stil", f"{self.folder}/graded.csv"
        with open(stil, "w", encoding="latin-1") as file:
            file.write(self.stil.text(whole.pairs(self.stil, pairs)))
        run([self.program, "grade", *self.files, stil, report])
        self.shown |= {tuple(it[:3]) for it in records(report) if it[3] == "credited"}

    def certificate(self):
        """Compares the claims of a certificate with the verdicts, and has `verify` judge it."""
        stil, cert = f"{self.folder}/c.stil", f"{self.folder}/c.txt"
        run([self.program, "certify", *self.files, stil, cert, str(self.budget)])
        claims = text_of(cert).splitlines()[1:]
        if text_of(stil) != text_of(f"{self.folder}/p.stil"):
            self.tell("claims-wrong", ["the patterns of certify aren't those of atpg"])
        if len(claims) != len(self.report):
            self.tell("claims-wrong", [f"{len(claims)} claims of {len(self.report)} defects"])
        letters = {"unexposable": "x", "untestable": "ua", "aborted": "a"}
        outputs = list(self.chip.outputs)
        for line, claim in zip(self.report, claims):
            said = claim.split()
            if line[3] == "credited":
                is_same = said[0] == "c" and said[1] == line[4] and outputs[int(said[2])] == line[5]
            else:
                is_same = said[0] in letters[line[3]]
            if not is_same:
                self.tell("claims-wrong", [*line, claim[:60]])
        self.answer = run([self.program, "verify", *self.files, stil, cert])

    def is_contradicted(self):
        return any(self.found[it] for it in WRONG) or self.answer != "yes"

    def record(self):
        counts = [self.found[it] for it in COLUMNS]
        return [self.name, self.budget, len(self.chip.inputs), *counts, self.answer, self.found["sampled"]]


def files_of(name, folder):
    """The library, the netlist and the scan table of a chip, which is mapped where it isn't an example."""
    if name in EXAMPLES:
        at, (cells, table) = f"{TOP}/examples", EXAMPLES[name]
        return [f"{at}/{cells}", f"{at}/{name}.v", table if table == "-" else f"{at}/{table}"]
    if name in DESIGNS:
        return [library(folder), *netlist_of(folder, name, DESIGNS[name])]
    if name in ("mult8_fa", "mult16_fa", "mac16_fa"):
        return [library(folder), *of_adders(folder, name[:-3], name == "mac16_fa")]
    if name != "aes":
        sys.exit(f"no chip {name}")
    path, table = netlist_of(folder, "aes", True, "-nordff")
    netlist = f"{folder}/aes_plain.v"
    with open(netlist, "w") as plain:
        subprocess.run([f"{TOP}/tools/plain_netlist.py", path], stdout=plain, check=True)
    return [library(folder), netlist, table]


def main():
    parser = argparse.ArgumentParser(usage=__doc__)
    parser.add_argument("program")
    parser.add_argument("chips", nargs="*")
    parser.add_argument("--budget", type=int, default=64)
    parser.add_argument("--list")
    args = parser.parse_args()
    lines = text_of(args.list).splitlines() if args.list else []
    listed = {name: files for name, *files in map(str.split, filter(str.strip, lines))}
    writer, status = csv.writer(sys.stdout, lineterminator="\n"), 0
    writer.writerow(["chip", "budget", "inputs", *COLUMNS, "verify", "sampled", "seconds"])
    for name in args.chips or listed or [*EXAMPLES, *([*DESIGNS, "mult8_fa"] if os.path.isdir(OSU) else [])]:
        began = time.time()
        with tempfile.TemporaryDirectory() as folder:
            files = listed.get(name) or files_of(name, folder)
            check = Check(os.path.abspath(args.program), name, files, args.budget, folder)
            check.listed()
            check.exhaust()
            check.certificate()
        status = 1 if check.is_contradicted() else status
        writer.writerow([*check.record(), f"{time.time() - began:.0f}"])
        sys.stdout.flush()
    sys.exit(status)


if __name__ == "__main__":
    main()
