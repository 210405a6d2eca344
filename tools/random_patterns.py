#!/usr/bin/env python3
"""Makes random patterns for a chip, in the form that `cellaware grade` reads, with what a simulation of the good chip says.

usage: random_patterns.py PATTERNS.stil COUNT [--seed N] > unknown.stil
       random_patterns.py unknown.stil --seen SEEN.txt > random.stil

PATTERNS.stil is any file of patterns of the chip, whose signals and chains are taken over. The first call makes random pairs
that expect nothing. The simulation of these (`tools/stil_testbench.py --seen SEEN.txt`) writes what the good chip gives, and the
second call puts it in as what is expected. Python 3.9 or later, no packages.
"""
import argparse
import random
import re
import sys

LEVEL = {"0": "L", "1": "H"}


class Form:
    """The head of a file of patterns, its groups, and the lengths of its chains."""

    def __init__(self, text):
        self.head, _, self.rest = text.partition('  "pair 0":')
        block = re.search(r"SignalGroups \{\n(.*?)\n\}", self.head, re.S).group(1)
        groups = {name: re.findall(r'"([^"]+)"', members) for name, members in re.findall(r"\"([^\"]+)\"='([^']*)';", block)}
        self.ports, self.outputs = len(groups.get("_pi_", [])), len(groups.get("_po_", []))
        self.scan_ins, self.scan_outs = groups.get("_si_", []), groups.get("_so_", [])
        self.lengths = [int(it) for it in re.findall(r"ScanLength (\d+);", self.head)]
        self.longest = max(self.lengths, default=0)
        signals = re.findall(r'"([^"]+)" Out;', self.head)
        self.place = {it: k for k, it in enumerate(signals)}
        self.observed = [self.place[it] for it in groups.get("_po_", [])]

    def apply(self, vector, expected):
        held = ' "_ctl_"=000;' if self.lengths else ""
        driven = f' "_pi_"={vector};' if self.ports else ""
        compared = f' "_po_"={expected};' if self.outputs else ""
        return f"V {{{held}{driven}{compared} }}\n"

    def shift(self, states, expected):
        loaded = "".join(f' "{it}"={state};' for it, state in zip(self.scan_ins, states))
        compared = "".join(f' "{it}"={levels};' for it, levels in zip(self.scan_outs, expected))
        return f'Macro "_shift_" {{{loaded}{compared} }}\n'

    def capture(self):
        compared = f' "_po_"={"X" * self.outputs};' if self.outputs else ""
        return f'V {{ "_ctl_"=0P1;{compared} }}\n'

    def pair(self, number, halves, expected, kept):
        """The statements of a pair: of each half the states of the chains and the vector; what is expected at the ports and kept."""
        label, (first, last), nothing = f'  "pair {number}": ', halves, ["X" * self.longest] * len(self.lengths)
        if not self.lengths:
            return label + self.apply(first[1], "X" * self.outputs) + "  " + self.apply(last[1], expected)
        zeros = ["0" * self.longest] * len(self.lengths)
        return (label + self.shift(first[0], nothing) + "  " + self.apply(first[1], "X" * self.outputs)
                + "  " + self.shift(last[0], nothing) + "  " + self.apply(last[1], expected)
                + "  " + self.capture() + "  " + self.shift(zeros, kept))


def bits(source, count):
    return f"{source.getrandbits(count):0{count}b}" if count else ""


def drawn(form, source):
    """A random half of a pair."""
    return [bits(source, it).rjust(form.longest, "0") for it in form.lengths], bits(source, form.ports)


def halves_of(form, block):
    """The two halves of a pair that stands in a file."""
    words = [re.findall(r'"([^"]+)"=([01PLHX]+);', line) for line in block.split("\n")]
    vectors = [dict(it)["_pi_"] for it in words if "_pi_" in dict(it)] or ["", ""]
    states = [[dict(it)[one] for one in form.scan_ins] for it in words if form.scan_ins and form.scan_ins[0] in dict(it)] or [[], []]
    return [(states[k], vectors[k]) for k in (0, 1)]


def seen_levels(form, lines):
    """What the lines of one pair say of the ports, and of what the chains keep."""
    applied = int(lines[3 if form.lengths else 1].replace("x", "0").replace("z", "0"), 2)
    if re.search("[xz]", "".join(lines[3:] if form.lengths else lines[1:])):
        sys.exit("the simulation saw an unknown value: no pattern can be made of it")
    ports = "".join(LEVEL[str(applied >> it & 1)] for it in form.observed)
    kept = int(lines[5], 2) if form.lengths else 0
    count = len(form.lengths)
    chains = ["".join(LEVEL[str(kept >> (place * count + k) & 1)] if place < length else "X" for place in range(form.longest))
              for k, length in enumerate(form.lengths)]
    return ports, chains


def main():
    parser = argparse.ArgumentParser(usage=__doc__)
    parser.add_argument("patterns")
    parser.add_argument("count", nargs="?", type=int)
    parser.add_argument("--seed", type=int, default=1)
    parser.add_argument("--seen")
    asked = parser.parse_args()
    if (asked.count is None) == (asked.seen is None):
        sys.exit(__doc__)
    with open(asked.patterns, encoding="utf-8") as file:
        form = Form(file.read())
    sys.stdout.write(form.head)
    if asked.seen is None:
        source = random.Random(asked.seed)
        nothing = ["X" * form.longest] * len(form.lengths)
        for number in range(asked.count):
            halves = [drawn(form, source), drawn(form, source)]
            sys.stdout.write(form.pair(number, halves, "X" * form.outputs, nothing))
    else:
        with open(asked.seen, encoding="utf-8") as file:
            lines = file.read().split()
        each = 6 if form.lengths else 2
        for number, block in enumerate(re.split(r'  "pair \d+":', form.rest) if form.rest else []):
            halves = halves_of(form, block)
            sys.stdout.write(form.pair(number, halves, *seen_levels(form, lines[each * number : each * number + each])))
    sys.stdout.write("}\n")


if __name__ == "__main__":
    main()
