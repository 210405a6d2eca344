#!/usr/bin/env python3
"""Writes random pairs for the multiplier `mult8` of bench/rtl as patterns, with what is expected of them.

usage: bench/random_pairs.py MULT8.stil COUNT [SEED] > random.stil

MULT8.stil is any file of patterns that `cellaware atpg` wrote for mult8: its head is taken over. The ports are a, b and p,
each from its bit 7 or 15 down to 0, and p is the product. Python 3.9 or later, no packages.
"""
import random
import re
import sys


def bits(value, count):
    return f"{value:0{count}b}"


def main():
    if len(sys.argv) not in (3, 4):
        sys.exit(__doc__)
    with open(sys.argv[1], encoding="utf-8") as file:
        head = file.read().split('  "pair 0":')[0]
    if not re.search(r'"p\[0\]" Out;', head) or not re.search(r'"b\[0\]" In;', head):
        sys.exit(f"{sys.argv[1]}: no patterns of mult8")
    source = random.Random(int(sys.argv[3]) if len(sys.argv) == 4 else 1)
    out = [head]
    for pair in range(int(sys.argv[2])):
        first, a, b = source.getrandbits(16), source.getrandbits(8), source.getrandbits(8)
        wanted = bits(a * b, 16).translate({48: "L", 49: "H"})
        out.append(f'  "pair {pair}": V {{ "_pi_"={bits(first, 16)}; "_po_"={"X" * 16}; }}\n'
                   f'  V {{ "_pi_"={bits(a, 8)}{bits(b, 8)}; "_po_"={wanted}; }}\n')
    sys.stdout.write("".join(out) + "}\n")


if __name__ == "__main__":
    main()
