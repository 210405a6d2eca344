"""Twenty random pairs for c17, after the head of p.stil, with what the good chip ends with as expected values."""
import random, subprocess
draw = random.Random(1)
print(open("p.stil").read().split('  "pair 0"')[0], end="")
for pair in range(20):
    first, last = ("".join(draw.choice("01") for _ in range(5)) for _ in "12")
    words = ["cellaware", "simulate", "cells.sp", "c17.v", "-", "-", "-", first, last]
    said = subprocess.run(words, capture_output=True, text=True).stdout
    ends = "".join("LHX"["01X".index(line.split()[1])] for line in said.splitlines())
    print(f'  "pair {pair}": V {{ "_pi_"={first}; "_po_"=XX; }}')
    print(f'  V {{ "_pi_"={last}; "_po_"={ends}; }}')
print("}")
