#!/usr/bin/env python3
"""Changes one claim of a certificate into a false one, and looks that `verify` names it.

usage: bench/false_claims.py PROGRAM COUNT [--gates N] [--chips N] [--budget N] [--seed N]

Each chip is a netlist of N gates of examples/cells.sp, drawn at random. `certify` makes its patterns and its certificate,
and `verify` has to answer `yes` to them. Then COUNT times in all one claim is exchanged for one that is false, as the
certificate itself says what is true: a credited defect is claimed with another pair or output, as unexposable, as
untestable or as aborted; an unexposable one as anything else; an untestable or an aborted one as credited or as
unexposable. `verify` has to answer `no K` with the place of this claim. The last line counts the answers; the exit status
is 1 where one was another. Python 3.9 or later, no packages.
"""
import argparse
import os
import random
import subprocess
import sys
import tempfile

TOP = os.path.dirname(os.path.dirname(os.path.abspath(__file__)))
GATES = {"INV": ["A"], "NAND2": ["A1", "A2"], "NOR2": ["A1", "A2"], "AND2": ["A1", "A2"], "XOR2": ["A", "B"]}
OUT = {"INV": "ZN", "NAND2": "ZN", "NOR2": "ZN", "AND2": "Z", "XOR2": "Z"}


def netlist(count, draw):
    """A module of so many gates: each pin on an input or on a gate before; what nothing reads is an output."""
    inputs = [f"i{k}" for k in range(2 + count // 8)]
    nets, gates, read = list(inputs), [], set()
    for k in range(count):
        cell = draw.choice(list(GATES))
        pins = {pin: draw.choice(nets[-12:] if draw.random() < 0.8 else nets) for pin in GATES[cell]}
        read.update(pins.values())
        gates.append((cell, k, pins))
        nets.append(f"n{k}")
    inputs = [it for it in inputs if it in read]
    outputs = [f"n{k}" for k in range(count) if f"n{k}" not in read]
    wires = [f"n{k}" for k in range(count) if f"n{k}" in read]
    lines = [f"module drawn ({', '.join(inputs + outputs)});"]
    lines += [f"  input {it};" for it in inputs] + [f"  output {it};" for it in outputs] + [f"  wire {it};" for it in wires]
    for cell, k, pins in gates:
        ways = ", ".join(f".{pin}({net})" for pin, net in {**pins, OUT[cell]: f"n{k}"}.items())
        lines.append(f"  {cell} g{k} ({ways});")
    return "\n".join(lines + ["endmodule", ""])


def code(draw):
    """Tokens of a code, not a right one but by chance."""
    return " ".join(draw.choice([".", f"+{draw.randrange(8)}", f"-{draw.randrange(8)}"]) for _ in range(draw.randrange(1, 6)))


def false_claim(line, draw):
    """A claim that is false, as the line is true."""
    ways = [lambda: f"c {draw.randrange(20)} {draw.randrange(4)}", lambda: "x"]
    if line[0] in "cx":
        ways += [lambda: f"u {code(draw)}", lambda: f"a {code(draw)}", lambda: "a"]
    while True:
        other = draw.choice(ways)()
        if other != line:
            return other


def answer(words):
    done = subprocess.run(words, capture_output=True, text=True)
    if done.returncode != 0:
        sys.exit(f"{' '.join(words)}: {done.stderr.strip()}")
    return done.stdout.strip()


def main():
    parser = argparse.ArgumentParser(usage=__doc__)
    parser.add_argument("program")
    parser.add_argument("count", type=int)
    parser.add_argument("--gates", type=int, default=24)
    parser.add_argument("--chips", type=int, default=20)
    parser.add_argument("--budget", type=int, default=64)
    parser.add_argument("--seed", type=int, default=1)
    given = parser.parse_args()
    draw, program, wrong = random.Random(given.seed), os.path.abspath(given.program), 0
    with tempfile.TemporaryDirectory() as folder:
        chip, stil, cert, changed = (os.path.join(folder, it) for it in ("chip.v", "p.stil", "c.txt", "d.txt"))
        files = [os.path.join(TOP, "examples", "cells.sp"), chip, "-"]
        for number in range(given.chips):
            with open(chip, "w", encoding="ascii") as file:
                file.write(netlist(given.gates, draw))
            answer([program, "certify", *files, stil, cert, str(given.budget)])
            said = answer([program, "verify", *files, stil, cert])
            if said != "yes":
                sys.exit(f"chip {number}: verify answers {said} to what certify wrote")
            with open(cert, encoding="ascii") as file:
                head, *claims = file.read().splitlines()
            for _ in range(given.count // given.chips):
                place = draw.randrange(len(claims))
                others = list(claims)
                others[place] = false_claim(claims[place], draw)
                with open(changed, "w", encoding="ascii") as file:
                    file.write("\n".join([head, *others, ""]))
                said = answer([program, "verify", *files, stil, changed])
                if said != f"no {place}":
                    wrong += 1
                    print(f"chip {number}, claim {place}, {claims[place]!r} as {others[place]!r}: {said}")
    print(f"{given.chips} chips, {given.count // given.chips * given.chips} false claims, {wrong} not found")
    return 1 if wrong else 0


if __name__ == "__main__":
    sys.exit(main())
