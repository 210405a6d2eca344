#!/usr/bin/env python3
"""Changes the texts of a chip at random and runs `cellaware check` over them: it must end with a named answer.

usage: fuzz_texts.py PROGRAM COUNT [SEED] [sp|v|csv|stil|log|cert|order]

Each run takes one of the chips of examples/ (c17 with cells.sp, acc with fa28.sp and scan.csv, or wires with extracted.sp, whose cells have resistors), or the text of a run
(glitch.v with falls.order, under `replay`), or the patterns that `atpg` writes for either chip (under `grade`), with the log of
a tester (`diagnose`) or a certificate (`verify`), or c17 under a strength table, and changes one to four places of one of its
texts, or of its texts of the kind that is named: a byte, a token, a line or a piece is put in, left out, doubled or exchanged. The program must end within ten seconds with one of its statuses: 0 and a line of counts or
values; 1 to 3 with one line on the standard error that begins with `cellaware: `, or a second one after two blanks.
Anything else is reported with its texts and counts.
Python 3.9 or later, no packages.
"""
import collections
import functools
import os
import random
import re
import subprocess
import sys
import tempfile

TOP = os.path.dirname(os.path.dirname(os.path.abspath(__file__)))
CHIPS = [
    (None, "check", ["cells.sp", "c17.v", None], [], []),
    (None, "check", ["fa28.sp", "acc.v", "scan.csv"], [], []),
    ("strengths.csv", "check", ["cells.sp", "c17.v", None], [], []),
    (None, "check", ["extracted.sp", "wires.v", None], [], []),
    (None, "replay", ["cells.sp", "glitch.v", None, "falls.order"], ["u5", "MP1(D)", "111", "001"], []),
    (None, "grade", ["cells.sp", "c17.v", None, "c17.stil"], [], ["r.csv"]),
    (None, "grade", ["fa28.sp", "acc.v", "scan.csv", "acc.stil"], [], ["r.csv"]),
    (None, "diagnose", ["cells.sp", "c17.v", None, "c17.stil", "c17.log"], [], ["c.csv"]),
    (None, "verify", ["cells.sp", "c17.v", None, "c17.stil", "c17.cert"], [], []),
    (None, "verify", ["fa28.sp", "acc.v", "scan.csv", "acc.stil", "acc.cert"], [], []),
]
LOG = b"pair,output\n0,N22\n1,N23\n2,N22\n"
STRAY = [b"\x00", b"\xff", b"\r", b"`", b"/*", b"*/", b"//", b"(*", b"*)", b"[", b"]", b"(", b")", b".", b",", b";", b"1'b0", b"1'b1", b"assign ",
         b"input ", b"output ", b"wire ", b"endmodule", b"module ", b"+", b"*", b"$", b".ENDS\n", b".SUBCKT A B\n", b"*.PININFO B:I\n", b"=",
         b"H", b"L", b"'", b"{", b"}", b"V { }", b'"pair 2": ', b"ScanLength 3;", b"[131071:0]", b"[131072:0]", b"99999999999999999999", b"\\a ", b"\"", b"X", b"settle ", b"set ", b"blur ",
         b"width,length\n", b"1000000", b"1000001", b"0", b"pair,output\n", b"0,N22\n", b"c 0 0\n", b"u .\n", b"R3 A N1 1\n", b"R4 ZN VDD 1\n", b"a\n", b"x\n", b" +1", b" -8191", b" ."]


@functools.lru_cache(64)
def spans_of(text):
    """Where the tokens of a text stand, its lines and its bytes."""
    tokens = [(m.start(), m.end()) for m in re.finditer(rb"[A-Za-z0-9_.]+|\s+|.", text, re.S)]
    lines = [(m.start(), m.end()) for m in re.finditer(rb"[^\n]*\n|[^\n]+$", text)]
    return tokens, lines, [(k, k + 1) for k in range(len(text))]


def changed(text, draw):
    """The text with one place changed."""
    tokens, lines, each = spans_of(text)
    spans = draw.choice([tokens, tokens, lines, each])
    if not spans:
        return draw.choice(STRAY)
    start, end = draw.choice(spans)
    kind = draw.randrange(5)
    if kind == 0:
        return text[:start] + text[end:]
    if kind == 1:
        return text[:end] + text[start:end] + text[end:]
    if kind == 2:
        other = draw.choice(spans)
        return text[:start] + text[other[0]:other[1]] + text[end:]
    if kind == 3:
        return text[:start] + draw.choice(STRAY) + text[start:]
    return text[:start]


def patterns(program, names, folder):
    """The patterns that `certify` writes for a chip of examples/, and its certificate."""
    files = [os.path.join(TOP, "examples", name) if name else "-" for name in names[:3]]
    found = []
    subprocess.run([program, "certify", *files, os.path.join(folder, "stil"), os.path.join(folder, "cert"), "64"], check=True, capture_output=True)
    for name in ("stil", "cert"):
        with open(os.path.join(folder, name), "rb") as file:
            found.append(file.read())
    return found


def main():
    if len(sys.argv) not in (3, 4, 5):
        sys.exit(__doc__)
    program, count = os.path.abspath(sys.argv[1]), int(sys.argv[2])
    draw = random.Random(int(sys.argv[3]) if len(sys.argv) > 3 else 1)
    kind = f".{sys.argv[4]}" if len(sys.argv) == 5 else ""
    chips = [it for it in CHIPS if any(name and name.endswith(kind) for name in [it[0], *it[2]])]
    texts = {}
    with tempfile.TemporaryDirectory() as folder:
        for _, command, names, _, _ in CHIPS:
            if command == "grade":
                chip = names[3].removesuffix(".stil")
                texts[names[3]], texts[f"{chip}.cert"] = patterns(program, names, folder)
    texts["c17.log"] = LOG
    for table, _, names, _, _ in CHIPS:
        for name in filter(lambda it: it and it not in texts, [table, *names]):
            with open(os.path.join(TOP, "examples", name), "rb") as file:
                texts[name] = file.read()
    ends, odd = collections.Counter(), 0
    with tempfile.TemporaryDirectory() as folder:
        os.chdir(folder)
        for number in range(count):
            table, command, names, words, last = chips[number % len(chips)]
            given = {name: texts[name] for name in [table, *names] if name}
            name = draw.choice([it for it in given if it.endswith(kind)])
            for _ in range(draw.randrange(1, 5)):
                given[name] = changed(given[name], draw)
            for it, text in given.items():
                with open(it, "wb") as file:
                    file.write(text)
            prefix = ["strengths", table] if table else []
            line = [program, *prefix, command, *[it or "-" for it in names[:3]], *words, *names[3:], *last]
            try:
                ran = subprocess.run(line, stdin=subprocess.DEVNULL, capture_output=True, timeout=10)
                status, said = ran.returncode, ran.stderr
            except subprocess.TimeoutExpired:
                status, said = "no end", b""
            told = re.match(rb"cellaware: ([a-z ]+)", said)
            whole = status == 0 and not said and ran.stdout.endswith(b"\n")
            lines = re.fullmatch(rb"cellaware: [^\n]+\n(  [^\n]+\n)?", said)
            refused = status in (1, 2, 3) and told and lines and not ran.stdout
            ends[f"{status} {told.group(1).decode().strip() if told else 'done' if whole else '?'}"] += 1
            if not whole and not refused:
                odd += 1
                print(f"run {number}: {line}: status {status}: {said!r}", file=sys.stderr)
    for end, times in sorted(ends.items()):
        print(f"{times:8d} {end}")
    print(f"{count} texts, {odd} without a named answer")
    return 1 if odd else 0


if __name__ == "__main__":
    sys.exit(main())
