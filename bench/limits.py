#!/usr/bin/env python3
"""Tries texts at a limit, and past it by one: what is at the limit is read, and what is past it is refused by name.

usage: bench/limits.py PROGRAM

It prints a CSV record for each text: what it is, what the program says, its user seconds and its memory in MiB. The
largest texts have 256 MiB, and are written to the system's folder for temporary files. Python 3.9 or later, no
packages. The status is 1 where something is said that isn't expected.
"""
import csv
import os
import resource
import subprocess
import sys
import tempfile

HERE = os.path.dirname(os.path.abspath(__file__))
EXAMPLES = f"{os.path.dirname(HERE)}/examples"
MIB = 1 << 20


def run(words):
    """What a command says, its user seconds and the most memory that it or one before took, in MiB."""
    before = resource.getrusage(resource.RUSAGE_CHILDREN).ru_utime
    done = subprocess.run(words, capture_output=True, text=True)
    after = resource.getrusage(resource.RUSAGE_CHILDREN)
    said = (done.stdout.strip() or done.stderr.strip()).split("\n")
    return said, after.ru_utime - before


def padded(path, text, size, fill):
    """A file of this size: the text's two parts, and in between as often as it takes what is filled in."""
    head, tail = text
    with open(path, "wb") as out:
        out.write(head)
        left = size - len(head) - len(tail)
        block = fill * (MIB // len(fill))
        while left >= len(block):
            out.write(block)
            left -= len(block)
        out.write((fill * (left // len(fill) + 1))[:left])
        out.write(tail)


def chain(devices):
    """A cell of this many transistors: inverters in a row, and one transistor that is always off."""
    lines = [".SUBCKT ROW A Z VDD VSS", "*.PININFO A:I Z:O VDD:P VSS:G"]
    before = "A"
    for k in range(devices // 2):
        after = "Z" if k + 1 == devices // 2 else f"n{k}"
        lines += [f"MP{k} {after} {before} VDD VDD PMOS W=2 L=1", f"MN{k} {after} {before} VSS VSS NMOS W=1 L=1"]
        before = after
    if devices % 2:
        lines.append("MOFF Z VSS VSS VSS NMOS W=1 L=1")
    return "\n".join(lines + [".ENDS", ""])


def rows(program, folder):
    cells, chip = f"{EXAMPLES}/cells.sp", [f"{EXAMPLES}/cells.sp", f"{EXAMPLES}/inv.v", "-"]
    stil, cert, other = f"{folder}/p.stil", f"{folder}/p.cert", f"{folder}/text"
    subprocess.run([program, "certify", *chip, stil, cert, "3"], stdout=subprocess.DEVNULL, check=True)
    with open(stil, "rb") as file:
        patterns = file.read()
    grade = [program, "grade", *chip, other, f"{folder}/g.csv"]
    graded = "defects 9, credited 6, unexposable 3, uncredited 0, pairs 2"
    for size in (256 * MIB, 256 * MIB + 1):
        padded(other, (patterns[:-1], b"\n"), size, b" ")
        wanted = graded if size == 256 * MIB else f"cellaware: file too long: {other}"
        yield f"patterns of {size:,} bytes", wanted, grade
    head = patterns.split(b'  "pair 0":')[0].decode()
    for pairs in (65_536, 65_537):
        with open(other, "w") as out:
            out.write(head)
            for pair in range(pairs):
                out.write(f'  "pair {pair}": V {{ "_pi_"=1; "_po_"=X; }}\n  V {{ "_pi_"=0; "_po_"=H; }}\n')
            out.write("}\n")
        wanted = f"defects 9, credited 3, unexposable 3, uncredited 3, pairs {pairs}"
        yield f"{pairs:,} pairs", wanted if pairs == 65_536 else f"cellaware: limit: Pairs {pairs}", grade
    verify = [program, "verify", *chip, stil, other]
    for size in (256 * MIB, 256 * MIB + 1):
        # one claim, with a code of many leaves
        padded(other, (b"cellaware certificate 1 budget 3\nu", b" .\n" if size % 2 else b" +0 .\n"), size, b" .")
        wanted = "cellaware: certificate: 1 claims" if size == 256 * MIB else f"cellaware: file too long: {other}"
        yield f"a certificate of {size:,} bytes", wanted, verify
    log = [program, "diagnose", *chip, stil, other, f"{folder}/c.csv"]
    for size in (16 * MIB, 16 * MIB + 1):
        padded(other, (b"pair,output\n", b"\n"), size, b"0,z\n")
        wanted = "cellaware: log: record" if size == 16 * MIB else f"cellaware: file too long: {other}"
        yield f"a log of {size:,} bytes", wanted, log
    for devices in (192, 193):
        with open(other, "w") as out:
            out.write(chain(devices))
        wanted = "" if devices == 192 else "cellaware: cell ROW: TooManyDevices"
        yield f"a cell of {devices} transistors", wanted, [program, "defects", other, "ROW"]


def main():
    if len(sys.argv) != 2:
        sys.exit(__doc__)
    program, others = os.path.abspath(sys.argv[1]), 0
    writer = csv.writer(sys.stdout)
    writer.writerow(["text", "what is said", "user seconds"])
    with tempfile.TemporaryDirectory() as folder:
        for text, wanted, words in rows(program, folder):
            said, used = run(words)
            if not said[0].startswith(wanted):
                others += 1
            shown = said[0] if len(said) == 1 else f"{said[0]} .. ({len(said):,} lines)"
            writer.writerow([text, shown.replace(f"{folder}/", ""), f"{used:.2f}"])
    sys.exit(1 if others else 0)


if __name__ == "__main__":
    main()
