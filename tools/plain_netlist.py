#!/usr/bin/env python3
"""Turns a gate netlist as other tools write it into the form that `cellaware` reads (docs/FORMATS.md, "Gate netlists").

usage: plain_netlist.py NETLIST.v [--power NAMES] [--ground NAMES] > plain.v

What it turns: directions and ranges in the module's header; `assign` of concatenations, repetitions, part selects and
constants of any base, bit by bit; constants, vectors of one bit and selects of one bit on pins; nets that only
instances name, which become wires; `supply0` and `supply1`; several instances in one statement. With --power and
--ground, pins and ports of these names (split by commas) are left out, and what else they drive becomes a constant.

What it can't turn is said by line, and then nothing is written: more than one module, connections by position,
parameters, behaviour (`always`, operators), unknown constants, a wider value on a pin, `inout` that isn't power or
ground. Python 3.9 or later, no packages.
"""
import argparse
import re
import sys

TOKEN = re.compile(
    r"(?P<skip>\s+|//[^\n]*|/\*.*?\*/|\(\*(?!\s*\)).*?\*\)|`(?:timescale|celldefine|endcelldefine|default_nettype|resetall)\b[^\n]*)"
    r"|(?P<name>\\\S+|[A-Za-z_][\w$]*)|(?P<number>\d*\s*'\s*[sS]?[bBoOdDhH]\s*[0-9a-fA-FxXzZ?_]+|\d+)|(?P<sign>.)", re.S)
BITS = {"b": 1, "o": 3, "h": 4}
BEHAVIOUR = {"always", "initial", "function", "task", "parameter", "localparam", "defparam", "reg", "generate", "specify"}


class CannotTurn(Exception):
    """What stands at a line and has no place in the form."""

    def __init__(self, line, why):
        super().__init__(f"line {line}: {why}")


def tokens_of(text):
    """The tokens as (kind, text, line); an escaped name is kept with its backslash, unless it needs none."""
    found, line = [], 1
    for it in TOKEN.finditer(text):
        kind, word = it.lastgroup, it.group()
        if kind == "name" and word.startswith("\\") and re.fullmatch(r"\\[A-Za-z_][\w$]*", word):
            kind, word = "escaped", word[1:]
        elif kind == "name" and word.startswith("\\"):
            kind = "escaped"
        if kind != "skip":
            found.append((kind, word, line))
        line += it.group().count("\n")
    return found + [("end", "the end of the text", line)]


class Net:
    """A declared name: its direction or kind, and its bits from the left, as places of its range (None: a scalar)."""

    def __init__(self, bounds):
        self.bounds, self.kind, self.is_wire = bounds, None, False

    def places(self):
        if self.bounds is None:
            return [None]
        left, right = self.bounds
        return list(range(left, right - 1, -1) if left >= right else range(left, right + 1))


class Reader:
    """Reads one module; `nets` are in the order of their declaration, a bit is (name, place) or a constant 0 or 1."""

    def __init__(self, text, power, ground):
        self.tokens, self.at = tokens_of(text), 0
        self.rails = {**{it: 1 for it in power}, **{it: 0 for it in ground}}
        self.nets, self.ports, self.joins, self.instances = {}, [], [], []

    def peek(self):
        return self.tokens[self.at]

    def is_next(self, word):
        kind, text, _ = self.peek()
        return text == word and kind != "escaped"

    def take(self, word=None):
        kind, text, line = self.peek()
        if word is not None and not self.is_next(word):
            raise CannotTurn(line, f"{text} where {word} is due")
        self.at += 1
        return text

    def takes(self, word):
        if self.is_next(word):
            self.at += 1
            return True
        return False

    def fail(self, why):
        raise CannotTurn(self.peek()[2], why)

    def name(self, what):
        kind, text, line = self.peek()
        if kind not in ("name", "escaped"):
            raise CannotTurn(line, f"{text} where {what} is due")
        self.at += 1
        return text

    def number(self):
        kind, text, line = self.peek()
        if kind != "number" or "'" in text:
            raise CannotTurn(line, f"{text} where a plain number is due")
        self.at += 1
        return int(text)

    def bounds(self):
        """A range, or None."""
        if not self.takes("["):
            return None
        left = self.number()
        self.take(":")
        right = self.number()
        self.take("]")
        return left, right

    def declare(self, name, bounds, kind):
        net = self.nets.setdefault(name, Net(bounds))
        if net.bounds is None and bounds is not None:
            net.bounds = bounds
        if kind == "wire":
            net.is_wire = True
        else:
            net.kind = kind

    # -- the module ------------------------------------------------------------------------------------------------

    def module(self):
        self.take("module")
        self.title = self.name("a module's name")
        if self.is_next("#"):
            self.fail("parameters")
        if self.takes("("):
            self.header()
        self.take(";")
        while not self.takes("endmodule"):
            self.item()
        if self.is_next("module"):
            self.fail("a second module: flatten the design first")

    def header(self):
        kind, bounds = None, None
        while not self.takes(")"):
            if self.peek()[1] in ("input", "output", "inout") and self.peek()[0] == "name":
                kind = self.take()
                while self.takes("wire") or self.takes("logic") or self.takes("signed"):
                    pass
                bounds = self.bounds()
            if self.is_next("."):
                self.fail("a port that isn't a name")
            name = self.name("a port's name")
            self.ports.append(name)
            if kind:
                self.declare(name, bounds, kind)
            self.takes(",")

    def item(self):
        kind, text, line = self.peek()
        if kind == "name" and text in ("input", "output", "inout", "wire", "tri", "supply0", "supply1", "logic"):
            self.declaration(self.take())
        elif kind == "name" and text == "assign":
            self.take()
            self.assign()
            while self.takes(","):
                self.assign()
            self.take(";")
        elif kind == "name" and text in BEHAVIOUR:
            self.fail(f"`{text}`: only instances of cells and `assign` are gates")
        elif kind in ("name", "escaped"):
            self.instances_of(self.take())
        else:
            self.fail(f"{text} where a declaration, `assign` or an instance is due")

    def declaration(self, kind):
        while self.takes("wire") or self.takes("logic") or self.takes("signed"):
            pass
        kind = "wire" if kind in ("tri", "logic") else kind
        bounds = self.bounds()
        while True:
            name = self.name("a net's name")
            self.declare(name, bounds, "wire" if kind.startswith("supply") else kind)
            if kind.startswith("supply"):
                self.joins += [((name, place), int(kind[-1])) for place in self.nets[name].places()]
            elif self.takes("="):
                self.join(self.bits_of(name), self.value())
            if not self.takes(","):
                break
        self.take(";")

    def assign(self):
        left = self.value()
        if any(it in (0, 1) for it in left):
            self.fail("a constant on the left of `assign`")
        self.take("=")
        self.join(left, self.value())

    def join(self, left, right):
        """Joins bit by bit from the right, as Verilog does: what is wider is cut, what is narrower gets zeros."""
        right = right[-len(left):]
        self.joins += list(zip(left, [0] * (len(left) - len(right)) + right))

    def instances_of(self, cell):
        if self.is_next("#"):
            self.fail("parameters of an instance")
        while True:
            name = self.name("an instance's name")
            if self.is_next("["):
                self.fail("an array of instances")
            self.take("(")
            self.instances.append((cell, name, self.pins(name)))
            if not self.takes(","):
                break
        self.take(";")

    def pins(self, name):
        found = []
        while not self.takes(")"):
            if not self.takes("."):
                self.fail(f"a connection of {name} by position: name its pins")
            pin, line = self.name("a pin's name"), self.peek()[2]
            self.take("(")
            bits = [] if self.is_next(")") else self.value()
            self.take(")")
            if len(bits) > 1:
                raise CannotTurn(line, f"{len(bits)} bits on the pin {pin} of {name}")
            if pin not in self.rails:
                found.append((pin, bits[0] if bits else None))
            self.takes(",")
        return found

    # -- values: lists of bits from the left -------------------------------------------------------------------------

    def value(self):
        bits = self.operand()
        if self.peek()[1] in ("&", "|", "^", "~", "+", "-", "?", "=", "!", "<", ">", "*") and not self.is_next("="):
            self.fail(f"the operator {self.peek()[1]}")
        return bits

    def operand(self):
        kind, text, line = self.peek()
        if self.takes("{"):
            return self.concatenation()
        if self.takes("("):
            bits = self.value()
            self.take(")")
            return bits
        if kind == "number":
            self.at += 1
            return constant_bits(text, line)
        if kind not in ("name", "escaped"):
            self.fail(f"the operator {text}" if text in "&|^~+-!" else f"{text} where a value is due")
        return self.selected(self.take())

    def concatenation(self):
        kind, text, _ = self.peek()
        if kind == "number" and "'" not in text and self.tokens[self.at + 1][1] == "{":
            times = self.number()
            self.take("{")
            bits = self.concatenation() * times
            self.take("}")
            return bits
        bits = self.value()
        while self.takes(","):
            bits = bits + self.value()
        self.take("}")
        return bits

    def bits_of(self, name):
        if name in self.rails and (name not in self.nets or self.nets[name].kind == "inout"):
            return [self.rails[name]]
        if name not in self.nets:
            self.declare(name, None, "wire")
        return [(name, place) for place in self.nets[name].places()]

    def selected(self, name):
        bits = self.bits_of(name)
        if not self.takes("["):
            return bits
        if bits[0] in (0, 1) or self.nets[name].bounds is None:
            self.fail(f"a select of {name}, which has no range")
        left = self.number()
        right = self.number() if self.takes(":") else left
        self.take("]")
        places = self.nets[name].places()
        if left not in places or right not in places or places.index(left) > places.index(right):
            self.fail(f"{name}[{left}:{right}] outside the range of {name}")
        return bits[places.index(left):places.index(right) + 1]


def constant_bits(text, line):
    """The bits of a constant; a plain number has 32."""
    if "'" not in text:
        return [int(it) for it in f"{int(text):032b}"[-32:]]
    width, digits = re.sub(r"\s", "", text).lower().replace("'s", "'").split("'")
    base, digits = digits[0], digits[1:].replace("_", "")
    if re.search(r"[xz?]", digits):
        raise CannotTurn(line, f"the unknown constant {text}")
    if base == "d":
        bits = f"{int(digits):b}"
    else:
        bits = "".join(f"{int(it, 16):0{BITS[base]}b}" for it in digits)
    count = int(width) if width else max(32, len(bits))
    return [int(it) for it in bits.zfill(count)[-count:]]


def written(name):
    """A name as the form has it: an escaped one ends at a blank."""
    return f"{name} " if name.startswith("\\") else name


def bit_text(bit):
    if bit in (0, 1):
        return f"1'b{bit}"
    name, place = bit
    return written(name) if place is None else f"{written(name)}[{place}]"


def write(reader, out):
    ports = [it for it in reader.ports if it not in reader.rails]
    out.write(f"module {written(reader.title)}({', '.join(written(it) for it in ports)});\n")
    for name, net in reader.nets.items():
        if name in reader.rails and (net.kind == "inout" or name in reader.ports):
            continue
        bounds = "" if net.bounds is None else f"[{net.bounds[0]}:{net.bounds[1]}] "
        out.write(f"  {net.kind or 'wire'} {bounds}{written(name)};\n")
    for left, right in reader.joins:
        out.write(f"  assign {bit_text(left)} = {bit_text(right)};\n")
    for cell, name, pins in reader.instances:
        uses = ", ".join(f".{written(pin)}({'' if bit is None else bit_text(bit)})" for pin, bit in pins)
        out.write(f"  {written(cell)} {written(name)}({uses});\n")
    out.write("endmodule\n")


def main():
    parser = argparse.ArgumentParser(usage=__doc__)
    parser.add_argument("netlist")
    parser.add_argument("--power", default="")
    parser.add_argument("--ground", default="")
    asked = parser.parse_args()
    with open(asked.netlist, encoding="utf-8") as file:
        text = file.read()
    reader = Reader(text, [it for it in asked.power.split(",") if it], [it for it in asked.ground.split(",") if it])
    try:
        reader.module()
        for name, net in reader.nets.items():
            if net.kind == "inout" and name not in reader.rails:
                raise CannotTurn(1, f"the port {name} is `inout`: name it in --power or --ground if it is a supply")
    except CannotTurn as why:
        sys.exit(f"{asked.netlist}: {why}")
    write(reader, sys.stdout)


if __name__ == "__main__":
    main()
