#!/usr/bin/env python3
"""Gives the subcircuits of a SPICE or CDL library the pin roles that cellaware needs.

usage: add_pin_roles.py LIBRARY [--models FILE.v] --power NAMES --ground NAMES [--nmos NAMES] [--pmos NAMES] > NEW

Writes LIBRARY with one line *.PININFO after each .SUBCKT card. NAMES are separated by commas, in any case.
The role of a pin is, by the first that says one:
  --power, --ground   P or G
  --models            I or O: the pin is an input or an output of the Verilog module of the cell's name
  *.PININFO           I or O as the library has it
--nmos and --pmos name transistor models. A card M or X of such a model becomes a card M of the model N or P.
A cell that cellaware couldn't read would spoil the whole file. It is written as comments, and so is each line
between the subcircuits that cellaware doesn't know; standard error reports each with its reason. No value is changed.
"""
import argparse
import re
import sys

KEPT_OUTSIDE = {".GLOBAL", ".PARAM", ".OPTION", ".OPTIONS", ".END"}
LENGTH = re.compile(r"(\d+\.?\d*|\.\d+)(E[+-]?\d{1,2})?([FPNUM]M?)?", re.IGNORECASE)


def directions(text):
    """The pins of each Verilog module, as {MODULE: {PIN: "I" or "O"}}, all names in upper case."""
    text = re.sub(r"//[^\n]*|/\*.*?\*/", " ", text, flags=re.DOTALL)
    modules = {}
    for name, body in re.findall(r"\bmodule\s+([\w$]+)(.*?)\bendmodule\b", text, flags=re.DOTALL):
        pins = modules.setdefault(name.upper(), {})
        declared = r"\b(input|output)\b([^;)]*?)(?=[;)]|\b(?:input|output|inout)\b)"
        for direction, names in re.findall(declared, body, flags=re.DOTALL):
            for pin in re.findall(r"[\w$]+", re.sub(r"\[[^]]*\]|\b(?:wire|reg|logic)\b", " ", names)):
                pins[pin.upper()] = "I" if direction == "input" else "O"
    return modules


def cards(lines):
    """The cards of a text, each as the list of its lines with their numbers; a comment is a card of its own."""
    found = []
    last = None
    for number, line in enumerate(lines, 1):
        if line.lstrip().startswith("+") and last is not None:
            last.append((number, line))
            continue
        found.append([(number, line)])
        if line.strip() and not line.lstrip().startswith("*"):
            last = found[-1]
    return found


def words_of(card):
    """The words of a card: = is a word of its own, $ begins a comment."""
    words = []
    for place, (_, line) in enumerate(card):
        line = line.strip()
        for word in (line[1:] if place and line.startswith("+") else line).replace("=", " = ").split():
            if word.startswith("$"):
                break
            words.append(word)
    return words


def transistor(card, words, models):
    """The lines of the card of a transistor, and why it can't be read, or None."""
    lines = [line for _, line in card]
    if len(words) < 6:
        return lines, "a transistor with too few words"
    kind = models.get(words[5].upper())
    if kind:
        name = words[0] if words[0][0] in "Mm" else "M" + words[0]
        rest = "".join(" " + word for word in words[6:]).replace(" = ", "=")
        lines = [" ".join([name, *words[1:5], kind]) + rest]
    elif words[0][0] in "Xx":
        return lines, "an X card, whose model no option names"
    elif words[5][0] not in "NnPp":
        return lines, "the model " + words[5] + ", which begins with neither N nor P"
    values = {}
    for place in range(6, len(words) - 2, 3):
        values[words[place].upper()] = words[place + 2]
    for name in "WL":
        if not LENGTH.fullmatch(values.get(name, "")):
            return lines, name + "=" + values.get(name, "(none)") + " of " + words[0]
    return lines, None


def roles(words, old, module, options):
    """The pins of a .SUBCKT card with their roles, and the first pin that has none, or None."""
    given = []
    for pin in words[2:]:
        name = pin.upper()
        role = "P" if name in options.power else "G" if name in options.ground else module.get(name) or old.get(name)
        if role not in ("I", "O", "P", "G"):
            return given, "the pin " + pin + " has no known role"
        given.append(pin + ":" + role)
    return given, None


def convert_cell(cell, modules, options):
    """The lines of a subcircuit with roles, and why cellaware couldn't read it, or None."""
    models = {**dict.fromkeys(options.nmos, "N"), **dict.fromkeys(options.pmos, "P")}
    old = {}
    out = []
    reason = None
    for card in cell:
        words = words_of(card)
        first = words[0].upper() if words else ""
        if first == "*.PININFO":
            old.update((word.upper().rpartition(":")[::2]) for word in words[1:])
            continue
        lines = [line for _, line in card]
        if first[:1] in ("M", "X"):
            lines, fault = transistor(card, words, models)
            reason = reason or fault
        elif first and first[0] not in "*CD" and first not in (".SUBCKT", ".ENDS", *KEPT_OUTSIDE):
            reason = reason or "a card " + words[0]
        out.append(lines)
    words = words_of(cell[0])
    given, fault = roles(words, old, modules.get(words[1].upper(), {}), options)
    out.insert(1, ["*.PININFO " + " ".join(given)])
    return [line for lines in out for line in lines], reason or fault


def main():
    parser = argparse.ArgumentParser(usage=__doc__.split("\n\n")[1][len("usage: "):])
    parser.add_argument("library")
    parser.add_argument("--models")
    for name in ("power", "ground", "nmos", "pmos"):
        parser.add_argument("--" + name, default=set(), type=lambda names: set(names.upper().split(",")))
    options = parser.parse_args()
    with open(options.library, encoding="latin-1") as file:
        lines = file.read().removesuffix("\n").split("\n")
    sys.stdout.reconfigure(encoding="latin-1")
    modules = {}
    if options.models:
        with open(options.models, encoding="latin-1") as file:
            modules = directions(file.read())
    cell = None
    whole = left_out = 0
    for card in cards(lines):
        words = words_of(card)
        first = words[0].upper() if words else ""
        if cell is not None or first == ".SUBCKT":
            cell = (cell or []) + [card]
            if first == ".ENDS":
                out, reason = convert_cell(cell, modules, options)
                name = words_of(cell[0])[1]
                if reason:
                    left_out += 1
                    print(f"line {cell[0][0][0]}: cell {name} is left out: {reason}", file=sys.stderr)
                    out = ["* left out: " + line for line in out]
                else:
                    whole += 1
                print("\n".join(out))
                cell = None
            continue
        known = not first or first.startswith("*") or first in KEPT_OUTSIDE
        if not known:
            print(f"line {card[0][0]}: outside of cells, left out: {card[0][1].strip()}", file=sys.stderr)
        for _, line in card:
            print(line if known else "* left out: " + line)
    if cell is not None:
        print(f"line {cell[0][0][0]}: this .SUBCKT has no .ENDS, left out", file=sys.stderr)
    print(f"{whole} cells with roles, {left_out} left out", file=sys.stderr)


main()
