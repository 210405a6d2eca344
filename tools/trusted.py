#!/usr/bin/env python3
"""Lists the words on which a claim rests: all definitions of specs/ that it names, directly or through others.

usage: tools/trusted.py           # writes docs/TRUSTED.md
       tools/trusted.py --check   # says where the page is out of date; the status is then 1

The page has two parts: the promise of test generation (`IsGood`), and then what `Ends` adds, which says how every
command ends. Files stand in reading order: each after those whose words it uses. Types that are declared in the
code are named with their file, and count no line here. Python 3.9 or later, no packages.
"""
import collections
import os
import re
import sys
import textwrap

TOP = os.path.dirname(os.path.dirname(os.path.abspath(__file__)))
PAGE = f"{TOP}/docs/TRUSTED.md"
PARTS = [("The promise of test generation", ("ca_credit", "Good", "IsGood")), ("How a command ends", ("ca_flow", "Ends", "Ends"))]
NAME = r"[^\s(){}\[\];,.:=λ@]+"
BEGINS = re.compile(rf"^(?:abbrev |unfoldable |opaque )?(?:pub )?(?:record |data )?({NAME}) (?:\(|\{{|:)")


class File:
    """The definitions of one file of specs/, with their lines, and what its names mean."""

    def __init__(self, crate, name, path):
        self.crate, self.name, self.lines, self.known, self.spaces, self.handed = crate, name, {}, {}, {}, {}
        at, comment = None, 0
        with open(path, encoding="utf-8") as text:
            for line in text.read().split("\n"):
                used = re.match(r"(pub )?use Rattle\.(\S+?)(?:\.\{(.*)\}|(?: as (\S+)))?$", line)
                if used:
                    self.bring(used)
                    at = None
                elif line.startswith("--"):
                    comment, at = comment + 1, None
                elif line and not line[0].isspace():
                    begins = BEGINS.match(line)
                    if begins and begins[1] not in self.lines:
                        at = begins[1]
                        self.lines[at] = ["--"] * comment
                    elif not begins:
                        at = line.split()[0] if line.split()[0] in self.lines else at
                    comment = 0
                    if at:
                        self.lines[at].append(line)
                elif at and line:
                    self.lines[at].append(line)
                else:
                    comment = 0

    def bring(self, used):
        is_handed, path, names, alias = used[1], used[2], used[3], used[4]
        crate, _, inside = path.partition(".specs.")
        if names is None and alias:
            self.spaces[alias] = (crate, inside)
        for name in filter(None, (it.strip() for it in (names or "").split(","))):
            name, _, other = name.partition(" as ")
            self.known[other or name] = (crate, inside, name)
            if is_handed:
                self.handed[other or name] = (crate, inside, name)

    def uses(self, name):
        """The words that a definition names, as (crate, file, word)."""
        text = "\n".join(it for it in self.lines[name] if it != "--")
        for alias, word in re.findall(rf"({NAME})\.({NAME})", text):
            if alias in self.spaces:
                yield (*self.spaces[alias], word)
        for word in set(re.findall(NAME, text)):
            if word in self.known:
                yield self.known[word]
            elif word in self.lines and word != name:
                yield (self.crate, self.name, word)


def read_files():
    files = {}
    for crate in sorted(os.listdir(f"{TOP}/crates")):
        specs = f"{TOP}/crates/{crate}/specs"
        for at, _, names in os.walk(specs):
            for name in names:
                if name.endswith(".antt") and name != "Lib.antt":
                    inside = os.path.relpath(f"{at}/{name}", specs)[:-5].replace("/", ".")
                    files[crate, inside] = File(crate, inside, f"{at}/{name}")
    return files


def below(files, start):
    """The words below one, each after those that it uses, and the types of the code that they name."""
    order, seen, declared = [], set(), {}

    def visit(word):
        while word[:2] in files and word[2] not in files[word[:2]].lines and word[2] in files[word[:2]].handed:
            word = files[word[:2]].handed[word[2]]
        if word in seen:
            return
        seen.add(word)
        crate, inside, name = word
        if inside.startswith("declared."):
            file, *rest = inside.split(".")[1:]
            declared.setdefault((crate, file), set()).add(rest[0] if rest and not rest[0].startswith("The") else name)
        elif (crate, inside) in files and name in files[crate, inside].lines:
            for used in sorted(files[crate, inside].uses(name)):
                visit(used)
            order.append(word)

    sys.setrecursionlimit(10000)
    visit(start)
    return order, declared


def in_order(files, start, wanted):
    """The wanted files, each after those whose words it may use."""
    order, seen = [], set()

    def visit(place):
        if place in seen or place not in files:
            return
        seen.add(place)
        file = files[place]
        for below in sorted({it[:2] for it in [*file.known.values(), *file.spaces.values()]}):
            visit(below)
        if place in wanted:
            order.append(place)

    visit(start)
    return order


def wrapped(text):
    """The lines of a paragraph."""
    return textwrap.wrap(text, 110, break_long_words=False, break_on_hyphens=False)


def page_text():
    files = read_files()
    out = ["# What has to be believed", "", *wrapped(
        "The words of `specs/` on which the claims rest, made by `tools/trusted.py`. Who believes that they say what is "
        "meant, and trusts the toolchain, need read no proof and no other definition. Files stand in reading order: each "
        "after those whose words it uses. `docs/MODEL.md` leads through them in plain words.")]
    known = set()
    for title, start in PARTS:
        order, declared = below(files, start)
        new = [it for it in order if it not in known]
        known.update(order)
        rows = collections.defaultdict(list)
        for crate, inside, name in new:
            rows[crate, inside].append(name)
        total = sum(len(files[crate, inside].lines[name]) for crate, inside, name in new)
        out += ["", f"## {title}", "", f"`{start[2]}` of `{start[0]}/specs/{start[1]}.antt`: {len(new)} words in {len(rows)} files, {total:,} lines.", "",
                "| file | lines | words |", "|---|---|---|"]
        for crate, inside in in_order(files, start[:2], rows):
            names = rows[crate, inside]
            lines = sum(len(files[crate, inside].lines[it]) for it in names)
            out.append(f"| `{crate}/specs/{inside.replace('.', '/')}` | {lines} | {', '.join(f'`{it}`' for it in names)} |")
        types = sorted((crate, file, name) for (crate, file), names in declared.items() for name in names)
        listed = ", ".join(f"`{name}` (`{crate}/src/{file}.rt`)" for crate, file, name in types)
        out += ["", *wrapped(f"Types of the code that these name: {listed}.")]
    return "\n".join(out) + "\n"


def main():
    if any(word != "--check" for word in sys.argv[1:]):
        print("usage: tools/trusted.py [--check]", file=sys.stderr)
        return 2
    text = page_text()
    if "--check" in sys.argv[1:]:
        with open(PAGE, encoding="utf-8") as page:
            old, new = page.read().split("\n"), text.split("\n")
        for line in [f"- {it}" for it in old if it not in new] + [f"+ {it}" for it in new if it not in old]:
            print(line)
        return old != new
    with open(PAGE, "w", encoding="utf-8") as page:
        page.write(text)
    return 0


if __name__ == "__main__":
    sys.exit(main())
