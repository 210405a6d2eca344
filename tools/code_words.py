#!/usr/bin/env python3
"""Says which words stand in the wrong folder: specs/ has the words on which some public contract rests,
specs/code/ those of the code alone.

usage: tools/code_words.py           # one line for each word that should move; the status is then 1

A contract is public where its function is `pub`, belongs to a public trait, or implements a trait.
Python 3.9 or later, no packages.
"""
import os
import re
import sys

import trusted

FUNCTION = re.compile(r"(\s*)((?:pub(?:\(\w+\))? )?)(?:const )?fn \w+")
GHOST = re.compile(r"\s*ghost (\w+)\s*[:=]")


def imports(lines):
    """What the `ghost use` lines of a source file bring in: words, and names of modules."""
    known, spaces = {}, {}
    for line in lines:
        used = re.match(r"\s*ghost use Rattle\.(\S+?)(?:\.\{(.*)\}|(?: as (\S+)))?;$", line)
        if not used:
            continue
        crate, _, inside = used[1].partition(".specs.")
        if used[3]:
            spaces[used[3]] = (crate, inside)
        for name in filter(None, (it.strip() for it in (used[2] or "").split(","))):
            name, _, other = name.partition(" as ")
            known[other or name] = (crate, inside, name)
    return known, spaces


def contracts(lines):
    """The public contracts and ghost members of a source file, as texts."""
    in_trait, is_open, at = False, False, 0
    while at < len(lines):
        line = lines[at]
        if re.match(r"(?:pub(?:\(\w+\))? )?trait ", line):
            in_trait, is_open = True, line.startswith("pub trait")
        elif re.match(r"impl\b", line):
            head = " ".join(lines[at:at + 4]).split("{")[0]
            in_trait, is_open = False, " for " in head
        elif line.startswith("}"):
            in_trait, is_open = False, False
        ghost, function = GHOST.match(line), FUNCTION.match(line)
        end = at
        if ghost:
            while end + 1 < len(lines) and not re.search(r"(\}\s*[;,]?|;)\s*$", lines[end]):
                end += 1
            is_seen = is_open and ghost[1] not in ("invariant", "view") or ghost[1] in ("Value", "from_gives")
            if is_seen:
                yield "\n".join(lines[at:end + 1])
        elif function:
            while end + 1 < len(lines) and not ends_contract(lines[end], function[1], end == at):
                end += 1
            if function[2] == "pub " or is_open:
                yield "\n".join(lines[at:end + 1])
        at = end + 1


def ends_contract(line, indent, is_first):
    text = line.rstrip()
    is_clause = re.search(r"\b(requires|ensures)\b", text)
    if is_first and text.endswith("{}"):
        return True
    return text == indent + "{" or text.endswith(";") and text.count("{") == text.count("}") or text.endswith(" {") and not is_clause


def public_words(files):
    """The words of specs/ below some public contract."""
    found = set()

    def visit(word):
        while word[:2] in files and word[2] not in files[word[:2]].lines and word[2] in files[word[:2]].handed:
            word = files[word[:2]].handed[word[2]]
        if word not in found and word[:2] in files and word[2] in files[word[:2]].lines:
            found.add(word)
            for used in files[word[:2]].uses(word[2]):
                visit(used)

    for crate in sorted(os.listdir(f"{trusted.TOP}/crates")):
        for at, _, names in os.walk(f"{trusted.TOP}/crates/{crate}/src"):
            for name in filter(lambda it: it.endswith(".rt"), names):
                with open(f"{at}/{name}", encoding="utf-8") as source:
                    lines = source.read().split("\n")
                known, spaces = imports(lines)
                for text in contracts(lines):
                    for space, word in re.findall(rf"({trusted.NAME})\.({trusted.NAME})", text):
                        if space in spaces:
                            visit((*spaces[space], word))
                    for word in set(re.findall(trusted.NAME, text)):
                        if word in known:
                            visit(known[word])
    return found


def main():
    if len(sys.argv) > 1:
        print("usage: tools/code_words.py", file=sys.stderr)
        return 2
    sys.setrecursionlimit(100_000)
    files = trusted.read_files()
    public, count = public_words(files), 0
    for (crate, inside), file in sorted(files.items()):
        for word in file.lines:
            is_public, is_code = (crate, inside, word) in public, inside.startswith("code.")
            if is_public == is_code:
                count += 1
                print(f"{crate}/specs/{inside.replace('.', '/')}: {word} is {'public' if is_public else 'of the code alone'}")
    print(f"{sum(len(it.lines) for it in files.values()):,} words, {count} in the wrong folder")
    return 1 if count else 0


if __name__ == "__main__":
    sys.exit(main())
