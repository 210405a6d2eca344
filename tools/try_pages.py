#!/usr/bin/env python3
"""Runs each command that a page shows, and compares what it prints with what is there.

usage: tools/try_pages.py PROGRAM [PAGE..]

The pages are README.md and docs/TUTORIAL.md, if none is named, whose commands run in a scratch copy of examples/. Those of docs/REAL_CHIPS.md,
which takes twenty minutes and some of Debian's packages, and of docs/REAL_LIBRARIES.md run in an empty folder, where CELLAWARE is the top
of this repository.

A command is a line that begins with four spaces and `$ `, and goes on as long as a quote is open or a backslash ends it. All commands of a
page run in one shell. What a command prints are the lines after it that begin with four spaces; a line with `...` stands for the rest. Packages and
the line that says where the clone is are left out, and pictures where gnuplot isn't installed.
The status is 1 where something differs."""
import os
import shutil
import subprocess
import sys
import tempfile

TOP = os.path.dirname(os.path.dirname(os.path.abspath(__file__)))
PAGES = ("README.md", "docs/TUTORIAL.md")
SHOWN, PROMPT, END = "    ", "    $ ", "-- end of what a command prints --"
LEFT_OUT = ("apt-get", "CELLAWARE=", *(() if shutil.which("gnuplot") else ("gnuplot",)))


def is_open(command):
    """Whether a quote is open at the end, or the line goes on after a backslash."""
    quote = None
    for byte in command:
        if quote is None and byte in "'\"":
            quote = byte
        elif byte == quote:
            quote = None
    return quote is not None or command.endswith("\\")


def commands(lines):
    """Each command of a page, with its line and the lines that it is to print."""
    at = 0
    while at < len(lines):
        begin, at = at, at + 1
        if not lines[begin].startswith(PROMPT):
            continue
        command, wanted = lines[begin][len(PROMPT):], []
        while is_open(command) and at < len(lines):
            command += "\n" + lines[at][len(SHOWN):]
            at += 1
        while at < len(lines) and lines[at].startswith(SHOWN) and not lines[at].startswith(PROMPT):
            wanted.append(lines[at][len(SHOWN):])
            at += 1
        yield begin + 1, command, wanted


def is_printed(wanted, printed):
    """Whether this was printed, as far as the page shows it: the line before `...` is followed by any lines."""
    for place, line in enumerate(wanted):
        if "..." in line:
            return printed[:place] == wanted[:place]
    return printed == wanted


def printed_by(shell, command):
    """What the command prints in the shell, by line."""
    shell.stdin.write(f"{command}\necho; echo '{END}'\n")
    shell.stdin.flush()
    lines = []
    for line in shell.stdout:
        if line == END + "\n":
            break
        lines.append(line.rstrip("\n"))
    return "\n".join(lines).rstrip("\n").split("\n")


def tried(program, page, folder):
    """How many commands of a page were run, and how many print something else."""
    work, count, others = f"{folder}/{os.path.basename(page)}", 0, 0
    if page in PAGES:
        shutil.copytree(f"{TOP}/examples", work)
    else:
        os.mkdir(work)
    os.makedirs(f"{folder}/bin", exist_ok=True)
    if not os.path.lexists(f"{folder}/bin/cellaware"):
        os.symlink(program, f"{folder}/bin/cellaware")
        os.symlink(f"{TOP}/tools", f"{folder}/tools")
    room = dict(os.environ, CELLAWARE=TOP, PATH=f"{folder}/bin:{os.environ['PATH']}")
    with open(f"{TOP}/{page}") as file:
        lines = file.read().split("\n")
    with subprocess.Popen(["bash"], cwd=work, env=room, stdin=subprocess.PIPE, stdout=subprocess.PIPE, stderr=subprocess.STDOUT, text=True) as shell:
        for line, command, wanted in commands(lines):
            if command.startswith(LEFT_OUT):
                continue
            printed = printed_by(shell, command)
            count += 1
            if not is_printed(wanted, printed if printed != [""] else []):
                others += 1
                print(f"{page}:{line}: {command}", *(f"  prints {it}" for it in printed[:5]), sep="\n", flush=True)
        shell.stdin.close()
    return count, others


def main():
    program, pages = os.path.abspath(sys.argv[1]), sys.argv[2:] or PAGES
    with tempfile.TemporaryDirectory() as folder:
        found = [tried(program, page, folder) for page in pages]
    count, others = (sum(it) for it in zip(*found))
    print(f"{count} commands, {others} print something else")
    return 1 if others else 0


if __name__ == "__main__":
    sys.exit(main())
