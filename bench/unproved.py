#!/usr/bin/env python3
"""Builds the program as plain Rust, without contracts, to measure and try a change before it is proved.

usage: bench/unproved.py FOLDER                     # writes a workspace there, and builds it with cargo
       FOLDER/target/release/cellaware WORD..       # the program, with all its commands; --progress shows nothing

The crates below cellaware lose their contracts, ghost items and models by plain text; bench/unproved has what they
use of the toolchain's libraries, over Rust's, and the files and outputs of the system. Answers and files are those of
the program; times are up to one and a half of its own. Nothing here is proved, and no figure of docs/FIGURES.md is
taken with it. It needs Rust's cargo, and no packages.
"""
import os
import re
import shutil
import subprocess
import sys

TOP = os.path.dirname(os.path.dirname(os.path.abspath(__file__)))
ROOTS = ["ca_flow"]
OUTSIDE = ["csv", "itoa", "indexmap", "arrayvec"]


def libraries():
    """The crates of crates.txt with those that each uses."""
    found = {}
    for line in open(f"{TOP}/crates.txt"):
        name, _, below = line.split("#")[0].strip().partition(":")
        if name:
            found[name.split()[0]] = below.split()
    return found


def closure(names, below, seen):
    """The crates of these names and below them, the lower ones first."""
    for name in names:
        if name not in seen:
            closure(below.get(name, []), below, seen)
            seen.append(name)
    return seen


def match_brace(s, i):
    """The place after the brace that closes the one at i."""
    d=0
    while i<len(s):
        c=s[i]
        if c=='{': d+=1
        elif c=='}':
            d-=1
            if d==0: return i+1
        i+=1
    raise Exception("brace")
def strip(s):
    """A source file without what the prover alone reads."""
    # drop comments first, and set literals aside
    kept=[]
    def aside(m):
        if m.group(0).startswith('//'): return ''
        kept.append(m.group(0))
        return f'"@{len(kept)-1}@"'
    s=re.sub(r"""//[^\n]*|b?"(?:[^"\\]|\\.|\\\n)*"|b?'(?:\\x[0-9a-fA-F]{2}|\\u\{[0-9a-fA-F]+\}|\\.|[^'\\])'""",aside,s)
    s=re.sub(r'#!?\[tactic\([^\n]*\)\]\n','\n',s)
    # multi-line tactic
    s=re.sub(r'#!?\[tactic\((?:[^()]|\([^()]*\))*\)\]','',s)
    # impl Model
    while True:
        m=re.search(r'(?m)^\s*impl(<[^{]*?>)?\s+Model\s+for\s[^{]*\{',s)
        if not m: break
        e=match_brace(s,m.end()-1)
        s=s[:m.start()]+"\n"+s[e:]
    s=re.sub(r'use std::marker::Model;','',s)
    # ghost use
    s=re.sub(r'(?<![\w])(pub )?ghost\s+use\s[^;]*;','',s)
    # ghost X ... { ... } [;,]
    while True:
        m=re.search(r'(?<![\w])(pub(\([a-z]+\))?\s+)?ghost\s+[^{};]*?[{;]',s)
        if not m: break
        if s[m.end()-1]==';':
            s=s[:m.start()]+s[m.end():]; continue
        e=match_brace(s,m.end()-1)
        while e<len(s) and s[e] in ' \n\t': e+=1
        if e<len(s) and s[e] in ';,': e+=1
        s=s[:m.start()]+s[e:]
    # contracts
    while True:
        m=re.search(r'(?<![\w])(requires|ensures|decreases)\s*\*?\s*(«?\w+»?\s*)?\*?\{',s)
        if not m: break
        e=match_brace(s,m.end()-1)
        s=s[:m.start()].rstrip(' ')+s[e:]
    while True:
        m=re.search(r'(?m)^\s*by\s*\{',s)
        if not m: break
        e=match_brace(s,m.end()-1)
        while e<len(s) and s[e] in ' \n\t': e+=1
        if e<len(s) and s[e] in ';,': e+=1
        s=s[:m.start()]+"\n"+s[e:]
    # Drop
    def derive(m):
        names=[x.strip() for x in m.group(1).split(',')]
        names=[x for x in names if x and x!='Drop']
        return f"#[derive({', '.join(names)})]" if names else ''
    s=re.sub(r'#\[derive\(([^)]*)\)\]',derive,s)
    s=re.sub(r'\+\s*Drop\b','',s)
    s=re.sub(r'\bDrop\s*\+\s*','',s)
    s=re.sub(r':\s*Drop\b','',s)
    s=s.replace('vec![in alloc;','rvec![alloc;').replace('vec![in self.alloc;','rvec![self.alloc;')
    s=s.replace('.sort()?;','.sort();')
    s=re.sub(r'vec!\[\s*in\s+(\w+)\s*;',r'rvec![\1;',s)
    s=s.replace('use std::alloc::{AllocError, AllocFailed, Global};','use rstd::{AllocError, AllocFailed, Global};')
    s=s.replace('std::alloc::','rstd::')
    s=re.sub(r'\.(to_vec|to_ascii_uppercase|to_ascii_lowercase)\((self\.)?alloc\)',r'.\1_in(\2alloc)',s)
    s=re.sub(r'"@(\d+)@"',lambda m:kept[int(m.group(1))],s)
    return s


def write(path, text):
    os.makedirs(os.path.dirname(path), exist_ok=True)
    if not os.path.exists(path) or open(path).read() != text:
        open(path, "w").write(text)


def manifest(name, below):
    uses = "".join(f'{it} = {{ path = "../{it}" }}\n' for it in below)
    return f'[package]\nname = "{name}"\nversion = "0.1.0"\nedition = "2021"\n[dependencies]\n{uses}'


def main(words):
    out, below = os.path.abspath(words[0]), libraries()
    crates = closure(ROOTS, below, [])
    for name in crates:
        if name in OUTSIDE:
            write(f"{out}/{name}/src/lib.rs", open(f"{TOP}/bench/unproved/{name}.rs").read())
            write(f"{out}/{name}/Cargo.toml", manifest(name, ["rstd"]))
            continue
        source = f"{TOP}/crates/{name}/src"
        shutil.rmtree(f"{out}/{name}/src", ignore_errors=True)
        for at, _, files in os.walk(source):
            for file in files:
                path = os.path.relpath(f"{at}/{file}", source)[:-3]
                head = "#![allow(warnings)]\n" if path == "lib" else ""
                text = strip(open(f"{at}/{file}").read())
                write(f"{out}/{name}/src/{path}.rs", f"{head}#[allow(unused_imports)] use rstd::prelude::*;\n{text}")
        write(f"{out}/{name}/Cargo.toml", manifest(name, ["rstd", *below[name]]))
    # (a match arm that can't come, which Rust's compiler wants typed)
    verdicts = f"{out}/ca_credit/src/verdicts.rs"
    text = open(verdicts).read().replace("None => unreachable!(),", "None => { static V: Verdict = Verdict::Unexposable; &V }")
    open(verdicts, "w").write(text)
    for name in ("file_store", "std_sink"):
        write(f"{out}/ca_store/src/{name}.rs", open(f"{TOP}/bench/unproved/{name}.rs").read())
    write(f"{out}/cellaware/src/main.rs", open(f"{TOP}/bench/unproved/main.rs").read())
    write(f"{out}/cellaware/Cargo.toml", manifest("cellaware", ["rstd", "ca_store", "ca_flow"]))
    write(f"{out}/rstd/src/lib.rs", open(f"{TOP}/bench/unproved/rstd.rs").read())
    write(f"{out}/rstd/Cargo.toml", manifest("rstd", []))
    members = ", ".join(f'"{it}"' for it in [*crates, "rstd", "cellaware"])
    profile = '[profile.release]\nopt-level = 3\nlto = "thin"\npanic = "abort"\ndebug = 1\noverflow-checks = false\n'
    write(f"{out}/Cargo.toml", f'[workspace]\nresolver = "2"\nmembers = [{members}]\n{profile}')
    return subprocess.run(["cargo", "build", "--release", "--offline"], cwd=out).returncode


if __name__ == "__main__":
    sys.exit(main(sys.argv[1:]))
