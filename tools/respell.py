#!/usr/bin/env python3
"""Spells this repository's own definitions and lemmas as today's library does.

Run once at the top of the repository, after the kit's port.py: python3 tools/respell.py

Words are in snake case, facts and types in camel case, a prime is an apostrophe. Only names that a file of specs/ or
proofs/ of this repository defines are touched; goals, answers to goals, comments, strings and the functions of src/ keep
theirs. The crate `log` becomes `lent_log`, since the library has a crate of that name. Names that would fall together
are printed, and nothing is written.
"""
import collections
import glob
import os
import re
import subprocess
import sys

OLD_CRATE, NEW_CRATE = "log", "lent_log"
PARTS = {"getD": "get_or", "natAbs": "nat_abs", "leZ": "int_le"}
NAME = r"[A-Za-z_][\w']*(?:-[\w'][\w']*)*"
TOKEN = re.compile(r"(?<![\w'\-.◌])" + NAME + r"(?![\w'\-◌])")
DEFINES = re.compile(
    r"^\s*(?:(?:pub|abbrev|unfoldable|record|data|ruleset)\s+)*(" + NAME + r")(?:\s+[({].*?)?\s+[:=]\s*(.*)")
LET = re.compile(r"\blet\s+(" + NAME + r")\s*[:=]")


def antt_files():
    return sorted(glob.glob("crates/*/specs/**/*.antt", recursive=True)
                  + glob.glob("crates/*/proofs/**/*.antt", recursive=True))


def new_name(name):
    parts = [PARTS.get(p, p) for p in name.split("-")]
    if name[0].isupper():
        return "".join(p[:1].upper() + p[1:] for p in parts)
    return re.sub(r"([a-z])([A-Z])", lambda m: m[1] + "_" + m[2].lower(), "_".join(parts))


def own_names():
    old, others = set(), set()
    for path in antt_files():
        for line in open(path, encoding="utf-8"):
            found = DEFINES.match(line)
            names = [found[1]] if found and not found[2].startswith("goal.") else []
            names += LET.findall(line)
            for name in names:
                (old if "-" in name or new_name(name) != name else others).add(name)
    return old, others


def respelt(text, table, comment, prose):
    out = []
    for line in text.split("\n"):
        code, mark, rest = line.partition(comment) if comment else (line, "", "")
        if prose and not mark:
            out.append(line)
            continue
        pieces = re.split(r'("(?:[^"\\]|\\.)*")', code)
        pieces[::2] = [TOKEN.sub(lambda m: table.get(m[0], m[0]), p) for p in pieces[::2]]
        # a field is a name behind a dot
        pieces[::2] = [re.sub(r"(?<=\.)" + NAME + r"(?![\w'\-◌])", lambda m: table.get(m[0], m[0]), p)
                       for p in pieces[::2]]
        rest = re.sub(r"`(" + NAME + r")`", lambda m: "`" + table.get(m[1], m[1]) + "`", rest)
        out.append("".join(pieces) + mark + rest)
    return "\n".join(out)


def main():
    old, others = own_names()
    table = {name: new_name(name) for name in old}
    back = collections.defaultdict(set)
    for name, new in table.items():
        back[new].add(name)
    clash = {new: names for new, names in back.items() if len(names) > 1 or new in others}
    for new, names in sorted(clash.items()):
        print("falls together:", new, "of", ", ".join(sorted(names)), "(is a name already)" if new in others else "")
    if clash and "--anyway" not in sys.argv:
        return 1
    for path in antt_files():
        write(path, lambda t: respelt(t, table, "--", False))
    for path in sorted(glob.glob("crates/*/src/**/*.rt", recursive=True)):
        write(path, lambda t: respelt(t, table, "//", False))
    for path in sorted(glob.glob("crates/*/must-fail/*.edit")):
        write(path, lambda t: respelt(t, table, None, False))
    crate()
    return 0


def write(path, change):
    text = open(path, encoding="utf-8").read()
    new = change(text)
    if new != text:
        open(path, "w", encoding="utf-8").write(new)


def crate():
    if not os.path.isdir("crates/" + OLD_CRATE):
        return
    subprocess.run(["git", "mv", "crates/" + OLD_CRATE, "crates/" + NEW_CRATE], check=True)
    write("crates.txt", lambda t: "\n".join(
        line if line.startswith("#") else re.sub(r"(?<!\w)" + OLD_CRATE + r"(?!\w)", NEW_CRATE, line)
        for line in t.split("\n")))
    for path in antt_files() + sorted(glob.glob("crates/*/src/**/*.rt", recursive=True)):
        write(path, lambda t: t.replace("Rattle." + OLD_CRATE + ".", "Rattle." + NEW_CRATE + "."))
        if path.endswith(".rt"):
            write(path, lambda t: re.sub(r"(?<![\w:])" + OLD_CRATE + r"::", NEW_CRATE + "::", t))


if __name__ == "__main__":
    sys.exit(main())
