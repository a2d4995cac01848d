#!/usr/bin/env python3
"""Respells this repository's own names as Rattle spells them: definitions, fields and lemmas in snake case, facts and types in camel case.

usage: python3 tools/respell_names.py        at the top of the repository, once

It reads the declarations of specs/ and proofs/ and renames each whole name in .antt and .rt files (not in strings and comments), in the texts of edits, and between
backticks in documents. Names from src/, names of goals and names that a file imports from the library stay as they are.
"""
import collections
import glob
import os
import re
import sys

NAME = r"[A-Za-z_][\w']*(?:-[\w'ℕ]+)*"
TOKEN = re.compile(r"(?<![\w'-])" + NAME + r"(?![\w'-])")
DECLARES = re.compile(
    r"\s*(?:(?:abbrev|unfoldable|pub|ruleset)\s+)*(?:(?:record|data)\s+)?(" + NAME + r")\s+(?:[({].*[)}]\s*)*:\s"
)
IMPORTS = re.compile(r"use\s+(Rattle\.(\w+)[\w.'+-]*)\.\{([^}]*)\}")


def files(*patterns):
    for pattern in patterns:
        for path in sorted(glob.glob(pattern, recursive=True)):
            if "/out/" not in path:
                yield path


def read(path):
    with open(path, encoding="utf-8") as f:
        return f.read()


def antt():
    return files("crates/*/specs/**/*.antt", "crates/*/proofs/**/*.antt")


def respelled(name):
    if "-" not in name:
        return name
    if name[0].isupper():
        return "".join(part[:1].upper() + part[1:] for part in name.split("-"))
    return name.replace("-", "_")


def declared():
    """The own names with a dash, and the names of goals, which keep theirs."""
    own, goals = collections.defaultdict(set), set()
    for path in antt():
        for line in read(path).split("\n"):
            m = None if line.lstrip().startswith("--") else DECLARES.match(line)
            if m:
                if re.search(r":\s*(?:\([^)]*\)\s*→\s*)?goal\.", line):
                    goals.add(m[1])
                elif "-" in m[1]:
                    own[m[1]].add(path)
    return own, goals


def from_library(text):
    kept = set()
    own_crates = set(os.listdir("crates"))
    for m in IMPORTS.finditer(text):
        if m[2] not in own_crates:
            for item in m[3].split(","):
                kept.add(item.split(" as ")[-1].strip())
    return kept


def turned(text, names, kept, quoted):
    """The text with its names respelled; strings and comments as they are where quoted says so."""

    def one(m):
        name = m[0]
        return names[name] if name in names and name not in kept else name

    if not quoted:
        return TOKEN.sub(one, text)
    parts = re.split(r'("(?:[^"\\]|\\.)*"|--[ \n].*|//.*)', text)
    return "".join(TOKEN.sub(one, p) if i % 2 == 0 else p for i, p in enumerate(parts))


def main():
    own, goals = declared()
    for path in list(antt()) + list(files("crates/*/src/**/*.rt")):
        for m in re.finditer(r" as (" + NAME + r")(?=[,}])", read(path)):
            if "-" in m[1]:
                own[m[1]].add(path)
    both = sorted(set(own) & goals)
    if both:
        sys.exit(f"own names that goals have too: {both}")
    names = {n: respelled(n) for n in own}
    together = collections.defaultdict(set)
    for n, new in names.items():
        together[new].add(n)
    plain = {m[1] for path in antt() for line in read(path).split("\n") if (m := DECLARES.match(line))}
    for new, olds in together.items():
        if len(olds) > 1 or new in plain - set(own):
            print(f"fall together: {new}: {sorted(olds)}")
    changed = 0
    for path in list(antt()) + list(files("crates/*/src/**/*.rt")):
        text = read(path)
        kept = from_library(text)
        for name in sorted(kept & set(names)):
            print(f"{path}: {name} is the library's here")
        new = turned(text, names, kept, True)
        inside = re.match(r"crates/\w+/(?:specs|proofs)/\w+\.antt$", path)
        if inside:
            # the variables of a definition or a lemma
            here = set(IMPORTS.sub("", new) and [t for t in TOKEN.findall(re.sub(r"--.*", "", IMPORTS.sub("", new))) if "-" in t])
            new = turned(new, {t: respelled(t) for t in here if t not in from_library(new) and t not in goals}, set(), True)
        for clash in sorted(from_library(new) & {names[t] for t in names if re.search(r"(?<![\w'-])" + re.escape(t) + r"(?![\w'-])", text)}):
            print(f"{path}: {clash} now falls together with the library's")
        if new != text:
            changed += 1
            with open(path, "w", encoding="utf-8") as f:
                f.write(new)
    for path in files("crates/*/must-fail/*.edit", "planted/**/*.edit", "*.md", "docs/*.md", "planted/*.md"):
        if path == "docs/FORMATS.md":
            continue  # its words are those of the texts that the program reads and writes
        text = read(path)
        if path.endswith(".md"):
            new = re.sub(r"`[^`\n]+`", lambda m: turned(m[0], names, set(), False), text)
        else:
            new = turned(text, names, set(), True)
        if new != text:
            changed += 1
            with open(path, "w", encoding="utf-8") as f:
                f.write(new)
    print(f"{len(names)} names, {changed} files")


main()
