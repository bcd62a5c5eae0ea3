#!/usr/bin/env python3
"""Holds README.md and docs/ to the tree: tests/docs.py. It stands outside the gate, and ends with 'N passed, M failed'.

Each crate of crates.txt is named in the tables of crates; each path that a document names in backticks is there; each link leads to
a file; what README.md names as a clause is the name of a clause; and no sentence of the pages for new users has 30 words or more.
"""
import glob
import os
import re
import sys

TOP = os.path.dirname(os.path.dirname(os.path.abspath(__file__)))
PLAIN = ("README.md", "docs/TOUR.md", "docs/TRUST.md", "docs/PEERS.md")
passed = failed = 0


def read(path):
    with open(os.path.join(TOP, path), encoding="utf-8") as file:
        return file.read()


def ask(what, is_so):
    global passed, failed
    if is_so:
        passed += 1
    else:
        failed += 1
        print(what)


def documents():
    return ["README.md", "CONTRIBUTING.md", *sorted(os.path.relpath(path, TOP) for path in glob.glob(os.path.join(TOP, "docs", "*.md")))]


def crates_are_named():
    crates = re.findall(r"^(\w+)[^:\n]*:", read("crates.txt"), re.M)
    for path in ("README.md", "docs/CRATES.md"):
        for crate in crates:
            ask(f"{path}: no row or section of {crate}", re.search(rf"^(\| |## )`{crate}`", read(path), re.M))


def paths_are_there():
    """Paths in backticks, and links. In a crate's own words, as `specs/Inner.antt`, a file of some crate is meant."""
    for path in documents():
        text = read(path)
        for named in sorted(set(re.findall(r"`((?:crates|docs|tests|tools|examples|bench)/[\w./-]*)`", text))):
            ask(f"{path}: {named} isn't there", os.path.exists(os.path.join(TOP, named)) or "NAME" in named or "/out/" in named)
        for named in sorted(set(re.findall(r"\]\(([^)#:]+)\)", text))):
            ask(f"{path}: a link to {named}", os.path.exists(os.path.join(TOP, os.path.dirname(path), named)))


def clauses_are_there():
    """The last column of README's table of what is proved names clauses, laws, functions and crates."""
    sources = "\n".join(read(os.path.relpath(path, TOP)) for path in glob.glob(os.path.join(TOP, "crates/*/src/**/*.rt"), recursive=True))
    table = read("README.md").split("## What is proved")[1].split("## What isn't")[0]
    for row in re.findall(r"^\|[^|]+\|([^|]+)\|$", table, re.M):
        for name in re.findall(r"`(\w+)`", row):
            is_known = re.search(rf"(ensures|pub fn) {name}\b", sources) or os.path.isdir(os.path.join(TOP, "crates", name))
            ask(f"README.md: {name} is no clause, law or crate", is_known)


def sentences_are_short():
    for path in PLAIN:
        text = re.sub(r"```.*?```|<!-- believed.*?<!-- end -->", "", read(path), flags=re.S)
        cells = [cell for line in text.splitlines() for cell in (line.strip("|").split("|") if line.startswith("|") else [line])]
        for sentence in [it for cell in cells for it in re.split(r"(?<=[.:;?!])\s", cell)]:
            ask(f"{path}: {len(sentence.split())} words: {sentence[:90]}", len(sentence.split()) < 30)


def main():
    crates_are_named()
    paths_are_there()
    clauses_are_there()
    sentences_are_short()
    print(f"{passed} passed, {failed} failed")
    return 1 if failed else 0


if __name__ == "__main__":
    sys.exit(main())
