#!/usr/bin/env python3
"""Whether each crate's first page is whole, and whether its example is one that a test runs.

A first page is the block of `//!` lines on top of `src/lib.rt`, or of a program's `src/main.rt`. Each has
limits, and an example or the words on how it is used; the lines of an example stand, but for their indent, one after another in a source
file of a crate of tests, which `rt ci` proves and runs.

    tests/pages.py        ends with `N passed, M failed`, and status 1 where something failed
"""

import sys
import textwrap
from pathlib import Path

ROOT = Path(__file__).resolve().parent.parent
# Pages without an example, and why.
WITHOUT = {
    "vi_bench_c": "bench/structures.sh calls it",
    "viommu": "a program, whose examples are in examples/",
}


def names():
    lines = (ROOT / "crates.txt").read_text().splitlines()
    return [line.split(":")[0].split()[0] for line in lines if line.strip()]


def page(name):
    """The lines of a crate's first page, without their marks."""
    source = ROOT / "crates" / name / "src"
    root = source / "lib.rt"
    lines = (root if root.exists() else source / "main.rt").read_text().splitlines()
    found = []
    for line in lines:
        if not line.startswith("//!"):
            break
        found.append(line[3:].removeprefix(" "))
    return found


def blocks(lines):
    """The fenced blocks of a page."""
    found, block = [], None
    for line in lines:
        if line.startswith("```"):
            if block is not None:
                found.append(block)
            block = [] if block is None else None
        elif block is not None:
            block.append(line)
    return found


def dedented(lines):
    return textwrap.dedent("\n".join(lines)).strip("\n").splitlines()


def stands(block, source):
    """Whether the block's lines follow one another in the source, but for their indent."""
    block = dedented(block)
    return any(dedented(source[i : i + len(block)]) == block for i in range(len(source)))


def main():
    sources = [f.read_text().splitlines() for f in sorted(ROOT.glob("crates/tests_*/src/*.rt"))]
    passed, wrong = 0, []

    def ask(name, what, is_so):
        nonlocal passed
        if is_so:
            passed += 1
        else:
            wrong.append(f"{name}: {what}")

    for name in names():
        lines = page(name)
        ask(name, "its first page has fewer than three lines", len(lines) >= 3)
        ask(name, "a line of its first page is longer than 100", all(len(line) <= 96 for line in lines))
        if name.startswith("tests_"):
            continue
        # `rt` takes a crate that has this word anywhere for one with tests.
        ask(name, "its first page has `#[test]`", not any("#[test]" in line for line in lines))
        ask(name, "its first page has no limits", "# Limits" in lines)
        found = blocks(lines)
        is_laws = "# How it is used" in lines
        ask(name, "its first page has no example", bool(found) or is_laws or name in WITHOUT)
        for block in found if not is_laws else []:
            ask(name, f"no test has the example that begins {block[:1]}", any(stands(block, s) for s in sources))
    for line in wrong:
        print(line)
    print(f"{passed} passed, {len(wrong)} failed")
    return 1 if wrong else 0


if __name__ == "__main__":
    sys.exit(main())
