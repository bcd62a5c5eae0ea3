#!/usr/bin/env python3
"""Lists what a command costs, function by function: bench/profile.py PROGRAM INPUT [WORDS..]

It runs the program below callgrind and counts instructions, which don't depend on what else the machine does. What a
function spends in the C library's memset, memcpy, malloc and the like is counted with the function that calls these, and
told apart behind it; the last column has it with all that it calls. TOP says how many functions are listed. A `rep`
instruction would count once a byte, so the C library is told to clear and copy in loops. Where valgrind is missing it says
so and ends.
"""
import collections
import os
import re
import shutil
import subprocess
import sys
import tempfile

TOP = int(os.environ.get("TOP", "25"))
LEAVES = {"memset": "clear", "memcpy": "move", "memmove": "move", "memcmp": "compare", "malloc": "take", "free": "take",
          "realloc": "take", "calloc": "take", "rattle_alloc": "take", "rattle_dealloc": "take", "rattle_realloc": "take"}
LOOPS = "glibc.cpu.x86_rep_stosb_threshold=4000000000:glibc.cpu.x86_rep_movsb_threshold=4000000000"


def readable(name):
    """The function's path, without the number of its instance; a type's drop by the type."""
    name = re.sub(r"::<#[0-9a-f]+>|'\d+$", "", name)
    return re.sub(r"^\w+::(.+)\+Destruct::drop$", lambda found: found[1].replace("++", "::") + "::drop", name)


def kind(name):
    """What a function of the C library does for its caller, or nothing for a function of the program."""
    base = re.sub(r"^_+|_(avx|sse|evex|erms|unaligned).*$", "", name)
    return LEAVES.get(base)


def counted(path):
    """Own instructions of each function, and of each edge the calls and the instructions below it."""
    names, own = {}, collections.Counter()
    calls, below = collections.Counter(), collections.Counter()
    at = to = None

    def named(text):
        number, _, name = text.partition(" ")
        if name:
            names[number] = name
        return names[number]

    with open(path, encoding="utf-8") as lines:
        for line in lines:
            line = line.rstrip("\n")
            if line.startswith("fn="):
                at = named(line[3:])
            elif line.startswith("cfn="):
                to = named(line[4:])
            elif line.startswith("calls="):
                calls[at, to] += int(line[6:].split()[0])
                below[at, to] += int(next(lines).split()[1])
            elif line and line[0] in "+-*0123456789" and at is not None:
                own[at] += int(line.split()[1])
    return own, calls, below


def listed(path):
    """Rows of (instructions, name, calls, the part of each kind of leaf, with callees); and the sum of all."""
    own, calls, below = counted(path)
    rows, called, whole = collections.defaultdict(collections.Counter), collections.Counter(), collections.Counter()
    for name, cost in own.items():
        if kind(name) is None and not is_inner(name):
            rows[readable(name)]["own"] += cost
    for (at, to), cost in below.items():
        if kind(to) and kind(at) is None and not is_inner(at):
            rows[readable(at)][kind(to)] += cost
        called[readable(to)] += calls[at, to]
        if readable(at) != readable(to):
            whole[readable(to)] += cost
    found = ((sum(parts.values()), name, called[name], parts, whole[name]) for name, parts in rows.items())
    return sorted(found, key=lambda row: -row[0]), sum(own.values())


def is_inner(name):
    """Whether this is a part of malloc and free, whose cost stands with their callers."""
    return name.startswith(("_int_", "malloc_", "sysmalloc", "unlink_chunk", "systrim", "tcache", "checked_request"))


def main():
    program, source, *words = sys.argv[1:]
    if shutil.which("valgrind") is None:
        print("skipped: valgrind is missing")
        return 0
    with open(source, "rb") as file:
        lines = file.read().count(b"\n")
    with tempfile.TemporaryDirectory() as room, open(source, "rb") as script:
        target = os.path.join(room, "counts")
        subprocess.run(["valgrind", "--tool=callgrind", f"--callgrind-out-file={target}", program, *words], stdin=script,
                       stdout=subprocess.DEVNULL, stderr=subprocess.DEVNULL, check=False,
                       env={**os.environ, "GLIBC_TUNABLES": LOOPS})
        rows, total = listed(target)
    print(f"{os.path.basename(source)}, {' '.join(words)}: {total:,} instructions, {total / lines:,.0f} a line of {lines:,}")
    print("| Function | Share | Instructions | A line | Calls | Clear, move, take | With callees |")
    print("|---|---|---|---|---|---|---|")
    for cost, name, calls, parts, whole in rows[:TOP]:
        leaves = ", ".join(f"{100 * parts[leaf] / total:.1f}" for leaf in ("clear", "move", "take"))
        of_all, below = 100 * cost / total, 100 * whole / total
        print(f"| `{name}` | {of_all:.1f} % | {cost:,} | {cost / lines:,.0f} | {calls:,} | {leaves} | {below:.1f} % |")
    return 0


if __name__ == "__main__":
    sys.exit(main())
