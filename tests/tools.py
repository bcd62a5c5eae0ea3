#!/usr/bin/env python3
"""Tries tools/show.py and tools/ask.py: tests/tools.py PROGRAM, with the built viommu.

It stands outside the gate, and ends with 'N passed, M failed'.
"""
import glob
import html.parser
import json
import os
import random
import re
import shutil
import subprocess
import sys
import tempfile

TOP = os.path.dirname(os.path.dirname(os.path.abspath(__file__)))
EXAMPLES = os.path.join(TOP, "examples")
passed = failed = 0


def ask(what, got, want):
    """One question: what was got is what is wanted."""
    global passed, failed
    if got == want:
        passed += 1
    else:
        failed += 1
        print(f"{what}\n  got:  {got!r}\n  want: {want!r}")


def call(tool, *words, data="", top=TOP):
    """The status, the output and the messages of a tool."""
    done = subprocess.run([sys.executable, os.path.join(top, "tools", tool), *words], input=data, capture_output=True, encoding="utf-8",
                          timeout=60)
    return done.returncode, done.stdout, done.stderr


def read(name):
    with open(os.path.join(EXAMPLES, name), encoding="ascii") as file:
        return file.read()


# The forms of a sequence diagram's lines that are used, with no byte in a text that ends it.
MERMAID = re.compile(r"  (participant \w+ as [\w ,]+|Note over \w+(,\w+)?: [^;#:]+|\w+(->>|-x)\w+: [^;#:]+)")


class Tags(html.parser.HTMLParser):
    """Whether each tag is closed in its order, and how often each begins."""
    EMPTY = {"meta", "br"}

    def __init__(self):
        super().__init__()
        self.open, self.counts, self.is_right = [], {}, True

    def handle_starttag(self, tag, attrs):
        self.counts[tag] = self.counts.get(tag, 0) + 1
        if tag not in self.EMPTY:
            self.open.append(tag)

    def handle_endtag(self, tag):
        self.is_right = self.is_right and self.open != [] and self.open.pop() == tag


def tags_of(text):
    tags = Tags()
    tags.feed(text)
    return tags.is_right and tags.open == [], tags.counts


def examples_are_drawn():
    """Each example in each form, and what the forms have in common."""
    for script in sorted(glob.glob(os.path.join(EXAMPLES, "*.viommu"))):
        name, report = os.path.basename(script), script.removesuffix(".viommu") + ".report"
        entries = int(read(os.path.basename(report)).split()[2])
        status, out, said = call("show.py", script, report)
        ask(f"{name}: table", (status, said, out.count("\n")), (0, "", entries + 3))
        status, out, said = call("show.py", script, report, "--json")
        drawn = json.loads(out)
        ask(f"{name}: json", (status, said, len(drawn["entries"]), drawn["misfit"]), (0, "", entries, None))
        waits = sum(len(entry["waited"]) for entry in drawn["entries"])
        status, out, said = call("show.py", script, report, "--mermaid")
        ask(f"{name}: mermaid", (status, said, out.splitlines()[0], out.count(">>dev") + out.count("-xdev"), out.count("Note over")),
            (0, "", "sequenceDiagram", entries, waits + 1))
        ask(f"{name}: mermaid, its lines", [line for line in out.splitlines()[1:] if not MERMAID.fullmatch(line)], [])
        status, out, said = call("show.py", script, report, "--html")
        is_closed, counts = tags_of(out)
        ask(f"{name}: page", (status, said, is_closed, counts["rect"], counts["path"]), (0, "", True, entries, waits + 1))


def misfits_are_named(room):
    """Reports that don't fit: how many entries are drawn, and what is said."""
    lines = read("removal.report").splitlines()
    script = os.path.join(EXAMPLES, "removal.viommu")

    def shown(what, changed, drawn, misfit):
        path = os.path.join(room, "report")
        with open(path, "w", encoding="latin-1") as file:
            file.write("\n".join(changed) + "\n")
        status, out, said = call("show.py", script, path, "--json")
        found = json.loads(out)
        ask(what, (status, len(found["entries"]), found["misfit"]), (1, drawn, misfit))
        ask(f"{what}, said", said, f"show.py: the report doesn't fit its script, {misfit}\n")
        ask(f"{what}, page", call("show.py", script, path, "--html")[0], 1)
        status, out, said = call("show.py", script, path, "--mermaid")
        ask(f"{what}, mermaid", (status, [line for line in out.splitlines()[1:] if not MERMAID.fullmatch(line)]), (1, []))

    shown("an entry that isn't one", [*lines[:5], "5 b6.1.1 looked", *lines[6:]], 4, "entry 5: its line isn't an entry: '5 b6.1.1 looked'")
    shown("a wrong number", [*lines[:5], "6 b6.1.1 read 01", *lines[6:]], 4, "entry 5: it is numbered 6")
    shown("no such line", [*lines[:5], "5 b6.3.1 read 01", *lines[6:]], 4, "entry 5: b6.3.1 is no line of the script")
    shown("no such caller", [*lines[:5], "5 d7.1 status 0", *lines[6:]], 4, "entry 5: d7.1 is no line of the script")
    shown("no such part", [*lines[:5], "5 b6.1.2 read 01", *lines[6:]], 4, "entry 5: b6.1 has parts 1 to 1, and no 2")
    shown("a part of a driver's line", [*lines[:1], "1 d0.1.1 status 0", *lines[2:]], 0, "entry 1: d0.1.1 is no line of the script")
    shown("twice", [*lines[:5], "5 b5.1.1 wrote", *lines[6:]], 4, "entry 5: b5.1.1 has an entry already")
    shown("another answer", [*lines[:5], "5 b6.1.1 wrote", *lines[6:]], 4, "entry 5: 'wrote' is no answer to 'read 0x1000 1'")
    shown("too early", [*lines[:5], "5 b6.2.1 wrote", *lines[6:]], 4, "entry 5: b6.2.1 isn't due: others of b6 come first")
    shown("before what it waits for", [*lines[:3], "3 b5.1.1 wrote", *lines[4:]], 2, "entry 3: b5.1.1 isn't due: it waits for d0.3")
    shown("cut", lines[:5], 4, "after entry 4: 8 are announced")
    shown("one too few", ["viommu history 7", *lines[1:8], *lines[9:]], 7, "after entry 7: b5.2.1 has none")
    shown("no counts", [*lines[:9], "end"], 8, "after entry 8: no line 'faults F shown S dropped D'")
    shown("wrong counts", [*lines[:9], "faults 2 shown 1 dropped 1", *lines[10:]], 8, "'faults 2 shown 1 dropped 1', where 1 entries are faults")
    shown("a record of no fault", [*lines[:10], "7" + lines[10][1:], "end"], 8, f"'7{lines[10][1:]}' is no record of a faulting entry")
    shown("behind the end", [*lines, "end"], 8, "after 1 records: no line 'end' that is the last")


def bad_input_is_refused(room):
    """What is no script, no report or no file ends with a message and status 2."""
    script, report = os.path.join(EXAMPLES, "first.viommu"), os.path.join(EXAMPLES, "first.report")
    bad = os.path.join(room, "bad")

    def refused(what, *words, start="show.py: "):
        status, out, said = call("show.py", *words)
        ask(what, (status, out, said.startswith(start), said.count("\n")), (2, "", True, 1))

    for words in ((), (script,), (script, report, "--pdf"), (script, report, "--html", "--json"), (script, report, report)):
        refused(f"words {words}", *words, start="show.py: usage: ")
    refused("no such file", script, os.path.join(room, "absent"))
    refused("a folder", room, report)
    for text in ("d0\tprobe 7\n", "memory\n", "endpoint 7\r\n", "hello world\n", "d0 map 1 2\n", "endpoint 7\nb7 read x 1\n", "b7 read 0 1\n",
                 "endpoint 7\nd0 probe 7 after b7.1\n", "endpoint x\n", "d0 probe 7 # so\n", "\x00\xff\x80"):
        with open(bad, "w", encoding="latin-1") as file:
            file.write(text)
        refused(f"script {text!r}", bad, report, start=f"show.py: {bad} is no script: ")
    for text in ("", "end\n", "viommu history\n", "viommu history x\n", "\x00\xff\x80"):
        with open(bad, "w", encoding="latin-1") as file:
            file.write(text)
        refused(f"report {text!r}", script, bad, start=f"show.py: {bad} is no report: ")


def no_text_breaks_it(room):
    """Changed bytes at drawn places: whatever the text is, the tool ends as it says, without a trace of its own."""
    drawn, path = random.Random(1), os.path.join(room, "text")
    trees = 0
    for _ in range(60):
        text = list(read("mapping.report"))
        for _ in range(drawn.randint(1, 4)):
            text[drawn.randrange(len(text))] = drawn.choice("0123456789 db.\nxf\t")
        with open(path, "w", encoding="ascii") as file:
            file.write("".join(text))
        status, _, said = call("show.py", os.path.join(EXAMPLES, "mapping.viommu"), path, drawn.choice(["--html", "--json", "--mermaid"]))
        trees += status not in (0, 1, 2) or "Traceback" in said
    ask("reports with changed bytes", trees, 0)


RULES = [
    ("endpoint 1\nendpoint 2\nreserve 2 msi 0x3000 0x3fff\ninput 0 0xfffffffffffff\n", []),
    ("d0 attach 1 9\n", ["ATTACH: the endpoint is unknown -> NOENT"]),
    ("d0 attach 1 1\n", ["ATTACH: none of the rules above -> OK: the endpoint leaves its domain and joins this one"]),
    ("d0 attach 1 1\n", ["ATTACH: the endpoint is in this domain -> OK, no change"]),
    ("d0 attach 1 2 bypass\n", ["ATTACH: the domain exists and its bypass flag isn't the request's -> INVAL"]),
    ("d0 raw 0100000001000000010000000200000000000000 4\n", ["ATTACH: a flag bit other than BYPASS -> INVAL"]),
    ("d0 detach 1 9\n", ["DETACH: the endpoint is unknown -> NOENT"]),
    ("d0 detach 1 2\n", ["DETACH: it isn't in this domain -> INVAL"]),
    ("d0 map 2 0 0xfff 0\n", ["MAP: the domain doesn't exist -> NOENT"]),
    ("d0 map 1 0xfff 0xfff 0\n", ["MAP: `last <= first` -> INVAL"]),
    ("d0 map 1 1 0xfff 0\n", ["MAP: `first`, `last + 1` or `target` isn't a multiple of the granule -> RANGE"]),
    ("d0 map 1 0x1000 0xffffffffffffffff 0\n", ["MAP: the range isn't within the input range -> RANGE"]),
    ("d0 map 1 0 0xfff 0xfffffffffffff000\n", ["MAP: none of the rules above -> OK: the mapping is added"]),
    ("d0 map 1 0x1000 0x2fff 0xfffffffffffff000\n", ["MAP: `target + (last - first)` passes 2^64 - 1 -> RANGE"]),
    ("d0 map 1 0 0xfff 0\n", ["MAP: the range meets a mapping of the domain -> INVAL"]),
    ("d0 map 1 0x3000 0x4fff 0 r\n", ["MAP: none of the rules above -> OK: the mapping is added"]),
    ("d0 attach 1 2\n", ["ATTACH: a mapping of the domain meets a region of the endpoint -> INVAL"]),
    ("d0 attach 2 2\n", ["ATTACH: none of the rules above -> OK"]),
    ("d0 map 2 0x2000 0x3fff 0\n", ["MAP: the range meets a region of an endpoint of the domain -> INVAL"]),
    ("d0 attach 3 1 bypass\n", ["ATTACH: none of the rules above -> OK"]),
    ("d0 map 3 0 0xfff 0\n", ["MAP: a bypass domain -> INVAL"]),
    ("d0 unmap 3 0 0xfff\n", ["UNMAP: a bypass domain -> INVAL"]),
    ("d0 unmap 1 0 0xfff\n", ["UNMAP: the domain doesn't exist -> NOENT"]),
    ("d0 unmap 2 1 0\n", ["UNMAP: `last < first` -> INVAL"]),
    ("d0 map 2 0x8000 0x9fff 0 w\n", ["MAP: none of the rules above -> OK"]),
    ("d0 unmap 2 0x8000 0x8fff\n", ["UNMAP: a mapping meets the range and isn't wholly inside it -> RANGE"]),
    ("d0 add unmap 2 0 0x7fff\n", ["UNMAP: none of the rules above -> OK: all mappings inside the range are removed"]),
    ("d0 raw 0300000002000000000000000000000000100000000000000000000000000000ff000000 4\n", ["MAP: a flag bit other than READ and WRITE -> INVAL"]),
    ("d0 probe 9\n", ["PROBE: the endpoint is unknown -> NOENT"]),
    ("d0 probe 2\n", ["PROBE: none of the rules above -> OK with the endpoint's properties"]),
    ("d0 raw - 4\n", ["any bytes: fewer than 4 readable ones, or an unknown type -> nothing is written"]),
    ("d0 raw 05000000 515\n", ["any bytes: fewer than 4 writable ones, for a PROBE fewer than 516 -> nothing is written"]),
    ("d0 raw 05000000 516\n", ["any bytes: the readable part hasn't the type's size -> INVAL"]),
    ("d0 raw 0200000002000000020000000100000000000000 4\n", ["any bytes: a reserved byte of the body isn't 0 -> INVAL"]),
    ("b1 read 0xfffe 4\n", ["2. An endpoint in a bypass domain", "6. Where that lies outside the memory: fault 0."]),
    ("b2 read 0x3000 1\n", ["3. The address is in a region of the endpoint: fault 2."]),
    ("b2 read 0x8000 1\n", ["4. No mapping of the domain has the address, or it lacks the needed flag: fault 2."]),
    ("b2 write 0x8ffe 01020304\n", ["5. Otherwise", "5. Otherwise"]),
    ("d0 detach 2 2\n", ["DETACH: none of the rules above -> OK: it leaves"]),
    ("b2 read 0 1\n", ["1. An endpoint in no domain"]),
    ("d0 bypass on\n", ["a setting of the bypass field is always done"]),
    ("b2 read 0 1\n", ["1. An endpoint in no domain"]),
]


def rules_are_named(program):
    """Each rule of the document, one after another in one session."""
    status, out, said = call("ask.py", program, data="".join(text for text, _ in RULES))
    ask("rules: the end", (status, said), (0, ""))
    got = [line.strip() for line in out.splitlines() if line.startswith("      ")]
    want = [rule for _, rules in RULES for rule in rules]
    ask("rules: how many", len(got), len(want))
    for found, rule in zip(got, want):
        ask(f"rule {rule}", found[:len(rule)], rule)
    tables = ["attach", "detach", "map", "unmap", "probe", "any bytes"]
    ask("rules: each of a request is here", len({rule.split(" -> ")[0] for rule in want if rule.split(":")[0].lower() in tables}), 30)


def unbuilt_is_refused(room):
    """The script `viommu` isn't asked for an answer while that would build the program; both tools print their help."""
    script, asked = os.path.join(room, "unbuilt"), os.path.join(room, "asked")
    with open(script, "w", encoding="ascii") as file:
        file.write(f"#!/bin/sh\necho \"$@\" >> '{asked}'\necho \"the program isn't built from these sources\"\n")
    os.chmod(script, 0o755)
    status, out, said = call("ask.py", script, data="memory 1\n")
    ask("unbuilt", (status, out, said.startswith("ask.py: ") and "./viommu build" in said), (2, "", True))
    with open(asked, encoding="ascii") as file:
        ask("unbuilt: what was asked", file.read(), "--version\n")
    for tool in ("show.py", "ask.py"):
        for word in ("--help", "-h"):
            status, out, said = call(tool, word)
            ask(f"{tool} {word}", (status, f"tools/{tool} " in out, said), (0, True, ""))


def prompts(program, room):
    """Refused lines are dropped, a script can be taken in, and what is no viommu is refused."""
    status, out, said = call("ask.py", program, data="hello\nendpoint 7\nd0 probe 7 after b7.1\nd0\tprobe 7\n\nd0 probe 7\n\n")
    lines = out.splitlines()
    ask("refused lines", [line.split(":")[0] for line in lines[:4]], ["  refused, word", "  taken", "  refused, after", "  refused, byte"])
    ask("the script so far", (lines[4], lines[-2:]), ("  endpoint 7", ["  endpoint 7", "  d0 probe 7"]))
    status, out, said = call("ask.py", program, os.path.join(EXAMPLES, "first.viommu"), data="b7 read 0x1002 1\n?\n")
    ask("a script first", (status, "  5 b7.3.1 read 63" in out.splitlines(), "  `bE read A LEN`" in out.splitlines()), (0, True, True))
    for words in ((), ("--pdf",), (program, "a", "b"), (os.path.join(room, "absent"),), (shutil.which("true"),), (shutil.which("false"),),
                  (room,), (program, os.path.join(room, "absent")), (program, os.path.join(EXAMPLES, "first.report"))):
        status, out, said = call("ask.py", *words)
        ask(f"ask.py {words}", (status, out, said.startswith("ask.py: "), said.count("\n")), (2, "", True, 1))
    unbuilt_is_refused(room)
    top = os.path.join(room, "top")
    shutil.copytree(os.path.join(TOP, "tools"), os.path.join(top, "tools"))
    os.mkdir(os.path.join(top, "docs"))
    with open(os.path.join(TOP, "docs", "FORMATS.md"), encoding="utf-8") as file:
        text = file.read()
    with open(os.path.join(top, "docs", "FORMATS.md"), "w", encoding="utf-8") as file:
        file.write(text.replace("| | a bypass domain | INVAL |\n", ""))
    status, out, said = call("ask.py", program, top=top)
    ask("another document", (status, said.startswith("ask.py: docs/FORMATS.md: ")), (2, True))


def main():
    if len(sys.argv) != 2:
        print("usage: tests/tools.py PROGRAM", file=sys.stderr)
        return 2
    program = os.path.abspath(sys.argv[1])
    with tempfile.TemporaryDirectory() as room:
        examples_are_drawn()
        misfits_are_named(room)
        bad_input_is_refused(room)
        no_text_breaks_it(room)
        rules_are_named(program)
        prompts(program, room)
    print(f"{passed} passed, {failed} failed")
    return 1 if failed else 0


if __name__ == "__main__":
    sys.exit(main())
