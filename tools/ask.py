#!/usr/bin/env python3
"""A prompt on the reference device: type a line of a script, and see its reply and the rule that gives it.

    tools/ask.py PROGRAM [SCRIPT]
    tools/ask.py --help

PROGRAM is ./viommu, once `./viommu build` has proved and built it. It is asked at every line, so `./viommu try`, which compiles for a
minute each time, won't do.

Each line is put after those before it, and `PROGRAM one` answers the whole again, so what is shown is always the program's own
report. With it come the status's name and the rule of docs/FORMATS.md that gives it. A refused line is shown with its kind and
dropped. An empty line shows the script so far, `?` the forms of lines; Ctrl-D ends.

The status is 0, or 2 where the words, the script or the program can't be used.
"""
import os
import re
import subprocess
import sys

import rules
from reading import FAULTS, PAGE, STATUSES, number

DOCUMENT = os.path.join(os.path.dirname(os.path.abspath(__file__)), "..", "docs", "FORMATS.md")


UNBUILT = "isn't built from these sources"
WANTED = "PROGRAM is ./viommu, once `./viommu build` has proved and built it, in about 21 minutes on 4 processors"


class Unusable(Exception):
    """The program that was named answers as no viommu does."""


def stop(text):
    print(f"ask.py: {text}", file=sys.stderr)
    sys.exit(2)


def need_built(program):
    """Refuses the script `viommu` while it would first prove and build the program for whoever asks. The program itself has no --version."""
    try:
        done = subprocess.run([program, "--version"], stdin=subprocess.DEVNULL, stdout=subprocess.PIPE, stderr=subprocess.DEVNULL)
    except OSError as fault:
        stop(f"{program}: {fault.strerror}; {WANTED}")
    if UNBUILT in done.stdout.decode("latin-1"):
        stop(f"{program} {UNBUILT}; {WANTED}")


def one(program, lines):
    """The entries of `PROGRAM one` on these lines, or the row and the kind of the refusal."""
    text = "".join(line + "\n" for line in lines)
    try:
        done = subprocess.run([program, "one"], input=text.encode("utf-8", "surrogateescape"), stdout=subprocess.PIPE)
    except OSError as fault:
        raise Unusable(f"{program}: {fault.strerror}") from fault
    said = done.stdout.decode("latin-1")
    refused = re.fullmatch(r"bad script line (\d+): (\w+)\n", said)
    if done.returncode == 3 and refused:
        return None, (int(refused[1]), refused[2])
    report = said.splitlines()
    if done.returncode or not report or not re.fullmatch(r"viommu history \d+", report[0]):
        raise Unusable(f"`{program} one` ended with status {done.returncode}, and wrote no report: {said[:80]!r}")
    return report[1:1 + int(report[0].split()[2])], None


def shown(entry):
    """An entry as it is shown: bytes cut, and a status or a fault by its name too."""
    text = entry if len(entry) <= 90 else entry[:88] + ".."
    words = entry.split()
    if words[2] in ("status", "probed"):
        return f"{text}  ({STATUSES.get(int(words[3]), '?')})"
    return f"{text}  ({FAULTS.get(int(words[3]), '?')})" if words[2] == "fault" else text


def request_rule(follower, words, entry):
    """The rule of a request's answer, if it gives what the program answered."""
    if words[0] == "bypass":
        follower.device.is_bypass = words[1] == "on"
        return "a setting of the bypass field is always done"
    group, where, answer = follower.request(words)
    kind, *value = entry.split()[2:]
    said = "nothing" if kind == "nothing" else STATUSES.get(int(value[0]), "?")
    if not answer.startswith("nothing" if said == "nothing" else said):
        return ""
    return f"{group}: {where} -> {answer}  [The rules of a request]"


def access_rule(follower, caller, words, entry):
    """The rule of translation by which a part of a transfer is answered."""
    first, part = number(words[1]), int(entry.split()[1].split(".")[2])
    address = first if part == 1 else (first // PAGE + part - 1) * PAGE
    rule, fault = follower.access(int(caller[1:]), address, words[0] == "read")
    kind, *value = entry.split()[2:]
    if (str(fault) if fault is not None else None) != (value[0] if kind == "fault" else None):
        return ""
    return f"{rule}. {follower.rules.translation[rule - 1]}  [Translation]"


def explain(follower, line, entries):
    """The lines to show for a line that was taken: its entries and their rules."""
    words = line.split()
    if not words or words[0][0] == "#":
        return
    if not re.fullmatch(r"[db]\d+", words[0]):
        follower.set_up(words)
        yield "taken"
        return
    caller, *job = words
    for entry in entries:
        yield shown(entry)
        if caller[0] == "d":
            rule = request_rule(follower, job[1:] if job[0] == "add" else job, entry)
        else:
            rule = access_rule(follower, caller, job, entry)
        yield f"    {rule or 'no rule is known here for this answer: docs/FORMATS.md decides'}"


class Session:
    """The lines so far, with what the rules made of them."""

    def __init__(self, program, known):
        self.program, self.known = program, known
        self.follower = rules.Follower(known)
        self.lines, self.seen = [], 0

    def take(self, line):
        """Asks about one line more, and answers what is to be shown. A refused line is dropped."""
        entries, refused = one(self.program, [*self.lines, line])
        if refused:
            row, kind = refused
            return [f"refused, {kind}: {self.known.kinds.get(kind, 'of no known kind')}  (line {row})"]
        self.lines.append(line)
        new, self.seen = entries[self.seen:], len(entries)
        return list(explain(self.follower, line, new))


def begin(session, path):
    """Takes a script's lines in before the first prompt."""
    try:
        with open(path, encoding="latin-1", newline="") as file:
            lines = file.read().removesuffix("\n").split("\n")
    except OSError as fault:
        stop(f"{path}: {fault.strerror}")
    _, refused = one(session.program, lines)
    if refused:
        stop(f"{path} is no script: line {refused[0]}: {refused[1]}")
    for line in lines:
        print(">", line)
        print("".join(f"  {text}\n" for text in session.take(line)), end="")


def main():
    if sys.argv[1:] in (["--help"], ["-h"]):
        print(__doc__.strip())
        return
    if len(sys.argv) not in (2, 3) or sys.argv[1].startswith("-"):
        stop("usage: tools/ask.py PROGRAM [SCRIPT]")
    need_built(sys.argv[1])
    try:
        with open(DOCUMENT, encoding="utf-8") as file:
            known = rules.read_rules(file.read())
    except (OSError, rules.Drifted) as fault:
        stop(f"docs/FORMATS.md: {fault}")
    session = Session(sys.argv[1], known)
    try:
        session.take("")
        if len(sys.argv) == 3:
            begin(session, sys.argv[2])
        for line in prompted():
            if not line.strip():
                print("".join(f"  {text}\n" for text in session.lines if text.strip()), end="")
            elif line.strip() == "?":
                print("".join(f"  {text}\n" for text in known.statements), end="")
            else:
                print("".join(f"  {text}\n" for text in session.take(line)), end="")
    except Unusable as fault:
        stop(fault)


def prompted():
    """The lines that are typed, each after a prompt where somebody sees it."""
    while True:
        try:
            yield input("> " if sys.stdin.isatty() else "")
        except (EOFError, KeyboardInterrupt):
            return


if __name__ == "__main__":
    main()
