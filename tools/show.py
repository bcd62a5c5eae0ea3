#!/usr/bin/env python3
"""Draws the history of a report, one lane for each actor and one row for each entry.

    tools/show.py SCRIPT REPORT [--mermaid | --html | --json]
    tools/show.py --help

Without a flag it writes a table for the terminal; with --mermaid a sequence diagram as text, as GitHub and many editors draw
it; with --html one page that needs nothing else; with --json one JSON object. It draws what the report says and judges no
answer, as each drawing says: `viommu check` does. A report that doesn't fit its script is drawn as far as it goes, with the first
misfit named.

The status is 0, or 1 where there is a misfit, or 2 where the words, the script or the report can't be read.
"""
import html
import json
import os
import re
import sys

import reading

STYLE = """
  body { margin: 2em; background: #fff; color: #1c2430; font: 15px/1.5 system-ui, sans-serif; }
  h1 { font-size: 20px; margin: 0 0 .2em; }
  p { margin: .2em 0 1em; max-width: 60em; color: #4a5565; }
  p.misfit { color: #a4161a; font-weight: 600; }
  svg { font: 13px system-ui, sans-serif; }
  .lane { stroke: #d4dae2; stroke-width: 2; }
  .caller { font-weight: 600; font-size: 15px; fill: #1c2430; }
  .what, .number { fill: #6b7686; }
  .job { font-family: ui-monospace, monospace; font-size: 12px; fill: #1c2430; }
  .answer { font-weight: 600; }
  rect { stroke-width: 1.5; }
  .done rect { fill: #eef7f0; stroke: #3a8f55; } .done .answer { fill: #236b3c; }
  .refused rect { fill: #fdf5e3; stroke: #c58a12; } .refused .answer { fill: #8a5d00; }
  .fault rect { fill: #fdecec; stroke: #c9302c; } .fault .answer { fill: #a4161a; }
  .unanswered rect { fill: #f2f3f5; stroke: #8b95a3; } .unanswered .answer { fill: #5b6675; }
  .wait { fill: none; stroke: #3b5bdb; stroke-width: 1.6; }
  #tip path { fill: #3b5bdb; }
"""
LANE, ROW, BOX, HEAD, LEFT = 296, 62, 248, 64, 46
NOT_JUDGED = "drawn as reported and not judged: viommu check tells whether it could have happened"


def cut(text, most):
    return text if len(text) <= most else text[:most - 2] + ".."


def answered(entry):
    """The answer, and whether a fault's record was dropped."""
    return entry.answer() + {True: "", False: ", dropped"}[entry.is_shown or entry.kind != "fault"]


def about(caller):
    return f"driver {caller[1:]}" if caller[0] == "d" else f"back end of endpoint {caller[1:]}"


def table(history):
    """A table for the terminal."""
    callers = list(history.script.callers)
    rows = [[""] * len(callers) for _ in history.entries]
    for row, entry in zip(rows, history.entries):
        row[callers.index(entry.line.caller)] = f"{cut(entry.line.job, 34)}: {answered(entry)}"
    widths = [max([len(caller), *(len(row[at]) for row in rows)]) for at, caller in enumerate(callers)]
    yield "   # " + "  ".join(caller.ljust(width) for caller, width in zip(callers, widths)) + "  waited for"
    for entry, row in zip(history.entries, rows):
        cells = "  ".join(cell.ljust(width) for cell, width in zip(row, widths))
        waits = ", ".join(f"{name} ({of})" for name, of in entry.waited)
        yield f"{entry.number:4} {cells}  {waits}".rstrip()
    yield history.faults or "(the report isn't drawn further)"
    yield f"({NOT_JUDGED})"


def mermaid(history):
    """A sequence diagram. A driver's requests and a back end's accesses are both answered by the device."""
    yield "sequenceDiagram"
    for caller in history.script.callers:
        yield f"  participant {caller} as {caller}, {about(caller)}"
    yield "  participant dev as device"
    for entry in history.entries:
        caller = entry.line.caller
        for name, of in entry.waited:
            yield f"  Note over {name.split('.')[0]},{caller}: {name} was finished at {of}"
        arrow = "-x" if entry.kind == "fault" else "->>"
        yield f"  {caller}{arrow}dev: {entry.number}. {cut(entry.line.job, 40)} = {answered(entry)}"
    if history.misfit:
        yield "  Note over dev: here it ends - " + re.sub("[;#:]", ",", history.misfit)
    yield "  Note over dev: " + re.sub("[;#:]", ",", NOT_JUDGED)


def as_json(history):
    """One JSON object."""
    entries = [{"entry": it.number, "name": it.name, "caller": it.line.caller, "line": it.line.number, "part": it.part,
                "row": it.line.row, "job": it.line.job, "answer": it.kind, "value": it.value, "says": it.answer(),
                "is_shown": it.is_shown, "waited": [{"line": name, "entry": of} for name, of in it.waited]}
               for it in history.entries]
    callers = [{"name": name, "lines": [{"line": it.number, "row": it.row, "job": it.job, "parts": it.parts, "awaits": it.awaits}
                                        for it in lines]} for name, lines in history.script.callers.items()]
    yield json.dumps({"callers": callers, "entries": entries, "faults": history.faults, "misfit": history.misfit or None}, indent=1)


def box(entry, left, top):
    """An entry as a box in its lane."""
    part = f", part {entry.part} of {entry.line.parts}" if entry.line.parts > 1 else ""
    yield f'<g class="{entry.tone}"><title>{html.escape(f"{entry.name}, line {entry.line.row} of the script: {entry.line.job}")}</title>'
    yield f'<rect x="{left}" y="{top}" width="{BOX}" height="{ROW - 18}" rx="6"/>'
    yield f'<text class="job" x="{left + 10}" y="{top + 18}">{html.escape(cut(entry.line.job, 31 - len(part)) + part)}</text>'
    yield f'<text class="answer" x="{left + 10}" y="{top + 36}">{html.escape(cut(answered(entry), 36))}</text></g>'


def arrow(start, end, top_from, top_to):
    """An arrow from the side of one box to the side of another, in lanes whose left edges are given."""
    rightward = end > start
    x, to = (start + BOX, end - 3) if rightward else (start, end + BOX + 3)
    y, down = top_from + (ROW - 18) / 2 + 8, top_to + (ROW - 18) / 2 - 8
    bend = 46 if rightward else -46
    return f'<path class="wait" marker-end="url(#tip)" d="M{x} {y} C{x + bend} {y} {to - bend} {down} {to} {down}"/>'


def drawing(history):
    """The lanes, the boxes and the arrows."""
    callers = list(history.script.callers)
    left = {caller: LEFT + at * LANE for at, caller in enumerate(callers)}
    top = {entry.number: HEAD + at * ROW for at, entry in enumerate(history.entries)}
    of = {entry.number: left[entry.line.caller] for entry in history.entries}
    wide, high = LEFT + LANE * len(callers), HEAD + ROW * len(history.entries) + 8
    yield f'<svg width="{wide}" height="{high}" viewBox="0 0 {wide} {high}" role="img" aria-label="the history as lanes">'
    yield ('<defs><marker id="tip" viewBox="0 0 8 8" refX="6" refY="4" markerWidth="8" markerHeight="8" orient="auto">'
           '<path d="M0 0 L8 4 L0 8 z"/></marker></defs>')
    for caller in callers:
        middle = left[caller] + BOX / 2
        yield f'<line class="lane" x1="{middle}" y1="{HEAD - 10}" x2="{middle}" y2="{high}"/>'
        yield f'<text class="caller" x="{middle}" y="22" text-anchor="middle">{caller}</text>'
        yield f'<text class="what" x="{middle}" y="42" text-anchor="middle">{about(caller)}</text>'
    for entry in history.entries:
        for _, waited in entry.waited:
            yield arrow(of[waited], of[entry.number], top[waited], top[entry.number])
    for entry in history.entries:
        yield f'<text class="number" x="{LEFT - 14}" y="{top[entry.number] + 27}" text-anchor="end">{entry.number}</text>'
        yield from box(entry, left[entry.line.caller], top[entry.number])
    yield "</svg>"


def page(history, title):
    """One HTML page."""
    yield '<!DOCTYPE html>\n<html lang="en"><head><meta charset="utf-8">'
    yield f"<title>{html.escape(title)}</title><style>{STYLE}</style></head><body>"
    yield f"<h1>{html.escape(title)}</h1>"
    yield ("<p>A lane for each actor, and a row for each entry, in the order of the history. An arrow leads from the entry that finished "
           "a line to the one that waited for that line. Green is done, amber refused, red a fault, grey unanswered.</p>")
    if history.misfit:
        yield f'<p class="misfit">The report doesn\'t fit its script, and is drawn as far as it goes: {html.escape(history.misfit)}.</p>'
    yield from drawing(history)
    yield f"<p>{html.escape(history.faults)}</p><p>{html.escape(NOT_JUDGED.capitalize())}.</p></body></html>"


def stop(text):
    print(f"show.py: {text}", file=sys.stderr)
    sys.exit(2)


def text_of(path):
    """The bytes of a file as text, one character a byte."""
    try:
        with open(path, encoding="latin-1", newline="") as file:
            return file.read()
    except OSError as fault:
        return stop(f"{path}: {fault.strerror}")


def main():
    if sys.argv[1:] in (["--help"], ["-h"]):
        print(__doc__.strip())
        return
    words = [word for word in sys.argv[1:] if not word.startswith("--")]
    flags = [word for word in sys.argv[1:] if word.startswith("--")]
    forms = {"--mermaid": mermaid, "--json": as_json}
    if len(words) != 2 or len(flags) > 1 or not {*flags} <= {*forms, "--html"}:
        stop("usage: tools/show.py SCRIPT REPORT [--mermaid | --html | --json]")
    script, report = words
    try:
        history = reading.read_history(reading.read_script(text_of(script)), text_of(report))
    except reading.NotAScript as fault:
        stop(f"{script} is no script: {fault}")
    except reading.NotAReport as fault:
        stop(f"{report} is no report: {fault}")
    if flags == ["--html"]:
        shown = page(history, f"{os.path.basename(script)}, {os.path.basename(report)}")
    else:
        shown = forms.get(flags[0] if flags else "", table)(history)
    try:
        print(*shown, sep="\n", flush=True)
    except BrokenPipeError:
        os.dup2(os.open(os.devnull, os.O_WRONLY), 1)
    if history.misfit:
        print(f"show.py: the report doesn't fit its script, {history.misfit}", file=sys.stderr)
    sys.exit(1 if history.misfit else 0)


if __name__ == "__main__":
    main()
