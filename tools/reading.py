"""Scripts and reports as data, for tools/show.py. Their forms are those of docs/FORMATS.md.

It reads what a history says and finds where a report doesn't fit its script. It judges no answer: `viommu check` does.
"""
import re
from dataclasses import dataclass, field

STATUSES = {0: "OK", 4: "INVAL", 5: "RANGE", 6: "NOENT"}
FAULTS = {0: "outside memory", 1: "in no domain", 2: "not mapped so"}
PAGE = 4096

# How many words follow a setup line's first one. A `turns` line has one or more.
SETUP = {"memory": 1, "queue": 1, "cache": 1, "granule": 1, "input": 2, "bypass": 1, "events": 1, "endpoint": 1, "reserve": 4}
# How many words follow a verb, and which word may stand after these.
DRIVER = {"attach": (2, ("bypass",)), "detach": (2, ()), "map": (4, ("r", "w", "rw")), "unmap": (3, ()), "probe": (1, ()),
          "bypass": (1, ()), "raw": (2, ())}
BACK_END = {"read": (2, ()), "write": (2, ())}
# Which answers a line can have.
ANSWERS = {"probe": ("probed",), "bypass": ("set",), "raw": ("status", "probed", "nothing"), "read": ("read", "fault"),
           "write": ("wrote", "fault")}


class NotAScript(Exception):
    """A text that is no script, with the line at which that shows."""


class NotAReport(Exception):
    """A text that doesn't begin as a report does."""


@dataclass
class Line:
    """An actor's line: `number` is its number among its caller's lines, and `row` that of the text's line."""
    caller: str
    number: int
    row: int
    verb: str
    job: str
    is_added: bool
    awaits: list
    parts: int

    @property
    def name(self):
        return f"{self.caller}.{self.number}"


@dataclass
class Script:
    """Each caller's lines, the drivers by number before the back ends in declared order."""
    callers: dict


@dataclass
class Entry:
    """An entry that fits: what was answered to which line, and which entries finished what the line waited for."""
    number: int
    line: Line
    part: int
    kind: str
    value: str
    waited: list
    is_shown: bool = False

    @property
    def name(self):
        return f"{self.line.name}.{self.part}" if self.line.caller[0] == "b" else self.line.name

    @property
    def tone(self):
        """How it went: done, refused, fault, or unanswered."""
        if self.kind in ("status", "probed"):
            return "done" if self.value.split()[0] == "0" else "refused"
        return {"fault": "fault", "nothing": "unanswered"}.get(self.kind, "done")

    def answer(self, most=16):
        """The answer in words, bytes cut at `most` digits."""
        if self.kind in ("status", "probed"):
            code, *rest = self.value.split()
            return STATUSES.get(int(code), f"status {code}") + (", properties" if rest else "")
        if self.kind == "fault":
            return f"fault {self.value}, {FAULTS.get(int(self.value), 'of no known reason')}"
        if self.kind == "read":
            return "read " + (self.value if len(self.value) <= most else self.value[:most] + "..")
        return {"nothing": "nothing written", "set": "set"}.get(self.kind, self.kind)


@dataclass
class History:
    """The entries that fit, and the first misfit, if there is one."""
    script: Script
    entries: list = field(default_factory=list)
    misfit: str = ""
    faults: str = ""


def number(word):
    """The number that a word is, or None."""
    if re.fullmatch(r"[0-9]+", word):
        return int(word)
    return int(word, 16) if re.fullmatch(r"0x[0-9a-fA-F]+", word) else None


def parts_of(verb, words, row):
    """How many pages a transfer has addresses in."""
    first = number(words[0])
    if verb == "read":
        length = number(words[1])
    else:
        length = len(words[1]) // 2 if re.fullmatch(r"([0-9a-fA-F]{2})+", words[1]) else None
    if first is None or not length:
        raise NotAScript(f"line {row}: a transfer has an address, and a length or bytes")
    return (first + length - 1) // PAGE - first // PAGE + 1


def actor_line(words, row, lines):
    """The line of a driver or a back end that these words are."""
    caller, verb, *rest = words
    is_added = verb == "add" and caller[0] == "d" and bool(rest)
    if is_added:
        verb, *rest = rest
    forms = DRIVER if caller[0] == "d" else BACK_END
    if verb not in forms or is_added and verb == "bypass":
        raise NotAScript(f"line {row}: '{verb}' is nothing that {caller} can do")
    count, options = forms[verb]
    if len(rest) < count:
        raise NotAScript(f"line {row}: {verb} has {count} words after it")
    count += rest[count:count + 1] != [] and rest[count] in options
    job, behind = rest[:count], rest[count:]
    if behind and (behind[0] != "after" or len(behind) < 2):
        raise NotAScript(f"line {row}: '{behind[0]}' isn't 'after' with the lines that this one waits for")
    for name in behind[1:]:
        of, _, which = name.rpartition(".")
        if not re.fullmatch(r"[1-9][0-9]*", which) or of not in lines or int(which) > len(lines[of]) or of == caller:
            raise NotAScript(f"line {row}: '{name}' is no line above of another caller")
    parts = parts_of(verb, job, row) if caller[0] == "b" else 1
    return Line(caller, len(lines[caller]) + 1, row, verb, " ".join([verb, *job]), is_added, behind[1:], parts)


def read_script(text):
    """The script that a text is. It looks at the forms of lines, and not at all that `viommu` refuses."""
    drivers = {f"d{driver}": [] for driver in range(8)}
    back_ends = {}
    for row, line in enumerate(text.removesuffix("\n").split("\n"), 1):
        if re.search(r"[^ -~]", line):
            raise NotAScript(f"line {row}: a byte that isn't 32 to 126, as a tab or a CR")
        words = line.split()
        if not words or words[0][0] == "#":
            continue
        lines = {**drivers, **back_ends}
        if words[0] in lines and len(words) > 1:
            lines[words[0]].append(actor_line(words, row, lines))
        elif words[0] in SETUP and len(words) == SETUP[words[0]] + 1 or words[0] == "turns" and len(words) > 1:
            if words[0] == "endpoint":
                if number(words[1]) is None:
                    raise NotAScript(f"line {row}: '{words[1]}' is no number")
                back_ends[f"b{number(words[1])}"] = []
        else:
            raise NotAScript(f"line {row}: '{words[0]}' begins no statement that has this form here")
    return Script({name: lines for name, lines in [*drivers.items(), *back_ends.items()] if lines})


class Fitting:
    """Fits entry by entry to a script: what is due of each caller, and which entry finished which line."""

    def __init__(self, script):
        self.callers = script.callers
        self.finished = {}
        self.done = {}
        self.had = set()
        self.place = dict.fromkeys(script.callers, 0)

    def due(self, caller):
        """The calls of a caller that are due, those aside that wait for others: a back end's next part, a driver's batch."""
        lines, at = self.callers[caller], self.place[caller]
        while at < len(lines) and lines[at].name in self.finished:
            at += 1
        self.place[caller] = at
        if caller[0] == "b":
            return [(line.name, self.done.get(line.name, 0) + 1) for line in lines[at:at + 1]]
        batch = []
        while at < len(lines):
            batch += [(lines[at].name, 0)] * (lines[at].name not in self.finished)
            if not lines[at].is_added:
                break
            at += 1
        return batch

    def misfit(self, line, part, kind):
        """Why this entry doesn't fit here, or nothing."""
        name = called(line.name, part)
        if (line.name, part) in self.had:
            return f"{name} has an entry already"
        if kind not in ANSWERS.get(line.verb, ("status",)):
            return f"'{kind}' is no answer to '{line.job}'"
        if (line.name, part) not in self.due(line.caller):
            return f"{name} isn't due: {'its line is finished' if line.name in self.finished else 'others of ' + line.caller + ' come first'}"
        waiting = [awaited for awaited in line.awaits if awaited not in self.finished]
        return f"{name} isn't due: it waits for {waiting[0]}" if waiting else ""

    def take(self, line, part, kind, entry):
        self.had.add((line.name, part))
        self.done[line.name] = part
        if part in (0, line.parts) or kind == "fault":
            self.finished[line.name] = entry

    def missing(self):
        """The first call that is due and has no entry, or nothing."""
        for caller in self.callers:
            for name, part in self.due(caller):
                return called(name, part)
        return ""


def called(name, part):
    """A call's name in a report: a driver's lines have no parts."""
    return f"{name}.{part}" if part else name


ENTRY = re.compile(r"([0-9]+) ([db][0-9]+)\.([0-9]+)(?:\.([0-9]+))? "
                   r"(?:(status|fault) ([0-9]{1,3})|(probed) ([0-9]{1,3} (?:[0-9a-f]{2})*)|(read) ((?:[0-9a-f]{2})+)|(nothing|set|wrote))")


def fit_entry(history, fitting, at, text):
    """Takes one entry's line in, or answers why it doesn't fit."""
    found = ENTRY.fullmatch(text)
    if not found:
        return f"entry {at}: its line isn't an entry: '{text[:60]}'"
    said, caller, which, part, *answers = found.groups()
    kind, value = ([it for it in answers if it is not None] + [""])[:2]
    lines = history.script.callers.get(caller, [])
    if int(said) != at:
        return f"entry {at}: it is numbered {said}"
    if not 1 <= int(which) <= len(lines) or (part is None) != (caller[0] == "d"):
        return f"entry {at}: {text.split()[1]} is no line of the script"
    line, part = lines[int(which) - 1], int(part or 0)
    if part > line.parts or part == 0 and caller[0] == "b":
        return f"entry {at}: {line.name} has parts 1 to {line.parts}, and no {part}"
    why = fitting.misfit(line, part, kind)
    if why:
        return f"entry {at}: {why}"
    waited = [(name, fitting.finished[name]) for name in line.awaits] if part < 2 else []
    fitting.take(line, part, kind, at)
    history.entries.append(Entry(at, line, part, kind, value, waited))
    return ""


def fit_records(history, lines):
    """Takes in what stands after the entries, or answers why it doesn't fit."""
    found = re.fullmatch(r"faults ([0-9]+) shown ([0-9]+) dropped ([0-9]+)", lines[0] if lines else "")
    if not found:
        return f"after entry {len(history.entries)}: no line 'faults F shown S dropped D'"
    history.faults = lines[0]
    faults, shown, dropped = map(int, found.groups())
    faulting = {entry.number: entry for entry in history.entries if entry.kind == "fault"}
    if faults != len(faulting) or faults != shown + dropped:
        return f"'{lines[0]}', where {len(faulting)} entries are faults"
    for record in lines[1:1 + shown]:
        of, _, data = record.partition(" ")
        if not of.isdecimal() or int(of) not in faulting or not re.fullmatch(r"[0-9a-f]{48}", data):
            return f"'{record[:60]}' is no record of a faulting entry"
        faulting[int(of)].is_shown = True
    if lines[1 + shown:] != ["end"]:
        return f"after {shown} records: no line 'end' that is the last"
    return ""


def read_history(script, text):
    """What a report says of a script, as far as it fits."""
    lines = text.removesuffix("\n").split("\n")
    found = re.fullmatch(r"viommu history ([0-9]+)", lines[0])
    if not found:
        raise NotAReport("its first line isn't 'viommu history K'")
    history, fitting = History(script), Fitting(script)
    count = int(found[1])
    for at, line in enumerate(lines[1:1 + count], 1):
        history.misfit = fit_entry(history, fitting, at, line)
        if history.misfit:
            return history
    if len(lines) - 1 < count:
        history.misfit = f"after entry {len(lines) - 1}: {count} are announced"
    elif fitting.missing():
        history.misfit = f"after entry {count}: {fitting.missing()} has none"
    else:
        history.misfit = fit_records(history, lines[1 + count:])
    return history
