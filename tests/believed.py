#!/usr/bin/env python3
"""Recomputes which definitions one has to read to believe what the program promises, and holds docs/TRUST.md to that.

    tests/believed.py [--write | --list]

It begins with the names in the clauses of `top` and `plain_top`, takes each definition that they cite, with the comment above it,
and then what that definition cites, through the imports of the specs/ and the Rust types that stand in them. It fails where the
tables of docs/TRUST.md, or the sentence on them in README.md, aren't those. With --write it writes them anew; with --list it
names each definition with the file that has it.
"""
import contextlib
import os
import re
import sys

TOP = os.path.dirname(os.path.dirname(os.path.abspath(__file__)))
TRUST, README = os.path.join(TOP, "docs", "TRUST.md"), os.path.join(TOP, "README.md")
WORD = re.compile(r"[^\W\d][\w'\-]*(?:\.[^\W\d][\w'\-]*)*")
MODIFIERS = {"pub", "abbrev", "unfoldable", "opaque", "record", "data"}

# What isn't followed: these say which run of which threads a history is of. The promise on the history stands in the other lines of
# the record that names them, and none of these needs them.
RUN = {"FinishedValue", "CameTo"}


class Lost(Exception):
    """A name that leads nowhere: the tree has another form than is known here."""


def path_of(*parts):
    return os.path.join(TOP, *parts)


def lines_of(path):
    with open(path, encoding="utf-8") as file:
        return file.read().split("\n")


def short(path):
    return os.path.relpath(path, TOP)


class Specs:
    """A file of definitions: its imports, and each definition's lines with its comment."""

    def __init__(self, path):
        self.path, lines = path, lines_of(path)
        self.title = " ".join(re.match(r"-- (.*)", line)[1] for line in head_of(lines))
        self.names, self.aliases, self.items, self.of_data = {}, {}, {}, {}
        self.take_imports("\n".join(lines))
        self.take_items(lines)

    def take_imports(self, text):
        for module, names, alias in re.findall(r"^use (Rattle\.[\w.]+?)(?:\.\{([^}]*)\}| as (\S+))$", text, re.M):
            if alias:
                self.aliases[alias] = module
            for name in names.split(","):
                name, _, called = name.strip().partition(" as ")
                self.names[called or name] = (module, name)

    def take_items(self, lines):
        """Groups the lines: a comment belongs to the definition below it, and clauses to their name."""
        comment, current = [], None
        for number, line in enumerate(lines):
            if not line.strip() or re.match(r"(pub )?(use|mod|infixl?|infixr) ", line):
                comment, current = [], None
            elif line.startswith("--"):
                comment.append(number)
            elif line[0] in " }":
                self.items[current].append(number) if current else None
                variant = re.match(r"  (?:pub )?([^\W\d][\w'-]*) :", line)
                if variant and current:
                    self.of_data.setdefault(variant[1], current)
            else:
                current = next(word for word in line.split() if word not in MODIFIERS).strip(":")
                self.items.setdefault(current, []).extend([*comment, number])
                comment = []
        self.lines = lines


def head_of(lines):
    """The comment at the head of a file."""
    found = []
    for line in lines:
        if not line.startswith("-- "):
            break
        found.append(line)
    return found


def ghosts_of(lines):
    """The imports of a Rust file that stand in clauses."""
    imports = Specs.__new__(Specs)
    imports.names, imports.aliases, imports.items, imports.of_data = {}, {}, {}, {}
    text = re.sub(r"(?m)^ *ghost (use [^;]*);$", r"\1", "\n".join(lines))
    imports.take_imports("\n".join(line for line in text.split("\n") if line.startswith("use Rattle")))
    return imports


class Rust:
    """A Rust file: where its types, traits and constants stand."""

    def __init__(self, path):
        self.path, self.lines = path, lines_of(path)
        self.title = " ".join(line[4:] for line in self.lines if line.startswith("//! "))
        self.items = {}
        for number, line in enumerate(self.lines):
            found = re.match(r"(?:pub )?(?:struct|enum|trait|const) (\w+)", line)
            if found:
                self.items[found[1]] = [*self.above(number), *self.body(number)]
        self.uses = re.findall(r"^use ([\w:]+?)::(?:\{([^}]*)\}|(\w+));", "\n".join(self.lines), re.M)
        self.ghosts = ghosts_of(self.lines)

    def crate_of(self, name, own):
        """The crate that a name is imported from."""
        for source, many, one in self.uses:
            if name in [used.strip() for used in (many or one).split(",")]:
                return own if source.startswith("crate") else source.split("::")[0]
        return None

    def above(self, number):
        start = number
        while start and re.match(r"(///|#\[)", self.lines[start - 1]):
            start -= 1
        return range(start, number)

    def body(self, number):
        end = number
        if not re.search(r"[;}]\s*$", self.lines[number]):
            while self.lines[end] != "}" and not self.lines[end].startswith(");"):
                end += 1
        return range(number, end + 1)


def sources_of(crate):
    """The Rust files of a crate."""
    found = [os.path.join(folder, file) for folder, _, files in os.walk(path_of("crates", crate, "src")) for file in files]
    return sorted(path for path in found if path.endswith(".rt"))


class Tree:
    """The files of the repository, read as they are asked for."""

    def __init__(self):
        self.specs, self.rust = {}, {}

    def specs_of(self, module):
        """The specs file of a module, by its name as imports have it."""
        if module not in self.specs:
            crate, _, *below = module.removeprefix("Rattle.").split(".")
            path = path_of("crates", crate, "specs", *below) + ".antt"
            self.specs[module] = Specs(path) if os.path.isfile(path) else None
        return self.specs[module]

    def rust_of(self, path):
        if path not in self.rust:
            self.rust[path] = Rust(path)
        return self.rust[path]

    def type_in(self, crate, name):
        """The Rust file of a crate that has this type or constant, or None."""
        for path in sources_of(crate):
            if name in self.rust_of(path).items:
                return self.rust_of(path)
        return None


class Reading:
    """What is to be read: definitions as (file, name), in an order in which each stands below what it cites."""

    def __init__(self, tree, stops):
        self.tree, self.stops = tree, stops
        self.order, self.seen, self.std = [], set(), set()
        self.cites, self.reader = {}, None

    def follow(self, module, name):
        """Takes in the definition that an import names."""
        parts = module.split(".")
        if name in self.stops:
            return
        if parts[1] == "std" or not os.path.isdir(path_of("crates", parts[1])):
            self.std.add(f"{module.removeprefix('Rattle.')}.{name}")
        elif "declared" in parts:
            kind = name if parts[-1] == "TheConstants" else parts[-2] if parts[-1] == "TheVariants" else parts[-1]
            self.take_rust(parts[1], kind)
        else:
            specs = self.tree.specs_of(module)
            if specs is None:
                raise Lost(f"{module}.{name}: no such file")
            self.take_specs(specs, name)

    def take_specs(self, specs, name):
        name = name if name in specs.items else specs.of_data.get(name, name)
        self.note(specs.path)
        if (specs.path, name) in self.seen or name in self.stops:
            return
        self.seen.add((specs.path, name))
        if name not in specs.items:
            raise Lost(f"{short(specs.path)}: no definition of {name}")
        text = "\n".join(specs.lines[at] for at in specs.items[name] if not specs.lines[at].startswith("--"))
        with self.read_by(specs):
            self.cite(specs, text)
        self.order.append((specs, name))

    def note(self, path):
        """Notes that the file that is being read cites this one."""
        if self.reader and self.reader != path:
            self.cites.setdefault(self.reader, set()).add(path)

    @contextlib.contextmanager
    def read_by(self, file):
        before, self.reader = self.reader, file.path
        yield
        self.reader = before

    def cite(self, specs, text):
        """Follows each name in a text, by the imports and the definitions of its file."""
        for word in dict.fromkeys(WORD.findall(text)):
            first, _, rest = word.partition(".")
            if first in specs.aliases and rest:
                self.follow(specs.aliases[first], rest.split(".")[0])
            elif first in specs.names:
                self.follow(*specs.names[first])
            elif first in specs.items:
                self.take_specs(specs, first)
        for name in [*specs.names, *specs.items]:
            if "◌" in name and all(part in text for part in name.split("◌") if part):
                self.follow(*specs.names[name]) if name in specs.names else self.take_specs(specs, name)

    def take_rust(self, crate, name):
        found = self.tree.type_in(crate, name)
        if found is None:
            raise Lost(f"crates/{crate}/src: no type {name}")
        self.note(found.path)
        if (found.path, name) in self.seen:
            return
        self.seen.add((found.path, name))
        text = "\n".join(found.lines[at] for at in found.items[name] if not found.lines[at].lstrip().startswith(("//", "#")))
        with self.read_by(found):
            for used in dict.fromkeys(re.findall(r"\b[A-Z]\w*", text)):
                of = crate if used in found.items else found.crate_of(used, crate)
                if of and self.tree.type_in(of, used):
                    self.take_rust(of, used)
            if "ensures" in text:
                self.cite(found.ghosts, text)
        self.order.append((found, name))

    def files(self):
        """The files in reading order, each after those that it cites, with the lines that are to be read and its definitions."""
        found, placed = {}, {}
        for file, name in self.order:
            found.setdefault(file, []).append(name)

        def place(file):
            if file in placed:
                return
            placed[file] = None
            for cited in [it for it in found if it.path in self.cites.get(file.path, ())]:
                place(cited)
            placed[file] = placed.pop(file)

        for file in found:
            place(file)
        return {file: (lines_read(file, found[file]), found[file]) for file in placed}


def lines_read(file, names):
    return len({at for name in names for at in file.items[name]})


class Clause:
    """A clause of a public function, as a file of which it is the one thing to read."""

    def __init__(self, path, function, clause):
        self.path, self.lines = path, lines_of(path)
        start = next((at for at, line in enumerate(self.lines) if re.match(rf"pub fn {function}<", line)), None)
        if start is None:
            raise Lost(f"{short(path)}: no function {function}")
        end = self.lines.index("{", start)
        first = next((at for at in range(start, end) if re.match(rf" *ensures {clause} \{{", self.lines[at])), None)
        if first is None:
            raise Lost(f"{function} has no clause {clause}")
        last = next(at for at in range(first + 1, end + 1) if re.match(r" *(ensures|//|$)", self.lines[at]) or at == end)
        while self.lines[first - 1].lstrip().startswith("//"):
            first -= 1
        self.title, self.items = f"The clause `{clause}` of `{function}`.", {clause: range(first, last)}
        self.text = "\n".join(line for line in self.lines[first:last] if not line.lstrip().startswith("//"))
        self.ghosts = ghosts_of(self.lines)
        self.bounds = dict(re.findall(r"(\w): (\w+)", " ".join(self.lines[start:start + 1])))


def file_with(function):
    """The source that has this public function."""
    for crate in sorted(os.listdir(path_of("crates"))):
        for path in sources_of(crate):
            if re.search(rf"^pub fn {function}<", "\n".join(lines_of(path)), re.M):
                return path
    raise Lost(f"no public function {function}")


def reading_of(tree, function, clause, stops=frozenset()):
    """What the clause of a function has one read, itself last."""
    of = Clause(file_with(function), function, clause)
    reading = Reading(tree, stops)
    with reading.read_by(of):
        reading.cite(of.ghosts, of.text)
        crate = short(of.path).split("/")[1]
        for letter, bound in of.bounds.items():
            home = tree.rust_of(of.path).crate_of(bound, crate)
            if re.search(rf"\b{letter}\.", of.text) and home:
                reading.take_rust(home, bound)
    reading.order.append((of, clause))
    return reading


def sums(files):
    return len(files), sum(count for count, _ in files.values())


def table(files):
    """The rows of a table of files."""
    yield "| Read | Lines | Definitions | What stands there |\n|---|---|---|---|"
    for number, (file, (count, names)) in enumerate(files.items(), 1):
        yield f"| {number}. [`{short(file.path)}`](../{short(file.path)}) | {count} | {len(names)} | {file.title} |"
    yield f"| **{sums(files)[0]} files** | **{sums(files)[1]}** | **{sum(len(names) for _, names in files.values())}** | |"


def less(files, others):
    """The files of the first without what of them is in the second."""
    found = {}
    for file, (_, names) in files.items():
        names = [name for name in names if name not in others.get(file, (0, []))[1]]
        if names:
            found[file] = (lines_read(file, names), names)
    return found


# The parts of the promise: their clause, what isn't followed, and what was read for parts before.
HISTORY = ("IsWellMade", "IsOrdered", "IsLegalHistory", "HasRecords", "FaultsBehindUnmaps", "IsTyped", "text")
COMMANDS = (("one", "ok", {"WritesReport", "WritesLegal"}), ("check", "ok", {"WritesReport", "WritesReplies"}),
            ("make", "made", set()), ("trace", "held", set()), ("sim", "ok", {"WritesReplies", "WritesLegal"}))


def history_of(whole):
    """What of the whole belongs to a right history and its report: what these names cite."""
    reading = Reading(whole.tree, RUN)
    for name in HISTORY:
        of = [file for file, found in whole.order if found == name and (name != "text" or "report" in file.path)]
        if not of:
            raise Lost(f"no definition of {name} is cited")
        reading.take_specs(of[0], name)
    return reading


def promise(tree):
    """The clause with the reader's promise of a run on threads: one that doesn't name the run's own logs, where `top` has it."""
    try:
        return "run_is_plain", reading_of(tree, "top", "run_is_plain", RUN)
    except Lost:
        return "run", reading_of(tree, "top", "run", RUN)


def tables():
    """Each generated part of the document, by its name."""
    tree = Tree()
    promised, whole = promise(tree)
    history = history_of(whole)
    files, rest = history.files(), less(whole.files(), history.files())
    made = {"history": list(table(files)), "rest": list(table(rest))}
    rows = ["| Clause | Further files | Lines | Files |", "|---|---|---|---|"]
    for command, clause, stops in COMMANDS:
        more = less(reading_of(tree, "plain_top", clause, RUN | stops).files(), whole.files())
        crates = sorted({short(file.path).split("/")[1] for file in more})
        rows.append(f"| `{clause}` of `plain_top`, `{command}` | {sums(more)[0]} | {sums(more)[1]} | of {', '.join(f'`{it}`' for it in crates)} |")
    logs = less(reading_of(tree, "top", "run").files(), whole.files())
    rows.append(f"| `run` of `top`: which run the logs are of (`{'`, `'.join(sorted(RUN))}`) | {sums(logs)[0]} | {sums(logs)[1]} | of "
                + ", ".join(f"`{it}`" for it in sorted({short(file.path).split("/")[1] for file in logs})) + " |")
    made["further"] = rows
    prelude = sorted({name.rpartition(".")[0] for name in whole.std})
    made["std"] = [f"{len(whole.std)} names of the toolchain's library stand in these definitions, from "
                   + ", ".join(f"`{it}`" for it in prelude) + "."]
    count, lines = sums(files)
    made["clause"] = [f"The promise of `run W` is the clause `{promised}` of `top`, in [`{short(file_with('top'))}`](../{short(file_with('top'))})."]
    made["sentence"] = f"{count} files with {lines:,} lines of definitions, and {sums(rest)[0]} more with {sums(rest)[1]:,}"
    return made, whole


def with_tables(text, made):
    """A document with its generated parts as they should be."""
    def part(found):
        return f"{found[1]}\n" + "\n".join(made[found[2]]) + f"\n{found[4]}"

    return COUNTED.sub(counted, re.sub(r"(<!-- believed: (\w+) -->)\n(.*?)(<!-- end -->)", part, text, flags=re.S))


COUNTED = re.compile(r"(\*\*`(crates/[\w/.]+)`\*\*, )\d+( lines)")


def counted(found):
    """A file that is named with its number of lines, with the right one."""
    if not os.path.isfile(path_of(found[2])):
        raise Lost(f"{found[2]}: no such file")
    return f"{found[1]}{len(lines_of(path_of(found[2]))) - 1}{found[3]}"


SENTENCE = re.compile(r"[\d,]+ files with [\d,]+ lines of definitions, and [\d,]+ more with [\d,]+")


def main():
    if sys.argv[1:] not in ([], ["--write"], ["--list"]):
        print("usage: tests/believed.py [--write | --list]", file=sys.stderr)
        return 2
    made, whole = tables()
    if sys.argv[1:] == ["--list"]:
        for file, name in whole.order:
            print(f"{short(file.path)}: {name}")
        return 0
    wrong = [fault for path in (TRUST, README) for fault in faults_of(path, made, sys.argv[1:] == ["--write"])]
    for fault in wrong:
        print(fault)
    print("the lists are those of the tree" if not wrong else "tests/believed.py --write writes the tables anew")
    return 1 if wrong else 0


def faults_of(path, made, writes):
    """What is wrong with a document, after it was written where that is asked for."""
    text = "\n".join(lines_of(path))
    right = SENTENCE.sub(made["sentence"], with_tables(text, made))
    if SENTENCE.search(text) is None:
        yield f"{short(path)}: no sentence '{made['sentence']}'"
    for name in ("clause", "history", "rest", "further", "std"):
        if path == TRUST and f"<!-- believed: {name} -->" not in text:
            yield f"{short(path)}: no part '<!-- believed: {name} -->'"
    if right != text and writes:
        with open(path, "w", encoding="utf-8") as file:
            file.write(right)
    elif right != text:
        lines = zip([*text.split("\n"), ""], right.split("\n"))
        yield f"{short(path)} has drifted, first at: {next(line for line, should in lines if line != should)[:150]}"


if __name__ == "__main__":
    try:
        sys.exit(main())
    except Lost as fault:
        print(f"believed.py: {fault}")
        sys.exit(1)
