"""Which rule of docs/FORMATS.md gives an answer of `viommu one`, for tools/ask.py.

It follows the device's state along the lines of a script and tries the rules in the order of the document's tables, whose words
it shows. It gives no answers itself: where its rule's answer isn't the program's, it says that it knows none.
"""
import re
import struct
from dataclasses import dataclass, field

from reading import PAGE, number

TOP = (1 << 64) - 1
TYPES = {1: ("ATTACH", 20), 2: ("DETACH", 20), 3: ("MAP", 36), 4: ("UNMAP", 28), 5: ("PROBE", 72)}
# Of each type: how its body is laid out after the four bytes of the head, and the places of its reserved bytes.
LAYOUTS = {"ATTACH": ("<III", range(16, 20)), "DETACH": ("<II", range(12, 20)), "MAP": ("<IQQQI", ()),
           "UNMAP": ("<IQQ", range(24, 28)), "PROBE": ("<I", range(8, 72))}


class Drifted(Exception):
    """The document hasn't the tables that are looked for."""


@dataclass
class Rules:
    """The document's rules: of requests by group, of translation by number, and of refused scripts by kind."""
    requests: dict
    translation: list
    kinds: dict
    statements: list


@dataclass
class Domain:
    is_bypass: bool
    mappings: list = field(default_factory=list)


@dataclass
class Device:
    """What the rules look at: settings, endpoints with their regions and domains, domains with their mappings."""
    pages: int = 16
    granule: int = 4096
    input: tuple = (0, TOP)
    is_bypass: bool = False
    regions: dict = field(default_factory=dict)
    of: dict = field(default_factory=dict)
    domains: dict = field(default_factory=dict)

    def members(self, domain):
        return [endpoint for endpoint, its in self.of.items() if its == domain]

    def leave(self, endpoint):
        left = self.of.get(endpoint)
        self.of[endpoint] = None
        if left is not None and not self.members(left):
            del self.domains[left]


def section(text, title):
    found = re.search(rf"^## {re.escape(title)}$(.*?)(?=^## |\Z)", text, re.M | re.S)
    if not found:
        raise Drifted(f"no section '{title}'")
    return found[1]


def rows(text):
    """The rows of the tables in a text, as lists of cells, those of dashes aside."""
    cells = [[cell.strip() for cell in line[1:-1].split("|")] for line in text.splitlines() if line.startswith("|")]
    return [row for row in cells if not set("".join(row)) <= set("-: ")]


def read_rules(text):
    """The rules that a document has."""
    groups, group = {}, ""
    for row in rows(section(text, "The rules of a request"))[1:]:
        group = row[0] or group
        groups.setdefault(group, []).append((row[1] or "none of the rules above", row[2]))
    numbered = re.findall(r"^\d+\. (.*)$", section(text, "Translation"), re.M)
    kinds = {row[0].strip("`"): row[1] for row in rows(section(text, "Scripts")) if len(row) == 2 and row[0] != "Kind"}
    statements = [row[0] for row in rows(section(text, "Scripts")) if len(row) == 3 and row[0] != "Statement"]
    counts = {"any bytes": 4, "ATTACH": 6, "DETACH": 3, "MAP": 10, "UNMAP": 5, "PROBE": 2}
    if {name: len(of) for name, of in groups.items()} != counts or len(numbered) != 6:
        raise Drifted("the rules of requests or of translation aren't those that are known here")
    return Rules(groups, numbered, kinds, statements)


def meets(first, last, other, behind):
    return first <= behind and other <= last


def attach_rule(device, domain, endpoint, flags):
    its = device.domains.get(domain)
    regions = device.regions.get(endpoint, [])
    return first_of(
        flags & ~1, endpoint not in device.of, its and its.is_bypass != bool(flags & 1), device.of.get(endpoint) == domain and its,
        its and any(meets(a, b, *region) for a, b, *_ in its.mappings for region in regions))


def detach_rule(device, domain, endpoint):
    return first_of(endpoint not in device.of, device.of.get(endpoint) != domain)


def map_rule(device, domain, first, last, target, flags):
    its, granule = device.domains.get(domain), device.granule
    regions = [region for member in device.members(domain) for region in device.regions[member]]
    return first_of(
        flags & ~3, its is None, its and its.is_bypass, last <= first, first % granule or (last + 1) % granule or target % granule,
        first < device.input[0] or last > device.input[1], target + last - first > TOP,
        any(meets(first, last, *region) for region in regions), its and any(meets(first, last, a, b) for a, b, *_ in its.mappings))


def unmap_rule(device, domain, first, last):
    its = device.domains.get(domain)
    return first_of(its is None, its and its.is_bypass, last < first,
                    its and any(meets(first, last, a, b) and not (first <= a and b <= last) for a, b, *_ in its.mappings))


def probe_rule(device, endpoint):
    return first_of(endpoint not in device.of)


RULES = {"ATTACH": attach_rule, "DETACH": detach_rule, "MAP": map_rule, "UNMAP": unmap_rule, "PROBE": probe_rule}


def first_of(*cases):
    """The place of the first case that applies, or the one after all."""
    return next((at for at, case in enumerate(cases) if case), len(cases))


def commit(device, kind, values):
    """What a request that is answered OK changes."""
    if kind == "ATTACH":
        domain, endpoint, flags = values
        if device.of[endpoint] != domain:
            device.leave(endpoint)
            device.domains.setdefault(domain, Domain(bool(flags & 1)))
            device.of[endpoint] = domain
    elif kind == "DETACH":
        device.leave(values[1])
    elif kind == "MAP":
        device.domains[values[0]].mappings.append(values[1:])
    elif kind == "UNMAP":
        its = device.domains[values[0]]
        its.mappings = [it for it in its.mappings if not (values[1] <= it[0] and it[1] <= values[2])]


def of_bytes(data, writable):
    """The request that bytes are, or the rule of any bytes by which they are none."""
    kind, size = TYPES.get(data[0], ("", 0)) if len(data) >= 4 else ("", 0)
    if not kind:
        return 0, ()
    if writable < (516 if kind == "PROBE" else 4):
        return 1, ()
    if len(data) != size:
        return 2, ()
    layout, reserved = LAYOUTS[kind]
    if any(data[at] for at in reserved):
        return 3, ()
    return kind, struct.unpack_from(layout, data, 4)


def of_words(words):
    """The request that the words of a line are, with what `of_bytes` answers of a raw line's bytes."""
    verb, *rest = words
    if verb == "raw":
        return of_bytes(bytes.fromhex("" if rest[0] == "-" else rest[0]), number(rest[1]))
    values = [number(word) for word in rest[:{"attach": 2, "detach": 2, "map": 4, "unmap": 3, "probe": 1}[verb]]]
    last = rest[len(values)] if len(rest) > len(values) else ""
    if verb == "attach":
        values.append(1 if last == "bypass" else 0)
    if verb == "map":
        values.append({"r": 1, "w": 2, "rw": 3}.get(last, 0))
    return verb.upper(), tuple(values)


class Follower:
    """Follows the device along a script's lines, and names the rule of each answer."""

    def __init__(self, rules):
        self.rules = rules
        self.device = Device()

    def set_up(self, words):
        """Takes a setup line in."""
        name, device = words[0], self.device
        values = [number(word) for word in words[1:]]
        if name == "memory":
            device.pages = values[0]
        elif name == "granule":
            device.granule = values[0]
        elif name == "input":
            device.input = tuple(values)
        elif name == "bypass":
            device.is_bypass = words[1] == "on"
        elif name == "endpoint":
            device.regions[values[0]], device.of[values[0]] = [], None
        elif name == "reserve":
            device.regions[values[0]].append((values[2], values[3]))

    def request(self, words):
        """The group and the row of the rule of a request, whose effect is taken in; or nothing for the bypass field."""
        kind, values = of_words(words)
        if isinstance(kind, int):
            return ("any bytes", *self.rules.requests["any bytes"][kind])
        where, answer = self.rules.requests[kind][RULES[kind](self.device, *values)]
        if answer.startswith("OK"):
            commit(self.device, kind, values)
        return kind, where, answer

    def access(self, endpoint, address, is_read):
        """The number of the rule for the part of a transfer that begins at this address, and the fault that it gives, if any."""
        device = self.device
        domain = device.of[endpoint]
        its = device.domains.get(domain) if domain is not None else None
        if its is None and not device.is_bypass:
            return 1, 1
        rule, target = 1 if its is None else 2, address
        if its and not its.is_bypass:
            rule, target = self.target(endpoint, its, address, 1 if is_read else 2)
            if target is None:
                return rule, 2
        return (rule, None) if target < device.pages * PAGE else (6, 0)

    def target(self, endpoint, domain, address, need):
        """The rule of a domain with mappings, and where it leads, if anywhere."""
        if any(first <= address <= last for first, last in self.device.regions[endpoint]):
            return 3, None
        for first, last, target, flags in domain.mappings:
            if first <= address <= last and flags & need:
                return 5, target + address - first
        return 4, None
