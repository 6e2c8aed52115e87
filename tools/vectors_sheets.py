"""Cases for the exported calls on area maps and on stores, and the answers that they must get.

The parts `maps` and `stores` of what tools/replay.py writes; and

    python3 tools/vectors_sheets.py map 100000 7 FOLDER
    python3 tools/vectors_sheets.py store 100000 7 FOLDER

writes at least 100,000 random lines for one of the parts, with seed 7, and their answers to FOLDER/stdin and FOLDER/stdout. The answers
are computed here, from document 01; nothing of the core is read or run. A sheet is laid out by putting its parts one behind the
other, and tested by reading it and laying out again what was read. What a store holds and has let go is computed from its whole
history each time, in the words of document 01. Packed paths, the buffers of a line and the intersection of areas are those of
tools/vectors.py and tools/vectors_grouping.py. The random cases have a fixed seed.
"""
import random
import sys
from collections import namedtuple

from vectors import NONE, TOP, Refused, Unreadable, accept, lent, numbers, packed, random_buffer, raw, shown, smallest
from vectors import near as near_path, part, random_path
from vectors_grouping import Area, Entry, Range, area_intersection, digest, end_shown, place, prunes, read_argument, words

MOST_N, KEPT_BYTES = 4096, 4096


# THE LAYOUT OF A SHEET: sizes and other numbers first, then the heads, then the cells.
def laid(*values):
    return b"".join(value.to_bytes(8, "little") for value in values)


def cell_size(limits):
    return 8 * (limits[1] + 1) + limits[2]


def arrays(limits, capacity, heads, head_size, paths):
    """The heads and the cells, and zeros for those that are unused."""
    size = cell_size(limits)
    cells = [packed(path).ljust(size, b"\0") for path in paths]
    free = capacity - len(heads)
    return b"".join(heads) + bytes(free * head_size) + b"".join(cells) + bytes(free * size)


def over_bounds(limits, capacity):
    try:
        accept(limits)
    except Refused:
        return True
    return capacity > MOST_N


def parts_of(buffer, front, head_size):
    """The sizes, the numbers behind them, and the heads and cells that are in use."""
    if len(buffer) < front:
        raise Refused(2)
    mcl, mcc, mpl, capacity, n, *rest = numbers(buffer[:front])
    limits = mcl, mcc, mpl
    if over_bounds(limits, capacity) or n > capacity or len(buffer) < front + capacity * (head_size + cell_size(limits)):
        raise Refused(2)
    cells = front + capacity * head_size
    heads = [buffer[front + i * head_size :][:head_size] for i in range(n)]
    paths = [path_in(limits, buffer[cells + i * cell_size(limits) :][: cell_size(limits)]) for i in range(n)]
    return limits, capacity, rest, heads, paths


def path_in(limits, cell):
    """The packed path that a cell begins with."""
    count = int.from_bytes(cell[:8], "little")
    if count > limits[1]:
        raise Refused(2)
    length = int.from_bytes(cell[8 * count :][:8], "little") if count else 0
    try:
        return tuple(lent(limits, cell[: 8 + 8 * count + length], count))
    except Refused:
        raise Refused(2)


def given_path(limits, buffer, count):
    """A lent path, or None."""
    try:
        return tuple(lent(limits, buffer, count))
    except Refused:
        return None


# THE AREA MAP.
Map = namedtuple("Map", "limits capacity rules")
Rule = namedtuple("Rule", "area value")


def map_size(limits, capacity):
    return 40 + capacity * (48 + cell_size(limits))


def lay_map(m):
    heads = [laid(*end_shown(a.subspace), a.times.start, *end_shown(a.times.end), value) for a, value in m.rules]
    return laid(*m.limits, m.capacity, len(m.rules)) + arrays(m.limits, m.capacity, heads, 48, [rule.area.path for rule in m.rules])


def map_in(buffer):
    """The map that a buffer begins with."""
    limits, capacity, _, heads, paths = parts_of(buffer, 40, 48)
    rules = []
    for head, path in zip(heads, paths):
        kind, id, start, end_kind, end, value = numbers(head)
        rules.append(Rule(Area(id if kind else None, path, Range(start, end if end_kind else None)), value))
    found = Map(limits, capacity, rules)
    if not buffer.startswith(lay_map(found)):
        raise Refused(2)
    return found


# THE STORE. A history: the unrefused offers in their order, and the bytes that were let go before it begins, which are 0 from a
# fresh store.
Told = namedtuple("Told", "limits capacity namespace before offers")


def held_entries(offers):
    """The entries that no other one prunes, each one time, by subspace and then path."""
    return sorted({e for e in offers if not any(prunes(other, e) for other in offers)}, key=place)


def bytes_of(offers):
    return sum(offer.payload_length for offer in offers)


def let_go_bytes(offers):
    """Of every offer that repeats an earlier one or is pruned by another, earlier or later, each counted once."""
    return bytes_of(o for i, o in enumerate(offers) if o in offers[:i] or any(prunes(other, o) for other in offers))


def store_size(limits, capacity):
    return 64 + capacity * (56 + cell_size(limits))


def lay_entries(limits, capacity, namespace, entries, held, let_go):
    heads = [laid(e.subspace, e.timestamp, e.payload_length) + e.digest for e in entries]
    front = laid(*limits, capacity, len(entries), namespace, held, let_go)
    return front + arrays(limits, capacity, heads, 56, [e.path for e in entries])


def lay_store(told):
    entries = held_entries(told.offers)
    let_go = told.before + let_go_bytes(told.offers)
    assert bytes_of(entries) + let_go == told.before + bytes_of(told.offers)
    return lay_entries(told.limits, told.capacity, told.namespace, entries, bytes_of(entries), let_go)


def store_in(buffer):
    """The store that a buffer begins with, as a history of the entries that it holds."""
    limits, capacity, rest, heads, paths = parts_of(buffer, 64, 56)
    namespace, held, let_go = rest
    entries = [Entry(namespace, numbers(head[:8])[0], path, *numbers(head[8:24]), head[24:]) for head, path in zip(heads, paths)]
    if not buffer.startswith(lay_entries(limits, capacity, namespace, entries, held, let_go)):
        raise Refused(2)
    ascending = all(place(a) < place(b) for a, b in zip(entries, entries[1:]))
    if not ascending or any(prunes(a, b) for a in entries for b in entries):
        raise Refused(2)
    if held != bytes_of(entries) or held + let_go > TOP:
        raise Refused(2)
    return Told(limits, capacity, namespace, let_go, tuple(entries))


# THE PROGRAMS: lines with a buffer that is kept.
class Host:
    """A call gives what is printed for it: numbers, and bytes in hexadecimal."""

    keeping = {"room": "n", "sheet": "b", "more": "b", "cut": "n", "poke": "nn"}

    def __init__(self):
        self.buffer = b""

    def room(self, n):
        if n > KEPT_BYTES:
            raise Unreadable
        self.buffer = b"\xee" * n

    def sheet(self, data):
        self.buffer = data

    def more(self, data):
        if len(self.buffer + data) > KEPT_BYTES:
            raise Unreadable
        self.buffer += data

    def cut(self, n):
        if n > len(self.buffer):
            raise Unreadable
        self.buffer = self.buffer[:n]

    def poke(self, at, byte):
        if at >= len(self.buffer) or byte > 255:
            raise Unreadable
        self.buffer = self.buffer[:at] + bytes([byte]) + self.buffer[at + 1 :]

    def fresh(self, status, sheet):
        """What making a fresh sheet answers and leaves."""
        status = status or smallest((15, len(self.buffer) < len(sheet)))
        if not status:
            self.write(sheet)
        return status, 0 if status else len(sheet), self.buffer

    def write(self, sheet):
        self.buffer = sheet + self.buffer[len(sheet) :]

    def read(self, buffer=None):
        """The sheet that is kept, or None."""
        try:
            return self.sheet_in(self.buffer if buffer is None else buffer)
        except Refused:
            return None

    def test(self):
        return (0 if self.read() else 2,)

    def test_each(self, v):
        """The tests with each byte changed in turn."""
        if v > 255:
            raise Unreadable
        changed = (self.buffer[:i] + bytes([self.buffer[i] ^ v]) + self.buffer[i + 1 :] for i in range(len(self.buffer)))
        return ("".join("0" if self.read(buffer) else "2" for buffer in changed),)

    def written(self, data, room):
        """Bytes to the front of an output buffer; none if there are none to write."""
        if data is None:
            return NONE, 0, b"\xee" * room
        if len(data) > room:
            return 15, 0, b"\xee" * room
        return 0, len(data), data + b"\xee" * (room - len(data))

    def answer(self, line):
        """The line that is printed, or None."""
        if line == "" or line[0] == "#":
            return None
        op, *texts = line.split(" ")
        form = (self.keeping | self.calls).get(op)
        if len(line) > 4096 or form is None or len(texts) != len(form):
            return "unreadable"
        try:
            arguments = [read_argument(letter, text) for letter, text in zip(form, texts)]
            name = op if op in self.keeping else op.split("_", 1)[1]
            said = getattr(self, name)(*arguments)
        except Unreadable:
            return "unreadable"
        return None if op in self.keeping else words(*[part.hex() if isinstance(part, bytes) else part for part in said])


class MapHost(Host):
    calls = {"map_fresh": "nnnn", "map_test": "", "map_test_each": "n", "map_insert": "nnbnnnnn", "map_intersecting": "nnbnnnno"}
    calls.update({"map_count": "", "map_rule": "n", "map_rule_path": "no"})
    sheet_in = staticmethod(map_in)

    def fresh(self, mcl, mcc, mpl, capacity):
        if over_bounds((mcl, mcc, mpl), capacity):
            return 1, 0, self.buffer
        return super().fresh(0, lay_map(Map((mcl, mcc, mpl), capacity, [])))

    def given_area(self, found, kind, id, buffer, count, start, end_kind, end):
        """An area as it is passed, or the refusal. A number beside kind 0 is not read."""
        path = given_path(found.limits, buffer, count)
        refusal = smallest((3, kind > 1 or end_kind > 1), (5, path is None))
        return refusal, Area(id if kind else None, path, Range(start, end if end_kind else None))

    def insert(self, *arguments):
        *area, value = arguments
        found = self.read()
        if found is None:
            return 2, 0, self.buffer
        status, area = self.given_area(found, *area)
        status = status or smallest((14, len(found.rules) == found.capacity))
        if not status:
            self.write(lay_map(found._replace(rules=found.rules + [Rule(area, value)])))
        return status, 0 if status else len(found.rules), self.buffer

    def intersecting(self, *arguments):
        *area, room = arguments
        found = self.read()
        status, area = (2, None) if found is None else self.given_area(found, *area)
        if status:
            return status, 0, b"\xee" * room
        listed = [i for i, rule in enumerate(found.rules) if area_intersection(area, rule.area)]
        status, _, out = self.written(laid(*listed), room)
        return status, 0 if status else len(listed), out

    def count(self):
        found = self.read()
        return (2, 0) if found is None else (0, len(found.rules))

    def rule(self, i):
        found = self.read()
        if found is None or i >= len(found.rules):
            return 2 if found is None else NONE, *[0] * 7
        area, value = found.rules[i]
        return 0, *end_shown(area.subspace), len(area.path), area.times.start, *end_shown(area.times.end), value

    def rule_path(self, i, room):
        found = self.read()
        if found is None:
            return 2, 0, b"\xee" * room
        return self.written(packed(found.rules[i].area.path) if i < len(found.rules) else None, room)


class StoreHost(Host):
    calls = {"store_fresh": "nnnnn", "store_test": "", "store_test_each": "n", "store_offer": "nnbnnnd"}
    calls.update({"store_numbers": "", "store_entry": "n", "store_entry_path": "no"})
    sheet_in = staticmethod(store_in)

    def __init__(self):
        super().__init__()
        self.told = None

    def fresh(self, mcl, mcc, mpl, capacity, namespace):
        if over_bounds((mcl, mcc, mpl), capacity):
            return 1, 0, self.buffer
        told = Told((mcl, mcc, mpl), capacity, namespace, 0, ())
        status, *rest = super().fresh(0, lay_store(told))
        self.told = self.told if status else told
        return status, *rest

    def history(self):
        """The history that led to the sheet; if something else wrote it, one that begins with what it holds; None if it is none."""
        found = self.read()
        if found is None or (self.told and self.buffer.startswith(lay_store(self.told))):
            return found and self.told
        return found

    def offer(self, namespace, subspace, buffer, count, timestamp, payload_length, digest):
        told = self.history()
        if told is None:
            return 2, 0, 0, self.buffer
        path = given_path(told.limits, buffer, count)
        refusal = smallest((4, namespace != told.namespace), (5, path is None))
        if refusal:
            return refusal, 0, 0, self.buffer
        entry = Entry(namespace, subspace, path, timestamp, payload_length, digest)
        refusal, answer, pruned = self.answer_to(told, entry)
        if not refusal:
            self.told = told._replace(offers=told.offers + (entry,))
            self.write(lay_store(self.told))
        return refusal, answer, pruned, self.buffer

    def answer_to(self, told, entry):
        """What an offer of the store's namespace is answered: taken 0, outdated 1, repeat 2."""
        held = held_entries(told.offers)
        outdated, repeat = any(prunes(other, entry) for other in held), entry in held
        pruned = sum(prunes(entry, other) for other in held)
        assert outdated == any(prunes(other, entry) for other in told.offers) and (repeat or outdated or entry not in told.offers)
        full = told.before + bytes_of(told.offers) + entry.payload_length > TOP
        no_room = len(held) - pruned == told.capacity and not outdated and not repeat
        refusal = smallest((13, full), (14, no_room))
        return (refusal, 0, 0) if refusal else (0, 1, 0) if outdated else (0, 2, 0) if repeat else (0, 0, pruned)

    def numbers(self):
        found = self.read()
        if found is None:
            return 2, *[0] * 8
        return 0, *found.limits, found.capacity, len(found.offers), found.namespace, bytes_of(found.offers), found.before

    def entry(self, i):
        found = self.read()
        if found is None or i >= len(found.offers):
            return 2 if found is None else NONE, 0, 0, 0, 0, bytes(32)
        e = found.offers[i]
        return 0, e.subspace, e.timestamp, e.payload_length, len(e.path), e.digest

    def entry_path(self, i, room):
        found = self.read()
        if found is None:
            return 2, 0, b"\xee" * room
        return self.written(packed(found.offers[i].path) if i < len(found.offers) else None, room)


# THE CASES.
SIZES = [(0, 0, 0), (1, 1, 1), (2, 2, 3), (0, 2, 0), (3, 1, 2), (1, 3, 2), (2, 1, 0), (0, 0, 3)]


class Played:
    """Lines with a model that follows them, for cases that depend on what an answer needs."""

    def __init__(self, host):
        self.host = host

    def __call__(self, *parts):
        line = words(*parts)
        self.last = self.host.answer(line)
        return line

    def sheet(self, data):
        """A buffer, over as many lines as it takes."""
        yield self("sheet", "x" + data[:1000].hex())
        for at in range(1000, len(data), 1000):
            yield self("more", "x" + data[at : at + 1000].hex())

    def room_for(self, *parts):
        """The call with a long buffer for its answer, an exact one, one that is a byte short, and a longer one."""
        yield self(*parts, 64)
        needed = len(bytes.fromhex(self.last.split(" ")[2]).rstrip(b"\xee"))
        for room in sorted({0, max(1, needed) - 1, needed, needed + 1}):
            yield self(*parts, room)


def number_changed(sheet, at, value):
    return sheet[:at] + laid(value) + sheet[at + 8 :]


def byte_changed(sheet, at, byte):
    return sheet[:at] + bytes([byte]) + sheet[at + 1 :]


def fresh_sheets(name, size, beside=""):
    yield f"# fresh {name}s of small sizes: a buffer one byte short, exact, longer; no byte past the {name} is written"
    for limits in SIZES:
        for capacity in range(6):
            whole = size(limits, capacity)
            for room in (whole - 1, whole, whole + 3):
                yield words("room", room)
                yield words(f"{name}_fresh", *limits, capacity, *beside.split())
            yield f"{name}_test"
    yield "# sizes at their bounds and past them: 1 before 15"
    bounds = ["1024 0 0 0", "1025 0 0 0", "0 1024 0 0", "0 1025 0 0", "0 0 4096 0", "0 0 4097 0", "1024 1024 4096 0", "0 0 0 4096", "0 0 0 4097"]
    bounds += [f"{TOP} 0 0 0", f"0 {TOP} 0 0", f"0 0 {TOP} 0", f"0 0 0 {TOP}", "1024 1024 4096 4096", "1025 1025 4097 4097", "1024 1024 4096 1", "0 0 4096 1"]
    for sizes in bounds:
        for room in (0, size((0, 0, 0), 0) - 1, size((0, 0, 0), 0), 4096 if sizes.endswith(" 1") or sizes.endswith("4097") else 70):
            yield words("room", room)
            yield words(f"{name}_fresh", sizes, *beside.split())
        yield f"{name}_test"
    yield f"# nothing of the buffer is read, and no old byte is left: over bytes ff, over a {name}, over a longer one"
    for capacity, limits in ((2, (1, 1, 1)), (2, (1, 1, 1)), (1, (2, 2, 3)), (0, (1, 1, 1)), (1, (0, 0, 0))):
        if capacity:
            yield "sheet x" + "ff" * 230
        yield words(f"{name}_fresh", *limits, capacity, *beside.split())
        yield f"{name}_test"
    yield words(f"{name}_fresh", 1, 1, 1, 2, *beside.split())
    yield f"{name}_test"


# CASES OF MAPS. An area is written as it is passed: kind, id, path, count, start, kind of the end, end.
AREAS = [
    "0 0 p() 0 0 0 0", "1 4 p01 1 3 1 9", "1 4 p01/02 2 9 0 0", "1 5 p01 1 3 1 10", "0 9 p01/02 2 5 1 12", "1 4 p01/02 1 2 1 3", "0 0 p0100 1 3 1 9", "0 0 p01 1 9 1 9",
    f"1 {TOP} p02 1 {TOP} 0 0", "1 0 p- 1 0 1 1", f"0 {TOP} p-/- 2 8 0 {TOP}", f"1 4 p01 1 {TOP} 1 0", "1 4 pff/01ff 1 3 1 4", f"0 7 p01/- 2 0 1 {TOP}",
]


def areas_for(limits):
    """Areas with paths that are valid at small limits."""
    paths = ["p() 0"] + ["p- 1"] * (limits[1] > 0) + ["p01 1"] * (min(limits) > 0) + ["p-/- 2"] * (limits[1] > 1)
    rest = ["1 4 {} 3 1 9", "0 4 {} 0 0 5", "1 5 {} 9 0 0", "0 0 {} 9 1 9"]
    return [one.format(path) for path in paths for one in rest]


def filled_maps():
    yield "# maps filled up and past their capacity: each rule read, none past the last; equal areas twice"
    play = Played(MapHost())
    for capacity in range(6):
        yield play("room", map_size((2, 2, 3), capacity) + 2)
        yield play("map_fresh 2 2 3", capacity)
        for i in range(capacity + 1):
            yield play("map_insert", AREAS[(3 * capacity + i) % len(AREAS)], 100 + i)
            yield play("map_count")
        yield play("map_test")
        for i in [*range(capacity + 2), TOP]:
            yield play("map_rule", i)
            yield from play.room_for("map_rule_path", i)
    yield "# every size: an area at each path that is valid, then 14"
    for limits in SIZES:
        yield play("room", map_size(limits, 3))
        yield play("map_fresh", *limits, 3)
        for i, area in enumerate(areas_for(limits)[:4] + areas_for(limits)[-2:]):
            yield play("map_insert", area, TOP - i)
        yield play("map_test")
        for i in range(3):
            yield play("map_rule", i)
            yield from play.room_for("map_rule_path", i)
        for area in areas_for(limits):
            yield play("map_intersecting", area, 24)
    yield "# a component of 1,000 bytes, in one that may have them and in one that may not"
    path = "x" + packed([bytes(range(250)) * 4]).hex()
    for most in (1000, 999):
        yield play("room", 1200)
        yield play("map_fresh", most, 1, 1000, 1)
        yield play("map_insert 1 4", path, "1 3 1 9 7")
        yield play("map_test")
        yield play("map_intersecting 0 0", path, "1 8 0 0 8")


BAD_PATHS = [
    ("x", 0), ("x00000000000000", 0), (raw(0), 1), (raw(0) + "00", 0), (raw(1), 1), (raw(1, 1), 1), (raw(1, 1, data=b"\x01\x02"), 1), (raw(3, 0, 0, 0), 3), (raw(1, 3, data=b"\x01\x02\x03"), 1),
    (raw(2, 2, 4, data=b"\x01\x02\x03\x04"), 2), (raw(2, 2, 1, data=b"\x01"), 2), (raw(2, 1, 2, data=b"\x01\x02"), 3), (raw(TOP), 0), (raw(1, TOP), 1), (raw(2, 1, 0, data=b"\x01"), 1),
]


def inserts():
    """Three maps: with room, full, and none that is made at all."""
    yield "# kinds other than 0 and 1 are 3, before 5 and before 14; a bad path is 5, before 14; a buffer that is no map is 2 before all"
    kinds = [("2 4", "3 1 9"), ("1 4", "3 2 9"), (f"{TOP} 4", "3 1 9"), ("0 4", f"3 {TOP} 9"), ("2 4", "3 2 9"), ("1 4", "3 1 9")]
    play = Played(MapHost())
    full = lay_map(Map((2, 2, 3), 1, [Rule(Area(4, (b"\x01",), Range(3, 9)), 7)]))
    for sheet in (lay_map(Map((2, 2, 3), 1, [])), full, byte_changed(full, 40, 2)):
        for subspace, times in kinds:
            for path in ("p01 1", "x 0"):
                yield from play.sheet(sheet)
                yield play("map_insert", subspace, path, times, 7)
                yield play("map_intersecting", subspace, path, times, 8)
        for path in BAD_PATHS:
            yield play("map_insert 1 4", *path, "3 1 9 7")
            yield play("map_intersecting 1 4", *path, "3 1 9 8")
            yield play("map_intersecting 1 4", *path, "3 1 9 0")
        yield play("map_test")
    yield "# a number beside kind 0 is stored as 0; a count below the buffer's own stores the part; times at and past their end are stored"
    for area in ("0 9 p01/02 2 5 0 12", f"0 {TOP} p01/02 1 5 0 {TOP}", "1 0 p01/02 0 5 1 0", f"1 {TOP} p01/02 2 {TOP} 1 {TOP}", "1 4 p01 1 9 1 9", "1 4 p01 1 9 1 8", "1 4 p01/02 1 3 1 9"):
        for value in (0, TOP):
            yield from play.sheet(lay_map(Map((2, 2, 3), 2, [])) + b"\xab")
            yield play("map_insert", area, value)
            yield play("map_insert", area, TOP - value)
            yield play("map_test")
            yield play("map_rule 1")
            yield play("map_rule_path 1 32")
            yield play("map_intersecting", area, 16)
            yield play("map_intersecting 0 0 p() 0 0 0 0 16")


def listings():
    yield "# listings: all, none, some; times that touch, paths that are related or not, subspaces; in order, each once; the buffer exact, short, long"
    play = Played(MapHost())
    for first in range(0, len(AREAS), 4):
        rules = (AREAS + AREAS)[first : first + 4] + [AREAS[first]]
        yield play("room", map_size((2, 2, 3), 5))
        yield play("map_fresh 2 2 3 5")
        for i, area in enumerate(rules):
            yield play("map_insert", area, 10 * i)
        for area in AREAS:
            yield from play.room_for("map_intersecting", area)
    yield "# times that touch: [3,9) against those that end at 3 or 4 and those that begin at 8 or 9, closed and open"
    yield play("room", map_size((1, 1, 1), 5))
    yield play("map_fresh 1 1 1 5")
    for times in ("3 1 9", "0 1 3", "9 0 0", "8 1 9", "3 1 4"):
        yield play("map_insert 1 4 p01 1", times, 0)
    for times in ("3 1 9", "9 1 10", "9 0 0", "8 0 9", "0 1 3", "0 1 4", "2 1 3", "3 1 3", "4 1 3", "0 0 0", f"{TOP} 0 0", f"{TOP} 1 {TOP}", f"0 1 {TOP}"):
        for who in ("1 4 p01 1", "0 4 p() 0", "1 5 p01 1", "1 4 p00 1", "1 4 p- 1"):
            yield play("map_intersecting", who, times, 40)
    yield "# a map with no rule, and one with no room for any: nothing is listed, with a buffer of any length"
    for capacity in (0, 2):
        yield play("room", map_size((1, 1, 1), capacity))
        yield play("map_fresh 1 1 1", capacity)
        for room in (0, 1, 8, 9):
            yield play("map_intersecting 0 0 p() 0 0 0 0", room)


def some_maps():
    """Sheets to be damaged: with unused heads and cells, full, with empty paths alone, with no rule, with no room, nothing but sizes."""
    path = (b"\x01", b"\x02\x03")
    rules = [Rule(Area(4, path, Range(3, 9)), 7), Rule(Area(None, (b"\x01",), Range(2, None)), TOP), Rule(Area(0, (), Range(9, 9)), 0)]
    yield Map((1, 1, 1), 2, rules[1:2])
    yield Map((2, 2, 3), 2, rules[:2])
    yield Map((2, 2, 3), 3, rules[2:] + rules[:1])
    yield Map((0, 0, 0), 3, rules[2:])
    yield Map((3, 1, 2), 1, [])
    yield Map((0, 2, 0), 0, [])
    yield Map((0, 2, 0), 2, [Rule(Area(1, (b"", b""), Range(0, 0)), 5), Rule(Area(None, (b"",), Range(0, None)), 5)])


def damaged(name, play, sheets, lay, header):
    yield f"# every byte of a {name} changed in turn, also two past its end, and tested"
    for sheet in sheets:
        yield from play.sheet(lay(sheet) + b"\xee\0")
        for v in (1, 2, 128, 255):
            yield play(f"{name}_test_each", v)
    yield f"# a buffer one byte short of a {name}, then long enough again with another byte, and longer; one short of the sizes, and none"
    for sheet in map(lay, sheets):
        yield from play.sheet(sheet)
        for line in (f"cut {len(sheet) - 1}", f"more x{sheet[-1]:02x}", "more xff", f"cut {header}", f"cut {header - 1}", "cut 0"):
            yield play(line)
            yield play(f"{name}_test")
    yield "# each number before the heads changed"
    for sheet in sheets[1:3] + sheets[4:6]:
        for at in range(0, header, 8):
            for value in (0, 1, 2, 3, 4, 1024, 1025, 4096, 4097, TOP):
                yield from play.sheet(number_changed(lay(sheet), at, value))
                yield play(f"{name}_test")


# Limits, and a path that fits into a cell of theirs: at one limit, and past it alone.
FITTING = [
    ((4, 2, 3), (b"\1\2\3",)), ((4, 2, 3), (b"\1\2\3\4",)), ((2, 3, 3), (b"\1\2", b"\3")), ((2, 3, 3), (b"\1\2", b"\3\4")), ((2, 2, 3), (b"\1\2",)), ((2, 2, 3), (b"\1\2\3",)),
    ((1, 1, 8), (b"",)), ((1, 1, 8), (b"", b"")), ((0, 2, 0), (b"", b"")), ((0, 1, 1), (b"\1",)), ((0, 1, 1), (b"",)),
]


def damaged_maps():
    play, sheets = Played(MapHost()), list(some_maps())
    yield from damaged("map", play, sheets, lay_map, 40)
    yield "# a path in a cell at MCL, MCC or MPL, and past one of them alone"
    for limits, path in FITTING:
        yield from play.sheet(lay_map(Map(limits, 1, [Rule(Area(4, path, Range(3, 9)), 7)])))
        yield play("map_test")
        yield play("map_rule_path 0 32")
    yield "# sizes over the bounds alone, with no rule and no room for any; n over N"
    for sizes in ((1024, 1024, 4096), (1025, 0, 0), (0, 1025, 0), (0, 0, 4097)):
        for rest in ((0, 0), (0, 1)):
            yield from play.sheet(laid(*sizes, *rest))
            yield play("map_test")
            yield play("map_count")
    yield "# each call on a map that is damaged: kind 2 in a head, a number beside kind 0, a byte behind a path, stale bytes, n over N, bad paths"
    good = sheets[2]
    data, cells, size = lay_map(good), 40 + 3 * 48, cell_size(good.limits)
    heads = [(40, 2), (40 + 24, 2), (40 + 48 + 24, TOP), (40 + 48 + 8, 1), (40 + 32, 1)]
    for at, value in heads + [(cells + size, 3), (cells, 1), (cells + size + 16, 4), (cells + size + 16, 0)]:
        yield from on_damaged(play, number_changed(data, at, value))
    for kind, beside in ((0, 0), (0, 4), (0, TOP), (1, 0), (2, 0), (2, 4)):
        yield from play.sheet(number_changed(number_changed(data, 40 + 48, kind), 40 + 48 + 8, beside))
        yield play("map_test")
        yield from play.sheet(number_changed(number_changed(data, 40 + 48 + 24, kind), 40 + 48 + 32, beside))
        yield play("map_test")
    for at in (40 + 2 * 48, cells - 1, cells + 2 * size, cells + 3 * size - 1, cells + 8, cells + size - 1):
        yield from on_damaged(play, byte_changed(data, at, 1))
    yield from on_damaged(play, number_changed(data, 32, 4))
    yield from on_damaged(play, data[:-1])
    yield from on_damaged(play, data + b"\0")


def on_damaged(play, sheet):
    yield from play.sheet(sheet)
    yield play("map_insert 1 4 p01 1 3 1 9 7")
    for call in ("test", "count", "rule 0", "rule 9", "rule_path 0 16", "rule_path 0 0", "rule_path 9 3", "intersecting 0 0 p() 0 0 0 0 24", "intersecting 2 0 x 0 0 0 0 3"):
        yield play(f"map_{call}")


def line_forms(name, fresh, reading):
    yield "# the edges of the lines themselves; the buffer stays as it was"
    lines = ["room 4097", "room", "room x", "room 1 1", "sheet", "sheet 00", "sheet x0", f"sheet x{'00' * 1025}", "cut 200", "poke 150 0", "poke 0 256", "poke 0", "more x0", "more", "buffer x00"]
    yield f"{name}_test"
    yield "room 0"
    yield f"{name}_test"
    yield "room 150"
    yield fresh
    for line in lines:
        yield line
        yield f"{name}_test"
    for line in (f"{name}_test 1", f"{name}_test_each", f"{name}_test_each 256", f"{name}_test_each 0", f"{name}_tests", "test", f"{name}_fresh 1 1 1", fresh + " 1", f"{name} {fresh}", *reading):
        yield line
    for line in ("room 4096", "more x00", "poke 4095 0", "poke 4096 0", "cut 4096", "cut 1", "cut 0", "poke 0 0"):
        yield line
    yield f"{name}_test_each 1"
    yield ""


def map_forms():
    area = "1 4 p01 1 3 1 9"
    yield from line_forms("map", "map_fresh 1 1 1 1", [
        "map_count 0", "map_rule", "map_rule x", "map_rule 0 0", "map_rule_path 0", "map_rule_path 0 256", "map_rule_path 0 257", f"map_insert {area}",
        f"map_insert {area} 1 1", f"map_insert {area} -1", f"map_insert {area} {TOP + 1}", f"map_intersecting {area}", f"map_intersecting {area} 257", "map_insert 1 4 01 1 3 1 9 7", "map_insert 1 4 p1 1 3 1 9 7", "map_count ", " map_count", "MAP_COUNT",
    ])


def random_number(r, few=(0, 1, 2, 3, 3, 4, 5, 9)):
    return r.choice([TOP - 1, TOP]) if r.random() < 0.04 else r.choice(few)


def tiny_path(r, limits, path=()):
    """Mostly valid, of few bytes, and often near another."""
    if path and r.random() < 0.5:
        return near_path(r, path, limits)
    return random_path(r, limits)


def random_area(r, limits, path):
    kinds = [r.choice([2, TOP]) if r.random() < 0.02 else r.choice([0, 1, 1]) for _ in "ab"]
    path = tiny_path(r, limits, path)
    count = max(0, len(path) + r.choice([-1, -1, 1] + [0] * 20))
    start = random_number(r)
    end = min(TOP, start + r.randint(-1, 4)) if start and r.random() < 0.8 else random_number(r)
    return path, words(kinds[0], random_number(r, (0, 1, 1, 1)), random_buffer(r, path) if r.random() < 0.3 else shown(path), count, start, kinds[1], end)


def pokes(r, play, test):
    """A byte changed, often to one that is likely in its place, and most often changed back."""
    buffer = play.host.buffer
    if not buffer:
        return
    at = r.randrange(len(buffer))
    yield play("poke", at, r.choice([0, 1, 2, 3, 255, buffer[at] ^ 1, r.randrange(256)]))
    yield play(test)
    if r.random() < 0.7:
        yield play("poke", at, buffer[at])


def random_map(r, play):
    """A map made, inserted into, listed, read, and now and then damaged."""
    limits, capacity, path = r.choice(SIZES + [(2, 2, 3), (1, 2, 2)]), r.choice([0, 1, 2, 2, 3, 3, 4, 5]), []
    yield play("room", max(0, map_size(limits, capacity) + r.choice([-1, 0, 0, 0, 1, 5])))
    yield play("map_fresh", *limits, capacity)
    for _ in range(r.randint(capacity, 2 * capacity + 3)):
        way = r.random()
        if way < 0.45:
            path, area = random_area(r, limits, path)
            yield play("map_insert", area, random_number(r))
        elif way < 0.75:
            _, area = random_area(r, limits, path)
            yield play("map_intersecting", area, r.choice([8 * capacity, 8 * capacity, 0, 7, 8, 9, 16]))
        elif way < 0.83:
            yield from pokes(r, play, "map_test")
        elif way < 0.84:
            yield play("map_test_each", r.choice([1, 2, 3, 128, 255]))
        else:
            yield play(r.choice(["map_count", "map_test", f"map_rule {r.randint(0, capacity)}", f"map_rule_path {r.randint(0, capacity)} {r.choice([40, 40, 0, 8, 24])}"]))


def randoms(host, one, lines, seed):
    yield "# random cases at tiny limits"
    r, play, said = random.Random(seed), Played(host), 0
    while said < lines:
        for line in one(r, play):
            said += 1
            yield line


# CASES OF STORES. An entry is of namespace 7.
LOW, HIGH = digest(0x7F), digest(0x80)


def entry(path="()", time=5, length=1, d=digest(), subspace=0):
    components = () if path == "()" else tuple(b"" if c == "-" else bytes.fromhex(c) for c in path.split("/"))
    return Entry(7, subspace, components, time, length, bytes.fromhex(d[1:]))


def offer(e, namespace=7):
    return words("store_offer", namespace, e.subspace, shown(e.path), len(e.path), e.timestamp, e.payload_length, "x" + e.digest.hex())


def laid_store(entries, capacity, limits=(2, 2, 3), let_go=0, held=None):
    """Laid out in the order given, whatever the entries are; the sum of their bytes as 8 bytes hold it, unless another is given."""
    return lay_entries(limits, capacity, 7, entries, bytes_of(entries) % 2**64 if held is None else held, let_go)


def read_back(play, entries):
    yield play("store_test")
    yield play("store_numbers")
    for i in range(entries):
        yield play("store_entry", i)
        yield play("store_entry_path", i, 40)


def stated_stores():
    yield "# the case of document 01: one subspace, N = 1; with repeats in between; with offers of another namespace, of a bad path, too large or with no room"
    play = Played(StoreHost())
    offers = [entry("01", 5, 10), entry("01/02", 4, 7), entry("()", 6, 1)]
    others = [offer(offers[0], 8), offer(entry("02", 5, 10)), offer(entry("010203", 5, 10)), offer(entry("()", 9, TOP))]
    # Behind the last of the three, 10 bytes at path 02 are no longer refused: they are outdated.
    for between, let_go in ((0, 17), (1, 17 + 18), (2, 17 + 18 + 10)):
        yield play("room", store_size((2, 2, 3), 1) + 2)
        yield play("store_fresh 2 2 3 1 7")
        for e in offers:
            for line in [offer(e)] + [offer(e)] * (between > 0) + others * (between > 1):
                yield play(line)
                yield play("store_numbers")
        assert play.last == f"0 2 2 3 1 1 7 1 {let_go}"
        yield from read_back(play, 2)


def two_offers():
    yield "# one entry held, another offered: at an equal path, above, below, beside; each age above, equal and below by time, digest, length"
    play, held = Played(StoreHost()), entry("01", 5, 4, LOW)
    for path in ("01", "()", "01/02", "0100", "00"):
        for time in (4, 5, 6):
            for d in (digest(0x7E), LOW, HIGH):
                for length in (3, 4, 5):
                    yield from play.sheet(laid_store([held], 2))
                    yield play(offer(entry(path, time, length, d)))
    yield "# digests that differ in the first byte, in the last, in both; as signed bytes they would be the other way round"
    digests = [digest(0, 0), digest(0x7F, 0), digest(0x80, 0), digest(0xFF, 0), digest(0x7F, 0xFF), digest(0x80, 0x7F), digest(0, 0x80), digest(0, 0x7F)]
    for a in digests:
        for b in digests:
            yield from play.sheet(laid_store([entry("01", 5, 4, a)], 1, (1, 1, 1)))
            yield play(offer(entry("01", 5, 4, b)))
    yield "# another subspace is not looked at, whatever the age; numbers that differ in a high byte alone"
    for number in (0, 1, 255, 256, 2**63, TOP):
        yield from play.sheet(laid_store([entry("01", 256, 256, LOW, 256)], 2, (1, 1, 1)))
        yield play(offer(entry("()", 300, 1, HIGH, number)))
        yield play(offer(entry("01", number, 256, LOW, 256)))
        yield play(offer(entry("01", 256, number, LOW, 256)))


def prunings():
    yield "# offers that prune none, some and all, with a free place and with none: room made by pruning is used, else 14"
    play = Played(StoreHost())
    held = [entry("01", 5, 10, subspace=1), entry("01/02", 6, 20, subspace=1), entry("0100", 1, 40, subspace=1), entry("02", 3, 80, subspace=1), entry("01", 1, 160, subspace=2)]
    offers = [(path, time, subspace) for subspace in (1, 2) for path in ("()", "01", "01/02", "01/03", "02", "02/-", "03") for time in (0, 1, 2, 5, 6, 7)]
    for entries, capacity in ((held[:4], 4), (held, 5)):
        for path, time, subspace in offers:
            if subspace == 1 or path in ("()", "01") and capacity == 5:
                yield from play.sheet(laid_store(entries, capacity, let_go=3) + b"\xab")
                yield play(offer(entry(path, time, 5, HIGH, subspace)))
    yield "# a free place: filed first, between, last, by subspace and then path"
    for subspace, path in [(0, "ff")] + [(1, path) for path in "() - 00 01 01/- 01/0201 0100 0101 02 ff".split()] + [(2, "()"), (2, "02"), (3, "()"), (TOP, "()")]:
        yield from play.sheet(laid_store(held[:2] + held[3:], 5))
        yield play(offer(entry(path, 1, 5, LOW, subspace)))
    yield from read_back(play, 6)
    yield "# 14 is not for an outdated offer, nor for a repeat"
    for e in (held[0], held[1], entry("01", 4, 10, subspace=1), entry("01/ff", 4, 10, subspace=1), entry("01", 5, 9, subspace=1), entry("01", 5, 11, subspace=1), entry("03", 5, 1, subspace=1)):
        yield from play.sheet(laid_store(held[:2], 2))
        yield play(offer(e))
        yield play("store_numbers")


def full_totals():
    yield "# totals at 2^64 - 1 exactly and one past it, for offers that are taken, pruning, outdated, a repeat, or find no room: 13 before 14"
    play, held = Played(StoreHost()), entry("01", 5, 10)
    cases = [("02", 5), ("()", 6), ("01", 6), ("01", 4), ("01/02", 5), ("01/02", 4), ("01", 5)]
    for capacity in (2, 1):
        for path, time in cases:
            for length, past in ((10, 0), (10, 1), (0, 0), (1, 1)):
                yield from play.sheet(laid_store([held], capacity, let_go=TOP - 10 - length + past))
                yield play(offer(entry(path, time, length)))
    for length in (0, 1, TOP):
        for let_go in (0, TOP - 1, TOP):
            yield from play.sheet(laid_store([], 0, (0, 0, 0), let_go=let_go))
            yield play(offer(entry("()", 1, length)))
    yield "# from a fresh store up to the last byte"
    for lengths in ((TOP, 0, 1, TOP, 0), (2**63 - 1, 2**63 - 1, 1, 1, 0), (2**63, 2**63, 2**63 - 1, 1, 0), (1, TOP, TOP - 1, 1, 0)):
        for paths in (("()",) * 5, ("-", "00", "()", "00", "()"), ("()", "-", "00", "01", "02")):
            yield play("room", store_size((1, 1, 1), 3))
            yield play("store_fresh 1 1 1 3 7")
            for length, path in zip(lengths, paths):
                yield play(offer(entry(path, 3, length)))
            yield play("store_numbers")
            yield play("store_test")


def refused_offers():
    yield "# 2 before 4, 4 before 5, 5 before 13 and 14: with room, full, with full totals, damaged"
    play, held = Played(StoreHost()), entry("01", 5, 10)
    full = laid_store([held], 1, let_go=TOP - 10)
    for sheet in (laid_store([], 1), laid_store([held], 1), full, byte_changed(full, 100, full[100] ^ 1) + b"\0", number_changed(full, 48, 11)):
        yield from play.sheet(sheet)
        for namespace in (7, 6, 0, TOP, 7 + 2**32):
            yield play("store_offer", namespace, "0 x 0 5 1", LOW)
            yield play(offer(entry("02", 5, 1), namespace)) if namespace != 7 or sheet is not full else play("store_test")
        for path in BAD_PATHS:
            yield play("store_offer 7 0", *path, "5 1", LOW)
        yield play("store_test")
    yield "# a count below the buffer's own: the part is offered"
    for count in (0, 1, 2):
        yield from play.sheet(laid_store([held], 2))
        yield play("store_offer 7 0 p01/02", count, "5 10", digest())
        yield play("store_offer 7 0 p01/02", count, "6 1", digest())
        yield from read_back(play, 2)


def namespaces():
    yield "# other namespaces than 7"
    play = Played(StoreHost())
    for namespace in (0, 1, 256, 2**63, TOP):
        yield play("room", store_size((1, 1, 1), 2))
        yield play("store_fresh 1 1 1 2", namespace)
        for other in (0, 1, 256, 2**63, TOP):
            yield play(offer(entry("01", 5, other % 251), other))
        yield from read_back(play, 2)


def small_stores():
    yield "# every small size: the paths that are valid there, those that are not, one place too few; N = 0; MCC = 0; MCL = 0"
    play = Played(StoreHost())
    for limits in SIZES:
        for capacity in (0, 1, 2):
            yield play("room", store_size(limits, capacity))
            yield play("store_fresh", *limits, capacity, 7)
            for i, path in enumerate(("01/-", "-", "()", "00", "0000", "-/-", "()")):
                yield play(offer(entry(path, 7 - i // 2, 2**i)))
            yield play("store_numbers")
    yield "# entries and paths read: the buffer exact, short, long; none past the last"
    play.host.sheet(laid_store([entry("()", 1, 1), entry("-", 2, 2), entry("01/02", TOP, TOP - 3, digest(255, 255), 3)], 4))
    yield from play.sheet(play.host.buffer)
    for i in (0, 1, 2, 3, 4, TOP):
        yield play("store_entry", i)
        yield from play.room_for("store_entry_path", i)


# A sheet to be damaged: what it is laid out from.
Laid = namedtuple("Laid", "entries capacity limits let_go")


def some_stores():
    """With unused heads and cells, full, with the empty path alone, with no entry, with no room, with an older prefix above."""
    first, second, third = entry("01", 5, 10, LOW), entry("01/02", 6, 20), entry("()", 1, TOP - 40, HIGH, 3)
    yield Laid([entry("01", 5, 10, LOW, 3)], 2, (1, 1, 1), 0)
    yield Laid([first, second], 2, (2, 2, 3), 3)
    yield Laid([first, second, third], 4, (2, 2, 3), 10)
    yield Laid([third], 2, (0, 0, 0), 0)
    yield Laid([], 1, (3, 1, 2), 9)
    yield Laid([], 0, (0, 2, 0), TOP)
    yield Laid([entry("()", 1, 0), entry("-", 2, 0), entry("-/-", 3, 0)], 3, (0, 2, 0), 1)


def broken_stores():
    """What a store cannot hold, each beside what it can."""
    a, b, c, other = entry("01", 5, 10), entry("01/02", 6, 20), entry("02", 1, 40), entry("00", 9, 1, subspace=1)
    yield "# two equal places, descending places, an older entry below a newer one", [
        [a, b, c, other], [a, a], [a, c, c], [other, other], [a, entry("01", 6, 10)], [a, entry("01", 4, 10)], [b, a], [a, c, b], [other, a], [a, other, c],
        [entry("01", subspace=256), entry("01", subspace=1)], [entry("01", subspace=1), entry("01", subspace=256)],
        [entry("01", subspace=1), entry("00", subspace=2**63)], [entry("0100"), entry("01")], [entry("01"), entry("0100")], [entry("01/-"), entry("01")],
        [entry("7f"), entry("80")], [entry("80"), entry("7f")],
    ]
    chains = [("()", 4), ("00", 5), ("00/01", 6), ("01", 7), ("01/02", 8), ("02", 9)]
    yield "# below the nearest prefix, below one further up, behind entries that are not below it", [
        [entry(path, 3 if i == old else time) for i, (path, time) in enumerate(chains) if i not in without] for old in range(6) for without in ((), (3,), (1, 3), (1, 2, 3))
    ]
    yield "# ages that differ in the digest or in the length alone", [
        [entry("()", 5, length, d), entry("01", 5, 4, LOW)] for d in (digest(0x7E), LOW, HIGH) for length in (3, 4, 5)
    ]


def damaged_stores():
    play, sheets = Played(StoreHost()), list(some_stores())
    yield from damaged("store", play, sheets, lambda s: laid_store(*s), 64)
    yield "# a path in a cell at MCL, MCC or MPL, and past one of them alone"
    for limits, path in FITTING:
        yield from play.sheet(laid_store([entry()._replace(path=path)], 1, limits))
        yield play("store_test")
        yield play("store_entry_path 0 32")
    for comment, kinds in broken_stores():
        yield comment
        for entries in kinds:
            yield from play.sheet(laid_store(entries, len(entries) + 1))
            yield play("store_test")
    yield "# held bytes that are not the sum; totals and sums past 2^64 - 1"
    a, b = entry("01", 5, 10), entry("02", 5, TOP - 9)
    for entries, held, let_go in (
        ([a], 10, 0), ([a], 9, 0), ([a], 11, 0), ([a], 0, 10), ([a], 10, TOP - 10), ([a], 10, TOP - 9), ([a], 10, TOP), ([], 0, TOP), ([], 1, TOP),
        ([], 1, 0), ([a, b], 0, 0), ([a, b], 0, 1), ([a, b], TOP, 0), ([b], TOP - 9, 9), ([b], TOP - 9, 10),
        ([entry("01", 5, TOP - 10), entry("02", 5, 10)], TOP, 0), ([entry("01", 5, TOP), entry("02", 5, TOP), entry("03", 5, 2)], 0, 0), ([entry("01", 5, 2**63), entry("02", 5, 2**63)], 0, 0),
    ):
        yield from play.sheet(laid_store(entries, 3, let_go=let_go, held=held))
        yield play("store_test")
        yield play("store_numbers")
    yield "# each call on a store that is damaged: stale bytes, a byte behind a path, n over N, bad paths, one byte short"
    data, cells, size = laid_store(*sheets[2]), 64 + 4 * 56, cell_size((2, 2, 3))
    for at in (64 + 3 * 56, cells - 1, cells + 3 * size, cells + 4 * size - 1, cells + 17, cells + size - 1, cells + 2 * size + 8):
        yield from on_damaged_store(play, byte_changed(data, at, 1))
    for at, value in ((32, 5), (32, 2), (24, 3), (cells, 3), (cells, 0), (cells + 8, 3), (cells + size + 8, 3), (cells + size + 16, 0), (cells + size + 16, 4), (cells + size + 16, TOP)):
        yield from on_damaged_store(play, number_changed(data, at, value))
    yield from on_damaged_store(play, data[:-1])
    yield from on_damaged_store(play, data + b"\1")


def on_damaged_store(play, sheet):
    yield from play.sheet(sheet)
    yield play(offer(entry("01", 5, 10, LOW)))
    for call in ("store_test", "store_numbers", "store_entry 0", "store_entry 9", "store_entry_path 0 24", "store_entry_path 0 0", "store_entry_path 9 3", "store_offer 8 0 x 0 5 1 " + LOW):
        yield play(call)


def store_forms():
    rest = f"0 p01 1 5 10 {LOW}"
    yield from line_forms("store", "store_fresh 1 1 1 1 7", [
        "store_numbers 0", "store_entry", "store_entry x", "store_entry 0 0", "store_entry_path 0", "store_entry_path 0 256", "store_entry_path 0 257",
        f"store_offer {rest}", f"store_offer 7 {rest} 1", f"store_offer 7 {rest}00",
        f"store_offer 7 {rest[:-2]}", "store_offer 7 0 p01 1 5 10 x", "store_offer 7 0 p01 1 5 10 n1/2/3/4", "store_offer 7 0 p01 1 5 10 n1/2/3",
        "store_offer 7 0 p1 1 5 10 " + LOW, f"store_offer 7 0 p01 1 {TOP + 1} 10 {LOW}", "store_fresh 1 1 1 1",
    ])


def random_entry(r, pool, lengths):
    """Of few places, times, digests and lengths, so that it often meets another."""
    return Entry(7, r.choice([0, 0, 1]), tuple(r.choice(pool)), r.randint(0, 3), r.choice(lengths), bytes.fromhex(r.choice([LOW, HIGH, digest()])[1:]))


def random_pool(r, limits, valid):
    """Paths above, below and beside each other, valid ones alone or mostly."""
    pool, path = [[]], []
    for _ in range(6):
        path = tiny_path(r, limits, path)
        pool += [path[:i] for i in range(1, len(path) + 1)]
    return [path for path in pool if not valid or given_path(limits, packed(path), len(path)) is not None]


def random_lengths(r):
    return r.choice([[0, 1, 2, 5, 10], [1, 2, 4, 8, 16], [0, 1, TOP // 2, TOP // 2 + 1, TOP // 3], [0, 1, 2, TOP - 3, TOP]][: 2 if r.random() < 0.7 else 4])


def random_offer(r, limits, pool, lengths, said):
    """Now and then of another namespace, with a bad path, or one that was made before."""
    if said and r.random() < 0.15:
        return r.choice(said)
    e = random_entry(r, pool, lengths)
    count = max(0, len(e.path) + r.choice([-1, 1] + [0] * 30))
    path = random_buffer(r, e.path) if r.random() < 0.1 else shown(e.path)
    return words("store_offer", 8 if r.random() < 0.02 else 7, e.subspace, path, count, e.timestamp, e.payload_length, "x" + e.digest.hex())


def random_store(r, play):
    """A list of 5 to 30 offers from a fresh store, mostly the shorter, and what is held then read; now and then it is damaged."""
    limits, capacity = r.choice([(0, 0, 0), (1, 1, 1), (1, 1, 1), (1, 2, 2), (1, 2, 2), (2, 2, 3), (0, 2, 0), (3, 1, 2)]), r.choice([0, 1, 1, 1, 2, 2, 2, 3, 3, 4, 5])
    pool, lengths, said = random_pool(r, limits, r.random() < 0.8), random_lengths(r), []
    yield play("room", store_size(limits, capacity) + r.choice([0, 0, 0, 2]))
    yield play("store_fresh", *limits, capacity, 7)
    for _ in range(min(r.randint(5, 30) for _ in range(5))):
        said.append(random_offer(r, limits, pool, lengths, said))
        yield play(said[-1])
        if r.random() < 0.01:
            yield from pokes(r, play, "store_test")
    yield play("store_numbers")
    yield play("store_entry", r.randint(0, capacity))
    yield play("store_entry_path", r.randint(0, capacity), r.choice([40, 40, 0, 8, 24]))
    if r.random() < 0.05:
        yield play("store_test_each", r.choice([1, 2, 3, 128, 255]))


def random_sheet(r, play):
    """Entries laid out as a store whether one could hold them or not, mostly ascending, and tested."""
    limits = r.choice([(1, 2, 2), (1, 4, 4), (1, 4, 4), (1, 3, 2)])
    pool, lengths = random_pool(r, limits, r.random() < 0.95), random_lengths(r)
    entries = [random_entry(r, pool, lengths) for _ in range(r.randint(1, 6))]
    if r.random() < 0.9:
        entries = sorted({place(e): e for e in entries}.values(), key=place)
    if r.random() < 0.7:
        # Mostly newer further down, as it has to be there.
        entries = [e._replace(timestamp=e.timestamp + r.choice([2, 4, 4, 4]) * len(e.path)) for e in entries]
    if any(len(packed(e.path)) > cell_size(limits) for e in entries):
        return
    held = (bytes_of(entries) + r.choice([1, -1] + [0] * 30)) % 2**64
    yield from play.sheet(laid_store(entries, len(entries) + r.choice([0, 0, 1]), limits, r.choice([0, 0, 0, 5, TOP - 10]), held))
    yield play("store_test")
    if r.random() < 0.5:
        yield play(offer(random_entry(r, pool, lengths)))


def random_stores(r, play):
    yield from random_sheet(r, play) if r.random() < 0.4 else random_store(r, play)


def parts():
    maps = [fresh_sheets("map", map_size), filled_maps(), inserts(), listings(), damaged_maps(), map_forms(), randoms(MapHost(), random_map, 700, 6)]
    yield part("maps", MapHost().answer, maps)
    stores = [stated_stores(), fresh_sheets("store", store_size, "7"), two_offers(), prunings(), full_totals(), refused_offers(), namespaces(), small_stores(), damaged_stores(), store_forms()]
    yield part("stores", StoreHost().answer, stores + [randoms(StoreHost(), random_stores, 2800, 7)])


def main_random(name, lines, seed, folder):
    host, one = {"map": (MapHost, random_map), "store": (StoreHost, random_stores)}[name]
    play = host()
    with open(f"{folder}/stdin", "w", newline="") as stdin, open(f"{folder}/stdout", "w", newline="") as stdout:
        stdin.write(f"part {name}s\n")
        for line in randoms(host(), one, int(lines), int(seed)):
            stdin.write(line + "\n")
            answer = play.answer(line)
            if answer is not None:
                stdout.write(answer + "\n")


if __name__ == "__main__":
    main_random(*sys.argv[1:])
