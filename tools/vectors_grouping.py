"""Cases for the exported calls on ranges, entries, areas, areas of interest and 3d ranges, and the answers that they must get.

The parts `ranges` and `areas` of what tools/replay.py writes. The answers are computed here, from document 01 and from Willow's
definitions; nothing of the core is read or run. The packed form, the buffers of a line and the next greater path are
those of tools/vectors.py, which looks at all paths for the last one. What is answered by comparing bounds is held against plain
sets of the values, paths or triplets that a case can tell apart. The random cases have a fixed seed.
"""
import itertools
import random
from collections import namedtuple

from vectors import NONE, TOP, Refused, Unreadable, accept, counted, least, lent, near, packed, part, random_buffer, random_path, raw, read, shown, valid_paths

# An open end is None, and so are the subspaces of an area that has any. A path is a tuple of byte strings: Python compares these
# as the Data Model does, unsigned, a proper prefix smaller.
Range = namedtuple("Range", "start end")
Entry = namedtuple("Entry", "namespace subspace path timestamp payload_length digest")
Area = namedtuple("Area", "subspace path times")
Interest = namedtuple("Interest", "area max_count max_size")
Range3d = namedtuple("Range3d", "subspaces paths times")
Triplet = namedtuple("Triplet", "subspace path time")


# THE MODEL: ranges of numbers and of paths.
def order(a, b):
    return 0 if a < b else 1 if a == b else 2


def end_key(end):
    """Open is greatest."""
    return (1,) if end is None else (0, end)


def key(range):
    """By start, then end."""
    return range.start, end_key(range.end)


def above(end, value):
    return end is None or value < end


def members(range, values):
    return {x for x in values if range.start <= x and above(range.end, x)}


def bounds(*ranges):
    """Any two ranges with these bounds are told apart by one of them, if there is something in either."""
    return {x for range in ranges for x in range if x is not None}


def includes(range, value):
    return bool(members(range, {value}))


def is_empty(range):
    return not includes(range, range.start)


def includes_range(r, s):
    answer = r.start <= s.start and end_key(s.end) <= end_key(r.end)
    values = bounds(r, s)
    assert is_empty(s) or answer == (members(s, values) <= members(r, values)), (r, s)
    return answer


def intersection(r, s):
    """Of the sets: none where no value lies in both, else the range with a start and an end of theirs that has the same in it."""
    values = bounds(r, s)
    common = members(r, values) & members(s, values)
    found = {Range(*pair) for pair in itertools.product((r.start, s.start), (r.end, s.end))}
    found = {m for m in found if members(m, values) == common and common}
    assert len(found) == bool(common), (r, s)
    return found.pop() if found else None


def end_shown(end):
    return (0, 0) if end is None else (1, end)


def range_shown(range):
    return None if range is None else (range.start, *end_shown(range.end))


def sides_shown(r, s, range):
    """Whose start and whose end stands: 0 the first's, 1 the second's, which is taken where they are equal."""
    if range is None:
        return None
    return int(range.start == s.start), *end_shown(None if range.end is None else int(range.end == s.end))


# ENTRIES.
def is_prefix(p, q):
    return q[: len(p)] == p


def is_related(p, q):
    return is_prefix(p, q) or is_prefix(q, p)


def age(entry):
    return entry.timestamp, entry.digest, entry.payload_length


def place(entry):
    return entry.subspace, entry.path


def prunes(newer, older):
    same = newer.namespace == older.namespace and newer.subspace == older.subspace
    return same and is_prefix(newer.path, older.path) and age(newer) > age(older)


def entry_key(entry):
    return entry.namespace, *place(entry), *age(entry)


# AREAS, as sets of triplets.
def in_area(area, t):
    return area.subspace in (None, t.subspace) and is_prefix(area.path, t.path) and includes(area.times, t.time)


def some_triplets(areas, paths=(), times=()):
    """Enough to tell apart any two areas with these subspaces, paths and bounds, if there is something in either: of the subspaces
    one more than are named."""
    ids = {area.subspace for area in areas} - {None}
    ids.add(min({0, 1, 2} - ids))
    paths = {area.path for area in areas} | set(paths)
    times = bounds(*[area.times for area in areas]) | set(times)
    return {Triplet(*t) for t in itertools.product(ids, paths, times)}


def area_members(area, triplets):
    return {t for t in triplets if in_area(area, t)}


def clash(a, b):
    """Two ids that differ."""
    return None not in (a.subspace, b.subspace) and a.subspace != b.subspace


def includes_area(a, b):
    answer = a.subspace in (None, b.subspace) and is_prefix(a.path, b.path) and includes_range(a.times, b.times)
    triplets = some_triplets([a, b])
    assert is_empty(b.times) or answer == (area_members(b, triplets) <= area_members(a, triplets)), (a, b)
    return answer


def almost_includes_area(a, b):
    answer = is_prefix(a.path, b.path) and includes_range(a.times, b.times) and not clash(a, b)
    assert answer == (includes_area(a._replace(subspace=None), b) and not clash(a, b))
    return answer


def area_intersection(a, b):
    """Of the sets: none where no triplet lies in both."""
    triplets = some_triplets([a, b])
    common = area_members(a, triplets) & area_members(b, triplets)
    if not common:
        return None
    ids = {a.subspace, b.subspace} - {None}
    met = Area(min(ids, default=None), max(a.path, b.path, key=len), intersection(a.times, b.times))
    assert len(ids) < 2 and area_members(met, triplets) == common
    return met


def area_shown(a, b, met):
    """Whose path stands, the second's where they are equal; its count; and the rest."""
    if met is None:
        return None
    return int(met.path == b.path), len(met.path), *end_shown(met.subspace), *range_shown(met.times)


def area_prunable(area, t):
    """Same or any subspace, timestamp not below the start, related paths: an entry there prunes some entry that the area has."""
    answer = area.subspace in (None, t.subspace) and area.times.start <= t.time and is_related(area.path, t.path)
    there = some_triplets([area], [t.path], [t.time]) | {t._replace(path=path, time=time) for path in (area.path, t.path) for time in (area.times.start, t.time)}
    pruned = any(u.subspace == t.subspace and is_prefix(t.path, u.path) and u.time <= t.time for u in area_members(area, there))
    assert is_empty(area.times) or answer == pruned, (area, t)
    return answer


def area_key(area):
    """By subspace, any before an id; path; times."""
    return (() if area.subspace is None else (area.subspace,)), area.path, key(area.times)


def interest_shown(a, b):
    shown = area_shown(a.area, b.area, area_intersection(a.area, b.area))
    return shown and (*shown, min(a.max_count, b.max_count), min(a.max_size, b.max_size))


def interest_key(interest):
    return area_key(interest.area), interest.max_count, interest.max_size


# 3D RANGES.
def in_range_3d(range, t):
    return all(includes(*pair) for pair in zip(range, t))


def range_3d_members(range, *ranges):
    """Of the triplets at the bounds of all of them."""
    return {t for t in itertools.product(*[bounds(*three) for three in zip(range, *ranges)]) if in_range_3d(range, t)}


def includes_range_3d(r, s):
    answer = all(includes_range(*pair) for pair in zip(r, s))
    assert any(map(is_empty, s)) or answer == (range_3d_members(s, r) <= range_3d_members(r, s)), (r, s)
    return answer


def range_3d_intersection(r, s):
    common = range_3d_members(r, s) & range_3d_members(s, r)
    if not common:
        return None
    met = Range3d(*[intersection(*pair) for pair in zip(r, s)])
    assert range_3d_members(met, r, s) == common
    return met


def sides_3d_shown(r, s):
    met = range_3d_intersection(r, s)
    return met and (*range_shown(met.subspaces), *sides_shown(r.paths, s.paths, met.paths), *range_shown(met.times))


def range_3d_prunable(limits, range, t):
    """As the Rust: the subspace is included, the timestamp not below the start, the path included or related to the start. So it is
    wherever an entry there prunes an entry of the range."""
    reached = includes(range.paths, t.path) or is_related(range.paths.start, t.path)
    answer = includes(range.subspaces, t.subspace) and range.times.start <= t.time and reached
    if tiny(limits):
        older = (path for path in letter_paths(limits, t.path) if is_prefix(t.path, path) and includes(range.paths, path))
        inside = includes(range.subspaces, t.subspace) and not is_empty(range.times) and range.times.start <= t.time
        assert answer or not (inside and any(older)), (limits, range, t)
    return answer


def range_3d_key(range):
    return tuple(key(one) for one in range)


def tiny(limits):
    return limits[0] <= 3 and limits[1] <= 3 and limits[2] <= 4


def letter_paths(limits, path):
    """All valid paths with the bytes of a path, those one greater, and 0."""
    data = b"".join(path)
    return [tuple(p) for p in valid_paths(limits, bytes(sorted({0, *data, *(b + 1 for b in data if b < 255)})))]


def from_area(limits, area):
    """The 3d range of the same triplets, which ends at the next greater path."""
    end = least("greater_but_not_prefixed", limits, list(area.path))
    subspace = Range(0, None) if area.subspace is None else Range(area.subspace, None if area.subspace == TOP else area.subspace + 1)
    range = Range3d(subspace, Range(area.path, None if end is None else tuple(end)), area.times)
    if tiny(limits) and len(set(b"".join(area.path))) <= 3:
        for path in letter_paths(limits, area.path):
            assert includes(range.paths, path) == is_prefix(area.path, path), (limits, area, path)
    for number in {0, 1, TOP - 1, TOP, area.subspace or 0, min(TOP, (area.subspace or 0) + 1)}:
        assert includes(range.subspaces, number) == (area.subspace in (None, number))
    return range


def converted(limits, area, room):
    """The numbers, and what is written: the end, if there is one and it fits."""
    range = from_area(limits, area)
    end = b"" if range.paths.end is None else packed(range.paths.end)
    if len(end) > room:
        raise Refused(15)
    ends = end_shown(None if range.paths.end is None else len(range.paths.end))
    return (*range_shown(range.subspaces), len(area.path), *ends, len(end), *range_shown(range.times)), end


# WHAT A CALL TAKES. A part of a form has one letter for each argument: l a limit, k a kind, n a number, v one beside a kind, b a
# path, c the count beside it, d a digest, o the length of an output buffer.
PARTS = {
    "limits": "lll", "number": "n", "end": "kv", "range": "nkv", "path": "bc", "path_end": "kbc", "path_range": "bckbc", "age": "nnd", "place": "nbc",
    "entry": "nnbcnnd", "area": "kvbcnkv", "triplet": "nbcn", "interest": "kvbcnkvnn", "range_3d": "nkvbckbcnkv", "room": "o",
}


class Given:
    """The arguments of a case, taken one behind the other. All that is refused is gathered, and the smallest number is given."""

    def __init__(self, arguments):
        self.rest, self.sizes, self.refused = list(arguments), None, set()

    def number(self):
        return self.rest.pop(0)

    room = number

    def limits(self):
        self.sizes = self.number(), self.number(), self.number()
        self.judge(accept, self.sizes)
        return self.sizes

    def judge(self, test, *arguments):
        try:
            return test(*arguments)
        except Refused as refused:
            self.refused.add(refused.args[0])

    def kind(self):
        kind = self.number()
        if kind not in (0, 1):
            self.refused.add(3)
        return kind

    def end(self):
        """A number beside kind 0 is not read."""
        kind, value = self.kind(), self.number()
        return value if kind else None

    subspace = end

    def range(self):
        return Range(self.number(), self.end())

    def path(self):
        return tuple(self.judge(lent, self.sizes, self.number(), self.number()) or ())

    def path_end(self):
        """Nor is a path beside kind 0."""
        if self.kind():
            return self.path()
        self.rest = self.rest[2:]

    def path_range(self):
        return Range(self.path(), self.path_end())

    def age(self):
        timestamp, payload_length, digest = self.number(), self.number(), self.number()
        return Entry(0, 0, (), timestamp, payload_length, digest)

    def place(self):
        return Entry(0, self.number(), self.path(), 0, 0, bytes(32))

    def entry(self):
        return Entry(self.number(), self.number(), self.path(), self.number(), self.number(), self.number())

    def area(self):
        return Area(self.subspace(), self.path(), self.range())

    def triplet(self):
        return Triplet(self.number(), self.path(), self.number())

    def interest(self):
        return Interest(self.area(), self.number(), self.number())

    def range_3d(self):
        return Range3d(self.range(), self.path_range(), self.range())


# The parts of a call, how many numbers it answers behind the status, and the answer: a number or several, or None.
RANGES = {
    "range_end_above": ("end number", 1, above),
    "range_compare_ends": ("end end", 1, lambda d, e: order(end_key(d), end_key(e))),
    "range_is_open": ("range", 1, lambda r: r.end is None),
    "range_new_closed": ("number number", 3, lambda a, e: range_shown(Range(a, e)) if a < e else None),
    "range_includes": ("range number", 1, includes),
    "range_includes_range": ("range range", 1, includes_range),
    "range_intersection": ("range range", 3, lambda r, s: range_shown(intersection(r, s))),
    "range_compare": ("range range", 1, lambda r, s: order(key(r), key(s))),
    "path_range_end_above": ("limits path_end path", 1, lambda _, e, p: above(e, p)),
    "path_range_compare_ends": ("limits path_end path_end", 1, lambda _, d, e: order(end_key(d), end_key(e))),
    "path_range_new_closed": ("limits path path", 1, lambda _, p, q: p < q),
    "path_range_includes": ("limits path_range path", 1, lambda _, r, p: includes(r, p)),
    "path_range_includes_range": ("limits path_range path_range", 1, lambda _, r, s: includes_range(r, s)),
    "path_range_intersection": ("limits path_range path_range", 3, lambda _, r, s: sides_shown(r, s, intersection(r, s))),
    "path_range_compare": ("limits path_range path_range", 1, lambda _, r, s: order(key(r), key(s))),
    "entry_is_newer_than": ("age age", 1, lambda a, b: age(a) > age(b)),
    "entry_is_pruned_by": ("limits entry entry", 1, lambda _, a, b: prunes(b, a)),
    "entry_prunes": ("limits entry entry", 1, lambda _, a, b: prunes(a, b)),
    "entry_equal": ("limits entry entry", 1, lambda _, a, b: a == b),
    "entry_compare_places": ("limits place place", 1, lambda _, a, b: order(place(a), place(b))),
    "entry_compare": ("limits entry entry", 1, lambda _, a, b: order(entry_key(a), entry_key(b))),
}


AREAS = {
    "area_includes_triplet": ("limits area triplet", 1, lambda _, a, t: in_area(a, t)),
    "area_could_be_pruned_by_triplet": ("limits area triplet", 1, lambda _, a, t: area_prunable(a, t)),
    "area_includes_area": ("limits area area", 1, lambda _, a, b: includes_area(a, b)),
    "area_almost_includes_area": ("limits area area", 1, lambda _, a, b: almost_includes_area(a, b)),
    "area_compare": ("limits area area", 1, lambda _, a, b: order(area_key(a), area_key(b))),
    "area_intersection": ("limits area area", 7, lambda _, a, b: area_shown(a, b, area_intersection(a, b))),
    "area_of_interest_intersection": ("limits interest interest", 9, lambda _, a, b: interest_shown(a, b)),
    "area_of_interest_compare": ("limits interest interest", 1, lambda _, a, b: order(interest_key(a), interest_key(b))),
    "range_3d_includes_triplet": ("limits range_3d triplet", 1, lambda _, r, t: in_range_3d(r, t)),
    "range_3d_could_be_pruned_by_triplet": ("limits range_3d triplet", 1, range_3d_prunable),
    "range_3d_includes_range": ("limits range_3d range_3d", 1, lambda _, r, s: includes_range_3d(r, s)),
    "range_3d_intersection": ("limits range_3d range_3d", 9, lambda _, r, s: sides_3d_shown(r, s)),
    "range_3d_compare": ("limits range_3d range_3d", 1, lambda _, r, s: order(range_3d_key(r), range_3d_key(s))),
    "range_3d_from_area": ("limits area room", 10, converted),
}


def form(calls, op):
    return "".join(PARTS[part] for part in calls[op][0].split())


def ask(calls, op, arguments):
    """Status and values, and the bytes that are written."""
    parts, width, answer_to = calls[op]
    given = Given(arguments)
    values = [getattr(given, part)() for part in parts.split()]
    assert not given.rest
    found = None if given.refused else given.judge(answer_to, *values)
    if given.refused:
        return (min(given.refused), *[0] * width), b""
    if found is None:
        return (NONE, *[0] * width), b""
    found, written = found if form(calls, op)[-1] == "o" else (found, b"")
    found = found if isinstance(found, tuple) else (int(found),)
    assert len(found) == width
    return (0, *found), written


def read_argument(letter, text):
    argument = read({"b": "b", "d": "b", "o": "o"}.get(letter, "n"), text)
    if letter == "d" and len(argument) != 32:
        raise Unreadable
    return argument


def answer(calls, line):
    """The line that is printed, or None."""
    if len(line) > 4096:
        return "unreadable"
    if line == "" or line[0] == "#":
        return None
    op, *texts = line.split(" ")
    if op not in calls or len(texts) != len(form(calls, op)):
        return "unreadable"
    try:
        arguments = [read_argument(letter, text) for letter, text in zip(form(calls, op), texts)]
    except Unreadable:
        return "unreadable"
    numbers, written = ask(calls, op, arguments)
    if form(calls, op)[-1] == "o":
        numbers = *numbers, (written + b"\xee" * (arguments[-1] - len(written))).hex()
    return " ".join(map(str, numbers))


# THE CASES.
def words(*parts):
    return " ".join(map(str, parts))


def closed(start, end):
    return words(start, 1, end)


def opened(start, beside=0):
    return words(start, 0, beside)


def digest(first=0, last=0):
    return "x" + bytes([first, *[0] * 30, last]).hex()


def pairs(ops, values, before=""):
    for a, b in itertools.product(values, repeat=2):
        for op in ops.split():
            yield words(op, *before.split(), a, b)


def checked(calls, line, expected):
    """A case of document 01, with the answer that stands there."""
    assert answer(calls, line) == expected, line
    return line


# One text for each part, accepted together with the others.
SAMPLES = {
    "limits": "2 3 4", "number": "5", "end": "1 7", "range": "3 1 9", "path": "p01/0203 2", "path_end": "1 p01/03 2", "path_range": "p01/02 2 1 p01/03 2", "age": words(6, 4, digest()),
    "place": "4 p01 1", "entry": words("1 4 p01 1 6 4", digest()), "area": "1 4 p01/02 2 3 1 9", "triplet": "4 p01/02/- 3 5", "interest": "1 4 p01/02 2 3 1 9 8 7",
    "range_3d": "3 1 6 p01/02 2 1 p01/03 2 3 1 9", "room": "64",
}
# For each letter what else may stand there: what is refused first, and then the edges. A limit has its own bound.
EDGES = {"k": [2, TOP, 0], "b": ["x", raw(1, 1), raw(0) + "00", "p010203"], "c": [4, TOP, 0], "n": [0, TOP], "v": [0, TOP], "d": [digest(255, 255)], "o": [0]}
LIMITS = [1025, 1025, 4097]


def refused(calls):
    """Each argument changed by itself, and any two of limits, kinds, paths and no room: the smallest refusal is given. A kind of 0
    beside a path that is none, which is not read."""
    for op in calls:
        yield f"# {op}: one argument changed, and then two"
        letters, sample = form(calls, op), " ".join(SAMPLES[part] for part in calls[op][0].split()).split()

        def changed(*changes):
            line = [op, *sample]
            for at, text in changes:
                line[at + 1] = text
            return words(*line)

        def edges(at):
            return [LIMITS[at], TOP] if letters[at] == "l" else EDGES[letters[at]]

        yield changed()
        for at in range(len(letters)):
            yield from (changed((at, text)) for text in edges(at))
        telling = [at for at, letter in enumerate(letters) if letter in "kbo"]
        for a, b in itertools.combinations(([0] if "l" in letters else []) + telling, 2):
            yield changed((a, edges(a)[0]), (b, edges(b)[0]))
        kinds, paths = [[at for at in telling if letters[at] == letter] for letter in "kb"]
        for a, b in itertools.product(kinds, paths):
            yield changed((a, 0), (b, "x"))
        yield changed(*[(at, 0) for at in kinds], *[(at, TOP) for at, letter in enumerate(letters) if letter == "v"])


def stated_ranges():
    yield "# the cases of document 01"
    yield checked(RANGES, "range_intersection 3 1 9 9 0 0", "255 0 0 0")
    yield checked(RANGES, "range_intersection 3 1 10 9 0 0", "0 9 1 10")
    yield checked(RANGES, "range_intersection 9 0 0 3 1 9", "255 0 0 0")
    yield checked(RANGES, "range_intersection 9 0 0 3 1 10", "0 9 1 10")


def number_ranges():
    yield "# ranges of numbers: ends that touch, starts at and past the end, open ends"
    some = [closed(a, e) for a in (1, 2) for e in (1, 2, 3)] + [opened(1), opened(2, 7)]
    calls = "range_includes_range range_intersection range_compare"
    yield from pairs(calls, some)
    yield "# and the greatest number"
    yield from pairs(calls, [closed(0, TOP), closed(TOP - 1, TOP), closed(TOP, TOP), closed(TOP, 0), opened(TOP, 3), opened(0, TOP)])
    yield "# one range, and ends"
    for range_, value in itertools.product(some + [closed(0, TOP), closed(TOP, TOP), opened(TOP)], (0, 1, 2, 3, TOP - 1, TOP)):
        yield words("range_includes", range_, value)
    ends = ["0 0", "0 9", "1 0", "1 1", f"1 {TOP}"]
    for end, value in itertools.product(ends, (0, 1, 2, TOP - 1, TOP)):
        yield words("range_end_above", end, value)
    yield from pairs("range_compare_ends", ends)
    yield from pairs("range_new_closed", (0, 1, 2, TOP - 1, TOP))


def path_ranges():
    yield "# ranges of paths: ends that touch, starts at and past the end, open ends, equal paths of different buffers"
    some = [words(s, 1, e) for s in ("p01 1", "p01/-/02 2") for e in ("p01/02 1", "p01/- 2", "p0100 1")] + ["p01 1 0 x 9", "p01/- 2 0 p() 0"]
    calls = "path_range_includes_range path_range_intersection path_range_compare"
    yield from pairs(calls, some, "2 3 4")
    yield "# one range, and ends"
    paths = ["p() 0", "p00ff 1", "p01 1", "p01/- 2", "p01/00 2", "p0100 1", "p02 1", "p01/-/02 2"]
    for range_, path in itertools.product(some, paths):
        yield words("path_range_includes 2 3 4", range_, path)
    ends = ["0 p() 0", "0 x 1", "1 p() 0", "1 p01 1", "1 p01/- 2", "1 p01/02 1"]
    for end, path in itertools.product(ends, paths[:4]):
        yield words("path_range_end_above 2 3 4", end, path)
    yield from pairs("path_range_compare_ends", ends, "2 3 4")
    yield from pairs("path_range_new_closed", paths, "2 3 4")


def entries():
    yield "# entries: newer by timestamp, then digest, then payload length"
    digests = [digest(), digest(0, 1), digest(0x7F, 255), digest(0x80)]
    ages = [words(5, 0, d) for d in digests] + [words(t, n, digest()) for t, n in ((5, TOP), (6, 0), (TOP, 0))] + [words(0, TOP, digest(255, 255))]
    yield from pairs("entry_is_newer_than", ages)
    yield "# places"
    yield from pairs("entry_compare_places", ["0 p01 1", "1 p01 1", "1 p01/- 2", "1 p01/02 1", "1 p0100 1", f"{TOP} p() 0"], "2 3 4")
    yield "# pruning, equality and order: each field"
    some = ["1 4 p01 1 6 4", "1 4 p01/02 2 6 4", "1 4 p01/02 1 6 4", "1 4 p01 1 5 4", "1 4 p01 1 6 3", "1 5 p01 1 6 4", "0 4 p01 1 6 4", "1 4 p() 0 7 0", "1 4 p0100 1 5 4"]
    some = [words(entry, digest()) for entry in some] + [words("1 4 p01 1 6 3", digest(1))]
    for entry, other in itertools.product(some[:2], some):
        for op in "entry_is_pruned_by entry_prunes entry_equal entry_compare".split():
            yield words(op, "2 3 4", entry, other)
            if other not in some[:2]:
                yield words(op, "2 3 4", other, entry)


def range_forms():
    yield "# the edges of the lines themselves"
    for line in (
        "range_compare", "range_compare 1 1 2 1 1", "range_compare 1 1 2 1 1 2 3", "range_compare 1 1 2 1 1 x", "range_compare 1 1 2 1 1 ", f"range_compare 1 1 2 1 1 {TOP + 1}",
        "range_compare 01 1 2 1 001 2", "compare 1 1 2 1 1 2", "wotskrale_range_compare 1 1 2 1 1 2", "range_ 1 1 2", " range_is_open 1 1 2", "range_is_open 1 1 2 ", "range_is_open  1 1 2",
        "range_is_open range_is_open 1 2", "range_new_closed p01 2", "path_range_new_closed 2 2 3 p01 1 p02", "path_range_new_closed 2 2 3 01 1 p02 1", "path_range_new_closed 2 2 3 p01 p02 1 1",
        "path_range_new_closed 2 2 3 p01 1 p0g 1", "path_range_new_closed 2 2 3 n1/1 1 p02 1", "path_range_includes 2 2 3 p01 1 0 p0 1 p02 1", "path_range_compare 2 2 3 p01 1 0 x 0 p01 1 0 x 0 0",
        words("entry_is_newer_than 1 1", digest()[:-2], "1 1", digest()), words("entry_is_newer_than 1 1", digest(), "1 1", digest() + "00"), words("entry_is_newer_than 1 1 n0/0/0/0 1 1", digest()),
        words("entry_is_newer_than 1 1 n0/0/0/0/0 1 1", digest()), words("entry_is_newer_than 1 1 p-/-/- 1 1", digest()), words("entry_is_newer_than 1 1 1 1 1", digest()),
        words("entry_equal 2 2 3", SAMPLES["entry"], SAMPLES["entry"], 0), words("entry_equal 2 2 3", SAMPLES["entry"], SAMPLES["entry"])[:-2], words("entry_equal 2 2 3", SAMPLES["entry"]),
    ):
        yield line
    yield ""


def roomy(line):
    """With no room, one byte too little, exactly enough, and more."""
    needed = int(answer(AREAS, f"{line} 256").split()[7])
    for room in sorted({0, max(needed, 1) - 1, needed, needed + 3}):
        yield f"{line} {room}"


def conversions():
    yield "# areas as 3d ranges: the case of document 01"
    end = "010000000000000002000000000000000100"
    yield checked(AREAS, "range_3d_from_area 2 2 3 0 0 p01 1 0 0 0 18", f"0 0 0 0 1 1 1 18 0 0 0 {end}")
    yield from roomy("range_3d_from_area 2 2 3 0 0 p01 1 0 0 0")
    yield "# ids up to the greatest, times as they are"
    for subspace in ("0 0", "0 7", f"0 {TOP}", "1 0", "1 4", f"1 {TOP - 1}", f"1 {TOP}"):
        for times in ("0 0 0", "5 0 7", "3 1 9", "9 1 3", f"{TOP} 1 {TOP}", f"{TOP} 0 {TOP}"):
            yield words("range_3d_from_area 2 2 3", subspace, "p02 1", times, 20)
    yield "# the end at every room, and none with any room"
    for case in "2 2 3 ():2 2 3 01/-:2 2 3 01/02:2 2 3 0102/03:2 2 2 ffff/-:1 2 2 ff/ff:1 2 2 01/ff:0 2 0 -/-:3 2 3 01ff/ff".split(":"):
        *limits, path = case.split()
        yield from roomy(words("range_3d_from_area", *limits, "1 4", counted(path), "3 1 9"))
    yield "# a count below the buffer's own"
    for count in (0, 1, 2, 3, 4):
        yield words("range_3d_from_area 2 3 4 1 4 p0102/-/03", count, "3 1 9 64")
    yield "# every path with bytes 00 and ff at small limits"
    for limits in ((2, 2, 3), (1, 2, 2), (2, 1, 2), (2, 2, 1), (3, 1, 2), (0, 2, 0)):
        for path in valid_paths(limits, b"\x00\xff"):
            yield words("range_3d_from_area", *limits, "1 4", shown(path), len(path), "3 0 0 40")


def areas():
    yield "# areas: any and one subspace, paths that are related, equal or neither, times that touch"
    some = [
        "0 0 p() 0 0 0 0", "1 4 p01 1 3 1 9", "1 4 p01/02 1 9 0 0", "1 5 p01 1 3 1 10", "0 9 p01/02 2 5 1 12", "1 4 p01/02 2 0 0 5", "0 0 p0100 1 3 1 9", "0 0 p01 1 9 1 9",
        f"1 {TOP} p01/02/03 2 {TOP} 0 0",
    ]
    calls = "area_includes_area area_almost_includes_area area_compare area_intersection"
    yield from pairs(calls, some, "2 3 4")
    yield from pairs(calls, ["0 0 p01 1 3 1 9", "1 0 p01/02 1 3 1 9"], "2 3 4")
    yield "# and a triplet"
    triplets = ["4 p01/02/- 3 9", "4 p01 1 8", "5 p01/02 1 3", "4 p() 0 12", "6 p01/02 2 5", "4 p0100 1 2", f"{TOP} p01/02/03 3 {TOP}"]
    for area, triplet in itertools.product(some, triplets):
        for op in ("area_includes_triplet", "area_could_be_pruned_by_triplet"):
            yield words(op, "2 3 4", area, triplet)
    yield "# areas of interest"
    some = [words(some[a], *rest) for a, rest in ((1, (0, 0)), (1, (0, 5)), (1, (7, 0)), (2, (8, 3)), (4, (TOP, TOP)), (5, (1, 9)), (0, (0, TOP)))]
    yield from pairs("area_of_interest_intersection area_of_interest_compare", some, "2 3 4")


def ranges_3d():
    yield "# 3d ranges: in each of the three ranges ends that touch, starts at and past the end, open ends"
    some = [
        "3 1 6 p01 1 1 p01/- 2 3 1 9", "3 1 6 p01 1 1 p0100 1 3 1 9", "5 0 0 p01/-/02 2 0 x 0 8 0 7", "6 1 9 p01 1 0 p() 0 3 1 9", "3 1 6 p01/- 2 1 p02 1 3 1 9", "3 1 6 p01 1 1 p02 1 9 1 12",
        "0 0 0 p() 0 0 x 0 0 0 0", "3 1 6 p01 1 1 p01/02 1 3 1 9", "3 1 6 p01/- 1 1 p02 1 3 1 9", "6 1 6 p01 1 1 p02 1 3 1 9",
    ]
    yield from pairs("range_3d_includes_range range_3d_intersection range_3d_compare", some, "2 3 4")
    yield "# and a triplet"
    triplets = ["5 p01 1 8", "3 p01/- 2 3", "5 p01/-/02 3 9", "4 p0100 1 12", "6 p() 0 9", "2 p01 1 8", "5 p01/00 2 2", f"{TOP} p02 1 {TOP}"]
    for range_, triplet in itertools.product(some, triplets):
        for op in ("range_3d_includes_triplet", "range_3d_could_be_pruned_by_triplet"):
            yield words(op, "2 3 4", range_, triplet)


def area_forms():
    yield "# the edges of the lines themselves"
    area = SAMPLES["area"]
    for line in (
        "area_compare", words("area_compare 2 2 3", area), words("area_compare 2 2 3", area, area, 0), words("area_compare 2 2 3", area, area)[:-2], words("area_compare 2 2 3", area, "1 4 5 2 3 1 9"),
        words("area_compare 2 2 3", area, "1 4 p5 2 3 1 9"), words("area_compares 2 2 3", area, area), words("compare 2 2 3", area, area), words("area_of_interest_compare 2 2 3", area, area),
        words("range_3d_from_area 2 2 3", area), words("range_3d_from_area 2 2 3", area, 256), words("range_3d_from_area 2 2 3", area, 257), words("range_3d_from_area 2 2 3", area, "x"),
        words("range_3d_from_area 2 2 3", area, "40 0"), words("range_3d_compare 2 2 3", SAMPLES["range_3d"], area), "range_compare 1 1 2 1 1 2",
    ):
        yield line
    yield ""


def random_near(r, path, sizes, greater):
    """Mostly a valid path; one that is greater, if that is asked and found soon."""
    for _ in range(6):
        new = near(r, path, sizes)
        fits = len(new) <= sizes[1] and sum(map(len, new)) <= sizes[2] and all(len(c) <= sizes[0] for c in new)
        if r.random() < 0.05 or fits and (new > path or not greater):
            return new
    return path


def random_case(r, calls, op):
    """Mostly accepted: paths near each other, few numbers, ends above starts, at tiny limits."""
    sizes = r.choice([(2, 2, 3), (1, 2, 2), (2, 1, 2), (1, 3, 3), (3, 2, 3), (0, 2, 0), (2, 2, 2)])
    if r.random() < 0.03:
        sizes = r.choice([(1025, 2, 3), (2, 1025, 3), (2, 2, 4097)])
    line, path, limit, numbers, letters = [op], random_path(r, sizes), iter(sizes), [], form(calls, op)
    for at, letter in enumerate(letters):
        if letter == "l":
            line.append(next(limit))
        elif letter == "k":
            line.append(r.choice([2, TOP]) if r.random() < 0.02 else r.choice([0, 1, 1, 1]))
        elif letter == "b":
            path = random_near(r, path, sizes, letters[at - 1] == "k")
            line.append(random_buffer(r, path) if r.random() < 0.3 else shown(path))
        elif letter == "c":
            line.append(max(0, len(path) + r.choice([-1, -1, 1] + [0] * 30)))
        elif letter == "o":
            # The length that the answer needs, one less, and more.
            needed = int(answer(calls, words(*line, 256)).split()[7])
            line.append(max(0, needed + r.choice([-1, 0, 0, 1, 5])))
        elif letter == "d":
            line.append(digest(r.choice([0, 0, 0x7F, 0x80]), r.choice([0, 1])))
        else:
            number = r.choice([0, 1, 1, 2, 2, 3, 5, TOP - 1, TOP])
            if numbers and r.random() < 0.5:
                number = r.choice(numbers)
            if letters[max(0, at - 2) : at + 1] == "nkv" and r.random() < 0.8:
                number = min(TOP, numbers[-1] + r.randint(0, 4))
            numbers.append(number)
            line.append(number)
    return words(*line)


def randoms(calls, count, seed):
    yield "# random cases at tiny limits"
    r = random.Random(seed)
    for i in range(count):
        yield random_case(r, calls, list(calls)[i % len(calls)])


def parts():
    ranges = [stated_ranges(), number_ranges(), path_ranges(), entries(), refused(RANGES), range_forms(), randoms(RANGES, 315, 4)]
    yield part("ranges", lambda line: answer(RANGES, line), ranges)
    areas_ = [conversions(), areas(), ranges_3d(), refused(AREAS), area_forms(), randoms(AREAS, 336, 5)]
    yield part("areas", lambda line: answer(AREAS, line), areas_)
