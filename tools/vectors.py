"""Cases for the exported calls, and the answers that they must get.

Three parts of what tools/replay.py writes: `reading` (paths read, related, written), `making` (paths made) and `building` (runs of
the builder, and the greatest path). The answers are computed here, from document 01 and from the comments of the calls; nothing of
the core is read or run. The random cases have a fixed seed, so that the files come out the same. In front of them stands the
sample of the Rust original's answers in rust/sample, with which the model has to agree.
"""
import functools
import itertools
import os
import random
import re

NONE, TOP = 255, 2**64 - 1
SMALL = "component_count is_empty length".split()
NUMBERED = "length_of_prefix create_prefix component_length".split()
PAIRED = "compare equal is_prefix_of is_prefixed_by is_related longest_common_prefix".split()
WRITTEN = "write_component write_prefix".split()
LEAST = "successor greater_but_not_prefixed singleton_range".split()


# THE MODEL: what a call answers.
class Refused(Exception):
    pass


def packed(path):
    """The count, the accumulated lengths, the bytes."""
    lengths = [sum(len(c) for c in path[: i + 1]) for i in range(len(path))]
    return b"".join(n.to_bytes(8, "little") for n in [len(path)] + lengths) + b"".join(path)


def accept(limits):
    if any(limit > most for limit, most in zip(limits, (1024, 1024, 4096))):
        raise Refused(1)


def lent(limits, buffer, count):
    """The components of a lent path. The whole buffer is judged, also where the count is below its own."""
    mcl, mcc, mpl = limits
    if len(buffer) < 8:
        raise Refused(5)
    k = int.from_bytes(buffer[:8], "little")
    if k > mcc or len(buffer) < 8 + 8 * k or count > k:
        raise Refused(5)
    ends = [int.from_bytes(buffer[8 + 8 * i : 16 + 8 * i], "little") for i in range(k)]
    starts = [0] + ends[:-1]
    if any(not 0 <= e - s <= mcl for s, e in zip(starts, ends)) or (ends and ends[-1] > mpl):
        raise Refused(5)
    data = buffer[8 + 8 * k :]
    if len(data) != (ends[-1] if ends else 0):
        raise Refused(5)
    return [data[s:e] for s, e in zip(starts, ends)][:count]


def common(a, b):
    n = 0
    while n < min(len(a), len(b)) and a[n] == b[n]:
        n += 1
    return n


def on_path(op, path, x=None):
    """A number, bytes to write, or None where there is no such thing."""
    return {
        "component_count": lambda: len(path),
        "is_empty": lambda: int(not path),
        "length": lambda: sum(map(len, path)),
        "length_of_prefix": lambda: sum(map(len, path[:x])) if x <= len(path) else None,
        "create_prefix": lambda: x if x <= len(path) else None,
        "component_length": lambda: len(path[x]) if x < len(path) else None,
        "write_component": lambda: path[x] if x < len(path) else None,
        "write_prefix": lambda: packed(path[:x]) if x <= len(path) else None,
    }[op]()


def on_paths(op, a, b):
    """Python compares lists and bytes as the Data Model does: unsigned, a proper prefix smaller."""
    return {
        "compare": lambda: 0 if a < b else 1 if a == b else 2,
        "equal": lambda: int(a == b),
        "is_prefix_of": lambda: int(a == b[: len(a)]),
        "is_prefixed_by": lambda: int(b == a[: len(b)]),
        "is_related": lambda: int(common(a, b) == min(len(a), len(b))),
        "longest_common_prefix": lambda: common(a, b),
        "write_longest_common_prefix": lambda: packed(a[: common(a, b)]),
    }[op]()


# PATHS MADE.
def numbers(buffer):
    """The 8-byte numbers that a buffer holds."""
    if len(buffer) % 8:
        raise Refused(6)
    return [int.from_bytes(buffer[i : i + 8], "little") for i in range(0, len(buffer), 8)]


def cut(lengths, data):
    """The slices of these lengths. Python's sums do not wrap."""
    ns = numbers(lengths)
    if sum(ns) != len(data):
        raise Refused(6)
    return [data[sum(ns[:i]) : sum(ns[: i + 1])] for i in range(len(ns))]


def slices(op, args):
    """The components that a call brings, in the order of its arguments behind the path."""
    if op == "new_empty":
        return []
    if op in ("new_singleton", "append"):
        return args[:1]
    if op == "new_from_iter":
        total, *args = args
        if total != sum(numbers(args[0])):
            raise Refused(6)
    return cut(*args[:2])


def fits(limits, path):
    """The path, refused by 7, 8, 9 in this order."""
    mcl, mcc, mpl = limits
    if sum(map(len, path)) > mpl:
        raise Refused(7)
    if len(path) > mcc:
        raise Refused(8)
    if any(len(c) > mcl for c in path):
        raise Refused(9)
    return path


def next_greater(limits, path):
    """By the text: from the last component back, lengthened by a zero byte, or cut after its last byte below ff and that raised."""
    mcl, _, mpl = limits
    for i in reversed(range(len(path))):
        if len(path[i]) < mcl and sum(map(len, path[: i + 1])) < mpl:
            return path[:i] + [path[i] + b"\0"]
        low = path[i].rstrip(b"\xff")
        if low:
            return path[:i] + [low[:-1] + bytes([low[-1] + 1])]
    return None


def successor(limits, path):
    """An empty component behind the path; with no count to spare no valid path is longer, so that it is the next greater one."""
    return path + [b""] if len(path) < limits[1] else next_greater(limits, path)


@functools.lru_cache(maxsize=None)
def valid_paths(limits, letters):
    """Every valid path whose bytes are among the letters, ascending."""
    mcl, mcc, mpl = limits
    components = [bytes(c) for n in range(min(mcl, mpl) + 1) for c in itertools.product(letters, repeat=n)]
    found = paths = [[]]
    for _ in range(mcc):
        paths = [p + [c] for p in paths for c in components if sum(map(len, p)) + len(c) <= mpl]
        found = found + paths
    return sorted(found)


def least_of_all(limits, path, prefixed):
    """By looking at all paths: the least above, among those that the path does not prefix unless `prefixed`.

    Enough are those with bytes 0, a byte of the path or one more than a byte of it: in any other path above, each byte can be
    lowered to the next of these, and it is still above and valid, and as little prefixed.
    """
    data = b"".join(path)
    letters = bytes(sorted({0, *data, *(b + 1 for b in data if b < 255)}))
    above = (q for q in valid_paths(limits, letters) if q > path and (prefixed or q[: len(path)] != path))
    return next(above, None)


def least(op, limits, path):
    prefixed = op != "greater_but_not_prefixed"
    found = (successor if prefixed else next_greater)(limits, path)
    if limits[0] <= 3 and limits[1] <= 3 and limits[2] <= 4 and len(set(b"".join(path))) <= 3:
        assert found == least_of_all(limits, path, prefixed), (op, limits, path)
    return found


def all_bytes_agree(limits):
    """The text's rule against all paths over all bytes, for each of them."""
    paths = valid_paths(limits, bytes(range(256)))
    for i, path in enumerate(paths):
        above = paths[i + 1] if i + 1 < len(paths) else None
        assert successor(limits, path) == above
        j = i + 1
        while j < len(paths) and paths[j][: len(path)] == path:
            j += 1
        assert next_greater(limits, path) == (paths[j] if j < len(paths) else None)


def made(op, limits, args):
    """The path that is made, or None."""
    path, rest = [], args
    if FORMS[op].startswith("bn"):
        path, rest = lent(limits, *args[:2]), args[2:]
    if op in LEAST:
        return least(op, limits, path)
    return fits(limits, path + slices(op, rest))


# THE LINES: how a case is read, and its answer printed.
class Unreadable(Exception):
    pass


def read(form, text):
    """One argument: n a number, b a buffer, o the length of an output buffer, r that of a buffer to keep."""
    if form == "b":
        return read_buffer(text)
    if not re.fullmatch("[0-9]+", text) or int(text) > {"o": 256, "r": 16384}.get(form, TOP):
        raise Unreadable
    return int(text)


def read_buffer(text):
    if re.fullmatch("x([0-9a-f]{2})*", text):
        buffer = bytes.fromhex(text[1:])
    elif re.fullmatch("n[0-9]+(/[0-9]+)*", text):
        ns = [int(n) for n in text[1:].split("/")]
        if max(ns) > TOP:
            raise Unreadable
        buffer = b"".join(n.to_bytes(8, "little") for n in ns)
    elif re.fullmatch(r"p(\(\)|(-|([0-9a-f]{2})+)(/(-|([0-9a-f]{2})+))*)", text):
        parts = [] if text == "p()" else text[1:].split("/")
        buffer = packed([b"" if c == "-" else bytes.fromhex(c) for c in parts])
    else:
        raise Unreadable
    if len(buffer) > 1024:
        raise Unreadable
    return buffer


READING = {"component_test": "b", "test": "bn", "write_longest_common_prefix": "bnbno"}
READING.update((op, "bn") for op in SMALL)
READING.update((op, "bnn") for op in NUMBERED)
READING.update((op, "bnbn") for op in PAIRED)
READING.update((op, "bnno") for op in WRITTEN)
MAKING = {"from_slices": "bbo", "new_from_iter": "nbbo", "new_empty": "o", "new_singleton": "bo", "append": "bnbo", "append_slice": "bnbbo"}
MAKING.update((op, "bno") for op in LEAST)
FORMS = READING | MAKING


def given(found, room):
    """None is given with any room; bytes must fit into it."""
    if found is None:
        return NONE, 0, None
    if not isinstance(found, bytes):
        return 0, found, None
    if len(found) > room:
        raise Refused(15)
    return 0, len(found), found


def ask(op, limits, args):
    """Status and value, and the bytes that are written or None."""
    try:
        accept(limits)
        if op == "component_test":
            return (9 if len(args[0]) > limits[0] else 0), 0, None
        if op in MAKING:
            path = made(op, limits, args[:-1])
            return given(None if path is None else packed(path), args[-1])
        paths = [lent(limits, *args[i : i + 2]) for i in range(0, 4 if FORMS[op][2:4] == "bn" else 2, 2)]
        if op == "test":
            return 0, 0, None
        found = on_paths(op, *paths) if len(paths) == 2 else on_path(op, paths[0], *args[2:3])
        return given(found, args[-1])
    except Refused as refused:
        return refused.args[0], 0, None


def answer(line, forms=FORMS):
    """The line that is printed by a program that knows the calls of `forms`, or None."""
    if len(line) > 4096:
        return "unreadable"
    if line == "" or line[0] == "#":
        return None
    op, *texts = line.split(" ")
    if op not in forms or len(texts) != 3 + len(forms[op]):
        return "unreadable"
    try:
        mcl, mcc, mpl, *args = [read(form, text) for form, text in zip("nnn" + forms[op], texts)]
    except Unreadable:
        return "unreadable"
    status, value, written = ask(op, (mcl, mcc, mpl), args)
    if op in ("test", "component_test"):
        return str(status)
    if FORMS[op][-1] != "o":
        return f"{status} {value}"
    out = written or b""
    return f"{status} {value} " + (out + b"\xee" * (args[-1] - len(out))).hex()


# THE GREATEST PATH, AND THE BUILDER.
ZEROS = (0,) * 6


def greatest(limits):
    """As many components as allowed; each in turn has as many bytes ff as it can."""
    mcl, mcc, mpl = limits
    path = []
    for _ in range(mcc):
        path.append(b"\xff" * min(mcl, mpl - sum(map(len, path))))
    if mcl <= 3 and mcc <= 3 and mpl <= 4:
        assert path == valid_paths(limits, b"\x00\xff")[-1], limits
    return path


def number_at(buffer, at):
    return int.from_bytes(buffer[at : at + 8], "little")


def size(length, count):
    """Of the declared path, packed."""
    return 8 + 8 * count + length


def partial(count, path):
    """The declared count, the lengths of the components that are there, zeros for the lengths to come, the bytes."""
    lengths = packed(path)[8 : 8 + 8 * len(path)]
    return count.to_bytes(8, "little") + lengths + bytes(8 * (count - len(path))) + b"".join(path)


def held(state, buffer):
    """The components in a buffer that is long enough, or None where it disagrees with the counts."""
    mcl, _, _, length, count, appended = state
    if number_at(buffer, 0) != count or appended > count:
        return None
    ends = [number_at(buffer, 8 + 8 * i) for i in range(count)]
    if any(ends[appended:]):
        return None
    parts = list(zip([0] + ends, ends[:appended]))
    if any(not 0 <= end - start <= mcl for start, end in parts) or (parts and parts[-1][1] > length):
        return None
    data = buffer[8 + 8 * count :]
    return [data[start:end] for start, end in parts]


def smallest(*tests):
    """The smallest number that applies, or 0. A test is a number, and whether it applies."""
    return min((n for n, applies in tests if applies), default=0)


def of_limits(limits):
    try:
        accept(limits)
    except Refused:
        return (1, True)
    return (1, False)


def of_declared(state):
    return (7, state[3] > state[2]), (8, state[4] > state[1])


class Host:
    """Keeps a buffer and a state, as part `building` of replay_paths does. A call gives the numbers that are printed before the buffer."""

    forms = {"room": "r", "buffer": "b", "state": "nnnnnn", "new": "nnnnn", "new_from_prefix": "nnnnnbnn", "append_component": "b"}
    forms.update({"build": "", "new_max": "nnn"})

    def __init__(self):
        self.buffer, self.state = b"", ZEROS

    def write(self, data):
        self.buffer = data + self.buffer[len(data) :]

    def room(self, n):
        self.buffer = b"\xee" * n

    def keep_buffer(self, buffer):
        self.buffer = buffer

    def keep_state(self, *state):
        self.state = state

    def start(self, status, state, path):
        self.state = ZEROS if status else state
        if not status:
            self.write(partial(state[4], path))
        return (status, *self.state)

    def new(self, mcl, mcc, mpl, length, count):
        state = (mcl, mcc, mpl, length, count, 0)
        short = len(self.buffer) < size(length, count)
        return self.start(smallest(of_limits(state[:3]), *of_declared(state), (15, short)), state, [])

    def new_from_prefix(self, mcl, mcc, mpl, length, count, reference, k, n):
        state = (mcl, mcc, mpl, length, count, n)
        try:
            path, bad = lent(state[:3], reference, k)[:n], False
        except Refused:
            path, bad = [], True
        over = n > count or sum(map(len, path)) > length
        short = len(self.buffer) < size(length, count)
        status = smallest(of_limits(state[:3]), (5, bad), *of_declared(state), (10, n > k), (11, over), (15, short))
        return self.start(status, state, path)

    def look(self):
        """The components in the buffer, or None where it cannot be read; and the tests of every call with a state."""
        long = len(self.buffer) >= size(*self.state[3:5])
        path = held(self.state, self.buffer) if long else None
        return path, [of_limits(self.state[:3]), (5, long and path is None), *of_declared(self.state), (15, not long)]

    def append_component(self, c):
        mcl, _, _, length, count, appended = self.state
        path, tests = self.look()
        over = appended + 1 > count or sum(map(len, path or [])) + len(c) > length
        status = smallest(*tests, (9, len(c) > mcl), (11, over))
        if not status:
            self.write(partial(count, path + [c]))
            self.state = (*self.state[:5], appended + 1)
        return (status, *self.state)

    def build(self):
        *limits, length, count, appended = self.state
        path, tests = self.look()
        # Where the buffer cannot be read, bytes are certainly missing only if nothing is appended.
        missing = length > 0 and appended == 0 if path is None else sum(map(len, path)) < length
        status = smallest(*tests, (12, appended < count or missing))
        if status:
            return (status, 0, *self.state)
        # What stands in the buffer is the packed path, as the text says which is well formed.
        assert lent(limits, self.buffer[: size(length, count)], count) == path
        self.state = ZEROS
        return (0, size(length, count), *self.state)

    def new_max(self, *limits):
        found = packed(greatest(limits)) if not of_limits(limits)[1] else b""
        status = smallest(of_limits(limits), (15, len(found) > len(self.buffer)))
        if status:
            return (status, 0)
        self.write(found)
        return (0, len(found))

    def answer(self, line):
        """The line that is printed, or None."""
        if len(line) > 4096:
            return "unreadable"
        if line == "" or line[0] == "#":
            return None
        op, *texts = line.split(" ")
        if op not in self.forms or len(texts) != len(self.forms[op]):
            return "unreadable"
        try:
            args = [read(form, text) for form, text in zip(self.forms[op], texts)]
        except Unreadable:
            return "unreadable"
        if op in ("room", "buffer", "state"):
            {"room": self.room, "buffer": self.keep_buffer, "state": self.keep_state}[op](*args)
            return None
        return " ".join(map(str, getattr(self, op)(*args))) + " " + self.buffer.hex()


# THE CASES.
def shown(path):
    return "p" + ("/".join(c.hex() or "-" for c in path) if path else "()")


def raw(*numbers, data=b""):
    """A buffer of 8-byte numbers and bytes, well formed or not."""
    return "x" + (b"".join(n.to_bytes(8, "little") for n in numbers) + data).hex()


def counted(text):
    """A path with its own count beside it."""
    return f"p{text} {0 if text == '()' else text.count('/') + 1}"


def orders():
    yield "# order, prefixes and relation"
    pairs = "01 0100,01 01/-,0100 01/00,() -,01 01,01/02 01/03,- -/-,01/02/03 02/02"
    for a, b in (pair.split() for pair in pairs.split(",")):
        for op in PAIRED:
            yield f"{op} 4 4 16 {counted(a)} {counted(b)}"
        for op in ("compare", "is_related"):
            yield f"{op} 4 4 16 {counted(b)} {counted(a)}"
    for a, b in (pair.split() for pair in "7f 80,7fff 80,00ff 01,01/- 01/00,() (),ff/00 ff/00/-".split(",")):
        yield f"compare 4 4 16 {counted(a)} {counted(b)}"
        yield f"compare 4 4 16 {counted(b)} {counted(a)}"


def counts():
    yield "# a count below the buffer's own, and above it"
    for count in (0, 2, 3, 4, TOP):
        for op in ["test"] + SMALL:
            yield f"{op} 2 3 4 p0102/-/03 {count}"
    for op in NUMBERED:
        for x in (0, 1, 2, 3, TOP):
            yield f"{op} 2 3 4 p0102/-/03 2 {x}"
        yield f"{op} 2 3 4 p0102/-/03 4 0"
    for op in PAIRED:
        yield f"{op} 2 3 4 p01/02/03 1 p01/04 1"
        yield f"{op} 2 3 4 p01/02/03 2 p01/02 2"
        yield f"{op} 2 3 4 p01/02 3 p01/02 2"
        yield f"{op} 2 3 4 p01/02 2 p01/02 3"


def limits():
    yield "# limits at their bounds, past them, and zero"
    for sizes in ("1024 1024 4096", "1025 1024 4096", "1024 1025 4096", "1024 1024 4097", f"{TOP} 0 0", f"0 {TOP} 0", f"0 0 {TOP}"):
        yield f"test {sizes} p01 1"
        yield f"component_test {sizes} x01"
    for sizes in ("0 0 0", "0 1 0", "1 0 1", "1 1 0", "0 2 2", "2 0 2", "2 2 0"):
        for path in ("()", "-", "-/-", "01"):
            yield f"test {sizes} {counted(path)}"
        yield f"component_test {sizes} x"
        yield f"component_test {sizes} x01"
    for path in ("0102", "010203", "01/02", "0102/03", "0102/0304", "01/02/03"):
        yield f"test 2 2 3 {counted(path)}"
    yield "write_prefix 0 0 0 p() 0 0 8"
    yield "compare 1024 1024 4097 p01 1 p02 1"
    yield "component_test 2 2 1 x0102"
    yield "component_test 2 2 1 x010203"


def malformed():
    yield "# buffers that are no path"
    buffers = [
        "x", "x00", raw(0)[:-2], raw(0) + "00", raw(1), raw(TOP), raw(2**63), raw(2**61), raw(2**61 - 1), raw(2), raw(1, 0) + "00",
        raw(2, 2, 1, data=b"\1\2"), raw(2, 2, 1, data=b"\1"), raw(2, 0, TOP), raw(1, TOP), raw(1, 3, data=b"\1\2\3"),
        raw(2, 1, 4, data=b"\1\2\3\4"), raw(3, 2, 4, 5, data=b"\1\2\3\4\5"), raw(4, 0, 0, 0, 0), raw(1, 1), raw(1, 1, data=b"\1\2"),
        raw(2, 1, 2, data=b"\1"), raw(2, 1, 2, data=b"\1\2\3"), raw(1, 256, data=b"\1"), raw(2, 1)[:-2], raw(1, 1, data=b"\1")[:-2],
    ]
    for buffer in buffers + [raw(0), raw(1, 1, data=b"\1"), raw(3, 2, 4, 4, data=b"\1\2\3\4")]:
        yield f"test 2 3 4 {buffer} 0"
    for buffer in ("x", raw(TOP), raw(2, 2, 1, data=b"\1")):
        for op in SMALL:
            yield f"{op} 2 3 4 {buffer} 0"
        yield f"compare 2 3 4 {buffer} 0 p01 1"
        yield f"compare 2 3 4 p01 1 {buffer} 0"


def refusals():
    yield "# the smallest refusal"
    for sizes, path in (("1025 3 4", "x 0"), ("1025 3 4", "p01 1"), ("2 3 4", "x 0"), ("2 3 4", "p01 2")):
        yield f"test {sizes} {path}"
        yield f"length_of_prefix {sizes} {path} 9"
        yield f"equal {sizes} {path} p01 1"
        yield f"write_component {sizes} {path} 0 0"
        yield f"write_component {sizes} {path} 9 0"
        yield f"write_prefix {sizes} {path} 1 2"
        yield f"write_longest_common_prefix {sizes} p01 1 {path} 3"
    yield "component_test 1025 3 4 x" + "00" * 1024
    yield "component_test 1023 3 4 x" + "00" * 1024


def written():
    yield "# what is written, one byte too short, and what stands behind"
    for i in (0, 1, 2, 3, TOP):
        for room in (0, 1, 2, 3):
            yield f"write_component 3 3 4 p010203/-/ff 3 {i} {room}"
    for n, size in ((0, 8), (1, 19), (2, 27), (3, 36), (4, 0), (TOP, 1)):
        for room in sorted({0, max(size, 1) - 1, size, size + 2}):
            yield f"write_prefix 3 3 4 p010203/-/ff 3 {n} {room}"
    for a, b, size in (("01/02", "01/03", 17), ("01/-", "01/-/05", 25), ("01", "0100", 8), ("()", "01", 8)):
        for room in (0, size - 1, size, size + 1):
            yield f"write_longest_common_prefix 2 3 4 {counted(a)} {counted(b)} {room}"
    yield "write_component 3 3 4 p010203/-/ff 1 1 4"
    yield "write_prefix 3 3 4 p010203/-/ff 2 2 30"
    for room in (255, 256):
        yield f"write_component 1024 3 4096 p{'5a' * 256} 1 0 {room}"


def forms():
    yield "# the edges of the lines themselves"
    whole = "equal 1024 1024 4096 p%s 1 p%s %%s1" % ("ab" * 1008, "ab" * 1000)
    yield whole % ("0" * (4096 - len(whole % "")))
    yield whole % ("0" * (4097 - len(whole % "")))
    yield "#" * 4096
    for text in ("p" + "ab" * 1008, "p" + "ab" * 1009, "p" + "/".join("-" * 127), "p" + "/".join("-" * 128)):
        yield f"component_count 1024 1024 4096 {text} 1"
    yield "component_test 1024 0 0 x" + "00" * 1024
    yield "component_test 1024 0 0 x" + "00" * 1025
    yield f"test 2 2 4 p01 {TOP + 1}"
    yield "test 002 2 4 p01 0001"
    for line in (
        "test", " test 2 2 4 p01 1", "test 2 2 4 p01 1 ", "test 2 2  4 p01 1", "test 2 2 4 p01", "test 2 2 4 p01 1 1", "tests 2 2 4 p01 1",
        "tes 2 2 4 p01 1", "TEST 2 2 4 p01 1", "test 2 2 4 01 1", "test 2 2 4 p 1", "test 2 2 4 p01/ 1", "test 2 2 4 p/01 1", "test 2 2 4 p01//02 1",
        "test 2 2 4 p0 1", "test 2 2 4 pAB 1", "test 2 2 4 p0g 1", "test 2 2 4 p--/01 1", "test 2 2 4 p()/01 1", "test 2 2 4 x0 1", "test 2 2 4 x-- 1",
        "test 2 2 4 x() 1", "test -2 2 4 p01 1", "test 2 2 4 p01 1a", "test 2 2 4 p01 \t", "component_test 2 2 4", "length is_empty 2 2 4 p01 1",
        "write_component 2 2 4 p01 1 0 257", "write_component 2 2 4 p01 1 0", "write_component 2 2 4 p01 1 0 x", "component_count is_empty",
    ):
        yield line
    yield ""


def random_path(r, sizes):
    def component():
        return bytes(r.choice([0, 1, 0x7F, 0x80, 0xFF]) for _ in range(r.randint(0, min(sizes[0], 4))))

    return fitted(r, [component() for _ in range(r.randint(0, min(sizes[1], 4)))], sizes)


def near(r, path, sizes):
    """A path that has much in common with another: equal, cut, longer, or with one component changed."""
    path, way = list(path), r.randrange(5)
    at = r.randrange(len(path)) if path else 0
    if way == 1:
        path = path[:at]
    elif way == 2 or not path:
        path.append(r.choice([b"", b"\0", b"\xff"]))
    elif way == 3:
        path[at] += r.choice([b"\0", b"\x7f", b"\x80"])
    elif way == 4:
        path[at] = path[at][:-1] + r.choice([b"", b"\x7f", b"\x80"])
    return fitted(r, path, sizes)


def fitted(r, path, sizes):
    """Mostly cut to the limits."""
    if r.random() < 0.1:
        return path
    path = [c[: sizes[0]] for c in path[: sizes[1]]]
    while sum(map(len, path)) > sizes[2]:
        path.pop()
    return path


def random_buffer(r, path):
    """Mostly the packed path, sometimes with something wrong."""
    buffer, way = bytearray(packed(path)), r.randrange(30)
    if way == 0:
        at = r.randrange(len(buffer))
        buffer[at] = (buffer[at] + 1) % 256
    elif way == 1:
        buffer[8 * r.randrange(len(path) + 1) + r.choice([0, 0, 1, 7])] ^= r.choice([1, 3, 128])
    elif way == 2:
        del buffer[r.randrange(len(buffer)) :]
    elif way == 3:
        buffer += b"\0"
    return "x" + buffer.hex() if way < 15 else shown(path)


def randoms(count):
    yield "# random cases near the limits"
    r = random.Random(1)
    sets = [(2, 2, 4), (2, 2, 3), (1, 3, 3), (3, 2, 3), (4, 4, 8), (0, 2, 0), (2, 1, 3), (2, 2, 0), (1024, 1024, 4096)]
    for _ in range(count):
        sizes, op = r.choice(sets), r.choice([op for op in READING if op != "component_test"])
        path = random_path(r, sizes)
        words = [op, *sizes]
        for i, form in enumerate(FORMS[op]):
            if form == "b":
                path = near(r, path, sizes) if i else path
                words.append(random_buffer(r, path))
            elif form == "n":
                words.append(r.randint(0, len(path) + 1) if i == 2 else max(0, len(path) + r.choice([-1, -1, 1] + [0] * 12)))
            else:
                # The length that the answer needs, one less, and more.
                needed = int(answer(" ".join(map(str, words + [256]))).split()[1])
                words.append(max(0, needed + r.choice([-1, 0, 0, 1, 5])))
        yield " ".join(map(str, words))


# CASES OF PATHS MADE.
def roomy(line):
    """With no room, one byte too little, exactly enough, and more."""
    needed = int(answer(f"{line} 256").split()[1])
    for room in sorted({0, max(needed, 1) - 1, needed, needed + 3}):
        yield f"{line} {room}"


def stated():
    """The cases of document 01, with the answers that stand there: a path, a refusal, or None."""
    yield "# the cases of document 01"
    cases = [
        ("successor 2 1 2 p01ff 1", "02"), ("successor 2 2 3 p() 0", "-"), ("successor 2 2 3 p01 1", "01/-"),
        ("greater_but_not_prefixed 3 2 3 p01ff/ff 2", "01ff00"), ("greater_but_not_prefixed 2 2 2 pffff/- 2", None),
        ("greater_but_not_prefixed 2 2 3 p01 1", "0100"), ("greater_but_not_prefixed 2 2 3 p() 0", None),
        ("from_slices 2 1 3 n2/2 x01020304", 7), ("from_slices 2 1 3 n1/1 x0102", 8), ("from_slices 2 1 3 n3 x010203", 9),
        ("new_from_iter 2 1 3 4 n2/2 x01020304", 7), ("new_from_iter 2 1 3 2 n1/1 x0102", 8),
        ("new_empty 0 0 4096", "()"), ("new_empty 0 0 4097", 1), ("new_singleton 1 1 4096 x01", "01"), ("new_singleton 1 1 4097 x01", 1),
    ]
    for line, found in cases:
        if found is None or isinstance(found, int):
            assert answer(f"{line} 64") == f"{NONE if found is None else found} 0 " + "ee" * 64, line
        else:
            buffer = read_buffer("p" + found)
            assert answer(f"{line} 64") == f"0 {len(buffer)} " + (buffer + b"\xee" * (64 - len(buffer))).hex(), line
        yield from roomy(line)
    for path in ("01ff", "()", "01", "01ff/ff", "ffff/-"):
        for op in LEAST:
            yield f"{op} 4 2 5 {counted(path)} 64"


def bounds():
    yield "# limits at their bounds, past them, and zero"
    sizes = ["1024 1024 4096", "1025 1024 4096", "1024 1025 4096", "1024 1024 4097", f"{TOP} 0 0", f"0 {TOP} 0", f"0 0 {TOP}"]
    for limits in sizes + ["0 0 0", "0 1 0", "1 0 1", "1 1 0", "1 1 1"]:
        for call, rest in (
            ("from_slices", "n1 x01"), ("new_from_iter", "1 n1 x01"), ("new_empty", ""), ("new_singleton", "x01"), ("new_singleton", "x"),
            ("append", "p() 0 x01"), ("append_slice", "p() 0 n1 x01"), ("successor", "p() 0"), ("greater_but_not_prefixed", "p- 1"),
            ("singleton_range", "p() 0"),
        ):
            yield " ".join([call, limits, *rest.split(), "32"])


def lengths():
    yield "# lengths that are no numbers, that do not add up, and whose sum would wrap"
    buffers = ["x", "x00", raw(1)[:-2], raw(1) + "00", raw(1, 0)[:-2], "n0", "n1", "n2", "n0/0", "n1/0", "n0/1", "n1/1", "n256", "n257"]
    for buffer in buffers + [f"n{TOP}", f"n{TOP}/1", f"n{TOP}/2", f"n{2**63}/{2**63}", f"n{2**63}/{2**63}/1", f"n1/{TOP}/1"]:
        for data in ("x", "x01"):
            yield f"from_slices 2 3 4 {buffer} {data} 48"
            yield f"append_slice 2 3 4 p02 1 {buffer} {data} 48"
    for total in (0, 1, 2, 257, TOP):
        for buffer, data in (("x", "x"), ("n1", "x01"), ("n1/1", "x0102"), ("n1", "x0102"), ("n2", "x01"), (f"n{TOP}/2", "x01"), ("x01", "x01")):
            yield f"new_from_iter 2 3 4 {total} {buffer} {data} 48"


def sizes():
    yield "# sizes at their limits and past them, and the smallest of several refusals"
    for ns in ([], [0], [2, 1], [1, 2], [2, 2], [1, 1, 1], [3], [3, 1], [0, 0], [0, 0, 0], [0, 0, 3], [1, 1, 1, 1], [2, 1, 0], [0, 3], [4]):
        buffer, data = "n" + "/".join(map(str, ns)) if ns else "x", "x" + bytes(range(1, sum(ns) + 1)).hex()
        yield f"from_slices 2 2 3 {buffer} {data} 48"
        yield f"new_from_iter 2 2 3 {sum(ns)} {buffer} {data} 48"
        yield f"append_slice 2 2 3 p() 0 {buffer} {data} 48"
        yield f"append_slice 2 3 4 p05 1 {buffer} {data} 48"
        yield f"append_slice 2 3 5 p05/0607 2 {buffer} {data} 48"
    for data in ("x", "x01", "x0102", "x010203", "x01020304"):
        for limits in ("2 1 2", "2 1 1", "2 0 2", "1 1 2", "2 0 1", "1 0 2", "1 0 1", "0 1 0", "3 1 3"):
            yield f"new_singleton {limits} {data} 24"
        for path in ("()", "05", "0506", "05/06", "05/-", "0506/07"):
            yield f"append 2 2 3 {counted(path)} {data} 48"
    for limits, path in (("1025 2 3", "x 0"), ("2 2 3", "x 0"), ("2 2 3", "p01 2"), ("2 2 3", raw(1, 2, data=b"\1") + " 0")):
        yield f"append {limits} {path} x01020304 0"
        yield f"append_slice {limits} {path} x00 x 0"
        for op in LEAST:
            yield f"{op} {limits} {path} 0"
    yield "from_slices 2 2 3 x00 x01020304 0"
    yield "from_slices 1025 2 3 x00 x01020304 0"
    yield "new_from_iter 1025 2 3 9 n1 x01 0"
    yield "new_from_iter 2 2 3 9 n4 x01020304 0"


def rooms():
    yield "# what is written, one byte too short, and what stands behind; none with any room"
    for line in (
        "new_empty 2 2 3", "new_singleton 2 2 3 x", "new_singleton 2 2 3 x0102", "from_slices 2 2 3 x x", "from_slices 2 2 3 n0/2 x0102",
        "from_slices 2 3 4 n2/0/1 x010203", "new_from_iter 2 3 4 3 n1/2 x010203", "append 2 3 4 p0102/- 2 x03", "append 2 3 4 p() 0 x",
        "append_slice 2 3 4 p01 1 n0/2 x0203", "append_slice 2 3 4 p01/02 2 x x", "successor 2 3 4 p01/02 2", "successor 2 2 4 p01/02 2",
        "successor 2 2 4 p01ff/ffff 2", "successor 2 2 4 pffff/ffff 2", "greater_but_not_prefixed 2 2 4 p01/02ff 2",
        "greater_but_not_prefixed 2 2 4 p01ff/ffff 2", "greater_but_not_prefixed 2 2 4 p() 0", "greater_but_not_prefixed 0 2 0 p-/- 2",
        "singleton_range 2 3 4 p01 1", "singleton_range 1 1 1 pff 1", "singleton_range 1 1 1 p0a 1", "singleton_range 0 0 0 p() 0",
    ):
        yield from roomy(line)
    for call in ("new_singleton 1024 1 4096 x%s", "append 1024 1 4096 p() 0 x%s", "from_slices 1024 1 4096 n240 x%s", "new_from_iter 1024 1 4096 240 n240 x%s"):
        for room in (255, 256):
            yield call % ("5a" * 240) + f" {room}"
    for room in (255, 256):
        yield f"greater_but_not_prefixed 1024 1 4096 p{'5a' * 239} 1 {room}"
        yield f"successor 239 2 4096 p{'5a' * 232} 1 {room}"


def counted_below():
    yield "# a count below the buffer's own, and above it"
    for count in (0, 1, 2, 3, 4, TOP):
        path = f"p0102/-/03 {count}"
        yield f"append 2 3 4 {path} x04 64"
        yield f"append_slice 2 4 5 {path} n1/0 x04 64"
        for op in LEAST:
            yield f"{op} 2 3 4 {path} 64"
            yield f"{op} 2 4 4 {path} 64"


def broken():
    yield "# buffers that are no path"
    buffers = ["x", raw(0)[:-2], raw(0) + "00", raw(1), raw(TOP), raw(2**61), raw(2, 2, 1, data=b"\1\2"), raw(1, TOP), raw(1, 3, data=b"\1\2\3"), raw(4, 0, 0, 0, 0)]
    for buffer in buffers + [raw(3, 2, 4, 5, data=b"\1\2\3\4\5"), raw(1, 1, data=b"\1\2"), raw(1, 1)]:
        for call, rest in (("append", "x"), ("append_slice", "x x"), ("successor", ""), ("greater_but_not_prefixed", ""), ("singleton_range", "")):
            yield " ".join([call, "2 3 4", buffer, "0", *rest.split(), "24"])


def leasts():
    yield "# every path with bytes 00 and ff at small limits"
    for limits in ((2, 2, 3), (1, 2, 2), (2, 1, 2), (2, 2, 1), (3, 1, 2), (0, 2, 0)):
        for path in valid_paths(limits, b"\x00\xff"):
            for op in LEAST[:2]:
                yield " ".join(map(str, [op, *limits, shown(path), len(path), 40]))


def made_forms():
    yield "# the edges of the lines themselves"
    for line in (
        "new_empty", "new_empty 1 1 1", "new_empty 1 1 1 8 8", "new_empty 1 1 1 257", "new_empty 1 1 1 x", "new_singleton 1 1 1 8", "new_singleton 1 1 1 01 20",
        "from_slices 2 2 2 n x 20", "from_slices 2 2 2 n/ x 20", "from_slices 2 2 2 n1/ x01 20", "from_slices 2 2 2 n/1 x01 20", "from_slices 2 2 2 n1//1 x01 20",
        "from_slices 2 2 2 n1a x01 20", f"from_slices 2 2 2 n{TOP + 1} x01 20", "from_slices 2 2 2 n-1 x01 20", "from_slices 2 2 2 n01 x01 20",
        "new_from_iter 2 2 2 n1 x01 20", "append 2 2 2 p01 1 20", "append_slice 2 2 2 p01 1 n1 x01", "successor 2 2 2 p01 20", "successors 2 2 2 p01 1 20",
        "test 2 2 4 p01 1", "length 2 2 4 p01 1", "successor greater_but_not_prefixed 2 2 p01 1 20", "append 2 2 2 x 0 p01 20", "new_singleton 8 1 8 n7 24",
        "new_singleton 16 1 16 p() 24", "from_slices 2 128 2 n%s x 20" % "/".join("0" * 128), "from_slices 2 128 2 n%s x 20" % "/".join("0" * 129),
    ):
        yield line
    yield ""


def randoms_made(count):
    yield "# random cases near the limits"
    r = random.Random(2)
    sets = [(2, 2, 4), (2, 2, 3), (1, 3, 3), (3, 2, 3), (4, 4, 8), (0, 2, 0), (2, 1, 3), (2, 2, 0), (3, 3, 4), (1024, 1024, 4096)]
    for _ in range(count):
        limits, op = r.choice(sets), r.choice(list(MAKING))
        words, path = [op, *limits], random_path(r, limits)
        if op not in LEAST:
            path = path[: r.randint(0, len(path))]
        if FORMS[op].startswith("bn"):
            words += [random_buffer(r, path), max(0, len(path) + r.choice([-1, -1, 1] + [0] * 12))]
        new = random_path(r, limits) if r.random() < 0.8 else [b"\1\2", b"\3"]
        ns, data = [len(c) for c in new], b"".join(new)
        if r.random() < 0.15 and ns:
            ns[r.randrange(len(ns))] += r.choice([1, 2, TOP - 8])
        buffer = "n" + "/".join(map(str, ns)) if ns else "x"
        if r.random() < 0.1:
            buffer = (raw(*ns) + "00" * 8)[: 1 + 2 * r.randint(0, 8 * len(ns) + 8)]
        if op == "new_from_iter":
            words.append(max(0, len(data) + r.choice([0] * 8 + [-1, 1])))
        if op in ("new_singleton", "append"):
            words.append("x" + (new + [b"", b"\xff"])[0].hex())
        elif op not in LEAST and op != "new_empty":
            words += [buffer, "x" + data.hex()]
        # The length that the answer needs, one less, and more.
        needed = int(answer(" ".join(map(str, words + [256]))).split()[1])
        words.append(max(0, needed + r.choice([-1, 0, 0, 1, 5])))
        yield " ".join(map(str, words))


# RUNS OF THE BUILDER, AND THE GREATEST PATH.
def words(*parts):
    return " ".join(map(str, parts))


def hexed(data):
    return "x" + data.hex()


def greatest_paths():
    yield "# the greatest path: the cases of document 01"
    for limits, text in (((4, 2, 6), "ffffffff/ffff"), ((1, 2, 5), "ff/ff")):
        found = read_buffer("p" + text)
        assert packed(greatest(limits)) == found
        for room in (0, 7, 8, len(found) - 1, len(found), len(found) + 3):
            yield words("room", room)
            yield words("new_max", *limits)
    yield "# at every small limit, zeros among them"
    for limits in itertools.product(range(4), range(4), (0, 1, 2, 3, 4, 9)):
        room = len(packed(greatest(limits)))
        yield words("room", room + (sum(limits) % 2))
        yield words("new_max", *limits)
        if sum(limits) % 5 == 0:
            yield words("room", room - 1)
            yield words("new_max", *limits)
    yield "# at the largest limits, and past them"
    for room in (12295, 12296):
        yield words("room", room)
        yield "new_max 1024 1024 4096"
    for limits, room in (("1024 4 4096", 4136), ("1024 1 4096", 1040), ("0 64 4096", 520), ("1024 0 4096", 8), ("1024 0 4096", 7), ("1024 64 0", 520)):
        yield words("room", room)
        yield words("new_max", limits)
    for room in (0, 24):
        for limits in ("1025 1 1", "1 1025 1", "1 1 4097", f"{TOP} 1 1", f"1 {TOP} 1", f"1 1 {TOP}", f"{TOP} {TOP} {TOP}", "1024 1024 4096"):
            yield words("room", room)
            yield words("new_max", limits)


def run(limits, path, room, start="new", reference=None, k=0, n=0):
    """The path, built; then a build with the zeros that stand for no state."""
    declared = (*limits, sum(map(len, path)), len(path))
    yield words("room", room)
    if start == "new":
        yield words("new", *declared)
    else:
        yield words("new_from_prefix", *declared, shown(reference), k, n)
    for c in path[n:]:
        yield words("append_component", hexed(c))
    yield "build"
    yield "build"


def whole_runs():
    """Each ends, before the second build, with the packed path at the front of the buffer, and all behind it as it was."""
    paths = [
        ((2, 3, 4), [b"\1", b"\2\3", b""]), ((2, 2, 3), [b"\xff\xff", b"\0"]), ((3, 4, 5), [b"", b"", b"\1\2\3"]), ((2, 3, 4), []), ((0, 2, 0), [b"", b""]),
        ((0, 0, 0), []), ((5, 1, 5), [b"\1\2\3\4\5"]), ((1024, 1024, 4096), [b"\x11", b"", b"\x22\x33"]),
    ]
    yield "# whole runs"
    for limits, path in paths:
        for more in (0, 2):
            yield from checked_run(path, run(limits, path, len(packed(path)) + more))
    yield "# whole runs from a prefix of a reference, with a count below the reference's own too"
    for limits, path in paths:
        for n in range(len(path) + 1):
            tail = [b""] * min(1, limits[1] - n)
            for reference, k in ((path, len(path)), (path[:n] + tail, n), (path, n)):
                yield from checked_run(path, run(limits, path, len(packed(path)) + 1, "prefix", reference, k, n))
    yield "# a component and a path of the largest limits"
    for lines in (run((1024, 1024, 4096), [b"\x5a" * 1024], 1040), ["room 12296", "new 1024 1024 4096 4096 1024"]):
        yield from lines


def checked_run(path, lines):
    host, lines = Host(), list(lines)
    given = [host.answer(line) for line in lines]
    room, found = int(lines[0].split()[1]), packed(path)
    assert given[-2] == words(0, len(found), *ZEROS, (found + b"\xee" * (room - len(found))).hex()), lines
    return lines


def starts():
    yield "# each refusal of a start at its edge, and with others: the smallest is given"
    for limits, length, count, less in itertools.product(("2 2 4", "1025 2 4"), (4, 5), (2, 3), (0, 1)):
        yield words("room", size(length, count) - less)
        yield words("new", limits, length, count)
    for limits in ("1024 1025 4096", "1024 1024 4097", f"{TOP} 0 0", f"0 {TOP} 0", f"0 0 {TOP}", "0 0 0", "0 1 0", "1 0 1", "1 1 0"):
        yield "room 17"
        yield words("new", limits, 0, 0)
        yield words("new", limits, 1, 1)
        yield words("new", limits, 1, 0)
        yield words("new", limits, 0, 1)
        yield words("new_from_prefix", limits, 0, 0, "p()", 0, 0)
        yield words("new_from_prefix", limits, 0, 1, "p-", 1, 1)
    sets = (("2 2 4", "1025 2 4"), ("p01/0203 2", "p01/0203 3", "p01/020304 2"), (3, 5, 2, 0), (2, 3, 1), (0, 1, 2, 3), (0, 1))
    for limits, reference, length, count, n, less in itertools.product(*sets):
        if limits == "2 2 4" or n == 2:
            yield words("room", size(length, count) - less)
            yield words("new_from_prefix", limits, length, count, reference, n)
    for k, n in ((0, 0), (0, 1), (1, 1), (1, 2), (2, 2), (2, 3), (2, TOP), (TOP, TOP), (TOP, 0), (3, 3)):
        yield "room 40"
        yield words("new_from_prefix", "2 3 5 5 3 p01/0203", k, n)


def kept(state, buffer, call):
    yield words("state", *state)
    yield words("buffer", hexed(buffer))
    yield call


def calls_at_their_edges():
    """The component 01 is appended, in a buffer as long as declared or a byte shorter, sound or with another count."""
    yield "# each refusal of an append and of a build at its edge, and with others: the smallest is given"
    for mcl, wrong, length, count, less in itertools.product((2, 1025), (0, 1), (1, 3, 4, 5), (1, 2, 3), (0, 1)):
        state = (mcl, 2, 4, length, count, 1)
        buffer = (partial(count, [b"\1"]) + b"\xee" * 4)[: size(length, count) - less]
        buffer = bytes([buffer[0] + wrong]) + buffer[1:]
        for call in ("append_component x0203", "append_component x020304", "append_component x", "build"):
            if mcl == 2 or call == "build" or length == 5:
                yield from kept(state, buffer, call)
    yield "# nothing appended, and all"
    for path, length, count in itertools.product(([], [b""], [b"\1\2"], [b"\1", b"\2"]), (0, 1, 2), (0, 1, 2)):
        if len(path) <= count:
            for room in {0, 7, 8, size(length, count) - 1, size(length, count)}:
                state, buffer = (2, 2, 2, length, count, len(path)), (partial(count, path) + b"\xee" * 4)[:room]
                yield from kept(state, buffer, "build")
                for c in ("x", "x0405") if room > 8 else ("x040506",):
                    yield from kept(state, buffer, f"append_component {c}")
    for c in ("x", "x04", "x0405", "x040506"):
        yield from kept((2, 3, 6, 1, 3, 1), partial(3, [b""])[:20], f"append_component {c}")


def damaged():
    """A run is stopped, and something else changes the state or the buffer."""
    yield "# a buffer that was changed: each byte of its table, and a byte of a component, which is free"
    path = [b"\1", b"\2\3", b"\4\5"]
    for done in (2, 3):
        state, sound = (2, 4, 6, 5, 3, done), partial(3, path[:done]).ljust(size(5, 3) + 1, b"\xee")
        call = "append_component x0405" if done == 2 else "build"
        for at in [i for i in range(32) if i % 8 in (0, 1, 7)] + [32, 34, 36, 37]:
            yield from kept(state, sound[:at] + bytes([sound[at] ^ 1]) + sound[at + 1 :], call)
        for ends in ((1, 3, 4), (1, 3, 5), (1, 3, 6), (2, 3, 5), (3, 3, 5), (2, 1, 3), (1, 4, 5), (0, 0, 0), (0, 2, 4), (1, TOP, 5), (1, 3, 0), (1, 0, 2), (2**63, 3, 5)):
            table = b"".join(n.to_bytes(8, "little") for n in (3, *ends[:done], *[0] * (3 - done)))
            yield from kept(state, table + sound[32:], call)
            yield from kept(state, table + sound[32:36], call)
        for length in (0, 7, 8, 16, 31, 32, 36, 37, 38):
            yield from kept(state, sound[:length], call)
            yield from kept(state, sound[:length], "build")
        yield f"# a state that was changed, {done} of 3 appended"
        for i, value in itertools.product(range(6), (-1, 1, 0, TOP, 1024, 2**61)):
            number = value if value not in (-1, 1) else state[i] + value
            yield from kept((*state[:i], number, *state[i + 1 :]), sound, call)
            if i > 2:
                yield from kept((*state[:i], number, *state[i + 1 :]), sound, "build" if done == 2 else "append_component x")
    yield "# declared sizes whose sum would wrap"
    for length, count in ((TOP, 2**61 - 1), (TOP - 7, 0), (0, 2**61 - 1), (0, 2**61), (8, 2**61), (TOP, TOP), (0, 2**60)):
        for call in ("append_component x01", "build", words("new 2 2 4", length, count), words("new_from_prefix 2 2 4", length, count, "p01 1 1")):
            yield from kept((2, 2, 4, length, count, 1), bytes(24), call)
    yield "# a refused start leaves no state, and a refused append and a build the one that was there"
    yield from ("room 40", "new 2 2 4 5 2", "append_component x01", "build", "room 28", "new 2 2 4 4 2", "append_component x010203", "build")
    yield from ("append_component x0102", "append_component x030405", "append_component x030405", "append_component x03", "build")
    yield from ("append_component x", "room 27", "build", "append_component x", "new 2 2 4 4 2", "append_component x01", "build")


def host_forms():
    yield "# the edges of the lines themselves: what is kept stays"
    yield from ("room 25", "new 2 2 4 1 2", "append_component x01")
    for line in (
        "room", "room 16385", "room x", "room 1 1", "room -1", "buffer", "buffer 01", "buffer x0", "buffer x01 x", "buffer x" + "00" * 1025, "buffer x0102g3", "state 1 1 1 1 1",
        "state 1 1 1 1 1 1 1", f"state 1 1 1 1 1 {TOP + 1}", "state 1 1 1 1 1 x", "new", "new 2 2 4 1", "new 2 2 4 1 2 3", "new 2 2 4 1 a", "new_from_prefix 2 2 4 1 2 p01 1",
        "new_from_prefix 2 2 4 1 2 p01 1 1 1", "new_from_prefix 2 2 4 1 2 01 1 1", "append_component", "append_component 01", "append_component x01 x", "append_component x0",
        "append_component x" + "00" * 1025, "build 1", "build ", " build", "builds", "BUILD", "new_max", "new_max 1 1", "new_max 1 1 1 1", "new_max 1 1 x", "max 1 1 1", "test 1 1 1 p() 0",
    ):
        yield line
    yield from ("append_component x", "build", "", "buffer p01/02", "state 1 2 2 2 2 2", "build", "buffer n1/0", "state 0 1 0 0 1 1", "build", "append_component n7")


def random_runs(count):
    yield "# random runs: mostly sound, sometimes with a state or a buffer changed in between"
    r, host = random.Random(3), Host()
    sets = [(2, 2, 4), (1, 3, 3), (4, 4, 8), (0, 2, 0), (3, 3, 4)]
    for _ in range(count):
        limits = r.choice(sets)
        path = random_path(r, limits)
        length, k = max(0, sum(map(len, path)) + r.choice([0] * 9 + [-1, 1])), max(0, len(path) + r.choice([0] * 9 + [-1, 1]))
        lines, n = [words("room", max(0, size(length, k) + r.choice([0, 0, 0, 1, 3, -1])))], 0
        if r.random() < 0.4:
            n = r.randint(0, len(path))
            lines.append(words("new_from_prefix", *limits, length, k, random_buffer(r, path), len(path), n))
        else:
            lines.append(words("new", *limits, length, k))
        lines += [words("append_component", hexed(c)) for c in path[n:]] + ["build"]
        for line in lines:
            if host.buffer and line[:3] in ("app", "bui") and r.random() < 0.06:
                at = r.randrange(len(host.buffer))
                changed = host.buffer[:at] + bytes([host.buffer[at] ^ r.choice([1, 2, 255])]) + host.buffer[at + 1 :]
                host.keep_buffer(changed[: len(changed) - r.choice([0, 0, 1])])
                yield words("buffer", hexed(host.buffer))
            if line[:3] in ("app", "bui") and r.random() < 0.06:
                state = list(host.state)
                i = r.randrange(6)
                state[i] = max(0, state[i] + r.choice([-1, 1]))
                host.keep_state(*state)
                yield words("state", *state)
            host.answer(line)
            yield line


def sample(name):
    """The fixed sample of the Rust original's answers, where rust/sample has one for the part: cases and answers, line by line."""
    folder = os.path.join(os.path.dirname(os.path.abspath(__file__)), "..", "rust", "sample")
    if not os.path.exists(os.path.join(folder, name + ".in")):
        return [], []
    both = [open(os.path.join(folder, name + end)).read().splitlines() for end in (".in", ".out")]
    assert len(both[0]) == len(both[1]), name
    return both


def part(name, answer_to, sections):
    """A part of the stored cases: its name, its lines, and the answers to them."""
    cases, replies = sample(name)
    # The model has to say what the Rust says.
    assert [answer_to(case) for case in cases] == replies, name
    before = ["# answers of the Rust original (rust/README.md says how the sample was made)"] + cases if cases else []
    lines = before + [line for section in sections for line in section]
    return name, lines, [a for a in map(answer_to, lines) if a is not None]


def parts():
    all_bytes_agree((1, 2, 2))
    all_bytes_agree((2, 1, 2))
    yield part("reading", lambda line: answer(line, READING), [orders(), counts(), limits(), malformed(), refusals(), written(), forms(), randoms(210)])
    making = [stated(), bounds(), lengths(), sizes(), rooms(), counted_below(), broken(), leasts(), made_forms(), randoms_made(300)]
    yield part("making", lambda line: answer(line, MAKING), making)
    built = [greatest_paths(), whole_runs(), starts(), calls_at_their_edges(), damaged(), host_forms(), random_runs(60)]
    yield part("building", Host().answer, built)
