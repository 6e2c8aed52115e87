"""Key lines, and the answers that program `key` must print.

    python3 tools/keylines.py                    writes crates/key/stdin and crates/key/stdout
    python3 tools/keylines.py random N SEED IN OUT    N random lines to IN, and their answers to OUT

The answers are computed here, from document 01 ('Paths' and 'Key lines'); nothing of the core is read or run. At tiny limits the
least paths are found by looking at all valid paths.
"""
import itertools
import random
import re
import sys

LINE = 16384
# the bytes of the program's buffers, for a read and for the answers that one write takes
BUFFER = 65536
FORM = re.compile(rb"([0-9]{1,10}) ([0-9]{1,10}) ([0-9]{1,10}) (?:([SG]) (\(\)|(?:-|(?:[0-9a-f]{2})+)(?:/(?:-|(?:[0-9a-f]{2})+))*)|(M))\Z")


def shown(path):
    return b"/".join(c.hex().encode() or b"-" for c in path) if path else b"()"


def next_greater(limits, path):
    """From the last component back: lengthened by a zero byte, else cut after its last byte below ff and that byte raised."""
    mcl, _, mpl = limits
    for i in range(len(path) - 1, -1, -1):
        c, end = path[i], sum(map(len, path[: i + 1]))
        if len(c) < mcl and end < mpl:
            return path[:i] + [c + b"\0"]
        low = max((j for j in range(len(c)) if c[j] < 255), default=None)
        if low is not None:
            return path[:i] + [c[:low] + bytes([c[low] + 1])]
    return None


def successor(limits, path):
    return path + [b""] if len(path) < limits[1] else next_greater(limits, path)


def greatest(limits):
    mcl, mcc, mpl = limits
    path = []
    for _ in range(mcc):
        path.append(b"\xff" * min(mcl, mpl - sum(map(len, path))))
    return path


def valid_paths(limits, alphabet):
    """All valid paths over an alphabet, for tiny limits."""
    mcl, mcc, mpl = limits
    components = [bytes(c) for n in range(mcl + 1) for c in itertools.product(alphabet, repeat=n)]
    for k in range(mcc + 1):
        for path in itertools.product(components, repeat=k):
            if sum(map(len, path)) <= mpl:
                yield list(path)


def looked_up(limits, path, question):
    """The same by looking at all valid paths; Python's order of lists of bytes is the Data Model's."""
    used = {b for c in path for b in c}
    alphabet = sorted({0, 255} | used | {b + 1 for b in used if b < 255})
    above = [q for q in valid_paths(limits, alphabet) if q > path and (question == b"S" or q[: len(path)] != path)]
    return min(above, default=None)


def answer(line):
    form = FORM.match(line) if len(line) <= LINE else None
    if not form:
        return b"refused 3"
    limits = tuple(int(n) for n in form.group(1, 2, 3))
    if any(limit > most for limit, most in zip(limits, (1024, 1024, 4096))):
        return b"refused 1"
    if form.group(6):
        return shown(greatest(limits))
    text = form.group(5)
    path = [] if text == b"()" else [b"" if t == b"-" else bytes.fromhex(t.decode()) for t in text.split(b"/")]
    if sum(map(len, path)) > limits[2]:
        return b"refused 7"
    if len(path) > limits[1]:
        return b"refused 8"
    if any(len(c) > limits[0] for c in path):
        return b"refused 9"
    found = (successor if form.group(4) == b"S" else next_greater)(limits, path)
    if limits[0] <= 2 and limits[1] <= 2 and limits[2] <= 3 and len(set(b"".join(path))) <= 2:
        assert found == looked_up(limits, path, form.group(4)), line
    return b"none" if found is None else shown(found)


def answers(text):
    lines = text.split(b"\n")
    if lines[-1] == b"":
        lines.pop()
    return b"".join(answer(line) + b"\n" for line in lines)


def overflow(before):
    """Lines behind those before them, all in one read of the program, whose answers are more than it writes at a time; short ones stand
    last, so that a program which drops the rest of a read prints less."""
    lines = [b"1024 1024 4096 M"] * 8 + [b"3 %d 9 M" % n for n in range(1, 9)]
    text = b"".join(line + b"\n" for line in lines)
    assert len(before) % BUFFER + len(text) <= BUFFER < len(answers(text))
    return lines


def stored():
    """Document 01's four lines first, then an edge a line."""
    at_length = lambda n, front: front + b"00" * ((n - len(front)) // 2)
    lines = [
        b"2 1 2 S 01ff", b"2 2 3 G 01", b"2 2 3 G ()", b"2 1 3 G 010203",
        # the marked cases
        b"2 2 3 S ()", b"2 2 3 S 01", b"3 2 3 G 01ff/ff", b"2 2 2 G ffff/-", b"4 2 6 M", b"1 2 5 M",
        b"2 1 3 S 0101/0101", b"2 1 3 S 01/01", b"2 2 4096 S 01", b"2 2 4097 S 01",
        # none, the empty path, limits of zero
        b"0 0 0 M", b"0 0 0 S ()", b"0 0 0 G ()", b"0 2 0 S -", b"0 2 0 S -/-", b"0 2 0 G -/-", b"0 2 0 M", b"3 0 3 M", b"3 3 0 M",
        b"2 2 3 S ffff/ff", b"2 2 3 G ff", b"2 2 3 G ffff/ff", b"1 1 1 S ff", b"1 1 1 S fe", b"2 2 4 S 00ff/ffff",
        # lengthened, cut, raised; MPL of the part up to the component
        b"2 2 3 G 01/-", b"2 2 3 G 0100/00", b"2 2 3 G 0101/ff", b"2 2 3 G 00ff/ff", b"3 2 4 G 0102/ffff", b"2 3 4 G 01/02/ffff",
        # refusals in their order
        b"1025 1 1 S -", b"1 1025 1 S -", b"1024 1024 4096 S -", b"9999999999 1 1 M", b"1 1 0 S 0101/01", b"1 1 2 S 01/0101", b"1 1 9 S 0101",
        # numerals
        b"0002 0001 0002 S 01ff", b"0000000002 1 2 S 01ff", b"00000000002 1 2 S 01ff", b" 2 1 2 S 01ff", b"2  1 2 S 01ff", b"2 1 2  S 01ff",
        b"2 1 2 S  01ff", b"2 1 2 S 01ff ", b"+2 1 2 S 01ff", b"2 1 S 01ff", b"2 1 2 2 S 01ff", b"2\t1 2 S 01ff", b"", b" ", b"2", b"2 ", b"2 1 2", b"2 1 2 ",
        # letters
        b"2 1 2 s 01ff", b"2 1 2 X 01ff", b"2 1 2 S", b"2 1 2 S ", b"2 1 2 G", b"2 1 2 M 01", b"2 1 2 M ", b"2 1 2 MM", b"2 1 2 SS 01", b"2 1 2 M",
        # paths
        b"2 1 2 S 01FF", b"2 1 2 S 01f", b"2 1 2 S 0g", b"2 1 2 S 01//02", b"2 1 2 S /01", b"2 1 2 S 01/", b"2 1 2 S /", b"2 1 2 S --", b"2 1 2 S 01-",
        b"2 1 2 S -01", b"2 1 2 S ()/01", b"2 1 2 S 01/()", b"2 1 2 S ( )", b"2 1 2 S (", b"2 1 2 S ()()", b"2 1 2 S 0x01", b"2 3 2 S -/-/-", b"2 1 2 S `0",
        b"2 1 2 S :0", b"2 1 2 S 01\r", b"2 1 2 S 01\0", b"\xff", b"2 1 2 S \xe9",
        # the largest limits, and a path at each of them
        b"1024 1024 4096 M", b"1024 1024 4096 S " + b"ff" * 1024, b"1024 1024 4096 S " + b"ff" * 1025, b"1024 1 1024 S " + b"ff" * 1024,
        b"1 1024 4096 S " + b"/".join([b"-"] * 1024), b"1 1024 4096 S " + b"/".join([b"ff"] * 1024), b"1 1024 1024 G " + b"/".join([b"ff"] * 1024),
        b"1 1024 4096 S " + b"/".join([b"-"] * 1025), b"4096 1024 4096 S 00", b"1024 1024 4096 G " + b"/".join([b"ff" * 4] * 1024),
        # the line's bound: 16,384 bytes, and one more
        at_length(LINE, b"01024 1024 4096 S "), at_length(LINE, b"1024 1024 4096 S ") + b"00", at_length(LINE, b"01024 1024 4096 S ") + b"0",
        b"x" * LINE, b"x" * (LINE + 1), b"y" * (3 * LINE), b"2 1 2 S 01ff",
    ]
    assert any(len(line) == LINE and answer(line) != b"refused 3" for line in lines)
    lines += overflow(b"\n".join(lines) + b"\n")
    # the last line has no newline
    return b"\n".join(lines + [b"2 2 3 S 01"])


def random_path(r, limits):
    mcl, mcc, mpl = limits
    return [bytes(r.choice((0, 1, 254, 255, r.randrange(256))) for _ in range(r.randrange(mcl + 2))) for _ in range(r.randrange(mcc + 2))]


def random_line(r):
    limits = r.choice(((2, 2, 3), (2, 1, 2), (3, 2, 4), (1, 2, 2), (0, 2, 1), (2, 3, 4), (16, 4, 64)))
    head = b"%d %d %d " % limits
    letter = r.choice(b"SSSGGGM")
    line = head + (b"M" if letter == 77 else bytes([letter]) + b" " + shown(random_path(r, limits)))
    if r.random() < 0.1:
        at = r.randrange(len(line))
        line = line[:at] + bytes([r.randrange(256)]) + line[at + r.randrange(2) :]
    return line.replace(b"\n", b" ")


def main():
    if len(sys.argv) == 6 and sys.argv[1] == "random":
        r = random.Random(int(sys.argv[3]))
        text = b"".join(random_line(r) + b"\n" for _ in range(int(sys.argv[2])))
        source, target = sys.argv[4:]
    else:
        text, source, target = stored(), "crates/key/stdin", "crates/key/stdout"
    with open(source, "wb") as f:
        f.write(text)
    with open(target, "wb") as f:
        f.write(answers(text))


main()
