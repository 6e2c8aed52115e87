#!/usr/bin/env python3
"""Respells the core's own definitions and lemmas in the way of today's Rattle, by respell.tsv beside this file.

usage: tools/respell.py [ROOT]

Words are in snake case, types and modules in camel case. A row of respell.tsv is: old, a tab, new, and for a name that was in snake case
already and now would meet another, a third column `bare`: it turns only in .antt files and only where it stands behind no dot.
It turns whole words: in specs/ and proofs/ the code, in src/ the clauses (names with a dash are lemmas, which no clause cites), in
must-fail/ and tried/ the texts of edits, and in comments and pages what stands in backticks. It goes by spelling; run the check afterwards.
It is run once, right after the kit's scripts: a second run would turn the rows marked `bare` again.
"""
import os
import re
import sys

HERE = os.path.dirname(os.path.realpath(__file__))
WORD = re.compile(r'[^\s(){}\[\].;,@"«»`]+')
SPAN = re.compile(r"`[^`\n]+`")


def table():
    rows, bare = {}, {}
    with open(os.path.join(HERE, "respell.tsv"), encoding="utf-8") as f:
        for line in f:
            old, new, *more = line.rstrip("\n").split("\t")
            (bare if more == ["bare"] else rows)[old] = new
    return rows, bare


ROWS, BARE = table()


def words(text, rows, bare):
    def one(m):
        w = m.group(0)
        if w in rows:
            return rows[w]
        if w in bare and not (m.start() and text[m.start() - 1] == "."):
            return bare[w]
        return w

    return WORD.sub(one, text)


def spans(text):
    return SPAN.sub(lambda m: words(m.group(0), ROWS, {}), text)


def comment(text):
    at = text.find("Falls:")
    if at >= 0:
        return spans(text[:at]) + words(text[at:], ROWS, {})
    return spans(text)


CAMEL = {old: new for old, new in ROWS.items() if "-" not in old}


def antt(text):
    out = []
    for line in text.split("\n"):
        code, dash, rest = line, "", ""
        m = re.search(r"(?:^|(?<=\s))--(?=\s|$)", line)
        if m:
            code, dash, rest = line[: m.start()], "--", line[m.start() + 2 :]
        out.append(words(code, ROWS, BARE) + dash + comment(rest))
    return "\n".join(out)


def rt(text):
    out = []
    for line in text.split("\n"):
        code, dash, rest = line.partition("//")
        out.append(words(code, CAMEL, {}) + dash + comment(rest))
    return "\n".join(out)


def edit(text):
    out, turn = [], antt
    for line in text.split("\n"):
        if line.startswith("file: "):
            turn = rt if line.endswith(".rt") else antt
        if line.startswith(("old:", "new:")):
            line = line[:4] + turn(line[4:])
        elif not line.startswith("file: "):
            line = comment(line)
        out.append(line)
    return "\n".join(out)


TURNS = {".antt": antt, ".rt": rt, ".edit": edit, ".md": spans}


def main(root):
    n = 0
    for top in ("crates", "docs", "README.md"):
        at = os.path.join(root, top)
        paths = [at] if os.path.isfile(at) else [os.path.join(f, x) for f, d, xs in os.walk(at) if "/out" not in f for x in xs]
        for p in sorted(paths):
            turn = TURNS.get(os.path.splitext(p)[1])
            if not turn or os.path.basename(p).startswith("PORT"):
                continue
            with open(p, encoding="utf-8") as f:
                old = f.read()
            new = turn(old)
            if new != old:
                n += 1
                with open(p, "w", encoding="utf-8") as f:
                    f.write(new)
    print(f"respell: {n} files")


if __name__ == "__main__":
    main(sys.argv[1] if len(sys.argv) > 1 else os.path.dirname(HERE))
