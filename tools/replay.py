"""The stored cases of the programs that replay some, and the answers that they must print.

    python3 tools/replay.py

writes stdin and stdout of crates/replay_paths, crates/replay_groupings and crates/replay_sheets. The cases and the answers of their
parts are made in vectors.py, vectors_grouping.py and vectors_sheets.py, each from a model of its own; a line in front of each part
names it.
"""
import os

import vectors
import vectors_grouping
import vectors_sheets

PROGRAMS = {"replay_paths": vectors, "replay_groupings": vectors_grouping, "replay_sheets": vectors_sheets}


def write(program, module):
    lines, answers = [], []
    for name, cases, replies in module.parts():
        lines += ["part " + name] + cases
        answers += replies
        print(f"{program}, {name}: {len(cases)} lines, {len(replies)} answers")
    here = os.path.join(os.path.dirname(os.path.abspath(__file__)), "..", "crates", program)
    # The last line has no newline behind it.
    with open(os.path.join(here, "stdin"), "w", newline="") as f:
        f.write("\n".join(lines))
    with open(os.path.join(here, "stdout"), "w", newline="") as f:
        f.writelines(a + "\n" for a in answers)


if __name__ == "__main__":
    for program, module in PROGRAMS.items():
        write(program, module)
