#!/usr/bin/env python3
"""Counts the instructions of the library's calls on the main loads, and compares them with a table.

    tools/instructions.py --check        fails where a count is more than a tenth above the table's
    tools/instructions.py --write        writes the table anew
    tools/instructions.py --self-test

The table is bindings/compare/instructions.txt. Times vary with the machine and with what else runs on it; instructions don't, so that
no change slows a run unseen. A count that is more than a tenth below the table's is said, and nothing fails: the table is to be written
anew then, since a later change could lose what was won.

The program `once` of bindings/compare makes one call, linked with the library that bindings/build.rs finds. callgrind counts inside the
function of the operation. What the C library does is left out: it fills memory by an instruction that repeats itself, which
callgrind counts for each byte. Where there is no valgrind nothing is counted, and it is said so.
"""
import os
import shutil
import subprocess
import sys
import tempfile
from pathlib import Path

BINDINGS = Path(__file__).resolve().parent.parent / "bindings"
TABLE = BINDINGS / "compare" / "instructions.txt"
TITLE = "# Instructions of a call, without those of the C library. Written by tools/instructions.py --write\n"
# More than a tenth above or below: count and number of the table, multiplied by these.
COUNT, ABOVE, BELOW = 10, 11, 9


def instructions(text, program):
    """The instructions of a program's own functions, from what callgrind wrote without short forms of names and places."""
    found, own, called = 0, False, False
    for line in text.splitlines():
        if line.startswith("ob="):
            own = line == f"ob={program}"
        elif line.startswith("calls="):
            called = True  # the next line has the cost of what is called, which has lines of its own
        elif line[:1].isdigit():
            found += 0 if called or not own else int(line.split()[1])
            called = False
    return found


def counted(program, load, operation):
    """The instructions of one call."""
    with tempfile.TemporaryDirectory() as folder:
        out = Path(folder) / "out"
        options = ["--tool=callgrind", "--compress-strings=no", "--compress-pos=no", f"--callgrind-out-file={out}"]
        command = ["valgrind", *options, f"--toggle-collect=keep_{operation}", program, load, operation]
        run = subprocess.run(command, capture_output=True, text=True)
        if run.returncode:
            sys.exit(f"{' '.join(command)}\n{run.stderr}")
        count = instructions(out.read_text(), program)
    if not count:
        sys.exit(f"no instruction was counted inside keep_{operation}")
    return count


def built():
    """The path of the program `once`."""
    command = ["cargo", "build", "--quiet", "--release", "--offline", "--package", "compare", "--bin", "once"]
    if subprocess.run(command, cwd=BINDINGS).returncode:
        sys.exit("the program `once` was not built")
    target = os.environ.get("CARGO_TARGET_DIR", "target")
    return str((BINDINGS / target / "release" / "once").resolve())


def counts_now():
    """The instructions of each operation on each load."""
    program = built()
    listed = subprocess.run([program], capture_output=True, text=True, check=True).stdout
    calls = [tuple(line.split()) for line in listed.splitlines()]
    return {call: counted(program, *call) for call in calls}


def table_of(text):
    """The counts of a table."""
    rows = [line.split() for line in text.splitlines() if line and not line.startswith("#")]
    return {(load, operation): int(count) for load, operation, count in rows}


def table_text(counts):
    """A table of counts."""
    long = max(len(load) for load, _ in counts)
    width = max(len(str(count)) for count in counts.values())
    return TITLE + "".join(f"{load:<{long}} {operation:<6} {count:>{width}}\n" for (load, operation), count in counts.items())


def compared(table, counts):
    """What is wrong, and what is to be said beside it."""
    faults, notes = [], []
    for call, count in counts.items():
        named, before = f"{call[0]}, {call[1]}", table.get(call)
        if before is None:
            faults.append(f"{named}: {count:,} instructions, not in the table")
        elif COUNT * count > ABOVE * before:
            faults.append(f"{named}: {count:,} instructions, more than a tenth above the table's {before:,}")
        elif COUNT * count < BELOW * before:
            notes.append(f"{named}: {count:,} instructions, more than a tenth below the table's {before:,}: --write")
    faults += [f"{load}, {operation}: in the table, not counted" for load, operation in table if (load, operation) not in counts]
    return faults, notes


def check():
    counts = counts_now()
    faults, notes = compared(table_of(TABLE.read_text()), counts)
    for line in faults + notes:
        print(line)
    print(f"instructions of {len(counts)} calls counted, {len(faults)} above the table's or not in it")
    return 1 if faults else 0


def write():
    TABLE.write_text(table_text(counts_now()))
    return 0


# What callgrind writes: the C library's function, its callers, and the program's own.
WRITTEN = """# callgrind format
events: Ir

ob=/lib/libc.so.6
fl=memset.S
fn=__memset
167 12
336 2905

ob=/target/once
fl=???
fn=rows::rows
0 248

fn=keep_run
0 99
cob=/lib/libc.so.6
cfi=memset.S
cfn=__memset
calls=1 167 
0 2917
cfn=rows::rows
calls=2 0 
0 248
0 8

totals: 3272
"""
COUNTS = {("a", "run"): 1_100, ("a", "judge"): 900}
# A table, and the beginnings of the lines that COUNTS beside it have to give: faults, notes.
SELF_TESTS = [
    ({("a", "run"): 1_100, ("a", "judge"): 900}, [], []),
    ({("a", "run"): 1_000, ("a", "judge"): 1_000}, [], []),
    ({("a", "run"): 999, ("a", "judge"): 900}, ["a, run: 1,100 instructions, more than a tenth above the table's 999"], []),
    ({("a", "run"): 1_100, ("a", "judge"): 1_001}, [], ["a, judge: 900 instructions, more than a tenth below the table's 1,001"]),
    ({("a", "run"): 0, ("a", "judge"): 1}, ["a, run", "a, judge"], []),
    ({("a", "run"): 1_100}, ["a, judge: 900 instructions, not in the table"], []),
    ({**COUNTS, ("b", "run"): 1}, ["b, run: in the table, not counted"], []),
]


def self_test():
    wrong = []
    if instructions(WRITTEN, "/target/once") != 355 or instructions(WRITTEN, "/target/other") != 0:
        wrong.append(f"counted {instructions(WRITTEN, '/target/once')}")
    if table_of(table_text(COUNTS)) != COUNTS:
        wrong.append(f"table {table_text(COUNTS)}")
    for table, *expected in SELF_TESTS:
        for lines, begins in zip(compared(table, COUNTS), expected):
            if len(lines) != len(begins) or not all(map(str.startswith, lines, begins)):
                wrong.append(f"expected {begins}, got {lines}")
    for line in wrong:
        print(f"self-test: {line}")
    return 1 if wrong else 0


def main(arguments):
    work = {("--check",): check, ("--write",): write, ("--self-test",): self_test}.get(tuple(arguments))
    if work is None:
        print(__doc__)
        return 2
    if work is not self_test and not shutil.which("valgrind"):
        print("no valgrind: instructions were not counted")
        return 0
    return work()


if __name__ == "__main__":
    sys.exit(main(sys.argv[1:]))
