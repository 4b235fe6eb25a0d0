#!/usr/bin/env python3
"""Graph files at the limits of the program `keep`, and what it has to print for each.

    tools/program_inputs.py FOLDER      writes NAME.graph and NAME.listing for each

Most are one graph: a module that is runtime and entry at once, with statements of which some have side effects. A run of it has
a record line for the module, one for its bailout and one for each statement that has a side effect, and keeps these statements.
"""
import sys
from pathlib import Path

sys.dont_write_bytecode = True
from graph_file import encoded

FILE = 8192  # bytes that the program decides, at most
LINES = 1024  # record lines that it has room for
NAMES = [128**k for k in range(5)]  # numbers of one to five bytes


def numbers(kept, others=0, name=NAMES[0]):
    """The numbers of a graph with so many statements that have side effects and so many that have none."""
    statements = 1 + kept + others
    header = [1, 0, 1, 1, statements, 1, 0]
    module = [1, 1, 0, 0, 0, 0, 0, 1, 0, statements, 1, statements] + 10 * [0]
    namespace = [0, name, 0, 0, 0, 0, 0, 0, 0]
    entry = [0, 0, 0]
    return header + module + namespace + [0, 0, 0] + kept * [1, 0, 0] + others * [0, 0, 0] + entry


def listing(kept):
    """What is printed for such a graph."""
    return "rounds 1\nentry 0 0\nmodule 0 1 1 0 0\n" + "".join(f"statement 0 {i + 1}\n" for i in range(kept))


def of_bytes(size):
    """Such a graph file of so many bytes, with one statement that has a side effect."""
    others = size // 3  # each takes three bytes, so these are too many
    while (missing := size - len(encoded(numbers(1, others)))) < 0:
        others -= 1
    return encoded(numbers(1, others, NAMES[missing]))


def inputs():
    """The files by name, each with what is printed for it."""
    good = numbers(1)
    yield "empty", b"", "refused 4\n"
    yield "not_shortest_form", bytes.fromhex("8000"), "refused 1\n"
    yield "number_2_to_32", bytes.fromhex("ffffffff10"), "refused 1\n"
    yield "modules_1025", encoded(good[:2] + [1025] + good[3:]), "refused 2\n"
    yield "options_255", encoded([255] + good[1:]), listing(1)
    yield "options_256", encoded([256] + good[1:]), "refused 3\n"
    yield "number_missing", encoded(good[:-1]), "refused 4\n"
    yield "number_left_over", encoded(good + [0]), "refused 4\n"
    yield "bytes_8192", of_bytes(FILE), listing(1)
    yield "bytes_8193", of_bytes(FILE + 1), "refused 2\n"
    yield "no_numbers_8193", (FILE + 1) * b"\x80", "refused 2\n"
    yield "lines_1024", encoded(numbers(LINES - 2)), listing(LINES - 2)
    yield "lines_1025", encoded(numbers(LINES - 1)), "refused 5\n"
    yield "statements_1100", encoded(numbers(1100)), "refused 5\n"


def main(arguments):
    if len(arguments) != 1 or arguments[0].startswith("-"):
        sys.exit(__doc__)
    for name, file, text in inputs():
        Path(arguments[0], name + ".graph").write_bytes(file)
        Path(arguments[0], name + ".listing").write_text(text)


if __name__ == "__main__":
    main(sys.argv[1:])
