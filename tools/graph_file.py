#!/usr/bin/env python3
"""Turns commented text into a graph file, and a graph file back into numbers.

    tools/graph_file.py TEXT OUT                the graph file of a text; - is standard input or output
    tools/graph_file.py --back FILE             the numbers of a graph file on one line
    tools/graph_file.py --check-examples DIR    fails unless each NAME.txt in DIR has its NAME.graph and a NAME.listing
    tools/graph_file.py --self-test

The text has decimal numbers with white space between them; # begins a comment that goes to the end of its line. The file has
each number as unsigned LEB128 in shortest form. Whether the numbers are a graph is not looked at: `keep` says that.
"""
import re
import sys
import tempfile
from pathlib import Path

LIMIT = 2**32
GROUPS = 5  # of seven bits: as many as a number below the limit can take
PARTS = [".txt", ".graph", ".listing"]  # of an example


class Fault(Exception):
    """What is wrong with a text or a graph file."""


def parsed(text):
    """The numbers of a text."""
    numbers = []
    for line_number, line in enumerate(text.split(b"\n"), 1):
        for word in line.partition(b"#")[0].split():
            shown = word.decode(errors="backslashreplace")
            if not re.fullmatch(rb"[0-9]+", word):
                raise Fault(f"line {line_number}: {shown!r} is no number")
            digits = word.lstrip(b"0") or b"0"
            if len(digits) > len(str(LIMIT)) or int(digits) >= LIMIT:
                raise Fault(f"line {line_number}: {shown} is 2^32 or more")
            numbers.append(int(digits))
    return numbers


def encoded(numbers):
    """The bytes of a graph file: of each number seven bits a byte, the lowest first, bit 7 where more follow."""
    out = bytearray()
    for number in numbers:
        while number >= 128:
            out.append(number % 128 + 128)
            number //= 128
        out.append(number)
    return bytes(out)


def decoded(file):
    """The numbers of a graph file."""
    numbers, first = [], 0
    while first < len(file):
        last = first
        while last < len(file) and file[last] >= 128:
            last += 1
        groups = file[first : last + 1]
        number = sum(group % 128 << 7 * i for i, group in enumerate(groups[: GROUPS + 1]))
        if last == len(file):
            raise Fault(f"byte {first}: the file ends within a number")
        if len(groups) > GROUPS or number >= LIMIT:
            raise Fault(f"byte {first}: a number of 2^32 or more, or of more than {GROUPS} bytes")
        if len(groups) > 1 and file[last] == 0:
            raise Fault(f"byte {first}: a number that is not in shortest form")
        numbers.append(number)
        first = last + 1
    return numbers


def examples_faults(folder):
    """How many examples a folder has, and what is wrong with them."""
    names = sorted({p.stem for p in folder.iterdir() if p.suffix in PARTS})
    faults = [] if names else [f"{folder}: no examples"]
    for name in names:
        text, graph, listing = (folder / (name + suffix) for suffix in PARTS)
        missing = [p for p in (text, graph, listing) if not p.is_file()]
        faults += [f"{p} is missing" for p in missing]
        try:
            if not {text, graph} & set(missing) and encoded(parsed(text.read_bytes())) != graph.read_bytes():
                faults.append(f"{graph} is not the graph file of {text}")
        except Fault as fault:
            faults.append(f"{text}: {fault}")
    return len(names), faults


# Texts and the files that they give, in hex; those of LEB128's published examples among them.
GOOD = [
    ("", ""),
    ("# 1 2 3", ""),
    ("0", "00"),
    ("1 2\t3\r\n\n  4", "01020304"),
    ("1 # one # 9\n2#two\n# 3\n4", "010204"),
    ("007 00", "0700"),
    ("2 127 128 129 130 12857", "027f800181018201b964"),
    ("624485 16383 16384", "e58e26ff7f808001"),
    ("4294967295", "ffffffff0f"),
]
BAD_TEXTS = [
    ("1 2\n3 x", "line 2: 'x' is no number"),
    ("-1", "line 1: '-1' is no number"),
    ("+1", "'+1' is no number"),
    ("1_000", "is no number"),
    ("1,2", "is no number"),
    ("0x10", "is no number"),
    ("\u0661", "is no number"),
    ("# 1\n\n4294967296", "line 3: 4294967296 is 2^32 or more"),
    ("9" * 5000, "is 2^32 or more"),
]
BAD_FILES = [
    ("80", "byte 0: the file ends"),
    ("01ffff", "byte 1: the file ends"),
    ("8000", "byte 0: a number that is not in shortest"),
    ("00 e58ea600", "byte 1: a number that is not in shortest"),
    ("ffffffff10", "byte 0: a number of 2^32 or more"),
    ("01 808080808001", "byte 1: a number of 2^32 or more"),
]
# Files of a folder of examples, and what is wrong with them.
GOOD_EXAMPLE = {"a.txt": b"1 300 # text", "a.graph": b"\1\xac\2", "a.listing": b"refused 4\n", "README.md": b""}
FOLDERS = [
    (GOOD_EXAMPLE, []),
    ({"README.md": b""}, ["no examples"]),
    ({**GOOD_EXAMPLE, "a.graph": b"\1\xac\2\0"}, ["a.graph is not the graph file of"]),
    ({**GOOD_EXAMPLE, "a.txt": b"1\nx"}, ["a.txt: line 2: 'x' is no number"]),
    ({**GOOD_EXAMPLE, "b.graph": b""}, ["b.txt is missing", "b.listing is missing"]),
    ({**GOOD_EXAMPLE, "b.txt": b""}, ["b.graph is missing", "b.listing is missing"]),
]


def faults_of_folder(files):
    with tempfile.TemporaryDirectory() as folder:
        for name, content in files.items():
            (Path(folder) / name).write_bytes(content)
        return examples_faults(Path(folder))[1]


def fault_of(function, given):
    try:
        return f"no fault: {function(given)}"
    except Fault as fault:
        return str(fault)


def self_test():
    wrong = []
    for text, hexes in GOOD:
        numbers, file = parsed(text.encode()), bytes.fromhex(hexes)
        if encoded(numbers) != file or decoded(file) != numbers:
            wrong.append(f"{text!r}: expected {file.hex()}, got {encoded(numbers).hex()}")
    for number in [x for k in range(33) for x in (2**k - 1, 2**k, 2**k + 1) if x < LIMIT]:
        if decoded(encoded([number, 0, number])) != [number, 0, number]:
            wrong.append(f"{number}: not the same there and back")
    cases = [(parsed, text.encode(), said) for text, said in BAD_TEXTS]
    cases += [(decoded, bytes.fromhex(file), said) for file, said in BAD_FILES]
    for function, given, said in cases:
        if said not in fault_of(function, given):
            wrong.append(f"{given!r}: expected {said!r}, got {fault_of(function, given)!r}")
    for files, said in FOLDERS:
        faults = faults_of_folder(files)
        if len(faults) != len(said) or not all(part in fault for part, fault in zip(said, faults)):
            wrong.append(f"{sorted(files)}: expected {said}, got {faults}")
    if wrong:
        sys.exit("\n".join(wrong))


def read(name):
    return sys.stdin.buffer.read() if name == "-" else Path(name).read_bytes()


def write(name, file):
    if name == "-":
        sys.stdout.buffer.write(file)
        sys.stdout.buffer.flush()
    else:
        Path(name).write_bytes(file)


def main(arguments):
    if arguments == ["--self-test"]:
        return self_test()
    if len(arguments) != 2 or (arguments[0].startswith("-") and arguments[0] not in ("-", "--back", "--check-examples")):
        sys.exit(__doc__)
    first, second = arguments
    if first == "--check-examples":
        count, faults = examples_faults(Path(second))
        if faults:
            sys.exit("\n".join(faults))
        print(f"{count} examples: each graph file is that of its text")
        return
    source = second if first == "--back" else first
    try:
        if first == "--back":
            print(*decoded(read(source)))
        else:
            write(second, encoded(parsed(read(source))))
    except Fault as fault:
        sys.exit(f"{'standard input' if source == '-' else source}: {fault}")


if __name__ == "__main__":
    try:
        main(sys.argv[1:])
    except OSError as error:
        sys.exit(f"{error.filename or 'output'}: {error.strerror}")
