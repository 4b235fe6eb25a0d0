#!/usr/bin/env python3
"""Which definitions a reader must believe to know what the library promises.

    tools/believed.py                the definitions, file by file, and what is not among them
    tools/believed.py --files        only the files
    tools/believed.py --check FILE   fails if the list between the markers in FILE, a document, is not that of the files
    tools/believed.py --write FILE   writes that list

They are the names that the contracts at the boundary cite, all definitions of the files that state theorems, and every
definition in a crate's specs by which one of these is defined. What else is in specs is about steps inside.

A definition cites each word in it that is the name of another, by its file or by a `use`. A variable with the name of a definition
counts as well: so the list may have a definition too many, but none too few.
"""
import difflib
import re
import sys
from functools import cache
from pathlib import Path

BOUNDARY = "host_c/src/lib.rt"
THEOREMS = [
    "closed_choices/specs/*.antt",
    "other_options/specs/*.antt",
    "run_choices/specs/*.antt",
    "settled_runs/specs/*.antt",
    "rule_relation/specs/*.antt",
    "judged_records/specs/*.antt",
    "judged_starts/specs/*.antt",
    "rust_effects/specs/*.antt",
    "rust_engine/specs/*.antt",
    "rust_order/specs/*.antt",
    "rust_run/specs/*.antt",
    "rust_returns/specs/*.antt",
    "rust_listing/specs/*.antt",
    "host_answers/specs/*.antt",
    "answer_text/specs/*.antt",
    "keep/specs/*.antt",
    "determine_side_effects/specs/Paths.antt",
    "determine_side_effects/specs/Sequence.antt",
    "worked_facts/specs/*.antt",
]
BEGIN, END = "<!-- believed: begin -->", "<!-- believed: end -->"

ROOT = Path(__file__).resolve().parent.parent
CRATES = ROOT / "crates"
ORDER = re.findall(r"^(\w+)(?: staticlib)?:", (ROOT / "crates.txt").read_text(), re.M)

USE = re.compile(r"^(?:ghost )?use\s+([^;{}]*)\.\{([^}]*)\}", re.M)
PASSED_ON = re.compile(r"^pub use Rattle\.(\w+)\.specs(?:\.(\w+))?(?: as (\w+))?$", re.M)
HEAD = re.compile(r"(?:pub |unfoldable |abbrev )*(?:(record|data) )?(\S+)(?: |$)(:?)")

# What can be believed is a triple: crate, spec file and definition; or crate, None and a type that is declared in the code.


def words(text):
    """The words of an expression, without the fields (.name) that it reads."""
    return [w.strip("«»") for w in re.findall(r"(?<![^\s(){}\[\];,])[^\s(){}\[\];,.]+", text)]


def spellings(name):
    """A name, and for an operator such as ◌≡◌ also the words by which it is used."""
    parts = name.split("◌") if "◌" in name else []
    return [n.strip("«»") for n in [name, *parts] if n]


@cache
def passed_on(crate):
    """The crates that a crate passes on to those above, by the names that these use: of each the crate that it comes from, and its name there."""
    lib = CRATES / crate / "specs" / "Lib.antt"
    found = PASSED_ON.findall(lib.read_text()) if lib.is_file() else []
    return {here or inner: (below, inner) for below, inner, here in found}


def at_home(crate, inside):
    """The crate in which a path ends, and what is left of the path."""
    while inside and inside[0] in passed_on(crate):
        crate, inner = passed_on(crate)[inside[0]]
        inside = [*filter(None, [inner]), *inside[1:]]
    return crate, inside


def imports(text):
    """The names that a file brings in from crates, and what each stands for."""
    names = {}
    for path, listed in USE.findall(text):
        origin, crate, *rest = path.split(".")
        if origin != "Rattle" or crate not in ORDER:
            continue
        if rest[0] != "specs":
            sys.exit(f"not understood: use {path}")
        crate, inside = at_home(crate, rest[1:])
        for one in " ".join(listed.split()).split(","):
            name, _, here = one.strip().partition(" as ")
            if inside[0] == "declared":
                target = crate, None, [w for w in inside if w != "TheVariants"][-1]
            else:
                target = crate, "specs/" + "/".join(inside) + ".antt", name.strip("«»")
            names.update((s, target) for s in spellings(here or name))
    return names


class Spec:
    """A spec file: the words of each definition, and what the names in the file stand for."""

    def __init__(self, crate, file):
        text = re.sub(r"(^|\s)--.*", "", (CRATES / crate / file).read_text(), flags=re.M)
        self.definitions, constructors = {}, {}
        name, kind, module = None, None, ""
        for line in USE.sub("", text).splitlines():
            if not line.strip() or line.startswith(("pub mod ", "pub use ", "unfolding ", "infix")):
                continue
            if module and line.startswith("  "):
                line = line[2:]
            else:
                module = line if re.fullmatch(r"module _ .* where", line) else ""
                if module:
                    continue
            head = HEAD.match(line)
            if line[0] != " " and (head.start(2) > 0 or head[3]):
                kind, name = head[1], head[2].strip("«»")
                self.definitions[name] = words(module)
            elif line[0] != " " and not (name and set(spellings(name)) & set(words(line))):
                sys.exit(f"{crate}/{file}: not understood: {line}")
            elif kind == "data" and (constructor := re.match(r"  (\S+) :", line)):
                constructors[constructor[1]] = name
            self.definitions[name] += words(line)
        own = {**constructors, **{name: name for name in self.definitions}}
        self.stands_for = {**imports(text), **{s: (crate, file, own[name]) for name in own for s in spellings(name)}}


@cache
def spec(crate, file):
    return Spec(crate, file)


@cache
def code(crate):
    return re.sub(r"//.*", "", "\n".join(p.read_text() for p in sorted((CRATES / crate / "src").glob("**/*.rt"))))


def used_types(text):
    """The types that a code brings in from crates, by name."""
    types = {}
    for crate, path, listed in re.findall(r"^use (\w+)((?:::\w+)*)::(\w+|\{[^{}]*\});", text, re.M):
        home, _ = at_home(crate, path.split("::")[1:])
        types.update((n, (home, None, n)) for n in re.findall(r"\b[A-Z]\w*", listed) if crate in ORDER)
    return types


def cited(crate, file, name):
    """What a definition cites, or a type of the code: there the types of its fields."""
    if file:
        there = spec(crate, file)
        return [there.stands_for[w] for w in there.definitions[name] if w in there.stands_for]
    body = re.search(rf"\b(struct|enum) {name}\b.*?[;}}]$", code(crate), re.M | re.S)
    if not body:
        sys.exit(f"{crate}: no type {name} in the code")
    types = used_types(code(crate))
    types.update((n, (crate, None, n)) for n in re.findall(r"\b(?:struct|enum) (\w+)", code(crate)))
    return [types[w] for w in re.findall(r"\w+", body[0]) if w in types]


def starts():
    """What the contracts at the boundary cite, and the definitions of the files that state theorems."""
    text = re.sub(r"//.*", "", (CRATES / BOUNDARY).read_text())
    names = imports(text)
    contracts = re.findall(r"^ *(?:requires|ensures)\b[^{}]*\{(.*)\}$", text, re.M)
    if not contracts or len(contracts) != len(re.findall(r"\b(?:requires|ensures)\b", text)):
        sys.exit(f"{BOUNDARY}: its contracts are not understood")
    found = [names[w] for contract in contracts for w in words(contract) if w in names]
    for pattern in THEOREMS:
        files = [p.relative_to(CRATES).as_posix().split("/", 1) for p in CRATES.glob(pattern)]
        if not files:
            sys.exit(f"no file {pattern}")
        found += [(crate, file, name) for crate, file in files for name in spec(crate, file).definitions]
    return found


def believed():
    todo, done = starts(), set()
    while todo:
        crate, file, name = todo.pop()
        if file:  # a constructor stands for its type
            there = spec(crate, file).stands_for.get(name)
            if not there or there[:2] != (crate, file):
                sys.exit(f"{crate}/{file} does not define {name}")
            name = there[2]
        if (crate, file, name) not in done:
            done.add((crate, file, name))
            todo += cited(crate, file, name)
    return done


def compare(document, files, write):
    text = document.read_text()
    if text.count(BEGIN) != 1 or text.count(END) != 1:
        sys.exit(f"{document}: {BEGIN} and {END} must be there, once each")
    before, old, after = re.split(f"(?<={BEGIN})(.*)(?={END})", text, flags=re.S)
    new = "\n" + "".join(f"- `{file}`\n" for file in files)
    if write:
        document.write_text(before + new + after)
    elif old != new:
        sys.exit("\n".join(difflib.unified_diff(old.split("\n"), new.split("\n"), str(document), "tools/believed.py", lineterm="")))


def main(arguments):
    done = believed()
    rows = []  # of each spec file with definitions: its path, those that are reached, and the others
    for crate in ORDER:
        for path in sorted((CRATES / crate / "specs").glob("**/*.antt")):
            file = path.relative_to(CRATES / crate).as_posix()
            names = spec(crate, file).definitions
            if names:
                reached = [n for n in names if (crate, file, n) in done]
                rows.append((f"{crate}/{file}", reached, [n for n in names if n not in reached]))
    files = [path for path, reached, _ in rows if reached]
    if arguments == ["--files"]:
        print(*files, sep="\n")
    elif len(arguments) == 2 and arguments[0] in ("--check", "--write"):
        compare(Path(arguments[1]), files, arguments[0] == "--write")
    elif arguments:
        sys.exit(__doc__)
    else:
        lines = [f"{path}: {' '.join(reached)}" for path, reached, _ in rows if reached]
        types = sorted((ORDER.index(crate), crate, name) for crate, file, name in done if not file)
        lines += [f"declared in the code: {crate}::{name}" for _, crate, name in types]
        lines += [f"reached in part: {path}: not reached: {' '.join(rest)}" for path, reached, rest in rows if reached and rest]
        lines += [f"not reached: {path}" for path, reached, _ in rows if not reached]
        print(*lines, sep="\n")


if __name__ == "__main__":
    main(sys.argv[1:])
