#!/usr/bin/env python3
"""Spells the names that the specifications and lemma files declare as today's Rattle spells names.

usage: tools/respell.py [--table FILE] [--check]

A type, and what gives a type, is in upper camel case; everything else is in snake case, a prime is an apostrophe, and a dash stays only
between two names of definitions. Names of Rust's items, of variants and of goals keep their spelling. --table writes the rows old, tab, new;
--check changes no file. It is run once, right after the kit's own script, and finds nothing in what it has written.
"""
import collections
import os
import re
import sys

ROOT = os.path.dirname(os.path.dirname(os.path.abspath(__file__)))
BEFORE = r"(?:(?:pub|unfoldable|abbrev|opaque)\s+)*"
DECLARED = re.compile(rf"^({BEFORE})([^\s:(){{}},;.]+)((?:\s*[({{].*?[)}}])*)\s*:(\s.*)?$")
HEAD = re.compile(rf"^({BEFORE})(record|data)\s+(\S+)(.*)$")
OTHER = re.compile(r"^(pub\s+)?(use|mod|module|syntax|infix\w*|where|unfolding|let|in|λ|\|)(\s|$)")
TOKEN = re.compile(r"[^\s(){}.;,@\"«»\[\]|`]+")
GIVES_TYPE = re.compile(r"^Type(\s+\S+)?$")
# A rule of the document, and the letters that stand for a value within one file.
STAYS = re.compile(r"^(K\d+|[A-Z]|[a-z]\d?)$")


def folders():
    for crate in sorted(os.listdir(os.path.join(ROOT, "crates"))):
        yield crate, os.path.join(ROOT, "crates", crate)


def antt_files(top):
    for folder, below, files in os.walk(top):
        below[:] = sorted(d for d in below if d != "out")
        for name in sorted(files):
            if name.endswith(".antt"):
                yield os.path.join(folder, name)


def without_comments(text):
    return "\n".join("" if line.lstrip().startswith("--") else line for line in text.split("\n"))


def declarations(path):
    """(kind, name, type) of what a file declares at its top or in a module of it."""
    with open(path, encoding="utf-8") as file:
        lines = without_comments(file.read()).split("\n")
    inside = None
    for i, line in enumerate(lines):
        text = line.strip()
        depth = len(line) - len(line.lstrip())
        if not text:
            continue
        head = HEAD.match(text)
        if head and " : " in text and not head[3].startswith("{"):
            inside = (head[2], depth)
            yield "type", head[3], ""
            continue
        if depth == 0:
            inside = None
        if OTHER.match(text):
            continue
        found = DECLARED.match(text)
        if not found or depth > 2:
            continue
        of = found[4] or ""
        for more in lines[i + 1:]:
            if not more.strip() or len(more) - len(more.lstrip()) < depth + 4:
                break
            of += " " + more.strip()
        kind = "definition"
        if inside and depth > inside[1]:
            kind = "field" if inside[0] == "record" else "constructor"
        last = of.split("→")[-1].strip()
        if GIVES_TYPE.match(last):
            kind = "type"
        yield kind, found[2], of


def snake(name):
    name = re.sub(r"(?<=[a-z0-9])(?=[A-Z])", "_", name)
    return "_".join(w if re.fullmatch(r"[A-Z]\d*|K\d+", w) else w[:1].lower() + w[1:] for w in name.replace("·", "-").split("_"))


def camel(name):
    return "".join(w[:1].upper() + w[1:] for w in re.split(r"[-_]", name))


def spelled(kind, name, words):
    name = name.replace("′", "'")
    if STAYS.match(name):
        return name
    if kind == "type":
        return camel(name)
    parts = [snake(p) for p in re.split(r"[-·]", name)]
    return ("-" if all(words(left, right) for left, right in zip(parts, parts[1:])) else "_").join(parts)


# Names of the library's lists, beside which a dash stays where a definition of a specification stands on its other side.
LISTS = {"length", "take", "drop", "append", "map", "replicate", "tabulate", "get_or", "set", "sum"}
# A name that is taken where it is wanted: what is put behind it, by its kind.
TAKEN = {"definition": "_lem", "field": "_holds", "constructor": "_case", "type": "Fact"}


def tokens(text):
    return set(TOKEN.findall(text))


def declared():
    """The kinds of each declared name, whether a specification declares it, and the words of each file."""
    kinds, in_specs, words = collections.OrderedDict(), set(), {}
    for _, top in folders():
        for path in antt_files(top):
            with open(path, encoding="utf-8") as file:
                words[path] = tokens(without_comments(file.read()))
            inner = os.path.relpath(path, top).split(os.sep)
            if inner[0] == "proofs" and len(inner) > 2:
                continue
            for kind, name, of in declarations(path):
                choice = kind == "definition" and name[:1].isupper() and of.split("→")[-1].strip() == "Choice"
                kinds.setdefault(name, []).append("type" if choice else kind)
                if inner[0] == "specs":
                    in_specs.add(name)
        for folder, _, files in os.walk(os.path.join(top, "src")):
            for name in sorted(files):
                with open(os.path.join(folder, name), encoding="utf-8") as file:
                    words[os.path.join(folder, name)] = tokens(file.read())
    return kinds, in_specs, words


def kind_of(kinds):
    return "type" if all(k == "type" for k in kinds) else next(k for k in kinds if k != "type")


def meet(a, b, words):
    """Whether some file has both names."""
    return any(a in w and b in w for w in words.values())


def table():
    kinds, in_specs, words = declared()
    own = {snake(n) for n in in_specs if "definition" in kinds[n] and not re.search("[-·]", n)}
    joined = lambda left, right: left in LISTS and right in LISTS | own or right in LISTS and left in own
    rows = collections.OrderedDict()
    for name, of in kinds.items():
        kind = kind_of(of)
        if kind == "type" and name[:1].isupper() and not re.search("[-_·]", name):
            continue
        new = spelled(kind, name, joined)
        if new != name:
            rows[name] = new
    # A specification's definition comes first, and one in camel case before a name that has its spelling already and a lemma with dashes.
    wanted = collections.defaultdict(list)
    for name, new in rows.items():
        wanted[new].append(name)
    for new, names in wanted.items():
        if new in kinds:
            names.append(new)
        names.sort(key=lambda n: (n not in in_specs, kind_of(kinds[n]) != "definition", n == new, "-" in n))
        for i, name in enumerate(names):
            if any(meet(name, other, words) for other in names[:i]):
                rows[name] = new + TAKEN[kind_of(kinds[name])]
    return rows


CODE = re.compile(r"`[^`\n]*`|[A-Za-z]*[a-z][A-Z]\w*")


def turned(text, rows, of_goals=False):
    """In a function's own proof, what stands behind a dot and is no row's plain spelling is the name of a call: it has the source's."""

    def new(m):
        made = rows.get(m[0], m[0])
        if of_goals and m.start() and text[m.start() - 1] == "." and made.endswith("_lem"):
            return m[0].replace("-", "_")
        return made

    return TOKEN.sub(new, text)


def turned_prose(text, rows):
    return CODE.sub(lambda m: turned(m[0], rows), text)


def turned_file(path, text, rows):
    if path.endswith(".md"):
        return turned_prose(text, rows)
    if not path.endswith(".antt"):
        # A function of the source keeps its name, so only what could not be one turns here.
        rows = {old: new for old, new in rows.items() if not re.fullmatch(r"[a-z0-9_]+", old)}
    mark = "--" if path.endswith(".antt") else "//"
    of_goals = re.search(r"/proofs/[^/]+/[^/]", path) is not None
    made = []
    for line in text.split("\n"):
        code, comment = line, ""
        if line.lstrip().startswith(mark):
            code, comment = "", line
        made.append(turned(code, rows, of_goals) + turned_prose(comment, rows))
    return "\n".join(made)


def texts():
    for top in ("crates", "docs"):
        for folder, below, files in os.walk(os.path.join(ROOT, top)):
            below[:] = sorted(d for d in below if d != "out")
            for name in sorted(files):
                if name.endswith((".antt", ".rt", ".edit", ".md")):
                    yield os.path.join(folder, name)
    yield os.path.join(ROOT, "README.md")


def main():
    rows = table()
    if "--table" in sys.argv:
        with open(sys.argv[sys.argv.index("--table") + 1], "w", encoding="utf-8") as file:
            file.writelines(f"{old}\t{new}\n" for old, new in rows.items())
    changed = 0
    for path in texts():
        with open(path, encoding="utf-8") as file:
            text = file.read()
        new = turned_file(path, text, rows)
        if new != text:
            changed += 1
            if "--check" not in sys.argv:
                with open(path, "w", encoding="utf-8") as file:
                    file.write(new)
    print(f"respell: {len(rows)} names, {changed} files")


if __name__ == "__main__":
    main()
