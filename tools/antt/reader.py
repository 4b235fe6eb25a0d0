"""Reads definitions in antt.

A file is read by its layout: each declaration begins in the first column of its block. A clause is parsed only when it is asked
for, so that statements of theorems and proofs may stand in the same files. Types are passed over.
"""
import re
from dataclasses import dataclass, field, replace
from pathlib import Path

from antt.natives import FIXITIES, NAMES, Fault, numbered

NAME = r'[^\s(){}.;,@"«»]+'
SKIPPED = r"\s+|--[^\n]*|\{-.*?-\}"
TOKEN = re.compile(rf'(?P<skip>{SKIPPED})|(?P<token>«[^»]*»|"(?:[^"\\]|\\.)*"|\.{NAME}|[(){{}}.;,@]|{NAME})', re.S)
NUMERAL = re.compile(r"(0[xob][0-9a-f_]+|0|[1-9][0-9_]*)$")
MARKS = {"unfoldable", "abbrev", "pub", "axiom"}
PASSED_ON = re.compile(r"^pub use Rattle\.(\w+)\.specs(?:\.(\w+))?(?: as (\w+))?$", re.M)
OPENS, CLOSES = {"(", "{"}, {")", "}"}
ENDS = {")", "}", "[", "]", "|", "↦", ";", ",", ".", ":", "=", "in", "where", "as"}  # of an application


@dataclass(frozen=True)
class Token:
    text: str
    line: int
    column: int
    first: bool  # on its line
    tight: bool  # nothing between it and the one before


def tokens_of(text):
    """The tokens of a file, without comments."""
    found, at, line, start, first, tight = [], 0, 1, 0, True, False
    while at < len(text):
        match = TOKEN.match(text, at)
        if not match:
            raise Fault(f"line {line}: {text[at]!r} is not read")
        if match["token"]:
            found.append(Token(match["token"].strip("«»"), line, at - start, first, tight))
            first, tight = False, True
        else:
            breaks = match["skip"].count("\n")
            if breaks:
                line, start, first = line + breaks, at + match["skip"].rindex("\n") + 1, True
            tight = False
        at = match.end()
    return found


def items_of(tokens):
    """The declarations of a block: each begins on a line of its own in the block's column."""
    items = []
    for token in tokens:
        if not items or token.first and token.column <= tokens[0].column:
            items.append([])
        items[-1].append(token)
    return items


def outside(tokens, texts):
    """The index of the first token with one of these texts that is in no bracket, or None."""
    depth = 0
    for index, token in enumerate(tokens):
        if depth == 0 and token.text in texts:
            return index
        depth += (token.text in OPENS) - (token.text in CLOSES)
    return None


def shown(tokens):
    """Tokens as a text on one line."""
    return "".join(token.text if index == 0 or token.tight else " " + token.text for index, token in enumerate(tokens))


# Expressions, which are patterns too. The tokens of which one is made serve to name it.


@dataclass(frozen=True)
class Expression:
    tokens: tuple = field(repr=False, compare=False)

    def inside(self):
        """The expressions in it."""
        waiting = [value for name, value in vars(self).items() if name != "tokens"]
        while waiting:
            value = waiting.pop()
            if isinstance(value, Expression):
                yield value
            elif isinstance(value, tuple):
                waiting += value


@dataclass(frozen=True)
class Number(Expression):
    value: int


@dataclass(frozen=True)
class Variable(Expression):
    name: str


@dataclass(frozen=True)
class Apply(Expression):
    function: Expression
    arguments: tuple


@dataclass(frozen=True)
class Lambda(Expression):
    binders: tuple
    body: Expression


@dataclass(frozen=True)
class Elim(Expression):
    scrutinee: Expression
    cases: tuple  # of pairs: pattern, body


@dataclass(frozen=True)
class Let(Expression):
    binder: Expression
    value: Expression
    body: Expression


@dataclass(frozen=True)
class Record(Expression):
    fields: tuple  # of pairs: name, value


@dataclass(frozen=True)
class Project(Expression):
    value: Expression
    label: str


@dataclass(frozen=True)
class Tuple(Expression):
    parts: tuple


def variables_in(expression):
    """The names that are in an expression."""
    found = {expression.name} if isinstance(expression, Variable) else set()
    return found.union(*(variables_in(part) for part in expression.inside()))


def heads_in(expression):
    """The names that are applied to something in an expression."""
    head = expression.function if isinstance(expression, Apply) else None
    found = {head.name} if isinstance(head, Variable) else set()
    return found.union(*(heads_in(part) for part in expression.inside()))


class Parser:
    """Parses the tokens of one expression. `operator` says of a text level, side and name of an infix operator, or None."""

    def __init__(self, tokens, operator):
        self.tokens, self.operator, self.at = tokens, operator, 0

    def peek(self):
        return self.tokens[self.at].text if self.at < len(self.tokens) else None

    def next(self):
        self.at += 1
        return self.tokens[self.at - 1]

    def expect(self, text):
        if self.peek() != text:
            where = self.tokens[min(self.at, len(self.tokens) - 1)]
            raise Fault(f"line {where.line}: {text} expected at {where.text}")
        return self.next()

    def since(self, start):
        return tuple(self.tokens[start : self.at])

    def whole(self):
        parsed = self.expression()
        if self.peek() is not None:
            self.expect("the end")
        return parsed

    def expression(self, least=0):
        start = self.at
        left = self.application()
        while (known := self.peek() and self.operator(self.peek())) and known[0] >= least:
            level, side, name = known
            sign = Variable((self.next(),), name)
            right = self.expression(level + (side != "infixr"))
            left = Apply(self.since(start), sign, (left, right))
        return left

    def projects(self):
        """Whether a field's name comes next."""
        return self.peek() is not None and self.peek().startswith(".") and self.peek() != "."

    def application(self):
        start = self.at
        found = self.atom()
        while (text := self.peek()) is not None and text not in ENDS and not self.operator(text):
            if text == "{":
                self.implicit()
            elif self.projects():
                label = self.next().text[1:]
                found = Project(self.since(start), found, label)
            else:
                argument = self.atom()
                function, before = (found.function, found.arguments) if isinstance(found, Apply) else (found, ())
                found = Apply(self.since(start), function, (*before, argument))
        return found

    def atom(self):
        start, text = self.at, self.peek()
        if text is None or text in ENDS or self.projects():
            self.expect("an expression")
        if text in ("λ", "let", "elim", "record"):
            return {"λ": self.function, "let": self.let, "elim": self.elim, "record": self.record}[text]()
        if text == "(":
            found = self.parenthesis()
        elif NUMERAL.match(text):
            found = Number((self.next(),), int(text.replace("_", ""), 0))
        else:
            found = Variable((self.next(),), text)
        while self.projects() and self.tokens[self.at].tight:
            label = self.next().text[1:]
            found = Project(self.since(start), found, label)
        return found

    def implicit(self):
        """Passes over an implicit argument."""
        depth = 0
        while True:
            text = self.next().text
            depth += (text == "{") - (text == "}")
            if depth == 0:
                return

    def parenthesis(self):
        start = self.at
        self.expect("(")
        parts = [self.expression()]
        while self.peek() == ",":
            self.next()
            parts.append(self.expression())
        self.expect(")")
        return Tuple(self.since(start), tuple(parts)) if len(parts) > 1 else replace(parts[0], tokens=self.since(start))

    def binder(self):
        """A variable, one with its type in parentheses, or a tuple of variables."""
        start = self.at
        if self.peek() != "(":
            if self.peek() in ENDS | OPENS:
                self.expect("a variable")
            return Variable((self.next(),), self.tokens[start].text)
        end = start + 1 + outside(self.tokens[start + 1 :], {")"})
        colon = outside(self.tokens[start + 1 : end], {":"})
        if colon is None:
            return self.parenthesis()
        if colon != 1:
            self.at += 2
            self.expect(":")
        self.at = end + 1
        return Variable((self.tokens[start + 1],), self.tokens[start + 1].text)

    def function(self):
        start = self.at
        self.expect("λ")
        binders = [self.binder()]
        while self.peek() != ".":
            binders.append(self.binder())
        self.expect(".")
        body = self.expression()
        return Lambda(self.since(start), tuple(binders), body)

    def let(self):
        start = self.at
        self.expect("let")
        binder = self.binder()
        if self.peek() == ":":
            self.at += outside(self.tokens[self.at :], {"="})
        self.expect("=")
        value = self.expression()
        self.expect("in")
        body = self.expression()
        return Let(self.since(start), binder, value, body)

    def elim(self):
        """`elim e [ .. ]`, or `elim [ .. ]`, which is a function. A motive is passed over."""
        start = self.at
        self.expect("elim")
        scrutinee = None if self.peek() == "[" else self.application()
        if self.peek() == "as":
            self.at += outside(self.tokens[self.at :], {"["})
        self.expect("[")
        cases = []
        while self.peek() != "]":
            if self.peek() == "|":
                self.next()
            pattern = self.expression()
            self.expect("↦")
            cases.append((pattern, self.expression()))
        self.expect("]")
        tokens = self.since(start)
        if scrutinee is not None:
            return Elim(tokens, scrutinee, tuple(cases))
        taken = Variable(tokens, "the scrutinee")
        return Lambda(tokens, (taken,), Elim(tokens, taken, tuple(cases)))

    def record(self):
        start = self.at
        self.expect("record")
        self.expect("{")
        fields = []
        while self.peek() != "}":
            label = self.next().text
            self.expect("=")
            fields.append((label, self.expression()))
            if self.peek() == ";":
                self.next()
        self.expect("}")
        return Record(self.since(start), tuple(fields))


# Declarations


@dataclass(eq=False)
class Block:
    """A `module _ (parameters) where`: its definitions take the explicit parameters first."""

    parameters: list
    outer: object

    def all(self):
        return [*(self.outer.all() if self.outer else []), *self.parameters]

    def holds(self, block):
        """Whether a block is this one or inside it."""
        while block is not None and block is not self:
            block = block.outer
        return block is not None


@dataclass(frozen=True)
class Clause:
    left: list  # its tokens before =
    patterns: tuple
    body: Expression
    where: list  # the tokens of its where block


@dataclass(eq=False)
class Definition:
    unit: object
    name: str
    line: int
    marks: set
    signature: list
    block: Block
    texts: list = field(default_factory=list)  # the tokens of its clauses
    parsed: list = None

    @property
    def place(self):
        return f"{self.unit.shown}:{self.line}"

    def types(self):
        """Its signature at the arrows, without implicit arguments: the types of the arguments, and last that of the result."""
        parts, rest = [], self.signature
        while (arrow := outside(rest, {"→"})) is not None:
            parts, rest = [*parts, rest[:arrow]], rest[arrow + 1 :]
        return [shown(part) for part in [*parts, rest] if part[0].text != "{"]

    def clauses(self):
        if self.parsed is None:
            self.parsed = [self.unit.clause(tokens) for tokens in self.texts]
        if not self.parsed:
            raise Fault(f"{self.place}: {self.name} has no clause")
        return self.parsed

    def outer(self):
        """The parameters of its block."""
        return self.block.all() if self.block else []


def explicit_names(tokens):
    """The names that groups such as (a b : A) bind; those in braces are implicit."""
    names, rest = [], tokens
    while rest:
        end = 1 + outside(rest[1:], CLOSES)
        if rest[0].text == "(":
            names += [token.text for token in rest[1 : 1 + outside(rest[1:end], {":"})]]
        rest = rest[end + 1 :]
    return names


def arity_of(signature):
    """How many explicit arguments a type takes."""
    count, rest = 0, signature
    while (arrow := outside(rest, {"→"})) is not None:
        part, rest = rest[:arrow], rest[arrow + 1 :]
        binds = part[0].text in OPENS and outside(part[1:], {":"}) is not None
        count += len(explicit_names(part)) if binds else 1
    return count


class Unit:
    """A file: what it declares and what its names stand for."""

    def __init__(self, library, path):
        self.library, self.shown = library, str(path.relative_to(library.root))
        self.used, self.data, self.definitions, self.constructors, self.fixities = {}, {}, {}, {}, {}
        self.latest = None  # the definition whose signature was read last
        for item in items_of(tokens_of(path.read_text())):
            self.declare(item, None)

    def declare(self, item, block):
        marks = set()
        while item[0].text in MARKS:
            marks.add(item[0].text)
            item = item[1:]
        head = item[0].text
        if head == "use":
            self.use(item[1:])
        elif head in ("infix", "infixl", "infixr"):
            self.fixities.update({token.text: (int(item[1].text), head) for token in item[2:]})
        elif head == "module":
            start = next(i for i, token in enumerate(item) if token.text == "where")
            inner = Block(explicit_names(item[2:start]), block)
            for one in items_of(item[start + 1 :]):
                self.declare(one, inner)
        elif head == "mutual":
            for one in items_of(item[1:]):
                self.declare(one, block)
        elif head == "data":
            self.declare_data(item)
        elif head not in ("record", "mod", "unfolding", "open", "ruleset"):
            self.define(item, marks, block)

    def define(self, item, marks, block):
        """A signature, or a clause of the definition whose signature was the latest."""
        sign = outside(item, {":", "="})
        if sign is not None and item[sign].text == ":":
            self.latest = Definition(self, item[0].text, item[0].line, marks, item[sign + 1 :], block)
            self.definitions[self.latest.name] = self.latest
        elif self.latest is not None:
            self.latest.texts.append(item)

    def declare_data(self, item):
        """The constructors by their signatures. Two types of a file may have constructors of one name."""
        arities = {}
        start = next(i for i, token in enumerate(item) if token.text == "where")
        for one in items_of(item[start + 1 :]):
            colon = outside(one, {":"})
            if colon is not None and one[0].text != "deriving":
                arities.update({token.text: arity_of(one[colon + 1 :]) for token in one[:colon]})
        family = frozenset(arities)
        found = {name: numbered(name, arity, self.library.number(), family) for name, arity in arities.items()}
        self.data[item[1].text] = found
        for name in found:
            self.constructors.setdefault(name, []).append(found[name])

    def use(self, tokens):
        """`use PATH.{a, b as c}`: the names with the path that they come from."""
        brace = outside(tokens, {"{"})
        if brace is None:
            return
        path = "".join(token.text for token in tokens[:brace]).rstrip(".")
        rest = tokens[brace + 1 : -1]
        while rest:
            comma = outside(rest, {","})
            one, rest = (rest, []) if comma is None else (rest[:comma], rest[comma + 1 :])
            self.used[one[-1].text] = (path, one[0].text)

    def find(self, name):
        """What a name of this file stands for, or None: a variable, a type, or a name of the prelude."""
        if name in self.definitions:
            return self.definitions[name]
        if name in self.constructors:
            if len(self.constructors[name]) > 1:
                raise Fault(f"{self.shown}: {name} is a constructor of several types")
            return self.constructors[name][0]
        return self.library.named(*self.used[name]) if name in self.used else None

    def operator(self, text):
        """Level, side and name of an infix operator, or None."""
        name = f"◌{text}◌"
        level = self.fixities.get(name)
        if name in self.used:
            path, original = self.used[name]
            home = self.library.unit_of(path)
            level = FIXITIES.get(original) if home is None else home.fixities.get(original)
        return (*level, name) if level else None

    def parse(self, tokens):
        try:
            return Parser(tokens, self.operator).whole()
        except Fault as fault:
            raise Fault(f"{self.shown}: {fault}") from None

    def clause(self, tokens):
        equals, end = outside(tokens, {"="}), outside(tokens, {"where"})
        end = len(tokens) if end is None else end
        left = self.parse(tokens[:equals])
        patterns = left.arguments if isinstance(left, Apply) else ()
        return Clause(tokens[:equals], patterns, self.parse(tokens[equals + 1 : end]), tokens[end + 1 :])


class Library:
    """The files that were read, by path."""

    def __init__(self, root):
        self.root, self.units, self.passed, self.count = Path(root), {}, {}, 0

    def number(self):
        """A number for each constructor."""
        self.count += 1
        return self.count

    def unit(self, path):
        path = self.root / path
        if path not in self.units:
            if not path.is_file():
                raise Fault(f"{path.relative_to(self.root)} is missing")
            self.units[path] = Unit(self, path)
        return self.units[path]

    def passed_on(self, crate):
        """The crates that a crate passes on to those above, by the names that these use: of each the crate that it comes from, and its name there."""
        if crate not in self.passed:
            lib = self.root / f"crates/{crate}/specs/Lib.antt"
            found = PASSED_ON.findall(lib.read_text()) if lib.is_file() else []
            self.passed[crate] = {here or inner: (below, inner) for below, inner, here in found}
        return self.passed[crate]

    def at_home(self, path):
        """A path by the crate in which it ends, as Rattle.rows.specs.Walk for Rattle.graph.specs.rows_crate.Walk."""
        origin, *rest = path.split(".")
        if origin != "Rattle" or len(rest) < 3 or not (self.root / "crates" / rest[0]).is_dir():
            return path
        crate, part, *inside = rest
        while inside and inside[0] in self.passed_on(crate):
            crate, inner = self.passed_on(crate)[inside[0]]
            inside = [*filter(None, [inner]), *inside[1:]]
        return ".".join([origin, crate, part, *inside])

    def unit_of(self, path):
        """The file of a path such as Rattle.rows.specs.Walk, or None."""
        match = re.match(r"Rattle\.(\w+)\.(specs|proofs)\.(\w+)", self.at_home(path))
        if not match or match[3] == "declared" or not (self.root / "crates" / match[1]).is_dir():
            return None
        return self.unit(f"crates/{match[1]}/{match[2]}/{match[3]}.antt")

    def named(self, path, name):
        """What the name of a file, of a type in it, of a Rattle enum or of a library stands for; None for a type."""
        path = self.at_home(path)
        if (home := self.unit_of(path)) is not None:
            kind = path.split(".")[4:]
            return home.data[kind[0]][name] if kind else home.find(name)
        if path.endswith(".TheVariants"):
            return numbered(name, None, f"{path}.{name}")
        return NAMES.get(path, {}).get(name)
