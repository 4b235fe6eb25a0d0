"""What is not read from a text: numbers, Bool, lists and their functions in the libraries, with their Python texts.

A number is an int, a Bool a bool, a list () or (head, tail).
"""
from dataclasses import dataclass


class Fault(Exception):
    """What is not understood, or has no clause."""


@dataclass(frozen=True)
class Constructor:
    """How a value is made of its parts and taken apart. `family` are the names of all constructors of its type."""

    name: str
    arity: int  # None: a variant of a Rattle enum, which is always written with all its parts
    make: str  # a Python text with {} for each part
    test: str  # with {} for the value
    parts: tuple  # each with {} for the value
    family: frozenset = frozenset()
    number: object = None  # what its values begin with

    def parts_in(self, value):
        """The parts of a value that it made, or None."""
        return value[1:] if value[0] == self.number else None


@dataclass(frozen=True)
class Primitive:
    """A function of a library."""

    arity: int
    make: str


def numbered(name, arity, number, family=frozenset()):
    """A constructor of a declared type: a value is the tuple of its number and its parts."""
    make = "(" + ", ".join([repr(number), *["{}"] * (arity or 0)]) + ",)"
    parts = tuple(f"{{}}[{k + 1}]" for k in range(arity or 0))
    return Constructor(name, arity, make, f"{{}}[0] == {number!r}", parts, family, number)


BOOL, NAT, LIST = frozenset({"true", "false"}), frozenset({"zero", "suc"}), frozenset({"[]", "◌∷◌"})
NAMES = {
    "Prim.Native.Nat": {
        "zero": Constructor("zero", 0, "0", "not {}", (), NAT),
        "suc": Constructor("suc", 1, "({} + 1)", "{}", ("({} - 1)",), NAT),
        "◌+◌": Primitive(2, "({} + {})"),
        "◌*◌": Primitive(2, "({} * {})"),
        "◌-◌": Primitive(2, "less({}, {})"),
        "◌/◌": Primitive(2, "quotient({}, {})"),
        "◌%◌": Primitive(2, "remainder({}, {})"),
        "◌^◌": Primitive(2, "({} ** {})"),
    },
    "mathlib.Core.Bool": {
        "true": Constructor("true", 0, "True", "{}", (), BOOL),
        "false": Constructor("false", 0, "False", "not {}", (), BOOL),
        "not": Primitive(1, "(not {})"),
        "◌&&◌": Primitive(2, "({} and {})"),
        "◌||◌": Primitive(2, "({} or {})"),
    },
    "mathlib.Core.List": {
        "[]": Constructor("[]", 0, "()", "not {}", (), LIST),
        "◌∷◌": Constructor("◌∷◌", 2, "({}, {})", "{}", ("{}[0]", "{}[1]"), LIST),
        "◌++◌": Primitive(2, "joined({}, {})"),
        "map": Primitive(2, "mapped({}, {})"),
    },
    "lib.Dec": {
        "eqb": Primitive(2, "({} == {})"),
        "ltb": Primitive(2, "({} < {})"),
        "leb": Primitive(2, "({} <= {})"),
    },
    "lib.ListN": {
        "length": Primitive(1, "length({})"),
        "get_or": Primitive(3, "element({}, {}, {})"),
        "take": Primitive(2, "taken({}, {})"),
        "drop": Primitive(2, "dropped({}, {})"),
        "replicate": Primitive(2, "repeated({}, {})"),
    },
    "Rattle.core.specs.Bool": {
        "◌==◌": Primitive(2, "({} == {})"),
        "nat_eq": Primitive(2, "({} == {})"),
        "nat_lt": Primitive(2, "({} < {})"),
        "nat_le": Primitive(2, "({} <= {})"),
    },
    "Rattle.core.specs.List": {
        "slice_index": Primitive(2, "element({}, {}, 0)"),
        "slice_index_or": Primitive(3, "element({}, {}, {})"),
    },
}
# These pass the same names on.
NAMES["Rattle.std.specs.Prelude"] = NAMES["Rattle.std.proofs.Common"] = {
    name: found for names in list(NAMES.values()) for name, found in names.items()
}
# the levels and sides that the libraries declare
FIXITIES = {
    "◌+◌": (65, "infixl"),
    "◌-◌": (65, "infixl"),
    "◌*◌": (70, "infixl"),
    "◌/◌": (70, "infixl"),
    "◌%◌": (70, "infixl"),
    "◌^◌": (75, "infixr"),
    "◌&&◌": (35, "infixl"),
    "◌||◌": (30, "infixl"),
    "◌==◌": (40, "infix"),
    "◌∷◌": (67, "infixr"),
    "◌++◌": (65, "infixl"),
}


def chain(values, end=()):
    """A list of these values, and behind them those of another."""
    for value in reversed(list(values)):
        end = (value, end)
    return end


def unchained(xs):
    """The values of a list."""
    found = []
    while xs:
        found.append(xs[0])
        xs = xs[1]
    return found


def length(xs):
    count = 0
    while xs:
        count += 1
        xs = xs[1]
    return count


def element(xs, index, otherwise):
    while xs:
        if index == 0:
            return xs[0]
        xs = xs[1]
        index -= 1
    return otherwise


def dropped(count, xs):
    while xs and count:
        xs = xs[1]
        count -= 1
    return xs


def no_clause(where):
    raise Fault(f"{where}: no clause")


# What the texts above call; to divide by zero gives 0, and leaves the number.
FUNCTIONS = {
    "less": lambda a, b: a - b if a > b else 0,
    "quotient": lambda a, b: a // b if b else 0,
    "remainder": lambda a, b: a % b if b else a,
    "joined": lambda xs, ys: chain(unchained(xs), ys) if ys else xs,
    "mapped": lambda f, xs: chain([f(x) for x in unchained(xs)]),
    "taken": lambda count, xs: chain(unchained(xs)[:count]),
    "repeated": lambda count, x: chain([x] * count),
    "length": length,
    "element": element,
    "dropped": dropped,
    "no_clause": no_clause,
}
