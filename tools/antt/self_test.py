"""Definitions, and what they have to give: tools/run_definitions.py --self-test."""
import tempfile
from pathlib import Path

from antt.natives import Fault, chain, unchained
from antt.python import Translation
from antt.reader import Library

FIRST = """\
-- operators, lists, records
use Prim.Native.Nat.{ℕ, zero, suc, ◌+◌, ◌-◌, ◌*◌, ◌/◌, ◌%◌, ◌^◌}
use mathlib.Core.Bool.{Bool, true, false, ◌&&◌, ◌||◌, not}
use mathlib.Core.List.{List, [], ◌∷◌, ◌++◌, map}
use lib.Dec.{eqb, ltb, leb}
use lib.ListN.{get_or, length, take, drop, replicate}
use Rattle.std.specs.Prelude.{◌==◌, nat_eq, nat_lt, nat_le, slice_index, slice_index_or}

pub data Shape : Type 0 where
  dot : Shape
  line box : ℕ → ℕ → Shape

pub record Box : Type 0 where
  pub left : ℕ
  pub inner : List ℕ

infixl 20 ◌▷◌
abbrev pub ◌▷◌ : ℕ → (ℕ → ℕ) → ℕ
n ▷ f = f n

unfoldable pub sums : ℕ → ℕ → ℕ
sums a b = a + b * 2 ^ 3 - 1 / 2 % 7

unfoldable pub minus : ℕ → ℕ
minus n = 3 - n + 1 - 10 % 4

unfoldable pub by_zero : ℕ → List ℕ
by_zero n = n / 0 ∷ n % 0 ∷ n ^ 0 ∷ []

unfoldable pub lists : ℕ → List ℕ
lists n = n ∷ 2 ∷ [] ++ 3 ∷ [] ++ take 1 (drop 1 (replicate n 7))

unfoldable pub half : ℕ → ℕ
half zero = 0
half (suc zero) = 0
half (suc (suc n)) = suc (half n)

unfoldable pub size : Shape → ℕ
size dot = 0
size (line a b) = a
size (box zero b) = b
size (box (suc a) b) =
    elim (eqb a b) [
      | true ↦ 100
      | false ↦ elim b [ zero ↦ a | suc n ↦ n ]
    ]

unfoldable pub sizes : List ℕ
sizes = size dot ∷ size (line 3 4) ∷ size (box 0 5) ∷ size (box 6 5) ∷ size (box 6 0) ∷ size (box 6 3) ∷ []

unfoldable pub boxed : ℕ → List ℕ → Box
boxed n xs = record { left = n; inner = n ∷ xs; }

unfoldable pub second : Box → ℕ
second b = get_or b.inner 1 b.left + length (boxed 1 []).inner

unfoldable pub seconds : List ℕ
seconds = second (boxed 4 (9 ∷ [])) ∷ second (boxed 4 []) ∷ []

unfoldable pub through : ℕ → ℕ
through n = n ▷ (λ x. x + 1) ▷ sums 1 ▷ λ x. let (a, b) = (x, 2) in let c : ℕ = a * b in c

unfoldable pub safe : ℕ → Bool
safe n = ltb n 3 && not (leb n 1) || eqb n 9

unfoldable pub same : ℕ → Bool
same n = n + 1 == 3 && nat_lt n 3 || nat_eq n 5 && nat_le 5 n

unfoldable pub indexed : List ℕ → List ℕ
indexed xs = slice_index xs 1 ∷ slice_index_or xs 2 9 ∷ []
"""
SECOND = """\
use Rattle.std.specs.Prelude.{ℕ, zero, suc, ◌+◌, ◌*◌, Bool, true, false, List, [], ◌∷◌, map}
use Rattle.first.specs.First.{Shape, dot}
use Rattle.fourth.specs.first_crate.First.{line as stroke, size, ◌▷◌}
use Rattle.second.specs.declared.Way.TheVariants.{North}
use Rattle.fourth.specs.second_crate.declared.Way.TheVariants.{Up}

-- a variable may have the name of a function; a constructor may stand with some of its parts
unfoldable pub shadows : (ℕ → ℕ) → List ℕ → List ℕ
shadows map [] = []
shadows map (x ∷ xs) = map x ∷ shadows map xs

unfoldable pub strokes : List ℕ → List ℕ
strokes xs = shadows (λ x. x * 2) (map (λ s. size s) (map (λ f. f 5) (map stroke xs)))

unfoldable pub count : {A : Type 0} → List A → ℕ → ℕ
count [] n = n
count (x ∷ xs) n = count {A = ℕ} xs (n + 1)

-- closures that are kept while the function goes on
unfoldable pub adders : List ℕ → List (ℕ → ℕ) → List (ℕ → ℕ)
adders [] fs = fs
adders (x ∷ xs) fs = adders xs ((λ n. n + x) ∷ fs)

unfoldable pub added : List ℕ → List ℕ
added xs = map (λ f. f 100) (adders xs [])

unfoldable pub helped : ℕ → ℕ → ℕ
helped n m = twice (inner m)
  where
    inner : ℕ → ℕ
    inner zero = n
    inner (suc k) = k * 10
    twice : ℕ → ℕ
    twice k = inner k + k

module _ {A : Type 0} (start : ℕ) (step : ℕ → ℕ) where
  unfoldable pub walk : ℕ → ℕ
  walk zero = start
  walk (suc n) = step (walk n)

  unfoldable pub twice : ℕ → ℕ
  twice n = walk (n + n)

unfoldable pub walked : ℕ → ℕ
walked n = twice 3 (λ x. x * 2) n

unfoldable pub turned : ℕ → ℕ
turned n = elim (elim n [ zero ↦ North | suc m ↦ Up m ]) [ North ↦ 7 | Up k ↦ k ]

unfoldable pub choose : Bool → ℕ → ℕ → ℕ
choose b x y = elim b [ true ↦ x | false ↦ y ]

unfoldable pub chosen : ℕ → ℕ
chosen n = choose (below n) (size dot) (turned n)

unfoldable pub below : ℕ → Bool
below = elim [ zero ↦ true | suc n ↦ false ]
"""
# Crates that pass others on
LIBS = [
    ("third", "pub use Rattle.first.specs as first_crate\n"),
    ("fourth", "pub mod Own\npub use Rattle.second.specs as second_crate\npub use Rattle.third.specs.first_crate\n"),
]
VALUES = [
    ("sums", (1, 2), 17),
    ("minus", (1,), 1),
    ("minus", (5,), 0),
    ("by_zero", (6,), [0, 6, 1]),
    ("lists", (4,), [4, 2, 3, 7]),
    ("lists", (1,), [1, 2, 3]),
    ("half", (7,), 3),
    ("sizes", (), [0, 3, 5, 100, 5, 2]),
    ("seconds", (), [10, 5]),
    ("through", (3,), 66),
    ("safe", (1,), False),
    ("safe", (2,), True),
    ("safe", (3,), False),
    ("safe", (9,), True),
    ("same", (2,), True),
    ("same", (1,), False),
    ("same", (5,), True),
    ("indexed", ([4, 5],), [5, 9]),
    ("indexed", ([4],), [0, 9]),
    ("strokes", ([1, 2],), [2, 4]),
    ("count", ([5, 6, 7], 10), 13),
    ("added", ([1, 2, 3],), [103, 102, 101]),
    ("helped", (4, 0), 34),
    ("helped", (4, 2), 100),
    ("walked", (2,), 48),
    ("turned", (0,), 7),
    ("turned", (5,), 4),
    ("chosen", (0,), 0),
    ("chosen", (3,), 2),
]
# A text behind FIRST whose function `wrong` is refused at 3, and what is said.
WRONG = [
    ("wrong zero = 1", "no clause"),
    ("wrong n = m", "m is not known"),
    ("wrong n = elim n [ zero ↦ 0 | suc (k → h) ↦ h ]", "no pattern"),
    ("wrong n = (n + 1", "expected"),
    ("wrong n = elim n [ zero ↦ 0 | suc k ↦ k", "expected"),
    ("wrong n = do n", "do is not known"),
    ("wrong (line a) = a", "parts of line"),
    ("wrong n = elim n [ none ↦ 0 | suc k ↦ k ]", "nothing is left"),
]
# What is executed where a function is computed at a number: of a side that is not needed nothing, not even an argument.
BRANCHES = [
    ("safe", 2, "ltb n 3 is true", True),
    ("safe", 2, "ltb n 3 is false", False),
    ("safe", 2, "not (leb n 1) is true", True),
    ("safe", 2, "eqb n 9 is true", False),
    ("safe", 2, "eqb n 9 is false", False),
    ("safe", 4, "ltb n 3 is false", True),
    ("safe", 4, "not (leb n 1) is true", False),
    ("safe", 4, "eqb n 9 is false", True),
    ("half", 1, "half (suc zero)", True),
    ("half", 1, "half (suc (suc n))", False),
    ("turned", 5, "elim n [ zero ]", False),
    ("turned", 5, "elim n [ suc m ]", True),
    ("chosen", 3, "chosen n", True),
    ("chosen", 3, "choose (below n): elim b [ true ]", False),
    ("chosen", 3, "choose (below n): elim b [ false ]", True),
    ("chosen", 3, "size dot", False),
    ("chosen", 0, "size dot", True),
    ("added", chain([1]), "adders (x ∷ xs) fs = λ n.", True),
    ("added", (), "adders (x ∷ xs) fs = λ n.", False),
]


def given(value):
    """A value with its lists as Python lists."""
    return unchained(value) if isinstance(value, tuple) else value


def library_of(folder, more=""):
    """The files, in a folder."""
    libs = [(crate, "Lib", text) for crate, text in LIBS]
    for crate, name, text in [("first", "First", FIRST + more), ("second", "Second", SECOND), *libs]:
        file = Path(folder) / f"crates/{crate}/specs/{name}.antt"
        file.parent.mkdir(parents=True, exist_ok=True)
        file.write_text(text)
    return Library(folder)


def function_of(library, translation, name):
    """A function of one of the two files."""
    path = "first/specs/First" if f" {name} :" in FIRST else "second/specs/Second"
    return translation.function(library.unit(f"crates/{path}.antt").find(name))


def value_faults(folder):
    """What the definitions give otherwise than they should."""
    library, faults = library_of(folder), []
    translation = Translation(library)
    for name, arguments, expected in VALUES:
        function = function_of(library, translation, name)
        translation.forget()
        found = given(function(*(chain(a) if isinstance(a, list) else a for a in arguments)))
        if found != expected:
            faults.append(f"{name} {arguments} is {found}")
    return faults


def branch_faults(folder):
    """Branches that are noted though they are not executed, or the other way round."""
    library, faults = library_of(folder), []
    translation = Translation(library, lambda unit: True)
    for name, argument, label, expected in BRANCHES:
        function = function_of(library, translation, name)
        translation.forget()
        function(argument)
        labels = [branch.label for branch in translation.branches]
        if labels.count(label) != 1 or (labels.index(label) in translation.executed()) != expected:
            faults.append(f"{name} {argument}: {label}")
    return faults


def refusal_faults(folder):
    """Texts that are not refused as they should be."""
    faults = []
    for text, said in WRONG:
        library = library_of(folder, f"\nunfoldable pub wrong : ℕ → ℕ\n{text}\n")
        wrong = library.unit("crates/first/specs/First.antt").find("wrong")
        try:
            Translation(library).function(wrong)(3)
            faults.append(f"{text!r} is not refused")
        except Fault as fault:
            if said not in str(fault):
                faults.append(f"{text!r}: {fault}")
    return faults


def faults():
    """All that is wrong."""
    with tempfile.TemporaryDirectory() as folder:
        return value_faults(folder) + branch_faults(folder) + refusal_faults(folder)
