#!/usr/bin/env python3
"""Runs the definitions of the Rust's functions on the recorded answers of the Rust.

    tools/run_definitions.py               fails if a listing differs, or a branch was not executed that should be
    tools/run_definitions.py --branches    also how many graphs executed each branch
    tools/run_definitions.py --root DIR    the definitions and answers of another copy of the project
    tools/run_definitions.py --self-test

The definitions are the texts in `crates/rust_*/specs`, with what they use of other specs. Relations are not read: `proofs/Executed.antt`
of `rust_run` has them as functions with a bound, and it is proved that what these give the relations have. Each graph of
`oracle/answers.txt` is decoded by `graph_in`, and `rust_listing` of what `executed` gives has to be the listing that the Rust gave. On
the graph `circle` the Rust does not return, and `executed` must not end. The outcomes that the prover finds for two graphs
(`Printed.antt`) have to be those that are found here.

petgraph's components are found here; what the record `TarjanScc` says of them is asked by `are_components`, in Python. With them the
functions of `rust_order` have to give the same order of the dynamic entries and the same modules on cycles as the project's own
definitions.

A branch is a clause, a branch of `elim` or of `when`, a lambda, or a value of an operand of && or ||. Those that no recorded
graph executes are in run_definitions.txt, each with the reason; none of them may be executed.
"""
import sys
import threading
from fnmatch import fnmatch
from pathlib import Path

sys.dont_write_bytecode = True
import antt.self_test  # noqa: E402
from antt.natives import Fault, chain, unchained  # noqa: E402
from antt.python import Translation  # noqa: E402
from antt.reader import Definition, Library  # noqa: E402
from graph_file import decoded  # noqa: E402

ROOT = Path(__file__).resolve().parent.parent
ALLOWED = Path(__file__).with_name("run_definitions.txt")
EXECUTED = "rust_run/proofs/Executed.antt"
PRINTED = "rust_run/proofs/Printed.antt"
ORDER = "rust_order/specs/DynamicEntries.antt"
BOUND = 10_000_000  # of the items that a drain pops, the calls of a walk, the rounds
CIRCLE_BOUND = 1_000


def watched(unit):
    """Whether the branches of a file are counted."""
    return unit == f"crates/{EXECUTED}" or fnmatch(unit, "crates/rust_*/specs/*")


class Different(Exception):
    """What a graph shows to be wrong."""


class NotEnded(Exception):
    """The bound is used up."""

    def __str__(self):
        return "the bound is used up"


# petgraph's components


def tarjan(nodes, succs):
    """Tarjan's strongly connected components, in the order in which the walk completes them."""
    index, low, stack, found = {}, {}, [], []

    def walk(node):
        index[node] = low[node] = len(index)
        stack.append(node)
        for other in succs(node):
            if other not in index:
                walk(other)
            if other in stack:
                low[node] = min(low[node], low[other])
        if low[node] == index[node]:
            start = stack.index(node)
            found.append(stack[start:])
            del stack[start:]

    for node in nodes:
        if node not in index:
            walk(node)
    return found


def reached(node, succs):
    """The nodes to which a path leads."""
    found, waiting = {node}, [node]
    while waiting:
        new = set(succs(waiting.pop())) - found
        found |= new
        waiting += new
    return found


def are_components(nodes, succs, components, completed):
    """What the record `TarjanScc` says; `completed` are the nodes as the walk completed them, the last first."""
    if not all(components) or not sorted(nodes) == sorted(completed) == sorted(sum(components, [])):
        return False
    to = {node: reached(node, succs) for node in nodes}
    connected = [{n for n in nodes if n in to[m] and m in to[n]} for m in nodes]
    last = [min(completed.index(node) for node in component) for component in components]
    return all(set(component) in connected for component in components) and last == sorted(last, reverse=True)


# All graphs


class Definitions:
    """The definitions that are called from here."""

    def __init__(self, root):
        self.library = Library(root)
        self.translation = Translation(self.library, watched)
        find = self.find
        self.graph_in = find("graph/specs/Check.antt", "graph_in")
        self.circle = find("rust_returns/specs/Example.antt", "circle")
        self.executed = find(EXECUTED, "executed")
        self.entry_graph_made = find(EXECUTED, "entry_graph_made")
        self.depth_first = find(EXECUTED, "depth_first")
        self.sorted_by = find(EXECUTED, "sorted_by")
        self.neighbors = find(ORDER, "neighbors")
        self.unentered = find(ORDER, "unentered")
        self.cycled = find(ORDER, "cycled_dynamic_entries")
        self.sorted_entries = find("dynamic_entries/specs/Sorted.antt", "sorted_entries")
        self.on_cycle = find("dynamic_entries/specs/Sorted.antt", "on_cycle")
        self.rust_listing = find("rust_listing/specs/Listing.antt", "rust_listing")
        self.ended = self.library.unit(f"crates/{EXECUTED}").find("ended")

    def find(self, path, name):
        return self.translation.function(self.library.unit(f"crates/{path}").find(name))

    def value(self, result):
        """What an executed function ended with."""
        parts = self.ended.parts_in(result)
        if parts is None:
            raise NotEnded
        return parts[0]

    def components(self, g):
        """The components of the graph of the dynamic entries."""
        graph = self.value(self.entry_graph_made(g, BOUND))
        walked = self.value(self.depth_first(lambda m: self.neighbors(graph, m), BOUND, graph["nodes"], self.unentered()))

        def succs(node):
            return unchained(self.neighbors(graph, node))

        nodes = unchained(graph["nodes"])
        found = tarjan(nodes, succs)
        if not are_components(nodes, succs, found, unchained(walked["completed"])):
            raise Different(f"components {found} of nodes {nodes}")
        return chain(chain(component) for component in found)

    def check_order(self, g):
        """By the components the functions of rust_order give the project's order."""
        sccs = self.components(g)
        if unchained(self.sorted_by(g, sccs)) != unchained(self.sorted_entries(g)):
            raise Different("the order of the dynamic entries")
        if set(unchained(self.cycled(sccs))) != {m for m in range(g["header"]["modules"]) if self.on_cycle(g, m)}:
            raise Different("the modules on cycles")

    def check_graph(self, numbers, answer):
        """The definitions give the recorded answer."""
        g = self.graph_in(numbers)
        self.check_order(g)
        outcome = self.value(self.executed(g, BOUND))
        plain(outcome, g)  # the listing asks for the helper words of normal modules only
        given = self.listing(g, outcome)
        if given != answer:
            raise Different(f"the listing\n  {given}\nwhere the Rust gave\n  {answer}")

    def check_circle(self):
        """There is no outcome for the graph on which the Rust does not return."""
        g = self.graph_in(self.circle())
        try:
            self.value(self.executed(g, CIRCLE_BOUND))
        except NotEnded:
            return
        raise Different("circle has an outcome")

    def listing(self, g, o):
        """The lines of an outcome, as they are recorded: with a semicolon for each line's end."""
        return bytes(unchained(self.rust_listing(g, o))).decode().replace("\n", ";")

    def check_proved(self, name, bound):
        """The prover's outcome of a graph is the one that is found here."""
        g = self.graph_in(self.find(PRINTED, f"{name}_numbers")())
        proved, found = self.find(PRINTED, f"{name}_outcome")(), self.value(self.executed(g, bound))
        if plain(proved, g) != plain(found, g):
            raise Different(f"the outcome {plain(found, g)}\nwhere {plain(proved, g)} is proved")


def plain(outcome, g):
    """An outcome with the helper words as a list."""
    words = [outcome["helpers"](m) for m in range(g["header"]["modules"])]
    return {**outcome, "helpers": words}


def check_all(definitions, answers):
    """What differs, and in how many graphs each branch was executed."""
    faults, counts = [], [0] * len(definitions.translation.branches)

    def attempt(what, check, *arguments):
        definitions.translation.forget()
        try:
            check(*arguments)
        except (Different, NotEnded) as fault:
            faults.append(f"{what}: {fault}")
        for number in definitions.translation.executed():
            counts[number] += 1

    for place, line in enumerate(answers, 1):
        file, _, answer = line.partition(" | ")
        attempt(f"graph {place}", definitions.check_graph, chain(decoded(bytes.fromhex(file))), answer)
    attempt("circle", definitions.check_circle)
    attempt("the printed case", definitions.check_proved, "case", 20)
    attempt("the graph of three rounds", definitions.check_proved, "rounds", 60)
    return faults, counts


# Branches


def is_value(definition):
    """Whether a definition's result is a value, and not a type or a statement."""
    head = definition.types()[-1].split()[0].strip("(")
    return head != "Type" and not isinstance(definition.unit.find(head), Definition)


def functions(library):
    """The definitions of the watched files that have values."""
    paths = sorted(library.root.glob("crates/rust_*/specs/*.antt"))
    units = [library.unit(path) for path in [*paths, library.root / "crates" / EXECUTED]]
    return [d for unit in units for d in unit.definitions.values() if is_value(d)]


def named_branches(definitions, counts):
    """Each function and each branch by its name in the list of those that are not executed, with its line and its count."""
    found, branches = {}, list(definitions.translation.branches)
    for branch, count in zip(branches, counts):
        name = plain = f"{branch.unit} {branch.definition}: {branch.label}"
        number = 1
        while name in found:
            number += 1
            name = f"{plain} ({number})"
        found[name] = (branch.line, count)
    reached = {(b.unit, b.definition) for b in branches}
    for definition in functions(definitions.library):
        if (definition.unit.shown, definition.name) not in reached:
            found[f"{definition.unit.shown} {definition.name}"] = (definition.line, 0)
    return found


def allowed(text):
    """The names in the list of what is not executed, each with its reason, which is indented behind it."""
    found, name = {}, None
    for line in text.splitlines():
        if line.startswith(" "):
            found[name] = (found[name] + " " + line.strip()).strip()
        elif line and not line.startswith("#"):
            name = line
            found[name] = ""
    return found


def branch_faults(found, reasons):
    """What is wrong with the branches: not executed, or in the list and executed, or in the list only."""
    faults = [f"not executed: {name}" for name, (_, count) in found.items() if not count and name not in reasons]
    faults += [f"executed, but in the list: {name}" for name in reasons if name in found and found[name][1]]
    faults += [f"in the list, but no branch: {name}" for name in reasons if name not in found]
    return faults + [f"in the list without a reason: {name}" for name, reason in reasons.items() if not reason]


def report(definitions, answers, show_all):
    """Prints what was found, and is 1 if something is wrong."""
    faults, counts = check_all(definitions, answers)
    different = len(faults)
    found = named_branches(definitions, counts)
    faults += branch_faults(found, allowed(ALLOWED.read_text()))
    for name, (line, count) in found.items():
        if show_all or not count:
            path, _, rest = name.partition(" ")
            print(f"{count:4} {path}:{line} {rest}" if show_all else f"not executed: {path}:{line} {rest}")
    branches = {name: count for name, (_, count) in found.items() if ": " in name}
    called = {name.partition(":")[0] for name, count in branches.items() if count}
    for fault in faults:
        print(f"fault: {fault}")
    print(
        f"{len(answers) + 3} graphs, {different} different; {len(called)} of {len(functions(definitions.library))} functions and "
        f"{sum(map(bool, branches.values()))} of {len(branches)} branches executed; {len(faults)} faults"
    )
    return 1 if faults else 0


# The self-test

# Edges, and their components as they are completed
GRAPHS = [
    ({}, [], []),
    ({1: [2], 2: [3], 3: []}, [1, 2, 3], [[3], [2], [1]]),
    ({1: [2, 3], 2: [1], 3: [4], 4: [3]}, [1, 2, 3, 4], [[3, 4], [1, 2]]),
    ({4: [4], 5: [4, 6], 6: [5]}, [4, 5, 6], [[4], [5, 6]]),
]
LIST = """# why
a f: one
  never
  at all
a g
  unused
"""


def own_faults():
    """What is wrong with components and with lists of branches."""
    faults = []
    for edges, nodes, expected in GRAPHS:
        found = tarjan(nodes, edges.get)
        completed = [n for c in reversed(expected) for n in c]
        if found != expected or not are_components(nodes, edges.get, found, completed):
            faults.append(f"components {found}")
        if len(expected) > 1 and are_components(nodes, edges.get, expected[::-1], completed):
            faults.append(f"components in another order than {expected}")
        if expected and are_components(nodes, edges.get, expected[1:], completed):
            faults.append(f"components without the first of {expected}")
        if nodes and are_components(nodes, edges.get, expected, completed[1:]):
            faults.append(f"components {expected} where a node is not completed")
    reasons = allowed(LIST)
    if reasons != {"a f: one": "never at all", "a g": "unused"}:
        faults.append(f"list {reasons}")
    said = branch_faults({"a f: one": (1, 2), "a f: two": (3, 0), "a f: three": (4, 5)}, reasons)
    if [line.partition(":")[0] for line in said] != ["not executed", "executed, but in the list", "in the list, but no branch"]:
        faults.append(f"branches {said}")
    return faults


def self_test():
    faults = antt.self_test.faults() + own_faults()
    for fault in faults:
        print(f"self-test: {fault}")
    return 1 if faults else 0


def main(arguments):
    if arguments == ["--self-test"]:
        return self_test()
    root = ROOT
    if arguments[-2:-1] == ["--root"]:
        root = Path(arguments.pop())
        arguments.pop()
    if arguments not in ([], ["--branches"]):
        print(__doc__)
        return 2
    try:
        answers = (root / "oracle/answers.txt").read_text().splitlines()
        return report(Definitions(root), answers, "--branches" in arguments)
    except Fault as fault:
        print(fault)
        return 1


def with_deep_stack(run, *arguments):
    """The result of a function whose recursion goes as deep as lists are long."""
    results = []
    sys.setrecursionlimit(1_000_000)
    threading.stack_size(1 << 29)
    thread = threading.Thread(target=lambda: results.append(run(*arguments)))
    thread.start()
    thread.join()
    return results[0] if results else 1


if __name__ == "__main__":
    sys.exit(with_deep_stack(main, sys.argv[1:]))
