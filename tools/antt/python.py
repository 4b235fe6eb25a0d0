"""Translates definitions in antt into Python functions, and notes which of their branches are executed.

A record is a dict by field, a tuple a tuple, a constructor's value the tuple of its number and its parts, a function a Python
function of one argument. A definition is a Python function of as many arguments as its clauses have patterns.

The language gives the same value whatever is computed first. Here arguments are, except where they may be not needed: the right
side of && and ||, and all but the test in a choice between two arguments, such as `when b f c`. Such a choice is unfolded where
it is used and counts there as an `elim`.
"""
import re
from contextlib import contextmanager
from dataclasses import dataclass, replace

from antt.natives import BOOL, FUNCTIONS, Constructor, Fault, Primitive, numbered
from antt.reader import Apply, Definition, Elim, Expression, Lambda, Let, Number, Project, Record, Tuple, Unit, Variable
from antt.reader import heads_in, items_of, outside, shown, variables_in

ATOM = re.compile(r"\w+$")
LAZY = {"◌&&◌": "if {}:", "◌||◌": "if not {}:"}  # where the right side is needed
PLAIN = {"ℕ", "List ℕ", "Graph"}
RETURN = "return {}"


@dataclass(frozen=True)
class Ready(Expression):
    """What was translated already: a Python text that may stand more than once."""

    text: str


@dataclass(frozen=True)
class Scope:
    """Where an expression stands: the file, the block, and the variables, each with its Python text, or Delayed, or Local."""

    unit: Unit
    block: object
    variables: dict
    definition: str
    clause: str = ""  # its left side, where there are several
    use: object = None  # where this is unfolded, if it is

    def bind(self, more):
        return replace(self, variables={**self.variables, **more})


@dataclass(frozen=True)
class Use:
    """Where a definition is unfolded: its name and first argument in a text."""

    scope: Scope
    token: object
    text: str


@dataclass(frozen=True)
class Delayed:
    """An argument, to be translated where it is needed."""

    expression: Expression
    scope: Scope


@dataclass(frozen=True)
class Local:
    """A function of a where block."""

    name: str
    arity: int


@dataclass(frozen=True)
class Branch:
    """A clause, a branch of elim, a lambda, or a value of an operand of && or ||."""

    unit: str
    definition: str
    line: int
    column: int
    label: str


class Translation:
    """Python functions of definitions. Each branch of the files that are `watched` has a number, and is noted when executed."""

    def __init__(self, library, watched=lambda unit: False):
        self.library, self.watched = library, watched
        self.branches, self.names, self.waiting = {}, {}, []
        self.tables, self.noted = [], bytearray()
        self.space = dict(FUNCTIONS, noted=self.noted, tables=self.tables)

    def number(self, branch):
        return self.branches.setdefault(branch, len(self.branches))

    def name(self, definition):
        """The name of a definition's Python function, which is written later."""
        if definition not in self.names:
            plain = re.sub(r"\W", "", definition.name)
            self.names[definition] = f"f{len(self.names)}_{plain}"
            self.waiting.append(definition)
        return self.names[definition]

    def function(self, definition):
        """The Python function of a definition, with all that it calls."""
        name = self.name(definition)
        while self.waiting:
            one = self.waiting.pop()
            exec(compile(text_of(self, one), one.place, "exec"), self.space)
        self.noted.extend(bytes(len(self.branches) - len(self.noted)))
        return self.space[name]

    def forget(self):
        """Remembered values go, and no branch was executed."""
        for table in self.tables:
            table.clear()
        self.noted[:] = bytes(len(self.noted))

    def executed(self):
        """The numbers of the branches that were executed since `forget`."""
        return {number for number, bit in enumerate(self.noted) if bit}


def text_of(translation, definition):
    """The Python function of one definition. A call of itself at the end is a loop, unless a closure keeps its variables."""
    writer = Writer(translation, definition, True)
    writer.write()
    if writer.looped and writer.closed:
        writer = Writer(translation, definition, False)
        writer.write()
    return indented(writer.lines, 0)


def indented(lines, depth):
    """Lines as a text; a list among them is a block."""
    return "".join(indented(line, depth + 1) if isinstance(line, list) else "    " * depth + line + "\n" for line in lines)


def remembered(definition, arity):
    """Whether values are kept until `forget`: what has no argument, and functions of graphs, numbers and lists of numbers."""
    kinds = definition.types()[:-1]
    known = len(kinds) == arity and set(kinds) <= PLAIN
    return arity == 0 or known and (kinds[0] == "Graph" or kinds == ["List ℕ"])


class Writer:
    """Writes the lines of one definition's Python function."""

    def __init__(self, translation, definition, may_loop):
        self.translation, self.definition, self.may_loop = translation, definition, may_loop
        self.lines, self.count, self.parameters = [], 0, []
        self.looped = self.closed = False  # whether there is a loop, and a closure

    # Lines

    def emit(self, line):
        self.lines.append(line)

    @contextmanager
    def block(self):
        """What is written inside is a block."""
        outer, self.lines = self.lines, []
        yield
        outer.append(self.lines or ["pass"])
        self.lines = outer

    def apart(self, write, *arguments):
        """What a function gives, and the lines that it writes."""
        outer, self.lines = self.lines, []
        result, lines = write(*arguments), self.lines
        self.lines = outer
        return result, lines

    def fresh(self):
        self.count += 1
        return f"t{self.count}"

    def atom(self, text):
        """A text of the same value that may stand more than once."""
        if ATOM.match(text):
            return text
        name = self.fresh()
        self.emit(f"{name} = {text}")
        return name

    def ready(self, expressions, scope):
        return tuple(Ready(e.tokens, self.atom(self.value(e, scope))) for e in expressions)

    def note(self, scope, token, label):
        """Notes a branch as executed; what is unfolded, also where it is used."""
        if self.translation.watched(scope.unit.shown):
            whole = f"{scope.clause} = {label}" if scope.clause else label
            branch = Branch(scope.unit.shown, scope.definition, token.line, token.column, whole)
            self.emit(f"noted[{self.translation.number(branch)}] = 1")
        if scope.use:
            self.note(scope.use.scope, scope.use.token, f"{scope.use.text}: {label}")

    def note_lambda(self, scope, function):
        if function.tokens:  # else it is not in the text
            self.note(scope, function.tokens[0], shown(function.tokens).partition(".")[0].strip("(") + ".")

    # The whole function

    def write(self):
        definition, name = self.definition, self.translation.name(self.definition)
        clauses, outer = definition.clauses(), definition.outer()
        self.parameters = [self.fresh() for _ in [*outer, *clauses[0].patterns]]
        keeps = remembered(definition, len(self.parameters))
        scope = Scope(definition.unit, definition.block, dict(zip(outer, self.parameters)), definition.name)
        self.emit(f"def {name}{'_anew' if keeps else ''}({', '.join(self.parameters)}):")
        _, body = self.apart(self.clauses, scope, self.parameters[len(outer) :], clauses)
        self.lines.append(["while True:", body] if self.looped else body)
        if keeps:
            self.write_memory(name)

    def write_memory(self, name):
        """The function that looks for a kept value. A list or graph is told by its identity, so it is kept beside the value."""
        kinds, given = self.definition.types(), ", ".join(self.parameters)
        key = "".join(f"{p}, " if kind == "ℕ" else f"id({p}), " for p, kind in zip(self.parameters, kinds))
        self.lines += [f"{name}_table = {{}}", f"tables.append({name}_table)", f"def {name}({given}):"]
        found = [f"{name}_table[key] = found = ({name}_anew({given}), {given})"]
        self.lines.append([f"key = ({key})", f"found = {name}_table.get(key)", "if found is None:", found, "return found[0]"])

    def clauses(self, scope, values, clauses):
        """The clauses of a function, over the texts of its arguments."""

        def alternative(clause):
            def write(inside):
                self.note(inside, clause.left[0], shown(clause.left))
                inside = replace(inside, clause=shown(clause.left)) if len(clauses) > 1 else inside
                self.finish(clause.body, self.helpers(inside, clause.where), RETURN)

            return clause.patterns, variables_in(clause.body) | {token.text for token in clause.where}, write

        place = f"{scope.unit.shown}:{clauses[0].left[0].line}"
        self.choose(scope, values, [alternative(clause) for clause in clauses], place)

    def helpers(self, scope, where):
        """The functions of a where block, each seen by those behind it."""
        texts = {}
        for item in items_of(where):
            if item[outside(item, {":", "="})].text == ":":
                texts[item[0].text] = []
            else:
                texts[item[0].text].append(item)
        for name, items in texts.items():
            self.closed = True
            clauses = [scope.unit.clause(item) for item in items]
            parameters = [self.fresh() for _ in clauses[0].patterns]
            local = Local(self.fresh(), len(parameters))
            scope = scope.bind({name: local})
            self.emit(f"def {local.name}({', '.join(parameters)}):")
            with self.block():
                self.clauses(scope, parameters, clauses)
        return scope

    # Patterns

    def constructor(self, scope, pattern):
        """The constructor of a pattern and the patterns of its parts, or None."""
        if isinstance(pattern, (Number, Tuple)):
            return None
        head, parts = (pattern.function, pattern.arguments) if isinstance(pattern, Apply) else (pattern, ())
        found = scope.unit.find(head.name) if isinstance(head, Variable) else None
        if isinstance(found, Constructor):
            return found, parts
        if not isinstance(pattern, Variable):
            raise Fault(f"{scope.unit.shown}:{pattern.tokens[0].line}: no pattern: {shown(pattern.tokens)}")
        return None

    def match(self, scope, pattern, value):
        """The conditions under which a pattern fits the value of a text, and the texts of its variables."""
        if isinstance(pattern, Number):
            return [f"{value} == {pattern.value}"], {}
        if isinstance(pattern, Tuple):
            return self.match_all(scope, pattern.parts, [f"{value}[{i}]" for i in range(len(pattern.parts))])
        known = self.constructor(scope, pattern)
        if known is None:
            return [], {} if pattern.name == "_" else {pattern.name: value}
        constructor, parts = known
        if constructor.arity is None:
            constructor = numbered(constructor.name, len(parts), constructor.number)
        if len(parts) != constructor.arity:
            raise Fault(f"{scope.unit.shown}:{pattern.tokens[0].line}: not the parts of {constructor.name}")
        conditions, variables = self.match_all(scope, parts, [place.format(value) for place in constructor.parts])
        return [constructor.test.format(value), *conditions], variables

    def match_all(self, scope, patterns, values):
        conditions, variables = [], {}
        for pattern, value in zip(patterns, values):
            more, found = self.match(scope, pattern, value)
            conditions += more
            variables.update(found)
        return conditions, variables

    def bound(self, variables, used):
        """The variables of a pattern with atoms; what is not used is left out."""
        return {name: self.atom(value) for name, value in variables.items() if name in used}

    def complete(self, scope, rows):
        """Whether one column has each constructor of its type once, and nothing else is asked: then the last needs no test."""
        seen = []
        for patterns in rows:
            asked = [(column, p) for column, p in enumerate(patterns) if self.match(scope, p, "")[0]]
            known = self.constructor(scope, asked[0][1]) if len(asked) == 1 else None
            if known is None or any(self.match(scope, part, "")[0] for part in known[1]):
                return False
            seen.append((asked[0][0], known[0]))
        names = [constructor.name for _, constructor in seen]
        return len({column for column, _ in seen}) == 1 and set(names) == seen[0][1].family and len(set(names)) == len(names)

    def choose(self, scope, values, alternatives, place):
        """Takes the first alternative whose patterns fit: patterns, the names that its body uses, and what writes the body."""
        complete = self.complete(scope, [patterns for patterns, _, _ in alternatives])
        for index, (patterns, used, write) in enumerate(alternatives):
            if len(patterns) != len(values):
                raise Fault(f"{place}: {len(patterns)} patterns for {len(values)} values")
            conditions, variables = self.match_all(scope, patterns, values)
            last = not conditions or complete and index == len(alternatives) - 1
            if last and index < len(alternatives) - 1:  # a constructor that is not known is taken for a variable
                raise Fault(f"{place}: nothing is left for what follows {' '.join(shown(p.tokens) for p in patterns)}")
            if last and index == 0:
                return write(scope.bind(self.bound(variables, used)))
            self.emit("else:" if last else f"{'elif' if index else 'if'} {' and '.join(conditions)}:")
            with self.block():
                write(scope.bind(self.bound(variables, used)))
            if last:
                return None
        self.emit("else:" if alternatives else "if True:")
        self.lines.append([f"no_clause({place!r})"])

    # Expressions

    def finish(self, expression, scope, end):
        """Writes the lines that compute an expression and put its value into `end`, a line with {} for it."""
        if isinstance(expression, Let):
            value = self.atom(self.value(expression.value, scope))
            _, variables = self.match(scope, expression.binder, value)
            self.finish(expression.body, scope.bind(self.bound(variables, variables)), end)
        elif isinstance(expression, Elim):
            self.eliminate(expression, scope, end)
        elif (unfolded := self.unfolded(expression, scope)) is not None:
            self.finish(*unfolded, end)
        elif end != RETURN or not self.repeat(expression, scope):
            self.emit(end.format(self.value(expression, scope)))

    def eliminate(self, expression, scope, end):
        value = self.atom(self.value(expression.scrutinee, scope))

        def alternative(pattern, body):
            def write(inside):
                label = f"elim {shown(expression.scrutinee.tokens)} [ {shown(pattern.tokens)} ]"
                self.note(inside, pattern.tokens[0], label)
                self.finish(body, inside, end)

            return (pattern,), variables_in(body), write

        place = f"{scope.unit.shown}:{expression.tokens[0].line}"
        self.choose(scope, [value], [alternative(*case) for case in expression.cases], place)

    def repeat(self, expression, scope):
        """Writes a call of the function itself with all its arguments as a turn of its loop; or is False."""
        if not (self.may_loop and isinstance(expression, Apply) and not scope.use and not self.definition.block):
            return False
        same = self.meaning(expression.function, scope) is self.definition
        if not same or len(expression.arguments) != len(self.parameters):
            return False
        values = [self.value(argument, scope) for argument in expression.arguments]
        self.emit(f"{', '.join(self.parameters)} = {', '.join(values)}")
        self.emit("continue")
        self.looped = True
        return True

    def meaning(self, head, scope):
        """What the head of an application stands for: Local, Delayed, Definition, Constructor, Primitive; None for a value."""
        if not isinstance(head, Variable):
            return None
        if head.name in scope.variables:
            found = scope.variables[head.name]
            return None if isinstance(found, str) else found
        found = scope.unit.find(head.name)
        if found is None:
            raise Fault(f"{scope.unit.shown}:{head.tokens[0].line}: {head.name} is not known")
        return found

    def value(self, expression, scope):
        """The Python text of an expression, behind the lines that it needs."""
        if isinstance(expression, Ready):
            return expression.text
        if isinstance(expression, Number):
            return str(expression.value)
        if isinstance(expression, Project):
            label = expression.label if expression.label.isdigit() else repr(expression.label)
            return f"{self.value(expression.value, scope)}[{label}]"
        if isinstance(expression, Tuple):
            return "(" + "".join(self.value(part, scope) + ", " for part in expression.parts) + ")"
        if isinstance(expression, Record):
            return "{" + ", ".join(f"{label!r}: {self.value(value, scope)}" for label, value in expression.fields) + "}"
        if isinstance(expression, Lambda):
            return self.closure(expression, scope)
        if isinstance(expression, Variable):
            return self.applied(expression, (), scope)
        if isinstance(expression, (Elim, Let)):
            result = self.fresh()
            self.finish(expression, scope, f"{result} = {{}}")
            return result
        if self.is_lazy(expression, scope):
            return self.lazily(expression, scope)
        unfolded = self.unfolded(expression, scope)
        return self.value(*unfolded) if unfolded else self.applied(expression.function, expression.arguments, scope)

    # && and ||

    def is_lazy(self, expression, scope):
        head = expression.function if isinstance(expression, Apply) and len(expression.arguments) == 2 else None
        return isinstance(head, Variable) and head.name in LAZY and isinstance(self.meaning(head, scope), Primitive)

    def lazily(self, expression, scope):
        """The right side is computed only where the left one leaves the value open."""
        if self.translation.watched(scope.unit.shown):
            result = self.fresh()
            self.operands(expression, scope, result)
            return result
        name, (left, right) = expression.function.name, expression.arguments
        first = self.value(left, scope)
        second, lines = self.apart(self.value, right, scope)
        if not lines:
            return self.meaning(expression.function, scope).make.format(first, second)
        result = self.fresh()
        self.lines += [f"{result} = {first}", LAZY[name].format(result), [*lines, f"{result} = {second}"]]
        return result

    def operands(self, expression, scope, result):
        """The same, where each operand's value is noted."""
        if self.is_lazy(expression, scope):
            left, right = expression.arguments
            self.operands(left, scope, result)
            self.emit(LAZY[expression.function.name].format(result))
            with self.block():
                self.operands(right, scope, result)
            return
        self.emit(f"{result} = {self.value(expression, scope)}")
        for line, value in [(f"if {result}:", "true"), ("else:", "false")]:
            self.emit(line)
            with self.block():
                self.note(scope, expression.tokens[0], f"{shown(expression.tokens)} is {value}")

    # What is unfolded

    def unfolded(self, expression, scope):
        """What an application is unfolded to, with the scope of that, or None."""
        if not isinstance(expression, Apply):
            return None
        head, arguments = expression.function, expression.arguments
        if isinstance(head, Apply):
            return replace(expression, function=head.function, arguments=(*head.arguments, *arguments)), scope
        if isinstance(head, Lambda) and len(arguments) >= len(head.binders):
            return self.entered(head, arguments, scope)
        meaning = self.meaning(head, scope)
        if isinstance(meaning, Delayed):
            function = meaning.expression
            return Apply(function.tokens, function, self.ready(arguments, scope)), meaning.scope
        if not isinstance(meaning, Definition) or (known := self.choice(meaning)) is None:
            return None
        missing = len(known[0]) - len(arguments)
        if missing > 0:
            more = tuple(Variable(expression.tokens, f"argument {i}") for i in range(missing))
            return Lambda((), more, replace(expression, arguments=(*arguments, *more))), scope
        return self.opened(meaning, *known, expression, scope)

    def behind(self, body, inside, rest, scope):
        """A body applied to the arguments that are left."""
        return (Apply(body.tokens, body, self.ready(rest, scope)) if rest else body), inside

    def entered(self, function, arguments, scope):
        """The body of a lambda, with its arguments bound."""
        self.note_lambda(scope, function)
        found, count = {}, len(function.binders)
        for binder, argument in zip(function.binders, arguments):
            _, variables = self.match(scope, binder, self.atom(self.value(argument, scope)))
            found.update(self.bound(variables, variables))
        return self.behind(function.body, scope.bind(found), arguments[count:], scope)

    def choice(self, definition):
        """Of a choice by a Bool, or an abbreviation that applies an argument: variables, body and the delayed ones; else None."""
        clause = definition.clauses()[0]
        scope = Scope(definition.unit, None, {}, definition.name)
        names = [p.name for p in clause.patterns if isinstance(p, Variable) and not self.constructor(scope, p)]
        plain = len(definition.clauses()) == 1 and len(names) == len(clause.patterns)
        if not plain or definition.block or clause.where or definition.name in variables_in(clause.body):
            return None
        test = clause.body.scrutinee if isinstance(clause.body, Elim) else None
        if isinstance(test, Variable) and test.name in names:
            cases = [self.constructor(scope, pattern) for pattern, _ in clause.body.cases]
            if all(case and case[0].family == BOOL for case in cases):
                return names, clause.body, set(names) - {test.name}
        applied = heads_in(clause.body) & set(names)
        return (names, clause.body, applied) if applied and "abbrev" in definition.marks else None

    def opened(self, definition, names, body, delayed, expression, scope):
        """The body of a choice, with everything computed that is not delayed."""
        found = {}
        for name, argument in zip(names, expression.arguments):
            found[name] = Delayed(argument, scope) if name in delayed else self.atom(self.value(argument, scope))
        left = definition.clauses()[0].left
        own = Scope(definition.unit, None, found, definition.name)
        self.note(own, left[0], shown(left))
        use = Use(scope, expression.tokens[0], f"{definition.name} {shown(expression.arguments[0].tokens)}")
        return self.behind(body, replace(own, use=use), expression.arguments[len(names) :], scope)

    # Functions

    def closure(self, function, scope):
        """A Python function of one argument for each binder of a lambda."""
        self.closed = True
        name, parameter = self.fresh(), self.fresh()
        binder, rest = function.binders[0], function.binders[1:]
        self.emit(f"def {name}({parameter}):")
        with self.block():
            _, variables = self.match(scope, binder, parameter)
            inside = scope.bind(self.bound(variables, variables_in(function.body)))
            if rest:
                self.finish(replace(function, binders=rest), inside, RETURN)
            else:
                self.note_lambda(scope, function)
                self.finish(function.body, inside, RETURN)
        return name

    def applied(self, head, arguments, scope):
        """An application that is not unfolded."""
        meaning = self.meaning(head, scope)
        if isinstance(meaning, Delayed):
            return self.value(meaning.expression, meaning.scope)
        given = [self.shallow(self.value(argument, scope)) for argument in arguments]
        if meaning is None:
            function = scope.variables[head.name] if isinstance(head, Variable) else self.value(head, scope)
            return function + "".join(f"({text})" for text in given)
        if isinstance(meaning, Definition):
            return self.called(meaning, given, scope)
        if isinstance(meaning, Local):
            return self.saturated(lambda texts: f"{meaning.name}({', '.join(texts)})", meaning.arity, given)
        if meaning.arity is None:
            meaning = numbered(meaning.name, len(given), meaning.number)
        return self.saturated(lambda texts: meaning.make.format(*texts), meaning.arity, given)

    def shallow(self, text):
        """A value by a name of its own if its text has many parentheses: Python nests a hundred at most, a list has one for each element."""
        if text.count("(") < 50:
            return text
        result = self.fresh()
        self.emit(f"{result} = {text}")
        return result

    def called(self, definition, given, scope):
        """A call of a definition, with the parameters of its block where it is used inside that."""
        outer, name = definition.outer(), self.translation.name(definition)
        if outer and definition.block.holds(scope.block):
            given = [*(scope.variables[parameter] for parameter in outer), *given]
        arity = len(outer) + len(definition.clauses()[0].patterns)
        return self.saturated(lambda texts: f"{name}({', '.join(texts)})", arity, given)

    def saturated(self, make, arity, given):
        """A call with all arguments; with fewer a function of the others; with more the value is applied to them."""
        if len(given) >= arity:
            return make(given[:arity]) + "".join(f"({text})" for text in given[arity:])
        self.closed = True
        known = [self.atom(text) for text in given]
        more = [self.fresh() for _ in range(arity - len(given))]
        return "(" + "".join(f"lambda {name}: " for name in more) + make([*known, *more]) + ")"
