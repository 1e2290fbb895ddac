"""Looks whether a program is legal by the rules of docs/LANGUAGE.md ("Legal loops"): its first offence, or none.

A part of plain.py. Each line's offences are gathered as (rule, place on the line, text); of the first line that has one the least
counts. Kinds are "Int", "Bool", "Text", ("T", kinds) and ("M", kind).
"""
from plain_syntax import Refused

FIRST_KINDS = {"+": "Int", "-": "Int", "*": "Int", "div": "Int", "rem": "Int", "mod": "Int", "min": "Int", "max": "Int",
               "&": "Text", "and": "Bool", "or": "Bool"}
NO_START = ("count", "argmin", "argmax", "group", "both")


class Differs(Exception):
    """An expression has no kind."""


def is_maybe(kind):
    return kind[0] == "M"


def kind_of_value(value):
    return "Bool" if isinstance(value, bool) else "Int" if isinstance(value, int) else "Text"


def kind_of(e, kinds):
    """The kind of an expression, names having these kinds."""
    sort = e[0]
    if sort == "lit":
        return kind_of_value(e[1])
    if sort == "place":
        return "Int"
    if sort == "name":
        return kinds[e[1]]
    if sort in ("neg", "not"):
        wanted = "Int" if sort == "neg" else "Bool"
        return need(e[1], wanted, kinds)
    if sort == "call":
        return kind_of_call(e[1], kind_of(e[2], kinds))
    if sort == "tuple":
        parts = tuple(kind_of(part, kinds) for part in e[1])
        if any(is_maybe(part) for part in parts):
            raise Differs
        return ("T", parts)
    if sort == "if":
        need(e[1], "Bool", kinds)
        yes = kind_of(e[2], kinds)
        if e[3] is None:
            return yes if is_maybe(yes) else ("M", yes)
        return need(e[3], yes, kinds)
    sign, left = e[1], kind_of(e[2], kinds)
    if sign in FIRST_KINDS:
        if left != FIRST_KINDS[sign]:
            raise Differs
        return need(e[3], left, kinds)
    if left not in (("Int", "Bool", "Text") if sign in ("==", "!=") else ("Int", "Text")):
        raise Differs
    need(e[3], left, kinds)
    return "Bool"


def need(e, wanted, kinds):
    if kind_of(e, kinds) != wanted:
        raise Differs
    return wanted


def kind_of_call(word, part):
    takes = {"abs": ("Int",), "len": ("Text",), "int": ("Text",), "tryint": ("Text",), "text": ("Int", "Bool", "Text")}[word]
    if part not in takes:
        raise Differs
    return {"text": "Text", "tryint": ("M", "Int")}.get(word, "Int")


def names_in(e):
    """The names that an expression reads, from left to right."""
    if e is None or e[0] in ("lit", "place"):
        return []
    if e[0] == "name":
        return [e[1]]
    if e[0] == "tuple":
        return [name for part in e[1] for name in names_in(part)]
    return [name for part in e[1:] if isinstance(part, tuple) for name in names_in(part)]


def names_in_range(span):
    first, step, last = span
    return names_in(first) + names_in(step) + names_in(last)


def tower_exprs(tower):
    if tower[0] == "count":
        return []
    if tower[0] == "group":
        return [tower[1], *tower_exprs(tower[2])]
    if tower[0] == "both":
        return tower_exprs(tower[1]) + tower_exprs(tower[2])
    return [tower[1]]


def shape_of(tower):
    """The kinds of a tower down the tree."""
    if tower[0] == "group":
        return ("group", shape_of(tower[2]))
    return (tower[0], shape_of(tower[1]), shape_of(tower[2])) if tower[0] == "both" else tower[0]


def input_kinds(tower, kinds):
    """The kinds of a tower's inputs."""
    word = tower[0]
    if word == "count":
        return ()
    if word == "group":
        need(tower[1], "Text", kinds)
        return input_kinds(tower[2], kinds)
    if word == "both":
        return (input_kinds(tower[1], kinds), input_kinds(tower[2], kinds))
    kind = kind_of(tower[1], kinds)
    takes = {"sum": ("Int",), "prod": ("Int",), "any": ("Bool",), "all": ("Bool",)}.get(
        word, ("Int", "Text") if word in ("min", "max", "argmin", "argmax") else None)
    if is_maybe(kind) or takes is not None and kind not in takes:
        raise Differs
    return (kind,)


class Check:
    """A pass over a program's lines, in order."""

    def __init__(self, program):
        self.program, self.bound, self.kinds, self.sorts, self.sites, self.firsts = program, set(), {}, {}, 0, {}
        self.reducers, self.assigned, self.seen = set(), set(), set()
        self.gather(program.body)

    def gather(self, block):
        for statement in block:
            if statement[0] == "reduce":
                self.reducers.add(statement[2])
            elif statement[0] == "set":
                self.assigned.add(statement[2])
            elif statement[0] == "if":
                made = statement[2]
                for inner in [branch for _, _, branch in made["branches"]] + [made["other"] or []]:
                    self.gather(inner)

    # ---- one line's offences

    def begin(self, line):
        self.line, self.found = line, []

    def offend(self, rule, place, text):
        self.found.append((rule, place, text))

    def end(self):
        if self.found:
            raise Refused(f"line {self.line}: {min(self.found)[2]}")

    def bind(self, name, place, reducer=False):
        if name in self.bound and not (reducer and self.sorts.get(name) == "reducer"):
            self.offend(2, place, f"name {name} bound twice")
        self.bound.add(name)
        if reducer:
            self.sorts.setdefault(name, "reducer")

    def enter(self, name, sort, kind):
        self.sorts[name], self.kinds[name] = sort, kind

    def reads(self, names, place, written=None):
        for k, name in enumerate(names, place):
            if name in self.reducers:
                self.offend(5, k, f"reducer {name} used in the loop")
            elif name not in self.kinds:
                self.offend(1, k, f"unknown name {name}")
            elif written is not None and self.sorts[name] == "scratch" and name in self.assigned and name not in written:
                self.offend(4, k, f"carried scratch {name}")

    def types(self, name, work):
        """Tries kinds, where the names are all known; what `work` gives, or None."""
        if any(rule in (1, 5) for rule, _, _ in self.found):
            return None
        try:
            return work()
        except Differs:
            self.offend(7, 0, f"type differs at {name}")
            return None

    # ---- lines

    def program_lines(self):
        for line, name, value in self.program.vars:
            self.begin(line)
            self.bind(name, 0)
            self.end()
            self.enter(name, "var", kind_of_value(value))
        self.head(*self.program.head)
        for line, name, value in self.program.scratches:
            self.begin(line)
            self.bind(name, 0)
            self.end()
            self.enter(name, "scratch", kind_of_value(value))
        self.block(self.program.body, frozenset())
        for line, name in self.program.prints:
            self.begin(line)
            if name not in self.reducers:
                self.offend(1, 0, f"unknown name {name}")
            self.end()

    def head(self, line, names, first, inner):
        self.begin(line)
        place = 0
        for name in names:
            self.bind(name, place)
            place += 1
        spans = spans_of(first)
        for span in spans:
            self.reads(names_in_range(span), place)
            place += len(names_in_range(span))
            for bound in span:
                if bound is not None and bound[0] != "lit" and not (bound[0] == "name" and bound[1] in self.kinds):
                    self.offend(9, 0, "head not splittable")
        outer = dict(self.kinds)
        item = self.types(names[0], lambda: item_kind(first, outer))
        if item is not None:
            parts = [item] if len(names) == 1 else item[1] if item[0] == "T" else ()
            if len(parts) != len(names):
                self.offend(7, 0, f"type differs at {names[0]}")
            parts = list(parts) + ["Int"] * (len(names) - len(parts))
        else:
            parts = ["Int"] * len(names)
        for name, part in zip(names, parts):
            self.enter(name, "loop", part)
        for name, span in inner:
            self.bind(name, place)
            self.reads(names_in_range(span), place + 1)
            place += 1 + len(names_in_range(span))
            seen = dict(self.kinds)
            self.types(names[0], lambda: [need(bound, "Int", seen) for bound in span if bound is not None])
            self.enter(name, "loop", "Int")
        # Kinds are tried only where no name of the line is unknown or a reducer, wherever it stands on it.
        if any(rule in (1, 5) for rule, _, _ in self.found):
            self.found = [offence for offence in self.found if offence[0] != 7]
        self.end()

    def block(self, statements, written):
        """Goes over a block's lines; the scratches that are surely written where it ends, or None where no path reaches its end."""
        kinds, sorts = dict(self.kinds), dict(self.sorts)
        for statement in statements:
            written = self.statement(statement, written)
        reducers = {name: sort for name, sort in self.sorts.items() if sort == "reducer"}
        self.kinds, self.sorts = kinds, {**sorts, **reducers}
        return written

    def statement(self, statement, written):
        form, line = statement[:2]
        reached = Everything() if written is None else written
        if form == "if":
            return self.choice(statement[2], written)
        self.begin(line)
        after = written
        if form == "let":
            self.let(*statement[2:], reached)
        elif form == "set":
            self.assign(*statement[2:], reached)
            after = None if written is None else written | {statement[2]}
        elif form == "keep":
            self.keep(*statement[2:], reached)
        elif form == "reduce":
            self.reduce(*statement[2:], reached)
        else:
            after = None
        self.end()
        return after

    def let(self, names, e, reached):
        for k, name in enumerate(names):
            self.bind(name, k)
        self.reads(names_in(e), len(names), reached)
        kind = self.types(names[0], lambda: kind_of(e, self.kinds))
        parts = [kind] if len(names) == 1 else list(kind[1]) if kind is not None and kind[0] == "T" else []
        if kind is not None and len(parts) != len(names):
            self.offend(7, 0, f"type differs at {names[0]}")
        self.end()
        for name, part in zip(names, parts):
            self.enter(name, "let", part)

    def assign(self, name, e, reached):
        sort = self.sorts.get(name) if name in self.kinds else None
        if name in self.reducers:
            self.offend(5, 0, f"reducer {name} used in the loop")
        elif sort is None:
            self.offend(1, 0, f"unknown name {name}")
        if sort == "loop":
            self.offend(2, 0, f"name {name} bound twice")
        elif sort == "var":
            self.offend(3, 0, f"carried variable {name}")
        self.reads(names_in(e), 1, reached)
        self.types(name, lambda: need(e, self.kinds[name], self.kinds))

    def keep(self, name, e, reached):
        self.bind(name, 0)
        self.reads(names_in(e), 1, reached)
        kind = self.types(name, lambda: kind_of(e, self.kinds))
        if kind is not None and not is_maybe(kind):
            self.offend(7, 0, f"type differs at {name}")
        self.end()
        self.enter(name, "let", kind[1])

    def reduce(self, name, tower, start, reached):
        self.bind(name, 0, reducer=True)
        self.sites += 1
        if self.sites == 65:
            self.offend(10, 0, "over 64 reduce lines")
        reads = [read for e in tower_exprs(tower) for read in names_in(e)]
        self.reads(reads, 1, reached)
        shape = shape_of(tower)
        kinds = self.types(name, lambda: input_kinds(tower, self.kinds))
        first = self.firsts.setdefault(name, (shape, kinds))
        if first[0] != shape or kinds is not None and first[1] != kinds:
            self.offend(6, 0, f"reducer {name} has another tower")
        if start is not None:
            if name in self.seen or tower[0] in NO_START:
                self.offend(8, 0, f"start not allowed for {name}")
            elif kinds is not None and kinds != (kind_of_value(start),):
                self.offend(7, 0, f"type differs at {name}")
        self.seen.add(name)

    def choice(self, made, written):
        """An `if` with its branches: what each path surely wrote, of those that reach its end."""
        reached, ends = Everything() if written is None else written, []
        for place, (line, test, block) in enumerate(made["branches"]):
            self.begin(line)
            self.reads(names_in(test), 0, reached)
            self.types("if" if place == 0 else "elseif", lambda: need(test, "Bool", self.kinds))
            self.end()
            ends.append(self.block(block, written))
        ends.append(self.block(made["other"], written) if made["other"] is not None else written)
        ends = [end for end in ends if end is not None]
        return frozenset.intersection(*ends) if ends else None


class Everything:
    """What is surely written where no path comes."""

    def __contains__(self, name):
        return True


def spans_of(first):
    if first[0] == "range":
        return [first[1]]
    return [] if first[0] == "col" else [span for part in first[1] for span in spans_of(part)]


def item_kind(first, kinds):
    if first[0] == "range":
        for bound in first[1]:
            if bound is not None:
                need(bound, "Int", kinds)
        return "Int"
    return "Text" if first[0] == "col" else ("T", tuple(item_kind(part, kinds) for part in first[1]))


def check_program(program):
    """Raises `Refused` with the first offence, where there is one; gives the number of reducers."""
    check = Check(program)
    check.program_lines()
    return len(check.reducers)
