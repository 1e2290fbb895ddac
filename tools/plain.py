#!/usr/bin/env -S python3 -B
"""The plain loop: what a call of floop answers, reckoned by the rules of docs/LANGUAGE.md alone, one item after another.

    tools/plain.py WORD..        writes what floop with these words should write, and ends with its status

It keeps all inputs of each reducer in a list and makes the results of the lists at the end; it knows no parts, no threads and no
chain of stages, and shares no code with the program. So a mistake would have to be made twice to go unseen. The other scripts of
tools/ compare the program with it, and plain_cases compares it with the cases of crates/floop_cases. It is slow, and gives up on loops
of over 300,000 body runs, with status 70. A report is that of one worker; with more of them and a stop another may be right.
"""
import pathlib
import sys
import threading

from plain_legal import check_program
from plain_syntax import Refused, read_program
from plain_tables import table_of
from plain_values import Fault, evaluate, input_of, result_of, text_of

sys.set_int_max_str_digits(0)
sys.setrecursionlimit(100_000)
MOST_RUNS = 300_000
MOST_ITEMS = 4_294_967_296
USAGE = b"usage: floop check, explain, run, pool or try, then name=value"
SETTINGS = {
    "check": ("loop", "data"),
    "explain": ("loop", "data"),
    "run": ("loop", "data", "executor", "base", "workers", "report"),
}
FAULTS = {1: "division error", 2: "not a number", 3: "too many inner items", 4: "text too long", 5: "step is zero"}


class NotFound(Exception):
    """A file that isn't there."""


class TooLong(Exception):
    """The loop has too many items to be reckoned here."""


class Broke(Exception):
    """A `break`."""


class Continued(Exception):
    """A `continue`, or an `@keep` of nothing."""


# ---- words


def settings_of(words):
    """The command and its settings; raises `Refused`."""
    if not words:
        raise Refused(USAGE.decode())
    command = words[0]
    if command == "pool" and command not in SETTINGS:
        raise Refused("not served here")
    if command not in SETTINGS:
        raise Refused(f"unknown command: {command}")
    given = {}
    for word in words[1:]:
        name, equals, value = word.partition("=")
        if not equals:
            raise Refused(f"not a setting: {word}")
        if name not in SETTINGS[command]:
            raise Refused(f"unknown setting: {name}")
        if name in given:
            raise Refused(f"setting twice: {name}")
        if not is_value(name, value):
            raise Refused(f"bad value: {word}")
        given[name] = value
    if "loop" not in given:
        raise Refused("missing setting: loop")
    return command, given


def is_value(name, value):
    if name == "loop":
        return value != ""
    if name == "data":
        return 1 <= len(value.split(",")) <= 8 and "" not in value.split(",")
    if name in ("executor", "report"):
        return value in {"executor": ("seq", "halves", "steal"), "report": ("yes", "no")}[name]
    most = 32 if name == "workers" else MOST_ITEMS
    return value.isascii() and value.isdigit() and len(value) <= 20 and 1 <= int(value) <= most


# ---- heads


def range_count(first, step, last):
    if step > 0:
        return max((last - first) // step + 1, 0)
    return max((first - last) // -step + 1, 0)


class Head:
    """The first head over a table: its parts, the count of each axis and its items by their places."""

    def __init__(self, program, table):
        self.line, _, first, _ = program.head
        self.outer = {name: value for _, name, value in program.vars}
        self.header, self.rows = table
        self.first = first
        self.look(first)
        parts = first[1] if first[0] == "product" else [first]
        self.lens = [self.amount(part) for part in parts]
        self.count = 1
        if 0 in self.lens:
            self.count = 0
        for length in self.lens if self.count else []:
            self.count *= length
            if self.count > MOST_ITEMS:
                raise Refused(f"line {self.line}: {self.count} items, at most {MOST_ITEMS}")

    def look(self, part):
        """Looks at each range and column, from left to right."""
        if part[0] == "col":
            if part[1] not in self.header:
                raise Refused(f"line {self.line}: no column {part[1].decode()}")
        elif part[0] == "range":
            first, step, last = self.span(part)
            if step == 0:
                raise Refused(f"line {self.line}: step is zero")
            if range_count(first, step, last) > MOST_ITEMS:
                raise Refused(f"line {self.line}: {range_count(first, step, last)} items, at most {MOST_ITEMS}")
        else:
            for inner in part[1]:
                self.look(inner)

    def span(self, part):
        first, step, last = (None if e is None else evaluate(e, self.outer) for e in part[1])
        return first, 1 if step is None else step, last

    def amount(self, part):
        if part[0] == "col":
            return len(self.rows)
        return range_count(*self.span(part)) if part[0] == "range" else min(map(self.amount, part[1]))

    def at(self, part, place):
        """The item of a part at a place, from 0."""
        if part[0] == "col":
            return self.rows[place][self.header.index(part[1])]
        if part[0] == "range":
            first, step, _ = self.span(part)
            return first + place * step
        return tuple(self.at(inner, place) for inner in part[1])

    def item(self, place):
        if self.first[0] != "product":
            return self.at(self.first, place)
        parts = []
        for part, length in zip(self.first[1], self.lens):
            parts.append(self.at(part, place % length))
            place //= length
        return tuple(parts)

    def leaves(self, base):
        """The parts into which the whole is halved: first and last place of each."""
        if not self.count:
            return []
        least = max(base, -(-self.count // 16_384))
        found, waiting = [], [(1, self.lens)]
        while waiting:
            first, lens = waiting.pop()
            amount = 1
            for length in lens:
                amount *= length
            if amount <= least:
                found.append((first, first + amount - 1))
                continue
            axis = max(k for k, length in enumerate(lens) if length > 1)
            half = lens[axis] // 2
            left = lens[:axis] + [half] + lens[axis + 1:]
            size = amount // lens[axis] * half
            waiting.append((first + size, lens[:axis] + [lens[axis] - half] + lens[axis + 1:]))
            waiting.append((first, left))
        return found


# ---- the loop


class Run:
    """The loop over its items, with one store of scratches that lives on."""

    def __init__(self, program, head):
        self.program, self.head = program, head
        self.store = {name: value for _, name, value in program.vars + program.scratches}
        self.inputs, self.towers = {}, {}
        self.gather(program.body)
        self.skipped, self.stop, self.fault, self.runs = 0, None, None, 0

    def gather(self, block):
        for statement in block:
            if statement[0] == "reduce":
                _, _, name, tower, start = statement
                if name not in self.towers:
                    self.towers[name], self.inputs[name] = tower, [] if start is None else [start]
            elif statement[0] == "if":
                made = statement[2]
                for inner in [branch for _, _, branch in made["branches"]] + [made["other"] or []]:
                    self.gather(inner)

    def all_items(self):
        for place in range(self.head.count):
            self.emitted = []
            try:
                self.item(place)
            except Broke:
                self.stop = place + 1
            except Fault as fault:
                if not self.program.skip:
                    self.stop, self.fault = place + 1, fault
                    return
                self.skipped += 1
                continue
            for name, value in self.emitted:
                self.inputs[name].append(value)
            if self.stop:
                return

    def item(self, place):
        line, names, _, inner = self.program.head
        item = self.head.item(place)
        self.names = {"place": place + 1}
        self.names.update({names[0]: item} if len(names) == 1 else zip(names, item))
        self.nest(line, inner, 1)

    def value(self, line, e):
        try:
            return evaluate(e, {**self.store, **self.names})
        except Fault as fault:
            raise Fault(fault.kind, line) from None

    def nest(self, line, inner, width):
        self.runs += 1
        if self.runs > MOST_RUNS:
            raise TooLong
        if not inner:
            outside = dict(self.names)
            try:
                self.block(self.program.body)
            except Continued:
                pass
            self.names = outside
            return
        name, span = inner[0]
        first, step, last = (1 if e is None else self.value(line, e) for e in span)
        if step == 0:
            raise Fault(5, line)
        count = range_count(first, step, last)
        if width * count > 1_000_000:
            raise Fault(3, line)
        outside = dict(self.names)
        for k in range(count):
            self.names = {**outside, name: first + k * step}
            self.nest(line, inner[1:], width * count)
        self.names = outside

    def block(self, statements):
        for statement in statements:
            self.statement(*statement[:2], statement[2:])

    def statement(self, form, line, rest):
        if form == "let":
            names, value = rest[0], self.value(line, rest[1])
            self.names.update({names[0]: value} if len(names) == 1 else zip(names, value))
        elif form == "set":
            (self.names if rest[0] in self.names else self.store)[rest[0]] = self.value(line, rest[1])
        elif form == "keep":
            value = self.value(line, rest[1])
            if value is None:
                raise Continued
            self.names[rest[0]] = value
        elif form == "reduce":
            try:
                self.emitted.append((rest[0], input_of(rest[1], {**self.store, **self.names})))
            except Fault as fault:
                raise Fault(fault.kind, line) from None
        elif form == "if":
            self.choice(rest[0])
        else:
            raise Broke if form == "break" else Continued

    def choice(self, made):
        for line, test, block in made["branches"]:
            if self.value(line, test):
                return self.block(block)
        return self.block(made["other"] or [])

    def lines(self):
        if self.fault:
            return [f"fault: item {self.stop}, line {self.fault.line}: {FAULTS[self.fault.kind]}".encode()]
        lines = [result_of(self.towers[name], self.inputs[name]) for _, name in self.program.prints]
        return lines + ([b"faults: %d" % self.skipped] if self.program.skip else [])

    def report(self, settings):
        """The report of one thread that runs the parts in order, or of one part."""
        whole = [(1, self.head.count)] if self.head.count else []
        parts = whole if settings.get("executor") == "seq" else self.head.leaves(int(settings.get("base", "1024")))
        ran = [part for part in parts if not self.stop or part[0] <= self.stop]
        return b"ran %d, items skipped %d" % (len(ran), sum(last - first + 1 for first, last in parts[len(ran):]))


# ---- explain


def holds(statements, forms):
    return any(s[0] in forms or s[0] == "if" and any(
        holds(block, forms) for block in [b for _, _, b in s[2]["branches"]] + [s[2]["other"] or []]) for s in statements)


def stages_of(program):
    line, names, _, inner = program.head
    if len(names) > 1:
        yield "MapSplat", line
    for _ in inner:
        yield "Map", line
        yield "Cat", line
    for place, statement in enumerate(program.body, 1):
        form, line = statement[:2]
        if place == 65 or holds([statement], ("reduce",)):
            line = statement[2]["branches"][0][0] if form == "if" else line
            yield "Map", line
            yield "ReduceIf", line
            return
        yield from ((name, line) for name in names_of_stages(statement))


def names_of_stages(statement):
    form = statement[0]
    if form == "let":
        return ["Map" if len(statement[2]) == 1 else "MapSplat"]
    if form in ("set", "keep", "continue", "break"):
        return {"set": ["Map"], "keep": ["KeepSomething"], "continue": ["Filter"], "break": ["ReduceIf", "Filter"]}[form]
    made = statement[2]
    block = made["branches"][0][2]
    if len(made["branches"]) == 1 and made["other"] is None and len(block) == 1 and block[0][0] in ("continue", "break"):
        return ["Filter"] if block[0][0] == "continue" else ["ReduceIf", "Filter"]
    names = ["Map"]
    if holds([statement], ("break",)):
        names.append("ReduceIf")
    return names + (["Filter"] if holds([statement], ("break", "continue", "keep")) else [])


def tower_text(tower):
    if tower[0] == "group":
        return f"group({tower_text(tower[2])})"
    return f"both({tower_text(tower[1])}, {tower_text(tower[2])})" if tower[0] == "both" else tower[0]


def explained(program, head):
    lines = [b"items %d" % head.count] + ([b"on fault skip"] if program.skip else [])
    lines += [f"stage {k}: {name}, line {line}".encode() for k, (name, line) in enumerate(stages_of(program), 1)]
    run = Run(program, head)
    for name, tower in run.towers.items():
        start = b" from " + text_of(run.inputs[name][0]) if run.inputs[name] else b""
        lines.append(f"reduce {name}: {tower_text(tower)}".encode() + start)
    return lines


# ---- the answer


def refused_or(words, read):
    command, settings = settings_of(words)
    text = read(settings["loop"])
    if len(text) > 65_536:
        raise Refused("loop file: over 65536 bytes")
    program = read_program(text)
    reducers = check_program(program)
    head = Head(program, table_of(settings["data"].split(",") if "data" in settings else [], read))
    if command == "check":
        return 0, [b"accepted: %d items, %d reducers" % (head.count, reducers)]
    if command == "explain":
        return 0, explained(program, head)
    run = Run(program, head)
    run.all_items()
    report = [run.report(settings)] if settings.get("report") == "yes" else []
    return 1 if run.fault else 0, run.lines() + report


def answer(words, read):
    """The status and the bytes of a call; `read` gives a file's bytes or raises `NotFound`. Raises `TooLong`."""
    try:
        status, lines = refused_or(words, read)
    except Refused as refused:
        status, lines = 2, [str(refused).encode()]
    except NotFound:
        return 3, b""
    return status, b"".join(line + b"\n" for line in lines)


def deep(work):
    """Runs some work where expressions may be 256 deep, and gives what it gives; ends the program where it fails."""
    given = []
    threading.stack_size(512 * 1024 * 1024)
    thread = threading.Thread(target=lambda: given.append(work()))
    thread.start()
    thread.join()
    return given[0] if given else sys.exit(70)


def host_file(name):
    try:
        return pathlib.Path(name).read_bytes()
    except OSError:
        raise NotFound from None


def main(words):
    try:
        status, text = answer(words, host_file)
    except TooLong:
        return 70
    sys.stdout.buffer.write(text)
    return status


if __name__ == "__main__":
    sys.exit(deep(lambda: main(sys.argv[1:])))
