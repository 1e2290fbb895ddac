"""Reads a loop file by the rules of docs/LANGUAGE.md: a program of plain tuples, or the first refusal of its text.

A part of plain.py. It was written from the language's rules alone, by recursive descent over a line's tokens, and shares no code
with the program. An expression is ("lit", value), ("name", text), ("place",), ("neg", e), ("not", e), ("two", sign, a, b),
("call", word, e), ("if", test, yes, no or None) or ("tuple", parts). Texts are bytes, names are str.
"""
import re

RESERVED = set(
    "var for in let if elseif else end continue break print from then and or not div rem mod true false nothing place abs min max "
    "len int tryint text col zip product sum prod count argmin argmax first last any all list group both".split())
LEAVES = ("sum", "prod", "min", "max", "argmin", "argmax", "first", "last", "any", "all", "list")
COMPARISONS = ("==", "!=", "<", "<=", ">", ">=")
TOKEN = re.compile(
    r'(?P<name>[A-Za-z_][A-Za-z0-9_]*)|(?P<at>@init|@keep|@reduce)|(?P<number>[0-9]+)|(?P<text>"(?:[^"\\\n]|\\["\\nt])*")'
    r"|(?P<sign>\+=|==|!=|<=|>=|[<>=+\-*&:,()])")
LARGEST = 2**63 - 1
ESCAPES = {'"': '"', "\\": "\\", "n": "\n", "t": "\t"}


class Refused(Exception):
    """The text of a refusal, without its LF."""


class NoLine(Exception):
    """The tokens spell no line."""


class Line:
    """A line's tokens: each its kind and text, and how far they were read."""

    def __init__(self, tokens):
        self.tokens, self.at, self.wide, self.groups = tokens, 0, False, 0

    def peek(self, ahead=0):
        place = self.at + ahead
        return self.tokens[place][1] if place < len(self.tokens) and self.tokens[place][0] != "text" else None

    def eat(self, text):
        if self.peek() == text:
            self.at += 1
            return True
        return False

    def need(self, text):
        if not self.eat(text):
            raise NoLine

    def kind(self):
        return self.tokens[self.at][0] if self.at < len(self.tokens) else None

    def take(self):
        self.at += 1
        return self.tokens[self.at - 1][1]

    def name(self):
        if self.kind() != "name" or self.peek() in RESERVED:
            raise NoLine
        return self.take()

    def number(self, negative):
        value = int(self.take())
        if value > LARGEST + (1 if negative else 0):
            self.wide = True
        return ("lit", -value if negative else value)

    def text(self):
        if self.kind() != "text":
            raise NoLine
        return re.sub(r"\\(.)", lambda found: ESCAPES[found[1]], self.take()[1:-1]).encode()


def cut(line):
    """The tokens of a line, and whether all its characters belong to some."""
    tokens, at = [], 0
    while at < len(line) and line[at] != "#":
        if line[at] in " \t":
            at += 1
            continue
        found = TOKEN.match(line, at)
        if not found:
            return tokens, False
        tokens.append((found.lastgroup, found[0]))
        at = found.end()
    return tokens, True


# ---- expressions


def expr(line):
    if not line.eat("if"):
        return either(line)
    test = expr(line)
    line.need("then")
    yes = expr(line)
    line.need("else")
    if line.eat("nothing"):
        return ("if", test, yes, None)
    return ("if", test, yes, expr(line))


def repeated(below, *signs):
    """A level of operations that group to the left."""

    def level(line):
        left = below(line)
        while line.peek() in signs:
            sign = line.take()
            left = ("two", sign, left, below(line))
        return left

    return level


def atom(line):
    word, kind = line.peek(), line.kind()
    if kind == "number":
        return line.number(False)
    if kind == "text":
        return ("lit", line.text())
    if word in ("true", "false"):
        line.take()
        return ("lit", word == "true")
    if line.eat("place"):
        return ("place",)
    if word in ("abs", "len", "int", "tryint", "text", "min", "max"):
        line.take()
        line.need("(")
        part = expr(line)
        if word in ("min", "max"):
            line.need(",")
            part = ("two", word, part, expr(line))
        else:
            part = ("call", word, part)
        line.need(")")
        return part
    if line.eat("("):
        parts = [expr(line)]
        while len(parts) < 4 and line.eat(","):
            parts.append(expr(line))
        line.need(")")
        return parts[0] if len(parts) == 1 else ("tuple", parts)
    return ("name", line.name())


def negative(line):
    if not line.eat("-"):
        return atom(line)
    return line.number(True) if line.kind() == "number" else ("neg", negative(line))


product_level = repeated(negative, "*", "div", "rem", "mod")
sum_level = repeated(product_level, "+", "-")
join_level = repeated(sum_level, "&")


def comparison(line):
    left = join_level(line)
    return ("two", line.take(), left, join_level(line)) if line.peek() in COMPARISONS else left


def denial(line):
    return ("not", denial(line)) if line.eat("not") else comparison(line)


both_level = repeated(denial, "and")
either = repeated(both_level, "or")


# ---- lines


def literal(line):
    if line.eat("-"):
        if line.kind() != "number":
            raise NoLine
        return line.number(True)[1]
    if line.kind() == "number":
        return line.number(False)[1]
    if line.peek() in ("true", "false"):
        return line.take() == "true"
    return line.text()


def pattern(line):
    if not line.eat("("):
        return [line.name()]
    names = [line.name()]
    while len(names) < 4 and line.eat(","):
        names.append(line.name())
    line.need(")")
    if len(names) < 2:
        raise NoLine
    return names


def span(line):
    """A range: its first, its step or None, its last."""
    first = expr(line)
    line.need(":")
    last, step = expr(line), None
    if line.eat(":"):
        last, step = expr(line), last
    return (first, step, last)


def several(line, part):
    line.need("(")
    parts = [part(line)]
    while len(parts) < 4 and line.eat(","):
        parts.append(part(line))
    line.need(")")
    if len(parts) < 2:
        raise NoLine
    return parts


def axis(line):
    if line.eat("col"):
        line.need("(")
        name = line.text()
        line.need(")")
        return ("col", name)
    return ("range", span(line))


def zipped(line):
    return ("zip", several(line, axis)) if line.eat("zip") else axis(line)


def tower(line, groups=0):
    line.groups = max(line.groups, groups)
    if line.eat("count"):
        line.need("(")
        line.need(")")
        return ("count",)
    if line.eat("group"):
        line.need("(")
        key = expr(line)
        line.need(",")
        inner = tower(line, groups + 1)
        line.need(")")
        return ("group", key, inner)
    if line.eat("both"):
        line.need("(")
        left = tower(line, groups)
        line.need(",")
        right = tower(line, groups)
        line.need(")")
        return ("both", left, right)
    if line.peek() not in LEAVES:
        raise NoLine
    word = line.take()
    line.need("(")
    part = expr(line)
    line.need(")")
    return (word, part)


def head(line):
    names = pattern(line)
    line.need("in")
    first = ("product", several(line, zipped)) if line.eat("product") else zipped(line)
    inner = []
    while len(inner) < 3 and line.eat(","):
        name = line.name()
        line.need("in")
        inner.append((name, span(line)))
    return ("for", names, first, inner)


def form(line):
    """The form that the tokens spell, all but the end of the line looked at."""
    word = line.peek()
    if line.kind() == "name" and word not in RESERVED:
        if word == "on" and (line.peek(1), line.peek(2)) == ("fault", "skip"):
            line.at += 3
            return ("skip",)
        name = line.name()
        line.need("=")
        return ("set", name, expr(line))
    if line.kind() not in ("name", "at"):
        raise NoLine
    line.take()
    if word in ("var", "@init"):
        name = line.name()
        line.need("=")
        return (word, name, literal(line))
    if word == "for":
        return head(line)
    if word == "let":
        names = pattern(line)
        line.need("=")
        return ("let", names, expr(line))
    if word in ("if", "elseif"):
        return (word, expr(line))
    if word == "@keep":
        name = line.name()
        line.need("=")
        return ("keep", name, expr(line))
    if word == "@reduce":
        name = line.name()
        if line.eat("+="):
            return ("reduce", name, ("sum", expr(line)), None)
        line.need("=")
        made = tower(line)
        return ("reduce", name, made, literal(line) if line.eat("from") else None)
    if word == "print":
        return ("print", line.name())
    if word in ("else", "continue", "break", "end"):
        return (word,)
    raise NoLine


def read_line(text, number):
    """The form of a line, or None where it is blank."""
    tokens, whole = cut(text)
    plain, depth, deepest = 0, 0, 0
    for kind, sign in tokens:
        if kind == "sign" and sign in "()":
            depth = depth + 1 if sign == "(" else max(depth - 1, 0)
            deepest = max(deepest, depth)
        else:
            plain += 1
    if plain > 256 or deepest > 256:
        raise Refused(f"line {number}: too deep")
    if whole and not tokens:
        return None
    line = Line(tokens)
    try:
        if not whole:
            raise NoLine
        found = form(line)
        if line.at < len(tokens):
            raise NoLine
    except NoLine:
        raise Refused(f"line {number}: not a line of the language") from None
    if line.groups > 4:
        raise Refused(f"line {number}: too deep")
    if line.wide:
        raise Refused(f"line {number}: number too wide")
    return found


# ---- programs


def lines_of(text):
    pieces = text.split("\n")
    last = pieces.pop()
    pieces = [piece[:-1] if piece.endswith("\r") else piece for piece in pieces]
    return pieces + [last] if last else pieces


class Program:
    """What a file spells: `skip` whether faults are skipped; `vars`, `scratches`, `prints` lists of (line, name, value); `head`
    its line, names, first head, inner heads; `body` statements (form, line, ..), an `if` with its branches and its `else`."""

    def __init__(self):
        self.skip, self.vars, self.head, self.scratches, self.body, self.prints = False, [], None, [], [], []


def read_program(text):
    try:
        text = text.decode()
    except UnicodeDecodeError as error:
        raise Refused(f"byte {error.start + 1}: not UTF-8") from None
    lines = lines_of(text)
    forms = [(number, read_line(line, number)) for number, line in enumerate(lines, 1)]
    return nest([(number, found) for number, found in forms if found is not None], len(lines))


def nest(forms, count):
    program, blocks, done = Program(), [], False
    for place, (number, found) in enumerate(forms):
        word, inside = found[0], bool(blocks)
        block = blocks[-1] if inside else None
        if word == "skip" and place == 0:
            program.skip = True
        elif word == "var" and program.head is None:
            program.vars.append((number, *found[1:]))
        elif word == "for" and program.head is None:
            program.head = (number, *found[1:])
            blocks.append({"into": program.body, "if": None})
        elif word == "print" and done:
            program.prints.append((number, found[1]))
        elif word == "@init" and len(blocks) == 1 and not program.body:
            program.scratches.append((number, *found[1:]))
        elif inside and word in ("let", "set", "keep", "reduce", "continue", "break"):
            block["into"].append((word, number, *found[1:]))
        elif inside and word == "if":
            if len(blocks) == 16:
                raise Refused(f"line {number}: too deep")
            made = {"branches": [(number, found[1], [])], "other": None, "else": 0}
            block["into"].append(("if", number, made))
            blocks.append({"into": made["branches"][0][2], "if": made})
        elif inside and word in ("elseif", "else") and block["if"] and block["if"]["other"] is None:
            into = []
            if word == "elseif":
                block["if"]["branches"].append((number, found[1], into))
            else:
                block["if"]["other"], block["if"]["else"] = into, number
            block["into"] = into
        elif inside and word == "end":
            blocks.pop()
            done = not blocks
        else:
            raise Refused(f"line {number}: bad nesting")
    if not done:
        raise Refused(f"line {count + 1}: bad nesting")
    return program
