"""Random loop files: of tokens, of spoilt bytes, and drawn from the grammar with kinds that mostly fit. A part of noise."""
from plain_syntax import LEAVES, RESERVED

TOKENS = [*sorted(RESERVED), "x", "y", "s", "b", "_a", "@init", "@keep", "@reduce", "0", "1", "3", "9223372036854775808", '"v"', '"a\\n"',
          "+=", "==", "!=", "<=", ">=", "<", ">", "=", "+", "-", "*", "&", ":", ",", "(", ")", "on", "fault", "skip", "#", "@", "!", '"']
LINES = ["on fault skip", "var k = 2", "for x in 1:3", "for t in col(\"v\")", "@init b = 0", "let y = x", "b = x", "if x > 1", "else",
         "elseif x == 2", "@keep n = tryint(\"7\")", "@reduce s += x", "@reduce l = list(x)", "continue", "break", "end", "print s", ""]


def spoilt(draw, data):
    """Some bytes with one of them changed, put in or taken out; now and then a few of them."""
    data = bytearray(data)
    for _ in range(1 if draw.random() < 0.8 else draw.randrange(2, 5)):
        place = draw.randrange(len(data) + 1)
        byte = draw.choice(data) if data and draw.random() < 0.5 else draw.randrange(256)
        way = draw.randrange(3)
        if way == 0:
            data[place:place + 1] = bytes([byte])
        elif way == 1:
            data.insert(place, byte)
        else:
            del data[place:place + 1]
    return bytes(data)


def draw_text(draw):
    """Lines of random tokens between lines of the language."""
    lines = []
    for _ in range(draw.randrange(1, 9)):
        if draw.random() < 0.6:
            lines.append(draw.choice(LINES))
        else:
            lines.append(draw.choice(("", " ", "\t")).join(draw.choices(TOKENS, k=draw.randrange(1, 9))))
    return draw.choice(("\n", "\n", "\r\n")).join(lines) + draw.choice(("\n", ""))


class Drawn:
    """A loop that is being drawn: its lines, and the names in scope by their kinds."""

    def __init__(self, draw):
        self.draw, self.lines, self.names, self.count, self.reducers = draw, [], {"Int": [], "Bool": [], "Text": []}, 0, {}
        self.scratches = []

    def fresh(self):
        self.count += 1
        return f"n{self.count}"

    def chance(self, part):
        return self.draw.random() < part

    def literal(self, kind):
        if kind == "Bool":
            return self.draw.choice(("true", "false"))
        if kind == "Text":
            return self.draw.choice(('""', '"a"', '"7"', '" -3"', '"x\\n"'))
        return self.draw.choice(("0", "1", "2", "-1", "3", "7", "-9223372036854775808", "9223372036854775807"))

    def expr(self, kind, deep=0):
        """An expression of a kind; now and then of another."""
        draw = self.draw
        if self.chance(0.004):
            kind = draw.choice(("Int", "Bool", "Text"))
        if deep > 3 or self.chance(0.35):
            known = self.names[kind]
            return draw.choice(known) if known and self.chance(0.7) else self.literal(kind)
        inner = lambda kind: self.expr(kind, deep + 1)
        if self.chance(0.12):
            return f"(if {inner('Bool')} then {inner(kind)} else {inner(kind)})"
        if kind == "Int":
            return draw.choice((
                lambda: f"({inner('Int')} {draw.choice(('+', '-', '*', 'div', 'rem', 'mod'))} {inner('Int')})",
                lambda: f"{draw.choice(('min', 'max'))}({inner('Int')}, {inner('Int')})",
                lambda: f"-({inner('Int')})", lambda: f"abs({inner('Int')})", lambda: f"len({inner('Text')})",
                lambda: f"int({inner('Text')})", lambda: "place", lambda: f"{inner('Int')} + {inner('Int')}"))()
        if kind == "Text":
            return draw.choice((lambda: f"({inner('Text')} & {inner('Text')})",
                                lambda: f"text({inner(draw.choice(('Int', 'Bool', 'Text')))})"))()
        some = draw.choice(("Int", "Text"))
        return draw.choice((
            lambda: f"({inner(some)} {draw.choice(('==', '!=', '<', '<=', '>', '>='))} {inner(some)})",
            lambda: f"({inner('Bool')} {draw.choice(('and', 'or', '==', '!='))} {inner('Bool')})", lambda: f"not ({inner('Bool')})"))()

    def any_expr(self):
        if self.chance(0.15):
            return "(" + ", ".join(self.expr(self.any_kind(), 2) for _ in range(self.draw.randrange(2, 5))) + ")"
        return self.expr(self.any_kind())

    def any_kind(self):
        return self.draw.choice(("Int", "Bool", "Text"))

    def tower(self, shape):
        if shape[0] == "group":
            return f"group({self.expr('Text')}, {self.tower(shape[1])})"
        if shape[0] == "both":
            return f"both({self.tower(shape[1])}, {self.tower(shape[2])})"
        return "count()" if shape[0] == "count" else f"{shape[0]}({self.expr(shape[1])})"

    def shape(self, deep=0):
        """A tower's words, with the kinds of its inputs."""
        word = self.draw.choice(LEAVES + ("count", "group", "group", "both"))
        if word == "group" and deep < 4:
            return ("group", self.shape(deep + 1))
        if word == "both" and deep < 4:
            return ("both", self.shape(deep + 1), self.shape(deep + 1))
        if word in ("count", "group", "both"):
            return ("count",)
        if word in ("sum", "prod"):
            return (word, "Int")
        if word in ("any", "all"):
            return (word, "Bool")
        return (word, self.draw.choice(("Int", "Text")))

    # ---- lines

    def head(self):
        draw = self.draw
        bound = lambda: draw.choice(("0", "1", "3", "5", "-2", "9"))
        span = lambda: draw.choice((f"{bound()}:{bound()}", f"1:{bound()}", f"{bound()}:{draw.choice(('2', '-1', '-3', '0'))}:{bound()}"))
        axes = [(span, "Int"), (lambda: 'col("v")', "Text"), (lambda: 'col("w")', "Text")]
        if self.chance(0.5):
            make, kind = draw.choice(axes)
            name = self.fresh()
            self.names[kind].append(name)
            text = f"for {name} in {make()}"
        else:
            parts = [draw.choice(axes) for _ in range(draw.randrange(2, 5))]
            names = [self.fresh() for _ in parts]
            for name, (_, kind) in zip(names, parts):
                self.names[kind].append(name)
            text = f"for ({', '.join(names)}) in {draw.choice(('zip', 'product'))}({', '.join(make() for make, _ in parts)})"
        for _ in range(draw.choice((0, 0, 0, 1, 2))):
            name, low, high = self.fresh(), self.expr("Int", 3), self.expr("Int", 3)
            text += f", {name} in " + (f"1:{draw.choice('0123')}" if self.chance(0.8) else f"{low}:{high}")
            self.names["Int"].append(name)
        self.lines.append(text)

    def block(self, deep, lines):
        before = {kind: list(names) for kind, names in self.names.items()}
        for _ in range(self.draw.randrange(lines + 1)):
            self.statement("  " * deep, deep)
        self.names = before

    def statement(self, blanks, deep):
        draw, form = self.draw, self.draw.choice(("let", "let", "set", "keep", "reduce", "reduce", "reduce", "if", "if", "tuple", "stop"))
        if form == "let":
            kind, name = self.any_kind(), self.fresh()
            self.lines.append(f"{blanks}let {name} = {self.expr(kind)}")
            self.names[kind].append(name)
        elif form == "tuple":
            kinds = [self.any_kind() for _ in range(draw.randrange(2, 5))]
            names = [self.fresh() for _ in kinds]
            self.lines.append(f"{blanks}let ({', '.join(names)}) = ({', '.join(map(self.expr, kinds))})")
            for name, kind in zip(names, kinds):
                self.names[kind].append(name)
        elif form == "set" and self.scratches:
            name, kind = draw.choice(self.scratches)
            self.lines.append(f"{blanks}{name} = {self.expr(kind)}")
            self.names[kind].append(name)
        elif form == "keep":
            name = self.fresh()
            self.lines.append(f"{blanks}@keep {name} = " + draw.choice((
                f"tryint({self.expr('Text')})", f"if {self.expr('Bool')} then {self.expr('Int')} else nothing")))
            self.names["Int"].append(name)
        elif form == "reduce":
            self.reduce(blanks)
        elif form == "if" and deep < 4:
            self.choice(blanks, deep)
        elif form == "stop" and (deep > 1 or self.chance(0.1)):
            self.lines.append(blanks + draw.choice(("continue", "continue", "break")))

    def reduce(self, blanks):
        draw = self.draw
        if self.reducers and self.chance(0.3):
            name = draw.choice(sorted(self.reducers))
            self.lines.append(f"{blanks}@reduce {name} = {self.tower(self.reducers[name])}")
            return
        name, shape = self.fresh(), self.shape()
        start = f" from {self.literal(shape[1])}" if len(shape) == 2 and isinstance(shape[1], str) and self.chance(0.2) else ""
        self.reducers[name] = shape
        self.lines.append(f"{blanks}@reduce {name} = {self.tower(shape)}{start}")

    def choice(self, blanks, deep):
        self.lines.append(f"{blanks}if {self.expr('Bool')}")
        self.block(deep + 1, 3)
        while self.chance(0.25):
            self.lines.append(f"{blanks}elseif {self.expr('Bool')}")
            self.block(deep + 1, 2)
        if self.chance(0.4):
            self.lines.append(f"{blanks}else")
            self.block(deep + 1, 2)
        self.lines.append(f"{blanks}end")


def draw_loop(draw):
    """A loop of the grammar, over the columns v and w."""
    drawn = Drawn(draw)
    if drawn.chance(0.3):
        drawn.lines.append("on fault skip")
    for _ in range(draw.choice((0, 0, 1))):
        kind, name = drawn.any_kind(), drawn.fresh()
        drawn.lines.append(f"var {name} = {drawn.literal(kind)}")
        drawn.names[kind].append(name)
    drawn.head()
    for _ in range(draw.choice((0, 0, 1, 2))):
        kind, name = drawn.any_kind(), drawn.fresh()
        drawn.lines.append(f"  @init {name} = {drawn.literal(kind)}")
        drawn.scratches.append((name, kind))
    drawn.block(1, 8)
    drawn.lines.append("end")
    drawn.lines += [f"print {name}" for name in drawn.reducers if drawn.chance(0.9)]
    return "\n".join(drawn.lines) + "\n"
