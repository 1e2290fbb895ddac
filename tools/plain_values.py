"""What expressions and towers come to, by the rules of docs/LANGUAGE.md ("Values", "Reducers"). A part of plain.py."""


class Fault(Exception):
    """A fault of an expression or an inner head: its kind, and its line once that is known."""

    def __init__(self, kind, line=None):
        super().__init__(kind, line)
        self.kind, self.line = kind, line


def wrapped(number):
    return (number + 2**63) % 2**64 - 2**63


def spelled(text):
    """The number that a text spells, or None."""
    text = text.strip(b" \t")
    digits = text[1:] if text[:1] in (b"-", b"+") else text
    if not digits.isdigit():
        return None
    value = int(text)
    return value if wrapped(value) == value else None


def text_of(value):
    """A value as it is written: bytes."""
    if value is None:
        return b"nothing"
    if isinstance(value, bool):
        return b"true" if value else b"false"
    if isinstance(value, int):
        return str(value).encode()
    return value if isinstance(value, bytes) else b"(" + b", ".join(map(text_of, value)) + b")"


def divided(sign, a, b):
    if b == 0 or sign == "div" and (a, b) == (-2**63, -1):
        raise Fault(1)
    quotient = abs(a) // abs(b) * (1 if (a < 0) == (b < 0) else -1)
    if sign == "div":
        return quotient
    return a - quotient * b if sign == "rem" else a % b


def evaluate(e, names):
    sort = e[0]
    if sort == "lit":
        return e[1]
    if sort == "name":
        return names[e[1]]
    if sort == "place":
        return names["place"]
    if sort == "neg":
        return wrapped(-evaluate(e[1], names))
    if sort == "not":
        return not evaluate(e[1], names)
    if sort == "tuple":
        return tuple(evaluate(part, names) for part in e[1])
    if sort == "if":
        chosen = e[2] if evaluate(e[1], names) else e[3]
        return None if chosen is None else evaluate(chosen, names)
    if sort == "call":
        return called(e[1], evaluate(e[2], names))
    left = evaluate(e[2], names)
    if e[1] in ("and", "or"):
        return left if left == (e[1] == "or") else evaluate(e[3], names)
    return joined(e[1], left, evaluate(e[3], names))


def called(word, value):
    if word == "abs":
        return wrapped(abs(value))
    if word == "len":
        return len(value)
    if word == "text":
        return text_of(value)
    number = spelled(value)
    if number is None and word == "int":
        raise Fault(2)
    return number


def joined(sign, a, b):
    if sign in ("div", "rem", "mod"):
        return divided(sign, a, b)
    if sign == "&":
        if len(a) + len(b) > 1_048_576:
            raise Fault(4)
        return a + b
    makers = {
        "+": lambda: wrapped(a + b), "-": lambda: wrapped(a - b), "*": lambda: wrapped(a * b),
        "min": lambda: min(a, b), "max": lambda: max(a, b), "==": lambda: a == b, "!=": lambda: a != b,
        "<": lambda: a < b, "<=": lambda: a <= b, ">": lambda: a > b, ">=": lambda: a >= b,
    }
    return makers[sign]()


# ---- towers


def input_of(tower, names):
    word = tower[0]
    if word == "count":
        return ()
    if word == "group":
        return (evaluate(tower[1], names), input_of(tower[2], names))
    if word == "both":
        return (input_of(tower[1], names), input_of(tower[2], names))
    value = evaluate(tower[1], names)
    return (value, names["place"]) if word in ("argmin", "argmax") else value


def result_of(tower, inputs):
    """The text of the result of a whole list of inputs."""
    word = tower[0]
    if word == "group":
        groups = {}
        for key, inner in inputs:
            groups.setdefault(key, []).append(inner)
        return b"{" + b", ".join(key + b": " + result_of(tower[2], groups[key]) for key in sorted(groups)) + b"}"
    if word == "both":
        return b"(" + b", ".join(result_of(tower[1 + side], [pair[side] for pair in inputs]) for side in (0, 1)) + b")"
    if word == "list":
        return b"[" + b", ".join(map(text_of, inputs)) + b"]"
    if word == "prod":
        product = 1
        for value in inputs:
            product = wrapped(product * value)
        return text_of(product)
    if word in ("sum", "count", "any", "all"):
        return text_of({"sum": sum, "count": len, "any": any, "all": all}[word](inputs))
    if not inputs:
        return b"nothing"
    if word in ("argmin", "argmax"):
        best = (min if word == "argmin" else max)(value for value, _ in inputs)
        return text_of(best) + b" at " + text_of(min(place for value, place in inputs if value == best))
    return text_of({"min": min, "max": max, "first": lambda list: list[0], "last": lambda list: list[-1]}[word](inputs))
