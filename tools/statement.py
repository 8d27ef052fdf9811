"""Statements and number files, read as docs/FORMATS.md (sections 1, 4, 10 and 11) says, for the tools beside this file.

This is no part of the proved program, and nothing is promised of it: `zk` alone decides. It knows where in a line a fault stands and what
was wanted there, which the program does not print.
"""

import re

from profiles import PROFILE

KEYWORDS = ("field", "public", "private", "let", "assert")
KINDS = ("public", "private")
MOST = {"public": 65_535, "private": PROFILE.most_privates, "assert": 131_072}
NAME_BYTES, PARENTHESES = 32, 64
WORDS = re.compile(rb"[A-Za-z0-9_]+|[-+*()=]|[^ \t\r]")
NUMBER = re.compile(r"[0-9]+|0x[0-9a-fA-F]+")


NO_COMPARISON = "there is no comparison: docs/LANGUAGE.md says how bits and inverses do it"
HINTS = {
    "^": "a power is a product: x*x",
    ",": "names are separated by blanks",
    ";": "a line has one statement",
    "/": "there is no division: a private inverse i with x*i = 1 does it",
    "!": NO_COMPARISON,
    "<": NO_COMPARISON,
    ">": NO_COMPARISON,
}


class Prime:
    """Arithmetic modulo the profile's prime."""

    size = PROFILE.size

    @classmethod
    def add(cls, a, b):
        return (a + b) % cls.size

    @classmethod
    def negative(cls, a):
        return -a % cls.size

    @classmethod
    def times(cls, a, b):
        return a * b % cls.size

    @classmethod
    def inverse(cls, a):
        return pow(a, -1, cls.size)


class Gf128:
    """Polynomials over one bit modulo x^128 + x^7 + x^2 + x + 1, as numbers whose bits are their coefficients."""

    size = 2**128

    @staticmethod
    def add(a, b):
        return a ^ b

    @staticmethod
    def negative(a):
        return a

    @classmethod
    def times(cls, a, b):
        product = 0
        while b:
            low = b & -b
            product ^= a * low
            b ^= low
        for bit in range(product.bit_length() - 1, 127, -1):
            if product >> bit & 1:
                product ^= (cls.size | 0x87) << (bit - 128)
        return product

    @classmethod
    def inverse(cls, a):
        found, square = 1, a
        for _ in range(127):
            square = cls.times(square, square)
            found = cls.times(found, square)
        return found


FIELDS = {PROFILE.word: Prime, "gf2_128": Gf128}


class Fault(Exception):
    """The first rule that a text breaks: its kind, the line, the column of its first byte and how many there are, and what was wanted."""

    def __init__(self, kind, line, column, width, wanted):
        super().__init__(kind, line, column, width, wanted)
        self.kind, self.line, self.column, self.width, self.wanted = kind, line, column, max(1, width), wanted


class Token:
    """A word or a sign of a line, and the column where it stands."""

    def __init__(self, text, column):
        self.text, self.column = text, column

    def is_number(self):
        return NUMBER.fullmatch(self.text) is not None

    def is_word(self):
        return self.text[0].isalnum() or self.text[0] == "_"

    def is_name(self):
        return self.is_word() and not self.text[0].isdigit() and self.text not in KEYWORDS


def number_of(text):
    return int(text, 16 if text.startswith("0x") else 10) if len(text) <= 4000 else 2**128


class Line:
    """The tokens of a line, read from left to right. An expression is a tuple of its kind and its parts."""

    def __init__(self, tokens, number, end):
        self.tokens, self.number, self.end, self.at = tokens, number, end, 0
        self.names, self.numbers = [], []

    def fault(self, kind, token, wanted):
        if token is None:
            return Fault(kind, self.number, self.end, 1, wanted)
        return Fault(kind, self.number, token.column, len(token.text), wanted)

    def next(self):
        return self.tokens[self.at] if self.at < len(self.tokens) else None

    def take(self):
        token = self.next()
        self.at += 1
        return token

    def is_next(self, *texts):
        return self.at < len(self.tokens) and self.tokens[self.at].text in texts

    def want(self, text, wanted):
        if not self.is_next(text):
            raise self.fault("Syntax", self.next(), wanted)
        return self.take()

    def sum(self, behind):
        parts = [(False, self.product(behind))]
        while self.is_next("+", "-"):
            minus = self.take().text == "-"
            parts.append((minus, self.product(behind)))
        return parts[0][1] if len(parts) == 1 else ("sum", parts)

    def product(self, behind):
        factors = [self.factor(behind)]
        while self.is_next("*"):
            self.take()
            factors.append(self.factor(behind))
        if self.next() is None:
            if behind:
                raise self.fault("Syntax", None, f"wanted {behind}")
        elif not self.is_next("+", "-", ")", "="):
            raise self.fault("Syntax", self.next(), self.after_product())
        return factors[0] if len(factors) == 1 else ("product", factors)

    def after_product(self):
        word = self.next()
        if word.is_word() or word.text == "(":
            return "wanted a sign before this: a product is written with *"
        return "wanted + - * ) or ="

    def factor(self, behind):
        if self.is_next("-"):
            self.take()
            return ("negative", self.atom(behind))
        return self.atom(behind)

    def atom(self, behind):
        token = self.take()
        if token is not None and token.text == "(":
            inner = self.sum("a closing parenthesis")
            self.want(")", "wanted a closing parenthesis")
            return inner
        if token is not None and token.is_number():
            self.numbers.append(token)
            return ("number", number_of(token.text))
        if token is not None and token.is_name():
            self.names.append(token)
            return ("name", token.text)
        if token is not None and token.text == "=" and self.at > 1 and self.tokens[self.at - 2].text == "=":
            raise self.fault("Syntax", token, "an equation has one =")
        if token is not None and token.text == "-":
            raise self.fault("Syntax", token, "one minus at a time: write -(-1)")
        if token is not None and token.is_word():
            raise self.fault("Syntax", token, "a name does not begin with a digit, and is no keyword; a product is written with *")
        raise self.fault("Syntax", token, "wanted a number, a name, ( or -")


class Assert:
    """An equation: its line, its two sides, and the line's text."""

    def __init__(self, line, left, right, text):
        self.line, self.left, self.right, self.text = line, left, right, text


class Statement:
    """The statement that a text is, or a Fault: the field's name, the inputs of each kind, the lets and the asserts, with their lines."""

    def __init__(self, text):
        self.field, self.lines, self.lets, self.asserts = None, {}, {}, []
        self.inputs = {kind: [] for kind in KINDS}
        lines = text.split(b"\n")
        for number, whole in enumerate(lines, 1):
            bare = whole.split(b"#", 1)[0]
            tokens = [Token(found[0].decode("latin-1"), found.start()) for found in WORDS.finditer(bare)]
            if tokens:
                self.read(Line(tokens, number, len(bare.rstrip(b" \t\r"))), bare)
        if self.field is None:
            raise Fault("NoField", len(lines), 0, 1, "a statement begins with: field " + PROFILE.word)
        if not self.asserts:
            raise Fault("NoAssert", len(lines), 0, 1, "a statement asserts something: assert LEFT = RIGHT")

    def read(self, line, text):
        first = line.tokens[0]
        self.check_tokens(line, first)
        line.take()
        getattr(self, f"read_{first.text}")(line, text)

    # The rules before the grammar, in their order.
    def check_tokens(self, line, first):
        for token in line.tokens:
            if not token.is_word() and token.text not in "+-*()=" or not token.text.isascii():
                raise line.fault("Character", token, HINTS.get(token.text, "no token of a statement has this byte"))
        if first.text not in KEYWORDS:
            raise line.fault("Keyword", first, "a line begins with one of: " + ", ".join(KEYWORDS))
        if self.field is None and first.text != "field":
            raise line.fault("NoField", first, "a statement begins with: field " + PROFILE.word)
        for token in line.tokens:
            if token.is_name() and len(token.text) > NAME_BYTES:
                raise line.fault("Limit", token, f"a name has at most {NAME_BYTES} bytes")
        opened = 0
        for token in line.tokens:
            opened = opened + 1 if token.text == "(" else max(0, opened - 1) if token.text == ")" else opened
            if opened > PARENTHESES:
                raise line.fault("Limit", token, f"at most {PARENTHESES} parentheses are open")
        if first.text in KINDS and len(self.inputs[first.text]) + len(line.tokens) - 1 > MOST[first.text]:
            raise line.fault("Limit", first, f"at most {MOST[first.text]} {first.text} names")
        if first.text == "assert" and len(self.asserts) == MOST["assert"]:
            raise line.fault("Limit", first, f"at most {MOST['assert']} asserts")

    def read_field(self, line, _text):
        token = line.take()
        if token is None or token.text not in FIELDS:
            raise line.fault("Syntax", token, "the fields are: " + ", ".join(FIELDS))
        if line.next() is not None:
            raise line.fault("Syntax", line.next(), "nothing stands after the field's name")
        if self.field is not None:
            raise line.fault("Twice", line.tokens[0], "the field is named once")
        self.field = token.text

    def private_names(self):
        return set(self.inputs["private"])

    def read_names(self, line, kind):
        names = line.tokens[1:]
        if not names:
            raise line.fault("Syntax", None, "wanted a name")
        for token in names:
            if not token.is_name():
                raise line.fault("Syntax", token, "wanted a name: letters, digits and _, no digit first, and no keyword")
        seen = set()
        for token in names:
            if token.text in self.lines or token.text in seen:
                raise line.fault("Twice", token, self.declared(token.text, line.number))
            seen.add(token.text)
        for token in names:
            self.lines[token.text] = line.number
            self.inputs[kind].append(token.text)

    def declared(self, name, line):
        return f"'{name}' is declared on line {self.lines.get(name, line)} already"

    def read_public(self, line, _text):
        self.read_names(line, "public")

    def read_private(self, line, _text):
        self.read_names(line, "private")

    def read_let(self, line, _text):
        name = line.take()
        if name is None or not name.is_name():
            raise line.fault("Syntax", name, "wanted a name")
        line.want("=", "wanted =")
        value = line.sum("")
        if line.next() is not None:
            raise line.fault("Syntax", line.next(), "nothing stands after the value of a let")
        if name.text in self.lines:
            raise line.fault("Twice", name, self.declared(name.text, line.number))
        self.check_parts(line)
        self.lines[name.text] = line.number
        self.lets[name.text] = value

    def read_assert(self, line, text):
        left = line.sum("= and the right side")
        line.want("=", "wanted = and the right side")
        right = line.sum("")
        if line.next() is not None:
            raise line.fault("Syntax", line.next(), "an equation has one =" if line.is_next("=") else "nothing stands after the right side")
        self.check_parts(line)
        self.asserts.append(Assert(line.number, left, right, text.decode("latin-1").strip()))

    # Unknown comes before TooLarge.
    def check_parts(self, line):
        for token in line.names:
            if token.text not in self.lines:
                raise line.fault("Unknown", token, f"no earlier line declares '{token.text}'")
        for token in line.numbers:
            if number_of(token.text) >= FIELDS[self.field].size:
                raise line.fault("TooLarge", token, f"a number is below the field's size, {FIELDS[self.field].size}")


def expression_of(text):
    """The expression that a text is, and its names; or a Fault, on line 1."""
    tokens = [Token(found[0].decode("latin-1"), found.start()) for found in WORDS.finditer(text.encode())]
    line = Line(tokens, 1, len(text.encode()))
    for token in tokens:
        if not token.is_word() and token.text not in "+-*()=" or not token.text.isascii():
            raise line.fault("Character", token, "no expression has this byte")
    expression = line.sum("")
    if line.next() is not None:
        raise line.fault("Syntax", line.next(), "nothing stands after an expression")
    return expression, [token.text for token in line.names]


def names_in(expression):
    """The names that stand in an expression."""
    kind, part = expression
    if kind == "name":
        return {part}
    if kind == "number":
        return set()
    if kind == "negative":
        return names_in(part)
    return set().union(*(names_in(inner[1] if kind == "sum" else inner) for inner in part))


def value_of(field, expression, values):
    """An expression's value, by the values of the names."""
    kind, part = expression
    if kind == "name":
        return values[part]
    if kind == "number":
        return part
    if kind == "negative":
        return field.negative(value_of(field, part, values))
    if kind == "sum":
        total = 0
        for minus, inner in part:
            value = value_of(field, inner, values)
            total = field.add(total, field.negative(value) if minus else value)
        return total
    total = 1
    for inner in part:
        total = field.times(total, value_of(field, inner, values))
    return total


def constant_of(field, expression):
    """The value of an expression without names, and None for another."""
    return None if names_in(expression) else value_of(field, expression, {})


def terms_of(field, expression):
    """The names that stand in an expression as a term of its sum, times constants that are not 0, each as often as it stands so."""
    kind, part = expression
    if kind == "name":
        return [part]
    if kind == "negative":
        return terms_of(field, part)
    if kind == "sum":
        return [name for _, inner in part for name in terms_of(field, inner)]
    if kind == "product":
        moving = [inner for inner in part if names_in(inner)]
        if len(moving) == 1 and all(constant_of(field, inner) for inner in part if inner is not moving[0]):
            return terms_of(field, moving[0])
    return []


def occurrences(expression):
    """The names of an expression, each as often as it stands there."""
    kind, part = expression
    if kind == "name":
        return [part]
    if kind == "number":
        return []
    if kind == "negative":
        return occurrences(part)
    return [name for inner in part for name in occurrences(inner[1] if kind == "sum" else inner)]


def sides_of(statement, values):
    """The two sides of each assert, by the values of the inputs."""
    field, values = FIELDS[statement.field], dict(values)
    for name, expression in statement.lets.items():
        values[name] = value_of(field, expression, values)
    return [(value_of(field, one.left, values), value_of(field, one.right, values)) for one in statement.asserts]


class Depths:
    """The depth of each assert's node (docs/FORMATS.md, section 11)."""

    def __init__(self, statement):
        self.names = {name: 0 for kind in KINDS for name in statement.inputs[kind]}
        for name, expression in statement.lets.items():
            self.names[name] = self.of(expression)
        self.asserts = [max(1, self.of(one.left) or 0, self.of(one.right) or 0) for one in statement.asserts]

    # None for a constant.
    def of(self, expression):
        kind, part = expression
        if kind == "name":
            return self.names[part]
        if kind == "number":
            return None
        if kind == "negative":
            depth = self.of(part)
            return None if depth is None else max(1, depth)
        depths = [self.of(inner[1] if kind == "sum" else inner) for inner in part]
        moving = [depth for depth in depths if depth is not None]
        if not moving:
            return None
        if kind == "sum":
            return max([1, *moving])
        depth = moving[0]
        for other in moving[1:]:
            depth = 1 + max(depth, other)
        return depth if len(moving) == len(depths) else max(1, depth)


def check_order(statement, version):
    """For each check of the statement's circuit the number of its assert, counted from 0."""
    numbers = list(range(len(statement.asserts)))
    if version == 2:
        depths = Depths(statement).asserts
        numbers.sort(key=lambda number: -depths[number])
    return numbers


def no_number(word, size):
    """Why a word is no number of a number file."""
    wanted = "a number is decimal digits, or 0x and hexadecimal digits"
    if re.fullmatch(r"-[0-9]{1,40}", word):
        instead = size - int(word[1:]) if size == Prime.size else int(word[1:])
        return f"{wanted}: write {instead} for {word}" if 0 <= instead < size else wanted
    if word.startswith("0X"):
        return f"{wanted}, with a small x"
    return wanted + (": blanks and line ends separate numbers, and no commas" if "," in word else "")


def read_numbers(text, wanted, size):
    """The numbers of a number file, or a Fault."""
    numbers, lines = [], text.split(b"\n")
    for line, whole in enumerate(lines, 1):
        for found in re.finditer(rb"[^ \t\r]+", whole.split(b"#", 1)[0]):
            word = found[0].decode("latin-1")
            if not NUMBER.fullmatch(word):
                raise Fault("Syntax", line, found.start(), len(word), no_number(word, size))
            if len(numbers) == wanted:
                count = sum(len(re.findall(rb"[^ \t\r]+", other.split(b"#", 1)[0])) for other in lines)
                raise Fault("TooMany", line, found.start(), len(word), f"the circuit takes {wanted} of these, and the file has {count}")
            if number_of(word) >= size:
                raise Fault("TooLarge", line, found.start(), len(word), f"a number is below the field's size, {size}")
            numbers.append(number_of(word))
    if len(numbers) < wanted:
        raise Fault("TooFew", len(lines), len(lines[-1]), 1, f"the circuit takes {wanted} of these, and the file has {len(numbers)}")
    return numbers


def show(name, text, fault):
    """The lines that tell of a fault: the place, the line, and a mark below it."""
    lines = text.split(b"\n")
    line = lines[fault.line - 1][:4000] if fault.line <= len(lines) else b""
    if not line.strip():
        return [f"{name}, line {fault.line}: {fault.wanted}"]
    shown = line.decode("utf-8", "replace").replace("\r", "")
    before = "".join("\t" if letter == "\t" else " " for letter in line[: fault.column].decode("utf-8", "replace"))
    return [f"{name}, line {fault.line}: {fault.wanted}", f"  {shown}", f"  {before}{'^' * min(fault.width, max(1, len(shown) - len(before)))}"]
