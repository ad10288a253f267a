"""Reads a class of the profile: its tokens and its tree.

It is for classes that java2sdg accepts, and judges none of the rules. Parentheses leave no node, `while` is a `for`
without a header, and `x++` is `x += 1`, which mean the same. An access behind `@Global` and the statement that merges
its parts are one statement.
"""

import re
import sys
from dataclasses import dataclass, field
from typing import Any

# a class may nest 200 levels deep, and its helpers call one another
sys.setrecursionlimit(50_000)

TOKEN = re.compile(
    r"(?P<blank>[ \t\f\r\n]+|//[^\r\n]*|/\*.*?\*/)|(?P<name>[A-Za-z_$][A-Za-z0-9_$]*)|(?P<number>[0-9][0-9A-Za-z_]*)"
    r"|(?P<symbol>>>>=|<<=|>>=|>>>|\+\+|--|&&|\|\||<<|>>|[=!<>+\-*/%&|^]=|[(){}\[\];,.@=<>+\-*/%&|^~!?:])",
    re.DOTALL,
)
LEVELS = [level.split() for level in ("||", "&&", "|", "^", "&", "== !=", "< <= > >=", "<< >> >>>", "+ -", "* / %")]
ASSIGNMENTS = "= += -= *= /= %= &= |= ^= <<= >>= >>>=".split()
BASES = {"x": 16, "b": 2}


class NoClass(Exception):
    """The text is no class of the profile."""


@dataclass
class Token:
    kind: str
    text: str
    start: int


# ---- the tree


class Expression:
    """`type`: its type. `site`: where an access goes, or nothing where it is no access. `text`: an argument as it
    is written."""

    type = ""
    site = None
    text = ""


@dataclass
class Literal(Expression):
    value: Any
    type: str


@dataclass
class Name(Expression):
    name: str


@dataclass
class Unary(Expression):
    operator: str
    operand: Any


@dataclass
class Binary(Expression):
    operator: str
    left: Any
    right: Any


@dataclass
class Conditional(Expression):
    test: Any
    first: Any
    second: Any


@dataclass
class Cast(Expression):
    to: str
    operand: Any


@dataclass
class NewVector(Expression):
    length: Any


@dataclass
class Member(Expression):
    """`name[index]`."""

    name: str
    index: Any


@dataclass
class Length(Expression):
    """`name.length`."""

    name: str


@dataclass
class Call(Expression):
    """`name(..)`, `receiver.name(..)` or `receiver[index].name(..)`."""

    receiver: str
    index: Any
    name: str
    arguments: list


@dataclass
class Parts(Expression):
    """`@Global name` as the argument of a merge: the parts of the access before it."""

    name: str


class Statement:
    """`accesses` and `touched`: its accesses, and the names that it declares or assigns. `mark`: the site before it.
    `begins`: the place of its first token, where it is no part of the header of a `for`."""

    begins = 0
    accesses = ()
    touched = frozenset()
    mark = None


@dataclass
class Local(Statement):
    of_type: str
    name: str
    value: Any


@dataclass
class Assign(Statement):
    """`of_type`: the type of what is assigned."""

    of_type = ""
    name: str
    operator: str
    value: Any


@dataclass
class Invoke(Statement):
    """A call as a statement."""

    call: Any


@dataclass
class Gather(Statement):
    """An access of all instances, and the statement that merges the parts, if there is one."""

    call: Any
    merge: Any


@dataclass
class If(Statement):
    test: Any
    first: Any
    second: Any


@dataclass
class Loop(Statement):
    """A `for`, or a `while`, which has no header. Without a test it is `true`."""

    start: list
    test: Any
    update: list
    body: Any


@dataclass
class Block(Statement):
    """A block, or the empty statement."""

    statements: list


@dataclass
class Jump(Statement):
    """`break` or `continue`."""

    word: str


@dataclass
class Return(Statement):
    value: Any


@dataclass
class Parameter:
    type: str
    name: str


@dataclass
class Field:
    annotations: list
    state_class: str
    name: str
    start: int


@dataclass
class Method:
    modifiers: list
    type: str
    name: str
    parameters: list
    body: list
    is_merge: bool
    start: int

    def kind(self):
        if self.is_merge:
            return "merge"
        return "helper" if "private" in self.modifiers else "entry"


@dataclass
class Class:
    name: str
    fields: list = field(default_factory=list)
    methods: list = field(default_factory=list)


# ---- the reader


def tokens_of(text):
    tokens, at = [], 0
    while at < len(text):
        found = TOKEN.match(text, at)
        if not found:
            raise NoClass(f"no token begins at {place_of(text, at)}")
        if found.lastgroup != "blank":
            tokens.append(Token(found.lastgroup, found.group(), at))
        at = found.end()
    return tokens


def place_of(text, start):
    """The line and the column, from 1, of a character."""
    lines = re.split(r"\r\n|\r|\n", text[:start])
    return f"{len(lines)}:{len(lines[-1]) + 1}"


def number_of(text):
    """The literal of a number: an `int`, or with `L` a `long`. Without a base of its own it may be 2^31 or 2^63."""
    digits, bits = text.replace("_", "").lower(), 32
    if digits.endswith("l"):
        digits, bits = digits[:-1], 64
    base = 10 if len(digits) == 1 or digits[0] != "0" else BASES.get(digits[1], 8)
    value = int(digits[2:] if base in (2, 16) else digits, base)
    if base != 10 and value >= 2 ** (bits - 1):
        value -= 2**bits
    return Literal(value, "int" if bits == 32 else "long")


class Reader:
    def __init__(self, text):
        self.text, self.tokens, self.at = text, tokens_of(text), 0
        self.tokens += [Token("end", "", len(text))] * 4

    def peek(self, ahead=0):
        return self.tokens[self.at + ahead].text

    def next(self):
        self.at += 1
        return self.tokens[self.at - 1].text

    def takes(self, *words):
        """Whether these words come next, which are passed then."""
        if all(self.peek(ahead) == word for ahead, word in enumerate(words)):
            self.at += len(words)
            return True
        return False

    def expect(self, *words):
        if not self.takes(*words):
            raise NoClass(f"{' '.join(words)} is missing at {place_of(self.text, self.tokens[self.at].start)}")

    def name(self):
        if self.tokens[self.at].kind != "name":
            raise NoClass(f"a name is missing at {place_of(self.text, self.tokens[self.at].start)}")
        return self.next()

    def listed(self, part, end):
        """Parts with commas between them, up to the end."""
        parts = []
        if not self.takes(end):
            parts.append(part())
            while self.takes(","):
                parts.append(part())
            self.expect(end)
        return parts

    # -- declarations

    def file(self):
        while self.peek() in ("package", "import"):
            while self.next() != ";":
                pass
        self.modifiers()
        self.expect("class")
        read = Class(self.name())
        self.expect("{")
        while not self.takes("}"):
            self.declaration(read)
        return read

    def modifiers(self):
        found = []
        while self.peek() in ("public", "private", "static", "@"):
            found.append(self.next() if self.peek() != "@" else self.next() + self.name())
        return found

    def declaration(self, read):
        start = self.tokens[self.at].start
        modifiers, of_type, name = self.modifiers(), self.name(), self.name()
        if self.takes("="):
            self.expect("new", of_type, "(", ")", ";")
            read.fields.append(Field([word[1:] for word in modifiers if word[0] == "@"], of_type, name, start))
            return
        self.expect("(")
        collections = []
        parameters = self.listed(lambda: self.parameter(collections), ")")
        body = self.block().statements
        read.methods.append(Method(modifiers, of_type, name, parameters, body, bool(collections), start))

    def parameter(self, collections):
        if self.takes("@", "Collection"):
            collections.append(True)
        of_type, is_array = self.name(), self.takes("[", "]")
        return Parameter(of_type + "[]" * is_array, self.name())

    # -- statements

    def block(self):
        self.expect("{")
        statements = []
        while not self.takes("}"):
            statements.append(self.placed(self.member))
        return Block(statements)

    def placed(self, read):
        """The statement that is read next, with its place."""
        begins = self.tokens[self.at].start
        made = read()
        made.begins = begins
        return made

    def member(self):
        """A statement of a block, which may be a local, or an access of all instances with its merge."""
        if self.peek() == "@" and self.peek(1) == "Partial":
            return self.gather()
        if not self.is_local():
            return self.statement()
        made = self.local()
        self.expect(";")
        return made

    def gather(self):
        self.expect("@", "Partial")
        self.name(), self.name()
        self.expect("=", "@", "Global")
        call = self.expression()
        self.expect(";")
        return Gather(call, self.placed(self.member))

    def is_local(self):
        two = self.tokens[self.at : self.at + 2]
        return all(token.kind == "name" for token in two) and self.peek() != "return"

    def local(self):
        of_type, name = self.name(), self.name()
        return Local(of_type, name, self.expression() if self.takes("=") else None)

    def argument(self):
        first = self.tokens[self.at]
        made = Parts(self.name()) if self.takes("@", "Global") else self.expression()
        last = self.tokens[self.at - 1]
        made.text = self.text[first.start : last.start + len(last.text)]
        return made

    def statement(self):
        if self.peek() == "{":
            return self.block()
        if self.takes(";"):
            return Block([])
        if self.takes("if", "("):
            test = self.closed()
            first = self.placed(self.statement)
            return If(test, first, self.placed(self.statement) if self.takes("else") else None)
        if self.takes("while", "("):
            return Loop([], self.closed(), [], self.placed(self.statement))
        if self.takes("for", "("):
            return self.loop()
        if self.peek() in ("break", "continue"):
            made = Jump(self.next())
        elif self.takes("return"):
            made = Return(None if self.peek() == ";" else self.expression())
        else:
            made = self.simple()
        self.expect(";")
        return made

    def closed(self):
        inner = self.expression()
        self.expect(")")
        return inner

    def loop(self):
        if self.is_local():
            start = [self.local()]
            self.expect(";")
        else:
            start = self.listed(self.simple, ";")
        test = None if self.peek() == ";" else self.expression()
        self.expect(";")
        update = self.listed(self.simple, ")")
        return Loop(start, test, update, self.placed(self.statement))

    def simple(self):
        if self.peek() in ("++", "--"):
            sign = self.next()
            return Assign(self.name(), sign[0] + "=", Literal(1, "int"))
        if self.peek(1) in ("++", "--"):
            return Assign(self.name(), self.next()[0] + "=", Literal(1, "int"))
        if self.peek(1) in ASSIGNMENTS:
            return Assign(self.name(), self.next(), self.expression())
        return Gather(self.expression(), None) if self.takes("@", "Global") else Invoke(self.expression())

    # -- expressions

    def expression(self):
        test = self.binary(0)
        if not self.takes("?"):
            return test
        first = self.expression()
        self.expect(":")
        return Conditional(test, first, self.expression())

    def binary(self, least):
        """The operators of the least level and of those that hold more tightly."""
        left = self.unary()
        while True:
            level = next((level for level, symbols in enumerate(LEVELS) if self.peek() in symbols), -1)
            if level < least:
                return left
            operator = self.next()
            left = Binary(operator, left, self.binary(level + 1))

    def unary(self):
        if self.peek() in ("+", "-", "~", "!"):
            return Unary(self.next(), self.unary())
        if self.peek() == "(" and self.peek(1) in ("int", "long") and self.peek(2) == ")":
            self.at += 1
            of_type = self.next()
            self.expect(")")
            return Cast(of_type, self.unary())
        return self.primary()

    def primary(self):
        if self.takes("("):
            return self.closed()
        if self.tokens[self.at].kind == "number":
            return number_of(self.next())
        if self.peek() in ("true", "false"):
            return Literal(self.next() == "true", "boolean")
        if self.takes("new", "Vector", "("):
            return NewVector(self.closed())
        name = self.name()
        if self.takes("("):
            return Call("", None, name, self.listed(self.argument, ")"))
        index = None
        if self.takes("["):
            index = self.expression()
            self.expect("]")
            if self.peek() != ".":
                return Member(name, index)
        if not self.takes("."):
            return Name(name)
        word = self.name()
        if not self.takes("("):
            return Length(name)
        return Call(name, index, word, self.listed(self.argument, ")"))


def read_class(text):
    return Reader(text).file()
