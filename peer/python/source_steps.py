"""Runs the calls of a class step by step: each call is a Python generator that stops where another call may run.

A call stops before each block and at each access of all instances, and goes on by the steps of a history. What it
does between two stops is one step.
"""

from dataclasses import dataclass, field
from typing import Any

import access_sites
import java_profile as tree

TURNS = 100_000
LONGEST_VECTOR = 4096
COLUMNS = 4096
WIDEST = 64


class Ended(Exception):
    """A call ends early: its outcome is an exception of Java, or `limit`."""


ARITHMETIC = "throws ArithmeticException"
INDEX = "throws ArrayIndexOutOfBoundsException"
NEGATIVE_SIZE = "throws NegativeArraySizeException"
LIMIT = "limit"


class NotNext(Exception):
    """A step is not the next of its call."""


# ---- numbers


def wrapped(number, bits):
    """The number of so many bits, in two's complement."""
    half = 1 << (bits - 1)
    return ((number + half) & ((1 << bits) - 1)) - half


def quotient(left, right):
    """Cut toward zero."""
    if right == 0:
        raise Ended(ARITHMETIC)
    whole = abs(left) // abs(right)
    return whole if (left < 0) == (right < 0) else -whole


# the value of each operator on two whole numbers or truth values, before it is wrapped; of shifts the distance is masked
OPERATORS = {
    "+": lambda left, right: left + right,
    "-": lambda left, right: left - right,
    "*": lambda left, right: left * right,
    "/": quotient,
    "%": lambda left, right: left - right * quotient(left, right),
    "&": lambda left, right: left & right,
    "|": lambda left, right: left | right,
    "^": lambda left, right: left ^ right,
    "==": lambda left, right: left == right,
    "!=": lambda left, right: left != right,
    "<": lambda left, right: left < right,
    "<=": lambda left, right: left <= right,
    ">": lambda left, right: left > right,
    ">=": lambda left, right: left >= right,
}
BITS = {"int": 32, "long": 64}


def binary_operator(symbol, left_type, right_type):
    """The operator on operands of these types, as a function of two values."""
    bits = BITS.get(left_type if symbol in access_sites.SHIFTS else access_sites.wider(left_type, right_type))
    if symbol == "<<":
        return lambda left, right: wrapped(left << (right & (bits - 1)), bits)
    if symbol == ">>":
        return lambda left, right: left >> (right & (bits - 1))
    if symbol == ">>>":
        return lambda left, right: wrapped((left & ((1 << bits) - 1)) >> (right & (bits - 1)), bits)
    plain = OPERATORS[symbol]
    if symbol in ("+", "-", "*", "/"):
        return lambda left, right: wrapped(plain(left, right), bits)
    return plain


def cast_to(of_type):
    bits = BITS.get(of_type)
    return (lambda value: wrapped(value, bits)) if bits else lambda value: value


# ---- vectors and the classes of state


def new_vector(length):
    if length < 0:
        raise Ended(NEGATIVE_SIZE)
    if length > LONGEST_VECTOR:
        raise Ended(LIMIT)
    return [0] * length


def member(items, index):
    if not 0 <= index < len(items):
        raise Ended(INDEX)
    return items[index]


def set_member(vector, index, value):
    member(vector, index)
    vector[index] = value


VECTOR_METHODS = {"size": len, "get": member, "set": set_member}


class Table:
    def __init__(self):
        self.entries = {}

    def get(self, key):
        return self.entries.get(key, 0)

    def has(self, key):
        return key in self.entries

    def put(self, key, value):
        self.entries[key] = value

    def add(self, key, value):
        self.entries[key] = wrapped(self.get(key) + value, 64)

    def remove(self, key):
        self.entries.pop(key, None)

    def size(self):
        return len(self.entries)


class Matrix:
    def __init__(self):
        self.entries = {}

    def getElement(self, row, column):
        if not 0 <= column < COLUMNS:
            raise Ended(INDEX)
        return self.entries.get((row, column), 0)

    def setElement(self, row, column, value):
        self.getElement(row, column)
        self.entries[row, column] = value

    def addElement(self, row, column, value):
        self.setElement(row, column, wrapped(self.getElement(row, column) + value, 64))

    def getRow(self, row, columns):
        return [self.entries.get((row, column), 0) for column in range(len(new_vector(columns)))]

    def multiply(self, vector):
        sums = [0] * len(vector)
        for (row, column), value in self.entries.items():
            if 0 <= row < len(vector) and column < len(vector):
                sums[row] += value * vector[column]
        return [wrapped(each, 64) for each in sums]

    def size(self):
        return len(self.entries)


class Counter:
    def __init__(self):
        self.value = 0

    def get(self):
        return self.value

    def add(self, number):
        self.value = wrapped(self.value + number, 64)

    def set(self, number):
        self.value = number


STATE_CLASSES = {"Table": Table, "Matrix": Matrix, "Counter": Counter}


# ---- methods, as functions of a frame


@dataclass
class Stop:
    """What a call waits for: `keyed` or `local` a block, `global` the parts of so many instances and then a join."""

    how: str
    field: str
    method: str = ""
    arguments: list = None
    width: int = 0
    parts: dict = field(default_factory=dict)


@dataclass
class Returned:
    value: Any


class Frame:
    """The variables of a method that runs, and where its block is: the key that was evaluated, the instance, the parts."""

    def __init__(self, call, variables):
        self.call, self.variables = call, variables
        self.key = self.instance = self.parts = None


def finished(running):
    """The value of a generator that does not stop."""
    try:
        next(running)
    except StopIteration as ended:
        return ended.value
    raise AssertionError("a helper stops")


def ending(signal):
    """A statement that does not stop, and gives a signal: a generator that yields nothing."""

    def run(frame):
        return signal(frame)
        yield

    return run


def simple(effect):
    """A statement that does not stop, and after which the next one runs."""

    def nothing(frame):
        effect(frame)

    return ending(nothing)


class Method:
    def __init__(self, read):
        self.name, self.kind, self.type = read.name, read.kind(), read.type
        self.parameters = [parameter.name for parameter in read.parameters]
        self.types = [parameter.type for parameter in read.parameters]
        self.run = None

    def running(self, call, arguments):
        """Runs on the arguments: a generator whose value is the result."""
        returned = yield from self.run(Frame(call, dict(zip(self.parameters, arguments))))
        return returned.value if returned else None


class Program:
    """A class whose methods can run: its expressions are functions of a frame, and its statements generators on one."""

    def __init__(self, read):
        access_sites.Resolver(read)
        self.fields = {each.name: each.state_class for each in read.fields}
        self.partial = [each.name for each in read.fields if "Partial" in each.annotations]
        self.methods = {each.name: Method(each) for each in read.methods}
        for each in read.methods:
            self.methods[each.name].run = self.listed(each.body)

    # -- statements: what the generator gives is nothing, a word to jump by, or what is returned

    def listed(self, statements):
        runs = [self.statement(statement) for statement in statements]

        def run(frame):
            for each in runs:
                signal = yield from each(frame)
                if signal:
                    return signal
            return None

        return run

    def statement(self, node):
        run = STATEMENTS[type(node)](self, node)
        if not node.mark or isinstance(node, tree.Gather):
            return run
        site = node.mark
        key = self.value(node.accesses[0].arguments[0]) if site.how == "keyed" else None

        def marked(frame):
            frame.key = key(frame) if key else None
            frame.call.spend_turn()
            frame.instance = yield Stop(site.how, site.field)
            return (yield from run(frame))

        return marked

    def local(self, node):
        if node.value:
            return self.stored(node.name, self.value(node.value))
        start = {"int": int, "long": int, "boolean": bool, "Vector": list}[node.of_type]
        return self.stored(node.name, lambda _frame: start())

    def stored(self, name, value):
        def store(frame):
            frame.variables[name] = value(frame)

        return simple(store)

    def assign(self, node):
        value, symbol = self.value(node.value), node.operator[: -len("=")]
        if not symbol:
            return self.stored(node.name, value)
        operate = binary_operator(symbol, node.of_type, node.value.type)
        cast = cast_to(node.of_type)
        return self.stored(node.name, lambda frame: cast(operate(frame.variables[node.name], value(frame))))

    def invoke(self, node):
        return simple(self.value(node.call))

    def gather(self, node):
        arguments = self.values(node.call.arguments)
        merge = self.statement(node.merge) if node.merge else None

        def run(frame):
            carried = [argument(frame) for argument in arguments]
            frame.call.spend_turn()
            frame.parts = yield Stop("global", node.call.receiver, node.call.name, carried)
            for part in frame.parts:
                if isinstance(part, Ended):
                    raise part
            return (yield from merge(frame)) if merge else None

        return run

    def block(self, node):
        return self.listed(node.statements)

    def branch(self, node):
        test, first = self.value(node.test), self.statement(node.first)
        second = self.statement(node.second) if node.second else None

        def run(frame):
            chosen = first if test(frame) else second
            return (yield from chosen(frame)) if chosen else None

        return run

    def loop(self, node):
        start, update = self.listed(node.start), self.listed(node.update)
        test = self.value(node.test) if node.test else lambda _frame: True
        body = self.statement(node.body)

        def run(frame):
            yield from start(frame)
            while test(frame):
                frame.call.spend_turn()
                signal = yield from body(frame)
                if signal == "break":
                    return None
                if isinstance(signal, Returned):
                    return signal
                yield from update(frame)
            return None

        return run

    def jump(self, node):
        return ending(lambda _frame: node.word)

    def returned(self, node):
        value = self.value(node.value) if node.value else lambda _frame: None
        return ending(lambda frame: Returned(value(frame)))

    # -- expressions

    def value(self, node):
        return EXPRESSIONS[type(node)](self, node)

    def values(self, nodes):
        return [self.value(node) for node in nodes]

    def literal(self, node):
        return lambda _frame: node.value

    def name(self, node):
        return lambda frame: frame.variables[node.name]

    def unary(self, node):
        operand, bits = self.value(node.operand), BITS.get(node.type)
        if node.operator == "-":
            return lambda frame: wrapped(-operand(frame), bits)
        if node.operator == "~":
            return lambda frame: ~operand(frame)
        return (lambda frame: not operand(frame)) if node.operator == "!" else operand

    def binary(self, node):
        left, right = self.value(node.left), self.value(node.right)
        if node.operator == "&&":
            return lambda frame: left(frame) and right(frame)
        if node.operator == "||":
            return lambda frame: left(frame) or right(frame)
        operate = binary_operator(node.operator, node.left.type, node.right.type)
        return lambda frame: operate(left(frame), right(frame))

    def conditional(self, node):
        test, first, second = self.values([node.test, node.first, node.second])
        return lambda frame: first(frame) if test(frame) else second(frame)

    def cast(self, node):
        operand, cast = self.value(node.operand), cast_to(node.to)
        return lambda frame: cast(operand(frame))

    def new_vector(self, node):
        length = self.value(node.length)
        return lambda frame: new_vector(length(frame))

    def member(self, node):
        index = self.value(node.index)
        return lambda frame: member(frame.variables[node.name], index(frame))

    def length(self, node):
        return lambda frame: len(frame.variables[node.name])

    def parts(self, _node):
        return lambda frame: frame.parts

    def call(self, node):
        arguments = self.values(node.arguments)
        if not node.receiver:
            return self.own_call(self.methods[node.name], arguments)
        if node.site:
            return self.access(node, arguments)
        method = VECTOR_METHODS[node.name]
        vector = self.value(tree.Member(node.receiver, node.index) if node.index else tree.Name(node.receiver))
        return lambda frame: method(vector(frame), *[argument(frame) for argument in arguments])

    def own_call(self, method, arguments):
        def run(frame):
            values = [argument(frame) for argument in arguments]
            frame.call.spend_turn()
            return finished(method.running(frame.call, values))

        return run

    def access(self, node, arguments):
        if node.site.is_compound():
            arguments[0] = lambda frame: frame.key

        def run(frame):
            state = frame.call.fields[node.receiver]
            held = state if frame.instance is None else state[frame.instance]
            return getattr(held, node.name)(*[argument(frame) for argument in arguments])

        return run


STATEMENTS = {
    tree.Local: Program.local,
    tree.Assign: Program.assign,
    tree.Invoke: Program.invoke,
    tree.Gather: Program.gather,
    tree.If: Program.branch,
    tree.Loop: Program.loop,
    tree.Block: Program.block,
    tree.Jump: Program.jump,
    tree.Return: Program.returned,
}
EXPRESSIONS = {
    tree.Literal: Program.literal,
    tree.Name: Program.name,
    tree.Unary: Program.unary,
    tree.Binary: Program.binary,
    tree.Conditional: Program.conditional,
    tree.Cast: Program.cast,
    tree.NewVector: Program.new_vector,
    tree.Member: Program.member,
    tree.Length: Program.length,
    tree.Parts: Program.parts,
    tree.Call: Program.call,
}


# ---- the calls and their steps


def value_text(value):
    if value is None:
        return "void"
    if isinstance(value, list):
        return "[" + ",".join(map(str, value)) + "]"
    return str(value).lower() if isinstance(value, bool) else str(value)


class Running:
    """A call. It has begun where there is a generator, and it has ended where there is an outcome."""

    def __init__(self, fields, method, arguments):
        self.fields, self.method, self.arguments = fields, method, arguments
        self.turns = TURNS
        self.generator = self.stop = self.outcome = None

    def spend_turn(self):
        if self.turns == 0:
            raise Ended(LIMIT)
        self.turns -= 1

    def begin(self):
        self.generator = self.method.running(self, self.arguments)
        self.go_on(None)

    def go_on(self, given):
        """Runs to the next stop, or to the end."""
        self.stop = None
        try:
            self.stop = self.generator.send(given)
        except StopIteration as ended:
            self.outcome = value_text(ended.value)
        except Ended as ended:
            self.outcome = str(ended)
        if self.stop and self.stop.how == "global":
            self.stop.width = len(self.fields[self.stop.field])

    def visit(self, instance):
        """Makes the access of all instances on one of them, and keeps its part."""
        held = self.fields[self.stop.field][instance]
        try:
            self.stop.parts[instance] = getattr(held, self.stop.method)(*self.stop.arguments)
        except Ended as ended:
            self.stop.parts[instance] = ended

    def next_steps(self):
        """The steps that may come next, each as a word and an instance or nothing."""
        if not self.generator:
            return [("begin", None)]
        if not self.stop:
            return []
        if self.stop.how == "keyed":
            return [("block", None)]
        if self.stop.how == "local":
            return [("block", instance) for instance in range(len(self.fields[self.stop.field]))]
        left = [instance for instance in range(self.stop.width) if instance not in self.stop.parts]
        return [("visit", instance) for instance in left] or [("join", None)]


class Source:
    """Calls of a class, and the fields: a partitioned one whole, a partial one as the list of its instances."""

    def __init__(self, program, calls, width):
        self.program = program
        self.fields = {name: STATE_CLASSES[of_class]() for name, of_class in program.fields.items()}
        for name in program.partial:
            self.fields[name] = [STATE_CLASSES[program.fields[name]]() for _ in range(width)]
        self.calls = [Running(self.fields, program.methods[name], arguments) for name, arguments in calls]

    def widest(self):
        return max((len(self.fields[name]) for name in self.program.partial), default=0)

    def grow(self, name):
        self.fields[name].append(STATE_CLASSES[self.program.fields[name]]())

    def step(self, word, number, instance):
        """Makes a step of a call; numbers are from 1. Says whether the call has ended."""
        call = self.calls[number - 1]
        if (word, instance) not in call.next_steps():
            raise NotNext
        if word == "begin":
            call.begin()
        elif word == "visit":
            call.visit(instance)
        elif word == "join":
            call.go_on([call.stop.parts[each] for each in range(call.stop.width)])
        else:
            call.go_on(instance)
        return call.outcome is not None

    def run_whole(self, number):
        """Runs a call of a class without partial fields from its start to its end."""
        call = self.calls[number - 1]
        call.begin()
        while call.stop:
            call.go_on(None)
