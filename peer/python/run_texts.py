"""Reads the texts of the calls and of a history, and says which line breaks which rule."""

import re

from source_steps import BITS, LONGEST_VECTOR, WIDEST, NotNext, Source

MOST_CALLS = 65_536
NUMBER = re.compile(r"0|-?[1-9][0-9]*")
HEADER = re.compile(r"sdg nodes (\S+) slots (\S+) stores (\S+) width (\S+)")
LARGEST = [32, 64, 8, WIDEST]
REPORT_LINES = (b"event ", b"drain ", b"result ", b"unfinished ", b"end ")
# by the word of a step, how many words it may have in all
STEP_WORDS = {"begin": [3], "block": [3, 4], "visit": [4], "join": [3], "grow": [3]}


class Refused(Exception):
    """A text is refused: its name, the line and the rule."""

    def __init__(self, name, line, rule):
        super().__init__(f"{name} refused: line {line} rule {rule}")


class BreaksRule(Exception):
    """A line breaks the rule of this number."""


def lines_of(data, skipped=()):
    """The lines that are not skipped, with their numbers from 1."""
    *lines, last = data.split(b"\n")
    lines = [line[:-1] if line.endswith(b"\r") else line for line in lines]
    for number, line in enumerate([*lines, last], 1):
        if line and not line.startswith((b"#", *skipped)):
            yield number, line


def words_of(line):
    words = line.decode("latin-1").split(" ")
    if "" in words or any(not 32 <= byte <= 126 for byte in line):
        raise BreaksRule(1)
    return words


def is_number(word):
    return bool(NUMBER.fullmatch(word))


# ---- calls


def integer(word, bits):
    if not is_number(word) or not -(2 ** (bits - 1)) <= int(word) < 2 ** (bits - 1):
        raise BreaksRule(4)
    return int(word)


def argument(word, of_type):
    if of_type in BITS:
        return integer(word, BITS[of_type])
    if of_type == "boolean":
        if word not in ("true", "false"):
            raise BreaksRule(4)
        return word == "true"
    if not re.fullmatch(r"\[.*\]", word):
        raise BreaksRule(4)
    numbers = word[1:-1].split(",") if word != "[]" else []
    if len(numbers) > LONGEST_VECTOR:
        raise BreaksRule(4)
    return [integer(number, 64) for number in numbers]


def call_of(line, program, count):
    name, *words = words_of(line)
    method = program.methods.get(name)
    if not method or method.kind != "entry":
        raise BreaksRule(2)
    if len(words) != len(method.types):
        raise BreaksRule(3)
    arguments = [argument(word, of_type) for word, of_type in zip(words, method.types)]
    if count == MOST_CALLS:
        raise BreaksRule(5)
    return name, arguments


def read_calls(data, program):
    """The calls: each the name of its method, and its arguments."""
    calls = []
    for number, line in lines_of(data):
        try:
            calls.append(call_of(line, program, len(calls)))
        except BreaksRule as broken:
            raise Refused("calls", number, broken) from None
    return calls


# ---- a history


def header_width(line, is_first):
    """The width of a header, or nothing where the line is none."""
    found = HEADER.fullmatch(line)
    if not found or not all(map(is_number, found.groups())):
        return None
    numbers = list(map(int, found.groups()))
    if not is_first or not all(1 <= number <= most for number, most in zip(numbers, LARGEST)):
        raise BreaksRule(2)
    return numbers[-1]


def make_step(source, words):
    """Makes the step of a line. Answers the number of the call that it ends, or nothing."""
    if len(words) < 2 or words[0] != "step" or len(words) not in STEP_WORDS.get(words[1], []):
        raise BreaksRule(3)
    word, of, *rest = words[1:]
    if word == "grow":
        grow(source, of)
        return None
    if not is_number(of) or not 1 <= int(of) <= len(source.calls):
        raise BreaksRule(4)
    instance = instance_of(source, rest[0]) if rest else None
    try:
        return int(of) if source.step(word, int(of), instance) else None
    except NotNext:
        raise BreaksRule(6) from None


def grow(source, name):
    if name not in source.program.partial:
        raise BreaksRule(4)
    if len(source.fields[name]) == WIDEST:
        raise BreaksRule(5)
    source.grow(name)


def instance_of(source, word):
    if not is_number(word) or int(word) < 0:
        raise BreaksRule(4)
    if int(word) >= source.widest():
        raise BreaksRule(5)
    return int(word)


def follow(program, calls, data):
    """Makes the steps of a history. Answers the numbers of the calls in the order in which they end, the source, the steps."""
    source, ended, steps = None, [], 0
    for number, line in lines_of(data, REPORT_LINES):
        try:
            words = words_of(line)
            width = header_width(" ".join(words), source is None)
            source = source or Source(program, calls, width or 1)
            if width is None:
                steps += 1
                over = make_step(source, words)
                ended += [over] if over else []
        except BreaksRule as broken:
            raise Refused("history", number, broken) from None
    return ended, source or Source(program, calls, 1), steps
