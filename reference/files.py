"""The values of the four files, their readers, and their writers.

Every field is taken by one definition, `Cursor.take`, from one table, `TAGS`.
What a field says is judged over an abstract row of fields, so the writer of
narrowed questions passes the same judge as the reader of the file it makes.
"""
from __future__ import annotations

from dataclasses import dataclass
from typing import Iterable, Iterator, NamedTuple, Sequence, Union

JOIN, UNION, BOTH, BRANCH_RIGHT, BRANCH_LEFT, CHAIN = range(128, 134)


class Refusal(Exception):
    """A refusal: its number, its place, and the file it is in.

    Refusals 11 to 16 are on the state's account and belong to `work`.
    """

    def __init__(self, number: int, place: int, file: str = "work"):
        super().__init__(number, place, file)
        self.number = number
        self.place = place
        self.file = file


# Values. Symbols are dataclasses, because tuples of different classes with
# equal contents are equal: Operator(128) must differ from JoinThrough(128).

@dataclass(frozen=True)
class Step:
    direction: int
    link: int


@dataclass(frozen=True)
class Operator:
    code: int


@dataclass(frozen=True)
class JoinThrough:
    kinds: int


Symbol = Union[Step, Operator, JoinThrough]
Question = list


class Sheet(NamedTuple):
    kinds: int
    links: int
    triples: list


class Register(NamedTuple):
    kinds: list
    links: list


class Member(NamedTuple):
    symbols: list
    from_set: int
    to_set: int


def code(symbol: Symbol) -> int:
    """The number by which members are ordered; a join has one code."""
    if isinstance(symbol, Step):
        return 64 * symbol.direction + symbol.link
    return symbol.code if isinstance(symbol, Operator) else JOIN


def codes(symbols: Iterable[Symbol]) -> list:
    return [code(symbol) for symbol in symbols]


def operands(symbol: Symbol) -> int:
    """How many paths a symbol takes."""
    if isinstance(symbol, Step):
        return 0
    return 1 if symbol == Operator(CHAIN) else 2


# The table of fields.

class Layout(NamedTuple):
    role: str
    length: int
    widths: tuple
    files: tuple


TAGS = {
    0x11: Layout("head", 2, (1, 1), ("sheet",)),
    0x12: Layout("triple", 3, (1, 1, 1), ("sheet",)),
    0x21: Layout("head", 1, (1,), ("question",)),
    0x31: Layout("head", 4, (2, 2), ("register",)),
    0x32: Layout("record", 1, (1,), ("register",)),
    0x33: Layout("link", 5, (2, 1, 2), ("register",)),
    0x41: Layout("head", 2, (2,), ("narrowed",)),
    0x42: Layout("member", 17, (1, 8, 8), ("narrowed",)),
    0x43: Layout("symbol", 2, (1, 1), ("question", "narrowed")),
    0x44: Layout("symbol", 1, (1,), ("question", "narrowed")),
    0x45: Layout("symbol", 8, (8,), ("narrowed",)),
}
HEAD_BYTES = 3

KINDS = LINKS = range(64)
SETS = range(2 ** 64)
SYMBOL_RANGES = {
    0x43: (range(2), LINKS),
    0x44: (range(JOIN, CHAIN + 1),),
    0x45: (SETS,),
}


class Field(NamedTuple):
    place: int
    tag: int
    numbers: tuple


class Fields:
    """A row of fields with their places, and the judge of what they say."""

    def __init__(self, file: str):
        self.file = file
        self.place = 0

    def refuse(self, number: int, place: int):
        raise Refusal(number, place, self.file)

    def take(self, role: str) -> Field:
        raise NotImplementedError

    def within(self, field: Field, ranges: Sequence[range]) -> Field:
        """Refusal 3: each number of the field lies in its range."""
        if any(n not in allowed for n, allowed in zip(field.numbers, ranges)):
            self.refuse(3, field.place)
        return field

    def numbers(self, role: str, *ranges: range) -> tuple:
        return self.within(self.take(role), ranges).numbers

    def rising(self, before: list, role: str, *ranges: range) -> tuple:
        """Numbers of a field that must stand above the last one before it."""
        field = self.within(self.take(role), ranges)
        if before and field.numbers <= before[-1]:
            self.refuse(4, field.place)
        return field.numbers

    def symbol(self, paths: int) -> Symbol:
        """A symbol that finds the operands it takes among `paths` paths."""
        field = self.take("symbol")
        self.within(field, SYMBOL_RANGES[field.tag])
        symbol = SYMBOL_CLASSES[field.tag](*field.numbers)
        if operands(symbol) > paths:
            self.refuse(6, field.place)
        return symbol

    def path(self, count: int) -> list:
        """The symbols of one whole path in postfix order."""
        symbols: list = []
        paths = 0
        for _ in range(count):
            symbols.append(self.symbol(paths))
            paths += 1 - operands(symbols[-1])
        if paths > 1:
            self.refuse(6, self.place)
        return symbols


class Cursor(Fields):
    """The fields of a file's bytes, taken from the left."""

    def __init__(self, data: bytes, file: str):
        super().__init__(file)
        self.data = data

    def at_end(self) -> bool:
        return self.place == len(self.data)

    def take(self, role: str) -> Field:
        place, left = self.place, len(self.data) - self.place
        if left == 0:
            self.refuse(5, place)
        if left < HEAD_BYTES:
            self.refuse(1, place)
        tag = self.data[place]
        length = int.from_bytes(self.data[place + 1:place + HEAD_BYTES], "big")
        if not self.due(tag, role) or length != TAGS[tag].length:
            self.refuse(2, place)
        if left < HEAD_BYTES + length:
            self.refuse(1, place)
        self.place += HEAD_BYTES + length
        return Field(place, tag, self.decode(place + HEAD_BYTES, TAGS[tag].widths))

    def due(self, tag: int, role: str) -> bool:
        return tag in TAGS and TAGS[tag].role == role and self.file in TAGS[tag].files

    def decode(self, place: int, widths: Iterable[int]) -> tuple:
        numbers = []
        for width in widths:
            numbers.append(int.from_bytes(self.data[place:place + width], "big"))
            place += width
        return tuple(numbers)

    def finish(self) -> None:
        """Refusal 5: no byte follows the last one allowed."""
        if not self.at_end():
            self.refuse(5, self.place)


class Given(Fields):
    """The fields of a file not made yet, with the places they would have.

    Their numbers may be of any size, so the judge sees them before any byte
    is made. Refusals 1, 2 and 5 cannot arise: the fields are those due.
    """

    def __init__(self, fields: Iterator, file: str):
        super().__init__(file)
        self.fields = fields

    def take(self, role: str) -> Field:
        tag, numbers = next(self.fields)
        field = Field(self.place, tag, tuple(numbers))
        self.place += HEAD_BYTES + TAGS[tag].length
        return field


# The four readers.

def read_sheet(data: bytes) -> Sheet:
    fields = Cursor(data, "sheet")
    kinds, links = fields.numbers("head", range(1, 65), range(1, 65))
    ranges = range(kinds), range(links), range(kinds)
    triples: list = []
    while len(triples) < 512 and not fields.at_end():
        triples.append(fields.rising(triples, "triple", *ranges))
    fields.finish()
    return Sheet(kinds, links, triples)


def read_question(data: bytes) -> Question:
    fields = Cursor(data, "question")
    (count,) = fields.numbers("head", range(1, 33))
    symbols = fields.path(count)
    fields.finish()
    return symbols


def read_register(data: bytes) -> Register:
    fields = Cursor(data, "register")
    records, count = fields.numbers("head", range(1025), range(4097))
    kinds = [fields.numbers("record", KINDS)[0] for _ in range(records)]
    links: list = []
    for _ in range(count):
        links.append(fields.rising(links, "link", range(records), LINKS, range(records)))
    fields.finish()
    return Register(kinds, links)


def read_narrowed(data: bytes) -> list:
    fields = Cursor(data, "narrowed")
    members = take_members(fields)
    fields.finish()
    return members


def take_members(fields: Fields) -> list:
    (count,) = fields.numbers("head", range(129))
    members: list = []
    for _ in range(count):
        place = fields.place
        size, from_set, to_set = fields.numbers("member", range(1, 49), SETS, SETS)
        symbols = fields.path(size)
        if members and codes(symbols) <= codes(members[-1].symbols):
            fields.refuse(4, place)
        members.append(Member(symbols, from_set, to_set))
    return members


# The writers. A file is a row of (tag, numbers); only `write_narrowed` judges.

SYMBOL_CLASSES = {0x43: Step, 0x44: Operator, 0x45: JoinThrough}
SYMBOL_TAGS = {each: tag for tag, each in SYMBOL_CLASSES.items()}


def symbol_field(symbol: Symbol) -> tuple:
    return SYMBOL_TAGS[type(symbol)], tuple(vars(symbol).values())


def sheet_fields(sheet: Sheet) -> Iterator:
    yield 0x11, (sheet.kinds, sheet.links)
    for triple in sheet.triples:
        yield 0x12, triple


def question_fields(question: Question) -> Iterator:
    yield 0x21, (len(question),)
    yield from map(symbol_field, question)


def register_fields(register: Register) -> Iterator:
    yield 0x31, (len(register.kinds), len(register.links))
    for kind in register.kinds:
        yield 0x32, (kind,)
    for link in register.links:
        yield 0x33, link


def narrowed_fields(members: Sequence[Member]) -> Iterator:
    yield 0x41, (len(members),)
    for member in members:
        yield 0x42, (len(member.symbols), member.from_set, member.to_set)
        yield from map(symbol_field, member.symbols)


def encode(fields: Iterable) -> bytes:
    made = bytearray()
    for tag, numbers in fields:
        made += bytes([tag]) + TAGS[tag].length.to_bytes(2, "big")
        for number, width in zip(numbers, TAGS[tag].widths):
            made += number.to_bytes(width, "big")
    return bytes(made)


def sheet_bytes(sheet: Sheet) -> bytes:
    return encode(sheet_fields(sheet))


def question_bytes(question: Question) -> bytes:
    return encode(question_fields(question))


def register_bytes(register: Register) -> bytes:
    return encode(register_fields(register))


def narrowed_bytes(members: Sequence[Member]) -> bytes:
    return encode(narrowed_fields(members))


def write_narrowed(members: Sequence[Member]) -> bytes:
    """The file of a narrowed question, or the refusal its reader would give."""
    take_members(Given(narrowed_fields(members), "narrowed"))
    return narrowed_bytes(members)
