"""The vectors of crates/test_files: files, whole and damaged, and members to write, and what the reference program makes of them.

    python3 -m tests.test_files           writes them anew
    python3 -m tests.test_files --check   says whether they are as this script writes them

The crate's `stdin` is a row of fields, one a vector: a tag that says which call it is for, a two-byte length, what is handed in. Its
`stdout` has a line for each: the sizes of what was read or written, or number and place of the refusal; then a digest of every number
that is handed on, or of the writer's area.
"""
from __future__ import annotations

from itertools import chain, islice, product, repeat
from random import Random
from typing import Iterator, NamedTuple

from reference import cases, files, generate
from reference.files import CHAIN, JOIN, TAGS, JoinThrough, Member, Operator, Refusal, Register, Sheet, Step
from tests import stored
from tests.stored import digest, keep, packed, said

FILES = tuple(stored.FILE_TAGS)
BYTES = {"sheet": files.sheet_bytes, "question": files.question_bytes,
         "register": files.register_bytes, "narrowed": files.narrowed_bytes}


# The line of a file.

def sheet_line(sheet: Sheet) -> list:
    table = [0] * 4096
    for a, link, b in sheet.triples:
        table[link * 64 + a] |= 1 << b
    return [sheet.kinds, sheet.links, digest(table)]


def question_line(question: list) -> list:
    return [len(question), digest(files.codes(question), 32)]


def register_line(register: Register) -> list:
    handed_on = [*register.kinds, *chain.from_iterable(register.links)]
    return [len(register.kinds), len(register.links), digest(handed_on)]


def number(symbol) -> int:
    return 255 if isinstance(symbol, JoinThrough) else files.code(symbol)


def narrowed_line(members: list) -> list:
    symbols = [symbol for member in members for symbol in member.symbols]
    made = digest([len(member.symbols) for member in members], 128, len(members))
    made = digest([member.from_set for member in members], 128, made)
    made = digest([member.to_set for member in members], 128, made)
    made = digest([number(symbol) for symbol in symbols], 6144, made)
    return [len(members), digest([getattr(symbol, "kinds", 0) for symbol in symbols], 6144, made)]


READERS = {"sheet": files.read_sheet, "question": files.read_question,
           "register": files.read_register, "narrowed": files.read_narrowed}
LINES = {"sheet": sheet_line, "question": question_line, "register": register_line, "narrowed": narrowed_line}


def line(file: str, data: bytes) -> str:
    try:
        return said("read", *LINES[file](READERS[file](data)))
    except Refusal as refused:
        return said("refused", refused.number, refused.place, 0)


# Files of the cases, and every small damage to them.

def case_files() -> list:
    return [("sheet", files.sheet_bytes(cases.SHEET)),
            ("register", files.register_bytes(cases.REGISTER)),
            ("register", files.register_bytes(cases.BREAKING_REGISTER)),
            *(("question", files.question_bytes(case.question)) for case in cases.CASES),
            *(("narrowed", files.narrowed_bytes(case.members)) for case in cases.CASES)]


def with_bytes(data: bytes, place: int, new: bytes) -> bytes:
    return data[:place] + new + data[place + len(new):]


def cut(data: bytes):
    """Every truncation, and bytes after the end."""
    yield from (data[:size] for size in range(len(data)))
    yield from (data + data[:size] for size in (1, 2, 3, len(data)))


def flipped(data: bytes):
    """Each byte with one bit flipped, and with all."""
    for place, byte in enumerate(data):
        yield with_bytes(data, place, bytes([byte ^ 1 << place * 5 % 8]))
        yield with_bytes(data, place, bytes([byte ^ 255]))


def headed(data: bytes):
    """Each field with another tag, and with another length."""
    for first, end in generate.fields_in(data):
        length = end - first - files.HEAD_BYTES
        for tag in (*TAGS, 0, 255):
            yield with_bytes(data, first, bytes([tag]))
        for other in (0, length - 1, length + 1, length + 256, 65535):
            yield with_bytes(data, first + 1, other.to_bytes(2, "big"))


def replaced(data: bytes):
    """Each field replaced by a whole field of each tag."""
    for first, end in generate.fields_in(data):
        for tag, layout in TAGS.items():
            yield data[:first] + files.encode([(tag, [1] * len(layout.widths))]) + data[end:]


def moved(data: bytes):
    """Each field left out, and given twice; each two neighbours exchanged."""
    fields = [data[first:end] for first, end in generate.fields_in(data)]
    for i, field in enumerate(fields):
        yield b"".join(fields[:i] + fields[i + 1:])
        yield b"".join(fields[:i] + [field] + fields[i:])
        yield b"".join(fields[:i] + fields[i + 1:i + 2] + [field] + fields[i + 2:])


# by tag: one below, at and above the ends of each range of the specification, and of what the cases make of it
EDGES = {
    0x11: (0, 1, 2, 4, 5, 6, 7, 63, 64, 65, 255),
    0x12: (0, 4, 5, 6, 7, 63, 64),
    0x21: (0, 1, 2, 3, 4, 5, 31, 32, 33, 255),
    0x31: (0, 5, 6, 7, 8, 1023, 1024, 1025, 4095, 4096, 4097, 65535),
    0x32: (0, 62, 63, 64, 255),
    0x33: (0, 1, 5, 6, 7, 62, 63, 64, 256),
    0x41: (0, 1, 2, 3, 127, 128, 129, 256, 65535),
    0x42: (0, 1, 2, 3, 4, 5, 47, 48, 49, 255, 2 ** 63, 2 ** 64 - 1),
    0x43: (0, 1, 2, 62, 63, 64, 255),
    0x44: (0, *range(127, 135), 255),
    0x45: (0, 1, 2 ** 63, 2 ** 64 - 1),
}


def edged(data: bytes):
    """Each number of each field at every edge that fits its bytes."""
    for first, _ in generate.fields_in(data):
        place = first + files.HEAD_BYTES
        for width in TAGS[data[first]].widths:
            yield from (with_bytes(data, place, edge.to_bytes(width, "big")) for edge in EDGES[data[first]] if edge < 256 ** width)
            place += width


DAMAGES = (cut, flipped, headed, replaced, moved, edged)


def damaged_cases() -> list:
    return [(file, each) for file, data in case_files() for damage in DAMAGES for each in damage(data)]


# Edges of sizes, of order and of operand counts.

STEP = Step(0, 0)


def sheets() -> list:
    corners = [Sheet(k, e, []) for k, e in product((0, 1, 2, 63, 64, 65), repeat=2)]
    corners += [Sheet(k, e, [triple]) for k, e in ((1, 1), (2, 3), (64, 64))
                for triple in ((k - 1, e - 1, k - 1), (k, 0, 0), (0, e, 0), (0, 0, k))]
    triples = list(product(range(2), repeat=3))
    return corners + [Sheet(2, 2, [a, b]) for a, b in product(triples, repeat=2)]


def large_sheets(rng: Random) -> list:
    """A byte after 512 triples is 5; after 511 it is 1 or 2."""
    data = files.sheet_bytes(generate.large_sheet(rng))
    return [data, data[:-6], data[:-5], data[:-3], data + b"\x12", data + b"\x12\0\3\x3f\x3f\x3f", data[:-6] + b"\x13\0\3"]


def operand_orders(most: int, *symbols) -> list:
    """Every row of up to `most` of these symbols."""
    return [list(row) for size in range(1, most + 1) for row in product(symbols, repeat=size)]


def questions(rng: Random) -> list:
    return ([[]] + operand_orders(4, STEP, Operator(JOIN), Operator(CHAIN))
            + [generate.large_question(rng, size) for size in range(1, 34)]
            + [[STEP] * size for size in (31, 32, 33)]
            + [[STEP] + [Operator(CHAIN)] * size for size in (30, 31, 32)]
            + [[STEP] + [STEP, Operator(code)] * 2 for code in range(126, 136)]
            + [[Step(direction, link)] for direction in (0, 1, 2) for link in (0, 63, 64)])


def registers(rng: Random) -> list:
    ends = list(product(range(2), repeat=3))
    return ([Register([], []), Register([], [(0, 0, 0)]), Register([0] * 1024, []), Register([0] * 1025, []),
             generate.large_register(rng, 1024, 100), generate.large_register(rng, 30, 0)]
            + [Register([kind], []) for kind in (0, 62, 63, 64, 255)]
            + [Register([0] * n, [link]) for n in (1, 2, 300) for link in
               ((n - 1, 63, n - 1), (n, 0, 0), (0, 0, n), (0, 64, 0), (0, 255, 0), (256, 0, 0), (0, 0, 65535))]
            + [Register([0] * 2, [a, b]) for a, b in product(ends, repeat=2)])


def large_registers(rng: Random) -> list:
    data = files.register_bytes(generate.large_register(rng))
    return [data, with_bytes(data, 5, (4097).to_bytes(2, "big"))[:64]]


PATHS = [[STEP], [Step(0, 1)], [Step(1, 0)], [STEP, Operator(CHAIN)], [STEP, STEP, Operator(JOIN)], [STEP, STEP, JoinThrough(5)],
         [STEP, STEP, Operator(JOIN + 1)], [STEP, STEP, Operator(JOIN), Operator(CHAIN)], [STEP, Step(1, 0), JoinThrough(0)]]


def rows_of_members(rng: Random) -> list:
    """Members in every order of two; of every small row of symbols; of many symbols; many of them."""
    return ([[Member(a, 1, 2), Member(b, 3, 4)] for a, b in product(PATHS, repeat=2)]
            + [[Member(path, 0, 2 ** 64 - 1)] for path in operand_orders(3, STEP, Operator(JOIN), Operator(CHAIN), JoinThrough(9))]
            + [[Member(generate.random_path(rng, size, lambda: STEP, lambda: JoinThrough(size)), 1, 2)] for size in (46, 47, 48, 49)]
            + [[Member([], 1, 2)], [Member([STEP] * 48, 1, 2)]]
            + [[Member([Step(n // 64, n % 64)], n, 2 ** 64 - 1 - n) for n in range(count)] for count in (0, 1, 2, 127, 128)]
            + [[Member([STEP] + [Operator(CHAIN)] * n, n, n) for n in range(48)]]
            + [[Member([Step(n // 64, n % 64)] + [Operator(CHAIN)] * 47, n, n) for n in range(128)]])


def sizes(rng: Random) -> list:
    made = {"sheet": sheets(), "question": questions(rng), "register": registers(rng), "narrowed": rows_of_members(rng)}
    small = [(file, BYTES[file](value)) for file in FILES for value in made[file]]
    return (small + [("sheet", data) for data in large_sheets(rng)] + [("register", data) for data in large_registers(rng)]
            + [("narrowed", files.narrowed_bytes(generate.large_members(rng))),
               ("narrowed", files.narrowed_bytes(generate.large_members(rng, 129))[:64])])


# What the writer is given, and what it makes of it.

class Arrays(NamedTuple):
    """The bytes of its area; the number of members; of each its size and sets, of each symbol its number and set. 0 past them."""
    room: int
    count: int
    members: list
    symbols: list


def given(members: list) -> Arrays:
    return Arrays(len(files.narrowed_bytes(members)), len(members),
                  [(len(member.symbols), member.from_set, member.to_set) for member in members],
                  [(number(symbol), getattr(symbol, "kinds", 0)) for member in members for symbol in member.symbols])


def symbol_field(number: int, kinds: int) -> tuple:
    if number < 128:
        return 0x43, divmod(number, 64)
    return (0x45, (kinds,)) if number == 255 else (0x44, (number,))


def given_fields(each: Arrays) -> Iterator:
    symbols = chain(each.symbols, repeat((0, 0)))
    yield 0x41, (each.count,)
    for member in islice(chain(each.members, repeat((0, 0, 0))), each.count):
        yield 0x42, member
        yield from (symbol_field(*symbol) for symbol in islice(symbols, member[0]))


def written(each: Arrays) -> bytes:
    """The file of what is given, or the refusal that its reader would give, or 14."""
    files.take_members(files.Given(given_fields(each), "narrowed"))
    made = files.encode(given_fields(each))
    if each.room < len(made):
        raise Refusal(14, len(made))
    return made


def written_line(each: Arrays) -> str:
    area = bytes([165]) * each.room
    try:
        made = written(each)
        return said("wrote", len(made), digest(made + area[len(made):]))
    except Refusal as refused:
        return said("refused", refused.number, refused.place, digest(area))


def given_bytes(each: Arrays) -> bytes:
    head = each.room.to_bytes(2, "big") + each.count.to_bytes(8, "big") + len(each.members).to_bytes(2, "big")
    members = [bytes([size]) + a.to_bytes(8, "big") + b.to_bytes(8, "big") for size, a, b in each.members]
    return head + b"".join(members) + b"".join(bytes([code]) + kinds.to_bytes(8, "big") for code, kinds in each.symbols)


def areas(each: Arrays) -> list:
    """Areas that are empty, short by one, exact, and longer."""
    return [each._replace(room=room) for room in (0, each.room - 1, each.room, each.room + 1, each.room + 20)]


def numbers_given() -> list:
    """Every number from 126 on as a symbol; counts and sizes that the rest does not bear out; sets and members that nothing counts."""
    one, two = given(cases.CASES[0].members), given(cases.CASES[3].members)
    counts = (0, 1, 2, 3, 127, 128, 129, 255, 256, 257, 65535, 65536, 2 ** 32, 2 ** 64 - 1)
    return ([one._replace(symbols=[(0, 0), (3, 0), (code, 7)], room=60) for code in range(126, 256)]
            + [two._replace(count=count, room=200) for count in counts]
            + [one._replace(members=[(size, 1, 8)], room=400) for size in (0, 1, 2, 4, 47, 48, 49, 127, 128, 255)]
            + [each._replace(symbols=[(code, 2 ** 64 - 1) for code, _ in each.symbols] + [(200, 9)] * 3,
                             members=each.members + [(77, 8, 9)]) for each in (one, two)])


def random_given(rng: Random) -> Arrays:
    """Members, good or spoiled, and an area that is too short one time in three."""
    members = generate.random_members(rng)
    if members and rng.random() < 0.5:
        members = generate.spoiled_members(rng, members)
    each = given(members)
    return each._replace(room=max(each.room + rng.choice([-1, 0, 8]), 0))


def writings(rng: Random) -> list:
    small = [each for case in cases.CASES for each in areas(given(case.members))]
    large = given(generate.large_members(rng))
    return (small + numbers_given() + [given(members) for members in rows_of_members(rng)]
            + [large, large._replace(room=large.room - 1)] + [random_given(rng) for _ in range(250)])


# All of it.

def random_files(rng: Random) -> list:
    return [(file, generate.random_file(rng, file)) for file in FILES for _ in range(250)]


def readings(rng: Random) -> list:
    empty = [(file, b"") for file in FILES]
    return list(dict.fromkeys(empty + case_files() + sizes(rng) + damaged_cases() + random_files(rng)))


def main() -> None:
    rng = Random(1)
    read, write = readings(rng), writings(rng)
    fields = [packed(stored.FILE_TAGS[file], data) for file, data in read] + [packed(stored.CALL, given_bytes(each)) for each in write]
    keep("test_files", fields, [line(*each) for each in read] + [written_line(each) for each in write])


if __name__ == "__main__":
    main()
