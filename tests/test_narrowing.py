"""The vectors of crates/test_narrowing: calls of narrowing, and what the reference program makes of them.

    python3 -m tests.test_narrowing           writes them anew
    python3 -m tests.test_narrowing --check   says whether they are as this script writes them

The crate's `stdin` is a row of fields: a tag, a two-byte length, a body. Tags 1 and 2 say what the sheet and the question are from there
on. Tag 5 is a call: its body has the words lent as work area in two bytes, and the bytes lent for the file in four. Its `stdout` has a
line for each call: `file` with the numbers of members and of bytes, or `refused` with number, file (1 sheet, 2 question, 5 work) and
place; then digests of both areas, all of whose words and bytes were marked before the call.
"""
from __future__ import annotations

from itertools import combinations, product
from random import Random
from typing import Iterator, NamedTuple, Optional

from reference import calls, cases, files, generate, narrowing
from reference.files import BOTH, BRANCH_LEFT, BRANCH_RIGHT, CHAIN, JOIN, UNION, Operator, Refusal, Sheet, Step
from reference.generate import BINARY, layered_sheet
from tests.theory_cases import tested
from tests.test_answers import SOURCES, WHOLE, line_of, marked, refused_cases, ring_of, some
from tests.stored import CALL, FILE_TAGS, digest, keep, packed, renewed, said

WORK, FILE = 8200, 70200  # the words and bytes that the program can lend
NEED = calls.NARROWING_WORK
LARGEST = 5 + 128 * (20 + 48 * 11)  # no file is longer


class Call(NamedTuple):
    """A sheet, a question, the words lent as work area, the bytes lent for the file."""
    sheet: bytes
    question: bytes
    work: int = NEED
    file: int = 60


# The fields of a row of calls, and their lines.

def lengths(call: Call) -> bytes:
    assert call.work <= WORK and call.file <= FILE, "the program cannot lend so much"
    return call.work.to_bytes(2, "big") + call.file.to_bytes(4, "big")


def fields(row: list) -> Iterator:
    """Each call, and before it those of its files that do not stand already."""
    standing: dict = {}
    for call in row:
        yield from renewed(standing, {FILE_TAGS["sheet"]: call.sheet, FILE_TAGS["question"]: call.question})
        yield packed(CALL, lengths(call))


def line(call: Call) -> str:
    work, file = marked(call.work), bytearray([165] * call.file)
    outcome = calls.narrow(call.sheet, call.question, work, file)
    if isinstance(outcome, calls.Refused):
        return said("refused", outcome.number, 1 + SOURCES.index(outcome.file), outcome.place, digest(work), digest(file))
    return said("file", outcome.count, outcome.size, digest(work), digest(file))


# Calls; their areas are longer than needed by so many words and bytes.

def members(sheet: Sheet, question: list) -> Optional[list]:
    try:
        return narrowing.narrow(sheet, question)
    except Refusal:
        return None


def size(sheet: Sheet, question: list) -> int:
    """The bytes of the file, or, where there is none, as many as the first case has."""
    made = members(sheet, question)
    return len(cases.CASE_1_FILE if made is None else files.narrowed_bytes(made))


def asked(sheet: Sheet, question: list, work: int = 0, file: int = 0) -> Call:
    return Call(files.sheet_bytes(sheet), files.question_bytes(question), NEED + work, size(sheet, question) + file)


def longer(rng: Random) -> tuple:
    """Seldom shorter by a byte."""
    return rng.choice([(0, 0), (0, 0), (0, 0), (8, 0), (0, 1), (0, 9), (1, 30), (0, -1)])


# Questions, put together from paths.

def forward(*links: int) -> list:
    return put(JOIN, *([Step(0, link)] for link in links))


def reverse(*links: int) -> list:
    return put(JOIN, *([Step(1, link)] for link in links))


def put(code: int, first: list, *others: list) -> list:
    """All of them under one operator, from the left."""
    return first + [symbol for other in others for symbol in (*other, Operator(code))]


def join(*paths: list) -> list:
    return put(JOIN, *paths)


def union(*paths: list) -> list:
    return put(UNION, *paths)


def chain(path: list, times: int = 1) -> list:
    return path + [Operator(CHAIN)] * times


# Sheets, put together from the pairs of each link.

def sheet_of(named: dict, kinds: int = 0, links: int = 0) -> Sheet:
    """With no more kinds and links than are named, unless more are asked for."""
    triples = sorted({(a, link, b) for link, pairs in named.items() for a, b in pairs})
    return Sheet(max([kinds, *(1 + max(a, b) for a, _, b in triples)]), max([links, 1, *(1 + link for link in named)]), triples)


def path_of(first: int, hops: int) -> list:
    """Pairs from kind `first` on, each leading to the next kind."""
    return line_of(list(range(first, first + hops + 1)))


def ordered(first: int, kinds: int) -> list:
    """Each of so many kinds leads to each later one: 2^kinds - kinds - 1 walks."""
    return list(combinations(range(first, first + kinds), 2))


def full(sources: range, targets: range) -> list:
    return list(product(sources, targets))


def around(before: int, ring: int, after: int) -> list:
    """A ring that the kinds before it lead into and that leads to those after it: (before + ring) * (ring + after) kept triples."""
    kinds = list(range(before + ring + after))
    first, last = kinds[before], kinds[before + ring - 1]
    return [*((a, first) for a in kinds[:before]), *ring_of(kinds[before:before + ring]), *((last, b) for b in kinds[before + ring:])]


# The cases of the specification, and areas of every length.

def case_calls() -> Iterator:
    for case in cases.CASES:
        yield asked(cases.SHEET, case.question)
        yield asked(cases.SHEET, case.question, 8, 3)


def area_lengths() -> Iterator:
    """Empty, short by one, exact and longer, each with each: 15 before 14, and 14 with the bytes needed."""
    for case in (cases.CASES[0], cases.CASES[3], cases.CASES[7], cases.CASES[9]):
        call = asked(cases.SHEET, case.question)
        works = 0, 1, NEED - 1, NEED, NEED + 1, WORK
        rooms = 0, 4, 5, call.file - 1, call.file, call.file + 1, call.file + 20
        yield from (call._replace(work=work, file=file) for work, file in product(works, sorted(set(rooms))))
    yield from (call._replace(file=room) for room in (LARGEST - 1, LARGEST, LARGEST + 1, FILE))


# The order of refusals: sheet, question, 15, 11, the first symbol with 12 or 13, 14.

MANY, LONG, FEW, UNNAMED = [Step(0, 0)], chain([Step(0, 1)]), [Step(0, 2)], [Step(1, 3)]
CROWDED = sheet_of({0: [(n // 12, n % 12) for n in range(129)], 1: path_of(3, 25), 2: [(0, 1), (1, 2), (4, 6)]}, 64)


def orders() -> Iterator:
    """What is wrong with a question, in every order, with each other thing that may be wrong or not."""
    questions = [files.question_bytes(union(*paths))
                 for paths in ([FEW], [FEW, UNNAMED], [MANY, FEW], [FEW, LONG], [MANY, LONG], [LONG, MANY], [UNNAMED, MANY],
                               [MANY, UNNAMED], [LONG, UNNAMED], [FEW, LONG, MANY, UNNAMED])]
    sheet = files.sheet_bytes(CROWDED)
    for cut, question, damage, work, file in product((0, 1), questions, (0, 2), (NEED - 1, NEED), (4, 200)):
        yield Call(sheet[:len(sheet) - cut], question[:len(question) - damage], work, file)


def at_symbols() -> Iterator:
    """12 and 13 at every place among others, one before the other, and in parts whose triples vanish later."""
    nothing = put(BOTH, FEW, [Step(1, 2)])
    for code in BINARY:
        for paths in ([MANY, LONG], [LONG, MANY], [nothing, MANY], [nothing, LONG], [MANY, nothing], [LONG, nothing], [FEW, MANY, FEW]):
            yield asked(CROWDED, put(code, *paths))
    for before in range(1, 15):
        yield asked(CROWDED, union(*[FEW] * before, MANY))
        yield asked(CROWDED, union(*[FEW] * before, LONG))


def unnamed_links() -> Iterator:
    """The links below and from E on, at every place of a question."""
    for links in (1, 2, 3, 31, 32, 33, 63):
        sheet = sheet_of({0: [(0, 1), (1, 1)], links - 1: [(0, 0), (1, 0)]}, links=links)
        for link, direction in product((links - 1, links, 63), (0, 1)):
            yield asked(sheet, [Step(direction, link)])
            yield asked(sheet, union(forward(0), [Step(direction, link)], forward(0)))
    for place in range(16):
        steps = [[Step(0, 3 if n >= place else n % 3)] for n in range(16)]
        yield asked(CROWDED, put(BINARY[place % 5], *steps))
        yield asked(CROWDED, [symbol for path in steps for symbol in path] + [Operator(UNION)] * 15)


# 127, 128 and 129 triples under each symbol.

def many_pairs(count: int, links: tuple = (0,)) -> dict:
    """So many pairs, shared out between the links."""
    return {link: [(n // 12, n % 12) for n in range(count) if n % len(links) == i] for i, link in enumerate(links)}


def twice(count: int, sides: range, odd: int) -> dict:
    """Pairs of link 0, from whose beginning or end two more links lead on; for an odd count one from which only one does."""
    pairs = [(n // 8, 8 + n % 8) for n in range(count // 2)] + [(40, 41)] * (count % 2)
    return {0: pairs, 2: [(kind, 50) for kind in (*sides, odd)], 3: [(kind, 51) for kind in sides]}


def four_times(count: int) -> dict:
    """A quarter of the pairs under four links, what is left over under two of them."""
    pairs = [(n // 8, 8 + n % 8) for n in range(count // 4)]
    return {0: pairs + [(n, 40) for n in range(count % 4)], 1: pairs, 2: pairs + [(n, 40) for n in range(count % 4)], 3: pairs}


def counted(count: int) -> Iterator:
    """Sheets and questions whose last part has so many triples."""
    either, other = union(forward(0), forward(1)), union(forward(2), forward(3))
    walks = [*ordered(0, 7), *path_of(10, 3)]  # 126
    more = [(20 + n, 40 + n) for n in range(count - 126)]
    yield sheet_of(many_pairs(count)), forward(0)
    yield sheet_of(many_pairs(count)), reverse(0)
    yield sheet_of(many_pairs(count)), union(forward(0), forward(0))
    yield sheet_of(many_pairs(count, (0, 1))), either
    yield sheet_of(many_pairs(count, (0, 1, 2, 3))), union(either, other)
    yield sheet_of(four_times(count)), put(BOTH, either, other)
    yield sheet_of(twice(count, range(8, 16), 41)), put(BRANCH_RIGHT, forward(0), other)
    yield sheet_of(twice(count, range(8), 40)), put(BRANCH_LEFT, other, forward(0))
    yield sheet_of({0: walks + more}), chain(forward(0))
    yield sheet_of({0: [(b, a) for a, b in walks + more]}), chain(forward(0))
    yield sheet_of({0: walks[:21], 1: walks[21:] + more}), chain(either)
    if count > 127:
        first, last = {128: (8, 16), 129: (3, 43)}[count]
        yield sheet_of({0: full(range(first), range(50, 51)), 1: full(range(50, 51), range(last))}), forward(0, 1)
        for ring in range(1, first + 1):
            yield sheet_of({0: around(first - ring, ring, last - ring)}), chain(forward(0))


def counts() -> Iterator:
    for count in (127, 128, 129):
        for sheet, question in counted(count):
            yield asked(sheet, question)
            yield asked(sheet, union(question, question))
            yield asked(sheet, put(BOTH, question, question))


# 47, 48 and 49 symbols under each symbol.

def even_walk(hops: int) -> tuple:
    """A walk of so many hops and then one of four symbols, which has a kept chain: 2 * hops + 4 symbols."""
    sheet = sheet_of({0: path_of(0, hops), 1: [(hops, 60)], 2: [(60, 60)]})
    return sheet, chain(union(forward(0), join(forward(1), chain(forward(2)))))


def sizes() -> Iterator:
    for tail, code in product((1, 3, 4, 5), (JOIN, BOTH, BRANCH_RIGHT, BRANCH_LEFT, UNION)):
        made = generate.size_edge(tail, code)
        yield asked(*made)
        yield asked(made.sheet, put(BOTH, made.question, forward(2)))
    for hops in range(1, 27):
        for path in (forward(0), reverse(0), union(forward(0), forward(0))):
            yield asked(sheet_of({0: path_of(0, hops)}), chain(path))
        yield asked(*even_walk(hops))


def paired_walks() -> Iterator:
    """Walks put together with walks: from 13 hops on a pair has 51 symbols, and there may be too many pairs too."""
    for hops, code in product((2, 3, 5, 7, 11, 12, 13, 14, 15), BINARY):
        sheet = sheet_of({0: path_of(0, hops)})
        yield asked(sheet, put(code, chain(forward(0)), chain(forward(0))))
        yield asked(sheet, put(code, chain(forward(0)), chain(reverse(0))))
        yield asked(sheet_of({0: path_of(0, hops), 1: [(hops, 0)]}), put(code, chain(forward(0)), join(forward(1), chain(forward(0)))))


def tested_walks() -> Iterator:
    """Chains of a step with tests: of up to 16 hops in a line, and of all ways through up to 16 ordered kinds."""
    for hops, tests in product(range(1, 17), range(1, 8)):
        if 40 <= hops * (2 + 2 * tests) - 1 <= 60:
            yield asked(sheet_of({0: path_of(0, hops)}), chain(tested(tests)))
            yield asked(sheet_of({0: path_of(64 - hops - 1, hops)}), chain(union(tested(tests), tested(tests))))
    for kinds, tests in product(range(3, 17), (0, 1, 2, 3, 5)):
        yield asked(sheet_of({0: ordered(0, kinds)}), chain(tested(tests)))


def uneven_walk(rng: Random) -> tuple:
    """A chain over a line whose hops have paths of 1, 3, 5 or 7 symbols, or two of these; its longest walk, in symbols."""
    hops = [rng.sample(range(4), rng.choice([1, 1, 1, 2])) for _ in range(rng.randint(3, 12))]
    sheet = sheet_of({link: [(n, n + 1) for n, links in enumerate(hops) if link in links] for link in range(4)})
    paths = [put(BRANCH_RIGHT, forward(link), *[reverse(link)] * link) for link in rng.sample(range(4), 4)]
    return sheet, chain(union(*paths)), sum(2 + 2 * max(links) for links in hops) - 1


def uneven_walks(rng: Random) -> Iterator:
    made = [uneven_walk(rng) for _ in range(400)]
    yield from (asked(sheet, question) for sheet, question, longest in made if 45 <= longest <= 51)


# Very many walks.

def ringed_layers(count: int, width: int) -> Sheet:
    """Its last layer leads to its first."""
    sheet = layered_sheet(count, width)
    return sheet_of({0: [(a, b) for a, _, b in sheet.triples] + full(range(sheet.kinds - width, sheet.kinds), range(width))})


def many_walks(rng: Random) -> Iterator:
    """12, or 13 from 25 hops on; ringed kinds, whose walks have no end, give few triples."""
    for count in (2, 3, 4, 5, 6, 7, 8, 16, 20, 22, 23, 24, 25, 26, 27, 31, 32):
        yield asked(layered_sheet(count, 2), chain(forward(0)))
        yield asked(layered_sheet(count, 2), chain(reverse(0)))
        yield asked(layered_sheet(count, 2), chain(union(forward(0), forward(0, 0))))
    for count, width in ((15, 3), (9, 4), (6, 5), (4, 6), (3, 8), (2, 11)):
        yield asked(layered_sheet(count, width), chain(forward(0)))
        yield asked(layered_sheet(count, width), chain(chain(forward(0))))
        yield asked(layered_sheet(count, width), chain(tested(2)))
    for count, width in ((1, 11), (2, 5), (3, 3), (5, 2), (11, 1), (12, 1), (2, 6), (4, 3), (25, 2), (64, 1)):
        yield asked(ringed_layers(count, width), chain(forward(0)))
        yield asked(ringed_layers(count, width), chain(put(BOTH, forward(0), forward(0))))
    for before, ring, after in ((4, 4, 12), (0, 8, 8), (1, 2, 41), (7, 1, 15), (2, 1, 42), (0, 11, 0), (0, 1, 63)):
        yield asked(sheet_of({0: around(before, ring, after)}), chain(forward(0)))
        yield asked(sheet_of({0: around(before, ring, after)}), chain(reverse(0), 2))
    for _ in range(40):
        yield asked(*generate.random_layered_chain(rng))


# Chains over every graph of three kinds, and over rings with ways around them.

def graphs_of(pairs: list) -> Iterator:
    for chosen in range(1 << len(pairs)):
        yield [pair for i, pair in enumerate(pairs) if chosen >> i & 1]


THREE = full(range(3), range(3))
ABOVE = [chain(reverse(0)), chain(forward(0, 0)), chain(union(forward(0), reverse(0))), join(forward(0), chain(forward(0))),
         join(chain(forward(0)), reverse(0)), put(BRANCH_RIGHT, forward(0), chain(forward(0))), chain(chain(forward(0)))]


def every_graph() -> Iterator:
    for n, pairs in enumerate(graphs_of(THREE)):
        sheet = sheet_of({0: pairs}, 3)
        yield asked(sheet, chain(forward(0)))
        yield asked(sheet, ABOVE[n % len(ABOVE)])


SHAPES = [
    # no rings under link 0; a ring with ways around it; two rings in a row; rings under link 2 alone; all kinds ringed
    sheet_of({0: ordered(0, 4), 1: [(0, 1), (1, 3)], 2: [(3, 0), (2, 1)]}),
    sheet_of({0: [(0, 1), (1, 1), (1, 2), (0, 2), (0, 3), (3, 2)], 1: [(2, 4), (4, 0)], 2: [(0, 4), (4, 4)]}),
    sheet_of({0: [(0, 1), (1, 0), (2, 3), (3, 4), (4, 2), (1, 2), (4, 5)], 1: [(5, 0), (0, 5)], 2: [(0, 1), (1, 3)]}),
    sheet_of({0: [(63, 1), (1, 0), (0, 2)], 1: [(0, 63), (2, 1)], 2: [(1, 1), (63, 63), (0, 0)]}),
    sheet_of({0: full(range(2), range(2)), 1: [(0, 1)], 2: [(1, 0), (2, 1), (0, 2)]}),
]
INNER = [forward(0), reverse(0), forward(0, 1), union(forward(0), forward(1)), union(forward(0), forward(0, 0)),
         put(BOTH, forward(0), union(forward(0), forward(1))), put(BRANCH_RIGHT, forward(0), forward(1)),
         put(BRANCH_LEFT, forward(1), forward(0)), chain(forward(0)), chain(union(forward(0), forward(1))),
         union(forward(1), chain(forward(0))), join(forward(1), chain(forward(0)), forward(2))]


def outer(path: list) -> Iterator:
    """The path's chain alone, twice, and beside a step under every operator."""
    yield path
    yield chain(path)
    yield chain(path, 2)
    for code in BINARY:
        yield put(code, chain(path), forward(1))
        yield put(code, forward(2), chain(path))
    yield chain(join(chain(path), forward(2)))
    yield join(path, chain(path), path)


def nested() -> Iterator:
    yield from (asked(sheet, question) for sheet in SHAPES for path in INNER for question in outer(path))


# Every operator over every two steps; every kind; every link.

def operators(rng: Random) -> Iterator:
    steps = [[Step(direction, link)] for link in (0, 1) for direction in (0, 1)]
    for _ in range(8):
        sheet = sheet_of({link: rng.sample(THREE, rng.randint(2, 6)) for link in (0, 1)}, 3)
        yield from (asked(sheet, put(code, p, q)) for p, q in product(steps, repeat=2) for code in BINARY)


def every_kind() -> Iterator:
    """Each kind alone in a from set, in a to set and in a join; and all in one."""
    for kind in range(64):
        sheet = sheet_of({0: [(kind, 63 - kind)], 1: [(63 - kind, kind * 5 % 64)]}, 64)
        yield asked(sheet, forward(0, 1))
    turned = sheet_of({0: [(kind, kind * 5 % 64) for kind in range(64)]})
    for question in (forward(0), reverse(0), forward(0, 0), put(BRANCH_RIGHT, forward(0), reverse(0)), chain(forward(0))):
        yield asked(turned, question)
    for kinds in (1, 2, 31, 32, 33, 63, 64):
        last = kinds - 1
        yield asked(sheet_of({0: [(last, 0), (0, last)]}), chain(forward(0)))
        yield asked(sheet_of({0: [(last, 0)]}), chain(forward(0)))
        yield asked(sheet_of({0: [(last, last)]}), join(forward(0), chain(forward(0))))
        yield asked(sheet_of({}, kinds), forward(0))


def every_link(rng: Random) -> Iterator:
    one_each = sheet_of({link: [(link, 63 - link)] for link in range(64)})
    yield from (asked(one_each, [Step(direction, link)]) for direction in (0, 1) for link in range(64))
    most = generate.large_sheet(rng)
    for _ in range(6):
        yield asked(most, generate.large_question(rng, rng.choice([3, 9, 32])), *longer(rng))
    names = [[Step(n % 2, n * 7 % 64)] for n in range(16)]
    yield asked(most, union(*names))
    yield asked(most, chain(union(*names)))


# Triples that are one, and members that are one.

def equals() -> Iterator:
    """Equal triples of different parts and walks; paths that differ only in join kinds, high up and far below."""
    for sheet in (sheet_of({0: path_of(0, hops)}) for hops in (1, 2, 3, 4, 5)):
        again = union(forward(0), forward(0, 0))
        yield asked(sheet, chain(again))
        yield asked(sheet, chain(union(forward(0, 0), forward(0))))
        yield asked(sheet, chain(chain(forward(0))))
        yield asked(sheet, chain(union(forward(0), join(forward(0), forward(0, 0)))))
        yield asked(sheet, union(chain(again), chain(forward(0))))
        yield asked(sheet, union(join(chain(forward(0)), forward(0)), chain(forward(0))))
    for width in range(1, 9):
        between = sheet_of({0: full(range(2), range(10, 10 + width)), 1: full(range(10, 10 + width), range(20, 22))})
        through = forward(0, 1)
        yield asked(between, through)
        yield asked(between, union(through, through))
        yield asked(between, put(BOTH, through, through))
        yield asked(between, put(BRANCH_LEFT, through, forward(0)))
        yield asked(between, put(BRANCH_RIGHT, forward(0), forward(1)))
        yield asked(between, put(BRANCH_RIGHT, reverse(0), through))
        yield asked(between, join(through, reverse(1), reverse(0)))


def far_kinds() -> Iterator:
    """A branch's side ends in many kinds, and the branch in none of them."""
    for width in (1, 2, 5, 40, 60):
        fan = sheet_of({0: [(0, 1), (2, 1), (0, 3)], 1: full(range(1, 2), range(4, 4 + width)), 2: full(range(4, 4 + width), range(3, 4))})
        for side in (forward(1), forward(1, 2), union(forward(1), reverse(0))):
            yield asked(fan, put(BRANCH_RIGHT, forward(0), side))
            yield asked(fan, put(BRANCH_LEFT, side, reverse(0)))
            yield asked(fan, join(put(BRANCH_RIGHT, forward(0), side), forward(1)))


# The most that there can be.

def most_members(rng: Random) -> Iterator:
    """128 members, of one triple each, and about as many."""
    sheet = sheet_of({link: [(0, 0)] for link in range(64)})
    for ways in ((4, 4, 4, 2), (2, 4, 4, 4), (2, 2, 2, 2, 2, 2), (5, 5, 5), (8, 4, 4), (5, 5, 6), (3, 3, 3, 5)):
        choices = [union(*([Step(rng.randrange(2), link)] for link in rng.sample(range(64), count))) for count in ways]
        yield asked(sheet, join(*choices), *longer(rng))
        yield asked(sheet, put(BRANCH_LEFT, *choices), *longer(rng))


def most_triples() -> Iterator:
    """32 parts of 128 triples each, of up to 32 symbols."""
    kept = sheet_of({0: full(range(8), range(16))})
    pairs = sheet_of(many_pairs(128))
    yield asked(kept, forward(0))
    yield from (asked(kept, chain(forward(0), times)) for times in (1, 2, 30, 31))
    for code in (UNION, BOTH):
        yield asked(pairs, put(code, *[forward(0)] * 16))
        yield asked(pairs, forward(0) * 16 + [Operator(code)] * 15)
        yield asked(kept, chain(put(code, *[forward(0)] * 16)))
    loops = sheet_of({0: [(kind, kind) for kind in range(64)], 1: [(kind, kind ^ 1) for kind in range(64)]})
    for code in BINARY:
        yield asked(loops, chain(put(code, *[union(forward(0), forward(1)), *[forward(0)] * 14])))
        yield asked(loops, put(code, *[forward(1)] * 16))
        yield asked(loops, put(code, union(forward(0), forward(1)), union(reverse(0), reverse(1))))


def long_members(ways: tuple) -> tuple:
    """Three hops of fifteen symbols each, every hop in so many ways: members of up to 47 symbols."""
    named: dict = {link: [] for link in range(12)}
    for hop, count in enumerate(ways):
        for n in range(7):
            named[n].append((8 * hop + n, 8 * hop + n + 1))
        for way in range(count):
            named[7 + way].append((8 * hop + 7, 8 * hop + 8))
    return sheet_of(named), chain(join(*map(forward, range(7)), union(*map(forward, range(7, 12)))))


def large_files() -> Iterator:
    for ways in ((1, 1, 1), (2, 3, 4), (4, 4, 4), (3, 5, 5), (5, 5, 3), (4, 5, 4), (5, 3, 5)):
        made = long_members(ways)
        yield asked(*made)
        yield asked(*made, 0, -1)
        yield asked(*made, 8, 11)
        yield asked(*made)._replace(file=LARGEST)


# Files that are refused.

def refused_files(rng: Random) -> Iterator:
    """Each refusal of each file, and both files refused, with areas long and short."""
    found = refused_cases()
    sheets, questions = found["sheet"], found["question"]
    pairs = [(b"", b""), (b"", WHOLE["question"]), (WHOLE["sheet"], b"")]
    pairs += [(WHOLE["sheet"], question) for alike in questions for question in some(rng, alike)]
    pairs += [(sheet, WHOLE["question"]) for alike in sheets for sheet in some(rng, alike)]
    pairs += [(rng.choice(sheet), rng.choice(question)) for sheet, question in product(sheets, questions)]
    yield from (Call(*pair, *rng.choice([(NEED, 60), (NEED, 60), (NEED - 1, 60), (NEED, 0), (0, 0), (WORK, 99)])) for pair in pairs)


def damaged_files(rng: Random) -> Iterator:
    """Any files with any damage to one or both; some are still read."""
    for n in range(120):
        sheet, question = generate.sheet_file(rng), generate.question_file(rng)
        yield Call(generate.damaged(rng, sheet) if n % 3 else sheet, generate.damaged(rng, question) if n % 3 != 1 else question, file=300)
    yield Call(generate.oversized_file(rng, "sheet"), WHOLE["question"])
    yield Call(WHOLE["sheet"], generate.oversized_file(rng, "question"))


# Random ones.

def random_pairs(rng: Random, kinds: int) -> list:
    """Some pairs of these kinds: upward, any, in layers, or a ring with ways in and out."""
    style = rng.randrange(4)
    if style == 3:
        ring = rng.randint(1, max(1, kinds // 2))
        before = rng.randint(0, kinds - ring)
        return [(a, b) for a, b in around(before, ring, kinds - ring - before) if rng.random() < 0.9]
    pairs = [ordered(0, kinds), full(range(kinds), range(kinds)), [(a, b) for a, b in ordered(0, kinds) if b - a in (1, 2)]][style]
    return rng.sample(pairs, min(len(pairs), rng.randint(1, 2 * kinds)))


def dense_sheet(rng: Random) -> Sheet:
    kinds, links = rng.randint(3, 12), rng.randint(1, 4)
    order = rng.sample(range(rng.choice([kinds, kinds, 64])), kinds)
    return sheet_of({link: [(order[a], order[b]) for a, b in random_pairs(rng, kinds)] for link in range(links)})


def telling(rng: Random, sheet: Sheet, most: int) -> list:
    """The first of 20 questions that has several members, else the last."""
    for _ in range(20):
        question = generate.random_question(rng, sheet.links, most)
        if len(question) > 2 and len(members(sheet, question) or []) > 1:
            break
    return question


def random_calls(rng: Random) -> Iterator:
    for _ in range(130):
        sheet = dense_sheet(rng)
        yield from (asked(sheet, telling(rng, sheet, most), *longer(rng)) for most in (6, 9, 14, 32))
        yield asked(sheet, generate.random_question(rng, sheet.links + rng.choice([0, 0, 0, 1]), 12), *longer(rng))
        yield asked(sheet, chain(generate.random_question(rng, sheet.links, 7)), *longer(rng))
    for _ in range(160):
        yield asked(*generate.random_narrowing(rng), *longer(rng))


# All of it.

def all_calls() -> Iterator:
    rng = Random(1)
    yield from case_calls()
    yield from area_lengths()
    yield from orders()
    yield from at_symbols()
    yield from unnamed_links()
    yield from counts()
    yield from sizes()
    yield from paired_walks()
    yield from tested_walks()
    yield from uneven_walks(rng)
    yield from many_walks(rng)
    yield from every_graph()
    yield from nested()
    yield from operators(rng)
    yield from every_kind()
    yield from every_link(rng)
    yield from equals()
    yield from far_kinds()
    yield from most_members(rng)
    yield from most_triples()
    yield from large_files()
    yield from refused_files(rng)
    yield from damaged_files(rng)
    yield from random_calls(rng)


def main() -> None:
    row = list(dict.fromkeys(all_calls()))
    keep("test_narrowing", fields(row), map(line, row))


if __name__ == "__main__":
    main()
