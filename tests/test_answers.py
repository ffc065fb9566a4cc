"""The vectors of crates/test_answers: calls of the check, the plain and the narrowed answer, and what the reference program makes of them.

    python3 -m tests.test_answers           writes them anew
    python3 -m tests.test_answers --check   says whether they are as this script writes them

The crate's `stdin` is a row of fields: a tag, a two-byte length, a body. Tags 1 to 4 say what the sheet, the question, the register and
the narrowed question are from there on. Tags 5 to 7 are calls: the check, the plain and the narrowed answer; the body of the last two
has the words lent as work area and as answer area, two bytes each. Its `stdout` has a line for each call: `accepted`, or `refused` with
number, file (1 sheet, 2 question, 3 narrowed question, 4 register, 5 work) and place; then digests of both areas, all of whose words were
marked before the call.
"""
from __future__ import annotations

from itertools import product
from random import Random
from typing import Callable, Iterator, NamedTuple

from reference import calls, cases, files, generate, meaning, narrowing
from reference.files import (
    BOTH, BRANCH_LEFT, BRANCH_RIGHT, CHAIN, JOIN, UNION,
    JoinThrough, Member, Operator, Refusal, Register, Sheet, Step, codes,
)
from reference.generate import ALL_KINDS, BINARY
from tests.theory_cases import telling_job
from tests.stored import CALL, FILE_TAGS, digest, keep, packed, renewed, said
from tests.test_files import FILES, READERS, damaged_cases

CALLS = {"check": ("sheet", calls.check), "plain": ("question", calls.plain_answer), "narrowed": ("narrowed", calls.narrowed_answer)}
SOURCES = ("sheet", "question", "narrowed", "register", "work")
WORK, ANSWER = 11000, 400  # the words that the program can lend: 130 records need 10,920 and 390


class Call(NamedTuple):
    """What is called; its sheet, question or narrowed question; its register; the words lent."""
    name: str
    first: bytes
    register: bytes
    work: int = 0
    answer: int = 0


# The fields of a row of calls, and their lines.

def lengths(call: Call) -> bytes:
    assert call.work <= WORK and call.answer <= ANSWER, "the program cannot lend so much"
    return b"" if call.name == "check" else call.work.to_bytes(2, "big") + call.answer.to_bytes(2, "big")


def fields(row: list) -> Iterator:
    """Each call, and before it those of its files that do not stand already."""
    standing: dict = {}
    for call in row:
        yield from renewed(standing, {FILE_TAGS[CALLS[call.name][0]]: call.first, FILE_TAGS["register"]: call.register})
        yield packed(CALL + list(CALLS).index(call.name), lengths(call))


def marked(words: int) -> list:
    return [2 ** 64 - 1 - i for i in range(words)]


def line(call: Call) -> str:
    areas = [] if call.name == "check" else [marked(call.work), marked(call.answer)]
    outcome = CALLS[call.name][1](call.first, call.register, *areas)
    if isinstance(outcome, calls.Refused):
        return said("refused", outcome.number, 1 + SOURCES.index(outcome.file), outcome.place, *map(digest, areas))
    return said("accepted", *map(digest, areas))


# Calls; their areas are longer than needed by so many words.

def check(sheet: Sheet, register: Register) -> Call:
    return Call("check", files.sheet_bytes(sheet), files.register_bytes(register))


def asked(name: str, first: bytes, register: Register, work: int = 0, answer: int = 0) -> Call:
    return Call(name, first, files.register_bytes(register),
                calls.answer_work(register) + work, calls.answer_words(register) + answer)


def plain(question: list, register: Register, *more: int) -> Call:
    return asked("plain", files.question_bytes(question), register, *more)


def narrowed(members: list, register: Register, *more: int) -> Call:
    return asked("narrowed", files.narrowed_bytes(members), register, *more)


def longer(rng: Random) -> tuple:
    return rng.choice([(0, 0), (0, 0), (1, 0), (0, 1), (17, 5)])


# Registers.

def random_kinds(rng: Random, records: int) -> list:
    return rng.choices((*range(6), 63), k=records)


def line_of(order: list) -> list:
    return list(zip(order, order[1:]))


def ring_of(order: list) -> list:
    return list(zip(order, order[1:] + order[:1]))


def scattered(rng: Random, records: int, count: int) -> list:
    return [(rng.randrange(records), rng.randrange(records)) for _ in range(count)] if records else []


def corners(records: int) -> list:
    """Pairs of the first and the last record, and across the edges of a word."""
    ends = [(0, records - 1), (records - 1, 0), (records - 1, records - 1), (63, 64), (64, 63), (127, 128), (128, 127)]
    return [pair for pair in ends if 0 <= min(pair) and max(pair) < records]


def linked(kinds: list, named: dict) -> Register:
    """With the pairs given for each link name."""
    return Register(kinds, sorted({(s, link, t) for link, pairs in named.items() for s, t in pairs}))


def sized_register(rng: Random, records: int) -> Register:
    """Link 0 is a line or a ring through all records in some order, link 1 any pairs, link 2 the corners."""
    order = rng.sample(range(records), records)
    through = ring_of(order) if records % 2 else line_of(order)
    return linked(random_kinds(rng, records), {0: through, 1: scattered(rng, records, records), 2: corners(records)})


def any_register(rng: Random, records: int, links: int) -> Register:
    """With about as many links of each of three names."""
    return linked(random_kinds(rng, records), {link: scattered(rng, records, links) for link in range(3)})


def small_register(rng: Random) -> Register:
    return any_register(rng, rng.randint(3, 12), rng.randint(4, 10))


# Questions and members. Most are drawn until they have some pairs on their register, and not all.

def telling(make: Callable, rows: Callable):
    """The first of 30 draws whose rows are neither all empty nor all full, else the last."""
    for _ in range(30):
        made = make()
        found = rows(made)
        if any(found) and any(row != (1 << len(found)) - 1 for row in found):
            break
    return made


def telling_plain(make: Callable, register: Register, *more: int) -> Call:
    return plain(telling(make, lambda question: meaning.plain_rows(question, register)), register, *more)


def telling_narrowed(make: Callable, register: Register, *more: int) -> Call:
    return narrowed(telling(make, lambda members: meaning.narrowed_rows(members, register)), register, *more)


def some_step(rng: Random) -> Step:
    return generate.random_step(rng, 3)


def some_operator(rng: Random) -> Operator:
    return Operator(rng.choice(BINARY))


def some_join(rng: Random):
    """Any operator of a member, often a join through a set."""
    return JoinThrough(generate.random_set(rng)) if rng.random() < 0.4 else some_operator(rng)


def member(rng: Random, path: list) -> Member:
    return Member(path, *(rng.choice([ALL_KINDS, generate.random_set(rng)]) for _ in range(2)))


def question_of(rng: Random, size: int) -> list:
    return generate.random_path(rng, size, lambda: some_step(rng), lambda: some_operator(rng))


def member_of(rng: Random, size: int) -> Member:
    return member(rng, generate.random_path(rng, size, lambda: some_step(rng), lambda: some_join(rng)))


def ascending(members: list) -> list:
    """In the order of a file; of those with equal codes one."""
    by_codes = {tuple(codes(each.symbols)): each for each in members}
    return [by_codes[key] for key in sorted(by_codes)]


def members_of(rng: Random, count: int, most: int) -> list:
    return ascending([member_of(rng, rng.randint(1, most)) for _ in range(count)])


def chained(step: Step) -> list:
    return [step, Operator(CHAIN)]


# The cases of the specification, and what narrowing makes of questions.

def case_calls() -> Iterator:
    for register in (cases.REGISTER, cases.BREAKING_REGISTER):
        yield check(cases.SHEET, register)
        for case in cases.CASES:
            yield plain(case.question, register)
            yield narrowed(case.members, register)


def jobs(rng: Random) -> Iterator:
    for n in range(130):
        job = telling_job(rng) if n % 3 else generate.random_job(rng)
        yield check(job.sheet, job.register)
        yield plain(job.question, job.register, *longer(rng))
        try:
            yield narrowed(narrowing.narrow(job.sheet, job.question), job.register, *longer(rng))
        except Refusal:
            pass


# Every number of records up to 130.

def every_size(rng: Random) -> Iterator:
    for records in range(131):
        register = sized_register(rng, records)
        yield plain(chained(Step(records // 2 % 2, 0)), register)
        yield telling_plain(lambda: question_of(rng, rng.randint(1, 32)), register)
        yield telling_narrowed(lambda: members_of(rng, 1, 9), register)
        yield telling_narrowed(lambda: members_of(rng, 3, 9), register)


def edge_sizes(rng: Random) -> Iterator:
    """At the edges of a word: full relations, dense ones, and stacks."""
    for records in (1, 2, 31, 63, 64, 65, 66, 127, 128, 129, 130):
        order = rng.sample(range(records), records)
        ring = linked(random_kinds(rng, records), {0: ring_of(order), 1: line_of(order), 2: corners(records)})
        yield plain(chained(Step(0, 0)), ring)
        yield plain(chained(Step(1, 1)), ring)
        yield plain([*chained(Step(0, 0)), Step(0, 2), Operator(JOIN)], ring)
        yield narrowed([member(rng, chained(Step(0, 0)))], ring)
        yield narrowed([member(rng, [*chained(Step(0, 1)), *chained(Step(1, 1)), JoinThrough(1 << 63 | 7)])], ring)
        dense = any_register(rng, records, 2 * records)
        yield from (telling_plain(lambda: question_of(rng, size), dense) for size in (5, 9, 32))
        yield from (telling_narrowed(lambda: members_of(rng, count, 20), dense) for count in (1, 3))
        yield from deepest(rng, dense)


# Stacks.

def deep(rng: Random, operands: int, binary: Callable) -> list:
    """A chain over so many operands, all of which stand at once."""
    return [some_step(rng) for _ in range(operands)] + [binary(rng) for _ in range(operands - 1)] + [Operator(CHAIN)]


def deepest(rng: Random, register: Register) -> Iterator:
    """As many operands as a question and a member can have."""
    yield telling_plain(lambda: deep(rng, 16, some_operator), register)
    yield telling_narrowed(lambda: [member(rng, deep(rng, 24, some_join))], register)


def stacks(rng: Random) -> Iterator:
    for records in range(2, 12):
        register = any_register(rng, records, records)
        yield from deepest(rng, register)
        yield plain([Step(0, 1)] + [Operator(CHAIN)] * 31, register)
        yield narrowed([member(rng, [Step(1, 1)] + [Operator(CHAIN)] * 47)], register)


def each_counts() -> Iterator:
    """Stacks that without any one operand have no pair, or one less, or one more: a line, a star, and all pairs but one."""
    shapes = [
        (lambda n: [(n, n + 1)], [Operator(JOIN), Operator(BRANCH_RIGHT), JoinThrough(15)]),
        (lambda n: [(0, n + 1)], [Operator(UNION), Operator(BRANCH_LEFT)]),
        (lambda n: [(0, t) for t in range(25) if t != n], [Operator(BOTH)]),
    ]
    for records, (pairs, symbols) in product((26, 66, 130), shapes):
        first = records - 26
        named = {n: [(first + s, first + t) for s, t in pairs(n)] for n in range(24)}
        register = linked([n % 4 for n in range(records)], named)
        for symbol in symbols:
            yield narrowed([Member([Step(0, n) for n in range(24)] + [symbol] * 23, ALL_KINDS, ALL_KINDS)], register)
            if isinstance(symbol, Operator):
                yield plain([Step(0, n) for n in range(16)] + [symbol] * 15, register)


# Every operator over every two steps; every step; every kind; every size of a path.

STEPS = [Step(direction, link) for link in (0, 63) for direction in (0, 1)]
SETS = (0, 1, 2, 1 << 63, 5, ALL_KINDS - 1, ALL_KINDS)


def few_records() -> list:
    """Two registers that are alike, of which one has records on both sides of a word's edge."""
    named = {0: [(0, 1), (1, 2), (2, 0), (3, 3), (1, 3), (4, 1)], 1: [(0, 4)], 62: [(4, 0)], 63: [(1, 4), (2, 3), (4, 4), (0, 2)]}
    places = [0, 1, 63, 64, 65]
    spread = {link: [(places[s], places[t]) for s, t in pairs] for link, pairs in named.items()}
    return [linked([0, 1, 2, 63, 1], named), linked([3] + [1, 2] * 31 + [63, 0, 2], spread)]


def operators(rng: Random) -> Iterator:
    for register in few_records():
        for step in (*STEPS, Step(0, 9), Step(1, 62)):
            yield plain([step], register)
            yield plain(chained(step), register)
            for ends in product(SETS, (1, 1 << 63, ALL_KINDS)):
                yield narrowed([Member([step], *rng.sample(ends, 2))], register)
        for p, q in product(STEPS, repeat=2):
            for code in BINARY:
                yield plain([p, q, Operator(code)], register)
                yield narrowed([member(rng, [p, q, Operator(code), Operator(CHAIN)])], register)
            for kinds in SETS:
                yield narrowed([Member([p, q, JoinThrough(kinds)], ALL_KINDS, ALL_KINDS)], register)


def every_step() -> Iterator:
    """No two of the 128 steps have a pair in common, so each alone shows, and in a member each that is left out."""
    register = linked([0, 1, 2, 3] * 4, {link: [(link // 8, 8 + link % 8)] for link in range(64)})
    steps = [Step(n // 64, n % 64) for n in range(128)]
    yield from (plain([step], register) for step in steps)
    for count in (1, 2, 3, 63, 64, 65, 127, 128):
        yield narrowed([Member([step], ALL_KINDS, ALL_KINDS) for step in steps[:count]], register)
        yield narrowed([Member([step], 1 << n % 4 | n, ALL_KINDS >> n % 3) for n, step in enumerate(steps[:count])], register)


def every_kind(rng: Random) -> Iterator:
    """One record of each kind, in a ring: each kind alone as from set, as to set and in a join."""
    register = linked(rng.sample(range(64), 64), {0: ring_of(rng.sample(range(64), 64))})
    step = Step(0, 0)
    for kind in range(64):
        yield narrowed([Member([step], 1 << kind, ALL_KINDS)], register)
        yield narrowed([Member([step], ALL_KINDS, 1 << kind)], register)
        yield narrowed([Member([step, step, JoinThrough(1 << kind)], ALL_KINDS, ALL_KINDS)], register)


def path_sizes(rng: Random) -> Iterator:
    for size in range(1, 33):
        register = small_register(rng)
        yield from (telling_plain(lambda: question_of(rng, size), register, *longer(rng)) for _ in range(8))
    for size in range(1, 49):
        register = small_register(rng)
        yield from (telling_narrowed(lambda: [member_of(rng, size)], register, *longer(rng)) for _ in range(3))


# Members.

def below_chains() -> Iterator:
    """A chain of a join through a set, for every set of three kinds, and joins and ends around it."""
    register = linked([0, 1, 2, 0, 1, 2, 0], {0: [*ring_of(list(range(7))), (0, 3), (4, 2)], 1: [(6, 0), (2, 2), (3, 5)]})
    for kinds in range(8):
        below = [Step(0, 0), Step(0, 0), JoinThrough(kinds), Operator(CHAIN)]
        yield narrowed([Member(below, ALL_KINDS, ALL_KINDS)], register)
        yield narrowed([Member(below, kinds, 7 - kinds)], register)
        yield narrowed([Member([*below, Step(1, 1), JoinThrough(kinds)], ALL_KINDS, ALL_KINDS)], register)
        yield narrowed([Member([*below, Step(0, 1), Operator(JOIN)], 7, 7)], register)
        yield narrowed([Member([Step(0, 1), *below, Operator(BRANCH_LEFT)], kinds | 1, ALL_KINDS)], register)


def no_pairs(rng: Random) -> Iterator:
    """No members, or one that has no pair."""
    for records in (0, 1, 2, 6, 63, 64, 65, 128, 130):
        register = sized_register(rng, records)
        yield narrowed([], register)
        yield narrowed([], register, 3, 2)
        yield narrowed([Member([Step(0, 40)], ALL_KINDS, ALL_KINDS)], register)


def many_members(rng: Random) -> Iterator:
    """128 members of up to 48 symbols; few members of few symbols."""
    for records in (7, 66):
        register = any_register(rng, records, 2 * records)
        many = [member_of(rng, rng.randint(3, 48)) for _ in range(127)]
        yield narrowed(ascending([*many, Member([Step(0, 0)], ALL_KINDS, 9)]), register)
    for _ in range(70):
        register = any_register(rng, rng.randint(1, 12), rng.randint(1, 9))
        most = rng.choice([3, 6, 9])
        for count in rng.choices(range(1, 7), k=5):
            yield telling_narrowed(lambda: members_of(rng, count, most), register, *longer(rng))


# Areas.

def area_lengths(rng: Random) -> Iterator:
    """Empty, short by one, exact and longer, each with each: 15 before 14."""
    for records in (0, 1, 6, 64, 65, 130):
        register = sized_register(rng, records)
        for call in (telling_plain(lambda: question_of(rng, 4), register), telling_narrowed(lambda: members_of(rng, 2, 6), register)):
            works = {0, max(call.work - 1, 0), call.work, call.work + 1, call.work + 41}
            answers = {0, max(call.answer - 1, 0), call.answer, call.answer + 1, call.answer + 9}
            yield from (call._replace(work=work, answer=answer) for work, answer in product(sorted(works), sorted(answers)))


def registers_too_large() -> Iterator:
    """15 with the words that they need, though all that there is is lent."""
    for records in (131, 192, 193, 1023, 1024):
        register = files.register_bytes(Register([n % 64 for n in range(records)], []))
        yield Call("plain", WHOLE["question"], register, WORK, ANSWER)
        yield Call("narrowed", WHOLE["narrowed"], register, WORK, ANSWER)


# Files that are refused.

WHOLE = {"sheet": files.sheet_bytes(cases.SHEET), "question": files.question_bytes(cases.CASES[3].question),
         "register": files.register_bytes(cases.REGISTER), "narrowed": files.narrowed_bytes(cases.CASES[3].members)}
LENT = [(168, 6), (168, 6), (200, 9), (167, 6), (168, 5), (0, 0)]  # for six records: exact, longer, short


def lent(rng: Random, name: str) -> tuple:
    return () if name == "check" else rng.choice(LENT)


def refusal_number(file: str, data: bytes) -> int:
    """0 for a file that is read."""
    try:
        READERS[file](data)
    except Refusal as refused:
        return refused.number
    return 0


def refused_cases() -> dict:
    """The damaged files of the cases that are refused, by file and number."""
    found: dict = {file: {} for file in FILES}
    for file, data in damaged_cases():
        found[file].setdefault(refusal_number(file, data), []).append(data)
    return {file: [found[file][number] for number in sorted(found[file]) if number] for file in FILES}


def some(rng: Random, alike: list) -> list:
    return rng.sample(alike, min(len(alike), 8))


def refused_files(rng: Random) -> Iterator:
    """Each call with each refusal of each of its files, and with both files refused."""
    found = refused_cases()
    for name, (file, _) in CALLS.items():
        pairs = [(b"", b""), (b"", WHOLE["register"]), (WHOLE[file], b"")]
        pairs += [(first, WHOLE["register"]) for alike in found[file] for first in some(rng, alike)]
        pairs += [(WHOLE[file], register) for alike in found["register"] for register in some(rng, alike)]
        pairs += [(rng.choice(first), rng.choice(register)) for first, register in product(found[file], found["register"])]
        yield from (Call(name, *pair, *lent(rng, name)) for pair in pairs)


def damaged_files(rng: Random) -> Iterator:
    """Any files with any damage to one or both; some are still read."""
    for name, (file, _) in CALLS.items():
        for n in range(60):
            first, register = (generate.FILE_MAKERS[each](rng) for each in (file, "register"))
            yield Call(name, generate.damaged(rng, first) if n % 3 else first,
                       generate.damaged(rng, register) if n % 3 != 1 else register, *lent(rng, name))


# Registers that obey, and registers that do not.

def random_checks(rng: Random) -> Iterator:
    for _ in range(120):
        sheet = generate.random_sheet(rng)
        yield check(sheet, generate.obeying_register(rng, sheet))
        yield check(sheet, generate.breaking_register(rng, sheet))


def exact_triples() -> Iterator:
    """Two kinds and two link names: each link against each single triple, against all others, and against all."""
    triples = list(product(range(2), repeat=3))
    for own in triples:
        register = Register([own[0], own[2]], [(0, own[1], 1)])
        yield from (check(Sheet(2, 2, [triple]), register) for triple in triples)
        yield check(Sheet(2, 2, [triple for triple in triples if triple != own]), register)
        yield check(Sheet(2, 2, triples), register)


def without(sheet: Sheet, register: Register, index: int) -> Sheet:
    """The sheet without the triple of a link."""
    s, link, t = register.links[index]
    triple = register.kinds[s], link, register.kinds[t]
    return sheet._replace(triples=[each for each in sheet.triples if each != triple])


def every_place(rng: Random) -> Iterator:
    """Each record with a kind that the sheet has not; each link renamed, or its triple not permitted. The first of several counts."""
    sheet = Sheet(4, 3, [(0, 0, 1), (1, 1, 2), (1, 2, 3), (2, 0, 0), (3, 1, 3)])
    third = [(s, link, t) for s, link, t in product(range(12), range(3), range(12)) if (s + t) % 3 == 0]
    register = Register([n % 4 for n in range(12)], [(s, link, t) for s, link, t in third if (s % 4, link, t % 4) in sheet.triples])
    yield check(sheet, register)
    for record, kind in product(range(12), (4, 63)):
        later = [kind if rng.random() < 0.2 else old for old in register.kinds[record + 1:]]
        yield check(sheet, register._replace(kinds=[*register.kinds[:record], kind, *later]))
    for index, (s, link, t) in enumerate(register.links):
        others = register.links[:index] + register.links[index + 1:]
        yield from (check(sheet, register._replace(links=sorted([*others, (s, name, t)]))) for name in ((link + 1) % 3, 3, 63))
        yield check(without(sheet, register, index), register)


def kind_edges() -> Iterator:
    """No records, no triples, and the kinds below and from K on."""
    for kinds in (1, 2, 63, 64):
        yield check(Sheet(kinds, 1, []), Register([], []))
        for kind in (0, kinds - 1, min(kinds, 63), 63):
            yield check(Sheet(kinds, 1, []), Register([kind], []))
            yield check(Sheet(kinds, 64, [(kinds - 1, 63, kinds - 1)]), Register([kind], [(0, 63, 0)]))


def large_checks(rng: Random) -> Iterator:
    """512 triples, with a link for each, and with 4,096 links between 1,024 records."""
    sheet = generate.large_sheet(rng)
    possible = [(s, link, t) for a, link, b in sheet.triples for s in range(a, 1024, 64) for t in range(b, 1024, 64)]
    largest = Register([n % 64 for n in range(1024)], sorted(rng.sample(possible, 4096)))
    for register in (generate.universal_register(sheet), largest):
        yield check(sheet, register)
        yield from (check(without(sheet, register, index), register) for index in (0, len(register.links) // 2, -1))
        yield check(Sheet(63, 64, [each for each in sheet.triples if 63 not in each[::2]]), register)


# All of it.

def all_calls() -> Iterator:
    rng = Random(1)
    yield from case_calls()
    yield from jobs(rng)
    yield from every_size(rng)
    yield from edge_sizes(rng)
    yield from stacks(rng)
    yield from each_counts()
    yield from operators(rng)
    yield from every_step()
    yield from every_kind(rng)
    yield from path_sizes(rng)
    yield from below_chains()
    yield from no_pairs(rng)
    yield from many_members(rng)
    yield from area_lengths(rng)
    yield from registers_too_large()
    yield from refused_files(rng)
    yield from damaged_files(rng)
    yield from random_checks(rng)
    yield from exact_triples()
    yield from every_place(rng)
    yield from kind_edges()
    yield from large_checks(rng)


def main() -> None:
    row = list(all_calls())
    keep("test_answers", fields(row), map(line, row))


if __name__ == "__main__":
    main()
