"""Seeded makers of inputs. Each takes a random.Random and draws from it alone.

First come values (sheets, questions, registers, members), then inputs made
to reach refusals 11, 12 and 13, then files, whole and damaged.
"""
from __future__ import annotations

from random import Random
from typing import Callable, NamedTuple

from reference import meaning
from reference.files import (
    BOTH, BRANCH_LEFT, BRANCH_RIGHT, CHAIN, HEAD_BYTES, JOIN, TAGS, UNION,
    JoinThrough, Member, Operator, Register, Sheet, Step, Symbol, codes,
    narrowed_bytes, question_bytes, register_bytes, sheet_bytes,
)

ALL_KINDS = 2 ** 64 - 1
BINARY = (JOIN, UNION, BOTH, BRANCH_RIGHT, BRANCH_LEFT)


class Narrowing(NamedTuple):
    sheet: Sheet
    question: list


class Job(NamedTuple):
    sheet: Sheet
    question: list
    register: Register


# Values.

def random_sheet(rng: Random, kinds: int = 6, links: int = 3, triples: int = 14) -> Sheet:
    """A small sheet; half of them lean upward, so that few kinds are ringed."""
    k, e = rng.randint(1, kinds), rng.randint(1, links)
    upward = rng.random() < 0.5
    chosen = set()
    for _ in range(rng.randint(0, triples)):
        a, b = rng.randrange(k), rng.randrange(k)
        if upward and rng.random() < 0.9:
            a, b = min(a, b), max(a, b)
            if a == b:
                continue
        chosen.add((a, rng.randrange(e), b))
    return Sheet(k, e, sorted(chosen))


def random_path(rng: Random, size: int, step: Callable[[], Step],
                binary: Callable[[], Symbol], chains: float = 0.25) -> list:
    """A path of exactly `size` symbols in postfix order."""
    if size == 1:
        return [step()]
    if size == 2 or rng.random() < chains:
        return random_path(rng, size - 1, step, binary, chains) + [Operator(CHAIN)]
    left = rng.randrange(1, size - 1)
    return (random_path(rng, left, step, binary, chains)
            + random_path(rng, size - 1 - left, step, binary, chains) + [binary()])


def random_step(rng: Random, links: int) -> Step:
    return Step(int(rng.random() < 0.3), rng.randrange(links))


def random_question(rng: Random, links: int, most: int = 9) -> list:
    """A question of up to `most` symbols over the links below `links`."""
    return random_path(rng, rng.randint(1, most), lambda: random_step(rng, links),
                       lambda: Operator(rng.choice(BINARY + (JOIN, UNION))))


def piled_question(rng: Random, links: int, most: int = 9) -> list:
    """A question with chains upon chains, and with joins and chains in the tests of branches."""
    return random_path(rng, rng.randint(1, most), lambda: random_step(rng, links),
                       lambda: Operator(rng.choice((JOIN, JOIN, BRANCH_RIGHT, BRANCH_LEFT) + BINARY)), 0.4)


def random_set(rng: Random, kinds: int = 6) -> int:
    """A kind set: empty, full, one kind, the highest kind, or any."""
    return rng.choice([
        0, ALL_KINDS, 1 << rng.randrange(kinds), 1 << 63, rng.getrandbits(64),
        rng.getrandbits(kinds), rng.getrandbits(kinds), rng.getrandbits(kinds),
    ])


def random_members(rng: Random, kinds: int = 6, links: int = 3,
                   count: int = 6, most: int = 9) -> list:
    """Members that are read: any symbols anywhere, ascending by their codes."""
    def binary() -> Symbol:
        if rng.random() < 0.4:
            return JoinThrough(random_set(rng, kinds))
        return Operator(rng.choice(BINARY))

    members = {}
    for _ in range(rng.randint(0, count)):
        path = random_path(rng, rng.randint(1, most), lambda: random_step(rng, links), binary)
        ends = [rng.choice([ALL_KINDS, random_set(rng, kinds)]) for _ in range(2)]
        members[tuple(codes(path))] = Member(path, *ends)
    return [members[key] for key in sorted(members)]


def obeying_register(rng: Random, sheet: Sheet, records: int = 8, links: int = 16) -> Register:
    """A register that obeys the sheet: each link is drawn from a permitted triple."""
    kinds = [rng.randrange(sheet.kinds) for _ in range(rng.randint(0, records))]
    chosen = set()
    for _ in range(rng.randint(0, links) if sheet.triples else 0):
        a, link, b = rng.choice(sheet.triples)
        sources = [r for r, kind in enumerate(kinds) if kind == a]
        targets = [r for r, kind in enumerate(kinds) if kind == b]
        if sources and targets:
            chosen.add((rng.choice(sources), link, rng.choice(targets)))
    return Register(kinds, sorted(chosen))


def breaking_register(rng: Random, sheet: Sheet, records: int = 8, links: int = 16) -> Register:
    """A register that does not obey: odd links, sometimes an odd kind too."""
    while True:
        kinds = [rng.randrange(sheet.kinds) for _ in range(rng.randint(1, records))]
        if rng.random() < 0.3:
            kinds[rng.randrange(len(kinds))] = rng.randrange(64)
        names = sheet.links if rng.random() < 0.8 else 64
        chosen = {(rng.randrange(len(kinds)), rng.randrange(names), rng.randrange(len(kinds)))
                  for _ in range(rng.randint(1, links))}
        register = Register(kinds, sorted(chosen))
        if meaning.obeys(sheet, register) is not None:
            return register


def random_register(rng: Random, sheet: Sheet, records: int = 8, links: int = 16) -> Register:
    maker = rng.choice([obeying_register, obeying_register, breaking_register])
    return maker(rng, sheet, records, links)


def universal_register(sheet: Sheet) -> Register:
    """One record of each kind and a link for each permitted triple."""
    return Register(list(range(sheet.kinds)), list(sheet.triples))


def wide_register(rng: Random, sheet: Sheet) -> Register:
    """An obeying register whose N is at or beside a word's edge."""
    records = rng.choice([63, 64, 65, 127, 128, 129, 192, 256])
    kinds = [rng.randrange(sheet.kinds) for _ in range(records)]
    pools = {kind: [r for r, each in enumerate(kinds) if each == kind] for kind in set(kinds)}
    chosen = set()
    for a, link, b in sheet.triples:
        for _ in range(records // 8 if a in pools and b in pools else 0):
            chosen.add((rng.choice(pools[a]), link, rng.choice(pools[b])))
    return Register(kinds, sorted(chosen)[:4096])


# (kinds, links, triples, symbols): small ones are likely to have few members,
# crowded ones many, and long questions meet every operator.
SCALES = [(6, 3, 14, 9), (6, 3, 14, 9), (9, 2, 45, 14), (4, 2, 8, 32)]


def random_job(rng: Random) -> Job:
    *sizes, most = rng.choice(SCALES)
    sheet = random_sheet(rng, *sizes)
    beyond = rng.random() < 0.05
    question = random_question(rng, sheet.links + (2 if beyond else 0), most)
    return Job(sheet, question, random_register(rng, sheet))


# Inputs that reach 11, 12 and 13, and their edges.

def link_beyond(rng: Random) -> Narrowing:
    """Reaches 11: some step's link is E or more."""
    sheet = random_sheet(rng)
    question = random_question(rng, sheet.links, 32)
    steps = [place for place, symbol in enumerate(question) if isinstance(symbol, Step)]
    for place in rng.choices(steps, k=2):
        question[place] = Step(rng.randrange(2), rng.randrange(sheet.links, 64))
    return Narrowing(sheet, question)


def layered_sheet(layers: int, width: int, links: int = 1) -> Sheet:
    """Every kind of a layer leads to every kind of the next, under each link."""
    triples = [(layer * width + a, link, (layer + 1) * width + b)
               for layer in range(layers - 1) for a in range(width)
               for link in range(links) for b in range(width)]
    return Sheet(layers * width, links, sorted(triples))


def layered_chain(layers: int, width: int) -> Narrowing:
    """A chain with width ** layers walks from the first layer to the last."""
    return Narrowing(layered_sheet(layers, width), [Step(0, 0), Operator(CHAIN)])


def random_layered_chain(rng: Random) -> Narrowing:
    """A layered chain with some triples dropped, maybe reversed or doubled.

    Reaches 12 or 13 or neither; the walks are often too many to be listed.
    """
    width = rng.randint(2, 4)
    layers = rng.randint(3, 64 // width)
    sheet = layered_sheet(layers, width)
    kept = rng.sample(sheet.triples, min(len(sheet.triples), rng.randint(100, 128)))
    step = Step(rng.randrange(2), 0)
    part = rng.choice([[step], [step, step, Operator(UNION)], [step, step, Operator(BOTH)],
                       [step, step, Operator(JOIN)], [step, Operator(CHAIN)]])
    return Narrowing(Sheet(sheet.kinds, 1, sorted(kept)), part + [Operator(CHAIN)])


def crowded(rng: Random) -> Narrowing:
    """Reaches 12 by a step, a join, a union, a kept chain or unrolled walks."""
    step = Step(rng.randrange(2), 0)
    star = [(n, 0, 0) for n in range(12)] + [(0, 0, n) for n in range(1, 12)]
    return rng.choice([
        Narrowing(Sheet(12, 1, [(n // 12, 0, n % 12) for n in range(rng.randint(129, 144))]),
                  [step]),
        Narrowing(Sheet(12, 1, sorted(star)), [step, step, Operator(JOIN)]),
        Narrowing(layered_sheet(2, 9, 2), [step, Step(step.direction, 1), Operator(UNION)]),
        Narrowing(Sheet(12, 1, sorted((n, 0, (n + 1) % 12) for n in range(12))),
                  [step, Operator(CHAIN)]),
        Narrowing(layered_sheet(rng.randint(7, 24), 2), [step, Operator(CHAIN)]),
    ])


def overlong(rng: Random) -> Narrowing:
    """Reaches 13 by a line of kinds, by layers, or by an operator over walks."""
    step = Step(rng.randrange(2), 0)
    return rng.choice([
        Narrowing(layered_sheet(rng.randint(26, 64), 1), [step, Operator(CHAIN)]),
        Narrowing(layered_sheet(rng.randint(26, 32), 2), [step, Operator(CHAIN)]),
        size_edge(5, rng.choice([JOIN, BOTH, BRANCH_RIGHT, BRANCH_LEFT])),
    ])


def size_edge(tail: int, code: int = JOIN) -> Narrowing:
    """A question whose longest path has 44 + `tail` symbols (1, 3, 4 or 5).

    Eleven times link 0 and then link 1, in a line, give a path of 43 symbols.
    The operator `code` puts it together with a tail that fits its ends.
    """
    last = 22
    first_of_tail = 0 if code in (BOTH, BRANCH_LEFT) else last
    line = [(kind, kind % 2, kind + 1) for kind in range(last)]
    triples = line + [(last, 2, last), (first_of_tail, 3, last)]
    loop, onward = Step(0, 2), Step(0, 3)
    tails = {
        1: [onward],
        3: [onward, loop, Operator(JOIN)],
        4: [onward, loop, Operator(CHAIN), Operator(JOIN)],
        5: [onward, loop, Operator(JOIN), loop, Operator(JOIN)],
    }
    chained = [Step(0, 0), Step(0, 1), Operator(JOIN), Operator(CHAIN)]
    return Narrowing(Sheet(last + 1, 4, sorted(triples)),
                     chained + tails[tail] + [Operator(code)])


def random_narrowing(rng: Random) -> Narrowing:
    """Mostly small inputs, some that reach 11, 12 or 13."""
    maker = rng.choice([link_beyond, random_layered_chain, crowded, overlong]
                       + [lambda r: Narrowing(*random_job(r)[:2])] * 12)
    return maker(rng)


# Members to write, with any contents.

def spoiled_members(rng: Random, members: list) -> list:
    """The members, of which there are some, after one change.

    They may still be good. All numbers fit the bytes of a file.
    """
    members = list(members)
    which = rng.randrange(len(members))
    symbols = list(members[which].symbols)
    place = rng.randrange(len(symbols))
    odd = rng.choice([Step(2, 0), Step(1, 64), Operator(127), Operator(134), Operator(BOTH),
                      Step(0, 1), Operator(CHAIN), JoinThrough(0)])
    change = rng.randrange(6)
    if change == 0:
        symbols[place] = odd
    elif change == 1:
        symbols.insert(place, odd)
    elif change == 2:
        del symbols[place]
    elif change == 3:
        symbols += [Operator(CHAIN)] * 48
    members[which] = members[which]._replace(symbols=symbols)
    if change == 4:
        rng.shuffle(members)
    elif change == 5:
        members.insert(which, members[which])
    return members


# The largest values that are read, and larger ones.

def large_sheet(rng: Random, triples: int = 512) -> Sheet:
    """Triples over 64 kinds and 64 links."""
    numbers = sorted(rng.sample(range(64 ** 3), triples))
    return Sheet(64, 64, [(n // 4096, n // 64 % 64, n % 64) for n in numbers])


def large_question(rng: Random, symbols: int = 32) -> list:
    return random_path(rng, symbols, lambda: random_step(rng, 64),
                       lambda: Operator(rng.choice(BINARY)))


def large_register(rng: Random, records: int = 1024, links: int = 4096) -> Register:
    numbers = sorted(rng.sample(range(1024 * 64 * 1024), links))
    return Register([rng.randrange(64) for _ in range(records)],
                    [(n >> 16, n >> 10 & 63, n & 1023) for n in numbers])


def large_members(rng: Random, count: int = 128) -> list:
    """Members of up to 48 symbols."""
    members: dict = {}
    while len(members) < count:
        for member in random_members(rng, 64, 64, 128, 48):
            members.setdefault(tuple(codes(member.symbols)), member)
    return [members[key] for key in sorted(members)[:count]]


def large_file(rng: Random, file: str) -> bytes:
    """A file of the given name with as many fields as are read."""
    return {
        "sheet": lambda: sheet_bytes(large_sheet(rng)),
        "question": lambda: question_bytes(large_question(rng)),
        "register": lambda: register_bytes(large_register(rng)),
        "narrowed": lambda: narrowed_bytes(large_members(rng)),
    }[file]()


def oversized_file(rng: Random, file: str) -> bytes:
    """A file of the given name with one field more than is read."""
    return {
        "sheet": lambda: sheet_bytes(large_sheet(rng, 513)),
        "question": lambda: question_bytes(large_question(rng, 33)),
        "register": lambda: register_bytes(
            large_register(rng, *rng.choice([(1025, 4096), (1024, 4097)]))),
        "narrowed": lambda: narrowed_bytes(large_members(rng, 129)),
    }[file]()


# Files, whole and damaged.

def fields_in(data: bytes) -> list:
    """The (first, end) of each field, by the lengths the file itself gives."""
    edges, place = [], 0
    while place + HEAD_BYTES <= len(data):
        end = place + HEAD_BYTES + int.from_bytes(data[place + 1:place + HEAD_BYTES], "big")
        edges.append((place, min(end, len(data))))
        place = end
    return edges


def truncated(rng: Random, data: bytes) -> bytes:
    return data[:rng.randrange(len(data))]


def bit_flipped(rng: Random, data: bytes) -> bytes:
    place = rng.randrange(len(data))
    return data[:place] + bytes([data[place] ^ 1 << rng.randrange(8)]) + data[place + 1:]


def retagged(rng: Random, data: bytes) -> bytes:
    first, _ = rng.choice(fields_in(data))
    tag = rng.choice([*TAGS, rng.randrange(256)])
    return data[:first] + bytes([tag]) + data[first + 1:]


def relengthed(rng: Random, data: bytes) -> bytes:
    first, _ = rng.choice(fields_in(data))
    length = int.from_bytes(data[first + 1:first + HEAD_BYTES], "big")
    wrong = rng.choice([0, max(length - 1, 0), min(length + 1, 65535), length ^ 256, 65535])
    return data[:first + 1] + wrong.to_bytes(2, "big") + data[first + HEAD_BYTES:]


def edged(rng: Random, data: bytes) -> bytes:
    """A number of some field set to an edge of some range."""
    first, end = rng.choice(fields_in(data))
    widths = TAGS[data[first]].widths if data[first] in TAGS else (1,)
    which = rng.randrange(len(widths))
    place = first + HEAD_BYTES + sum(widths[:which])
    edge = rng.choice([0, 1, 2, 32, 33, 48, 49, 63, 64, 65, 127, 128, 129, 133, 134, 255,
                       1024, 1025, 4096, 4097, 65535])
    number = min(edge, 256 ** widths[which] - 1).to_bytes(widths[which], "big")
    return data[:place] + number + data[place + widths[which]:] if place < end else data


def lengthened(rng: Random, data: bytes) -> bytes:
    return data + bytes(rng.randrange(256) for _ in range(rng.randint(1, 4)))


def field_removed(rng: Random, data: bytes) -> bytes:
    first, end = rng.choice(fields_in(data))
    return data[:first] + data[end:]


def field_repeated(rng: Random, data: bytes) -> bytes:
    first, end = rng.choice(fields_in(data))
    return data[:end] + data[first:]


def fields_swapped(rng: Random, data: bytes) -> bytes:
    row = [data[first:end] for first, end in fields_in(data)]
    a, b = rng.randrange(len(row)), rng.randrange(len(row))
    row[a], row[b] = row[b], row[a]
    return b"".join(row)


DAMAGES = [truncated, bit_flipped, retagged, relengthed, edged, edged, lengthened,
           field_removed, field_repeated, fields_swapped]


def damaged(rng: Random, data: bytes) -> bytes:
    """The file after one damage or two; it may still be read."""
    for _ in range(rng.choice([1, 1, 2])):
        if len(data) >= HEAD_BYTES:
            data = rng.choice(DAMAGES)(rng, data)
    return data


def sheet_file(rng: Random) -> bytes:
    return sheet_bytes(random_sheet(rng))


def question_file(rng: Random) -> bytes:
    return question_bytes(random_question(rng, rng.choice([3, 64]), rng.choice([9, 32])))


def register_file(rng: Random) -> bytes:
    return register_bytes(random_register(rng, random_sheet(rng)))


def narrowed_file(rng: Random) -> bytes:
    return narrowed_bytes(random_members(rng, most=rng.choice([9, 48])))


FILE_MAKERS = {"sheet": sheet_file, "question": question_file,
               "register": register_file, "narrowed": narrowed_file}


def spoiled_narrowed_file(rng: Random) -> bytes:
    """Members in a wrong order or with wrong symbols, in fields that are whole."""
    while True:
        members = random_members(rng)
        if members:
            return narrowed_bytes(spoiled_members(rng, members))


def random_file(rng: Random, file: str) -> bytes:
    """A file of the given name: whole one time in three, else damaged."""
    if file == "narrowed" and rng.random() < 0.2:
        return spoiled_narrowed_file(rng)
    data = FILE_MAKERS[file](rng)
    return data if rng.random() < 1 / 3 else damaged(rng, data)


def random_job_files(rng: Random) -> tuple:
    """Sheet, question and register that belong together; sometimes one damaged."""
    job = random_job(rng)
    made = [sheet_bytes(job.sheet), question_bytes(job.question), register_bytes(job.register)]
    if rng.random() < 0.2:
        which = rng.randrange(3)
        made[which] = damaged(rng, made[which])
    return tuple(made)
