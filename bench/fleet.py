"""The bench's inputs: a fleet's sheet, registers of several sizes that obey it, and questions from sparse steps to dense closures; and
registers of one kind and one link, of several forms, for closures alone.

    python3 -m bench.fleet FOLDER

writes them as files into the folder: `sheet`, `register-N` for each size, `question-NAME` for each question, `closure-NAME-N` and
`closure-NAME.question` for each closure, `narrow-NAME.sheet` and `narrow-NAME.question` for each narrowing that is timed alone, and `list`,
which names what is measured, a line each.
"""
from __future__ import annotations

import sys
from itertools import combinations
from pathlib import Path
from random import Random
from typing import Callable, NamedTuple

from reference import cases
from reference.files import (
    BOTH, BRANCH_LEFT, BRANCH_RIGHT, CHAIN, JOIN, UNION,
    Operator, Register, Sheet, Step, question_bytes, register_bytes, sheet_bytes,
)

SIZES = (64, 128, 256, 512, 1024)
LINKS = 4096

CAB, METER, CARD, SHOP, FLEET, DISTRICT, REGION, BOARD, PART, BATCH = range(10)
CARRIES, LOADS, REPLACES, SEALED, UNDER, CONTAINS, DELIVERS = range(7)


class Rule(NamedTuple):
    """A permitted triple, and how many links of it each from record has."""
    source: int
    link: int
    target: int
    degree: int


# Cabs are most of a fleet's records; cards replace one another in rings, and shops deliver to one another.
SHARES = {CAB: 256, METER: 256, CARD: 128, SHOP: 32, FLEET: 24, DISTRICT: 12, REGION: 4, BOARD: 120, PART: 128, BATCH: 64}
RULES = (
    Rule(CAB, CARRIES, METER, 1), Rule(METER, LOADS, CARD, 2), Rule(CARD, REPLACES, CARD, 4),
    Rule(CAB, SEALED, SHOP, 1), Rule(METER, SEALED, SHOP, 1),
    Rule(CAB, UNDER, FLEET, 1), Rule(FLEET, UNDER, DISTRICT, 1), Rule(DISTRICT, UNDER, REGION, 1),
    Rule(METER, CONTAINS, BOARD, 2), Rule(BOARD, CONTAINS, PART, 4), Rule(PART, CONTAINS, BATCH, 3),
    Rule(SHOP, DELIVERS, SHOP, 4),
)
SHEET = Sheet(len(SHARES), 7, sorted(rule[:3] for rule in RULES))


def register(records: int) -> Register:
    """A register of so many records in the fleet's shares; each from record's links go to records drawn of the kind that is due."""
    rng = Random(records)
    kinds = sorted(k for k, share in SHARES.items() for _ in range(share * records // 1024))
    kinds += [CAB] * (records - len(kinds))
    rng.shuffle(kinds)
    of_kind = {k: [t for t, kind in enumerate(kinds) if kind == k] for k in SHARES}
    links = {(s, rule.link, t) for rule in RULES for s in of_kind[rule.source]
             for t in rng.sample(of_kind[rule.target], min(rule.degree, len(of_kind[rule.target])))}
    assert len(links) <= LINKS
    return Register(kinds, sorted(links))


# Paths in postfix order.

def step(link: int) -> list:
    return [Step(0, link)]


def reverse(link: int) -> list:
    return [Step(1, link)]


def chain(path: list) -> list:
    return path + [Operator(CHAIN)]


def fold(code: int, *paths: list) -> list:
    """The paths under an operator, from the left."""
    whole = paths[0]
    for path in paths[1:]:
        whole = whole + path + [Operator(code)]
    return whole


def joined(*paths: list) -> list:
    return fold(JOIN, *paths)


def either(*paths: list) -> list:
    return fold(UNION, *paths)


class Question(NamedTuple):
    """A question, what an installer would call it, and whether its narrowing cuts a heavy chain."""
    name: str
    words: str
    symbols: list
    cuts: bool = False


DESCENT = chain(step(REPLACES))
SAME_SHOP = joined(step(SEALED), reverse(SEALED))
SHARED = joined(step(CONTAINS), reverse(CONTAINS))
EVERY_WAY = either(*(way(link) for link in (CARRIES, LOADS, SEALED, UNDER, CONTAINS, REPLACES) for way in (step, reverse)))

QUESTIONS = (
    Question("sealed", "who sealed each cab and meter", step(SEALED)),
    Question("cards", "the cards of each cab", joined(step(CARRIES), step(LOADS))),
    Question("checked", "the cards of cabs whose meter is sealed",
             joined(fold(BRANCH_RIGHT, step(CARRIES), step(SEALED)), step(LOADS))),
    Question("agreeing", "cabs and the shops that sealed both them and their meter",
             fold(BOTH, step(SEALED), joined(step(CARRIES), step(SEALED)))),
    Question("supplied", "shops with a customer, and the shops that they supply at any distance",
             fold(BRANCH_LEFT, reverse(SEALED), chain(step(DELIVERS)))),
    Question("descent", "the cards that each card descends from", DESCENT),
    Question("withdrawn", "the cards from which a cab's cards descend", joined(step(CARRIES), step(LOADS), DESCENT)),
    Question("above", "what stands above each record at any height", chain(step(UNDER))),
    Question("inside", "what is inside each record at any depth", chain(step(CONTAINS))),
    Question("fitted", "all that a cab carries, loads or contains at any depth",
             chain(either(step(CARRIES), step(LOADS), step(CONTAINS)))),
    Question("colleagues", "cabs and shops joined by seals, at any distance", chain(SAME_SHOP)),
    Question("reach", "all records joined in any way", chain(EVERY_WAY)),
    Question("misfiled", "the cards that a cab itself descends from: none", joined(step(CARRIES), DESCENT)),
    Question("unrelated", "what a meter's cards share parts with, at any distance: none", joined(step(LOADS), chain(SHARED)), True),
    Question("successor", "what a meter's card replaces, or what it shares parts with at any distance",
             joined(step(LOADS), either(step(REPLACES), chain(SHARED))), True),
    Question("office", "what a meter's cab stands under, shares parts with or replaces, at any distance",
             joined(reverse(CARRIES), chain(either(step(UNDER), SHARED, step(REPLACES)))), True),
    Question("neighbours", "records under what a record stands under or shares parts with, at any distance",
             joined(chain(either(step(UNDER), SHARED)), reverse(UNDER)), True),
)


# Closures that are timed alone.

class Closure(NamedTuple):
    """A relation's name, its links over so many records, and the question that closes it."""
    name: str
    links: Callable[[int, Random], list]
    symbols: list


def drawn(records: int, rng: Random) -> list:
    return [divmod(pair, records) for pair in rng.sample(range(records ** 2), 4 * records)]


def drawn_upwards(records: int, rng: Random) -> list:
    return rng.sample(list(combinations(range(records), 2)), 4 * records)


HUBS = 16


def hubs(records: int, rng: Random) -> list:
    """A dense relation has more pairs than a register has links. So each record has two of 16 hubs, and two records that share one are a
    pair: about a quarter of all."""
    return [(s, hub) for s in range(records) for hub in rng.sample(range(HUBS), 2)]


CLOSURES = (
    Closure("ring", lambda n, rng: [(s, (s + 1) % n) for s in range(n)], chain(step(0))),
    Closure("chain", lambda n, rng: [(s, s + 1) for s in range(n - 1)], chain(step(0))),
    Closure("random", drawn, chain(step(0))),
    Closure("dense", hubs, chain(joined(step(0), reverse(0)))),
    Closure("acyclic", drawn_upwards, chain(step(0))),
)


def closure_register(closure: Closure, records: int) -> Register:
    links = closure.links(records, Random(records))
    assert len(links) <= LINKS
    return Register([0] * records, sorted((s, 0, t) for s, t in links))


# Narrowings that are timed alone: those of the specification's cases, and the slowest that were found.

class Narrowing(NamedTuple):
    name: str
    sheet: Sheet
    symbols: list


def right_fold(code: int, *paths: list) -> list:
    """The paths under an operator, from the right."""
    whole = paths[-1]
    for path in reversed(paths[:-1]):
        whole = path + whole + [Operator(code)]
    return whole


# A fan is a link from one kind to each of 64: under a branch the far kind is dropped, so that a triple is found again for each of them.
ALL_KINDS = 64


def fan(source: int, link: int) -> set:
    return {(source, link, kind) for kind in range(ALL_KINDS)}


def flights() -> list:
    """One kind, 14 links from it to itself: seven joined choices of two of them are 128 triples, under two branches by a fan."""
    links = 14
    sheet = Sheet(ALL_KINDS, links + 1, sorted({(0, link, 0) for link in range(links)} | fan(0, links)))
    choices = [either(step(2 * i), step(2 * i + 1)) for i in range(links // 2)]
    found = []
    for side, triples in (("left", fold(JOIN, *choices)), ("right", right_fold(JOIN, *choices))):
        found += [Narrowing(f"flight-{side}-right", sheet, fold(BRANCH_RIGHT, triples, step(links), step(links))),
                  Narrowing(f"flight-{side}-left", sheet, right_fold(BRANCH_LEFT, step(links), step(links), triples))]
    return found


def ladders() -> list:
    """Kinds 0 to 5, two links from each to the next: the chain of both has 114 triples from few symbols; then branches by a fan, as many
    as a question has room for. For branches left the chain is cut to the walks from kind 0 first, and doubled twice."""
    rungs = {(kind, link, kind + 1) for kind in range(5) for link in (0, 1)}
    doubled = {(5, 2, 6), (5, 3, 6), (6, 5, 7), (6, 6, 7)}
    climbs = chain(either(step(0), step(1)))
    right = fold(BRANCH_RIGHT, joined(climbs, either(step(2), step(3))), *[step(4)] * 12)
    from_foot = joined(right_fold(BRANCH_LEFT, step(4), climbs), either(step(2), step(3)), either(step(5), step(6)))
    return [Narrowing("ladder-right", Sheet(ALL_KINDS, 7, sorted(rungs | doubled | fan(6, 4))), right),
            Narrowing("ladder-left", Sheet(ALL_KINDS, 7, sorted(rungs | doubled | fan(0, 4))), right_fold(BRANCH_LEFT, *[step(4)] * 9, from_foot))]


NARROWINGS = [Narrowing(f"case-{case.number}", cases.SHEET, case.question) for case in cases.CASES] + flights() + ladders()


def main(folder: str) -> None:
    room = Path(folder)
    room.mkdir(parents=True, exist_ok=True)
    (room / "sheet").write_bytes(sheet_bytes(SHEET))
    for records in SIZES:
        (room / f"register-{records}").write_bytes(register_bytes(register(records)))
    for question in QUESTIONS:
        (room / f"question-{question.name}").write_bytes(question_bytes(question.symbols))
    for closure in CLOSURES:
        (room / f"closure-{closure.name}.question").write_bytes(question_bytes(closure.symbols))
        for records in SIZES:
            (room / f"closure-{closure.name}-{records}").write_bytes(register_bytes(closure_register(closure, records)))
    for narrowing in NARROWINGS:
        (room / f"narrow-{narrowing.name}.sheet").write_bytes(sheet_bytes(narrowing.sheet))
        (room / f"narrow-{narrowing.name}.question").write_bytes(question_bytes(narrowing.symbols))
    lines = [f"answer {records} {question.name}" for records in SIZES for question in QUESTIONS]
    lines += [f"closure {records} {closure.name}" for closure in CLOSURES for records in SIZES]
    lines += [f"narrow {narrowing.name}" for narrowing in NARROWINGS]
    (room / "list").write_text("".join(line + "\n" for line in lines))


if __name__ == "__main__":
    main(sys.argv[1])
