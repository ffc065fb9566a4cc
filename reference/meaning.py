"""The meaning of a path on a register, and whether a register obeys a sheet.

A relation over records is a list of rows: row s is an integer whose bit t is
set where the pair (s, t) is in.
"""
from __future__ import annotations

from functools import reduce
from operator import or_
from typing import Iterable, Iterator, Optional

from reference.files import (
    BOTH, BRANCH_LEFT, BRANCH_RIGHT, CHAIN, JOIN, UNION,
    JoinThrough, Member, Register, Sheet, Step, Symbol, operands,
)

Rows = list
WORD = 2 ** 64 - 1


# Relations.

def bits(row: int) -> Iterator[int]:
    """The places of the bits set, lowest first."""
    while row:
        lowest = row & -row
        yield lowest.bit_length() - 1
        row ^= lowest


def mask(places: Iterable[int]) -> int:
    return reduce(or_, (1 << place for place in places), 0)


def join(p: Rows, q: Rows, through: int) -> Rows:
    """Pairs that meet at a record of `through`; equal rows are joined once."""
    images: dict = {}
    for row in p:
        if row not in images:
            images[row] = reduce(or_, (q[z] for z in bits(row & through)), 0)
    return [images[row] for row in p]


def transitive_closure(rows: Rows) -> Rows:
    """Warshall: after round z, walks may pass the records up to z."""
    rows = list(rows)
    for z in range(len(rows)):
        onward, bit = rows[z], 1 << z
        if onward:
            rows = [row | onward if row & bit else row for row in rows]
    return rows


def branch_right(p: Rows, q: Rows) -> Rows:
    onward = mask(t for t, row in enumerate(q) if row)
    return [row & onward for row in p]


def branch_left(p: Rows, q: Rows) -> Rows:
    return [row if beside else 0 for beside, row in zip(p, q)]


# Paths on a register.

class Evaluator:
    """Rows of paths on one register; steps and kind sets are kept for reuse."""

    def __init__(self, register: Register):
        self.register = register
        self.records = len(register.kinds)
        self.all = (1 << self.records) - 1
        self.steps: dict = {}
        self.masks: dict = {}

    def of_kinds(self, kinds: int) -> int:
        """The records whose kind is in the set."""
        if kinds not in self.masks:
            self.masks[kinds] = mask(
                record for record, kind in enumerate(self.register.kinds) if kinds >> kind & 1)
        return self.masks[kinds]

    def step(self, step: Step) -> Rows:
        if step not in self.steps:
            rows = [0] * self.records
            for source, link, target in self.register.links:
                if link == step.link:
                    s, t = (target, source) if step.direction else (source, target)
                    rows[s] |= 1 << t
            self.steps[step] = rows
        return self.steps[step]

    def combine(self, symbol: Symbol, paths: list) -> Rows:
        """The relation of a symbol from those of its operands."""
        if isinstance(symbol, Step):
            return self.step(symbol)
        if isinstance(symbol, JoinThrough):
            return join(*paths, self.of_kinds(symbol.kinds))
        return {
            JOIN: lambda p, q: join(p, q, self.all),
            UNION: lambda p, q: [a | b for a, b in zip(p, q)],
            BOTH: lambda p, q: [a & b for a, b in zip(p, q)],
            BRANCH_RIGHT: branch_right,
            BRANCH_LEFT: branch_left,
            CHAIN: transitive_closure,
        }[symbol.code](*paths)

    def path(self, symbols: Iterable[Symbol]) -> Rows:
        stack: list = []
        for symbol in symbols:
            split = len(stack) - operands(symbol)
            stack[split:] = [self.combine(symbol, stack[split:])]
        (rows,) = stack
        return rows

    def member(self, member: Member) -> Rows:
        sources, targets = self.of_kinds(member.from_set), self.of_kinds(member.to_set)
        return [row & targets if sources >> s & 1 else 0
                for s, row in enumerate(self.path(member.symbols))]


def plain_rows(symbols: Iterable[Symbol], register: Register) -> Rows:
    return Evaluator(register).path(symbols)


def narrowed_rows(members: Iterable[Member], register: Register) -> Rows:
    evaluator = Evaluator(register)
    rows = [0] * evaluator.records
    for member in members:
        rows = [row | more for row, more in zip(rows, evaluator.member(member))]
    return rows


# Answers as pairs and as words.

def pairs(rows: Rows) -> set:
    return {(s, t) for s, row in enumerate(rows) for t in bits(row)}


def plain_pairs(symbols: Iterable[Symbol], register: Register) -> set:
    return pairs(plain_rows(symbols, register))


def narrowed_pairs(members: Iterable[Member], register: Register) -> set:
    return pairs(narrowed_rows(members, register))


def words_per_row(records: int) -> int:
    return (records + 63) // 64


def words(rows: Rows) -> list:
    """Bit t mod 64 of word s * W + t div 64 is the pair (s, t)."""
    width = words_per_row(len(rows))
    return [row >> 64 * part & WORD for row in rows for part in range(width)]


def plain_words(symbols: Iterable[Symbol], register: Register) -> list:
    return words(plain_rows(symbols, register))


def narrowed_words(members: Iterable[Member], register: Register) -> list:
    return words(narrowed_rows(members, register))


# Obeying.

def obeys(sheet: Sheet, register: Register) -> Optional[int]:
    """None if the register obeys the sheet, else the place of refusal 16."""
    for record, kind in enumerate(register.kinds):
        if kind >= sheet.kinds:
            return record
    permitted = set(sheet.triples)
    for index, (source, link, target) in enumerate(register.links):
        if (register.kinds[source], link, register.kinds[target]) not in permitted:
            return len(register.kinds) + index
    return None
