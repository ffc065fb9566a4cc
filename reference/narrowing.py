"""Inference and merging: the members that a sheet leaves of a question.

A triple's path is a tuple of symbols in postfix order, so two paths are equal
exactly when their symbols are, and a path's size is the tuple's length.
"""
from __future__ import annotations

import itertools
from functools import lru_cache
from typing import Iterable, Iterator, NamedTuple, Sequence

from reference.files import (
    BOTH, BRANCH_LEFT, BRANCH_RIGHT, CHAIN, JOIN, UNION,
    JoinThrough, Member, Operator, Refusal, Sheet, Step, Symbol, codes, operands,
)
from reference.meaning import bits, join, mask, transitive_closure

MOST_TRIPLES = 128
MOST_SYMBOLS = 48


class Triple(NamedTuple):
    start: int
    path: tuple
    end: int


class Derivation(NamedTuple):
    """What the rules give for a part, before its limits are looked at.

    `longest` is the size of the longest path, 0 without triples. `triples`
    lists every triple, perhaps several times; it may be too many to finish.
    """
    longest: int
    triples: Iterable


# The rules.

# Where two triples fit under a binary operator.
FITS = {
    JOIN: lambda p, q: p.end == q.start,
    BOTH: lambda p, q: (p.start, p.end) == (q.start, q.end),
    BRANCH_RIGHT: lambda p, q: p.end == q.start,
    BRANCH_LEFT: lambda p, q: p.start == q.start,
}


def paired(code: int, p: Triple, q: Triple) -> Triple:
    """The triple of two that fit; a branch forgets the kind its side ends in."""
    symbol = JoinThrough(1 << p.end) if code == JOIN else Operator(code)
    end = p.end if code == BRANCH_RIGHT else q.end
    return Triple(p.start, (*p.path, *q.path, symbol), end)


def listed(triples: list) -> Derivation:
    return Derivation(max((len(t.path) for t in triples), default=0), triples)


def step_triples(sheet: Sheet, step: Step) -> list:
    ends = [(a, b) for a, link, b in sheet.triples if link == step.link]
    if step.direction:
        ends = [(b, a) for a, b in ends]
    return [Triple(a, (step,), b) for a, b in ends]


def derive(sheet: Sheet, symbol: Symbol, operand_parts: list, original: tuple) -> Derivation:
    """The triples of a part, whose symbols are `original`, from its operands'."""
    if isinstance(symbol, Step):
        return listed(step_triples(sheet, symbol))
    if symbol.code == CHAIN:
        return chain_triples(operand_parts[0], original)
    if symbol.code == UNION:
        return listed([*operand_parts[0], *operand_parts[1]])
    return listed([paired(symbol.code, p, q) for p, q in itertools.product(*operand_parts)
                   if FITS[symbol.code](p, q)])


# Chains.

def chain_triples(part: Iterable[Triple], original: tuple) -> Derivation:
    """Kept chains where a walk meets a ringed kind, unrolled walks elsewhere."""
    reach = reachable(part)
    ringed = mask(kind for kind, row in enumerate(reach) if row >> kind & 1)
    # A ringed kind reaches itself, so walks that end at one are joined too.
    kept = [Triple(a, original, b)
            for a, row in enumerate(join(reach, reach, ringed)) for b in bits(row)]
    free = [t for t in part if not (1 << t.start | 1 << t.end) & ringed]
    longest = max(listed(kept).longest, longest_walk(free))
    return Derivation(longest, itertools.chain(kept, unrolled(free)))


def reachable(part: Iterable[Triple]) -> list:
    """Row A has bit B where a walk leads from kind A to kind B."""
    rows = [0] * 64
    for triple in part:
        rows[triple.start] |= 1 << triple.end
    return transitive_closure(rows)


def longest_walk(free: Sequence[Triple]) -> int:
    """Size of the longest path of a walk; without ringed kinds it exists."""
    @lru_cache(maxsize=None)
    def ending(kind: int) -> int:
        return max((extended(t) for t in free if t.end == kind), default=0)

    def extended(last: Triple) -> int:
        before = ending(last.start)
        return len(last.path) + (before + 1 if before else 0)

    return max((ending(t.end) for t in free), default=0)


def unrolled(free: Sequence[Triple]) -> Iterator[Triple]:
    """The triples of all walks, each once; every walk begins with a walk.

    Walks that give the same triple go on alike, so one of them is followed.
    """
    seen: set = set()
    waiting = list(free)
    while waiting:
        walk = waiting.pop()
        if walk not in seen:
            seen.add(walk)
            yield walk
            waiting += [paired(JOIN, walk, t) for t in free if FITS[JOIN](walk, t)]


# Parts, limits and members.

def judge_links(sheet: Sheet, symbols: Sequence[Symbol]) -> None:
    """Refusal 11: every link of the question is one of the sheet."""
    for place, symbol in enumerate(symbols):
        if isinstance(symbol, Step) and symbol.link >= sheet.links:
            raise Refusal(11, place)


def distinct(derivation: Derivation, place: int) -> set:
    """The triples of a part, or refusal 13, or 12 at the 129th triple."""
    if derivation.longest > MOST_SYMBOLS:
        raise Refusal(13, place)
    triples: set = set()
    for triple in derivation.triples:
        triples.add(triple)
        if len(triples) > MOST_TRIPLES:
            raise Refusal(12, place)
    return triples


def parts(sheet: Sheet, symbols: Sequence[Symbol]) -> list:
    """For each symbol, the set of triples of the part it ends."""
    judge_links(sheet, symbols)
    made: list = []
    stack: list = []  # (first symbol, triples) of the parts not taken yet
    for place, symbol in enumerate(symbols):
        split = len(stack) - operands(symbol)
        taken = stack[split:]
        first = taken[0][0] if taken else place
        original = tuple(symbols[first:place + 1])
        derivation = derive(sheet, symbol, [part for _, part in taken], original)
        made.append(distinct(derivation, place))
        stack[split:] = [(first, made[-1])]
    return made


def merge(triples: Iterable[Triple]) -> list:
    """Members by code: paths that differ only in join sets become one."""
    groups: dict = {}
    for triple in triples:
        groups.setdefault(tuple(codes(triple.path)), []).append(triple)
    return [member_of(groups[key]) for key in sorted(groups)]


def member_of(triples: Sequence[Triple]) -> Member:
    symbols = [united(column) for column in zip(*(t.path for t in triples))]
    return Member(symbols, mask(t.start for t in triples), mask(t.end for t in triples))


def united(column: Sequence[Symbol]) -> Symbol:
    """One place of equal-coded paths; a place below a chain is plain in all."""
    if not isinstance(column[0], JoinThrough):
        return column[0]
    return JoinThrough(mask(kind for symbol in column for kind in bits(symbol.kinds)))


def narrow(sheet: Sheet, symbols: Sequence[Symbol]) -> list:
    """The members of the narrowed question, or refusal 11, 12 or 13."""
    return merge(parts(sheet, symbols)[-1])
