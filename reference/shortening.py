"""Questions shortened beforehand: five simplifications, applied until none fits.

A path is a tree: a tuple of its last symbol and of the paths that this takes.
"""
from __future__ import annotations

from typing import Iterator, Optional

from reference.files import (
    BRANCH_LEFT, BRANCH_RIGHT, CHAIN, JOIN, Operator, Question, operands,
)

TESTS = {Operator(BRANCH_RIGHT): 2, Operator(BRANCH_LEFT): 1}  # where in the tuple a branch's test stands


def tree(symbols: Question) -> tuple:
    stack: list = []
    for symbol in symbols:
        split = len(stack) - operands(symbol)
        stack[split:] = [(symbol, *stack[split:])]
    (path,) = stack
    return path


def postfix(path: tuple) -> Question:
    return [symbol for operand in path[1:] for symbol in postfix(operand)] + [path[0]]


def put(path: tuple, place: int, operand: tuple) -> tuple:
    return path[:place] + (operand,) + path[place + 1:]


def simplified(path: tuple) -> Optional[tuple]:
    """The path after the one simplification that fits at its last symbol."""
    symbol = path[0]
    if symbol == Operator(CHAIN) and path[1][0] == Operator(CHAIN):
        return path[1]
    if symbol in TESTS:
        test = path[TESTS[symbol]]
        if test[0] == Operator(CHAIN):
            return put(path, TESTS[symbol], test[1])
        if test[0] == Operator(JOIN):
            return put(path, TESTS[symbol], (Operator(BRANCH_RIGHT), *test[1:]))
    return None


def simplifications(path: tuple) -> Iterator:
    """Each path to which one simplification leads, anywhere in it."""
    here = simplified(path)
    if here is not None:
        yield here
    for place in range(1, len(path)):
        for operand in simplifications(path[place]):
            yield put(path, place, operand)


def shorten(symbols: Question) -> Question:
    path = tree(symbols)
    while (shorter := next(simplifications(path), None)) is not None:
        path = shorter
    return postfix(path)
