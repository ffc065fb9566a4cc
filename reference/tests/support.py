"""Helpers shared by the tests."""
from __future__ import annotations

from reference.files import CHAIN, JOIN, Operator, Refusal, Step

A, B, C = (Step(0, link) for link in range(3))
REVERSE_A = Step(1, 0)
PLAIN_JOIN, CHAINED = Operator(JOIN), Operator(CHAIN)


def refusal_of(function, *arguments):
    """The number and place of the refusal raised, or None."""
    try:
        function(*arguments)
    except Refusal as refusal:
        return refusal.number, refusal.place
    return None


def result_of(function, *arguments):
    """What the function yields: its value, or its refusal as a pair."""
    try:
        return function(*arguments)
    except Refusal as refusal:
        return refusal.number, refusal.place


def kind_set(*kinds: int) -> int:
    return sum(1 << kind for kind in kinds)
