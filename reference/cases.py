"""The cases of the specification as data: inputs and what is due for them."""
from __future__ import annotations

from typing import NamedTuple

from reference.files import (
    BOTH, BRANCH_RIGHT, CHAIN, JOIN,
    JoinThrough, Member, Operator, Register, Sheet, Step,
)

CAB, METER, CARD, SHOP, FLEET, DISTRICT = range(6)
CARRIES, LOADS, REPLACES, SEALED, UNDER = (Step(0, link) for link in range(5))
SEALED_REVERSE = Step(1, SEALED.link)

SHEET = Sheet(6, 5, [
    (CAB, 0, METER), (CAB, 3, SHOP), (CAB, 4, FLEET), (METER, 1, CARD),
    (METER, 3, SHOP), (CARD, 2, CARD), (FLEET, 4, DISTRICT),
])


def kinds(*numbers: int) -> int:
    """The kind set of the kinds given."""
    return sum(1 << number for number in numbers)


class Case(NamedTuple):
    number: int
    question: list
    members: list


CASES = [
    Case(1, [CARRIES, SEALED, Operator(JOIN)],
         [Member([CARRIES, SEALED, JoinThrough(kinds(METER))], kinds(CAB), kinds(SHOP))]),
    Case(2, [SEALED],
         [Member([SEALED], kinds(CAB, METER), kinds(SHOP))]),
    Case(3, [SEALED_REVERSE],
         [Member([SEALED_REVERSE], kinds(SHOP), kinds(CAB, METER))]),
    Case(4, [UNDER, Operator(CHAIN)],
         [Member([UNDER], kinds(CAB, FLEET), kinds(FLEET, DISTRICT)),
          Member([UNDER, UNDER, JoinThrough(kinds(FLEET))], kinds(CAB), kinds(DISTRICT))]),
    Case(5, [REPLACES, Operator(CHAIN)],
         [Member([REPLACES, Operator(CHAIN)], kinds(CARD), kinds(CARD))]),
    Case(6, [LOADS, REPLACES, Operator(CHAIN), Operator(JOIN)],
         [Member([LOADS, REPLACES, Operator(CHAIN), JoinThrough(kinds(CARD))],
                 kinds(METER), kinds(CARD))]),
    Case(7, [CARRIES, SEALED, Operator(BRANCH_RIGHT)],
         [Member([CARRIES, SEALED, Operator(BRANCH_RIGHT)], kinds(CAB), kinds(METER))]),
    Case(8, [CARRIES, REPLACES, Operator(JOIN)], []),
    Case(9, [CARRIES, SEALED, Operator(BOTH)], []),
    Case(10, [SEALED, SEALED_REVERSE, Operator(JOIN), Operator(CHAIN)],
         [Member([SEALED, SEALED_REVERSE, Operator(JOIN), Operator(CHAIN)],
                 kinds(CAB, METER), kinds(CAB, METER))]),
]

CASE_1_FILE = bytes.fromhex("""
    41 00 02 00 01
    42 00 11 03 00 00 00 00 00 00 00 01 00 00 00 00 00 00 00 08
    43 00 02 00 00
    43 00 02 00 03
    45 00 08 00 00 00 00 00 00 00 02
""")

# Case 11: the program with the question of case 4.
REGISTER = Register([CAB, METER, SHOP, FLEET, DISTRICT, CAB], [
    (0, 0, 1), (0, 3, 2), (0, 4, 3), (1, 3, 2), (3, 4, 4), (5, 4, 3),
])
CASE_11_QUESTION = CASES[3].question
CASE_11_PAIRS = {(0, 3), (0, 4), (3, 4), (5, 3), (5, 4)}
CASE_11_OUTPUT = "members 2 pairs 5\n0 3\n0 4\n3 4\n5 3\n5 4\n"

# Case 12: link 4-4-3 added; the closure of 0-3, 3-4, 4-3, 5-3 by hand.
BREAKING_REGISTER = Register(REGISTER.kinds, sorted([*REGISTER.links, (4, 4, 3)]))
CASE_12_PLAIN = {(0, 3), (0, 4), (3, 3), (3, 4), (4, 3), (4, 4), (5, 3), (5, 4)}
CASE_12_PLACE = 11

# Case 13: the last number that passes, the first that does not, and its refusal.
class Edge(NamedTuple):
    passes: int
    fails: int
    number: int


QUESTION_SYMBOLS = Edge(32, 33, 3)
PERMITTED_PAIRS = Edge(128, 129, 12)
PATH_SYMBOLS = Edge(48, 49, 13)
EMPTY_FILE = (5, 0)
PROGRAM_RECORDS = Edge(128, 129, 15)  # of case 11


def sheet_of_pairs(count: int) -> Sheet:
    """A sheet with one link, which has `count` permitted pairs."""
    return Sheet(64, 1, [(n // 64, 0, n % 64) for n in range(count)])
