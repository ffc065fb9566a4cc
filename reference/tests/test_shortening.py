"""Shortening: by hand, in any order, and with the same pairs."""
import random
import unittest

from reference import generate, meaning
from reference.files import (
    BOTH, BRANCH_LEFT, BRANCH_RIGHT, UNION, JoinThrough, Operator, Sheet, question_bytes,
)
from reference.shortening import postfix, shorten, simplifications, tree
from reference.tests.support import A, B, C, CHAINED, PLAIN_JOIN, REVERSE_A

RIGHT, LEFT = Operator(BRANCH_RIGHT), Operator(BRANCH_LEFT)
ONE_KIND = Sheet(1, 3, [(0, link, 0) for link in range(3)])  # any register of one kind obeys it


def questions(seed: int, count: int):
    rng = random.Random(seed)
    return [generate.piled_question(rng, 3, rng.choice([6, 12, 32])) for _ in range(count)]


def at_random(rng, symbols: list) -> list:
    """Single simplifications, each drawn among all that fit, until none does: the questions on the way."""
    path, way = tree(symbols), [symbols]
    while ways := list(simplifications(path)):
        path = rng.choice(ways)
        way.append(postfix(path))
    return way


class ByHand(unittest.TestCase):
    def becomes(self, before: list, after: list):
        self.assertEqual(shorten(before), after)
        self.assertEqual(shorten(after), after)

    def stays(self, *symbols):
        self.becomes(list(symbols), list(symbols))

    def test_chain_of_chain(self):
        self.becomes([A, CHAINED, CHAINED, CHAINED], [A, CHAINED])

    def test_a_chain_that_is_a_test(self):
        self.becomes([A, B, CHAINED, RIGHT], [A, B, RIGHT])
        self.becomes([B, CHAINED, A, LEFT], [B, A, LEFT])
        self.becomes([A, B, CHAINED, CHAINED, RIGHT], [A, B, RIGHT])

    def test_a_join_that_is_a_test(self):
        self.becomes([A, B, C, PLAIN_JOIN, RIGHT], [A, B, C, RIGHT, RIGHT])
        self.becomes([B, C, PLAIN_JOIN, A, LEFT], [B, C, RIGHT, A, LEFT])

    def test_the_second_operand_of_the_join_is_a_test_itself(self):
        self.becomes([A, B, C, CHAINED, PLAIN_JOIN, RIGHT], [A, B, C, RIGHT, RIGHT])
        self.becomes([A, B, C, REVERSE_A, PLAIN_JOIN, PLAIN_JOIN, RIGHT], [A, B, C, REVERSE_A, RIGHT, RIGHT, RIGHT])

    def test_the_first_one_is_none(self):
        self.stays(A, B, CHAINED, C, RIGHT, RIGHT)
        self.becomes([A, B, C, PLAIN_JOIN, REVERSE_A, PLAIN_JOIN, RIGHT], [A, B, C, PLAIN_JOIN, REVERSE_A, RIGHT, RIGHT])

    def test_a_join_below_a_chain_that_goes(self):
        self.becomes([A, B, C, PLAIN_JOIN, CHAINED, RIGHT], [A, B, C, RIGHT, RIGHT])
        self.becomes([A, B, CHAINED, C, CHAINED, PLAIN_JOIN, CHAINED, RIGHT], [A, B, CHAINED, C, RIGHT, RIGHT])

    def test_what_is_no_test_stays(self):
        self.stays(A, CHAINED, B, RIGHT)
        self.stays(A, B, CHAINED, LEFT)
        self.stays(A, B, PLAIN_JOIN, C, RIGHT)
        self.stays(A, B, C, PLAIN_JOIN, LEFT)
        self.stays(A, B, PLAIN_JOIN, CHAINED)

    def test_below_a_union_or_a_both_in_a_test_all_stays(self):
        for code in (UNION, BOTH):
            self.stays(A, B, CHAINED, B, C, PLAIN_JOIN, Operator(code), RIGHT)
            self.stays(B, CHAINED, B, C, PLAIN_JOIN, Operator(code), A, LEFT)

    def test_a_branch_in_a_test_has_a_test_of_its_own(self):
        self.becomes([A, B, CHAINED, C, CHAINED, RIGHT, RIGHT], [A, B, CHAINED, C, RIGHT, RIGHT])
        self.becomes([A, C, CHAINED, B, CHAINED, LEFT, RIGHT], [A, C, B, CHAINED, LEFT, RIGHT])


class Promised(unittest.TestCase):
    def test_no_order_matters(self):
        rng = random.Random(71)
        for question in questions(70, 300):
            for _ in range(3):
                self.assertEqual(question_bytes(at_random(rng, question)[-1]), question_bytes(shorten(question)))

    def test_never_longer_and_none_fits(self):
        shorter = 0
        for question in questions(72, 300):
            result = shorten(question)
            self.assertLessEqual(len(result), len(question))
            self.assertLessEqual(len(question_bytes(result)), len(question_bytes(question)))
            self.assertEqual(list(simplifications(tree(result))), [])
            self.assertEqual(shorten(result), result)
            shorter += result != question
        self.assertGreater(shorter, 150)

    def test_the_same_pairs_after_each_simplification(self):
        rng, some = random.Random(74), 0
        for question in questions(73, 200):
            register = generate.obeying_register(rng, ONE_KIND, 6, 30)
            pairs = {frozenset(meaning.plain_pairs(each, register)) for each in at_random(rng, question)}
            self.assertEqual(len(pairs), 1)
            some += bool(pairs.pop())
        self.assertGreater(some, 120)

    def test_a_join_through_a_set_is_none_of_them(self):
        self.assertEqual(shorten([A, B, C, JoinThrough(1), RIGHT]), [A, B, C, JoinThrough(1), RIGHT])


if __name__ == "__main__":
    unittest.main()
