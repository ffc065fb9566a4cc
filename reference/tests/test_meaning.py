"""The meaning of a path: by hand, as words, and against the naive one."""
import random
import time
import unittest

from reference import generate, meaning, naive
from reference.files import (
    BOTH, BRANCH_LEFT, BRANCH_RIGHT, UNION, JoinThrough, Member, Operator, Register, Sheet, Step,
)
from reference.meaning import narrowed_pairs, obeys, plain_pairs, words
from reference.tests.support import A, B, CHAINED, PLAIN_JOIN, REVERSE_A, kind_set

ALL = generate.ALL_KINDS
SMALL = Register([0, 1, 2, 0], [
    (0, 0, 1), (0, 1, 1), (1, 0, 2), (1, 1, 3), (2, 1, 2), (3, 0, 1),
])


class Operators(unittest.TestCase):
    """Link 0 is 0-1, 1-2, 3-1; link 1 is 0-1, 1-3, 2-2; kinds are 0, 1, 2, 0."""

    def means(self, pairs, *symbols):
        self.assertEqual(plain_pairs(list(symbols), SMALL), pairs)
        self.assertEqual(naive.plain_pairs(list(symbols), SMALL), pairs)

    def test_steps(self):
        self.means({(0, 1), (1, 2), (3, 1)}, A)
        self.means({(1, 0), (2, 1), (1, 3)}, REVERSE_A)
        self.means(set(), Step(0, 63))

    def test_join(self):
        self.means({(0, 3), (1, 2), (3, 3)}, A, B, PLAIN_JOIN)
        self.means({(0, 2), (1, 1)}, B, A, PLAIN_JOIN)

    def test_join_through(self):
        self.means({(0, 3), (3, 3)}, A, B, JoinThrough(kind_set(1)))
        self.means({(1, 2)}, A, B, JoinThrough(kind_set(0, 2, 63)))
        self.means(set(), A, B, JoinThrough(0))
        self.means({(0, 3), (1, 2), (3, 3)}, A, B, JoinThrough(ALL))

    def test_union_and_both(self):
        self.means({(0, 1), (1, 2), (3, 1), (1, 3), (2, 2)}, A, B, Operator(UNION))
        self.means({(0, 1)}, A, B, Operator(BOTH))

    def test_branches(self):
        self.means({(0, 1), (1, 3)}, B, A, Operator(BRANCH_RIGHT))
        self.means({(0, 1), (1, 2)}, B, A, Operator(BRANCH_LEFT))

    def test_chain(self):
        self.means({(0, 1), (0, 2), (1, 2), (3, 1), (3, 2)}, A, CHAINED)
        self.means({(0, 1), (0, 3), (1, 3), (2, 2)}, B, CHAINED)

    def test_chain_around_a_ring_meets_itself(self):
        ring = Register([0, 0, 0], [(0, 0, 1), (1, 0, 2), (2, 0, 0)])
        self.assertEqual(plain_pairs([A, CHAINED], ring),
                         {(s, t) for s in range(3) for t in range(3)})

    def test_chain_of_a_join_through_a_set(self):
        line = Register([0, 1, 0, 1, 0], [(n, 0, n + 1) for n in range(4)])
        self.assertEqual(plain_pairs([A, A, JoinThrough(kind_set(1)), CHAINED], line),
                         {(0, 2), (2, 4), (0, 4)})


class Members(unittest.TestCase):
    def answers(self, pairs, *members):
        self.assertEqual(narrowed_pairs(members, SMALL), pairs)
        self.assertEqual(naive.narrowed_pairs(members, SMALL), pairs)

    def test_ends_are_filtered(self):
        self.answers({(0, 1), (3, 1)}, Member([A], kind_set(0), ALL))
        self.answers({(1, 2)}, Member([A], ALL, kind_set(2)))
        self.answers(set(), Member([A], kind_set(0), kind_set(2)))
        self.answers(set(), Member([A], 0, ALL), Member([B], ALL, 0))

    def test_union_over_members(self):
        self.answers({(1, 2), (2, 2)}, Member([A], kind_set(1), ALL), Member([B], kind_set(2), ALL))
        self.answers(set())


class Words(unittest.TestCase):
    def test_no_records(self):
        self.assertEqual(meaning.plain_words([A, CHAINED], Register([], [])), [])
        self.assertEqual(meaning.narrowed_words([Member([A], ALL, ALL)], Register([], [])), [])

    def test_places_of_bits(self):
        links = [(0, 0, 0), (0, 0, 63), (0, 0, 64), (64, 0, 64), (64, 0, 1)]
        expected = [0] * 130
        expected[0] = 1 | 1 << 63
        expected[1] = 1
        expected[128], expected[129] = 2, 1
        self.assertEqual(meaning.plain_words([A], Register([0] * 65, sorted(links))), expected)

    def test_one_word_for_64_records(self):
        self.assertEqual([meaning.words_per_row(n) for n in (0, 1, 64, 65, 128, 129, 1024)],
                         [0, 1, 1, 2, 2, 3, 16])
        self.assertEqual(words([1 << 63] * 64), [1 << 63] * 64)

    def test_words_say_what_pairs_say(self):
        rng = random.Random(41)
        for _ in range(20):
            sheet = generate.random_sheet(rng)
            register = generate.wide_register(rng, sheet)
            question = generate.random_question(rng, sheet.links)
            width = meaning.words_per_row(len(register.kinds))
            found = [0] * (len(register.kinds) * width)
            for s, t in plain_pairs(question, register):
                found[s * width + t // 64] |= 1 << t % 64
            self.assertEqual(meaning.plain_words(question, register), found)


class Obeying(unittest.TestCase):
    sheet = Sheet(3, 2, [(0, 0, 1), (1, 1, 2)])

    def test_obeys(self):
        self.assertIsNone(obeys(self.sheet, Register([0, 1, 2], [(0, 0, 1), (1, 1, 2)])))
        self.assertIsNone(obeys(self.sheet, Register([], [])))

    def test_first_record(self):
        self.assertEqual(obeys(self.sheet, Register([0, 3, 63], [(0, 1, 0)])), 1)

    def test_first_link(self):
        register = Register([0, 1, 2], [(0, 0, 1), (1, 0, 2), (2, 1, 1)])
        self.assertEqual(obeys(self.sheet, register), 3 + 1)

    def test_only_exact_triples_count(self):
        for link in ((1, 0, 0), (0, 1, 1), (0, 0, 2), (0, 63, 1)):
            self.assertEqual(obeys(self.sheet, Register([0, 1, 2], [link])), 3)


class AgainstNaive(unittest.TestCase):
    def test_plain(self):
        rng, found = random.Random(42), 0
        for _ in range(3000):
            sheet, question, register = generate.random_job(rng)
            pairs = plain_pairs(question, register)
            self.assertEqual(pairs, naive.plain_pairs(question, register), (question, register))
            found += bool(pairs)
        self.assertGreater(found, 1000)

    def test_narrowed(self):
        rng, found = random.Random(43), 0
        for _ in range(2000):
            sheet = generate.random_sheet(rng)
            register = generate.breaking_register(rng, sheet, records=6, links=30)
            members = generate.random_members(rng)
            pairs = narrowed_pairs(members, register)
            self.assertEqual(pairs, naive.narrowed_pairs(members, register), (members, register))
            found += bool(pairs)
        self.assertGreater(found, 500)


class Speed(unittest.TestCase):
    def test_the_largest_ring(self):
        ring = Register([n % 2 for n in range(1024)], [(n, 0, (n + 1) % 1024) for n in range(1024)])
        question = [A, CHAINED, A, CHAINED, PLAIN_JOIN, REVERSE_A, CHAINED, Operator(BOTH)]
        begun = time.perf_counter()
        self.assertEqual(meaning.plain_words(question, ring), [meaning.WORD] * (1024 * 16))
        self.assertLess(time.perf_counter() - begun, 5)


if __name__ == "__main__":
    unittest.main()
