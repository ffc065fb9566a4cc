"""The writer of narrowed questions: judged as the file it would make."""
import random
import unittest
from collections import Counter

from reference import generate
from reference.files import (
    JoinThrough, Member, Operator, Step, codes, narrowed_bytes, read_narrowed, write_narrowed,
)
from reference.tests.support import A, B, CHAINED, PLAIN_JOIN, refusal_of


def single(*symbols, from_set=1, to_set=2):
    return Member(list(symbols), from_set, to_set)


class Refusals(unittest.TestCase):
    def refused(self, members, number, place):
        self.assertEqual(refusal_of(write_narrowed, members), (number, place))

    def test_number_of_members(self):
        members = [single(Step(n // 64, n % 64)) for n in range(128)]
        self.assertEqual(len(write_narrowed(members)), 5 + 128 * 25)
        self.refused(members + [single(A, CHAINED)], 3, 0)
        self.refused(members * 1000, 3, 0)

    def test_number_of_symbols(self):
        self.assertEqual(len(write_narrowed([single(A, *[CHAINED] * 47)])), 5 + 25 + 47 * 4)
        self.refused([single(A, *[CHAINED] * 48)], 3, 5)
        self.refused([single(A, *[CHAINED] * 400)], 3, 5)
        self.refused([single()], 3, 5)
        self.refused([single(A), single()], 3, 30)

    def test_numbers_of_any_size(self):
        for symbol in (Step(2, 0), Step(0, 64), Step(256, 0), Step(-1, 0), Step(0, -1),
                       Step(0, 2 ** 70), Operator(127), Operator(134), Operator(384),
                       JoinThrough(2 ** 64), JoinThrough(-1)):
            self.refused([single(symbol)], 3, 25)
            self.refused([single(A, A, symbol)], 3, 35)

    def test_sets_of_any_size(self):
        largest = 2 ** 64 - 1
        self.assertEqual(read_narrowed(write_narrowed([Member([A], largest, 0)])),
                         [Member([A], largest, 0)])
        for ends in ((largest + 1, 0), (0, largest + 1), (-1, 0), (0, -1)):
            self.refused([Member([A], *ends)], 3, 5)

    def test_operands(self):
        self.refused([single(CHAINED)], 6, 25)
        self.refused([single(A, JoinThrough(1))], 6, 30)
        self.refused([single(A, A)], 6, 35)
        self.refused([single(A), single(A, B, A, PLAIN_JOIN)], 6, 30 + 20 + 15 + 4)

    def test_order(self):
        self.refused([single(A), single(A, from_set=7)], 4, 30)
        self.refused([single(A, A, JoinThrough(5)), single(A, A, PLAIN_JOIN)], 4, 46)
        self.refused([single(A), single(A, A)], 6, 60)
        self.refused([single(A, A, PLAIN_JOIN), single(A)], 4, 39)

    def test_first_fault_from_the_left(self):
        self.refused([single(Step(9, 9)), single()], 3, 25)
        self.refused([single(A), single(A), single(Step(9, 9))], 4, 30)


class Bytes(unittest.TestCase):
    def test_no_members(self):
        self.assertEqual(write_narrowed([]).hex(" "), "41 00 02 00 00")

    def test_every_field(self):
        made = write_narrowed([Member([A, Step(1, 9), JoinThrough(2 ** 63), Operator(133)],
                                      0x0102, 0x0304)])
        self.assertEqual(made.hex(), "410002" "0001" "420011" "04" "0000000000000102"
                         "0000000000000304" "430002" "0000" "430002" "0109"
                         "450008" "8000000000000000" "440001" "85")


class RandomMembers(unittest.TestCase):
    def test_same_refusal_as_the_file(self):
        rng, seen = random.Random(21), Counter()
        for _ in range(3000):
            members = generate.random_members(rng)
            if members:
                members = generate.spoiled_members(rng, members)
                expected = refusal_of(read_narrowed, narrowed_bytes(members))
                self.assertEqual(refusal_of(write_narrowed, members), expected, members)
                seen[expected and expected[0]] += 1
        self.assertEqual(set(seen), {None, 3, 4, 6})

    def test_reading_what_is_written(self):
        rng = random.Random(22)
        for _ in range(1500):
            members = generate.random_members(rng, most=rng.choice([9, 48]))
            self.assertEqual(read_narrowed(write_narrowed(members)), members)
        largest = generate.large_members(rng)
        self.assertEqual(read_narrowed(write_narrowed(largest)), largest)

    def test_writing_what_is_read(self):
        rng, seen = random.Random(23), Counter()
        for _ in range(1500):
            data = generate.random_file(rng, "narrowed")
            read = refusal_of(read_narrowed, data) is None
            seen[read] += 1
            if read:
                self.assertEqual(write_narrowed(read_narrowed(data)), data)
        self.assertGreater(seen[True], 400)

    def test_codes(self):
        self.assertEqual(codes([A, Step(1, 5), JoinThrough(9), PLAIN_JOIN, CHAINED]),
                         [0, 69, 128, 128, 133])


if __name__ == "__main__":
    unittest.main()
