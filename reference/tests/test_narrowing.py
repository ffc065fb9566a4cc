"""Inference, its limits and merging: by hand, and against the naive rules."""
import random
import time
import unittest
from collections import Counter

from reference import cases, generate, naive
from reference.files import (
    BOTH, BRANCH_LEFT, BRANCH_RIGHT, JOIN, UNION, JoinThrough, Member, Operator, Sheet, Step,
)
from reference.narrowing import Triple, narrow, parts
from reference.tests.support import (
    A, B, C, CHAINED, PLAIN_JOIN, REVERSE_A, kind_set, refusal_of, result_of,
)

RIGHT, LEFT = Operator(BRANCH_RIGHT), Operator(BRANCH_LEFT)


def sheet(kinds: int, *links: list) -> Sheet:
    """Each link is the list of its permitted pairs of kinds."""
    triples = [(a, link, b) for link, pairs in enumerate(links) for a, b in pairs]
    return Sheet(kinds, len(links), sorted(triples))


def through(*kinds: int) -> JoinThrough:
    return JoinThrough(kind_set(*kinds))


class Rules(unittest.TestCase):
    def last(self, permitted, *symbols):
        return parts(permitted, list(symbols))[-1]

    def test_steps(self):
        permitted = sheet(3, [(0, 1), (2, 2)], [(1, 2)])
        self.assertEqual(self.last(permitted, A), {Triple(0, (A,), 1), Triple(2, (A,), 2)})
        self.assertEqual(self.last(permitted, REVERSE_A),
                         {Triple(1, (REVERSE_A,), 0), Triple(2, (REVERSE_A,), 2)})

    def test_join_keeps_one_triple_for_each_kind_between(self):
        permitted = sheet(4, [(0, 1), (0, 2)], [(1, 3), (2, 3)])
        self.assertEqual(self.last(permitted, A, B, PLAIN_JOIN),
                         {Triple(0, (A, B, through(1)), 3), Triple(0, (A, B, through(2)), 3)})

    def test_union_has_the_triples_of_either(self):
        permitted = sheet(3, [(0, 1)], [(0, 1), (1, 2)])
        self.assertEqual(self.last(permitted, A, B, Operator(UNION)),
                         {Triple(0, (A,), 1), Triple(0, (B,), 1), Triple(1, (B,), 2)})
        self.assertEqual(self.last(permitted, A, A, Operator(UNION)), {Triple(0, (A,), 1)})

    def test_both_needs_both_ends(self):
        permitted = sheet(3, [(0, 1), (0, 2), (1, 1)], [(0, 1), (1, 2)])
        both = Operator(BOTH)
        self.assertEqual(self.last(permitted, A, B, both), {Triple(0, (A, B, both), 1)})

    def test_branch_right_forgets_its_far_kind(self):
        permitted = sheet(4, [(0, 1), (0, 3)], [(1, 2), (1, 3)])
        self.assertEqual(self.last(permitted, A, B, RIGHT), {Triple(0, (A, B, RIGHT), 1)})

    def test_branch_left_forgets_its_far_kind(self):
        permitted = sheet(4, [(0, 1), (0, 3)], [(0, 2), (1, 2)])
        self.assertEqual(self.last(permitted, A, B, LEFT), {Triple(0, (A, B, LEFT), 2)})

    def test_every_part_is_listed(self):
        permitted = sheet(3, [(0, 1)], [(1, 2)])
        self.assertEqual(parts(permitted, [A, B, PLAIN_JOIN]), [
            {Triple(0, (A,), 1)}, {Triple(1, (B,), 2)}, {Triple(0, (A, B, through(1)), 2)}])


class Chains(unittest.TestCase):
    def test_a_pair_may_have_a_kept_chain_and_unrolled_walks(self):
        permitted = sheet(4, [(0, 1), (0, 2), (1, 3), (2, 2), (2, 3)])
        self.assertEqual(narrow(permitted, [A, CHAINED]), [
            Member([A], kind_set(0, 1), kind_set(1, 3)),
            Member([A, A, through(1)], kind_set(0), kind_set(3)),
            Member([A, CHAINED], kind_set(0, 2), kind_set(2, 3)),
        ])

    def test_a_chain_is_kept_although_its_shortest_walk_is_free(self):
        permitted = sheet(3, [(0, 1), (0, 2), (2, 0), (2, 1)])
        self.assertIn(Triple(0, (A, CHAINED), 1), parts(permitted, [A, CHAINED])[-1])
        self.assertEqual(narrow(permitted, [A, CHAINED]),
                         [Member([A, CHAINED], kind_set(0, 2), kind_set(0, 1, 2))])

    def test_walks_are_joined_from_the_left(self):
        permitted = sheet(4, [(0, 1), (1, 2), (2, 3)])
        self.assertEqual(narrow(permitted, [A, CHAINED])[-1],
                         Member([A, A, through(1), A, through(2)], kind_set(0), kind_set(3)))

    def test_chain_of_chain_is_not_flattened(self):
        permitted = sheet(4, [(0, 1), (1, 2), (2, 3)])
        question = [A, CHAINED, CHAINED]
        self.assertEqual([len(part) for part in parts(permitted, question)], [3, 6, 7])
        self.assertEqual(narrow(permitted, question), [
            Member([A], kind_set(0, 1, 2), kind_set(1, 2, 3)),
            Member([A, A, A, through(2), through(1)], kind_set(0), kind_set(3)),
            Member([A, A, through(1, 2)], kind_set(0, 1), kind_set(2, 3)),
            Member([A, A, through(1), A, through(2)], kind_set(0), kind_set(3)),
        ])

    def test_ringed_is_judged_over_the_triples_of_the_part(self):
        permitted = sheet(2, [(0, 0)], [(0, 1)])
        self.assertEqual(narrow(permitted, [A, B, PLAIN_JOIN, CHAINED]),
                         [Member([A, B, through(0)], kind_set(0), kind_set(1))])

    def test_a_kind_inside_a_path_is_not_met_by_the_walk(self):
        # A/B leads 0 to 2 through 1, and 1 to 1 through 0: only 1 is ringed.
        permitted = sheet(3, [(0, 1), (1, 0)], [(1, 2), (0, 1)])
        self.assertEqual(narrow(permitted, [A, B, PLAIN_JOIN, CHAINED]), [
            Member([A, B, through(1)], kind_set(0), kind_set(2)),
            Member([A, B, PLAIN_JOIN, CHAINED], kind_set(1), kind_set(1)),
        ])

    def test_the_kept_chain_is_of_the_original_part(self):
        permitted = sheet(2, [(0, 1)], [(1, 0), (1, 1)], [(1, 1)])
        part = [A, B, C, Operator(UNION), PLAIN_JOIN]
        self.assertEqual(narrow(permitted, [*part, CHAINED]), [
            Member([*part, CHAINED], kind_set(0), kind_set(0, 1))])

    def test_joins_above_a_kept_chain_are_through_kinds(self):
        permitted = sheet(3, [(0, 1)], [(1, 2)], [(2, 1)])
        loop = [B, C, PLAIN_JOIN, CHAINED]
        self.assertEqual(narrow(permitted, [A, *loop, PLAIN_JOIN]), [
            Member([A, *loop, through(1)], kind_set(0), kind_set(1))])

    def test_a_walk_over_kept_chains_may_itself_be_unrolled(self):
        permitted = sheet(2, [(0, 1)], [(1, 1)])
        part = [A, B, CHAINED, PLAIN_JOIN]
        self.assertEqual(narrow(permitted, [*part, CHAINED]), [
            Member([A, B, CHAINED, through(1)], kind_set(0), kind_set(1))])

    def test_chain_of_a_kept_chain(self):
        permitted = sheet(1, [(0, 0)])
        self.assertEqual(narrow(permitted, [A, CHAINED, CHAINED]),
                         [Member([A, CHAINED, CHAINED], 1, 1)])

    def test_chain_of_nothing(self):
        self.assertEqual(narrow(sheet(2, [], [(0, 1)]), [A, CHAINED]), [])


class Merging(unittest.TestCase):
    def test_sets_are_unions(self):
        permitted = sheet(6, [(0, 1), (0, 2), (3, 2)], [(1, 4), (2, 5)])
        self.assertEqual(narrow(permitted, [A, B, PLAIN_JOIN]),
                         [Member([A, B, through(1, 2)], kind_set(0, 3), kind_set(4, 5))])

    def test_merging_comes_after_joining(self):
        # Merged before, A would end in {1, 3} and let 0 lead on to 4.
        permitted = sheet(5, [(0, 1), (2, 3)], [(3, 4)])
        self.assertEqual(narrow(permitted, [A, B, PLAIN_JOIN]),
                         [Member([A, B, through(3)], kind_set(2), kind_set(4))])

    def test_members_stand_by_code(self):
        permitted = sheet(2, [(0, 1)], [(0, 1)])
        question = [Step(1, 0), B, Operator(UNION), A, Operator(UNION), A, B, LEFT,
                    Operator(UNION)]
        self.assertEqual([member.symbols for member in narrow(permitted, question)],
                         [[A], [A, B, LEFT], [B], [Step(1, 0)]])

    def test_kind_63(self):
        permitted = sheet(64, [(63, 63)], [(63, 0)])
        self.assertEqual(narrow(permitted, [A, B, PLAIN_JOIN]),
                         [Member([A, B, JoinThrough(2 ** 63)], 2 ** 63, 1)])


class Limits(unittest.TestCase):
    def refused(self, permitted, question, number, place):
        self.assertEqual(refusal_of(narrow, permitted, question), (number, place))

    def test_link_of_the_question(self):
        permitted = sheet(2, [(0, 1)], [(0, 1)])
        self.assertEqual(len(narrow(permitted, [B])), 1)
        self.refused(permitted, [C], 11, 0)
        self.refused(permitted, [A, Step(1, 2), PLAIN_JOIN, Step(0, 63), PLAIN_JOIN], 11, 1)

    def test_11_stands_before_12_and_13(self):
        self.refused(cases.sheet_of_pairs(129), [A, B, PLAIN_JOIN], 11, 1)
        layered, question = generate.layered_chain(30, 2)
        self.refused(layered, question + [B, PLAIN_JOIN], 11, 2)

    def test_join_counts(self):
        for a, b, refusal in ((16, 8, None), (43, 3, (12, 2)), (63, 2, None), (64, 2, None)):
            permitted = sheet(64, [(n, 0) for n in range(a)], [(0, n) for n in range(b)])
            self.assertEqual(refusal_of(narrow, permitted, [A, B, PLAIN_JOIN]), refusal)

    def test_union_counts(self):
        pairs = [(n // 16, n % 16) for n in range(129)]
        for a, b, refusal in ((64, 64, None), (64, 65, (12, 2)), (128, 1, (12, 2))):
            permitted = sheet(16, pairs[:a], pairs[:b])
            self.assertEqual(refusal_of(narrow, permitted, [A, B, Operator(UNION)]), refusal)

    def test_equal_triples_of_a_union_count_once(self):
        permitted = cases.sheet_of_pairs(128)
        self.assertEqual(len(parts(permitted, [A, A, Operator(UNION)])[-1]), 128)

    def test_equal_triples_of_a_branch_count_once(self):
        star = sheet(64, [(n, 0) for n in range(64)], [(0, n) for n in range(64)])
        self.assertEqual(len(parts(star, [A, B, RIGHT])[-1]), 64)
        self.assertEqual(len(parts(star, [B, B, LEFT])[-1]), 64)

    def test_kept_chain_counts(self):
        # A ring of 8 kinds has 64 pairs, and each kind leading into it 8 more.
        ring = [(n, (n + 1) % 8) for n in range(8)] + [(8 + n, n) for n in range(8)]
        question = [A, CHAINED]
        self.assertEqual(len(parts(sheet(18, ring), question)[-1]), 128)
        self.refused(sheet(18, ring + [(16, 17)]), question, 12, 1)
        self.refused(sheet(18, ring + [(16, 0)]), question, 12, 1)

    def test_unrolled_walk_counts(self):
        line = [(n, n + 1) for n in range(15)]  # 120 walks
        for extra, refusal in ((8, None), (9, (12, 1))):
            apart = [(16 + 2 * n, 17 + 2 * n) for n in range(extra)]
            permitted = sheet(34, line + apart)
            self.assertEqual(refusal_of(narrow, permitted, [A, CHAINED]), refusal)

    def test_a_part_counts_although_its_triples_vanish(self):
        crowd = cases.sheet_of_pairs(129)
        permitted = Sheet(64, 2, crowd.triples)
        self.refused(permitted, [A, B, PLAIN_JOIN], 12, 0)
        self.refused(permitted, [B, A, PLAIN_JOIN], 12, 1)
        self.assertEqual(narrow(permitted, [B]), [])

    def test_first_symbol_that_has_either(self):
        # The chain over link 0 is too long; link 1 alone has too many pairs.
        line = generate.layered_sheet(26, 1)
        crowd = [(n // 64, n % 64) for n in range(129)]
        permitted = sheet(64, [(a, b) for a, _, b in line.triples], crowd)
        self.refused(permitted, [A, CHAINED, B, PLAIN_JOIN], 13, 1)
        self.refused(permitted, [B, A, CHAINED, PLAIN_JOIN], 12, 0)

    def test_13_stands_before_12_at_one_symbol(self):
        for layers, number in ((25, 12), (26, 13)):
            self.refused(generate.layered_sheet(layers, 1), [A, CHAINED], number, 1)
            self.refused(generate.layered_sheet(layers, 2), [A, CHAINED], number, 1)

    def test_size_edges_of_every_operator(self):
        for code in (JOIN, BOTH, BRANCH_RIGHT, BRANCH_LEFT):
            for tail in (1, 3, 4):
                job = generate.size_edge(tail, code)
                members = narrow(*job)
                self.assertEqual(max(len(member.symbols) for member in members), 44 + tail)
                self.assertEqual(members, naive.narrow(*job))
            job = generate.size_edge(5, code)
            self.assertEqual(refusal_of(narrow, *job), (13, len(job.question) - 1))

    def test_a_kept_chain_has_a_size_too(self):
        # Longer than a question that is read, so that the kept path is too long.
        self.refused(sheet(1, [(0, 0)]), [A] + [CHAINED] * 50, 13, 48)

    def test_size_edges_of_a_chain(self):
        # Paths of 3, then 4 symbols: 12 * 3 + 11 is 47 and 10 * 4 + 9 is 49.
        line = [(n, n + 1) for n in range(24)]
        pairs = sheet(25, line[0::2], line[1::2])
        self.assertEqual(len(narrow(pairs, [A, B, PLAIN_JOIN, CHAINED])[-1].symbols), 47)
        for steps, refusal in ((9, None), (10, (13, 4))):
            loops = sheet(25, line[:steps], [(n, n) for n in range(25)])
            question = [A, B, CHAINED, PLAIN_JOIN, CHAINED]
            self.assertEqual(refusal_of(narrow, loops, question), refusal)


class ExponentialChains(unittest.TestCase):
    def timed(self, job):
        begun = time.perf_counter()
        result = result_of(narrow, *job)
        self.assertLess(time.perf_counter() - begun, 0.5)
        return result

    @staticmethod
    def layered_walks(layers: int, width: int) -> int:
        return sum((layers - steps) * width ** (steps + 1) for steps in range(1, layers))

    def test_layers(self):
        seen = Counter()
        for width in range(1, 8):
            for layers in range(2, 64 // width + 1):
                result = self.timed(generate.layered_chain(layers, width))
                if (layers - 1) * width ** 2 > 128:
                    expected = 12, 0
                elif 2 * (layers - 1) - 1 > 48:
                    expected = 13, 1
                elif self.layered_walks(layers, width) > 128:
                    expected = 12, 1
                else:
                    expected = None
                seen[expected] += 1
                self.assertEqual(result if isinstance(result, tuple) else None, expected)
        self.assertEqual(len(seen), 4)

    def test_a_thousand_million_walks(self):
        self.assertGreater(self.layered_walks(30, 2), 10 ** 9)
        self.assertEqual(self.timed(generate.layered_chain(30, 2)), (13, 1))
        self.assertGreater(self.layered_walks(19, 2), 10 ** 6)
        self.assertEqual(self.timed(generate.layered_chain(19, 2)), (12, 1))

    def test_free_walks_before_a_ring_count(self):
        triples = generate.layered_sheet(25, 2).triples
        ringed = Sheet(51, 1, sorted([*triples, (50, 0, 50), (48, 0, 50)]))
        self.assertEqual(self.timed((ringed, [A, CHAINED])), (12, 1))

    def test_rings_take_exponential_walks(self):
        # With a way back from last to first layer every kind is ringed.
        triples = generate.layered_sheet(5, 2).triples
        ringed = Sheet(10, 1, sorted([*triples, (8, 0, 0), (9, 0, 1)]))
        self.assertEqual(self.timed((ringed, [A, CHAINED])),
                         [Member([A, CHAINED], 2 ** 10 - 1, 2 ** 10 - 1)])

    def test_random_layers(self):
        rng, seen = random.Random(31), Counter()
        for _ in range(300):
            result = self.timed(generate.random_layered_chain(rng))
            seen[result[0] if isinstance(result, tuple) else None] += 1
        self.assertEqual(set(seen), {None, 12, 13})


def naive_parts(permitted, question):
    return [{Triple(a, tuple(naive.postfix(path)), b) for a, path, b in part}
            for part in naive.parts(permitted, question)]


class AgainstNaive(unittest.TestCase):
    def compare(self, job):
        """The kind of outcome, or None if the naive rules give up."""
        try:
            expected = result_of(naive_parts, *job)
        except naive.TooManyWalks:
            return None
        self.assertEqual(result_of(parts, *job), expected, job)
        if isinstance(expected, tuple):
            self.assertEqual(result_of(narrow, *job), expected, job)
            return expected[0]
        self.assertEqual(narrow(*job), naive.narrow(*job), job)
        return "accepted"

    def test_small_inputs(self):
        rng, seen = random.Random(32), Counter()
        for _ in range(2500):
            seen[self.compare(generate.random_job(rng)[:2])] += 1
        self.assertGreater(seen["accepted"], 2000)
        self.assertTrue({11, 12} <= set(seen))

    def test_inputs_that_reach_refusals(self):
        rng, seen = random.Random(33), Counter()
        for maker in (generate.link_beyond, generate.crowded, generate.overlong,
                      generate.random_layered_chain):
            for _ in range(15):
                seen[self.compare(maker(rng))] += 1
        for number in (11, 12, 13):
            self.assertGreater(seen[number], 5)


if __name__ == "__main__":
    unittest.main()
