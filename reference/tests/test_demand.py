"""What narrowing promises of every register: the same pairs where it obeys,
no pair more where it does not, and no kind that cannot occur, at the ends or
at a join."""
import random
import unittest

from reference import generate, meaning
from reference.files import (
    CHAIN, JOIN, JoinThrough, Member, Operator, operands, read_narrowed, write_narrowed,
)
from reference.meaning import narrowed_pairs, plain_pairs
from reference.narrowing import narrow
from reference.tests.support import refusal_of


def narrowable(rng: random.Random, count: int):
    """Sheets and questions not refused, with the members of the file written."""
    while count:
        sheet, question, _ = generate.random_job(rng)
        if refusal_of(narrow, sheet, question) is None:
            yield sheet, question, read_narrowed(write_narrowed(narrow(sheet, question)))
            count -= 1


class Registers(unittest.TestCase):
    def equal_words(self, seed: int, count: int, register_of, least: int):
        """Of registers that obey; at least so many answers hold a pair."""
        rng, found = random.Random(seed), 0
        for sheet, question, members in narrowable(rng, count):
            register = register_of(rng, sheet)
            plain = meaning.plain_words(question, register)
            self.assertEqual(meaning.narrowed_words(members, register), plain,
                             (sheet, question, register))
            found += any(plain)
        self.assertGreater(found, least)

    def test_obeying_registers_have_equal_words(self):
        self.equal_words(51, 1500, generate.obeying_register, 500)

    def test_wide_registers_have_equal_words(self):
        self.equal_words(52, 60, generate.wide_register, 20)

    def test_breaking_registers_have_no_pair_more(self):
        rng, fewer = random.Random(53), 0
        for sheet, question, members in narrowable(rng, 1500):
            register = generate.breaking_register(rng, sheet)
            plain, narrowed = plain_pairs(question, register), narrowed_pairs(members, register)
            self.assertLessEqual(narrowed, plain, (sheet, question, register))
            fewer += narrowed < plain
        self.assertGreater(fewer, 300)


class Ends(unittest.TestCase):
    """On the universal register, a record for each kind, records are kinds."""

    def test_ends_of_each_member_are_exact(self):
        for sheet, _, members in narrowable(random.Random(54), 1500):
            register = generate.universal_register(sheet)
            for member in members:
                pairs = narrowed_pairs([member], register)
                self.assertEqual(meaning.mask(s for s, _ in pairs), member.from_set)
                self.assertEqual(meaning.mask(t for _, t in pairs), member.to_set)

    def test_ends_of_the_question_are_exact(self):
        found = 0
        for sheet, question, members in narrowable(random.Random(55), 1500):
            pairs = plain_pairs(question, generate.universal_register(sheet))
            self.assertEqual(meaning.mask(s for s, _ in pairs),
                             meaning.mask(k for m in members for k in meaning.bits(m.from_set)))
            self.assertEqual(meaning.mask(t for _, t in pairs),
                             meaning.mask(k for m in members for k in meaning.bits(m.to_set)))
            found += bool(pairs)
        self.assertGreater(found, 700)


def with_set(member: Member, place: int, kinds: int) -> Member:
    """The member with this set at one of its joins."""
    symbols = list(member.symbols)
    symbols[place] = JoinThrough(kinds)
    return member._replace(symbols=symbols)


def join_sets(member: Member) -> list:
    """The place and the kinds of each join that has a set."""
    return [(place, symbol.kinds) for place, symbol in enumerate(member.symbols)
            if isinstance(symbol, JoinThrough)]


def below_chains(symbols: list) -> set:
    """The places of the symbols below some chain."""
    starts: list = []  # of the parts not taken yet
    below: set = set()
    for place, symbol in enumerate(symbols):
        split = len(starts) - operands(symbol)
        start = starts[split] if operands(symbol) else place
        if symbol == Operator(CHAIN):
            below.update(range(start, place))
        starts[split:] = [start]
    return below


class JoinSets(unittest.TestCase):
    """Request j. An obeying register maps onto the universal one, each record
    to its kind, and a path's pairs go along: a member that has no pair there
    has none on any obeying register."""

    @staticmethod
    def idle(sheet, member: Member) -> list:
        """The place and kind of each cut that leaves the member no pair."""
        register = generate.universal_register(sheet)
        return [(place, kind) for place, kinds in join_sets(member) for kind in meaning.bits(kinds)
                if not narrowed_pairs([with_set(member, place, 1 << kind)], register)]

    def test_no_kind_at_a_join_is_idle(self):
        sets, wide = 0, 0
        for sheet, question, members in narrowable(random.Random(56), 1500):
            for member in members:
                self.assertEqual(self.idle(sheet, member), [], (sheet, question, member))
                sets += len(join_sets(member))
                wide += sum(kinds & kinds - 1 != 0 for _, kinds in join_sets(member))
        self.assertGreater(sets, 1000)
        self.assertGreater(wide, 300)

    def test_an_idle_kind_is_found(self):
        """One kind more in a set: the others are not idle, and it mostly is."""
        rng, found = random.Random(57), 0
        for sheet, _, members in narrowable(rng, 1500):
            for member, (place, kinds) in ((m, each) for m in members for each in join_sets(m)):
                kind = rng.randrange(sheet.kinds)
                idle = self.idle(sheet, with_set(member, place, kinds | 1 << kind))
                self.assertIn(idle, [[], [(place, kind)]])
                if idle:
                    cut = with_set(member, place, 1 << kind)
                    self.assertFalse(narrowed_pairs([cut], generate.obeying_register(rng, sheet)))
                    found += 1
        self.assertGreater(found, 400)

    def test_joins_have_a_set_but_below_a_kept_chain(self):
        plain = 0
        for _, _, members in narrowable(random.Random(58), 1500):
            for member in members:
                below = below_chains(member.symbols)
                for place, symbol in enumerate(member.symbols):
                    self.assertFalse(isinstance(symbol, JoinThrough) and place in below)
                    self.assertFalse(symbol == Operator(JOIN) and place not in below)
                    plain += symbol == Operator(JOIN)
        self.assertGreater(plain, 100)


if __name__ == "__main__":
    unittest.main()
