"""The generator: the same seed gives the same inputs, and they are as said."""
import random
import unittest
from collections import Counter

from reference import files, generate, meaning, narrowing
from reference.tests.support import refusal_of


def number_of(job: generate.Narrowing):
    refusal = refusal_of(narrowing.narrow, *job)
    return refusal and refusal[0]


class Generated(unittest.TestCase):
    def test_seeded(self):
        def draw(seed):
            rng = random.Random(seed)
            return [generate.random_job_files(rng) for _ in range(20)] + [
                generate.random_file(rng, file) for file in generate.FILE_MAKERS]
        self.assertEqual(draw(1), draw(1))
        self.assertNotEqual(draw(1), draw(2))

    def test_values_are_read(self):
        rng = random.Random(71)
        for _ in range(300):
            for file, maker in generate.FILE_MAKERS.items():
                reader = getattr(files, f"read_{file}")
                self.assertIsNone(refusal_of(reader, maker(rng)))

    def test_largest_files_are_read_and_larger_ones_are_not(self):
        rng = random.Random(77)
        refusals = {"sheet": (5, 3077), "question": (3, 0), "register": (3, 0),
                    "narrowed": (3, 0)}
        for file, refusal in refusals.items():
            reader = getattr(files, f"read_{file}")
            self.assertIsNone(refusal_of(reader, generate.large_file(rng, file)))
            self.assertEqual(refusal_of(reader, generate.oversized_file(rng, file)), refusal)

    def test_registers_obey_or_break(self):
        rng = random.Random(72)
        for _ in range(300):
            sheet = generate.random_sheet(rng)
            self.assertIsNone(meaning.obeys(sheet, generate.obeying_register(rng, sheet)))
            self.assertIsNone(meaning.obeys(sheet, generate.wide_register(rng, sheet)))
            self.assertIsNone(meaning.obeys(sheet, generate.universal_register(sheet)))
            self.assertIsNotNone(meaning.obeys(sheet, generate.breaking_register(rng, sheet)))

    def test_refusals_are_reached(self):
        rng = random.Random(73)
        for maker, number in ((generate.link_beyond, 11), (generate.crowded, 12),
                              (generate.overlong, 13)):
            seen = Counter()
            for _ in range(60):
                job = maker(rng)
                self.assertEqual(number_of(job), number)
                self.assertEqual(files.read_sheet(files.sheet_bytes(job.sheet)), job.sheet)
                self.assertEqual(files.read_question(files.question_bytes(job.question)),
                                 job.question)
                seen[refusal_of(narrowing.narrow, *job)] += 1
            self.assertGreater(len(seen), 1)

    def test_mixture(self):
        rng = random.Random(74)
        seen = Counter(number_of(generate.random_narrowing(rng)) for _ in range(400))
        self.assertEqual(set(seen), {None, 11, 12, 13})

    def test_members_use_every_symbol(self):
        rng, seen = random.Random(75), Counter()
        for _ in range(300):
            for member in generate.random_members(rng):
                seen.update(symbol.code if isinstance(symbol, files.Operator)
                            else type(symbol) for symbol in member.symbols)
                seen.update(["empty"] if not member.from_set else [])
        self.assertEqual(set(seen), {*range(128, 134), files.Step, files.JoinThrough, "empty"})

    def test_damage_changes_files(self):
        rng = random.Random(76)
        for damage in generate.DAMAGES:
            changed = 0
            for _ in range(100):
                data = generate.narrowed_file(rng)
                changed += damage(rng, data) != data
            self.assertGreater(changed, 50, damage.__name__)

    def test_fields_of_a_file(self):
        data = bytes.fromhex("11 0002 03 02 12 0003 00 00 00 12 00")
        self.assertEqual(generate.fields_in(data), [(0, 5), (5, 11)])


if __name__ == "__main__":
    unittest.main()
