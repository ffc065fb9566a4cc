"""The calls: their outcomes, the order of refusals, and every area's words."""
import random
import unittest
from collections import Counter

from reference import cases, files, generate, meaning, narrowing, program
from reference.calls import (
    Accepted, Refused, check, narrow, narrow_bytes, narrowed_answer, plain_answer, shorten, whole_job,
)
from reference.files import (
    Register, Sheet, Step, question_bytes, register_bytes, sheet_bytes, write_narrowed,
)
from reference.tests.support import A, B, CHAINED, PLAIN_JOIN

SHEET = sheet_bytes(cases.SHEET)
QUESTION = question_bytes(cases.CASE_11_QUESTION)
REGISTER = register_bytes(cases.REGISTER)
BREAKING = register_bytes(cases.BREAKING_REGISTER)
NARROWED = write_narrowed(cases.CASES[3].members)
ANSWER = [24, 0, 0, 16, 0, 24]  # 0-3, 0-4; 3-4; 5-3, 5-4
EMPTY_REGISTER = register_bytes(Register([], []))
FILL = 7


class Areas:
    """Lent areas filled with a pattern, so that a changed word shows."""

    def __init__(self, work: int = 0, answer: int = 0, file: int = 0):
        self.work = [FILL] * work
        self.answer = [FILL] * answer
        self.file = bytearray([FILL]) * file


class CallTest(unittest.TestCase):
    def areas_are(self, areas: Areas, zeroed: int, answer=(), file=b""):
        """Work has `zeroed` zero words; results lie at the start of their areas."""
        for area, start in ((areas.work, [0] * zeroed), (areas.answer, list(answer)),
                            (areas.file, bytearray(file))):
            rest = len(area) - len(start)
            self.assertEqual(area[:len(start)], start)
            self.assertEqual(list(area[len(start):]), [FILL] * rest)


class Check(CallTest):
    def test_outcomes(self):
        self.assertEqual(check(SHEET, REGISTER), Accepted())
        self.assertEqual(check(SHEET, BREAKING), Refused(16, "work", 11))
        self.assertEqual(check(sheet_bytes(Sheet(1, 1, [])), EMPTY_REGISTER), Accepted())

    def test_lowest_record_before_any_link(self):
        register = Register([0, 0, 6, 7], [(0, 0, 0)])
        self.assertEqual(check(SHEET, register_bytes(register)), Refused(16, "work", 2))

    def test_files_in_order(self):
        self.assertEqual(check(b"", b""), Refused(5, "sheet", 0))
        self.assertEqual(check(SHEET, b"\x31"), Refused(1, "register", 0))


class Narrow(CallTest):
    def call(self, areas: Areas, sheet=SHEET, question=QUESTION):
        return narrow(sheet, question, areas.work, areas.file)

    def test_exact_areas(self):
        areas = Areas(work=8192, file=len(NARROWED))
        self.assertEqual(self.call(areas), Accepted(2, len(NARROWED)))
        self.areas_are(areas, 8192, file=NARROWED)

    def test_longer_areas(self):
        areas = Areas(work=8200, file=len(NARROWED) + 9)
        self.assertEqual(self.call(areas), Accepted(2, len(NARROWED)))
        self.areas_are(areas, 8192, file=NARROWED)

    def test_work_one_short(self):
        areas = Areas(work=8191, file=1000)
        self.assertEqual(self.call(areas), Refused(15, "work", 8192))
        self.areas_are(areas, 0)

    def test_file_one_short(self):
        areas = Areas(work=8193, file=len(NARROWED) - 1)
        self.assertEqual(self.call(areas), Refused(14, "work", len(NARROWED)))
        self.areas_are(areas, 8192)

    def test_files_in_order(self):
        areas = Areas(work=8191)
        self.assertEqual(self.call(areas, b"\x11", b""), Refused(1, "sheet", 0))
        self.assertEqual(self.call(areas, question=b""), Refused(5, "question", 0))
        self.areas_are(areas, 0)

    def test_refusals_of_the_question_clear_the_work(self):
        crowd, long = generate.Narrowing(cases.sheet_of_pairs(129), [A]), generate.size_edge(5)
        beyond = generate.Narrowing(cases.SHEET, [A, Step(0, 5), PLAIN_JOIN])
        for job, refused in ((crowd, Refused(12, "work", 0)), (long, Refused(13, "work", 9)),
                             (beyond, Refused(11, "work", 1))):
            areas = Areas(work=8193, file=1)  # the file would be too short as well
            self.assertEqual(self.call(areas, sheet_bytes(job.sheet), question_bytes(job.question)),
                             refused)
            self.areas_are(areas, 8192)

    def test_no_members(self):
        areas = Areas(work=8192, file=5)
        self.assertEqual(self.call(areas, question=question_bytes(cases.CASES[7].question)),
                         Accepted(0, 5))
        self.areas_are(areas, 8192, file=bytes.fromhex("4100020000"))


class NarrowBytes(CallTest):
    def call(self, areas: Areas, sheet=SHEET, question=QUESTION):
        return narrow_bytes(sheet, question, areas.work)

    def test_size(self):
        areas = Areas(work=8193)
        self.assertEqual(self.call(areas), Accepted(2, len(NARROWED)))
        self.areas_are(areas, 8192)

    def test_case_1_takes_46_bytes(self):
        self.assertEqual(self.call(Areas(work=8192), question=question_bytes(cases.CASES[0].question)),
                         Accepted(1, 46))

    def test_no_members_take_5_bytes(self):
        self.assertEqual(self.call(Areas(work=8192), question=question_bytes(cases.CASES[7].question)),
                         Accepted(0, 5))

    def test_files_in_order_and_then_the_work(self):
        areas = Areas(work=8191)
        self.assertEqual(self.call(areas, b"\x11", b""), Refused(1, "sheet", 0))
        self.assertEqual(self.call(areas, question=b""), Refused(5, "question", 0))
        self.assertEqual(self.call(areas), Refused(15, "work", 8192))
        self.areas_are(areas, 0)

    def test_it_foretells_narrowing(self):
        rng, seen = random.Random(63), Counter()
        for _ in range(400):
            sheet, question, _ = generate.random_job_files(rng)
            work = rng.choice([8191, 8192, 8192, 8192, 8195])
            told, areas = narrow_bytes(sheet, question, [FILL] * work), Areas(work=work, file=9000)
            if isinstance(told, Accepted):
                exact, short = Areas(work=work, file=told.size), Areas(work=work, file=told.size - 1)
                self.assertEqual(narrow(sheet, question, exact.work, exact.file), told)
                self.assertEqual(narrow(sheet, question, short.work, short.file),
                                 Refused(14, "work", told.size))
            self.assertEqual(narrow(sheet, question, areas.work, areas.file), told)
            seen[None if isinstance(told, Accepted) else told.number] += 1
        self.assertGreater(seen[None], 100)
        self.assertTrue({1, 2, 3, 5, 11, 15} <= set(seen), seen)
        self.assertNotIn(14, seen)


class Shorten(CallTest):
    LONG = question_bytes([A, B, CHAINED, CHAINED, CHAINED, PLAIN_JOIN])  # 30 bytes
    SHORT = question_bytes([A, B, CHAINED, PLAIN_JOIN])  # 22 bytes

    def test_exact_and_longer_areas(self):
        for more in (0, 1, 9):
            areas = Areas(file=22 + more)
            self.assertEqual(shorten(self.LONG, areas.file), Accepted(4, 22))
            self.areas_are(areas, 0, file=self.SHORT)

    def test_one_byte_short(self):
        for length in (21, 1, 0):
            areas = Areas(file=length)
            self.assertEqual(shorten(self.LONG, areas.file), Refused(14, "work", 22))
            self.areas_are(areas, 0)

    def test_the_file_stands_before_its_area(self):
        areas = Areas(file=3)
        self.assertEqual(shorten(b"", areas.file), Refused(5, "question", 0))
        self.assertEqual(shorten(self.LONG[:-1], areas.file), Refused(1, "question", 26))
        self.assertEqual(shorten(self.LONG + b"!", areas.file), Refused(5, "question", 30))
        self.areas_are(areas, 0)

    def test_a_second_pass_leaves_it_be(self):
        rng = random.Random(64)
        for _ in range(200):
            question = question_bytes(generate.piled_question(rng, 3, 32))
            first, second = Areas(file=164), Areas(file=164)
            told = shorten(question, first.file)
            self.assertEqual(shorten(bytes(first.file[:told.size]), second.file), told)
            self.assertEqual(first.file, second.file)


class Answers(CallTest):
    """The plain answer and the narrowed answer, which differ in one file only."""

    pairs = ((plain_answer, QUESTION), (narrowed_answer, NARROWED))

    def test_exact_and_longer_areas(self):
        for call, path in self.pairs:
            for more in (0, 3):
                areas = Areas(work=168 + more, answer=6 + more)
                self.assertEqual(call(path, REGISTER, areas.work, areas.answer), Accepted())
                self.areas_are(areas, 168, answer=ANSWER)

    def test_work_one_short(self):
        for call, path in self.pairs:
            areas = Areas(work=167)  # no answer area either
            self.assertEqual(call(path, REGISTER, areas.work, areas.answer),
                             Refused(15, "work", 168))
            self.areas_are(areas, 0)

    def test_answer_one_short(self):
        for call, path in self.pairs:
            areas = Areas(work=170, answer=5)
            self.assertEqual(call(path, REGISTER, areas.work, areas.answer),
                             Refused(14, "work", 6))
            self.areas_are(areas, 168)

    def test_files_in_order(self):
        for call, name in ((plain_answer, "question"), (narrowed_answer, "narrowed")):
            areas = Areas(work=2, answer=2)
            self.assertEqual(call(b"", b"", areas.work, areas.answer), Refused(5, name, 0))
            self.areas_are(areas, 0)
        for call, path in self.pairs:
            areas = Areas(work=2, answer=2)
            self.assertEqual(call(path, b"\x00\x00\x00", areas.work, areas.answer),
                             Refused(2, "register", 0))
            self.areas_are(areas, 0)

    def test_no_records_need_no_words(self):
        for call, path in self.pairs:
            for size in (0, 2):
                areas = Areas(work=size, answer=size)
                self.assertEqual(call(path, EMPTY_REGISTER, areas.work, areas.answer), Accepted())
                self.areas_are(areas, 0)

    def test_need_of_wide_registers(self):
        for records, need in ((64, 64 * 28), (65, 65 * 2 * 28), (129, 10836), (1024, 458752)):
            register = register_bytes(Register([0] * records, []))
            for call, path in self.pairs:
                self.assertEqual(call(path, register, [FILL] * (need - 1), []),
                                 Refused(15, "work", need))
                self.assertEqual(call(path, register, [FILL] * need, []),
                                 Refused(14, "work", need // 28))

    def test_a_plain_answer_knows_no_sheet(self):
        question = question_bytes([Step(0, 63)])
        areas = Areas(work=168, answer=6)
        self.assertEqual(plain_answer(question, BREAKING, areas.work, areas.answer), Accepted())
        self.areas_are(areas, 168, answer=[0] * 6)


class WholeJob(CallTest):
    def call(self, areas: Areas, sheet=SHEET, question=QUESTION, register=REGISTER):
        return whole_job(sheet, question, register, areas.work, areas.answer, areas.file)

    def test_exact_and_longer_areas(self):
        for more in (0, 5):
            areas = Areas(8192 + more, 6 + more, len(NARROWED) + more)
            self.assertEqual(self.call(areas), Accepted(2, len(NARROWED)))
            self.areas_are(areas, 8192, ANSWER, NARROWED)

    def test_needs(self):
        for records, need in ((0, 8192), (6, 8192), (128, 8192), (129, 10836)):
            register = register_bytes(Register([0] * records, []))
            areas = Areas(need - 1, 1000, 1000)
            self.assertEqual(self.call(areas, register=register), Refused(15, "work", need))
            self.areas_are(areas, 0)
            areas = Areas(need + 1, 1000, 1000)
            self.assertEqual(self.call(areas, register=register), Accepted(2, len(NARROWED)))
            words = records * meaning.words_per_row(records)
            self.areas_are(areas, need, [0] * words, NARROWED)

    def test_order_of_refusals(self):
        crowd, pairs = cases.sheet_of_pairs(129), cases.sheet_of_pairs(128)
        broken, whole = Register([5, 5], [(0, 0, 1)]), Register([0, 0], [(0, 0, 1)])
        beyond, step = question_bytes([A, B, PLAIN_JOIN]), question_bytes([A])
        inputs = dict(sheet=b"", question=b"", register=b"", work=8191, answer=1, file=29)
        mended = [
            (Refused(5, "sheet", 0), 0, dict(sheet=sheet_bytes(crowd))),
            (Refused(5, "question", 0), 0, dict(question=beyond)),
            (Refused(5, "register", 0), 0, dict(register=register_bytes(broken))),
            (Refused(15, "work", 8192), 0, dict(work=8194)),
            (Refused(14, "work", 2), 8192, dict(answer=3)),
            (Refused(11, "work", 1), 8192, dict(question=step)),
            (Refused(16, "work", 2), 8192, dict(register=register_bytes(whole))),
            (Refused(12, "work", 0), 8192, dict(sheet=sheet_bytes(pairs))),
            (Refused(14, "work", 30), 8192, dict(file=31)),
        ]
        for outcome, zeroed, change in mended:
            areas = Areas(inputs["work"], inputs["answer"], inputs["file"])
            self.assertEqual(self.call(areas, inputs["sheet"], inputs["question"],
                                       inputs["register"]), outcome)
            self.areas_are(areas, zeroed)
            inputs.update(change)
        areas = Areas(inputs["work"], inputs["answer"], inputs["file"])
        self.assertEqual(self.call(areas, inputs["sheet"], inputs["question"],
                                   inputs["register"]), Accepted(1, 30))
        # 128 pairs lead from kinds 0 and 1 to all 64 kinds.
        file = bytes.fromhex("4100020001 420011 01 0000000000000003 ffffffffffffffff 4300020000")
        self.areas_are(areas, 8192, [2, 0], file)

    def test_13_after_16(self):
        job = generate.size_edge(5)
        question, sheet = question_bytes(job.question), sheet_bytes(job.sheet)
        areas = Areas(8192, 100, 100)
        bad, good = register_bytes(Register([63], [])), register_bytes(Register([0], []))
        self.assertEqual(self.call(areas, sheet, question, bad), Refused(16, "work", 0))
        self.assertEqual(self.call(areas, sheet, question, good), Refused(13, "work", 9))
        self.areas_are(areas, 8192)

    def test_breaking_register(self):
        areas = Areas(8200, 6, 1000)
        self.assertEqual(self.call(areas, register=BREAKING), Refused(16, "work", 11))
        self.areas_are(areas, 8192)


class RandomCalls(CallTest):
    def test_whole_job_is_narrowing_and_a_narrowed_answer(self):
        rng, seen = random.Random(61), Counter()
        for _ in range(600):
            sheet, question, register = generate.random_job_files(rng)
            whole, made = Areas(8192, 9, 9000), Areas(8192, 9, 9000)
            outcome = whole_job(sheet, question, register, whole.work, whole.answer, whole.file)
            if isinstance(outcome, Accepted):
                self.assertEqual(narrow(sheet, question, made.work, made.file), outcome)
                narrowed = bytes(made.file[:outcome.size])
                answered = narrowed_answer(narrowed, register, made.work, made.answer)
                self.assertEqual(answered, Accepted())
                self.assertEqual((whole.file, whole.answer), (made.file, made.answer))
                self.assertEqual(len(files.read_narrowed(narrowed)), outcome.count)
                seen[None] += 1
            else:
                self.areas_are(whole, 8192 if outcome.number > 10 else 0)
                seen[outcome.number] += 1
        self.assertGreater(seen[None], 200)
        self.assertTrue({1, 2, 3, 5, 11, 16} <= set(seen), seen)

    def test_the_longest_narrowed_file_fits_the_program(self):
        # 24 steps, 23 joins through sets and a chain: no path takes more bytes.
        longest = 5 + 128 * (20 + 24 * 5 + 23 * 11 + 4)
        self.assertLess(longest, program.MOST_BYTES)
        rng = random.Random(62)
        for _ in range(100):
            job = generate.random_narrowing(rng)
            try:
                made = write_narrowed(narrowing.narrow(*job))
            except files.Refusal:
                continue
            self.assertLessEqual(len(made), longest)


if __name__ == "__main__":
    unittest.main()
