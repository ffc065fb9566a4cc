"""The thirteen cases of the specification."""
import unittest

from reference import cases, generate, meaning, naive, narrowing
from reference.calls import Accepted, Refused, narrow, narrowed_answer, plain_answer, whole_job
from reference.files import (
    Step, question_bytes, read_narrowed, read_question, read_register, read_sheet,
    register_bytes, sheet_bytes,
)
from reference.tests.support import CHAINED, refusal_of

SHEET = sheet_bytes(cases.SHEET)
REGISTER = register_bytes(cases.REGISTER)
BREAKING = register_bytes(cases.BREAKING_REGISTER)
QUESTION = question_bytes(cases.CASE_11_QUESTION)


def narrowed_file(question: list):
    file = bytearray(1000)
    outcome = narrow(SHEET, question_bytes(question), [0] * 8192, file)
    return outcome, bytes(file[:outcome.size])


def pairs_of(words: list) -> set:
    """Pairs of an answer area for six records, one word each."""
    return {(s, t) for s in range(6) for t in range(64) if words[s] & 2 ** t}


class NarrowingCases(unittest.TestCase):
    def test_members_of_cases_1_to_10(self):
        self.assertEqual([case.number for case in cases.CASES], list(range(1, 11)))
        for case in cases.CASES:
            with self.subTest(case=case.number):
                self.assertEqual(narrowing.narrow(cases.SHEET, case.question), case.members)
                self.assertEqual(naive.narrow(cases.SHEET, case.question), case.members)

    def test_files_of_cases_1_to_10(self):
        for case in cases.CASES:
            with self.subTest(case=case.number):
                outcome, made = narrowed_file(case.question)
                self.assertEqual(outcome, Accepted(len(case.members), len(made)))
                self.assertEqual(read_narrowed(made), case.members)

    def test_case_1_file(self):
        outcome, made = narrowed_file(cases.CASES[0].question)
        self.assertEqual(outcome, Accepted(1, 46))
        self.assertEqual(made, cases.CASE_1_FILE)

    def test_cases_8_and_9_have_an_empty_file(self):
        for number in (8, 9):
            _, made = narrowed_file(cases.CASES[number - 1].question)
            self.assertEqual(made.hex(" "), "41 00 02 00 00")


class AnswerCases(unittest.TestCase):
    def answers(self, register: bytes):
        """Pairs of the plain answer and of the narrowed answer."""
        _, made = narrowed_file(cases.CASE_11_QUESTION)
        plain, narrowed = [0] * 6, [0] * 6
        self.assertEqual(plain_answer(QUESTION, register, [0] * 168, plain), Accepted())
        self.assertEqual(narrowed_answer(made, register, [0] * 168, narrowed), Accepted())
        return pairs_of(plain), pairs_of(narrowed)

    def test_case_11_answers(self):
        self.assertEqual(self.answers(REGISTER), (cases.CASE_11_PAIRS, cases.CASE_11_PAIRS))

    def test_case_11_whole_job(self):
        answer, file = [0] * 6, bytearray(100)
        outcome = whole_job(SHEET, QUESTION, REGISTER, [0] * 8192, answer, file)
        self.assertEqual(outcome, Accepted(2, 5 + 25 + 20 + 5 + 5 + 11))
        self.assertEqual(pairs_of(answer), cases.CASE_11_PAIRS)
        self.assertEqual(read_narrowed(bytes(file[:outcome.size])), cases.CASES[3].members)

    def test_case_12_answers(self):
        self.assertEqual(len(cases.CASE_12_PLAIN), 8)
        self.assertEqual(self.answers(BREAKING), (cases.CASE_12_PLAIN, cases.CASE_11_PAIRS))

    def test_case_12_whole_job(self):
        outcome = whole_job(SHEET, QUESTION, BREAKING, [0] * 8192, [0] * 6, bytearray(100))
        self.assertEqual(outcome, Refused(16, "work", cases.CASE_12_PLACE))

    def test_naive_evaluation_agrees(self):
        for register, plain in ((cases.REGISTER, cases.CASE_11_PAIRS),
                                (cases.BREAKING_REGISTER, cases.CASE_12_PLAIN)):
            self.assertEqual(naive.plain_pairs(cases.CASE_11_QUESTION, register), plain)
            self.assertEqual(naive.narrowed_pairs(cases.CASES[3].members, register),
                             cases.CASE_11_PAIRS)
            self.assertEqual(meaning.plain_pairs(cases.CASE_11_QUESTION, register), plain)


class EdgeCases(unittest.TestCase):
    """Case 13."""

    def test_symbols_of_a_question(self):
        edge = cases.QUESTION_SYMBOLS
        for size, refusal in ((edge.passes, None), (edge.fails, (edge.number, 0))):
            question = [Step(0, 0)] + [CHAINED] * (size - 1)
            self.assertEqual(refusal_of(read_question, question_bytes(question)), refusal)

    def test_permitted_pairs_of_one_link(self):
        edge = cases.PERMITTED_PAIRS
        for count, refusal in ((edge.passes, None), (edge.fails, (edge.number, 0))):
            sheet = read_sheet(sheet_bytes(cases.sheet_of_pairs(count)))
            self.assertEqual(refusal_of(narrowing.narrow, sheet, [Step(0, 0)]), refusal)
            self.assertEqual(refusal_of(narrowing.narrow, sheet, [Step(1, 0)]), refusal)

    def test_symbols_of_a_path(self):
        edge = cases.PATH_SYMBOLS
        members = narrowing.narrow(*generate.size_edge(edge.passes - 44))
        self.assertEqual(max(len(member.symbols) for member in members), edge.passes)
        sheet, question = generate.size_edge(edge.fails - 44)
        self.assertEqual(refusal_of(narrowing.narrow, sheet, question),
                         (edge.number, len(question) - 1))

    def test_an_empty_file(self):
        for reader in (read_sheet, read_question, read_register, read_narrowed):
            self.assertEqual(refusal_of(reader, b""), cases.EMPTY_FILE)


class Traps(unittest.TestCase):
    def test_a_chain_does_not_include_zero_steps(self):
        self.assertEqual(meaning.plain_pairs([Step(0, 2), CHAINED], cases.REGISTER), set())
        found = meaning.plain_pairs(cases.CASE_11_QUESTION, cases.REGISTER)
        self.assertEqual({(s, t) for s, t in found if s == t}, set())

    def test_a_branch_does_not_end_in_its_far_kind(self):
        (member,) = narrowing.narrow(cases.SHEET, cases.CASES[6].question)
        self.assertEqual(member.to_set, cases.kinds(cases.METER))


if __name__ == "__main__":
    unittest.main()
