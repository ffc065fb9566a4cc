"""The program: what it prints for files in a directory."""
import os
import subprocess
import sys
import tempfile
import unittest

from reference import cases, program
from reference.files import Register, Sheet, Step, question_bytes, register_bytes, sheet_bytes

ROOT = os.path.dirname(os.path.dirname(os.path.dirname(os.path.abspath(__file__))))


class ProgramTest(unittest.TestCase):
    def setUp(self):
        folder = tempfile.TemporaryDirectory()
        self.addCleanup(folder.cleanup)
        self.folder = folder.name
        self.put("sheet", sheet_bytes(cases.SHEET))
        self.put("question", question_bytes(cases.CASE_11_QUESTION))
        self.put("register", register_bytes(cases.REGISTER))

    def put(self, name: str, data: bytes):
        with open(os.path.join(self.folder, name), "wb") as file:
            file.write(data)

    def prints(self, text: str):
        self.assertEqual(program.run(self.folder), text)


class Output(ProgramTest):
    def test_case_11(self):
        self.prints(cases.CASE_11_OUTPUT)

    def test_case_11_as_a_process(self):
        environment = dict(os.environ, PYTHONPATH=ROOT)
        for arguments, folder in (([self.folder], ROOT), ([], self.folder)):
            done = subprocess.run([sys.executable, "-m", "reference.program", *arguments],
                                  cwd=folder, env=environment, capture_output=True, check=True)
            self.assertEqual(done.stdout, cases.CASE_11_OUTPUT.encode())
            self.assertEqual(done.stderr, b"")

    def test_the_example_and_the_files_of_the_proved_program(self):
        for folder in ("example", os.path.join("crates", "paths_main", "data")):
            self.assertEqual(program.run(os.path.join(ROOT, folder)), cases.CASE_11_OUTPUT)
            for name in ("sheet", "question", "register"):
                self.assertEqual(program.content(os.path.join(ROOT, folder, name)),
                                 program.content(os.path.join(self.folder, name)))
        self.assertEqual(program.content(os.path.join(ROOT, "crates", "paths_main", "stdout")), cases.CASE_11_OUTPUT.encode())

    def test_case_12(self):
        self.put("register", register_bytes(cases.BREAKING_REGISTER))
        self.prints("refused 16 in work at 11\n")

    def test_nothing_found(self):
        self.put("question", question_bytes(cases.CASES[7].question))
        self.prints("members 0 pairs 0\n")

    def test_members_without_pairs(self):
        self.put("register", register_bytes(Register([], [])))
        self.prints("members 2 pairs 0\n")

    def test_example_of_a_refusal(self):
        triple = sheet_bytes(cases.SHEET)[5:11]
        self.put("sheet", sheet_bytes(cases.SHEET)[:11] + triple)
        self.prints("refused 4 in sheet at 11\n")

    def test_refusals_of_each_file(self):
        self.put("register", b"\x31\x00")
        self.prints("refused 1 in register at 0\n")
        self.put("question", question_bytes([Step(0, 5)]) + b"\x00")
        self.prints("refused 5 in question at 9\n")

    def test_refusals_of_the_work(self):
        self.put("question", question_bytes([Step(0, 0), Step(0, 5), *cases.CASES[0].question[2:]]))
        self.prints("refused 11 in work at 1\n")
        self.put("sheet", sheet_bytes(cases.sheet_of_pairs(129)))
        self.put("register", register_bytes(Register([0], [])))
        self.put("question", question_bytes([Step(0, 0)]))
        self.prints("refused 12 in work at 0\n")

    def test_records(self):
        edge = cases.PROGRAM_RECORDS
        self.put("sheet", sheet_bytes(Sheet(1, 1, [(0, 0, 0)])))
        self.put("question", question_bytes([Step(0, 0)]))
        links = [(0, 0, 127), (127, 0, 0), (127, 0, 63), (127, 0, 64)]
        self.put("register", register_bytes(Register([0] * edge.passes, links)))
        self.prints("members 1 pairs 4\n0 127\n127 0\n127 63\n127 64\n")
        self.put("register", register_bytes(Register([0] * edge.fails, links)))
        self.prints(f"refused {edge.number} in work at 10836\n")


class Input(ProgramTest):
    def test_a_file_that_does_not_open_is_empty(self):
        for name in ("register", "question", "sheet"):
            os.remove(os.path.join(self.folder, name))
            self.prints(f"refused 5 in {name} at 0\n")

    def test_a_file_that_cannot_be_read_is_empty(self):
        os.remove(os.path.join(self.folder, "register"))
        os.mkdir(os.path.join(self.folder, "register"))
        self.prints("refused 5 in register at 0\n")

    def test_the_first_65536_bytes_count(self):
        self.put("sheet", bytes(65536) + b"\x01")
        self.assertEqual(program.content(os.path.join(self.folder, "sheet")), bytes(65536))
        self.put("question", question_bytes(cases.CASE_11_QUESTION) + bytes(70000))
        self.put("sheet", sheet_bytes(cases.SHEET))
        self.prints("refused 5 in question at 13\n")


if __name__ == "__main__":
    unittest.main()
