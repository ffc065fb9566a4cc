"""The program and the C library against the reference program, on generated cases.

    python3 -m tests.differential [--seed S] [--count N] [--program PATH] [--library PATH]

runs the cases of the specification, each refusal of each file in each call, and N cases drawn with the seed S. The program is run in a
folder of its own for each case, and has to print what reference/program.py prints. The library (an archive with the calls of
include/paths.h, or a shared object) has to leave result, numbers and every word and byte of every area as reference/calls.py does; all
areas are marked before each call, and the words and bytes past their ends too. Beside them are N / 16 narrowings whose bytes are asked
for beforehand, and N / 32 questions that single simplifications in a drawn order lead from: each question on the way has to be shortened
to the one at its end. `--program ""` or `--library ""` leaves that one out.

The first cases that differ are printed, with their files in hex and both results, and the exit status is 1.
"""
from __future__ import annotations

import argparse
import ctypes
import os
import subprocess
import sys
import tempfile
from array import array
from collections import Counter
from itertools import product
from pathlib import Path
from random import Random
from typing import Iterator, NamedTuple, Optional

from reference import calls, cases, files, generate, narrowing, program, shortening
from reference.files import Operator, Refusal, Register, Sheet, Step
from tests.theory_cases import telling_job
from tests.test_answers import SOURCES, marked, refused_cases
from tests.test_narrowing import dense_sheet, telling
from tests.test_files import READERS

ROOT = Path(__file__).resolve().parent.parent
PAST = 4  # words and bytes past an area's end that are watched too
SHOWN = 3  # cases that differ


# Calls of the library.

class Entry(NamedTuple):
    """A call's symbol, the call of the reference program, the names of its files and areas."""
    symbol: str
    call: object
    files: tuple
    areas: tuple


ENTRIES = {
    "check": Entry("paths_check", calls.check, ("sheet", "register"), ()),
    "narrow": Entry("paths_narrow", calls.narrow, ("sheet", "question"), ("work", "file")),
    "narrow_bytes": Entry("paths_narrow_bytes", calls.narrow_bytes, ("sheet", "question"), ("work",)),
    "shorten": Entry("paths_shorten", calls.shorten, ("question",), ("file",)),
    "answer": Entry("paths_answer", calls.plain_answer, ("question", "register"), ("work", "answer")),
    "answer_narrowed": Entry("paths_answer_narrowed", calls.narrowed_answer, ("narrowed", "register"), ("work", "answer")),
    "job": Entry("paths_job", calls.whole_job, ("sheet", "question", "register"), ("work", "answer", "file")),
}


class Call(NamedTuple):
    """The name of a call, its files, and how long its areas are; and the file that it writes, where another way leads to it."""
    name: str
    files: tuple
    areas: tuple
    written: bytes = b""


def fresh(name: str, length: int) -> array:
    """An area before a call, with what lies past it: no two of its words are equal, and none is 0."""
    return array("B", [165] * (length + PAST)) if name == "file" else array("Q", marked(length + PAST))


def told(outcome: calls.Outcome) -> tuple:
    """An outcome as the library tells it: 0, members or symbols, and bytes; or number, place and file."""
    if isinstance(outcome, calls.Refused):
        return outcome.number, outcome.place, 1 + SOURCES.index(outcome.file)
    return 0, outcome.count or 0, outcome.size or 0


def due(call: Call) -> tuple:
    """What the reference program tells, and the areas after it."""
    entry = ENTRIES[call.name]
    areas = [fresh(name, length) for name, length in zip(entry.areas, call.areas)]
    lent = [bytearray(area[:length]) if name == "file" else list(area[:length])
            for name, length, area in zip(entry.areas, call.areas, areas)]
    outcome = entry.call(*call.files, *lent)
    for length, area, after in zip(call.areas, areas, lent):
        area[:length] = array(area.typecode, after)
    if call.written:
        areas[-1][:len(call.written)] = array("B", call.written)
    return told(outcome), areas


class Library:
    """The calls in a shared object, which is linked from an archive first."""

    def __init__(self, path: Path, room: Path):
        if path.suffix == ".a":
            shared = room / "libpaths.so"
            subprocess.run(["gcc", "-shared", "-o", shared, "-Wl,--whole-archive", path, "-Wl,--no-whole-archive"], check=True)
            path = shared
        self.functions = {name: getattr(ctypes.CDLL(str(path)), entry.symbol) for name, entry in ENTRIES.items()}
        for function in self.functions.values():
            function.restype = ctypes.c_uint64

    def run(self, call: Call) -> tuple:
        entry = ENTRIES[call.name]
        areas = [fresh(name, length) for name, length in zip(entry.areas, call.areas)]
        handed: list = []
        for data in call.files:
            handed += [ctypes.c_char_p(data), ctypes.c_size_t(len(data))]
        for length, area in zip(call.areas, areas):
            handed += [ctypes.c_void_p(area.buffer_info()[0]), ctypes.c_size_t(length)]
        first, second = ctypes.c_uint64(2 ** 63), ctypes.c_uint64(2 ** 62)
        result = self.functions[call.name](*handed, ctypes.byref(first), ctypes.byref(second))
        return (result, first.value, second.value), areas


# Runs of the program.

FOLDER, LINK = "a folder", "a link to nothing"
NAMES = ("sheet", "question", "register")


class Run(NamedTuple):
    """The files of the folder: bytes, FOLDER, LINK, or None for one that is not there; and what is printed, where the specification says it."""
    files: tuple
    printed: Optional[str] = None


def laid_out(run: Run, room: Path) -> None:
    for name, data in zip(NAMES, run.files):
        if data == FOLDER:
            (room / name).mkdir()
        elif data == LINK:
            (room / name).symlink_to("nothing")
        elif data is not None:
            (room / name).write_bytes(data)


def printed(executable: Path, run: Run) -> tuple:
    """What the program and the reference program print, each with its exit status and what it says on standard error."""
    with tempfile.TemporaryDirectory() as name:
        laid_out(run, Path(name))
        done = subprocess.run([executable], cwd=name, capture_output=True, stdin=subprocess.DEVNULL)
        expected = program.run(name)
    assert run.printed in (None, expected), f"the reference program prints {expected!r}, and the specification says {run.printed!r}"
    return (done.stdout, done.stderr, done.returncode), (expected.encode(), b"", 0)


# The cases of the specification that a program has to run: 11, 12 and 13.

def bytes_of(sheet: Sheet, question: list, register: Register) -> tuple:
    return files.sheet_bytes(sheet), files.question_bytes(question), files.register_bytes(register)


CASE_11 = bytes_of(cases.SHEET, cases.CASE_11_QUESTION, cases.REGISTER)


def on_ring(records: int, symbols: int = 1) -> tuple:
    """One kind that one link leads to itself; a ring of records, and a question of so many symbols, all chains but the first."""
    links = sorted((n, 0, (n + 1) % records) for n in range(records))
    return bytes_of(Sheet(1, 1, [(0, 0, 0)]), [Step(0, 0)] + [Operator(files.CHAIN)] * (symbols - 1), Register([0] * records, links))


def on_pairs(count: int) -> tuple:
    return bytes_of(cases.sheet_of_pairs(count), [Step(0, 0)], Register([0, 1], [(0, 0, 1)]))


def on_size(tail: int) -> tuple:
    return bytes_of(*generate.size_edge(tail), Register([], []))


def specified_runs() -> Iterator:
    sheet, question, register = CASE_11
    yield Run(CASE_11, "members 2 pairs 5\n0 3\n0 4\n3 4\n5 3\n5 4\n")
    yield Run((sheet[:11] + sheet[5:11], question, register), "refused 4 in sheet at 11\n")
    yield Run(bytes_of(cases.SHEET, cases.CASE_11_QUESTION, cases.BREAKING_REGISTER), "refused 16 in work at 11\n")
    yield Run(on_ring(128, 2), "members 1 pairs 16384\n" + "".join(f"{s} {t}\n" for s, t in product(range(128), repeat=2)))
    yield Run(on_ring(129, 2), "refused 15 in work at 10836\n")
    yield Run(on_ring(2, 32), "members 1 pairs 4\n0 0\n0 1\n1 0\n1 1\n")
    yield Run(on_ring(2, 33), "refused 3 in question at 0\n")
    yield Run(on_pairs(128), "members 1 pairs 1\n0 1\n")
    yield Run(on_pairs(129), "refused 12 in work at 0\n")
    yield Run(on_size(4))
    yield Run(on_size(5), "refused 13 in work at 9\n")
    for gone in (b"", None, FOLDER, LINK):
        yield Run((gone, question, register), "refused 5 in sheet at 0\n")
        yield Run((sheet, gone, register), "refused 5 in question at 0\n")
        yield Run((sheet, question, gone), "refused 5 in register at 0\n")
    yield Run((sheet, question, register + bytes(65537 - len(register))), f"refused 5 in register at {len(register)}\n")


# Calls with areas of exact length, longer and short.

def read(name: str, data: bytes):
    try:
        return READERS[name](data)
    except Refusal:
        return None


def needs(name: str, handed: tuple) -> dict:
    """How long the areas have to be, where the files say so; else as for the first case."""
    found = dict(zip(ENTRIES[name].files, (read(*pair) for pair in zip(ENTRIES[name].files, handed))))
    register = found.get("register")
    answer = 0 if register is None else calls.answer_words(register)
    work = max(calls.NARROWING_WORK if "sheet" in found else 0, 28 * answer)
    return {"work": work, "answer": answer, "file": len(file_of(name, found) or cases.CASE_1_FILE)}


def file_of(name: str, found: dict) -> Optional[bytes]:
    """The file that a call writes, if it is not refused."""
    question = found.get("question")
    if name == "shorten":
        return None if question is None else files.question_bytes(shortening.shorten(question))
    members = members_of(found.get("sheet"), question)
    return None if members is None else files.narrowed_bytes(members)


def members_of(sheet: Optional[Sheet], question: Optional[list]) -> Optional[list]:
    try:
        return None if sheet is None or question is None else narrowing.narrow(sheet, question)
    except Refusal:
        return None


def lent(name: str, handed: tuple, **more: int) -> Call:
    """With areas as long as needed, and so much longer."""
    need = needs(name, handed)
    return Call(name, handed, tuple(max(need[area] + more.get(area, 0), 0) for area in ENTRIES[name].areas))


def loosely(rng: Random, name: str, handed: tuple) -> Call:
    """Often exact, sometimes longer, seldom short."""
    return lent(name, handed, **{area: rng.choice([0, 0, 0, 0, 1, 3, 17, -1]) for area in ENTRIES[name].areas})


# Each refusal of each file in each call; each area too short; the order of refusals.

def whole_files() -> dict:
    return {**dict(zip(NAMES, CASE_11)), "narrowed": files.narrowed_bytes(cases.CASES[3].members)}


def refused_calls(rng: Random) -> Iterator:
    whole, damaged = whole_files(), refused_cases()
    for name, entry in ENTRIES.items():
        for file in entry.files:
            for data in [b"", *(rng.choice(alike) for alike in damaged[file])]:
                yield loosely(rng, name, tuple(data if each == file else whole[each] for each in entry.files))


def short_calls() -> Iterator:
    whole = whole_files()
    for name, entry in ENTRIES.items():
        handed = tuple(whole[file] for file in entry.files)
        for lengths in product((-10 ** 6, -1, 0, 1), repeat=len(entry.areas)):
            yield lent(name, handed, **dict(zip(entry.areas, lengths)))


def state_jobs(rng: Random) -> Iterator:
    """Jobs that are refused by 11, 12, 13, 16, alone and together."""
    for maker in (generate.link_beyond, generate.crowded, generate.overlong):
        for _ in range(3):
            made = maker(rng)
            for register in (generate.obeying_register(rng, made.sheet), generate.breaking_register(rng, made.sheet)):
                yield bytes_of(*made, register)
    job = generate.random_job(rng)
    yield bytes_of(job.sheet, job.question, generate.breaking_register(rng, job.sheet))


def foretold(sheet: bytes, question: bytes, work: int) -> Iterator:
    """The bytes needed; then narrowing lent exactly as many, and one fewer. The work area is the same, so much longer than needed."""
    yield lent("narrow_bytes", (sheet, question), work=work)
    yield lent("narrow", (sheet, question), work=work)
    yield lent("narrow", (sheet, question), work=work, file=-1)


def shortened(rng: Random, question: list) -> Iterator:
    """Single simplifications in a drawn order: each question on the way is shortened to the last one; this one also in an area one byte short."""
    way = [shortening.tree(question)]
    while fitting := list(shortening.simplifications(way[-1])):
        way.append(rng.choice(fitting))
    questions = [files.question_bytes(shortening.postfix(path)) for path in way]
    for each in questions:
        yield lent("shorten", (each,))._replace(written=questions[-1])
    yield lent("shorten", (questions[-1],), file=-1)


def state_calls(rng: Random) -> Iterator:
    for sheet, question, register in state_jobs(rng):
        yield lent("check", (sheet, register))
        for lengths in product((-1, 0), repeat=2):
            yield lent("narrow", (sheet, question), work=lengths[0], file=lengths[1])
        yield from foretold(sheet, question, -1)
        yield from foretold(sheet, question, 0)
        for lengths in product((-1, 0), repeat=3):
            yield lent("job", (sheet, question, register), work=lengths[0], answer=lengths[1], file=lengths[2])


def refused_runs(rng: Random) -> Iterator:
    damaged = refused_cases()
    for place, file in enumerate(NAMES):
        for data in (rng.choice(alike) for alike in damaged[file]):
            yield Run(tuple(data if n == place else whole for n, whole in enumerate(CASE_11)))
    yield from map(Run, state_jobs(rng))


# Drawn cases.

def job_files(rng: Random) -> tuple:
    """Sheet, question and register: some that narrowing refuses, some with wide registers, some with pairs, some with damage."""
    style = rng.randrange(12)
    if style < 2:
        made = generate.random_narrowing(rng)
        return bytes_of(*made, generate.random_register(rng, made.sheet))
    if style < 4:
        sheet = dense_sheet(rng)
        return bytes_of(sheet, telling(rng, sheet, rng.choice([6, 12, 32])), generate.obeying_register(rng, sheet, 40, 200))
    if style == 4:
        job = generate.random_job(rng)
        return bytes_of(job.sheet, job.question, generate.wide_register(rng, job.sheet))
    if style < 7:
        return bytes_of(*telling_job(rng))
    return generate.random_job_files(rng)


def drawn_files(rng: Random, name: str) -> tuple:
    if rng.random() < 0.15:
        return tuple(generate.random_file(rng, file) for file in ENTRIES[name].files)
    made = dict(zip(NAMES, job_files(rng)))
    if "narrowed" in ENTRIES[name].files:
        sheet, question = read("sheet", made["sheet"]), read("question", made["question"])
        members = members_of(sheet, question) if rng.random() < 0.5 else None
        made["narrowed"] = generate.random_file(rng, "narrowed") if members is None else files.narrowed_bytes(members)
    return tuple(made[file] for file in ENTRIES[name].files)


def drawn_call(rng: Random) -> Call:
    name = rng.choice(["check", "narrow", "narrow", "answer", "answer_narrowed", "job", "job", "job"])
    return loosely(rng, name, drawn_files(rng, name))


def drawn_foretold(rng: Random) -> Iterator:
    return foretold(*drawn_files(rng, "narrow_bytes"), rng.choice([0, 0, 0, 0, 1, 3, 17, -1]))


def drawn_shortened(rng: Random) -> Iterator:
    yield loosely(rng, "shorten", drawn_files(rng, "shorten"))
    yield from shortened(rng, generate.piled_question(rng, 64, rng.choice([6, 12, 32])))


def drawn_run(rng: Random) -> Run:
    made: list = list(job_files(rng))
    if rng.random() < 0.1:
        place = rng.randrange(3)
        made[place] = rng.choice([None, FOLDER, LINK, b"", made[place] + bytes(65536), bytes(70000), made[place][:1] * 65537])
    return Run(tuple(made))


# All of it.

def runs(seed: int, count: int) -> Iterator:
    rng = Random(f"runs {seed}")
    yield from specified_runs()
    yield from refused_runs(rng)
    yield from (drawn_run(rng) for _ in range(count))


def library_calls(seed: int, count: int) -> Iterator:
    rng = Random(f"calls {seed}")
    yield from refused_calls(rng)
    yield from short_calls()
    yield from state_calls(rng)
    yield from (drawn_call(rng) for _ in range(count))
    for _ in range(count // 12):
        yield from drawn_foretold(rng)
    for _ in range(count // 24):
        yield from drawn_shortened(rng)


FILE_NUMBERS = {"sheet": (1, 2, 3, 4, 5), "question": (1, 2, 3, 5, 6), "narrowed": (1, 2, 3, 4, 5, 6), "register": (1, 2, 3, 4, 5)}
WORK_NUMBERS = {"check": (16,), "narrow": (11, 12, 13, 14, 15), "narrow_bytes": (11, 12, 13, 15), "shorten": (14,), "answer": (14, 15),
                "answer_narrowed": (14, 15), "job": (11, 12, 13, 14, 15, 16)}
RUN_NUMBERS = (11, 12, 13, 15, 16)  # the program lends enough for every file, and for every answer that has work words


def all_refusals() -> set:
    """Each refusal that a call can give: the call, the file, the number."""
    of_files = {(name, file, number) for name, entry in ENTRIES.items() for file in entry.files for number in FILE_NUMBERS[file]}
    return of_files | {(name, "work", number) for name, numbers in WORK_NUMBERS.items() for number in numbers}


def all_printed() -> set:
    return {("run", file, number) for file in NAMES for number in FILE_NUMBERS[file]} | {("run", "work", number) for number in RUN_NUMBERS}


def shown(files_of_case: dict) -> str:
    return "\n".join(f"  {name}: {data.hex() if isinstance(data, bytes) else data}" for name, data in files_of_case.items())


class Comparison:
    """The cases that differed, and how often each refusal was met."""

    def __init__(self):
        self.cases, self.met, self.different = 0, Counter(), []

    def add(self, kind: tuple, same: bool, account: str) -> None:
        self.cases += 1
        self.met[kind] += 1
        if not same:
            self.different.append(account)
            if len(self.different) == SHOWN:
                raise StopIteration

    def add_run(self, executable: Path, run: Run) -> None:
        found, expected = printed(executable, run)
        words = expected[0].split()
        kind = ("run", words[3].decode(), int(words[1])) if words[0] == b"refused" else ("run", "accepted", 0)
        self.add(kind, found == expected, f"the program, with\n{shown(dict(zip(NAMES, run.files)))}\n  prints {found}\n  due is {expected}")

    def add_call(self, library: Library, call: Call) -> None:
        found, expected = library.run(call), due(call)
        entry = ENTRIES[call.name]
        number, _, source = expected[0]
        lengths = ", ".join(f"{name} {length}" for name, length in zip(entry.areas, call.areas))
        parts = [f"  {name}: {area_difference(a, b)}" for name, a, b in zip(entry.areas, found[1], expected[1]) if a != b]
        self.add((call.name, SOURCES[source - 1] if number else "accepted", number), found == expected, "\n".join(
            [f"{entry.symbol}, areas lent: {lengths or 'none'}, with", shown(dict(zip(entry.files, call.files))),
             f"  tells {found[0]}", f"  due is {expected[0]}", *parts]))


def area_difference(found: array, expected: array) -> str:
    place = next(n for n, pair in enumerate(zip(found, expected)) if pair[0] != pair[1])
    return f"at {place} there is {found[place]}, due is {expected[place]}"


def compare(options: argparse.Namespace, room: Path) -> Comparison:
    made = Comparison()
    try:
        if options.program:
            for run in runs(options.seed, options.count // 4):
                made.add_run(options.program.resolve(), run)
        if options.library:
            library = Library(options.library.resolve(), room)
            for call in library_calls(options.seed, options.count - options.count // 4):
                made.add_call(library, call)
    except StopIteration:
        pass
    return made


def path(text: str) -> Optional[Path]:
    if text and not os.path.isfile(text):
        raise argparse.ArgumentTypeError(f"{text} is not there: `make run` builds the program, `make lib` the library")
    return Path(text) if text else None


def main() -> None:
    parser = argparse.ArgumentParser(description="Compares the program and the C library with the reference program.")
    parser.add_argument("--seed", type=int, default=1)
    parser.add_argument("--count", type=int, default=2000)
    parser.add_argument("--program", type=path, default=str(ROOT / "build" / "paths_main"))
    parser.add_argument("--library", type=path, default=str(ROOT / "build" / "libpaths.a"))
    options = parser.parse_args()
    with tempfile.TemporaryDirectory() as name:
        made = compare(options, Path(name))
    for account in made.different:
        print(account)
    expected = (all_printed() if options.program else set()) | (all_refusals() if options.library else set())
    missing = sorted(expected - set(made.met)) if not made.different else []
    for name, file, number in missing:
        print(f"no case has met refusal {number} in {file} of {name}")
    print(f"{made.cases} cases with seed {options.seed}, {len(made.different)} different")
    sys.exit(1 if made.different or missing else 0)


if __name__ == "__main__":
    main()
