"""The examples of docs/SPECIFICATION.md, through the reference program and through the library.

    python3 -m tests.specification [--library PATH] [--program PATH] [DOCUMENT]

takes every item of the blocks marked `example`. A file has to be read, or refused with the number and place beside it; pairs, words,
narrowed and shortened files, and what calls tell, have to be those of reference/calls.py and of the library, and both have to leave
every word and byte of every area alike. What is printed has to be what reference/program.py and the program print. The program in C is
compiled with the header and run. Bytes in the running text have to be whole fields or kind sets, and the tables of tags and of symbols
those of reference/files.py; the files that the table of places names have to be there. `--library ""` or `--program ""` leaves that one out.

Whatever differs is printed with its line, and the exit status is 1. So it is if a block or an item has a form that is not known, if
nothing is said of a file, or if a symbol, a call, or a refusal of a file or of a call has no example.
"""
from __future__ import annotations

import argparse
import re
import subprocess
import sys
import tempfile
from itertools import dropwhile, islice, takewhile
from pathlib import Path
from typing import Callable, Iterator, NamedTuple, Optional

from reference import calls, files, program
from reference.files import TAGS, Cursor, JoinThrough, Refusal, Step
from tests.test_answers import SOURCES
from tests.differential import (
    ENTRIES, FILE_NUMBERS, NAMES, ROOT, WORK_NUMBERS, Call, Library, Run, due, laid_out, path, printed,
)
from tests.test_files import READERS

CALLS = {entry.symbol: name for name, entry in ENTRIES.items()}
ANSWERS = {"question": "answer", "narrowed": "answer_narrowed"}
SYMBOLS = {"forward", "reverse", "through", *range(files.JOIN, files.CHAIN + 1)}
STEP = files.question_bytes([Step(0, 0)])  # asked of a register that is only to be read
MARKS = ("example", "c")  # of blocks


class Fault(Exception):
    """A line of the document, and what is wrong with it."""

    def __init__(self, line: int, what: str):
        super().__init__(line, what)
        self.line, self.what = line, what


def matched(pattern: str, line: int, text: str) -> tuple:
    found = re.fullmatch(pattern, text)
    if not found:
        raise Fault(line, f"a form that is not known: {text}")
    return found.groups()


# The document: its blocks, and the items of those marked `example`.

class Block(NamedTuple):
    """The line of its fence, the word there, and the lines up to the next fence."""
    line: int
    mark: str
    lines: list


class Item(NamedTuple):
    """Its line, what this says, and the lines below it, each with its number."""
    line: int
    said: str
    body: list


def blocks(text: list) -> Iterator:
    fences = [number for number, line in enumerate(text, 1) if line.startswith("```")]
    if len(fences) % 2:
        raise Fault(fences[-1], "a block that does not end")
    for first, last in zip(fences[::2], fences[1::2]):
        mark = text[first - 1][3:]
        if mark not in MARKS:
            raise Fault(first, f"a block that nobody checks: its mark is none of {', '.join(MARKS)}")
        yield Block(first, mark, text[first:last - 1])


def items(block: Block) -> list:
    """An empty line ends an item; a line with a call is an item of its own."""
    made: list = []
    open_item = False
    for number, line in enumerate(block.lines, block.line + 1):
        line = line.partition("#")[0].strip()
        if line and open_item and not line.startswith("paths_"):
            made[-1].body.append((number, line))
        elif line:
            made.append(Item(number, line, []))
        open_item = bool(line)
    return made


def data(line: int, text: str) -> bytes:
    """Bytes of two digits each; none of `(empty)`."""
    if text != "(empty)":
        matched(r"[0-9a-f]{2}(?: +[0-9a-f]{2})*", line, text)
    return b"" if text == "(empty)" else bytes.fromhex(text)


def file_named(item: Item) -> Optional[tuple]:
    """Kind and name of the file that an item gives; a `file` may be used as one of any kind, and is not judged alone."""
    found = re.fullmatch(r"(sheet|question|register|narrowed|shortened|file) ([a-z0-9-]+)( of .*)?", item.said)
    return found and ("question" if found[1] == "shortened" else found[1], found[2])


# What is held against the programs.

class Check(NamedTuple):
    """What the document says of a call, and how the same is found in what the call tells and leaves."""
    line: int
    said: str
    call: Call
    expected: object
    found: Callable


class Examples:
    """The files that the document names, and what is to be held against the programs."""

    def __init__(self, row: list):
        self.named: dict = {}
        self.checks: list = []
        self.runs: list = []
        self.outputs: list = []
        self.used: set = set()
        self.symbols: set = set()
        for item in filter(file_named, row):
            if file_named(item) in self.named:
                raise Fault(item.line, f"a name that stands already: {item.said}")
            self.named[file_named(item)] = item.line, b"".join(data(*line) for line in item.body)
        for item in row:
            self.take(item)
        for key in self.named.keys() - self.used:
            raise Fault(self.named[key][0], f"nothing is said of the {' '.join(key)}")

    def file(self, line: int, kind: str, name: str) -> bytes:
        for key in ((kind, name), ("file", name)):
            if key in self.named:
                self.used.add(key)
                return self.named[key][1]
        raise Fault(line, f"no {kind} has the name {name}")

    def check(self, line: int, said: str, call: Call, expected: object, found: Callable) -> None:
        self.checks.append(Check(line, said, call, expected, found))

    def take(self, item: Item) -> None:
        line, said, body = item
        text = "".join(each + "\n" for _, each in body)
        if said.startswith("paths_"):
            self.take_call(line, said)
        elif not body:
            raise Fault(line, f"nothing stands below it: {said}")
        elif said.startswith("refused "):
            (kinds,) = matched(r"refused (sheets|questions|registers|narrowed)", line, said)
            for each in body:
                self.take_refused(*each, kinds.removesuffix("s"))
        elif said.startswith("printed for "):
            names = matched(r"printed for sheet (\S+), question (\S+), register (\S+)", line, said)
            handed = tuple(self.file(line, *each) for each in zip(NAMES, names))
            self.runs.append((line, said, Run(handed), text))
        elif said == "output of the program in C":
            self.outputs.append((line, text))
        elif said == "folder example":
            for number, each in body:
                self.take_lying(number, *matched(r"(\w+) (\S+)", number, each))
        elif file_named(item):
            self.take_file(line, said, *file_named(item))
        else:
            self.take_answer(item)

    def take_file(self, line: int, said: str, kind: str, name: str) -> None:
        made = self.named[kind, name][1]
        if kind != "file":
            self.check(line, said, reading(kind, made), None, refusal_of(kind))
        if said.startswith("shortened"):
            self.used.add((kind, name))
            (question,) = matched(r"shortened \S+ of question (\S+)", line, said)
            self.check(line, said, Call("shorten", (self.file(line, "question", question),), (len(made),)),
                       ((0, int.from_bytes(made[3:4], "big"), len(made)), made), told_and_file)
        elif " of " in said:
            self.used.add((kind, name))
            question, sheet = matched(r"narrowed \S+ of question (\S+) by sheet (\S+)", line, said)
            handed = self.file(line, "sheet", sheet), self.file(line, "question", question)
            telling = 0, int.from_bytes(made[3:5], "big"), len(made)
            self.check(line, said, Call("narrow", handed, (calls.NARROWING_WORK, len(made))), (telling, made), told_and_file)
            self.check(line, said, Call("narrow_bytes", handed, (calls.NARROWING_WORK,)), telling, told)

    def take_lying(self, line: int, kind: str, name: str) -> None:
        if (ROOT / "example" / kind).read_bytes() != self.file(line, kind, name):
            raise Fault(line, f"example/{kind} has other bytes than the {kind} {name}")

    def take_answer(self, item: Item) -> None:
        line, said, body = item
        what, kind, name, register = matched(r"(pairs|words) of (question|narrowed) (\S+) on register (\S+)", line, said)
        handed = self.file(line, kind, name), self.file(line, "register", register)
        read, records = (read_whole(line, *each) for each in zip((kind, "register"), handed))
        need = calls.answer_words(records)
        say, find = {"pairs": (pairs_said, program.pairs), "words": (words_said, words_found)}[what]
        self.check(line, said, Call(ANSWERS[kind], handed, (28 * need, need)), ((0, 0, 0), say(body)),
                   lambda telling, areas: (telling, find(areas[1][:need], len(records.kinds))))
        row = read if kind == "question" else [symbol for member in read for symbol in member.symbols]
        self.symbols |= {(kind, symbol_name(symbol)) for symbol in row}

    def take_call(self, line: int, said: str) -> None:
        symbol, arguments, outcome = matched(r"(paths_\w+) (.*): (.*)", line, said)
        given = [matched(r"(\w+) ([a-z0-9-]+)", line, each) for each in arguments.split(", ")]
        entry = ENTRIES.get(CALLS.get(symbol))
        if entry is None or tuple(name for name, _ in given) != entry.files + entry.areas:
            raise Fault(line, f"not a call with its files and areas: {said}")
        handed = tuple(self.file(line, *each) for each in given[:len(entry.files)])
        areas = tuple(int(*matched(r"(\d+)", line, length)) for _, length in given[len(entry.files):])
        self.check(line, said, Call(CALLS[symbol], handed, areas), outcome_said(line, outcome), told)

    def take_refused(self, line: int, said: str, kind: str) -> None:
        text, number, place = matched(r"(.*?) *: (\d) at (\d+)", line, said)
        self.check(line, f"{kind} {said}", reading(kind, data(line, text)), (int(number), int(place), source(kind)), refusal_of(kind))

    def covered(self) -> set:
        """What has an example: symbols with pairs, calls that are accepted, refusals of files and of calls."""
        made = {("symbol", *each) for each in self.symbols}
        for check in self.checks:
            (number, _, about), _ = due(check.call)
            if number == 0:
                made.add(("call", check.call.name))
            elif check.expected is not None:
                made.add(("refusal", SOURCES[about - 1] if number < 11 else check.call.name, number))
        return made


def wanted() -> set:
    """What must have an example."""
    numbers = {**FILE_NUMBERS, **WORK_NUMBERS}
    return ({("refusal", of, number) for of, row in numbers.items() for number in row} | {("call", name) for name in ENTRIES}
            | {("symbol", "question", name) for name in SYMBOLS - {"through"}} | {("symbol", "narrowed", "through")})


def read_whole(line: int, kind: str, made: bytes):
    try:
        return READERS[kind](made)
    except Refusal as refusal:
        raise Fault(line, f"the {kind} is refused: {refusal.number} at {refusal.place}") from None


def symbol_name(symbol: files.Symbol) -> object:
    if isinstance(symbol, Step):
        return "reverse" if symbol.direction else "forward"
    return "through" if isinstance(symbol, JoinThrough) else symbol.code


# What a call tells and leaves, and what the document says of it.

def source(kind: str) -> int:
    return 1 + SOURCES.index(kind)


def reading(kind: str, made: bytes) -> Call:
    """A call that reads this file, and goes no further."""
    return {"sheet": Call("check", (made, b""), ()), "question": Call("answer", (made, b""), (0, 0)),
            "narrowed": Call("answer_narrowed", (made, b""), (0, 0)), "register": Call("answer", (STEP, made), (0, 0))}[kind]


def refusal_of(kind: str) -> Callable:
    """The refusal that is about this file, if there is one."""
    return lambda telling, areas: telling if telling[0] and telling[2] == source(kind) else None


def told(telling: tuple, areas: list) -> tuple:
    return telling


def told_and_file(telling: tuple, areas: list) -> tuple:
    return telling, bytes(areas[-1][:telling[2]])


def outcome_said(line: int, text: str) -> tuple:
    if text.startswith("accepted"):
        return (0, *map(int, matched(r"accepted (\d+) (\d+)", line, text)))
    number, kind, place = matched(r"refused (\d+) in (sheet|question|narrowed|register|work) at (\d+)", line, text)
    return int(number), int(place), source(kind)


def pairs_said(body: list) -> list:
    return [tuple(map(int, matched(r"(\d+) (\d+)", line, each)))
            for line, text in body if text != "none" for each in text.split(", ")]


def words_said(body: list) -> list:
    return [(int(index), int(word, 16)) for index, word in (matched(r"(\d+) ([0-9a-f]{16})", *line) for line in body)]


def words_found(words: list, records: int) -> list:
    return [(index, word) for index, word in enumerate(words) if word]


# The running text: bytes in it, and the tables of tags and of symbols.

def whole_fields(made: bytes) -> bool:
    while made:
        size = 3 + (TAGS[made[0]].length if made[0] in TAGS else 0)
        if made[0] not in TAGS or int.from_bytes(made[1:3], "big") != size - 3 or len(made) < size:
            return False
        made = made[size:]
    return True


def text_faults(text: list) -> Iterator:
    for number, line in enumerate(text, 1):
        for found in re.findall(r"`([0-9a-f]{2}(?: [0-9a-f]{2})+)`", line):
            made = bytes.fromhex(found)
            if len(made) != 8 and not whole_fields(made):
                yield Fault(number, f"neither whole fields nor a kind set: {found}")


def table(text: list, *heads: str) -> list:
    """The rows of the table with these columns, each with its line."""
    rows = [(number, tuple(cell.strip(" `") for cell in line.strip("|").split("|"))) for number, line in enumerate(text, 1)]
    behind = dropwhile(lambda row: row[1] != heads, rows)
    return list(takewhile(lambda row: len(row[1]) == len(heads), islice(behind, 2, None)))


def tag_faults(text: list) -> Iterator:
    rows = table(text, "tag", "length", "body", "stands in")
    for number, (tag, length, _, stands) in rows:
        layout = TAGS.get(int(tag, 16))
        if layout is None or (str(layout.length), ", ".join(layout.files)) != (length, stands.replace("narrowed question", "narrowed")):
            yield Fault(number, f"for the tag {tag} the reference program has {layout}")
    if sorted(int(cells[0], 16) for _, cells in rows) != sorted(TAGS):
        yield Fault(1, "the table of tags has not each tag once")


def symbol_in(line: int, field: str) -> files.Symbol:
    try:
        return Cursor(data(line, field), "narrowed").symbol(2)
    except Refusal:
        raise Fault(line, f"not the field of a symbol: {field}") from None


def symbol_faults(text: list) -> Iterator:
    rows = table(text, "symbol", "field", "code", "takes")
    symbols = [symbol_in(number, field) for number, (_, field, _, _) in rows]
    for (number, (_, field, *said)), symbol in zip(rows, symbols):
        if [str(files.code(symbol)), str(files.operands(symbol))] != said:
            yield Fault(number, f"for {field} the reference program has the code {files.code(symbol)}, and it takes {files.operands(symbol)}")
    if {symbol_name(symbol) for symbol in symbols} != SYMBOLS:
        yield Fault(1, "the table of symbols has not each symbol")


def place_faults(text: list) -> Iterator:
    """Each section of the table of places is one of this document, and each file that it names is there."""
    titles = {line.lstrip("# ") for line in text if line.startswith("##")}
    rows = table(text, "section", "definition", "code", "proof")
    if not rows:
        yield Fault(1, "no table says where the sections stand")
    for number, (sections, *places) in rows:
        for title in sections.split(", "):
            if title.removeprefix("but ") not in titles:
                yield Fault(number, f"no section has the title {title}")
        for place in re.findall(r"[a-z_]+/(?:specs|src|proofs)/[\w/]+\.(?:antt|rt)", " ".join(places)):
            if not (ROOT / "crates" / place).is_file():
                yield Fault(number, f"there is no file crates/{place}")


# All of it, held against the programs.

class Programs(NamedTuple):
    """The library and the program, where they are not left out, and a folder to work in."""
    archive: Optional[Path]
    library: Optional[Library]
    executable: Optional[Path]
    room: Path


def shown(value: object) -> str:
    if isinstance(value, tuple):
        return ", ".join(map(shown, value))
    return value.hex(" ") if isinstance(value, bytes) else str(value)


def check_faults(check: Check, programs: Programs) -> Iterator:
    made = {"the reference program": due(check.call)}
    if programs.library:
        made["the library"] = programs.library.run(check.call)
    for who, after in made.items():
        found = check.found(*after)
        if found != check.expected:
            yield Fault(check.line, f"{check.said}\n  the document says {shown(check.expected)}\n  {who} says {shown(found)}")
        elif after != made["the reference program"]:
            yield Fault(check.line, f"{check.said}\n  {who} tells, or leaves in an area, what the reference program does not")


def run_faults(line: int, said: str, run: Run, expected: str, programs: Programs) -> Iterator:
    with tempfile.TemporaryDirectory() as folder:
        laid_out(run, Path(folder))
        made = {"the reference program": (program.run(folder).encode(), b"", 0)}
    if programs.executable:
        made["the program"], _ = printed(programs.executable, run)
    for who, found in made.items():
        if found != (expected.encode(), b"", 0):
            yield Fault(line, f"{said}\n  the document says {expected!r}\n  {who} prints, says on standard error and ends with {found}")


def output_faults(block: Block, line: int, expected: str, programs: Programs) -> Iterator:
    made, source_file = programs.room / "example", programs.room / "example.c"
    source_file.write_text("\n".join(block.lines) + "\n")
    subprocess.run(["gcc", "-std=c99", "-pedantic", "-Wall", "-Wextra", "-Werror", f"-I{ROOT / 'include'}", "-o", made, source_file,
                    programs.archive], check=True)
    done = subprocess.run([made], capture_output=True, text=True)
    if (done.stdout, done.returncode) != (expected, 0):
        yield Fault(line, f"the program in C prints {done.stdout!r} and ends with {done.returncode}, the document says {expected!r}")


def faults(text: list, examples: Examples, in_c: list, programs: Programs) -> Iterator:
    for part in (text_faults, tag_faults, symbol_faults, place_faults):
        yield from part(text)
    for check in examples.checks:
        yield from check_faults(check, programs)
    for run in examples.runs:
        yield from run_faults(*run, programs)
    if len(in_c) != len(examples.outputs):
        yield Fault(1, f"there are {len(in_c)} programs in C, and outputs of {len(examples.outputs)}")
    for block, output in zip(in_c, examples.outputs) if programs.library else ():
        yield from output_faults(block, *output, programs)
    for missing in sorted(wanted() - examples.covered(), key=str):
        yield Fault(1, f"no example has the {' '.join(map(str, missing))}")


def judged(text: list, options: argparse.Namespace) -> tuple:
    """What was held against the programs, in words, and all faults."""
    with tempfile.TemporaryDirectory() as name:
        archive, executable = (each and each.resolve() for each in (options.library, options.program))
        programs = Programs(archive, archive and Library(archive, Path(name)), executable, Path(name))
        try:
            rows = list(blocks(text))
            examples = Examples([item for block in rows if block.mark == "example" for item in items(block)])
            found = list(faults(text, examples, [block for block in rows if block.mark == "c"], programs))
        except Fault as fault:
            return "nothing", [fault]
    outputs = len(examples.runs + examples.outputs)
    return f"{len(examples.named)} files, {len(examples.checks)} calls and {outputs} outputs", found


def main() -> None:
    parser = argparse.ArgumentParser(description="Holds the examples of the specification against the reference program and the library.")
    parser.add_argument("document", type=Path, nargs="?", default=ROOT / "docs" / "SPECIFICATION.md")
    parser.add_argument("--library", type=path, default=str(ROOT / "build" / "libpaths.a"))
    parser.add_argument("--program", type=path, default=str(ROOT / "build" / "paths_main"))
    options = parser.parse_args()
    count, found = judged(options.document.read_text().splitlines(), options)
    for fault in found:
        print(f"{options.document.name}:{fault.line}: {fault.what}")
    print(f"{count} of {options.document.name} checked, {len(found)} faults")
    sys.exit(1 if found else 0)


if __name__ == "__main__":
    main()
