"""The tables of crates/theory_cases: random small inputs and what the reference program gives for them.

    python3 -m tests.theory_cases           writes the tables anew
    python3 -m tests.theory_cases --check   says whether they are as this script writes them

The proof of that crate has the definitions of crates/theory computed on every case, and compared.
"""
from __future__ import annotations

import sys
import textwrap
from pathlib import Path
from random import Random

from reference import generate, meaning, narrowing, shortening
from reference.files import BRANCH_RIGHT, CHAIN, JOIN, JoinThrough, Operator, Refusal, Register, Sheet, Step, code

SPECS = Path(__file__).resolve().parent.parent / "crates" / "theory_cases" / "specs"
HEAD = """-- What the reference program gives. Written by tests/theory_cases.py.
-- Assumes nothing.
use Rattle.std.specs.Prelude.{List, [], ◌∷◌}
use Rattle.std.proofs.Math.Option.{none, some}
use Rattle.theory_cases.specs.Format.{Case, case, refusal, members}

unfoldable pub table : List Case
table =
"""
SHORT_HEAD = """-- What the reference program shortens. Written by tests/theory_cases.py.
-- Assumes nothing.
use Rattle.std.specs.Prelude.{List, [], ◌∷◌}
use Rattle.theory_cases.specs.Format.{Shortening, shortening}

unfoldable pub table : List Shortening
table =
"""
SMALL = [(5, 3, 10, 8), (5, 3, 12, 6), (4, 2, 8, 12), (6, 2, 9, 5)]


# Inputs.

def small_job(rng: Random) -> generate.Job:
    *sizes, most = rng.choice(SMALL)
    sheet = generate.random_sheet(rng, *sizes)
    question = generate.random_question(rng, sheet.links, most)
    return generate.Job(sheet, question, generate.random_register(rng, sheet, 6, 9))


def telling_job(rng: Random) -> generate.Job:
    """A small job; four times in five one whose question has pairs on its register."""
    job = small_job(rng)
    if rng.random() < 0.8:
        while not meaning.plain_pairs(job.question, job.register):
            job = small_job(rng)
    return job


def with_register(rng: Random, made: generate.Narrowing) -> generate.Job:
    return generate.Job(*made, generate.obeying_register(rng, made.sheet, 4, 5))


def unnamed_link(rng: Random) -> generate.Job:
    """Reaches 11."""
    job = small_job(rng)
    place = rng.choice([i for i, symbol in enumerate(job.question) if isinstance(symbol, Step)])
    question = list(job.question)
    question[place] = Step(rng.randrange(2), job.sheet.links + rng.randrange(2))
    return job._replace(question=question)


def pairs_of_one_link(rng: Random, count: int) -> generate.Job:
    """128 permitted pairs of one link pass, 129 are 12."""
    sheet = Sheet(12, 1, sorted((n // 12, 0, n % 12) for n in rng.sample(range(144), count)))
    return with_register(rng, generate.Narrowing(sheet, [Step(rng.randrange(2), 0)]))


def ordered_kinds(rng: Random, n: int) -> generate.Job:
    """A chain over n ordered kinds has 2^n - n - 1 walks: 120 for seven, 247 for eight."""
    sheet = Sheet(n, 1, [(a, 0, b) for a in range(n) for b in range(a + 1, n)])
    return with_register(rng, generate.Narrowing(sheet, [Step(rng.randrange(2), 0), Operator(CHAIN)]))


def joined_kinds(rng: Random, n: int) -> generate.Job:
    """A join through every kind: n^3 triples, 125 for five and 216 for six."""
    sheet = Sheet(n, 1, [(a, 0, b) for a in range(n) for b in range(n)])
    question = [Step(0, 0), Step(rng.randrange(2), 0), Operator(JOIN)]
    return with_register(rng, generate.Narrowing(sheet, question))


def tested(tests: int) -> list:
    """A step with tests that always hold: 1 + 2 * tests symbols."""
    return [Step(0, 0)] + [Step(1, 0), Operator(BRANCH_RIGHT)] * tests


def tested_chain(rng: Random, hops: int, tests: int) -> generate.Job:
    """A chain of a tested step over a line: its longest path has hops * (2 + 2 * tests) - 1 symbols."""
    sheet = Sheet(hops + 1, 1, [(a, 0, a + 1) for a in range(hops)])
    again = [Operator(CHAIN)] if rng.random() < 0.3 else []
    return with_register(rng, generate.Narrowing(sheet, tested(tests) + [Operator(CHAIN)] + again))


def long_and_many(rng: Random, tests: int, joined: bool) -> generate.Job:
    """12 and 13 at one symbol, or a symbol with 12 before one with 13."""
    sheet = Sheet(8, 1, [(a, 0, b) for a in range(8) for b in range(a + 1, 8)])
    chain = tested(tests) + [Operator(CHAIN)]
    question = [Step(0, 0), Operator(CHAIN), *chain, Operator(JOIN)] if joined else chain
    return with_register(rng, generate.Narrowing(sheet, question))


def wide(rng: Random) -> generate.Job:
    """65 records: two words a row."""
    sheet = Sheet(2, 1, [(0, 0, 1), (1, 0, 0)])
    kinds = [rng.randrange(2) for _ in range(65)]
    links = sorted({(rng.randrange(65), 0, rng.randrange(65)) for _ in range(6)} | {(64, 0, 64), (0, 0, 63)})
    return generate.Job(sheet, [Step(rng.randrange(2), 0)], Register(kinds, links))


def edge_jobs(rng: Random) -> list:
    """Inputs at the edges of 11, 12 and 13, and of a word."""
    return ([unnamed_link(rng) for _ in range(12)] + [wide(rng) for _ in range(3)]
            + [pairs_of_one_link(rng, count) for count in (127, 128, 129, 130)]
            + [ordered_kinds(rng, n) for n in (6, 7, 8)] + [joined_kinds(rng, n) for n in (4, 5, 6)]
            + [with_register(rng, generate.size_edge(tail)) for tail in (4, 5)] + [tested_chain(rng, *each) for each in EDGES] + [long_and_many(rng, *each) for each in ((2, False), (3, False), (3, True), (1, True))])


# hops and tests: 47, 49, 47, 51, 59, 41, 53, 55, 55 and 55 symbols
EDGES = [(6, 3), (5, 4), (4, 5), (2, 12), (6, 4), (7, 2), (9, 2), (7, 3), (4, 6), (14, 1)]


# A case as a line of antt.

def numbers(values) -> str:
    return "".join(f"{value} ∷ " for value in values) + "[]"


def triples(values) -> str:
    return numbers(a * 10000 + link * 100 + b for a, link, b in values)


def symbol(each) -> int:
    return 1000 + each.kinds if isinstance(each, JoinThrough) else code(each)


def member(each) -> str:
    return "(" + numbers([each.from_set, each.to_set, *map(symbol, each.symbols)]) + ")"


def line(job: generate.Job) -> str:
    plain = numbers(meaning.plain_words(job.question, job.register))
    try:
        found = narrowing.narrow(job.sheet, job.question)
        outcome = "members (" + "".join(f"{member(each)} ∷ " for each in found) + "[])"
        short = numbers(meaning.narrowed_words(found, job.register))
    except Refusal as refused:
        outcome, short = f"refusal {refused.number} {refused.place}", "[]"
    place = meaning.obeys(job.sheet, job.register)
    breach = "none" if place is None else f"(some {place})"
    return (f"case {job.sheet.kinds} {job.sheet.links} ({triples(job.sheet.triples)}) ({numbers(map(symbol, job.question))}) "
            f"({numbers(job.register.kinds)}) ({triples(job.register.links)}) ({outcome}) {breach} ({plain}) ({short})")


def short_line(question: list) -> str:
    return f"shortening ({numbers(map(code, question))}) ({numbers(map(code, shortening.shorten(question)))})"


def table(head: str, lines) -> str:
    rows = (row for each in "\n∷ ".join([*lines, "[]"]).split("\n") for row in textwrap.wrap(each, 196, break_on_hyphens=False))
    return head + "".join(f"    {row}\n" for row in rows)


def tables() -> dict:
    rng = Random(1)
    jobs = edge_jobs(rng) + [telling_job(rng) for _ in range(303)]
    rng.shuffle(jobs)
    parts = [jobs[i:i + 43] for i in range(0, len(jobs), 43)]
    made = {f"Table{i}.antt": table(HEAD, map(line, part)) for i, part in enumerate(parts, 1)}
    rng = Random(2)
    questions = [generate.piled_question(rng, 3, 14) for _ in range(100)]
    return {**made, "Shortened.antt": table(SHORT_HEAD, map(short_line, questions))}


def main() -> None:
    made = tables()
    if "--check" not in sys.argv:
        for name, text in made.items():
            (SPECS / name).write_text(text)
    stale = [name for name, text in made.items() if (SPECS / name).read_text() != text]
    print("stale: " + ", ".join(stale) if stale else f"{len(made)} tables, as written")
    sys.exit(1 if stale else 0)


if __name__ == "__main__":
    main()
