"""The calls over files and lent areas.

Files are bytes. `work` and `answer` are lists of 64-bit integers and `file` is
a bytearray; each is changed in place and keeps its length.
"""
from __future__ import annotations

from contextlib import contextmanager
from dataclasses import dataclass
from functools import wraps
from typing import Iterator, Optional, Union

from reference import meaning, narrowing, shortening
from reference.files import (
    Refusal, Register, Sheet,
    question_bytes, read_narrowed, read_question, read_register, read_sheet,
    write_narrowed,
)

NARROWING_WORK = 8192


@dataclass(frozen=True)
class Accepted:
    """Members of the narrowed file, or symbols of the question, and bytes, where the call makes a file."""
    count: Optional[int] = None
    size: Optional[int] = None


@dataclass(frozen=True)
class Refused:
    number: int
    file: str
    place: int


Outcome = Union[Accepted, Refused]


def outcome(call):
    """Turns a refusal raised inside a call into its outcome."""
    @wraps(call)
    def settled(*areas) -> Outcome:
        try:
            return call(*areas)
        except Refusal as refusal:
            return Refused(refusal.number, refusal.file, refusal.place)
    return settled


# Areas.

def answer_words(register: Register) -> int:
    records = len(register.kinds)
    return records * meaning.words_per_row(records)


def answer_work(register: Register) -> int:
    return 28 * answer_words(register)


@contextmanager
def borrowed(work: list, need: int) -> Iterator[None]:
    """Refusal 15; past it, every return leaves the needed words zero."""
    if len(work) < need:
        raise Refusal(15, need)
    try:
        yield
    finally:
        work[:need] = [0] * need


def demand_room(area, need: int) -> None:
    if len(area) < need:
        raise Refusal(14, need)


def fill(area, result) -> None:
    area[:len(result)] = result


def judge_register(sheet: Sheet, register: Register) -> None:
    place = meaning.obeys(sheet, register)
    if place is not None:
        raise Refusal(16, place)


# Calls.

@outcome
def check(sheet: bytes, register: bytes) -> Outcome:
    judge_register(read_sheet(sheet), read_register(register))
    return Accepted()


@outcome
def narrow(sheet: bytes, question: bytes, work: list, file: bytearray) -> Outcome:
    permitted, symbols = read_sheet(sheet), read_question(question)
    with borrowed(work, NARROWING_WORK):
        members = narrowing.narrow(permitted, symbols)
        made = write_narrowed(members)
        demand_room(file, len(made))
        fill(file, made)
    return Accepted(len(members), len(made))


@outcome
def narrow_bytes(sheet: bytes, question: bytes, work: list) -> Outcome:
    """What narrowing would tell, without any area for its file."""
    permitted, symbols = read_sheet(sheet), read_question(question)
    with borrowed(work, NARROWING_WORK):
        members = narrowing.narrow(permitted, symbols)
    return Accepted(len(members), len(write_narrowed(members)))


@outcome
def shorten(question: bytes, file: bytearray) -> Outcome:
    short = shortening.shorten(read_question(question))
    made = question_bytes(short)
    demand_room(file, len(made))
    fill(file, made)
    return Accepted(len(short), len(made))


def answered(records: Register, words, work: list, answer: list) -> Outcome:
    """The words that `words` yields, if both areas are long enough."""
    with borrowed(work, answer_work(records)):
        demand_room(answer, answer_words(records))
        fill(answer, words())
    return Accepted()


@outcome
def plain_answer(question: bytes, register: bytes, work: list, answer: list) -> Outcome:
    symbols, records = read_question(question), read_register(register)
    return answered(records, lambda: meaning.plain_words(symbols, records), work, answer)


@outcome
def narrowed_answer(narrowed: bytes, register: bytes, work: list, answer: list) -> Outcome:
    members, records = read_narrowed(narrowed), read_register(register)
    return answered(records, lambda: meaning.narrowed_words(members, records), work, answer)


@outcome
def whole_job(sheet: bytes, question: bytes, register: bytes,
              work: list, answer: list, file: bytearray) -> Outcome:
    permitted, symbols = read_sheet(sheet), read_question(question)
    records = read_register(register)
    with borrowed(work, max(NARROWING_WORK, answer_work(records))):
        demand_room(answer, answer_words(records))
        narrowing.judge_links(permitted, symbols)  # 11 stands before 16
        judge_register(permitted, records)
        members = narrowing.narrow(permitted, symbols)
        made = write_narrowed(members)
        demand_room(file, len(made))
        fill(file, made)
        fill(answer, meaning.narrowed_words(members, records))
    return Accepted(len(members), len(made))
