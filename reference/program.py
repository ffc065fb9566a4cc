"""The program: runs the whole job on the files sheet, question and register.

Usage: python3 -m reference.program [DIR]
"""
from __future__ import annotations

import os
import sys

from reference.calls import Refused, whole_job
from reference.files import read_register
from reference.meaning import bits, words_per_row

MOST_BYTES = 65536
WORK_WORDS = 8192
ANSWER_WORDS = 256


def content(path: str) -> bytes:
    """The bytes of a file that count; none if it cannot be opened or read."""
    try:
        with open(path, "rb") as file:
            return file.read(MOST_BYTES)
    except OSError:
        return b""


def pairs(answer: list, records: int) -> list:
    """The pairs of an answer area, ascending."""
    width = words_per_row(records)
    return [(s, 64 * part + bit)
            for s in range(records)
            for part in range(width)
            for bit in bits(answer[s * width + part])]


def run(directory: str) -> str:
    """What the program prints."""
    files = [content(os.path.join(directory, name))
             for name in ("sheet", "question", "register")]
    answer = [0] * ANSWER_WORDS
    result = whole_job(*files, [0] * WORK_WORDS, answer, bytearray(MOST_BYTES))
    if isinstance(result, Refused):
        return f"refused {result.number} in {result.file} at {result.place}\n"
    found = pairs(answer, len(read_register(files[2]).kinds))
    lines = [f"members {result.count} pairs {len(found)}"]
    lines += [f"{s} {t}" for s, t in found]
    return "".join(line + "\n" for line in lines)


def main() -> None:
    sys.stdout.write(run(sys.argv[1] if len(sys.argv) > 1 else "."))


if __name__ == "__main__":
    main()
