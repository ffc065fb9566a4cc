"""What the scripts of stored vectors share: fields, digests as crates/test_report makes them, and a program's `stdin` and `stdout`."""
from __future__ import annotations

import sys
from pathlib import Path

CRATES = Path(__file__).resolve().parent.parent / "crates"
ROOM = 1 << 20  # the bytes that a program reads
FILE_TAGS = {"sheet": 1, "question": 2, "register": 3, "narrowed": 4}  # of fields that are files
CALL = 5  # the tag of the first call of a program
MODULUS, FACTOR = 4294967311, 1000003


def digest(numbers, room: int = 0, before: int = 0) -> int:
    """Of an array of `room` numbers that begins with these and is 0 after them."""
    made = before
    for number in numbers:
        made = ((made * FACTOR + (number >> 32)) * FACTOR + number % 2 ** 32) % MODULUS
    return made * pow(FACTOR, 2 * max(room - len(numbers), 0), MODULUS) % MODULUS


def packed(tag: int, data: bytes) -> bytes:
    return bytes([tag]) + len(data).to_bytes(2, "big") + data


def renewed(standing: dict, files: dict):
    """The fields of those files, by tag, that do not stand already; then they stand."""
    for tag, data in files.items():
        if standing.get(tag, b"") != data:
            standing[tag] = data
            yield packed(tag, data)


def said(*words) -> str:
    return " ".join(map(str, words)) + "\n"


def same(path: Path, data: bytes) -> bool:
    return path.is_file() and path.read_bytes() == data


def keep(crate: str, fields, lines) -> None:
    """Writes them as `stdin` and `stdout` of the crate; with --check says whether they are there."""
    made = {"stdin": b"".join(fields), "stdout": "".join(lines).encode()}
    assert len(made["stdin"]) < ROOM, "the program has no room for all vectors"
    if "--check" not in sys.argv:
        for name, data in made.items():
            (CRATES / crate / name).write_bytes(data)
    stale = [name for name, data in made.items() if not same(CRATES / crate / name, data)]
    count = made["stdout"].count(b"\n")
    print(f"not as tests/{crate}.py writes them: crates/{crate}/" + ", ".join(stale) if stale else f"{count} vectors, as written")
    sys.exit(1 if stale else 0)
