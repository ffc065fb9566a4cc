"""Measures the library against its peers, in one run on the same inputs, and writes what was found.

    python3 -m bench.run [--runs N] [--check]

builds the peers that can be built here (and says which are left out, and what to install), makes the inputs of bench/fleet.py, runs
bench/driver.c on them, and hands its lines to bench/report.py, which writes bench/results/ and the tables of bench/README.md. It needs
build/libpaths.a, which `make lib` makes; `make bench` does both. With --check it only runs everything once, for the comparison of what
the peers give, and writes nothing.
"""
from __future__ import annotations

import argparse
import shutil
import subprocess
import sys
import tempfile
from pathlib import Path
from typing import NamedTuple

from bench import fleet, report

ROOT = Path(__file__).resolve().parent.parent
BENCH, ROOM = ROOT / "bench", ROOT / "build" / "bench"
LIBRARY = ROOT / "build" / "libpaths.a"
FLAGS = ["-O3", "-std=gnu99", "-Wall", "-Wextra", "-Werror", f"-I{ROOT / 'include'}", f"-I{BENCH}"]
RUST_FLAGS = ["--edition", "2021", "-C", "opt-level=3", "-C", "panic=abort", "--crate-type", "staticlib"]


class Store(NamedTuple):
    """A peer that stands on a library of the system: its name, the library's header, how to link it, and the package that has it."""
    name: str
    header: str
    link: str
    package: str


STORES = (Store("graphblas", "GraphBLAS.h", "-lgraphblas", "libgraphblas-dev"), Store("sqlite", "sqlite3.h", "-lsqlite3", "libsqlite3-dev"))


def compiled(source: str, to: str) -> str:
    made = str(ROOM / to)
    subprocess.run(["gcc", *FLAGS, "-c", "-o", made, str(BENCH / source)], check=True)
    return made


def links(store: Store) -> bool:
    """Whether a program with the store's header and library can be built here."""
    with tempfile.TemporaryDirectory() as room:
        text = f"#include <{store.header}>\nint main(void) {{ return 0; }}\n"
        done = subprocess.run(["gcc", "-x", "c", "-", "-o", f"{room}/x", store.link], input=text, text=True, capture_output=True)
    return done.returncode == 0


def rust_peer() -> list:
    if shutil.which("rustc") is None:
        print("left out: Rust by hand (no rustc here)", file=sys.stderr)
        return []
    made = ROOM / "libhand.a"
    subprocess.run(["rustc", *RUST_FLAGS, "-o", str(made), str(BENCH / "hand.rs")], check=True)
    return ["-DWITH_RUST", str(made)]


def store_peers() -> list:
    words = []
    for store in STORES:
        if links(store):
            words += [f"-DWITH_{store.name.upper()}", compiled(f"{store.name}.c", f"{store.name}.o"), store.link]
        else:
            print(f"left out: {store.name} (install {store.package})", file=sys.stderr)
    return words


def driver() -> str:
    made = str(ROOM / "driver")
    peers = [compiled("hand.c", "hand.o"), *rust_peer(), *store_peers()]
    subprocess.run(["gcc", *FLAGS, "-o", made, str(BENCH / "driver.c"), *peers, str(LIBRARY), "-lpthread", "-ldl", "-lm"], check=True)
    return made


def main() -> None:
    parser = argparse.ArgumentParser()
    parser.add_argument("--runs", type=int, default=31)
    parser.add_argument("--check", action="store_true")
    given = parser.parse_args()
    runs = 1 if given.check else max(11, given.runs)
    if not LIBRARY.exists():
        sys.exit("build/libpaths.a is not there: run `make bench`, or `make lib` first")
    ROOM.mkdir(parents=True, exist_ok=True)
    fleet.main(str(ROOM))
    done = subprocess.run([driver(), str(ROOM), str(runs)], stdout=subprocess.PIPE, text=True)
    if done.returncode != 0:
        sys.exit(done.returncode)
    if given.check:
        asked, closed = len(fleet.SIZES) * len(fleet.QUESTIONS), len(fleet.SIZES) * len(fleet.CLOSURES)
        print(f"the peers agree on {asked} questions, {closed} closures and {len(fleet.NARROWINGS)} narrowings")
    else:
        report.RUNS.write_text(done.stdout)
        report.write()


if __name__ == "__main__":
    main()
