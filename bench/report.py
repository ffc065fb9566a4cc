"""Tables and plots of what the driver measured: bench/results/ (medians.csv, tables.md, job.svg, growth.svg), and the tables in
bench/README.md.

    python3 -m bench.report

makes them again from build/bench/runs.csv, the driver's lines. A ratio is the median of the ratios of each round, whose calls ran one
after the other: what slows the machine for a while slows both.
"""
from __future__ import annotations

import platform
from math import log10
from pathlib import Path
from statistics import median, quantiles

from bench import fleet

BENCH = Path(__file__).resolve().parent
RESULTS = BENCH / "results"
RUNS = BENCH.parent / "build" / "bench" / "runs.csv"
START, END = "<!-- measured: start -->", "<!-- measured: end -->"
LARGEST = max(fleet.SIZES)
PEERS = {"library": "library", "c": "C", "rust": "Rust", "graphblas": "GraphBLAS", "sqlite": "SQLite"}
COLOURS = {"library": "#c0392b", "c": "#2c3e50", "rust": "#d68910", "graphblas": "#2471a3", "sqlite": "#1e8449"}


class Measured:
    """The driver's lines: the times of each round by size, name, peer and call; members and pairs by size and name."""

    def __init__(self, text: str):
        self.rounds, self.sizes = {}, {}
        for line in text.splitlines():
            what, records, name, peer, call, numbers = line.split(",")
            if what == "size":
                self.sizes[int(records), name] = tuple(map(int, numbers.split()))
            else:
                self.rounds[int(records), name, peer, call] = list(map(float, numbers.split()))

    def time(self, name: str, peer: str, call: str, records: int = LARGEST):
        found = self.rounds.get((records, name, peer, call))
        return None if found is None else median(found)

    def net(self, name: str, call: str, records: int = LARGEST, peer: str = "library") -> list:
        """A call less the zeroing of the work words, round by round."""
        return [a - b for a, b in zip(self.rounds[records, name, peer, call], self.rounds[records, name, "-", "clear"])]

    def beyond_reading(self, name: str, peer: str, records: int) -> list:
        """A job less that of `misfiled`, round by round: without members, it only reads, checks and zeroes, and narrows its own question."""
        fixed = self.time("misfiled", peer, "job", records)
        return [t - fixed for t in self.rounds[records, name, peer, "job"]]

    def ratio(self, name: str, over: tuple, under: tuple, records: int = LARGEST):
        return paired(self.rounds.get((records, name, *over)), self.rounds.get((records, name, *under)))

    def spread(self, key: tuple) -> float:
        """How far the quartiles of a timing lie apart, by its median."""
        low, middle, high = quantiles(self.rounds[key], n=4)
        return (high - low) / middle


def paired(over, under):
    """The median of the ratios of the rounds that both have. What is left of a short time may be nothing: such a round has no ratio."""
    return None if over is None or under is None else median(a / b for a, b in zip(over, under) if b != 0)


def shown(x, form: str = "{:.2f}") -> str:
    return "-" if x is None else form.format(x)


def table(head: list, rows: list) -> str:
    lines = ["| " + " | ".join(head) + " |", "|" + "---|" * len(head)]
    return "\n".join(lines + ["| " + " | ".join(row) + " |" for row in rows]) + "\n"


JOB = ("library", "job")


def against_net(m: Measured, name: str):
    """GraphBLAS from bytes against the job less zeroing."""
    return paired(m.rounds.get((LARGEST, name, "graphblas", "whole")), m.net(name, "job"))


def job_table(m: Measured) -> str:
    head = ["question", "members", "pairs", "job, µs", "less zeroing", "job / C", "job / Rust", "GraphBLAS / job", "GraphBLAS / job less zeroing", "SQLite / job"]
    rows = []
    for q in fleet.QUESTIONS:
        members, pairs = m.sizes[LARGEST, q.name]
        rows.append([q.name, str(members), f"{pairs:,}", shown(m.time(q.name, *JOB), "{:.0f}"), shown(median(m.net(q.name, "job")), "{:.0f}"),
                     shown(m.ratio(q.name, JOB, ("c", "job"))), shown(m.ratio(q.name, JOB, ("rust", "job"))),
                     shown(m.ratio(q.name, ("graphblas", "whole"), JOB), "{:.1f}"),
                     shown(against_net(m, q.name), "{:.1f}"),
                     shown(m.ratio(q.name, ("sqlite", "whole"), JOB), "{:.0f}")])
    return table(head, rows)


def answer_table(m: Measured) -> str:
    head = ["question", "plain, µs", "plain / C", "plain / Rust", "narrowed, µs", "narrowed / C", "narrowed / Rust", "narrowed / plain",
            "plain / narrowed, less zeroing", "cuts a heavy chain"]
    rows = []
    for q in fleet.QUESTIONS:
        plain, narrowed = ("library", "plain"), ("library", "narrowed")
        rows.append([q.name, shown(m.time(q.name, *plain), "{:.0f}"), shown(m.ratio(q.name, plain, ("c", "plain"))),
                     shown(m.ratio(q.name, plain, ("rust", "plain"))), shown(m.time(q.name, *narrowed), "{:.0f}"),
                     shown(m.ratio(q.name, narrowed, ("c", "narrowed"))), shown(m.ratio(q.name, narrowed, ("rust", "narrowed"))),
                     shown(m.ratio(q.name, narrowed, plain)), shown(paired(m.net(q.name, "plain"), m.net(q.name, "narrowed")), "{:.1f}"),
                     "yes" if q.cuts else ""])
    return table(head, rows)


def closure_table(m: Measured) -> str:
    head = ["relation", "N", "library, µs", "C, µs", "Warshall, µs", "Warshall / library", "library / C", "library, ns a row"]
    rows = []
    for name in (c.name for c in fleet.CLOSURES):
        for n in fleet.SIZES:
            library, by_hand, warshall = (m.net(f"closure-{name}", "plain", n, peer) for peer in ("library", "c", "warshall"))
            times = [shown(median(times), "{:.1f}") for times in (library, by_hand, warshall)]
            rows.append([name, f"{n:,}", *times, shown(paired(warshall, library), "{:.1f}"), shown(paired(library, by_hand)),
                         shown(median(library) / n * 1000, "{:.0f}")])
    return table(head, rows)


def growth_table(m: Measured) -> str:
    head = ["question"] + [f"job at {n}, µs" for n in fleet.SIZES] + [f"job / C at {n}" for n in fleet.SIZES]
    rows = [[q.name] + [shown(m.time(q.name, *JOB, n), "{:.0f}") for n in fleet.SIZES]
            + [shown(m.ratio(q.name, JOB, ("c", "job"), n)) for n in fleet.SIZES] for q in fleet.QUESTIONS]
    zeroing = [shown(m.time(fleet.QUESTIONS[0].name, "-", "clear", n), "{:.0f}") for n in fleet.SIZES]
    return table(head, rows + [["(zeroing alone)"] + zeroing + [""] * len(fleet.SIZES)])


def narrow_table(m: Measured) -> str:
    head = ["narrowing", "members", "µs", "/ C", "/ Rust"]
    rows = []
    for n in fleet.NARROWINGS:
        ours = ("library", "narrow")
        rows.append([n.name, str(m.sizes[0, n.name][0]), shown(m.time(n.name, *ours, 0), "{:.1f}"),
                     shown(m.ratio(n.name, ours, ("c", "narrow"), 0)), shown(m.ratio(n.name, ours, ("rust", "narrow"), 0))])
    return table(head, rows)


# Goals.

def missed(found: dict, good) -> str:
    bad = {name: x for name, x in found.items() if x is not None and not good(x)}
    values = [x for x in found.values() if x is not None]
    if not values:
        return "not measured here"
    span = f"from {min(values):.2f} to {max(values):.2f}"
    return f"met, {span}" if not bad else f"missed on {', '.join(f'{n} ({x:.2f})' for n, x in bad.items())}; {span}"


def beyond_reading_goal(m: Measured, records: int) -> tuple:
    """The job against C's, both less the costs of reading, where C's takes long enough for a ratio."""
    found = {}
    for q in fleet.QUESTIONS:
        ours, theirs = (m.beyond_reading(q.name, peer, records) for peer in ("library", "c"))
        if median(theirs) >= 2:
            found[q.name] = paired(ours, theirs)
    return f"job less the fixed costs of reading at most 1.2 times C's at N = {records}", missed(found, lambda x: x <= 1.2)


def goals(m: Measured) -> str:
    names = [q.name for q in fleet.QUESTIONS]
    cases = {n.name: m.time(n.name, "library", "narrow", 0) for n in fleet.NARROWINGS}
    of = lambda over, under: {n: m.ratio(n, over, under) for n in names}
    net = {n: against_net(m, n) for n in names}
    lines = [
        ("job at most 1.2 times C's", missed(of(JOB, ("c", "job")), lambda x: x <= 1.2)),
        *(beyond_reading_goal(m, n) for n in (128, 256, 512)),
        ("GraphBLAS from bytes takes longer than the job", missed(of(("graphblas", "whole"), JOB), lambda x: x > 1)),
        ("the same, the job less zeroing", missed(net, lambda x: x > 1)),
        ("SQLite from the links takes longer than the job", missed(of(("sqlite", "whole"), JOB), lambda x: x > 1)),
        ("narrowing of the cases under 1,000 µs", missed({n: t for n, t in cases.items() if n.startswith("case")}, lambda x: x < 1000)),
        ("narrowing of the worst found under 50,000 µs", missed({n: t for n, t in cases.items() if not n.startswith("case")}, lambda x: x < 50000)),
        ("narrowed at most 1.1 times plain", missed(of(("library", "narrowed"), ("library", "plain")), lambda x: x <= 1.1)),
        ("narrowed at most 1.1 times plain, both less zeroing",
         missed({n: paired(m.net(n, "narrowed"), m.net(n, "plain")) for n in names}, lambda x: x <= 1.1)),
        ("plain at least 2 times narrowed where a heavy chain is cut",
         missed({q.name: m.ratio(q.name, ("library", "plain"), ("library", "narrowed")) for q in fleet.QUESTIONS if q.cuts}, lambda x: x >= 2)),
        ("the same, both less zeroing",
         missed({q.name: paired(m.net(q.name, "plain"), m.net(q.name, "narrowed")) for q in fleet.QUESTIONS if q.cuts}, lambda x: x >= 2)),
    ]
    return table(["goal, at N = 1,024", "found"], [list(line) for line in lines])


def noise(m: Measured) -> str:
    twice = [abs(m.ratio(q.name, ("library", "job again"), JOB, n) - 1) for q in fleet.QUESTIONS for n in fleet.SIZES]
    return (f"Noise: the same job timed twice in the run differs by {100 * median(twice):.1f} % in the median, {100 * max(twice):.0f} % at most; "
            f"the quartiles of a timing lie {100 * median(m.spread(key) for key in m.rounds):.1f} % of its median apart, in the median.")


def machine() -> str:
    names = [line.split(":")[1].strip() for line in Path("/proc/cpuinfo").read_text().splitlines() if line.startswith("model name")]
    return f"{names[0] if names else platform.processor()}, {len(names)} cores, {platform.system()}"


def tables(m: Measured, runs: str) -> str:
    return "\n".join([
        f"Machine: {machine()}. {runs}", noise(m), "", goals(m), "The whole job, N = 1,024:", "", job_table(m),
        "The answers, N = 1,024:", "", answer_table(m), "Closures, less zeroing:", "", closure_table(m),
        "Growth:", "", growth_table(m), "Narrowing alone:", "", narrow_table(m)])


# Plots, on logarithmic scales of microseconds.

WIDTH, LEFT, RIGHT, TOP, STEP = 900, 130, 60, 90, 26


def mark(x: float, y: float, colour: str) -> str:
    return f'<circle cx="{x:.1f}" cy="{y:.1f}" r="5" fill="{colour}" fill-opacity="0.85"/>'


def line(x1: float, y1: float, x2: float, y2: float, colour: str, dash: str = "") -> str:
    return f'<line x1="{x1:.1f}" y1="{y1:.1f}" x2="{x2:.1f}" y2="{y2:.1f}" stroke="{colour}" stroke-dasharray="{dash}"/>'


def words(x: float, y: float, said: str, anchor: str = "start") -> str:
    return f'<text x="{x:.1f}" y="{y:.1f}" text-anchor="{anchor}">{said}</text>'


def drawing(height: int, title: str, parts: list) -> str:
    head = f'<svg xmlns="http://www.w3.org/2000/svg" width="{WIDTH}" height="{height}" font-family="sans-serif" font-size="13">'
    return "\n".join([head, '<rect width="100%" height="100%" fill="white"/>', words(LEFT, 22, title), *parts, "</svg>", ""])


def scale(found: list, start: float, end: float):
    """The powers of ten around what was found, and where a time stands between start and end."""
    low, high = int(log10(min(found))), int(log10(max(found))) + 1
    return range(low, high + 1), lambda t: start + (log10(t) - low) / (high - low) * (end - start)


def job_plot(m: Measured) -> str:
    """A row for each question, a mark for each peer."""
    calls = {"library": "job", "c": "job", "rust": "job", "graphblas": "whole", "sqlite": "whole"}
    found = [median(times) for (n, _, peer, call), times in m.rounds.items() if n == LARGEST and calls.get(peer) == call]
    powers, place = scale(found, LEFT, WIDTH - RIGHT)
    foot = TOP + STEP * len(fleet.QUESTIONS)
    parts = [part for p in powers for part in (line(place(10 ** p), TOP - 10, place(10 ** p), foot, "#ddd"), words(place(10 ** p), foot + 18, f"{10 ** p:,}", "middle"))]
    clear = place(m.time(fleet.QUESTIONS[0].name, "-", "clear"))
    parts += [line(clear, TOP - 10, clear, foot, COLOURS["library"], "4 3"), words(clear + 4, TOP - 16, "zeroing of the work words")]
    for i, (peer, name) in enumerate(PEERS.items()):
        parts += [mark(LEFT + 110 * i, 42, COLOURS[peer]), words(LEFT + 110 * i + 10, 46, name)]
    for row, q in enumerate(fleet.QUESTIONS):
        y = TOP + STEP * row + 8
        parts.append(words(LEFT - 10, y + 4, q.name, "end"))
        parts += [mark(place(t), y, COLOURS[peer]) for peer, call in reversed(calls.items()) if (t := m.time(q.name, peer, call))]
    return drawing(foot + 30, f"The whole job at N = {LARGEST:,}, microseconds (from the files' bytes)", parts)


GROWING = {"sealed": "#7f8c8d", "inside": "#2471a3", "fitted": "#c0392b", "reach": "#1e8449"}


def growth_plot(m: Measured) -> str:
    """A line for each of some questions over the sizes: the library's job, and dashed the one in C."""
    peers = {"library": "", "c": "4 3"}
    found = [m.time(name, peer, "job", n) for name in GROWING for peer in peers for n in fleet.SIZES]
    head, foot = 50, 400
    powers, place = scale(found, foot, head)
    across = lambda n: LEFT + log10(n / fleet.SIZES[0]) / log10(LARGEST / fleet.SIZES[0]) * (WIDTH - LEFT - 2 * RIGHT)
    parts = [part for p in powers for part in (line(LEFT, place(10 ** p), across(LARGEST), place(10 ** p), "#ddd"), words(LEFT - 10, place(10 ** p) + 4, f"{10 ** p:,}", "end"))]
    parts += [words(across(n), foot + 20, f"{n:,}", "middle") for n in fleet.SIZES]
    for name, colour in GROWING.items():
        for peer, dash in peers.items():
            spots = [(across(n), place(m.time(name, peer, "job", n))) for n in fleet.SIZES]
            parts += [line(*a, *b, colour, dash) for a, b in zip(spots, spots[1:])]
        parts.append(words(across(LARGEST) + 8, place(m.time(name, "library", "job")) + 4, name))
    return drawing(foot + 40, "The whole job by N, microseconds; dashed: C by hand", parts)


def medians(m: Measured) -> str:
    lines = ["N,name,peer,call,runs,lower quartile,median,upper quartile"]
    for (records, name, peer, call), times in m.rounds.items():
        lines.append(",".join([str(records), name, peer, call, str(len(times)), *(f"{t:.2f}" for t in quantiles(times, n=4))]))
    return "\n".join(lines) + "\n"


def write() -> None:
    m = Measured(RUNS.read_text())
    runs = max(map(len, m.rounds.values()))
    made = tables(m, f"Medians of {runs} runs (11 where a run takes over 20 ms); work words zero before each run, answer and file area not.")
    RESULTS.mkdir(exist_ok=True)
    (RESULTS / "medians.csv").write_text(medians(m))
    (RESULTS / "tables.md").write_text(made)
    (RESULTS / "job.svg").write_text(job_plot(m))
    (RESULTS / "growth.svg").write_text(growth_plot(m))
    readme = BENCH / "README.md"
    page = readme.read_text()
    readme.write_text(page[:page.index(START) + len(START)] + "\n" + made + page[page.index(END):])
    print(goals(m))


if __name__ == "__main__":
    write()
