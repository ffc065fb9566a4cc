"""A second implementation straight from the rules, for the tests only.

Paths are nested terms, relations are sets of pairs, walks are listed one by
one, and a file is cut into tokens before it is judged. Small inputs only.
"""
from __future__ import annotations

from typing import Iterator, Optional

from reference.files import JoinThrough, Member, Operator, Refusal, Step

NAMES = {128: "join", 129: "union", 130: "both", 131: "right", 132: "left"}
NUMBERS = {name: number for number, name in NAMES.items()}


# Terms: ("step", direction, link), ("join", None or kinds, p, q),
# ("union" | "both" | "right" | "left", p, q), ("chain", p).

def term_of(symbols):
    stack = []
    for symbol in symbols:
        if isinstance(symbol, Step):
            stack.append(("step", symbol.direction, symbol.link))
        elif symbol == Operator(133):
            stack.append(("chain", stack.pop()))
        else:
            q, p = stack.pop(), stack.pop()
            stack.append(binary_term(symbol, p, q))
    return stack.pop()


def binary_term(symbol, p, q):
    if isinstance(symbol, JoinThrough):
        return "join", frozenset(k for k in range(64) if symbol.kinds & 2 ** k), p, q
    if symbol == Operator(128):
        return "join", None, p, q
    return NAMES[symbol.code], p, q


def set_number(kinds) -> int:
    return sum(2 ** kind for kind in kinds)


def postfix(term) -> list:
    match term:
        case ("step", direction, link):
            return [Step(direction, link)]
        case ("chain", p):
            return postfix(p) + [Operator(133)]
        case ("join", None, p, q):
            return postfix(p) + postfix(q) + [Operator(128)]
        case ("join", kinds, p, q):
            return postfix(p) + postfix(q) + [JoinThrough(set_number(kinds))]
        case (name, p, q):
            return postfix(p) + postfix(q) + [Operator(NUMBERS[name])]


def size(term) -> int:
    """The number of symbols."""
    return 1 + sum(size(part) for part in term if isinstance(part, tuple))


def code_row(term) -> list:
    match term:
        case ("step", direction, link):
            return [link + (64 if direction else 0)]
        case ("chain", p):
            return code_row(p) + [133]
        case (name, *_, p, q):
            return code_row(p) + code_row(q) + [NUMBERS[name]]


# The meaning of a path.

def pairs(term, register) -> set:
    match term:
        case ("step", 0, name):
            return {(s, t) for s, link, t in register.links if link == name}
        case ("step", 1, name):
            return {(t, s) for s, link, t in register.links if link == name}
        case ("chain", p):
            return chained(pairs(p, register))
        case ("join", kinds, p, q):
            left, right = pairs(p, register), pairs(q, register)
            return {(s, t) for s, z in left for y, t in right
                    if z == y and (kinds is None or register.kinds[z] in kinds)}
        case (name, p, q):
            return paired(name, pairs(p, register), pairs(q, register))


def paired(name: str, left: set, right: set) -> set:
    match name:
        case "union":
            return left | right
        case "both":
            return left & right
        case "right":
            return {(s, t) for s, t in left if any(t == z for z, _ in right)}
        case "left":
            return {(s, t) for s, t in right if any(s == z for z, _ in left)}


def chained(relation: set) -> set:
    """One or more of the relation joined: grown until nothing is new."""
    total = set(relation)
    while True:
        grown = total | {(s, t) for s, z in total for y, t in relation if z == y}
        if grown == total:
            return total
        total = grown


def plain_pairs(symbols, register) -> set:
    return pairs(term_of(symbols), register)


def narrowed_pairs(members, register) -> set:
    return {(s, t) for symbols, from_set, to_set in members
            for s, t in plain_pairs(symbols, register)
            if from_set & 2 ** register.kinds[s] and to_set & 2 ** register.kinds[t]}


# Inference.

class TooManyWalks(Exception):
    """The input is not small enough to list its walks."""


class Inference:
    """Triples (A, term, B) of each part; parts end in postfix order."""

    def __init__(self, sheet):
        self.sheet = sheet
        self.parts = []

    def part(self, term) -> set:
        match term:
            case ("step", direction, name):
                found = {(a, term, b) if direction == 0 else (b, term, a)
                         for a, link, b in self.sheet.triples if link == name}
            case ("chain", p):
                found = chain_rule(term, self.part(p))
            case ("join", None, p, q):
                left, right = self.part(p), self.part(q)
                found = {(a, ("join", frozenset([b]), x, y), c)
                         for a, x, b in left for d, y, c in right if b == d}
            case (name, p, q):
                found = binary_rule(name, self.part(p), self.part(q))
        self.limit(found)
        return found

    def limit(self, found: set) -> None:
        place = len(self.parts)
        if any(size(path) > 48 for _, path, _ in found):
            raise Refusal(13, place)
        if len(found) > 128:
            raise Refusal(12, place)
        self.parts.append(found)


def binary_rule(name: str, left: set, right: set) -> set:
    match name:
        case "union":
            return left | right
        case "both":
            return {(a, (name, x, y), b) for a, x, b in left for c, y, d in right
                    if a == c and b == d}
        case "right":
            return {(a, (name, x, y), b) for a, x, b in left for c, y, d in right if b == c}
        case "left":
            return {(a, (name, x, y), b) for c, x, d in left for a, y, b in right if a == c}


def chain_rule(kept_term, part: set) -> set:
    led = chained({(a, b) for a, _, b in part})
    ringed = {a for a, b in led if a == b}
    # (A, B, whether the walk met a ringed kind), for walks of any length.
    edges = {(a, b, a in ringed or b in ringed) for a, _, b in part}
    walks = edges
    while True:
        grown = walks | {(a, c, m or n) for a, b, m in walks for d, c, n in edges if b == d}
        if grown == walks:
            break
        walks = grown
    found = {(a, kept_term, b) for a, b, met in walks if met}
    for count, walk in enumerate(free_walks(part, ringed, [])):
        if count >= 800:
            raise TooManyWalks
        found.add((walk[0][0], left_joined(walk), walk[-1][2]))
    return found


def free_walks(part: set, ringed: set, begun: list) -> Iterator[list]:
    for triple in part:
        a, _, b = triple
        if a not in ringed and b not in ringed and (not begun or begun[-1][2] == a):
            yield begun + [triple]
            yield from free_walks(part, ringed, begun + [triple])


def left_joined(walk: list):
    path = walk[0][1]
    for a, following, _ in walk[1:]:
        path = ("join", frozenset([a]), path, following)
    return path


def parts(sheet, symbols) -> list:
    """The triples of each part as sets of (A, postfix path, B)."""
    for place, symbol in enumerate(symbols):
        if isinstance(symbol, Step) and symbol.link >= sheet.links:
            raise Refusal(11, place)
    inference = Inference(sheet)
    inference.part(term_of(symbols))
    return inference.parts


# Merging.

def blank(term):
    """The term with its join sets rubbed out."""
    match term:
        case ("step", _, _):
            return term
        case ("chain", p):
            return "chain", blank(p)
        case ("join", _, p, q):
            return "join", None, blank(p), blank(q)
        case (name, p, q):
            return name, blank(p), blank(q)


def overlay(first, second):
    """Two terms of one shape: their join sets united."""
    match first, second:
        case (("step", _, _), _):
            return first
        case (("chain", p), ("chain", r)):
            return "chain", overlay(p, r)
        case (("join", None, p, q), ("join", None, r, s)):
            return "join", None, overlay(p, r), overlay(q, s)
        case (("join", kinds, p, q), ("join", others, r, s)):
            return "join", kinds | others, overlay(p, r), overlay(q, s)
        case ((name, p, q), (_, r, s)):
            return name, overlay(p, r), overlay(q, s)


def narrow(sheet, symbols) -> list:
    merged = {}
    for a, path, b in parts(sheet, symbols)[-1]:
        froms, shape, tos = merged.get(blank(path), (set(), path, set()))
        merged[blank(path)] = froms | {a}, overlay(shape, path), tos | {b}
    rows = sorted(merged.values(), key=lambda row: code_row(row[1]))
    return [Member(postfix(path), set_number(froms), set_number(tos))
            for froms, path, tos in rows]


# Files: cut into tokens first, judged after.

LENGTHS = {0x11: 2, 0x12: 3, 0x21: 1, 0x31: 4, 0x32: 1, 0x33: 5,
           0x41: 2, 0x42: 17, 0x43: 2, 0x44: 1, 0x45: 8}


class Tokens:
    def __init__(self, data: bytes):
        self.row = list(self.cut(data))

    @staticmethod
    def cut(data: bytes) -> Iterator[tuple]:
        at = 0
        while len(data) - at >= 3:
            tag, length = data[at], 256 * data[at + 1] + data[at + 2]
            body = data[at + 3:at + 3 + length]
            if LENGTHS.get(tag) != length:
                yield at, "odd", tag, body
                return
            yield at, "whole" if len(body) == length else "cut", tag, body
            if len(body) < length:
                return
            at += 3 + length
        yield at, "stub" if at < len(data) else "end", None, b""

    def next(self, *tags) -> tuple:
        at, what, tag, body = self.row[0]
        if what == "end":
            raise Refusal(5, at)
        if what == "stub":
            raise Refusal(1, at)
        if what == "odd" or tag not in tags:
            raise Refusal(2, at)
        if what == "cut":
            raise Refusal(1, at)
        del self.row[0]
        return at, tag, body

    def end(self) -> None:
        if self.row[0][1] != "end":
            raise Refusal(5, self.row[0][0])


def insist(good: bool, number: int, place: int) -> None:
    if not good:
        raise Refusal(number, place)


def judge_sheet(tokens: Tokens) -> None:
    at, _, (k, e) = tokens.next(0x11)
    insist(1 <= k <= 64 and 1 <= e <= 64, 3, at)
    last = b""
    for _ in range(512):
        if tokens.row[0][1] == "end":
            break
        at, _, body = tokens.next(0x12)
        insist(body[0] < k and body[1] < e and body[2] < k, 3, at)
        insist(body > last, 4, at)
        last = body
    tokens.end()


def judge_symbols(tokens: Tokens, count: int, *tags) -> list:
    """The codes of one path."""
    row, height = [], 0
    for _ in range(count):
        at, tag, body = tokens.next(*tags)
        if tag == 0x43:
            insist(body[0] <= 1 and body[1] <= 63, 3, at)
            row.append(64 * body[0] + body[1])
        elif tag == 0x44:
            insist(128 <= body[0] <= 133, 3, at)
            row.append(body[0])
        else:
            row.append(128)
        need = 0 if row[-1] < 128 else 1 if row[-1] == 133 else 2
        insist(height >= need, 6, at)
        height = height - need + 1
    insist(height == 1, 6, tokens.row[0][0])
    return row


def judge_question(tokens: Tokens) -> None:
    at, _, (count,) = tokens.next(0x21)
    insist(1 <= count <= 32, 3, at)
    judge_symbols(tokens, count, 0x43, 0x44)
    tokens.end()


def judge_register(tokens: Tokens) -> None:
    at, _, body = tokens.next(0x31)
    records, links = 256 * body[0] + body[1], 256 * body[2] + body[3]
    insist(records <= 1024 and links <= 4096, 3, at)
    for _ in range(records):
        at, _, body = tokens.next(0x32)
        insist(body[0] <= 63, 3, at)
    last = b""
    for _ in range(links):
        at, _, body = tokens.next(0x33)
        insist(body[2] <= 63, 3, at)
        insist(256 * body[0] + body[1] < records, 3, at)
        insist(256 * body[3] + body[4] < records, 3, at)
        insist(body > last, 4, at)
        last = body
    tokens.end()


def judge_narrowed(tokens: Tokens) -> None:
    at, _, body = tokens.next(0x41)
    count = 256 * body[0] + body[1]
    insist(count <= 128, 3, at)
    last = []
    for _ in range(count):
        at, _, body = tokens.next(0x42)
        insist(1 <= body[0] <= 48, 3, at)
        row = judge_symbols(tokens, body[0], 0x43, 0x44, 0x45)
        insist(row > last, 4, at)
        last = row
    tokens.end()


JUDGES = {"sheet": judge_sheet, "question": judge_question,
          "register": judge_register, "narrowed": judge_narrowed}


def verdict(file: str, data: bytes) -> Optional[tuple]:
    """None if the file is read, else the refusal's number and place."""
    try:
        JUDGES[file](Tokens(data))
    except Refusal as refusal:
        return refusal.number, refusal.place
    return None
