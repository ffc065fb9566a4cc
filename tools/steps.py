"""Gives names to the places that a proof goes back to, where a line would be too long without them.

    python3 -m tools.steps FILE..   rewrites these Proof.antt

In a need, of a function or of a cycle, `c .before .before .before` is the place three steps back. Where a need has a line of more than 200
characters, each place that it goes back to gets a name, from the nearest on: `let c3 = c .before .before .before in let c12 = c3 .before ..
in`, the number that of the steps back; what is still too long is broken where the fewest parentheses are open. A need with a `search` in it
is left as it is: a search goes through the fields of every name. So is one with a `where`.
"""
import re
import sys
from pathlib import Path

LONGEST = 200
INDENT = "    "
NEED = re.compile(r"(?s)^(.*?(?:^|\n)[\w′+-]+ (?:t )?c(?: κs)? =)(.*)$")
STEP = r" \.before(?![\w-])"
PLACE = re.compile(rf"\bc((?:{STEP})+)")
NAMED = re.compile(rf"\s*let c(\d+) = c\d*(?:{STEP})+ in")


def too_long(text: str) -> bool:
    return any(len(line) > LONGEST for line in text.split("\n"))


def break_at(text: str) -> int | None:
    """The last space within a line at which the fewest parentheses are open, one after a comma before others."""
    best, fewest, depth = None, None, 0
    for at, sign in enumerate(text[: LONGEST - len(INDENT)]):
        depth += (sign in "([{") - (sign in ")]}")
        if sign != " " or at < 40 or text[at + 1] == ".":
            continue
        weight = (depth, text[at - 1] != ",")
        if fewest is None or weight <= fewest:
            best, fewest = at, weight
    return best


def lines_of(text: str) -> list:
    """An expression as lines that are short enough, if it can be broken."""
    text, lines = re.sub(r"\s*\n\s*", " ", text.strip()), []
    while len(INDENT + text) > LONGEST:
        at = break_at(text)
        if at is None:
            break
        lines.append(INDENT + text[:at])
        text = text[at + 1:]
    return lines + [INDENT + text]


def unnamed(body: str) -> str:
    """The body with its places written out."""
    names = {int(found.group(1)) for found in NAMED.finditer(body)}
    body = NAMED.sub("", body)
    return re.sub(r"\bc(\d+)\b", lambda found: "c" + " .before" * int(found.group(1)) if int(found.group(1)) in names else found.group(0), body)


def named(body: str) -> tuple:
    """The lets of the places that a body goes back to, and the body with their names."""
    steps = sorted({len(found.group(1).split()) for found in PLACE.finditer(body)} - {1})
    lets = [f"let c{step} = c{last or ''}{' .before' * (step - last)} in" for last, step in zip([0] + steps, steps)]
    return lets, re.sub(rf"\bc((?:{STEP}){{2,}})", lambda found: f"c{len(found.group(1).split())}", body)


def first_let(body: str) -> int | None:
    """Where the `in` of the let at the start of a body ends."""
    depth = within = 0
    for found in re.finditer(r"[(\[{)\]}]|\blet\b|\bin\b", body):
        word = found.group(0)
        if word in "([{":
            depth += 1
        elif word in ")]}":
            depth -= 1
        elif depth == 0:
            within += 1 if word == "let" else -1
            if within == 0:
                return found.end()
    return None


def rewritten(block: str) -> str:
    found = NEED.match(block)
    if not found or not too_long(block) or "search" in found.group(2) or "where" in found.group(2):
        return block
    lets, body = named(unnamed(found.group(2)))
    lines = [found.group(1)] + [line for let in lets for line in lines_of(let)]
    body = body.strip()
    while body.startswith("let ") and (end := first_let(body)) is not None:
        lines += lines_of(body[:end])
        body = body[end:].strip()
    return "\n".join(lines + lines_of(body))


def main() -> None:
    for name in sys.argv[1:]:
        path = Path(name)
        text = path.read_text()
        path.write_text("".join(rewritten(block) for block in re.split(r"(\n\n)", text)))


if __name__ == "__main__":
    main()
