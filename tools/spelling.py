"""Brings the repository's own definitions and lemmas to today's spelling: words in snake case, types in camel case.

Run once, at the top, after the toolchain's own port script. It goes by text: it collects the names that specs/ and proofs/ declare
(definitions, lemmas, constructors, fields), says what each becomes, refuses where two names would fall together, and rewrites every
file of crates/ token by token. In .rt files only what is ghost changes. Names of goals, which the toolchain makes, stay.
"""

import os
import re
import sys

TOKEN = re.compile(r"[^\s(){}\[\],;.]+")
SIGNATURE = re.compile(r"^(\s*)((?:(?:pub|abbrev|unfoldable|pattern) )*)([^\s(){}\[\],;.:=]+(?: [^\s(){}\[\],;.:=]+)*) : (.*)$")
MADE = re.compile(r"^(tie|goal|reads|stated|\(tie|\(goal)\b|\bstatement\b")
# A name that its rule would give the name of another thing.
OWN = {"bit-or": "bit_of_or", "bit-and": "bit_of_and", "passes": "PassesThrough"}
WORDS = {"use", "let", "in", "where", "module", "mod", "open", "elim", "record", "data", "infixl", "infixr", "infix", "deriving"}


def files(suffix):
    for folder, below, names in os.walk("crates"):
        below[:] = sorted(b for b in below if b not in ("out", "must-fail", "data"))
        for name in sorted(names):
            if name.endswith(suffix):
                yield os.path.join(folder, name)


def code_of(line):
    at = re.search(r"(^|\s)--(\s|$)", line)
    return line[: at.start()] if at else line


def statements(text):
    """Each signature with its names, its type (its lines joined) and whether it declares a type."""
    lines = [code_of(l) for l in text.split("\n")]
    for i, line in enumerate(lines):
        head = re.match(r"^\s*(?:pub )?(?:record|data) ([^\s({:]+)", line)
        if head:
            yield [head.group(1)], "Type 0"
            continue
        m = SIGNATURE.match(line)
        if not m:
            continue
        names = m.group(3).split(" ")
        if names[0] in WORDS:
            continue
        deep = len(m.group(1))
        said = m.group(4)
        for more in lines[i + 1 :]:
            if not more.strip() or len(more) - len(more.lstrip()) <= deep:
                break
            if re.match(r"^\s*where\b", more):
                break
            said += " " + more.strip()
        yield names, said


def imported(text):
    """Names that a file takes from outside the repository."""
    found = set()
    for path, names in re.findall(r"\buse ([^\s;{]+)\.\{([^}]*)\}", text):
        if not re.match(r"Rattle\.(%s)\." % "|".join(CRATES), path):
            for name in names.split(","):
                found.update(name.split(" as ")[-1].split())
    return found


def snake(name):
    name = name.replace("·", "_").replace("′", "'").replace("-", "_")
    name = re.sub(r"(?<=[a-z0-9])(?=[A-Z])", "_", name)
    name = re.sub(r"[A-Z]+", lambda m: m.group(0).lower(), name)
    return re.sub(r"(?<=[^_])__+(?=[^_])", "_", name)


def camel(name):
    return "".join(part[:1].upper() + part[1:] for part in re.split(r"[-_]", name))


def spelled(name, is_type):
    if name in OWN:
        return OWN[name]
    if "◌" in name or not re.match(r"^[A-Za-z]", name):
        return name
    if is_type:
        return camel(name)
    if re.search(r"[-·′]|[a-z0-9][A-Z]", name) and not re.match(r"^[A-Z]", name):
        return snake(name)
    return name


def is_type(said):
    return bool(re.search(r"(^|→ )Type (\d|ℓ|\(.*\))$", said.strip()))


def names():
    """What each declared name becomes, over all files, and where names of a function's own proof stand, file by file."""
    whole, owned, clash = {}, {}, []
    for path in files(".antt"):
        with open(path, encoding="utf-8") as f:
            text = f.read()
        inner = re.match(r"crates/[^/]+/proofs/[^/]+/", path)
        for found, said in statements(text):
            for name in found:
                if inner and MADE.search(said):
                    continue
                new = spelled(name, is_type(said))
                if inner:
                    if new != name:
                        owned.setdefault(path, {})[name] = new
                    continue
                if whole.setdefault(name, new) != new:
                    clash.append(f"{path}: {name} would be {whole[name]} and {new}")
    return {k: v for k, v in whole.items() if k != v}, owned, clash


def ghost(text):
    """The parts of a .rt file that are ghost: imports, clauses, ghost members."""
    at = 0
    for m in re.finditer(r"\bghost use\b[^;]*;|\b(requires|ensures)\*?( \w+)? \{|\bghost [\w ]+[:=] \{", text):
        if m.start() < at:
            continue
        end = m.end()
        if not m.group(0).startswith("ghost use"):
            deep = 1
            while deep:
                deep += {"{": 1, "}": -1}.get(text[end], 0)
                end += 1
        yield text[at : m.start()], text[m.start() : end]
        at = end
    yield text[at:], ""


def turned(text, names):
    skip = imported(text)

    def one(m):
        word = m.group(0)
        return names.get(word, word) if word not in skip else word

    out = []
    for line in text.split("\n"):
        code = code_of(line)
        said = re.sub(r"`[^`]*`", lambda m: TOKEN.sub(one, m.group(0).replace("`", " ` ")).replace(" ` ", "`"), line[len(code) :])
        out.append(TOKEN.sub(one, code) + said)
    return "\n".join(out)


def main():
    global CRATES
    CRATES = sorted(os.listdir("crates"))
    whole, owned, clash = names()
    said = {}
    for path in files(".antt"):
        with open(path, encoding="utf-8") as f:
            for found, _ in statements(f.read()):
                for name in found:
                    said.setdefault(name, path)
    for old, new in sorted(whole.items()):
        if new in said:
            clash.append(f"{old} of {said[old]} becomes {new}, which {said[new]} has")
    back = {}
    for old, new in whole.items():
        if back.setdefault(new, old) != old:
            clash.append(f"{old} and {back[new]} both become {new}")
    if "--list" in sys.argv:
        for old, new in sorted(whole.items()):
            print(old, new)
    for line in clash:
        print("clash:", line)
    for path in files(".antt"):
        with open(path, encoding="utf-8") as f:
            text = f.read()
        for name in imported(text) & set(whole.values()):
            print(f"clash: {path} imports {name} from the library")
    if clash and "--anyway" not in sys.argv or "--list" in sys.argv:
        return 1
    for path in files(".antt"):
        with open(path, encoding="utf-8") as f:
            text = f.read()
        new = turned(text, whole | owned.get(path, {}))
        if new != text:
            with open(path, "w", encoding="utf-8") as f:
                f.write(new)
    for path in files(".rt"):
        with open(path, encoding="utf-8") as f:
            text = f.read()
        new = "".join(plain + turned(part, whole) for plain, part in ghost(text))
        if new != text:
            with open(path, "w", encoding="utf-8") as f:
                f.write(new)
    return 0


if __name__ == "__main__":
    raise SystemExit(main())
