#!/usr/bin/env python3
"""The spelling of this repository's own names, after the kit's port.py has run: run it once, at the top, on what port.py left.

- a definition or lemma in camel case that is no type gets snake case: maxGreatest, max_greatest
- a lemma whose name would be a definition's gets _lem
- a dash stays in a lemma's name where it joins two names (of a definition of this repository or of the library); a plain word is joined by _
- the same in record fields of specs/ and proofs/, in clauses and in must-fail edits, whose primes are apostrophes too
- plain structs and enums, which could be copied without saying so, derive Clone and Copy

Names that Rattle makes (the goals, in proofs/F/Proof.antt), functions of src/ and strings stay.
With --list it only prints the names."""
import os
import re
import sys

FILES = [os.path.join(r, f) for r, d, fs in os.walk("crates") if "/out" not in r for f in fs]
ANTT = sorted(f for f in FILES if f.endswith(".antt"))
RT = sorted(f for f in FILES if f.endswith(".rt"))
EDITS = sorted(f for f in FILES if f.endswith(".edit"))
HEAD = re.compile(r"^\s*(?:(?:pub|abbrev|unfoldable|inductive|record)\s+)*([^\W\d][\w'-]*)\s*(?:\{[^}]*\}\s*|\([^)]*\)\s*)*:(?!=)(.*)")
TOKEN = re.compile(r"[^\W\d][\w'-]*")
MADE = re.compile(r"Need-|\.invariant|\.decreases|\bstatement\b|-lts\.|\btie\.")
# lemmas whose names would fall together with a definition's
APART = ("area-or-all", "grid-of", "on-field", "on-gap", "on-number", "raster-bytes", "record-short", "roll-text", "side-fits", "level_in", "on_value", "on_values")


def read(path):
    with open(path, encoding="utf-8") as f:
        return f.read()


def crates():
    return set(os.listdir("crates"))


def foreign(text):
    """The names that a file imports from outside the repository."""
    names = set()
    own = crates()
    for m in re.finditer(r"^\s*(?:ghost )?use ([\w.'+-]+)\.\{([^}]*)\}", text, re.M):
        parts = m[1].split(".")
        if not (parts[0] == "Rattle" and len(parts) > 1 and parts[1] in own):
            names |= {n.strip() for n in m[2].split(",")}
    return names


def snake(name):
    return re.sub(r"(?<=[a-z0-9₀-₉])([A-Z])", lambda m: "_" + m[1].lower(), name)


def is_camel(name):
    return name[0].islower() and re.search(r"[a-z0-9₀-₉][A-Z]", name)


def collected():
    """The names that the repository's antt files define, and the names that a dash may join."""
    mine, made, words = set(), set(), set()
    for path in ANTT:
        text = read(path)
        words |= foreign(text)
        for line in text.splitlines():
            m = HEAD.match(line)
            if not m or line.lstrip().startswith(("--", "use ")):
                continue
            if MADE.search(m[2]) or m[1].endswith("-spec"):
                made.add(m[1])
            else:
                mine.add(m[1])
                if "/specs/" in path and not line.startswith("  "):
                    words.add(m[1])
    return mine - made, words


def undashed(name, words):
    parts = name.split("-")
    out = parts[0]
    for a, b in zip(parts, parts[1:]):
        out += ("-" if snake(a) in words and snake(b) in words else "_") + b
    return out


def renamed():
    mine, words = collected()
    words = {snake(w) if is_camel(w) else w for w in words if "-" not in w}
    to = {}
    for n in sorted(mine):
        new = snake(n) if is_camel(n) else n
        if "-" in new:
            new = undashed(new, words)
        if n in APART:
            new = n.replace("-", "_") + "_lem"
        if new != n:
            to[n] = new
    return to


def turned(line, to, skip):
    """A line of antt, with comments turned only between backquotes and in camel case."""
    cut = line.find("--") if line.lstrip().startswith("--") or " -- " in line else -1
    code, said = (line, "") if cut < 0 else (line[:cut], line[cut:])

    def one(m):
        return m[0] if m[0] in skip else to.get(m[0], m[0])

    def remark(m):
        quoted = said[m.start() - 1 : m.start()] == "`" or is_camel(m[0])
        return one(m) if quoted else m[0]

    return TOKEN.sub(one, code) + TOKEN.sub(remark, said)


def main():
    to = renamed()
    if "--list" in sys.argv:
        for a, b in to.items():
            print(a, b)
        return
    camel = {a: b for a, b in to.items() if "-" not in a}
    for path in ANTT:
        text = read(path)
        skip = foreign(text)
        new = "\n".join(turned(line, to, skip) for line in text.split("\n"))
        if new != text:
            open(path, "w", encoding="utf-8").write(new)
    for path in RT:
        text = read(path)
        new = "\n".join(turned(line.replace("//", "--", 1), camel, set()).replace("--", "//", 1) if line.lstrip().startswith("//")
                        else TOKEN.sub(lambda m: camel.get(m[0], m[0]), line) for line in text.split("\n"))
        new = re.sub(r"^#\[derive\(Drop\)\]$", "#[derive(Clone, Copy)]", new, flags=re.M)
        if new != text:
            open(path, "w", encoding="utf-8").write(new)
    for path in EDITS:
        text = read(path)
        which = to if ".antt" in text else camel
        text = text.replace("′", "'")
        new = "\n".join(TOKEN.sub(lambda m: which.get(m[0], m[0]), line) if line.startswith(("old:", "new:")) else line for line in text.split("\n"))
        open(path, "w", encoding="utf-8").write(new)


main()
