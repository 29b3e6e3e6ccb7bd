#!/usr/bin/env python3
"""Respells the names of this repository's own definitions and lemmas, once: `has-clock` becomes `has_clock`, `Term-exists` becomes `TermExists`.

usage: python3 tools/respell.py        at the top, after the kit's port.py and before any edit by hand

Names are those that specs/ and proofs/ define (definitions, lemmas, fields, constructors), or give to what they import. Names that a file imports from a library,
goals, and the steps of a proof's argument keep their spelling, and so do strings, inputs and outputs. In comments and pages a name is
respelled where it stands between backticks. Where two names would fall together it says so, and writes nothing. It also says where the
new spelling stands in a file already, as a function's name beside its definition's: those are to be looked at.
"""

import os
import re

NAME = r"[A-Za-z0-9_'ℤℕ≤≡]+(?:-[A-Za-z0-9_'ℤℕ≤≡]+)+"
TOKEN = re.compile(r"(?<![\w'ℤℕ-])" + NAME + r"(?![\w'ℤℕ-])")
SIGNATURE = re.compile(r"^\s*(?:(?:abbrev|unfoldable|pub|data|record) )*([^\s():{}]+)((?: [({][^:]*:.*[)}])*) : ?(.*)$")
HEAD = re.compile(r"^\s*(?:pub )?(?:data|record) (\S+)")


def files(ending):
    for top in ("crates",):
        for folder, dirs, names in os.walk(top):
            dirs[:] = sorted(d for d in dirs if d != "out")
            for n in sorted(names):
                if n.endswith(ending):
                    yield os.path.join(folder, n)


def read(p):
    with open(p, encoding="utf-8") as f:
        return f.read()


def own_names():
    found = set()
    for p in files(".antt"):
        for line in read(p).split("\n"):
            if line.lstrip().startswith("--"):
                continue
            m = SIGNATURE.match(line)
            if m and not re.match(r"(goal|needs?)\.", m.group(3)):
                found.add(m.group(1))
            m = HEAD.match(line)
            if m:
                found.add(m.group(1))
            if line.startswith(("use ", "pub use ")):
                found |= set(re.findall(r" as (" + NAME + r")", line))
    return {n for n in found if re.fullmatch(NAME, n)}


def respelt(name):
    if name[0].isupper():
        return "".join(w[:1].upper() + w[1:] for w in name.split("-"))
    return name.replace("-", "_")


def crates():
    return {d for d in os.listdir("crates") if os.path.isdir(os.path.join("crates", d))}


def foreign(text, own_crates):
    """The names that the file imports from elsewhere than this repository's specs/ and proofs/."""
    names = set()
    for m in re.finditer(r"use ([^\s{;]+)\.\{([^}]*)\}", text):
        path = m.group(1).split(".")
        ours = path[0] == "Rattle" and len(path) > 1 and path[1] in own_crates and path[-1] not in ("Goals", "Given")
        if not ours:
            names |= set(re.findall(NAME, m.group(2)))
    return names


def turned(line, table):
    return TOKEN.sub(lambda m: table.get(m.group(0), m.group(0)), line)


def in_backticks(text, table):
    return re.sub(r"`[^`\n]*`", lambda m: turned(m.group(0), table), text)


def turn_code(text, table, comment, steps):
    """Everything but strings, comments and the steps of a proof's argument."""
    out = []
    for line in text.split("\n"):
        at = line.find(comment)
        code, said = (line, "") if at < 0 else (line[:at], line[at:])
        parts = re.split(r'("(?:[^"\\]|\\.)*")', code)
        for i in range(0, len(parts), 2):
            kept = re.split(r"((?<![\w.'])(?:" + "|".join(steps) + r")\." + NAME + r")", parts[i]) if steps else [parts[i]]
            for j in range(0, len(kept), 2):
                kept[j] = turned(kept[j], table)
            parts[i] = "".join(kept)
        out.append("".join(parts) + in_backticks(said, table))
    return "\n".join(out)


def is_answer(p):
    return os.path.basename(p) in ("Answers.antt", "Invariants.antt")


def main():
    names = own_names()
    table = {n: respelt(n) for n in names}
    bad = []
    look = []
    seen = {}
    for n, t in sorted(table.items()):
        if t in seen:
            bad.append(f"{n} and {seen[t]} would both be {t}")
        seen[t] = n
    own_crates = crates()
    new = {}
    for p in list(files(".antt")) + list(files(".rt")):
        text = read(p)
        here = {k: v for k, v in table.items() if k not in foreign(text, own_crates)}
        words = set(re.findall(r"[A-Za-z0-9_'ℤℕ]+(?:-[A-Za-z0-9_'ℤℕ]+)*", text))
        for n in sorted(words & set(here)):
            if here[n] in words:
                look.append(f"{p}: {n} becomes {here[n]}, which stands there already")
        steps = [r"goal"] if not is_answer(p) else [r"goal", r"c", r"w", r"l"]
        new[p] = turn_code(text, here, "--" if p.endswith(".antt") else "//", steps)
    for l in look:
        print("look: " + l)
    if bad:
        print("\n".join(bad))
        return 1
    pages = ["README.md"] + [os.path.join("docs", d) for d in sorted(os.listdir("docs")) if d.endswith(".md")]
    for p in pages:
        if os.path.exists(p):
            new[p] = in_backticks(read(p), table)
    n = 0
    for p, text in new.items():
        if text != read(p):
            with open(p, "w", encoding="utf-8") as f:
                f.write(text)
            n += 1
    print(f"{len(table)} names, {n} files written")
    return 0


if __name__ == "__main__":
    raise SystemExit(main())
