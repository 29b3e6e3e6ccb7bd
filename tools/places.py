"""Lists the places of older forms in the sources, point by point, with their counts.

    python3 tools/places.py [COMMIT]

reads crates/*/src and crates/*/proofs of the commit, or of the folder if none is named. It finds by
pattern and asks nobody: what it lists is to be read, and what is no older form is said so on the
page that has the counts."""
import collections
import difflib
import glob
import itertools
import os
import re
import subprocess
import sys

KEYWORDS = set(
    "as break const continue else enum false fn for if impl in let loop match mod move mut pub ref return self "
    "static struct super trait true type use where while crate Self".split()
)


def sources(commit, pattern):
    """Each file of this pattern with its text."""
    if commit is None:
        top = os.path.dirname(os.path.dirname(os.path.abspath(__file__)))
        for path in sorted(glob.glob(os.path.join(top, pattern), recursive=True)):
            with open(path, encoding="utf-8") as file:
                yield os.path.relpath(path, top), file.read()
        return
    run = lambda *args: subprocess.run(["git", *args], check=True, capture_output=True, text=True).stdout
    wanted = re.compile(re.escape(pattern).replace(r"\*\*/", "(.*/)?").replace(r"\*", "[^/]*") + "$")
    for path in run("ls-tree", "-r", "--name-only", "--full-tree", commit).split("\n"):
        if wanted.match(path):
            yield path, run("show", f"{commit}:{path}")


class Function:
    """A function: where it is, its signature, its clauses and its body."""

    def __init__(self, path, name, signature, clauses, body):
        self.path, self.name = path, name
        self.signature, self.clauses, self.body = signature, clauses, body

    def __str__(self):
        return f"{self.path}: {self.name}"


def closing(text, start):
    """Where the brace that opens at `start` closes."""
    depth = 0
    for at in range(start, len(text)):
        depth += {"{": 1, "}": -1}.get(text[at], 0)
        if depth == 0:
            return at
    return len(text)


def header_end(text, at):
    """Where a signature ends: at a clause, a body or a semicolon, but not one within brackets."""
    depth = 0
    while at < len(text):
        if depth == 0 and re.compile(r"[{;]|\b(requires|ensures)\b").match(text, at):
            return at
        depth += {"(": 1, "[": 1, ")": -1, "]": -1}.get(text[at], 0)
        at += 1
    return at


def functions(path, text):
    text = re.sub(r'"(\\.|[^"\\])*"', '"S"', text)
    text = re.sub(r"//[^\n]*", "", text)
    for match in re.finditer(r"\bfn (\w+)", text):
        at = header_end(text, match.end())
        signature, clauses, body = " ".join(text[match.end() : at].split()), [], ""
        while word := re.compile(r"\s*(requires|ensures)\b([^{]*)\{").match(text, at):
            end = closing(text, word.end() - 1)
            clauses.append((word.group(1), " ".join(text[word.end() : end].split())))
            at = end + 1
        opened = re.compile(r"\s*([{;])").match(text, at)
        if opened and opened.group(1) == "{":
            body = text[opened.start(1) : closing(text, opened.start(1)) + 1]
        yield Function(path, match.group(1), signature, clauses, body)


def parameters(signature):
    """The parameters of a signature, each `name: type`; a `&mut self` is left out."""
    inner = signature[signature.index("(") + 1 :] if "(" in signature else ""
    depth, parts, part = 0, [], ""
    for sign in inner:
        depth += {"(": 1, "[": 1, "<": 1, "]": -1, ">": -1, ")": -1}.get(sign, 0)
        if depth < 0:
            break
        if sign == "," and depth == 0:
            parts.append(part.strip())
            part = ""
        else:
            part += sign
    parts.append(part.strip())
    return [p for p in parts if ":" in p]


def shape(body):
    """The body's tokens, names and numbers and texts made alike."""
    tokens = re.findall(r"[A-Za-z_]\w*|\d[\w.]*|\S", body)
    return [
        t if t in KEYWORDS else "I" if re.match(r"[A-Za-z_]", t) else "N" if t[0].isdigit() else t for t in tokens
    ]


def show(title, places):
    places = list(places)
    print(f"\n{title}: {len(places)}")
    for place in places:
        print(f"    {place}")


def twins(all_functions):
    """Pairs of functions of one shape, or of nearly one where they are long."""
    long_enough = [(f, shape(f.body)) for f in all_functions]
    long_enough = [(f, s) for f, s in long_enough if len(s) >= 14]
    for (f, a), (g, b) in itertools.combinations(long_enough, 2):
        if a == b or (
            min(len(a), len(b)) >= 40
            and abs(len(a) - len(b)) < 0.2 * len(a)
            and difflib.SequenceMatcher(None, a, b, autojunk=False).ratio() > 0.9
        ):
            yield f"{f} = {g.path}: {g.name}"


def main(commit):
    texts = list(sources(commit, "crates/*/src/**/*.rt" if commit is None else "crates/*/src/*.rt"))
    every = [f for path, text in texts for f in functions(path, text)]
    uses = [(f, re.sub(r"\s+", " ", f.body)) for f in every]

    show("1a numbers that stand for kinds", (f for f in every if re.search(r"^\s*\(?\d[\d.=| ,]*[^{}\n]* => ", f.body, re.M)))
    show("1b numbers for the cases of an enum", (f for f in every if f.name == "number" and re.search(r"=> \d+,", f.body)))
    show("1c marks as numbers", (f for f in every if re.search(r"\bmark(:| ==| =) ?\d", f.body)))
    show("1d a bool that says whether it failed", (f for f in every if re.search(r"&(mut|'a mut) .*-> bool", f.signature)))
    show("1e an option beside a number", (f for f in every if re.search(r"-> .*\((Option<|bool)", f.signature)))
    show("1f an error handed on by hand", (f for f, b in uses if re.search(r"if let Err\(|Err\(\w+\) => (return )?(Err|Report)", b)))
    show("2 twins", twins(every))
    show("3 loops over a range, and `while`", (
        f"{f}: {' '.join(line.split())}" for f in every for line in f.body.split("\n")
        if re.match(r"\s*(while\b|for .* in [^ ]*\.\.)", line)
    ))
    show("4a comparisons field by field", (f for f, b in uses if len(re.findall(r"\.\w+ == \w+(\.\w+)?\b", b)) >= 2 and f.signature.endswith("bool")))
    show("4b texts made by hand", (f for f in every if re.search(r"-> (Result<String|&'static str)", f.signature)))
    show("4c casts", (f"{f}: {n}" for f in every if (n := len(re.findall(r"\bas [iu](8|16|32|64|size)\b", f.body)))))

    facts = collections.Counter((f.path.split("/")[1], re.sub(r"\b(old|now|new)\b", "now", c)) for f in every for k, c in set(f.clauses) if k == "requires")
    show("5a facts that three or more contracts ask for", (f"{crate}: {fact}: {n}" for (crate, fact), n in sorted(facts.items()) if n >= 3))
    pairs = collections.Counter()
    for f in every:
        for pair in itertools.combinations(sorted(set(re.sub(r"^mut ", "", p) for p in parameters(f.signature))), 2):
            pairs[(f.path.split("/")[1], pair)] += 1
    show("5b parameters that three or more functions take together", (f"{crate}: {a}, {b}: {n}" for (crate, (a, b)), n in sorted(pairs.items()) if n >= 3))
    structs = [(p, m) for p, t in texts for m in re.finditer(r"struct (\w+)[^{;]*\{([^}]*)\}", t)]
    show("6a a buffer with a length beside", (f"{p}: {m.group(1)}" for p, m in structs if re.search(r"\[[^\]]*; \d+\]", m.group(2)) and re.search(r"(count|len|length|rows): (u8|u16|u32|usize)", m.group(2))))
    show("6b constant arrays of one length", (
        f"{p}: {a.group(1)}, {b.group(1)}" for p, t in texts
        for a, b in itertools.combinations(re.finditer(r"const (\w+): \[(\w+); (\d+)\]", t), 2) if a.group(2, 3) == b.group(2, 3)
    ))
    show("7 a flag or a kind that picks the step", (f for f, b in uses if re.search(r"\bfn\b|: bool", " " + f.signature) and re.search(r"if (\w+) \{", b) and any(p.split(":")[0] == m for p in parameters(f.signature) for m in re.findall(r"if (\w+) \{", b))))
    answers = [(p, t) for p, t in sources(commit, "crates/*/proofs/**/*.antt") if p.endswith("/Answers.antt")]
    print(f"\n8 files of answers: {len(answers)}, of {sum(t.count(chr(10)) for _, t in answers)} lines")


if __name__ == "__main__":
    main(sys.argv[1] if len(sys.argv) > 1 else None)
