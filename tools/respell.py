#!/usr/bin/env python3
# Respells this repository's own definitions, lemmas, fields and constructors as today's Rattle does: words in snake case, a prime as an
# apostrophe. It is run once, at the top, straight after /opt/rattle/port/port.py. Types (upper camel case), functions of src/, exported C names,
# strings, inputs and outputs keep their names, and so does what Rattle itself names in a function's proof. `--dry` only says what it would do.
import glob
import os
import re
import sys

NAME = re.compile(r"[^\s(){}\[\].,;:λ→|↦?\"⌜⌝«»]+")
DECL = re.compile(r"^(\s*)((?:(?:abbrev|unfoldable|opaque|pub|private) )*)([^\s(){}:.,;]+) :(?:\s|$)")
MADE = re.compile(r"^\s*(?:(?:abbrev|unfoldable|pub) )*[^\s(){}:]+ :\s+(?:tie\.|statement|\{M : Type 1\} → statement|\(M : Type 1\) → statement)")


def antt():
    return sorted(glob.glob("crates/*/specs/**/*.antt", recursive=True) + glob.glob("crates/*/proofs/**/*.antt", recursive=True))


def snake(n):
    n = n.replace("-", "_").replace("′", "'")
    return re.sub(r"(?<=[a-z0-9])([A-Z])", lambda m: "_" + m[1].lower(), n)


def wanted(n):
    return n[0].islower() and re.fullmatch(r"[A-Za-z0-9_'′₀-₉-]+", n) and snake(n) != n


def of_library(text):
    """The names that a file imports from elsewhere than the repository's own crates, by their own names."""
    own = {os.path.basename(os.path.dirname(p)) for p in glob.glob("crates/*/src")}
    found = set()
    for m in re.finditer(r"(?m)^\s*(?:pub )?(?:ghost )?use ([^\s{;]+?)(?:\.\{([^}]*)\})?(?: as \S+)?;?$", text):
        path = m[1].split(".")
        if path[0] == "Rattle" and len(path) > 1 and path[1] in own:
            continue
        for w in (m[2] or "").split(","):
            found |= set(w.split(" as ")[:1])
    return {w.strip() for w in found}


def declared():
    names, plain = {}, set()
    for p in antt():
        by_hand = re.search(r"/proofs/.+/Proof\.antt$", p)
        for line in open(p, encoding="utf-8"):
            if line.lstrip().startswith("--"):
                continue
            m = DECL.match(line)
            if not m or by_hand and MADE.match(line) or by_hand and m[3].endswith(("-spec", "_spec")):
                continue
            if wanted(m[3]):
                names.setdefault(m[3], set()).add(p)
            else:
                plain.add(m[3])
    return names, plain


def fields():
    """The fields of this repository's own records."""
    found = set()
    for p in antt():
        inside = False
        for line in open(p, encoding="utf-8"):
            if re.match(r"\s*(?:pub )?record .* where$", line):
                inside, depth = True, len(line) - len(line.lstrip())
            elif inside and line.strip() and len(line) - len(line.lstrip()) <= depth:
                inside = False
            elif inside and (m := DECL.match(line)):
                found.add(m[3])
    return found


def turn(text, names, by_hand=(), own=()):
    """In a proof that walks the code by hand what stands behind a dot is mostly Rattle's name of a step, so only fields of our own turn there."""

    def one(m):
        n = m[0]
        if by_hand and "-" in n and n not in own and text[m.start() - 1 : m.start()] == ".":
            return n
        return names.get(n, n)

    return NAME.sub(one, text)


def rest(dry):
    """Names in comments and pages, and local names, that are still in camel case."""
    camel = re.compile(r"(?<![\w.-])[a-z][a-z0-9]*(?:[A-Z][A-Za-z0-9]*)+'?(?![\w-])")
    known = set()
    for p in antt() + sorted(glob.glob("crates/*/src/**/*.rt", recursive=True)):
        text = open(p, encoding="utf-8").read()
        code = re.sub(r"(?m)--.*$|//.*$", "", text)
        known |= set(NAME.findall(code))
        for n in sorted(set(camel.findall(code))):
            if re.search(r"(?<![\w-])" + snake(n) + r"(?![\w-])", code):
                print(f"already there: {p}: {n} becomes {snake(n)}")
        new = camel.sub(lambda m: snake(m[0]), text)
        if new != text and not dry:
            open(p, "w", encoding="utf-8").write(new)
    for p in ["README.md"] + sorted(glob.glob("docs/**/*.md", recursive=True)):
        text = open(p, encoding="utf-8").read()
        word = re.compile(r"(?<![\w-])[a-z][a-z0-9]*(?:-[a-z0-9]+|[A-Z][A-Za-z0-9]*)+(?![\w-])")

        def respelled(m):
            return word.sub(lambda w: next((s for s in (snake(w[0]) + "_lem", snake(w[0])) if s in known and (s.endswith("_lem") == ("-" in w[0])) or s == snake(w[0]) and s in known), w[0]), m[0])

        new = re.sub(r"`[^`\n]+`", respelled, text)
        if new != text and not dry:
            open(p, "w", encoding="utf-8").write(new)


def main():
    dry = "--dry" in sys.argv
    where, plain = declared()
    names = {n: snake(n) for n in where}
    # a lemma that would have the name of what it is about gets `_lem`
    taken = plain | {s for n, s in names.items() if "-" not in n}
    for n in names:
        if "-" in n and names[n] in taken:
            names[n] += "_lem"
            print("a lemma about another:", n, names[n])
    back = {}
    for n, s in names.items():
        back.setdefault(s, []).append(n)
    for s, ns in sorted(back.items()):
        if len(ns) > 1:
            print("fall together:", s, ns)
    own = fields()
    files = antt() + sorted(glob.glob("crates/*/src/**/*.rt", recursive=True)) + sorted(glob.glob("crates/*/must-fail/*.edit"))
    for p in files:
        text = open(p, encoding="utf-8").read()
        lib = of_library(text)
        mine = {n: s for n, s in names.items() if n not in lib and (p.endswith(".antt") or "-" not in n)}
        if p.startswith("crates/bench_c/proofs/") and "saysNone" in names:
            # port.py gave this lemma the name that `saysNone` has now
            mine["says_none"] = "says_none_lem"
        if p.endswith("Proof.antt"):
            for line in text.split("\n"):
                m = DECL.match(line)
                if m and MADE.match(line):
                    mine.pop(m[3], None)
        tokens = set(NAME.findall(re.sub(r"(?m)--.*$|//.*$", "", text)))
        for n in sorted(tokens & set(mine)):
            if mine[n] in tokens and n != "saysNone":
                print(f"already there: {p}: {n} becomes {mine[n]}")
            if mine[n] in lib:
                print(f"a library's: {p}: {n} becomes {mine[n]}")
        for n in sorted(tokens & lib & set(names)):
            print(f"left, a library's: {p}: {n}")
        new = turn(text, mine, re.search(r"/proofs/.+/Proof\.antt$", p), own)
        if new != text and not dry:
            open(p, "w", encoding="utf-8").write(new)
    rest(dry)
    print(len(names), "names")


main()
