#!/usr/bin/env python3
"""Respells the repository's own definitions and lemmas: words in snake case, with a dash only between two names.

usage: tools/respell.py [--check]

Run once, at the top, behind the kit's port.py. It turns in crates/ the names that the .antt files of specs/ and proofs/ declare:
`fromBytes` becomes `from_bytes`, and a lemma `kept-is` becomes `kept_is`, while `length-drop_last` keeps its dash, as the library's
lemmas on two functions do. Types and modules keep their capitals, and names that Rattle makes (goals and fields of a walk) stay. A name
stays in a file that imports it from a library. A lemma that would meet its function in a file gets `_lem`.
"""

import collections
import os
import re
import sys

WORD = re.compile(r'[^\s(){}.;,@"«»`]+')
DECLARED = re.compile(r"^( *)(?:(?:unfoldable|abbrev|pub|data|record) +)*((?:[^\s(){}.;,@\"«»:]+ +)+?)(?:[({][^:]*)?: ")
NO_NAMES = {"=", "let", "in", "λ", "→", "|", "↦", "use", "module", "unfolding"}
USE = re.compile(r"^ *(?:pub )?(?:ghost )?use ([^\s;{]+)(?:\{([^}]*)\})?", re.M)
MADE = re.compile(r"(?:^|[\s({,])(?:c|s|l|w|t|g|p|goal|tie)\.$")
# functions that a lemma joins by a dash, as the library's do
JOINED = {"length", "map", "take", "drop_last"}
# definitions whose snake case is the name of a field, and one whose words the rule does not find
TABLE = {"callHeight": "height_of_calls", "notANumber": "not_a_number", "openCalls": "open_calls_after"}
# names of one file that would meet a definition's new one
FIRST = {
    "binary64/specs/Theorems.antt": {"with-sign": "has_sign"},
    "binary64/proofs/Rounded.antt": {"with-sign": "has_sign"},
    "float64/proofs/Decode.antt": {"not-a-number": "is_not_a_number"},
    "float64/proofs/Conversions.antt": {"is_nan": "float_is_nan"},
    "machine/proofs/Only.antt": {"ending_of": "ending_alike"},
    "machine/proofs/Valid.antt": {"name_in": "name_inside"},
    "machine/proofs/Tables.antt": {"name_in": "name_inside"},
    "mm_host/proofs/Answers.antt": {"run_call": "run_called"},
    "mm_host/proofs/mm_run/Proof.antt": {"run_call": "run_called"},
    "rewritten/proofs/Kept.antt": {"is_name": "only_name", "written_byte": "written_small"},
}


def first(path, text):
    names = FIRST.get(path[len("crates/") :], {})
    text = WORD.sub(lambda m: names.get(m[0], m[0]), text)
    return text.replace("nan, inf, fin, float_is_nan,", "nan, inf, fin, is_nan as float_is_nan,")


def snake(name):
    return re.sub(r"(?<=[a-z0-9])[A-Z](?![A-Z])", lambda m: "_" + m[0].lower(), name.replace("NaN", "Nan"))


def files(root):
    for folder, dirs, names in os.walk(root):
        dirs[:] = sorted(d for d in dirs if d != "out")
        for n in sorted(names):
            if n.endswith((".antt", ".rt")):
                yield os.path.join(folder, n)


def declared(text):
    for line in text.split("\n"):
        if line.lstrip().startswith("--"):
            continue
        m = DECLARED.match(line)
        if m and not re.search(r"\b(tie|goal)\.", line) and not NO_NAMES & set(m[2].split()):
            yield from m[2].split()


def imported(text):
    for m in USE.finditer(text):
        if m[1].startswith("Rattle.") and not re.match(r"Rattle\.(std|core|bytes|io)\b", m[1]):
            continue
        for name in (m[2] or "").split(","):
            yield name.split(" as ")[0].strip()


def main():
    texts = {p: first(p, open(p, encoding="utf-8").read()) for p in files("crates")}
    ours = set()
    for p, t in texts.items():
        if p.endswith(".antt"):
            ours |= set(declared(t))

    def respelled(name):
        if not name[:1].islower():
            return name
        parts = [snake(x) for x in name.split("-")]
        if parts[-1] != "spec":
            for k in range(1, len(parts)):
                left, right = "_".join(parts[:k]), "_".join(parts[k:])
                if left in JOINED and right in JOINED:
                    return left + "-" + right
        return "_".join(parts)

    table = {n: respelled(n) for n in ours}
    table = {n: r for n, r in {**table, **TABLE}.items() if n != r}
    # names that would meet in a file: two of its words, behind no dot and in no comment, with one spelling
    meets = set()
    for p, t in sorted(texts.items()):
        if p.endswith(".antt"):
            lib = set(imported(t))
            code = re.sub(r"(?m)(^| )--.*$|[\w]+ as ", "", t)
            words = set(m[0] for m in WORD.finditer(code) if code[m.start() - 1 : m.start()] != ".")
            spelled = collections.Counter(w if w in lib else table.get(w, w) for w in words)
            for n in sorted(words & set(table) - lib):
                if spelled[table[n]] > 1:
                    print("meets in", p, n, table[n])
                    meets.add(n)
    # a lemma that would have its function's name
    for n in meets:
        if "-" in n:
            table[n] += "_lem"
            print("now", n, table[n])
    turned = 0
    for p, t in sorted(texts.items()):
        lib = set(imported(t))
        # in a function's proof the field behind `c.` is Rattle's
        walk = re.search(r"/proofs/.*/", p)

        def turn(m):
            word = m[0]
            if word not in table or word in lib or walk and MADE.search(t, max(0, m.start() - 6), m.start()):
                return word
            return table[word]

        new = WORD.sub(turn, t)
        if new != open(p, encoding="utf-8").read():
            turned += 1
            if "--check" not in sys.argv:
                open(p, "w", encoding="utf-8").write(new)
    print(f"{len(table)} names, {turned} files")
    if "--table" in sys.argv:
        for n, r in sorted(table.items()):
            print(n, r)


main()
