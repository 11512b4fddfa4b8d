#!/usr/bin/env python3
"""respell.py     Once, behind port.py: brings the repository's own names to the spelling of today's Rattle.

Words that the repository defines in specs/ and proofs/ (definitions, lemmas, fields) go from camel case to snake case, in all .antt
files and in the clauses and comments of .rt files: `isReduced` is `is_reduced`, `oddPrime-means` is `odd_prime-means`. Types, modules
and functions of src/ keep their names. `result` of plan/specs/Causes, the name that a clause now gives to what a call returns, is
`leaves`. Clauses that kept their λ lose it. Says which words of a file fall together.
"""
import glob
import re
import sys

FIELDS = r"[^\s(){}\[\],;.:\"`«»⌜⌝]+"
DECLARED = re.compile(r"^[ \t]*(?:(?:abbrev|unfoldable|data|record|pub|mod|struct|enum|ghost|module)\s+)*(" + FIELDS + r")(?: \{[^}]*\})* *:(?![:=])", re.M)
CAMEL = re.compile(r"[a-z][a-z0-9]*(?:[A-Z][a-z0-9]*)+")


# Lemmas whose names would fall together with a definition's: the module that declares it, the word behind port.py, the word from now on.
LEMMAS = [
    ("lines", "DigitLaws", "is_digit", "is_digit-true"),
    ("lines", "LineLaws", "next_place", "next_place-turn"),
    ("listing", "Rooms", "step_count", "step_count-length"),
    ("plan", "Limits", "out_of_range", "out_of_range-true"),
]


def rename_lemmas(paths):
    for crate, module, old, new in LEMMAS:
        home = f"crates/{crate}/proofs/{module}.antt"
        imports = re.compile(r"^use Rattle\." + crate + r"\.proofs\." + module + r"\.\{[^}]*(?<![\w.'-])" + old + r"(?![\w'-])", re.M)
        for path in paths:
            text = open(path, encoding="utf-8").read()
            if path == home or imports.search(text):
                turned = re.sub(r"(?<![\w.'-])" + old + r"(?![\w'-])", new, text)
                if turned != text:
                    open(path, "w", encoding="utf-8").write(turned)


def snake(word):
    return re.sub(r"(?<=[a-z0-9])([A-Z])", lambda m: "_" + m.group(1).lower(), word)


def files():
    return sorted(glob.glob("crates/*/specs/**/*.antt", recursive=True) + glob.glob("crates/*/proofs/**/*.antt", recursive=True)), sorted(glob.glob("crates/*/src/**/*.rt", recursive=True))


def main():
    antt, rt = files()
    rename_lemmas(antt)
    own = set()
    for path in antt:
        for m in DECLARED.finditer(open(path, encoding="utf-8").read()):
            for part in m.group(1).split("-"):
                if CAMEL.fullmatch(part):
                    own.add(part)
    word = re.compile(r"(?<![\w'′₀-₉])(" + "|".join(sorted(own, key=len, reverse=True)) + r")(?![\w'′])")
    said = []
    for path in antt + rt:
        text = open(path, encoding="utf-8").read()
        have = set(re.findall(r"[A-Za-z_][\w'′]*", text))
        for w in sorted(own & have):
            if snake(w) in have:
                said.append(f"{path}: {w} and {snake(w)}")
        out = []
        for line in text.split("\n"):
            comment = line.lstrip().startswith(("--", "//"))
            code = line
            if path.endswith(".antt") and not comment:
                code = re.sub(r"(?<![\w.'′-])result(?![\w'′])(?!-(?!refused))", "leaves", code)
            clause = re.match(r"( *(?:ensures|requires))\*?( \w+)? \{ λ (\w+)\. ⌜ (.*) ⌝ \}$", code)
            if clause:
                head, name, r, said_of = clause.groups()
                said_of = re.sub(r"(?<![\w.'′-])result(?![\w'′-])", "leaves", said_of)
                if r != "_":
                    said_of = re.sub(r"(?<![\w.'′-])" + r + r"(?![\w'′-])", "result", said_of)
                code = f"{head}{name or ''} {{ {said_of} }}"
            elif path.endswith(".rt") and re.match(r" *ghost use Rattle\.plan\.specs\.Causes", code):
                code = re.sub(r"\bresult\b", "leaves", code)
            new = word.sub(lambda m: snake(m.group(1)), code)
            if comment and len(new) > len(line):
                # a table of names in a comment keeps its columns where it can
                more = len(new) - len(line)
                gap = re.search(r"(?<=\S) {3,}(?=\S)", new[4:])
                if gap:
                    drop = min(more, len(gap.group(0)) - 2)
                    at = 4 + gap.start()
                    new = new[:at] + new[at + drop:]
            if comment and path.endswith("Causes.antt") and "result k new old" in new:
                new = new.replace("result k new old", "leaves k new old")
            out.append(new)
        new = "\n".join(out)
        if new != text:
            open(path, "w", encoding="utf-8").write(new)
    print("\n".join(said))
    print(f"{len(own)} words", file=sys.stderr)


if __name__ == "__main__":
    main()
