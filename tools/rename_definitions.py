#!/usr/bin/env python3
"""Brings the repository's own definitions and lemmas to today's spelling: words in snake case, types and facts in upper camel case.

    rename_definitions.py            at the top of the repository, once, right after the toolchain's own port script

A name with a dash that a file of specs/ or proofs/ defines (a definition, a lemma, a field, a parameter, a local name) is renamed
wherever it stands in specs/, proofs/ and src/, where only clauses have such names. A name whose first word is one letter gets
underscores too, whatever its case. Names that the checker makes, as those of goals and steps, and names of the library keep their dashes;
so do comments and strings. Names given by `as` are left. Prints two names that fall together.
"""
import collections
import glob
import re

PART = r"[\w'≤<≡+*ℕ]"
DASHED = re.compile(rf"(?<![\w'])[^\W\d]{PART}*(?:-{PART}+)+")
WORD = r"[\w'≤<≡+*ℕ-]+"
# a comment, or a text
PASSED = re.compile(r'--(?=[\s-]|$)[^\n]*|//[^\n]*|"(?:[^"\\]|\\.)*"')
IMPORT = re.compile(r"use Rattle\.(\w+)[\w.]*\.\{([^}]*)\}")
DEFINED = [
    # at the head of a line: a signature or a field, with the words that may stand before it
    re.compile(rf"^\s*(?:(?:abbrev|unfoldable|opaque|pub|where|let)\s+)*((?:{WORD} )*{WORD}) :(?=\s)", re.M),
    # bound in parentheses or braces
    re.compile(rf"[({{]((?:{WORD} )*{WORD}) :(?=\s)"),
    re.compile(rf"\b(?:let|record|data|ruleset)\s+({WORD})"),
]


def parts(text):
    """The pieces of a text, each with whether it is code."""
    at = 0
    for m in PASSED.finditer(text):
        yield True, text[at:m.start()]
        yield False, m[0]
        at = m.end()
    yield True, text[at:]


def code(text):
    return "".join(p if is_code else "\n" if p[:2] in ("--", "//") else '""' for is_code, p in parts(text))


# a function of the code has the name that the rule gives
OTHERWISE = {"cut-from": "cut_of_numbers"}


def today(name):
    if name in OTHERWISE:
        return OTHERWISE[name]
    if name[0].isupper() and len(name.split("-")[0]) > 1:
        return "".join(word[0].upper() + word[1:] for word in name.split("-"))
    return name.replace("-", "_")


def main():
    own = {line.split(":")[0].split()[0] for line in open("crates.txt") if line.split("#")[0].strip()}
    proofs = sorted(glob.glob("crates/*/specs/*.antt") + glob.glob("crates/*/proofs/**/*.antt", recursive=True))
    sources = sorted(glob.glob("crates/*/src/**/*.rt", recursive=True))
    texts = {path: open(path, encoding="utf-8").read() for path in proofs + sources}
    foreign, made, defined = set(), set(), set()
    for path in proofs + sources:
        text = code(texts[path])
        for m in IMPORT.finditer(text):
            if m[1] not in own:
                foreign.update(n.split(" as ")[0].strip() for n in m[2].split(","))
        if path not in proofs:
            continue
        made.update(re.findall(rf"\b(?:goal|given)\.({WORD})", text))
        for rule in DEFINED:
            for m in rule.finditer(text):
                defined.update(m[1].split())
    names = {n for n in defined if DASHED.fullmatch(n)} - foreign - made
    together = collections.defaultdict(set)
    changed = 0
    for path, text in texts.items():
        stood = set(re.findall(WORD, code(text)))
        for n in names & stood:
            together[(path, today(n))].add(n)
            if today(n) in stood:
                together[(path, today(n))].add(today(n))
        new = "".join(
            DASHED.sub(lambda m: today(m[0]) if m[0] in names else m[0], p) if is_code else p for is_code, p in parts(text))
        if new != text:
            open(path, "w", encoding="utf-8").write(new)
            changed += 1
    for (path, name), olds in sorted(together.items()):
        if len(olds) > 1:
            print(f"look: {path}: {', '.join(sorted(olds))} are one name now")
    print(f"{len(names)} names in {changed} files")


main()
