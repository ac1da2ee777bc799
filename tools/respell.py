#!/usr/bin/env python3
"""Spells this repository's own names as today's Rattle does, after port.py, once, at the top of the repository.

- A definition, lemma, field or constructor of specs/ or proofs/ with a lower camel word gets snake case (isPermutation: is_permutation).
  A word with a capital at its head, a fact, keeps it. What cites the name changes with it: texts, clauses, edits, pages.
- A lemma that would then have a definition's name gets back its dash.
- Small plain types are copied, so they derive Clone and Copy. Each crate's root file asks for the tactics.

Strings, functions of src/ and exported names stay.
"""

import glob
import re

DASHED = "all_pass entered_by has_room one_class same_number".split()
SPECIAL = {"get_d_tabulate": "get_or-tabulate", "tabulate-getD": "tabulate-get_or"}
END = r"[\w'\-≡≢≼≺≤]"


def snake(name):
    def part(p):
        return p if p[:1].isupper() else re.sub(r"(?<=[a-z0-9])[A-Z]", lambda m: "_" + m[0].lower(), p)

    return "-".join(part(p) for p in name.split("-"))


def texts():
    found = glob.glob("crates/*/specs/**/*.antt", recursive=True) + glob.glob("crates/*/proofs/**/*.antt", recursive=True)
    return sorted(found)


def names():
    declared = re.compile(r"(?m)^\s*(?:(?:pub|abbrev|unfoldable|opaque|instance)\s+)*([^\s(){}.;,:@\"]+)((?:\s+[^\s(){}.;,:@\"=]+)*)\s+:\s")
    bound = re.compile(r"(?m)^\s*(?:(?:pub|abbrev|unfoldable|opaque)\s+)*([^\s(){}.;,:@\"]+)(?:\s+[({][^\n]*)?\s+:\s")
    out = set()
    for f in texts():
        with open(f, encoding="utf-8") as it:
            t = re.sub(r"--[^\n]*", "", it.read())
        for rule in (declared, bound):
            for m in rule.finditer(t):
                out.add(m[1])
    return {n for n in out if snake(n) != n}


def without_strings(change, text):
    return "".join(s if k % 2 else change(s) for k, s in enumerate(re.split(r'("(?:[^"\\\n]|\\.)*")', text)))


def main():
    turned = {n: snake(n) for n in names()}
    turned |= {n: n.replace("_", "-") for n in DASHED}
    turned |= SPECIAL
    one = re.compile(rf"(?<!{END})(" + "|".join(re.escape(n) for n in sorted(turned, key=len, reverse=True)) + rf")(?!{END})")

    def change(text):
        return one.sub(lambda m: turned[m[1]], text)

    for f in texts() + glob.glob("crates/*/must-fail/*.edit"):
        rewrite(f, lambda t: without_strings(change, t))
    for f in glob.glob("crates/*/src/**/*.rt", recursive=True):
        rewrite(f, lambda t: without_strings(clauses(change), t))
    for f in ["README.md"] + glob.glob("docs/*.md"):
        rewrite(f, lambda t: re.sub(r"`[^`\n]+`", lambda m: change(m[0]), t))
    for f in glob.glob("crates/*/src/**/*.rt", recursive=True):
        rewrite(f, lambda t: t.replace("#[derive(Drop)]", "#[derive(Clone, Copy)]"))
    for f in glob.glob("crates/*/src/lib.rt") + glob.glob("crates/*/src/main.rt"):
        rewrite(f, with_tactics)


def clauses(change):
    """In Rust's text a dashed name is only in a clause, and a lower camel word is no Rust name of this repository."""
    return lambda text: change(text)


def with_tactics(text):
    if "#![tactic" in text:
        return text
    lines = text.split("\n")
    at = next((k for k, l in enumerate(lines) if not l.startswith("//")), len(lines))
    return "\n".join(lines[:at] + ["#![tactic(auto)]", ""] + lines[at:])


def rewrite(path, change):
    with open(path, encoding="utf-8") as it:
        old = it.read()
    new = change(old)
    if new != old:
        with open(path, "w", encoding="utf-8") as it:
            it.write(new)


if __name__ == "__main__":
    main()
