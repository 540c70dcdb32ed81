#!/usr/bin/env python3
"""Respells the repository's own definitions and lemmas as today's Rattle spells names: words in snake case, and a dash only between two names.

usage: python3 tools/respell.py [--list] [ROOT]    once, right behind port.py, at the top of the repository; --list only prints old and new names

Functions of src/, exported C names, fields and variants of Rust types, strings, inputs and outputs keep their names. Facts, types and modules keep their capitals.
"""

import collections
import os
import re
import sys

WORD = re.compile(r"(?<![A-Za-z0-9_'′ℕ₀₁₂-])[A-Za-z][A-Za-z0-9_'′ℕ₀₁₂]*(?:-[A-Za-z0-9_'′ℕ₀₁₂]+)*")
DECLARED = re.compile(r"^[ \t]*(?:(?:pattern|unfoldable|abbrev|axiom|pub|ruleset|data|record)[ \t]+)*([A-Za-z][A-Za-z0-9_'′ℕ₀₁₂-]*)(?:[ \t]*\{[^}\n]*\})*(?:[ \t]*\([^)\n]*\))*[ \t]*:(?![:=])", re.M)
IMPORTS = re.compile(r"use\s+([A-Za-z][\w.·'+-]*)\.\{([^}]*)\}")
# Names that mirror a word of the library, which port.py gave another name.
WORDS = {"get_d": "get_or"}
# Lemmas and variables that would fall together with a definition of the same file, or of one that imports them.
APART = {
    "crates/theorems/proofs/": {"fields_fit": "fields_fit_lem", "tooLong": "too_long_book"},
    "crates/theorems/proofs/Accepted.antt": {"no_end": "no_end'"},
    "crates/theorems/proofs/RaisedStatements.antt": {"value_in": "value_in_lem"},
    "crates/expressions/proofs/Turns.antt": {"run_on": "run_on_lem"},
}


def files(root, *endings):
    for folder, dirs, names in os.walk(os.path.join(root, "crates")):
        dirs[:] = sorted(d for d in dirs if d not in ("out", ".git"))
        for f in sorted(names):
            if f.endswith(endings):
                yield os.path.join(folder, f)


def read(path):
    with open(path, encoding="utf-8") as f:
        return f.read()


def snake(word):
    """A word with each hump as an underscore, unless it begins with a capital (a type, a fact)."""
    if not word or word[0].isupper():
        return word
    return re.sub(r"([a-z0-9])([A-Z])", lambda m: m[1] + "_" + m[2].lower(), word)


def is_law(path):
    return "/specs/" in path or ("/proofs/" in path and os.path.basename(path) != "Proof.antt")


def main():
    words = [a for a in sys.argv[1:] if a != "--list"]
    root = words[0] if words else "."
    antt, rt, edits = (list(files(root, e)) for e in (".antt", ".rt", ".edit"))
    text = {p: read(p) for p in antt + rt + edits}
    for begin, names in APART.items():
        for p in text:
            if os.path.relpath(p, root).startswith(begin):
                for a, b in names.items():
                    text[p] = re.sub(rf"(?<![\w.-]){a}(?![\w'-])", b, text[p])
    was = {p: read(p) for p in text}
    crates = {re.search(r"crates/([^/]+)/", p)[1] for p in antt + rt}
    declared, kit, used = collections.OrderedDict(), set(), collections.Counter()
    functions = set()
    for p in rt:
        functions.update(re.findall(r"\bfn ([a-z_0-9]+)", text[p]))
    for p in antt + rt:
        for m in IMPORTS.finditer(text[p]):
            parts = m[1].split(".")
            names = [n.strip().split(" as ")[0].strip() for n in m[2].split(",")]
            if not (parts[0] == "Rattle" and len(parts) > 1 and parts[1] in crates):
                kit.update(names)
        used.update(WORD.findall(text[p]))
    for p in antt:
        if is_law(p):
            for m in DECLARED.finditer(text[p]):
                declared[m[1]] = p
    plain = {n for n in declared if "-" not in n} | {n for n in kit if "-" not in n} | functions
    plain |= {snake(n) for n in plain}
    new = {}
    # Definitions, fields and parameters: humps become underscores wherever the word stands.
    for n in used:
        if n[0].islower() and "-" not in n and snake(n) != n and n not in kit:
            new[n] = snake(n)
    # Lemmas of the law files: a dash stays between two names.
    for n in declared:
        if "-" not in n or n in kit:
            continue
        parts = [snake(x) for x in n.split("-")]
        out = parts[0]
        for a, b in zip(parts, parts[1:]):
            out += ("-" if a in plain and b in plain else "_") + b
        for a, b in WORDS.items():
            out = re.sub(rf"(?<![a-z]){a}(?![a-z])", b, out)
        if out != n:
            new[n] = out
    for n in declared:
        if "-" not in n and n not in kit and any(re.search(rf"(?<![a-z]){a}(?![a-z])", n) for a in WORDS):
            for a, b in WORDS.items():
                new[n] = re.sub(rf"(?<![a-z]){a}(?![a-z])", b, new.get(n, n))
    taken = (set(used) - set(new)) | kit
    given = collections.Counter(new.values())
    for n, to in list(new.items()):
        if "-" in n and (to in taken or given[to] > 1):
            new[n] = to + "_lem"
            if new[n] in taken:
                sys.exit(f"respell: {n} has no free name")
    if "--list" in sys.argv:
        for n, to in sorted(new.items()):
            mark = " TAKEN" if to in taken else " TWICE" if given[to] > 1 else ""
            print(n, to + mark)
        return
    for p, t in text.items():
        def turned(m):
            return new.get(m[0], m[0])
        out = WORD.sub(turned, t)
        if p.endswith((".antt",)) and "Proof.antt" in p:
            # what a function's proof is called by the check
            own_name = re.search(r"/proofs/(?:.*/)?([a-z_0-9+]+)/Proof\.antt$", p)
            if own_name:
                f = own_name[1]
                out = re.sub(rf"(?<![\w-]){re.escape(f.replace('_', '-'))}-spec(?![\w-])", f + "_spec", out)
        if out != was[p]:
            with open(p, "w", encoding="utf-8") as f:
                f.write(out)
    # The documents tell names between backquotes.
    for folder, dirs, names in os.walk(root):
        dirs[:] = [d for d in dirs if d not in (".git", "target", "crates", "out")]
        for f in names:
            if f.endswith(".md"):
                p = os.path.join(folder, f)
                t = read(p)
                out = re.sub(r"`[^`\n]+`", lambda m: WORD.sub(lambda w: new.get(w[0], w[0]), m[0]), t)
                if out != t:
                    with open(p, "w", encoding="utf-8") as g:
                        g.write(out)
    print(f"respell: {len(new)} names")


if __name__ == "__main__":
    main()
