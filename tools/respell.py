#!/usr/bin/env python3
"""Spells the repository's own definitions and lemmas in snake case, as the kit's words are.

usage: tools/respell.py [--look]        at the top of the repository, once, right after the kit's port.py

A name is one that a file of specs/ or proofs/ declares in mixed case or with a dash. Functions of src/, the names that a check makes
(goals, steps, loops), text in quotes, and what the programs read and print keep theirs. Where a lemma's new name would be a
definition's, the lemma gets `_lem`. Documents and must-fail edits follow. --look writes nothing and shows what would fall together.
"""

import collections
import glob
import os
import re
import sys

TOKEN = re.compile(r"[A-Za-z][A-Za-z0-9_'₀-₉-]*")
DECLARED = re.compile(r"^\s*(?:abbrev\s+|unfoldable\s+)?(?:pub\s+)?([^\s:(){}]+)(?:\s+\{[^}]*\})?\s+:\s")
MADE = re.compile(r"^\s*(?:abbrev\s+)?(?:pub\s+)?\S+ : tie\.(?:Need-|invariant|decreases)")
USE = re.compile(r"use ([\w.'-]+)\.\{([^}]*)\}")
# Bound by a lambda, a let or a module's head alone.
BOUND = {"refusedBy": "refused_by", "in-range-arg": "in_range_arg", "has-bit": "has_bit", "in-tx": "in_tx", "place-valid": "place_valid",
         "converter-claims": "converter_claims", "converter-waiting": "converter_waiting", "is_Known": "is_known"}
# A lemma to which the kit's script gave a definition's name already.
TAKEN = {"crates/lines/proofs/Numbering.antt": {"comes_back": "comes_back_lem"}}


def snake(name):
    name = name.replace("-", "_")
    if re.match(r"[a-z]", name):
        name = re.sub(r"(?<=[a-z0-9])([A-Z])", lambda m: "_" + m[1].lower(), name)
    return name


def files():
    found = []
    for kind in ("antt", "rt", "edit"):
        found += [f for f in glob.glob(f"crates/**/*.{kind}", recursive=True) if "/out/" not in f]
    return sorted(found)


def documents():
    return sorted(["README.md", "examples/README.md"] + glob.glob("docs/**/*.md", recursive=True))


def read(path):
    with open(path, encoding="utf-8") as f:
        return f.read()


def declared():
    own = collections.defaultdict(set)
    for path in files():
        if path.endswith(".antt"):
            for line in read(path).splitlines():
                m = DECLARED.match(line)
                if m and not MADE.match(line):
                    own[m[1]].add(path)
    return own


def foreign():
    names = set()
    for path in files():
        for m in USE.finditer(read(path)):
            if not re.match(r"Rattle\.(?!std)", m[1]):
                names |= {n.split(" as ")[0].strip() for n in m[2].split(",")}
    return names


def table():
    own, others = declared(), foreign()
    turned = {n: snake(n) for n in own if snake(n) != n and n not in others}
    turned |= BOUND
    for ns in clashes(turned).values():
        for n in ns:
            if "-" in n and n in turned:
                turned[n] = snake(n) + "_lem"
    return turned


def split_comment(line, mark):
    at = line.find(mark)
    return (line, "") if at < 0 else (line[:at], line[at:])


def respell(text, turned, mixed_only=False):
    def word(m):
        n = m[0]
        if mixed_only and "-" in n:
            return n
        return turned.get(n, n)

    return TOKEN.sub(word, text)


def turn(path, text, turned):
    if path.endswith(".md"):
        # Names stand in backticks; a dash there is a name's only after a dot.
        def quoted(m):
            return "`" + re.sub(r"(?<=\.)" + TOKEN.pattern, lambda k: turned.get(k[0], k[0]), respell(m[1], turned, True)) + "`"

        return re.sub(r"`([^`\n]*)`", quoted, text)
    lines = []
    target = ""
    for line in text.splitlines(keepends=True):
        if path.endswith(".edit"):
            m = re.match(r"file: (\S+)", line)
            target = m[1] if m else target
            if re.match(r"(old|new): ", line):
                line = line[:5] + respell(line[5:], turned, not target.endswith(".antt"))
        elif path.endswith(".antt"):
            code, said = split_comment(line, "--")
            line = respell(code, turned) + respell(said, turned, True)
        else:
            line = respell(line, turned, True)
        lines.append(line)
    return "".join(lines)


def clashes(turned):
    """By file and new name: the names there that differ and would become one. Parts of a module's path are no names."""
    found = {}
    for path in files():
        if path.endswith(".edit"):
            continue
        words = collections.defaultdict(set)
        for line in read(path).splitlines():
            code = split_comment(line, "--" if path.endswith(".antt") else "//")[0]
            code = re.sub(r"Rattle(?:\.[\w+]+)+", "", code)
            for m in TOKEN.finditer(code):
                n = m[0]
                if not (path.endswith(".rt") and "-" in n):
                    words[turned.get(n, n)].add(n)
        for k, ns in words.items():
            if len(ns) > 1:
                found[path, k] = ns
    return found


def main():
    turned = table()
    if "--look" in sys.argv:
        for (path, k), ns in sorted(clashes(turned).items()):
            print(f"{path}: {' '.join(sorted(ns))} > {k}")
        return
    for path in files() + documents():
        before = read(path)
        after = turn(path, before, turned | TAKEN.get(path, {}))
        if after != before:
            with open(path, "w", encoding="utf-8") as f:
                f.write(after)
    print(f"{len(turned)} names")


if __name__ == "__main__":
    os.chdir(os.path.join(os.path.dirname(os.path.abspath(__file__)), ".."))
    main()
