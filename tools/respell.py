#!/usr/bin/env python3
"""Spells this repository's own definitions and lemmas in snake case, as the library spells its own.

usage: python3 tools/respell.py [--list]     at the top of a repository that the kit's port.py has turned

Definitions, lemmas, constructors and labels that specs/ and proofs/ declare, and the ghost members of src/, are turned: goneBack is gone_back, and a lemma
gone-back is gone_back too, or gone_back_lem where a definition has that name. A family of facts gets a capital. Functions, fields and files of src/ keep their names, and so do the names that the prover makes of them.
A bare word of a comment is turned where the file's code has that name.
--list prints the table alone. A name that would meet another stops the script, and nothing is written. A second run turns nothing.
"""

import collections
import glob
import os
import re
import subprocess
import sys
import tempfile

SNAKE = "/opt/rattle/port/notes/2026-11-18-names-are-in-snake-case/snake.py"
DECLARED = re.compile(r'^(?P<indent> *)(?:(?:abbrev|unfoldable|pub|open|record|data|ruleset) )*(?P<name>[^\s(){}.;,@"«»:]+)(?: \{[^{}\n]*\})* : (?P<type>.*)$')
MEMBER = re.compile(r"\bghost (\w+)\s*[:=]")
# A family of facts, and a definition whose new name a lemma has.
GIVEN = {
    "diskDid": "DiskDid",
    "byFront": "front_case",
}
# Two names that no file uses together.
APART = {"goesBack"}
# Ends of names that the prover makes of a variable: these stay behind a dot.
MADE = re.compile(r"-(is|index|end|items|iterator|item|result|requires|test|init|preserved|smaller)$")


def in_snake_case(name):
    words = re.sub(r"(?<=[a-z0-9])[A-Z]", lambda m: "_" + m[0].lower(), name)
    return words.replace("-", "_")


def texts(pattern):
    for path in sorted(glob.glob(pattern, recursive=True)):
        with open(path, encoding="utf-8") as f:
            yield path, f.read()


def declared():
    """Each name that the repository's specs and proofs declare, with the files that do."""
    names = collections.defaultdict(set)
    for kind in ("specs", "proofs"):
        for path, text in texts(f"crates/*/{kind}/**/*.antt"):
            for line in text.splitlines():
                m = DECLARED.match(line)
                if m and not re.match(r"(goal|need)\.", m["type"]):
                    names[m["name"]].add(path)
            for m in re.finditer(r" as ([a-z][^\s(){}.;,]*)", text):
                names[m[1]].add(path)
    for path, text in texts("crates/*/src/**/*.rt"):
        for m in MEMBER.finditer(text):
            names[m[1]].add(path)
    return names


def table(names):
    rows = {}
    for name in names:
        if name in GIVEN:
            rows[name] = GIVEN[name]
        elif re.match(r"[a-z]", name) and re.search(r"[a-z0-9][A-Z]", name):
            rows[name] = in_snake_case(name)
    taken = set(names) | set(rows.values())
    for name in names:
        if name not in rows and re.match(r"[a-z]", name) and re.search(r"\w-\w", name):
            new = in_snake_case(name)
            rows[name] = new + "_lem" if new in taken else new
    return rows


def meetings(names, rows):
    """New names that some other name has already: one that is declared, or one that a file which uses the old name has too."""
    met = []
    news = collections.Counter(rows.values())
    for old, new in sorted(rows.items()):
        if news[new] > 1 or new in names and old not in APART:
            met.append((old, new, "declared: " + ", ".join(sorted(names.get(new, {"twice"})))))
    words = {old: re.compile(rf'(?<![^\s(){{}}.;,@"«»]){re.escape(old)}(?![^\s(){{}}.;,@"«»])') for old in rows}
    for path, text in texts("crates/**/*.antt"):
        for old, new in rows.items():
            if old in text and re.search(rf"(?<![\w-]){re.escape(new)}(?![\w-])", text) and words[old].search(text):
                met.append((old, new, path))
    return met


def main():
    names = declared()
    rows = table(names)
    met = meetings(names, rows)
    if "--list" in sys.argv:
        for old, new in sorted(rows.items()):
            print(f"{old}\t{new}")
    for old, new, where in met:
        print(f"respell: {old} would be {new}, which is there already: {where}", file=sys.stderr)
    if met:
        raise SystemExit(2)
    if "--list" in sys.argv:
        return
    with tempfile.TemporaryDirectory() as top:
        to, after = os.path.join(top, "table"), os.path.join(top, "after")
        with open(to, "w", encoding="utf-8") as f:
            f.writelines(f"{old}\t{new}\n" for old, new in sorted(rows.items()))
        with open(after, "w", encoding="utf-8") as f:
            f.writelines(f"{old}\n" for old in sorted(rows) if MADE.search(old))
        subprocess.run([sys.executable, SNAKE, "--table", to, "--keep-after-dot", after, "crates"], check=True)


main()
