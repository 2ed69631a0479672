#!/usr/bin/env python3
"""Lists the places in src/ that look as if a newer form of the language served them better, point by point.

usage: python3 tools/places.py [--count] [DIR]     DIR is the top of a checkout, by default this one

A row is a place to look at, not a verdict: docs/DESIGN-PASS.md says of each what became of it. --count prints the numbers alone.
"""

import collections
import glob
import os
import re
import sys

COUNT = "--count" in sys.argv
ARGS = [a for a in sys.argv[1:] if a != "--count"]
TOP = ARGS[0] if ARGS else os.path.dirname(os.path.dirname(os.path.abspath(__file__)))

FILES = {}
for path in sorted(glob.glob(os.path.join(TOP, "crates", "*", "src", "**", "*.rt"), recursive=True)):
    with open(path, encoding="utf-8") as file:
        FILES[os.path.relpath(path, TOP)] = file.read().split("\n")


def code(line):
    return line.split("//")[0]


def functions(lines):
    """The functions of a file: (line, name, head, body lines with their numbers)."""
    i = 0
    while i < len(lines):
        found = re.match(r"( *)(pub(\([a-z]+\))? )?fn (\w+)", lines[i])
        if not found:
            i += 1
            continue
        indent, start = found.group(1), i
        while not re.match(indent + r"\{(\})?$", lines[i]) and not (lines[i].endswith(" {") and not re.match(r" +(ensures|requires)", lines[i])) and not lines[i].endswith(";"):
            i += 1
        head, first = lines[start : i + 1], i + 1
        if not lines[i].endswith((";", "{}")):
            while lines[i] != indent + "}":
                i += 1
        yield start + 1, found.group(4), head, list(enumerate(lines[first : i + 1], first + 1))
        i += 1


ROWS = collections.OrderedDict((n, []) for n in "1a 1b 1c 1d 2a 2b 2c 3a 3b 4a 4b 4c 5a 5b 6a 6b 7a".split())
TITLES = {
    "1a": "enums of which one case at most carries values by place and some case carries none",
    "1b": "flags in structs",
    "1c": "a number that stands for none",
    "1d": "numbers for kinds and refusals",
    "2a": "functions whose bodies are alike but for names and numbers (three lines or more)",
    "2b": "structs and enums with the same fields or cases",
    "2c": "constants with the same value",
    "3a": "loops that count: an index, a number, or rounds",
    "3b": "loops that search, test all, or copy: a test or a push and nothing else",
    "4a": "impls by hand of equality, order, copying, conversion, printing",
    "4b": "functions that give a text or take one apart by a table",
    "4c": "the number taken out of its type to be printed or converted",
    "5a": "clauses that stand in the contracts of three functions or more",
    "5b": "parameters that travel together in three functions or more",
    "6a": "arrays with a length beside them, and lists with a number that says how much of them counts",
    "6b": "structs with two lists or more, and searches through a list by hand",
    "7a": "matches of which three arms or more call a function each",
}


def add(point, path, line, text):
    ROWS[point].append(f"{path}:{line}: {text.strip()[:150]}")


bodies = collections.defaultdict(list)
shapes = collections.defaultdict(list)
consts = collections.defaultdict(list)
clauses = collections.defaultdict(set)
pairs = collections.defaultdict(set)

for path, lines in FILES.items():
    for number, line in enumerate(lines, 1):
        text = code(line)
        if re.search(r"^ +(pub )?\w+: bool,", text):
            add("1b", path, number, text)
        if re.search(r"(_|None) => 0,", text) or "0 where" in line and "//" in line:
            add("1c", path, number, line)
        if re.search(r"const \w+: u8 =", text) or re.search(r"\(u8, ", text) or re.search(r"=> Some\(\d\),", text) or re.search(r"Answer::(No|Over)\($|Answer::(No|Over)\(\d", text):
            add("1d", path, number, text)
        found = re.search(r"const (\w+): \w+ = ([^;]+);", text)
        if found:
            value = found.group(2).replace("_", "")
            consts[value].append((path, number, text))
        if re.match(r"impl(<.*>)? .*\b(Display|Debug|From|TryFrom|FromStr|PartialEq|Eq|Ord|PartialOrd|Clone|Default)\b.* for ", text):
            add("4a", path, number, text)
        if re.search(r"fn (text|name|spelled|verb_of|yes_no|printable|number)\(", text):
            add("4b", path, number, text)
        if re.search(r"let \w+ = [\w.()]+\.0;", text) or re.search(r"\.0 as u\d+", text):
            add("4c", path, number, text)
        if re.search(r"\[\w+; ?\d+\]", text) or re.search(r"^ +(pub )?(len|sent|synced|count): usize,", text):
            add("6a", path, number, text)
    whole = "\n".join(code(line) for line in lines)
    for found in re.finditer(r"^( *)(pub )?(struct|enum) (\w+)[^;{]*\{\n(.*?)^\1\}", whole, re.M | re.S):
        number = whole[: found.start()].count("\n") + 1
        body = [part.strip() for part in found.group(5).split("\n") if part.strip() and not part.strip().startswith("ghost")]
        if len(body) > 1:
            shapes[found.group(3) + " " + " ".join(body)].append((path, number, found.group(4)))
        if found.group(3) == "enum":
            by_place = [part for part in body if re.match(r"\w+\(", part)]
            named = [part for part in body if re.match(r"\w+ ?\{", part)]
            if len(by_place) <= 1 and not named and len(body) <= 3:
                add("1a", path, number, f"enum {found.group(4)}: {' '.join(body)}")
        elif len([part for part in body if re.search(r": (Vec|VecDeque)<", part)]) > 1:
            add("6b", path, number, f"struct {found.group(4)}")
    for start, name, head, body in functions(lines):
        text = " ".join(part.strip() for _, part in body if part.strip() not in ("", "}"))
        plain = re.sub(r"\d+", "0", re.sub(r"\b[a-z_]\w*\b", "x", re.sub(r"\b[A-Z]\w*\b", "X", text)))
        if len(body) > 4:
            bodies[plain].append((path, start, name))
        for part in head:
            found = re.match(r" +(ensures|requires) (\w+ )?\{ (.*) \}", part)
            if found:
                clauses[found.group(1) + " " + found.group(3)].add((path, start, name))
        given = re.findall(r"(\w+): ([^,()]+)", " ".join(part.strip() for part in head if not re.match(r" +(ensures|requires)", part)))
        for i, one in enumerate(given):
            for other in given[i + 1 :]:
                pairs[(one[0], other[0])].add((path, start, name))
        arms = [part for _, part in body if re.search(r"=> (Ok\()?(self\.\w+|\w+)\([^)]*\)[?)]*,", part) and not re.search(r"=> (Some|Err)\(", part) and not re.search(r"=> Ok\([A-Z]", part)]
        if len(arms) > 2:
            add("7a", path, start, f"fn {name}: {len(arms)} arms")
        for at, (number, part) in enumerate(body):
            if not re.match(r" *('\w+: )?(for|while|loop)\b", part):
                continue
            depth = len(part) - len(part.lstrip())
            inner = []
            for _, later in body[at + 1 :]:
                if later.strip() == "}" and len(later) - len(later.lstrip()) == depth:
                    break
                inner.append(later.strip())
            joined = " ".join(inner)
            if re.search(r"enumerate\(\)|for _ in|while ", part) or re.search(r"\+= \d|\+= size|saturating_add\(", joined):
                add("3a", path, number, f"{name}: {part.strip()}")
            elif re.match(r"(if .* \{ )(return \S+; \}|found = .*break.*|count \+= 1; \})+ ?\}?$", joined) or re.match(r"\w+\.push\w*\(", joined):
                add("3b", path, number, f"{name}: {part.strip()}")
        if name == "place" and any(re.match(r" *for ", part) for _, part in body):
            add("6b", path, start, "fn place")

for plain, places in bodies.items():
    if len(places) > 1:
        add("2a", places[0][0], places[0][1], ", ".join(f"{name} ({path}:{line})" for path, line, name in places))
for body, places in shapes.items():
    if len(places) > 1:
        add("2b", places[0][0], places[0][1], ", ".join(f"{name} ({path}:{line})" for path, line, name in places))
for value, places in consts.items():
    if len(places) > 1:
        add("2c", places[0][0], places[0][1], ", ".join(f"{path}:{line} {text.strip()}" for path, line, text in places))
for clause, places in sorted(clauses.items()):
    if len(places) > 2:
        path, line, _ = sorted(places)[0]
        add("5a", path, line, f"{len(places)} times: {clause}")
for pair, places in sorted(pairs.items()):
    if len(places) > 2:
        path, line, _ = sorted(places)[0]
        add("5b", path, line, f"{len(places)} functions: {', '.join(pair)}")

for point, rows in ROWS.items():
    print(f"{point} {len(rows)}: {TITLES[point]}")
    if not COUNT:
        for row in rows:
            print("    " + row)
