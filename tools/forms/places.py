#!/usr/bin/env python3
"""The places in src/ that an older form of Rattle may stand in, by point of docs/DESIGN-PASS.md.

    tools/forms/places.py [--list] [ROOT]

prints how many there are of each pattern, and with --list where; ROOT is another checkout.
It goes by text: what a place is, and whether it stays, the page says."""
import re
import sys
from collections import defaultdict
from pathlib import Path

PATTERNS = [
    ("1a", "an enum", r"^\s*(pub(\(crate\))? )?enum \w+"),
    ("1b", "a flag in a struct", r"^\s+(pub )?\w+: bool,$"),
    ("1c", "a number for a kind", r"\b(call|kind|code|number|model|kriging_type|version|verdict|drift_verdict|outcome): (u8|u64|usize)\b"),
    ("1d", "an answer handed on by hand", r"Refused\(\w+\)\s*(=>|= )|Judgement::\w+"),
    ("2a", "a runtime switch between twins", r"\bfn \w+\(.*\b\w+: bool\b|^\s+\w+: bool,$"),
    ("3a", "a loop by `while`", r"^\s*(\'\w+: )?while "),
    ("3b", "a loop over the places of a list", r"^\s*(\'\w+: )?for \w+ in \S+\.\.=?\S*len\(\)"),
    ("3c", "a loop over numbers", r"^\s*(\'\w+: )?for \w+ in \S+\.\.(?!.*len\(\))"),
    ("4a", "a conversion by `match`", r"^\s+(\S+::\w+|\d+) => (\d+|\w+::\w+(\(\w+::\w+\))?),?$"),
    ("4b", "a function that only converts", r"\bfn (number|kind|model_of|model_code|type_of|model_number|model|default|wide|is_at_most|show_order|number_of|outcome_of|is_done|fit_number|interpolation_number|came_of)\b"),
    ("4c", "a type with no Debug or PartialEq", r"^#\[derive\(Clone, Copy\)\]$"),
    ("4d", "a field that is named twice", r"^\s+(\w+): \1,$"),
    ("6a", "a fixed array", r"= \[[^\[\];]+; [A-Z0-9_]+\];"),
    ("6b", "a place that a function answers", r"\bat: usize\b.*-> usize|, at: usize,?$"),
    ("7a", "a step chosen by a flag or a number", r"\bif (call|kind|skip|!skip)\b|\bskip: bool"),
]


def sources(root):
    return sorted((root / "crates").glob("*/src/*.rt"))


def functions(text):
    """Each function's name, its parameters and its `requires`."""
    for m in re.finditer(r"\bfn (\w+)(<[^>(]*>)?\(", text):
        depth, i = 1, m.end()
        while depth and i < len(text):
            depth += {"(": 1, ")": -1}.get(text[i], 0)
            i += 1
        parameters = [p.strip() for p in text[m.end():i - 1].replace("\n", " ").split(",") if p.strip()]
        head = text[i:text.find("\n{", i)] if text.find("\n{", i) > 0 else ""
        body = re.search(r"\n\s*\{\n", text[i:])
        head = text[i:i + body.start()] if body else head
        yield m.group(1), parameters, re.findall(r"requires \w*\s*\{(.*?)\}(?=\n)", head, re.S)


def facts(clause):
    """The facts that a clause joins by ×, outside brackets."""
    depth, part, parts = 0, "", []
    for c in clause:
        depth += {"(": 1, ")": -1}.get(c, 0)
        if c == "×" and depth == 0:
            parts.append(part)
            part = ""
        else:
            part += c
    parts.append(part)
    for p in parts:
        p = " ".join(p.split())
        while p.startswith("(") and p.endswith(")"):
            p = p[1:-1]
        if p:
            yield p


def main(arguments):
    listed = "--list" in arguments
    rest = [a for a in arguments if a != "--list"]
    root = Path(rest[0]) if rest else Path(__file__).resolve().parents[2]
    found = defaultdict(list)
    by_fact, many = defaultdict(set), []
    for path in sources(root):
        text = path.read_text()
        where = path.relative_to(root / "crates")
        for number, line in enumerate(text.split("\n"), 1):
            if line.lstrip().startswith("//"):
                continue
            for key, _, pattern in PATTERNS:
                if re.search(pattern, line):
                    found[key].append(f"{where}:{number}: {line.strip()}")
        for name, parameters, clauses in functions(text):
            if len(parameters) >= 6:
                many.append(f"{where}: {name}, {len(parameters)} parameters")
            for clause in clauses:
                for fact in facts(clause):
                    by_fact[fact].add(f"{where}: {name}")
    for key, what, _ in PATTERNS:
        print(f"{key}  {len(found[key]):4}  {what}")
        if listed:
            print("".join(f"        {place}\n" for place in found[key]), end="")
    shared = {fact: names for fact, names in by_fact.items() if len(names) >= 3}
    print(f"5a  {len(shared):4}  a fact required by three functions or more")
    if listed:
        for fact, names in sorted(shared.items(), key=lambda x: -len(x[1])):
            print(f"        {len(names)}: {fact}")
    print(f"5b  {len(many):4}  a function with six parameters or more")
    if listed:
        print("".join(f"        {place}\n" for place in many), end="")
    answers = sorted((root / "crates").glob("*/proofs/**/Answers.antt"))
    lines = sum(len(p.read_text().split("\n")) for p in answers)
    print(f"8a  {len(answers):4}  files of answers, {lines} lines")


if __name__ == "__main__":
    main(sys.argv[1:])
