#!/usr/bin/env python3
"""Spells the repository's own definitions and lemmas as today's Rattle does: words in snake case. Run once, after the kit's port.py, at the top.

names.tsv beside this file has a row for each name: the old one, a tab, the new one. A lemma that would fall together with a definition ends in _lem.
Whole words turn: in .antt files, in the clauses and ghost items of .rt files, and in the code spans of .md files. Strings stay, and so do comments'
words, but for camel case. Behind a dot a name with a dash turns in a proof of a function only where a record declares it as a field, since the
other fields there are made by the check.
"""
import os
import pathlib
import re
import sys

HERE = pathlib.Path(__file__).resolve().parent
TOP = HERE.parents[1]
WORD = re.compile(r"[^\s(){}.;,@\"«»\[\]`]+")
TABLE = dict(row.split("\t") for row in (HERE / "names.tsv").read_text(encoding="utf-8").splitlines())
FIELD = re.compile(r"^\s+pub ([^\s:(){}]+) ?(?:[({][^)}]*[)}] ?)*:", re.M)


def files(ending):
    for folder, folders, names in os.walk(TOP / "crates"):
        folders[:] = sorted(name for name in folders if name != "out")
        for name in sorted(names):
            if name.endswith(ending):
                yield pathlib.Path(folder) / name


def turned(text, stays=lambda word, before: False):
    def word(found):
        old = found.group(0)
        if old not in TABLE or stays(old, text[found.start() - 1 : found.start()]):
            return old
        return TABLE[old]

    return WORD.sub(word, text)


def camel(text):
    return turned(text, lambda word, before: "-" in word)


def antt(text, stays):
    """Code and comments, line by line: a comment begins with -- at the start of a word."""
    lines = []
    for line in text.split("\n"):
        comment = re.search(r"(?:^|(?<=\s))--(?=\s|$|-)", line)
        at = comment.start() if comment else len(line)
        lines.append(turned(line[:at], stays) + camel(line[at:]))
    return "\n".join(lines)


def rust(text):
    """Ghost items and clauses; elsewhere only what is in camel case, outside strings."""
    out, at = [], 0
    clause = re.compile(r"\bghost use\b[^;]*;|\b(?:requires|ensures)\*?(?: \w+)? \{|\bghost \w+: \{|\bghost \{")
    for found in iter(lambda: clause.search(text, at), None):
        out.append(outside_strings(text[at : found.start()]))
        end = found.end()
        if found.group(0).endswith("{"):
            depth = 1
            while depth:
                depth += {"{": 1, "}": -1}.get(text[end], 0)
                end += 1
        out.append(turned(text[found.start() : end]))
        at = end
    return "".join(out) + outside_strings(text[at:])


def outside_strings(text):
    parts = re.split(r'(b?"(?:\\.|[^"\\])*")', text)
    return "".join(part if k % 2 else camel(part) for k, part in enumerate(parts))


def main():
    fields = {name for path in files(".antt") for name in FIELD.findall(path.read_text(encoding="utf-8"))}
    count = 0
    for path in list(files(".antt")) + list(files(".rt")):
        old = path.read_text(encoding="utf-8")
        walked = "proofs" in path.parts and ("Proof.antt" == path.name or "Proof" in path.parts)
        stays = lambda word, before: walked and before == "." and "-" in word and word not in fields
        new = antt(old, stays) if path.suffix == ".antt" else rust(old)
        if new != old:
            path.write_text(new, encoding="utf-8")
            count += 1
    for path in [TOP / "README.md", *sorted((TOP / "docs").glob("*.md"))]:
        old = path.read_text(encoding="utf-8")
        new = re.sub(r"`[^`\n]+`", lambda span: turned(span.group(0)), old)
        if new != old:
            path.write_text(new, encoding="utf-8")
            count += 1
    print(f"names: {len(TABLE)} names, {count} files changed")
    return 0


if __name__ == "__main__":
    sys.exit(main())
