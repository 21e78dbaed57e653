"""Fits the proofs of a room to code that an edit changed.

A goal and a step of a proof have their names from the code's text: where the code says `if x > 8`, a proof of `if x > 9` names what is not there, and its
refusal says nothing of the code's answers. The prover lists these names in the order of the code. Where an edit leaves as many of them as there were, a proof
is fitted by writing each new name for the old one in its place; whatever refuses it then is a fact, or else the edit survives.
"""
import json
import re

NAME = re.compile(r"[^\s(){}.;,\"«»\[\]`]+")
FILES = ("Answers.antt", "Invariants.antt")


def listed(folder):
    """For each function's folder in proofs/, the names of its goals, its loops, its steps and its cases, each in the order of the code."""
    found = {}
    for path in folder.rglob("names.json"):
        for key, entry in json.loads(path.read_text(encoding="utf-8")).items():
            module = re.fullmatch(r"Rattle-\w+-proofs\.(.*)\.Lts", key)
            if module and isinstance(entry, dict):
                cases = [name[0].lower() + name[1:] for name in entry["places_by_name"]]
                arms = [arm[0] for arm in entry["arms"] if arm]
                parts = [[need[1] for need in entry["needs"]], [loop[0][1] for loop in entry["loops"]], [place[2][1] for place in entry["places"]], cases, arms]
                found[module[1].replace(".", "/")] = parts
    return found


def renamed(before, after):
    """What a name is called after an edit, for each that changed; nothing where an edit leaves another number of them."""
    names = {}
    for old, new in zip(before, after):
        if len(old) == len(new):
            names.update({a: b for a, b in zip(old, new) if a != b})
    loops = {f"{kind}-{a}": f"{kind}-{b}" for a, b in zip(before[1], after[1]) if a != b for kind in ("invariant", "decreases")}
    return {**names, **loops}


def fit(room, before, after):
    """Writes the new names into the proofs of the room. Answers whether a file changed."""
    changed = False
    for module in before.keys() & after.keys():
        names = renamed(before[module], after[module])
        for path in (room / "proofs" / module / file for file in FILES if names):
            if path.is_file():
                text = path.read_text(encoding="utf-8")
                fitted = NAME.sub(lambda found: names.get(found[0], found[0]), text)
                if fitted != text:
                    path.write_text(fitted, encoding="utf-8")
                    changed = True
    return changed
