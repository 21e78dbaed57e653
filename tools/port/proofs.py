#!/usr/bin/env python3
"""Turns a walked Proof.antt of the older Rattle into Invariants.antt and Answers.antt.

Usage: proofs.py invariants NAMES CRATE OLD [FUNCTION..]   moves each proofs/F/Proof.antt to OLD/CRATE/F/, and writes proofs/F/Invariants.antt where F has loops
       proofs.py answers NAMES CRATE OLD LOG               writes proofs/F/Answers.antt with the old answers to the goals that LOG, a check's output, has open

NAMES is the folder that `rt names` wrote (old and new names); OLD keeps the old files. What comes out is a beginning: the check decides.
"""
import itertools
import json
import pathlib
import re
import sys

TOP = pathlib.Path.cwd()
WORD = r"[^\s(){}.;,@\"«»\[\]`]+"
KEEP = {"sub_zero": "sub-zero"}


def entries(names, crate):
    data = json.loads((pathlib.Path(names) / "crates" / crate / "names.json").read_text())
    out = {}
    for key, value in data.items():
        found = re.fullmatch(rf"Rattle-{crate}-proofs\.(.*)\.Lts", key)
        if found:
            out[found.group(1).replace(".", "/")] = value
    return out


def norm(name):
    return name.replace("_", "-").replace("-", "")


def need_key(name):
    return norm(re.sub(r"^(overflow|nonzero|slice-bounds|part|bounds)[-_]", "", name))


def clause_names(crates):
    """For each function, the names of its requires and its ensures, in order."""
    out = {}
    for path in pathlib.Path(crates).glob("*/src/**/*.rt"):
        text = path.read_text()
        for found in re.finditer(r"\bfn (\w+)", text):
            rest = text[found.end():]
            stop = re.search(r"\n *\{\n|\n *fn |\n\}", rest)
            head = rest[: stop.start()] if stop else rest
            key = (path.parts[-3] if path.parts[-2] == "src" else path.parts[-4], found.group(1))
            out.setdefault(key, {})
            for kind in ("requires", "ensures"):
                out[key][kind] = re.findall(rf"\n\s+{kind} ?(\w*) ?\{{", head)
    return out


def declarations(text):
    """Top-level items of a proof file: (name, signature, unfolding lines, clauses), with comments and uses apart."""
    uses, items, block = [], [], []
    lines = text.split("\n")
    blocks, now = [], []
    for line in lines:
        if line.strip() == "":
            if now:
                blocks.append(now)
            now = []
        else:
            now.append(line)
    if now:
        blocks.append(now)
    for block in blocks:
        body = [l for l in block if not l.startswith("--")]
        notes = [l for l in block if l.startswith("--")]
        if not body:
            items.append(("note", None, notes, []))
            continue
        if body[0].startswith("use ") or body[0].startswith("mod ") or body[0].startswith("pub mod "):
            uses += [l for l in body if l.startswith("use ")]
            body = [l for l in body if not (l.startswith("use ") or l.startswith("mod ") or l.startswith("pub mod "))]
            if not body:
                continue
        # where blocks may be separated by blank lines: an indented first line goes to the item before
        if body[0].startswith(" ") and items:
            items[-1][3].extend([""] + block)
            continue
        found = re.match(rf"(?:(?:abbrev|unfoldable|pub|record|data)\s+)*({WORD})", body[0])
        items.append(("item", found.group(1), notes, body))
    return uses, items


def invariant_names(entry):
    out = {}
    for (names, variables), changed in zip(entry["loops"], entry["changed"]):
        out[norm(names[0])] = (names[1], variables, changed)
    return out


def params_of(body, name):
    """The equation of an abbrev: its parameters and the text of its right side."""
    text = "\n".join(body)
    found = re.search(rf"^{re.escape(name)}((?:\s+{WORD})*)\s*=", text, re.M)
    if not found:
        return None
    return found.group(1).split(), text[found.end():]


def substituted(text, table):
    def one(found):
        word = found.group(0)
        if text[found.start() - 1 : found.start()] == ".":
            return word
        return table.get(word, word)

    return re.sub(WORD, one, text)


def loops(entry, uses, items, module):
    out = []
    named = invariant_names(entry)
    for kind, name, notes, body in items:
        if kind != "item":
            continue
        text = "\n".join(body)
        found = re.search(r": tie\.(invariant|decreases)-(" + WORD + ")", body[0])
        if not found:
            continue
        which, old = found.group(1), norm(found.group(2))
        if which == "decreases" and old in named and any(v.endswith("-end") for v, c in zip(named[old][1], named[old][2]) if v[:-4] in named[old][1] and dict(zip(named[old][1], named[old][2])).get(v[:-4]) and ("loop-" + v[:-4]) == named[old][0]):
            continue
        if old not in named:
            out.append(f"-- TODO {which} {found.group(2)}\n")
            continue
        new, variables, changed = named[old]
        got = params_of(body, name)
        if got is None:
            out.append(f"-- TODO {which} {new}\n" + text)
            continue
        params, right = got
        params = [w for w in params if not re.fullmatch(r"t\d+₀?", w) or w in variables]
        wanted = list(zip(variables, changed)) + [(v, None) for v, c in zip(variables, changed) if c]
        table = {}
        if len(params) != len(wanted):
            out.append(f"-- TODO parameters {params} against {variables}\n")
        for param, (variable, c) in zip(params, wanted):
            table[param] = f"l.initial.{variable}" if c else f"l.{variable}"
        out.append(("\n".join(notes) + "\n" if notes else "") + f"abbrev pub {which}-{new} : goal.{which}-{new}\n{which}-{new} l =" + substituted(right, table) + "\n")
    return out


def file_uses(uses, drop=()):
    out = []
    for line in uses:
        if re.search(r"\.(Tie|Statement)\b|\.Proof\.", line):
            continue
        out.append(line)
    return out


def old_files(folder):
    out = [folder / "Proof.antt"]
    if (folder / "Proof").is_dir():
        out = sorted((folder / "Proof").glob("*.antt")) + out
    return [p for p in out if p.exists() and p.name != "Lib.antt"]


def read(folder):
    uses, items = [], []
    for path in old_files(folder):
        u, i = declarations(path.read_text())
        uses += u
        items += i
    return uses, items


def collapsed(text, first):
    """An answer without the lets that only give the state `first` another name. A name that a λ binds too is left."""
    start = 0
    while True:
        found = re.compile(rf"^[ ]*let ({WORD}) = {re.escape(first)} in[ ]*\n?|(?<=[(=] )let ({WORD}) = {re.escape(first)} in\s+|(?<=\()let ({WORD}) = {re.escape(first)} in\s+", re.M).search(text, start)
        if not found:
            return text
        name = found.group(1) or found.group(2) or found.group(3)
        rest = text[found.end():]
        again = re.search(rf"\blet {re.escape(name)}(?=[ ])", rest)
        stop = again.start() if again else len(rest)
        if re.search(rf"λ [^.\n]*(?<![^\s(]){re.escape(name)}(?![^\s).])", rest[:stop]):
            start = found.end()
            continue
        rest = re.sub(rf"(?<![^\s(\[,{{]){re.escape(name)}(?=[\s.,)\]}};]|$)", first, rest[:stop]) + rest[stop:]
        text = text[: found.start()] + rest


def without_unused(text):
    """A proof file without the private definitions that nothing in it uses."""
    while True:
        blocks = []
        for block in re.split(r"\n\n+", text.strip("\n")):
            if block.startswith(" ") and blocks:
                blocks[-1] += "\n\n" + block
            else:
                blocks.append(block)
        for k, block in enumerate(blocks):
            body = [l for l in block.split("\n") if not l.startswith("--")]
            if not body or re.match(r"(use|mod|pub|abbrev pub|unfoldable pub|record pub|data pub) ", body[0]):
                continue
            found = re.match(rf"(?:(?:abbrev|unfoldable|record|data)\s+)*({WORD}) ", body[0])
            rest = "\n\n".join(b for j, b in enumerate(blocks) if j != k)
            if found and found.group(1) not in re.findall(WORD, re.sub(r"^\s*--.*$", "", rest, flags=re.M)):
                del blocks[k]
                break
        else:
            return "\n\n".join(blocks) + "\n"
        text = "\n\n".join(blocks) + "\n"


def signature(text):
    """A type's arguments and its result: each with how many names it binds, a bare one as one."""
    parts, depth, last = [], 0, 0
    for k, letter in enumerate(text):
        depth += {"(": 1, "{": 1, "[": 1, ")": -1, "}": -1, "]": -1}.get(letter, 0)
        if depth == 0 and letter == "→":
            parts.append(text[last:k].strip())
            last = k + 1
        if depth == 0 and text[k - 1 : k + 4] == " let ":
            break
    parts.append(text[last:].strip())
    out = []
    for part in parts[:-1]:
        groups, depth, start = [], 0, 0
        for k, letter in enumerate(part):
            depth += {"(": 1, "{": 1, ")": -1, "}": -1}.get(letter, 0)
            if depth == 0 and letter in ")}":
                groups.append(part[start : k + 1].strip())
                start = k + 1
        if groups and not part[start:].strip() and all(re.match(r"[({]\s*\S+(?: \S+)* : ", g) for g in groups):
            out += [(g, len(g[1:].split(" : ")[0].split()) if g[0] == "(" else 0) for g in groups]
        else:
            out.append((part, 1))
    return out + [(parts[-1], 0)]


def needed(text, plain):
    """The plain definitions of a proof file that a text uses, those that they use first."""
    order, seen = [], set()

    def visit(text):
        for word in re.findall(WORD, text):
            if word in plain and word not in seen:
                seen.add(word)
                visit("\n".join(plain[word][1]))
                order.append(word)

    visit(text)
    return order


def published(body):
    first = body[0]
    if not re.match(r"(?:(?:abbrev|unfoldable|record|data) )?pub ", first):
        first = re.sub(r"^(abbrev |unfoldable |record |data )?", lambda f: (f.group(1) or "") + "pub ", first) if not first.startswith(("record", "data")) else "pub " + first
    return [first, *body[1:]]


def parameters(crate, function):
    for path in (TOP / "crates" / crate / "src").glob("**/*.rt"):
        found = re.search(rf"\bfn {function}(?:<[^(]*>)?\(([^{{]*?)\)(?: ->|\n|\s*\{{|$)", path.read_text(), re.S)
        if found:
            return re.findall(r"(?:^|,)\s*(?:mut )?(\w+)\s*:", found.group(1)) if "self" not in found.group(1).split(",")[0] else ["self"] + re.findall(r",\s*(?:mut )?(\w+)\s*:", found.group(1))
    return []


def invariants(names, crate, old, only):
    known = entries(names, crate)
    root = TOP / "crates" / crate / "proofs"
    for proof in sorted(root.glob("**/Proof.antt")):
        folder = proof.parent
        module = str(folder.relative_to(root))
        if only and module not in only:
            continue
        keep = pathlib.Path(old) / crate / module
        keep.mkdir(parents=True, exist_ok=True)
        proof.rename(keep / "Proof.antt")
        if (folder / "Proof").is_dir():
            (folder / "Proof").rename(keep / "Proof")
        uses, items = read(keep)
        entry = known.get(module)
        if entry is None:
            print("no names for", module)
            continue
        if not entry["loops"]:
            continue
        text = loops(entry, uses, items, module)
        plain = {n: (notes, body) for k, n, notes, body in items if k == "item" and "tie." not in "\n".join(body)}
        order = needed("\n".join(text), plain)
        text = ["\n".join([*plain[n][0], *published(plain[n][1])]) + "\n" for n in order] + text
        # a for's measure is known
        path = "Rattle." + crate + ".proofs." + module.replace("/", ".") + ".Given"
        head = "\n".join(n for n in items[0][2]) if items and items[0][0] == "note" else ""
        first = "\n".join(itertools.takewhile(lambda line: line.startswith("--"), (keep / "Proof.antt").read_text().split("\n")))
        out = (first + "\n" if first.startswith("--") else "") + "\n".join(file_uses(uses)) + f"\nuse {path} as goal\n\n" + "\n".join(text)
        (folder / "Invariants.antt").write_text(out)
        print("invariants", module)


def open_goals(log):
    """function -> goals that the check asks for"""
    out = {}
    for line in pathlib.Path(log).read_text().split("\n"):
        found = re.match(r"fn (\S+): no(?:t proved| proof)?:? ?(.*)", line)
        if found:
            out.setdefault(found.group(1), set()).update(re.findall(r"`([^`]+)`", found.group(2)))
    return out


def answers(names, crate, old, module, goals):
    clauses = clause_names(TOP / "crates")
    known = entries(names, crate)
    entry = known[module]
    keep = pathlib.Path(old) / crate / module
    uses, items = read(keep)
    steps = {}
    fields = {}
    callee = {}
    for place, parent, (a, b), called, more in entry["places"]:
        if a:
            steps[norm(a)] = b
            callee[b] = called
            fields.setdefault(b, {}).update(dict(more))
    needs = {}
    for a, b in entry["needs"]:
        needs[norm(a)] = b
    function = module.split("/")[-1]
    accessors, helpers = set(), {}
    wanted = []
    for kind, name, notes, body in items:
        if kind != "item":
            continue
        text = "\n".join(body)
        if re.match(rf"(?:abbrev |pub )*{WORD} : [^→(]*tie\.(?!Need)[^→]*→\s*(?:State )?\(?tie\.(?!Need)", text):
            accessors.add(name)
    for kind, name, notes, body in items:
        if kind != "item" or name in accessors or name == "State":
            continue
        text = "\n".join(body)
        if "tie.invariant-" in text or "tie.decreases-" in text or "tie.close" in text:
            continue
        found = re.search(r"tie\.Need-(" + WORD + ")", text)
        if found:
            key = norm(found.group(1))
            new = needs.get(key) or needs.get(need_key(found.group(1))) or needs.get(norm(name)) or needs.get(need_key(name))
            wanted.append((new or "TODO-" + name, name, notes, body))
        elif "tie." in text:
            helpers[name] = body
            wanted.append((None, name, notes, body))
        else:
            wanted.append((None, name, notes, body))

    PLAIN = {"inv": "invariant", "pre": "requires", "type-inv": "type_inv", "good": "well_formed", "well-formed": "well_formed"}
    given = parameters(crate, function)
    written = {w for p in (TOP / "crates").glob("*/src/**/*.rt") for w in re.findall(r"[a-z]\w*_\w+", p.read_text())}
    given_names = {norm(p): p for p in given}
    told = {}
    for arm in entry.get("arms", ()):
        for name, at, more in arm[2] if arm else ():
            if more:
                told[norm(at), tuple(more)] = [arm[0], name]
    names_of = {}
    for called, ps in entry["params"].items():
        names_of[called] = ps

    def path(fields_in, state):
        """The fields behind a variable, as today's: a state's first one is a step."""
        out, rest = [], list(fields_in)
        step = None
        for n in range(len(rest)):
            if state and (norm(rest[0]), tuple(rest[1 : n + 1])) in told:
                return told[norm(rest[0]), tuple(rest[1 : n + 1])] + path(rest[n + 1 :], False)
        if state and rest and (norm(rest[0]) in steps or norm(rest[0].removesuffix("_lem")) in steps):
            step = steps.get(norm(rest[0])) or steps[norm(rest[0].removesuffix("_lem"))]
            out.append(step)
            rest = rest[1:]
            if rest and step.startswith("if-"):
                rest[0] = {"taken": "true", "left": "false"}.get(rest[0], rest[0])
            if rest and rest[0] in fields.get(step, {}):
                out.append(fields[step][rest[0]])
                rest = rest[1:]
        while rest:
            word = PLAIN.get(rest[0], rest[0])
            rest = rest[1:]
            called = callee.get(step) if step else None
            if word in ("new", "last", "auto", "kept") and rest and re.fullmatch(r"\d+", rest[0]) and called in names_of:
                n = 0
                while rest and rest[0] == "1":
                    n += 1
                    rest = rest[1:]
                if rest and rest[0] == "0":
                    rest = rest[1:]
                ps = names_of[called]
                out += [{"kept": "auto", "last": "new"}.get(word, word), ps[n] if n < len(ps) else f"TODO{n}"]
                continue
            if word == "requires" and rest and re.fullmatch(r"\d+", rest[0]):
                labels = clauses.get((crate, function), {}).get("requires", [])
                out.append(word)
                if len(labels) > 1 and int(rest[0]) < len(labels):
                    out.append(labels[int(rest[0])])
                    rest = rest[1:]
                continue
            if word == "ensures" and called and rest and re.fullmatch(r"\d+", rest[0]):
                parts = called.split("::")
                labels = clauses.get((parts[0], parts[-1]), {}).get("ensures", [])
                out.append(word)
                if len(labels) > 1 and int(rest[0]) < len(labels):
                    out.append(labels[int(rest[0])])
                    rest = rest[1:]
                continue
            found = re.fullmatch(r"t([1-9]\d*)", word)
            if found and int(found.group(1)) <= len(given):
                word = given[int(found.group(1)) - 1]
            if "-" in word:
                word = given_names.get(norm(word), word)
            # a field of the source keeps its spelling
            out.append(word.replace("-", "_") if word.replace("-", "_") in written else word)
        return out

    def turn(text, first="c"):
        for name in sorted(accessors, key=len, reverse=True):
            text = re.sub(rf"(?<![^\s(\[,]){re.escape(name)}(?=[\s(])", "", text)
        text = re.sub(r"\.before(?![^\s(){}.;,\[\]])", "", text)
        for _ in range(5):
            text = re.sub(r"\( +", "(", text)
            text = re.sub(rf"(?:(?<=[\s(\[,=])|^)\(({WORD}(?:\.{WORD})*) *\)", r"\1", text)
        text = re.sub(r"(?<=\S)  +", " ", text)
        states = {first}
        for _ in range(4):
            for found in re.finditer(rf"\blet ({WORD}) = ({WORD}) in", text):
                if found.group(2) in states:
                    states.add(found.group(1))

        def one(found):
            words = found.group(0).split(".")
            if any(w == "" for w in words):
                return found.group(0)
            return ".".join([words[0], *path(words[1:], words[0] in states)])

        text = re.sub(rf"(?<![\w.])[a-z][\w'-]*(?:\.{WORD})+", one, text)
        text = re.sub(rf"\)((?:\.{WORD})+)", lambda f: ")" + "".join("." + w for w in path(f.group(1).split(".")[1:], False)), text)
        return text

    # a helper over a state: its type and its body are written where it is used
    hoisted = {}
    for name, body in helpers.items():
        plain = "\n".join(body)
        head = re.match(rf"(?:abbrev |pub )*{re.escape(name)} : ", plain)
        equation = re.search(rf"^{re.escape(name)}((?: (?!=\s){WORD})*?)\s*=(?=\s)", plain, re.M)
        if not head or not equation or len(re.findall(rf"^{re.escape(name)} ", plain, re.M)) != 2 - (not plain.startswith(name)):
            continue
        kind = re.sub(r"^unfolding[^\n]*\n", "", plain[head.end() : equation.start()], flags=re.M).strip()
        words = equation.group(1).split()
        parts = signature(kind)
        at = [k for k, (p, n) in enumerate(parts[:-1]) if n == 1 and re.match(r"(?:\(\s*\S+ : )?(?:State )?\(?tie\.[^→]*$", p)]
        if not at or not words:
            continue
        place = sum(n for _, n in parts[: at[0]])
        if len(words) <= place:
            continue
        state = words.pop(place)
        right = plain[equation.end() :]
        if state != "c":
            right = re.sub(rf"(?<![\w.'-]){re.escape(state)}(?![\w'-])", "c", right)
        rest, binders = "", ""
        for p, n in parts[: at[0]] + parts[at[0] + 1 : -1]:
            if re.match(r"[({]\s*\S+(?: \S+)* : ", p):
                binders += (" " if binders else "") + p
            else:
                rest += (binders + " → " if binders else "") + p + " → "
                binders = ""
        rest += (binders + " → " if binders else "") + parts[-1][0]
        lead = f" λ {' '.join(words)}." if words else ""
        hoisted[name] = (turn(rest), lead + turn(right), re.findall(r"^unfolding ([^\n]*)", plain, re.M), place)

    def without(text, name, place):
        """A text whose uses of a helper do without its argument at a place."""
        out, at = "", 0
        while True:
            found = re.search(rf"(?<![^\s(\[,∙]){re.escape(name)}(?=[\s)\],]|$)", text[at:])
            if not found:
                return out + text[at:]
            out += text[at : at + found.end()]
            at += found.end()
            rest, k = text[at:], 0
            for n in range(place + 1):
                start = k
                blank = re.match(r"\s+", rest[k:])
                if not blank:
                    break
                k += blank.end()
                if rest[k : k + 1] == "(":
                    depth = 0
                    while k < len(rest):
                        depth += {"(": 1, ")": -1}.get(rest[k], 0)
                        k += 1
                        if depth == 0:
                            break
                    more = re.match(r"(?:\.[^\s(){}.;,\[\]]+)*", rest[k:])
                    k += more.end()
                else:
                    word = re.match(r"[^\s(){};,\[\]]+", rest[k:])
                    if not word:
                        break
                    k += word.end()
                if n == place:
                    rest = rest[:start] + rest[k:]
                    k = start
            out += rest[:k]
            text = out + rest[k:]
            at = len(out)

    def hoist(right, unfold):
        """The lets of the helpers that a text uses, those that they use first."""
        order, seen = [], set()

        def visit(text):
            for name in hoisted:
                if name not in seen and re.search(rf"(?<![^\s(\[,.]){re.escape(name)}(?=[\s)\],]|$)", text):
                    seen.add(name)
                    visit(hoisted[name][0] + " " + hoisted[name][1])
                    order.append(name)

        visit(right)
        lets = []
        for name in order:
            a, b, u, _ = hoisted[name]
            kind = f"({a.strip()})" if re.match(r"\s*let\b", a) else a.strip()
            lets.append(f"    let {name} : {kind} ={b.rstrip()} in")
            unfold.extend(x for x in u if x not in unfold)
        text = "\n".join(lets + [right]) if lets else right
        for name in order:
            text = text.replace(f"let {name} :", f"let «{name}» :")
            text = without(text, name, hoisted[name][3])
            text = text.replace(f"let «{name}» :", f"let {name} :")
            text = re.sub(rf"\({re.escape(name)}\)", name, text)
        return text

    # an answer to a goal of several clauses is written whole, as a record
    whole = {re.sub(r"-clause-.*", "", g) for g in goals or () if "-clause-" in g}
    asked = {b: entry["asked"][a] for a, b in entry["needs"] if a in entry["asked"]}
    if goals:
        goals = {re.sub(r"-clause-.*", "", g) if re.sub(r"-clause-.*", "", g) in {w[0] for w in wanted} else g for g in goals}

    def recorded(right, labels):
        """The tuple at a text's end as a record with these fields."""
        text = right.rstrip()
        if not text.endswith(")"):
            return right
        depth, at = 0, len(text)
        while at:
            at -= 1
            depth += {")": 1, "]": 1, "}": 1, "(": -1, "[": -1, "{": -1}.get(text[at], 0)
            if depth == 0:
                break
        parts, depth, last = [], 0, at + 1
        for k in range(at + 1, len(text) - 1):
            depth += {")": -1, "]": -1, "}": -1, "(": 1, "[": 1, "{": 1}.get(text[k], 0)
            if text[k] == "," and depth == 0:
                parts.append(text[last:k])
                last = k + 1
        if text[last : len(text) - 1].strip():
            parts.append(text[last : len(text) - 1])
        while len(parts) < len(labels) and parts and parts[-1].strip().startswith("(") and parts[-1].strip().endswith(")"):
            inner, depth, cut, last = parts[-1].strip()[1:-1], 0, [], 0
            for k, letter in enumerate(inner):
                depth += {")": -1, "]": -1, "}": -1, "(": 1, "[": 1, "{": 1}.get(letter, 0)
                if letter == "," and depth == 0:
                    cut.append(inner[last:k])
                    last = k + 1
            if not cut:
                break
            parts = parts[:-1] + cut + ([inner[last:]] if inner[last:].strip() else [])
        if len(parts) != len(labels):
            return right
        return text[:at] + "record {\n" + "".join(f"      {l} = {p.strip()};\n" for l, p in zip(labels, parts)) + "    }"

    out = []
    for new, name, notes, body in wanted:
        text = "\n".join(body)
        if new is None:
            if name not in hoisted:
                out.append((name, notes, None, turn(text)))
            continue
        lines = body
        at = next(k for k, l in enumerate(lines) if re.match(rf"{re.escape(name)} c", l))
        unfold = [w for l in lines[1:at] if l.startswith("unfolding") for w in [l[len("unfolding "):]]]
        right = "\n".join(lines[at:])
        head = re.match(rf"{re.escape(name)} ({WORD}(?: (?!κs |=){WORD})*)( κs)? =", right)
        right = turn(right[head.end():], head.group(1).split()[0])
        if new in asked:
            right = recorded(right, asked[new])
        full = hoist(right, unfold)
        # a second name of a state says nothing
        while True:
            found = re.search(rf"^ *let (\w+) = (\w+) in\n", full, re.M)
            if not found:
                break
            full = full[: found.start()] + re.sub(rf"(?<![\w.'-]){found.group(1)}(?![\w'-])", found.group(2), full[found.end():])
        unfold = [" ".join(w for w in u.split() if w not in hoisted and w not in accessors) for u in unfold]
        unfold = [u for u in unfold if u]
        if full != right:
            full = re.sub(r"\n\s*\n", "\n", "\n" + full)
            full = re.sub(r" in\n (?=\S)", " in\n    ", full)
        full = re.sub(rf"(?<=[\s(])({WORD}\.if-not-{WORD})\.(true|false)-raw", r"(ap not \1.\2)", full)
        full = re.sub(r"\n(?=\S)", "\n    ", collapsed(full, head.group(1).split()[0]))
        out.append((name, notes, new, "\n".join([f"pub {new} : goal.{new}"] + (["unfolding " + " ".join(unfold)] if unfold else []) + [f"{new} {head.group(1)} =" + (full if full[:1] in (" ", "\n") else " " + full)])))
    path = "Rattle." + crate + ".proofs." + module.replace("/", ".") + ".Goals"
    chosen = [o for o in out if o[2] is None or goals is None or o[2] in goals]
    missing = set(goals or ()) - {o[2] for o in chosen}
    text = "\n\n".join("\n".join([*n, t]) for _, n, _, t in chosen)
    first = "\n".join(itertools.takewhile(lambda line: line.startswith("--"), (keep / "Proof.antt").read_text().split("\n")))
    inv = TOP / "crates" / crate / "proofs" / module / "Invariants.antt"
    moved = []
    if inv.exists():
        moved = [n for n in re.findall(rf"^(?:(?:abbrev|unfoldable|pub|record|data)\s+)*({WORD}) :", inv.read_text(), re.M) if not n.startswith(("invariant-", "decreases-"))]
        moved += [n for n in re.findall(rf"^pub (?:record|data) ({WORD})", inv.read_text(), re.M) if n not in moved]
        chosen = [o for o in chosen if o[0] not in moved]
        text = "\n\n".join("\n".join([*n, t]) for _, n, _, t in chosen)
    result = (first + "\n" if first.startswith("--") else "") + "\n".join(file_uses(uses)) + (f"\nuse {path[:-6]}.Invariants.{{{', '.join(moved)}}}" if moved else "") + f"\nuse {path} as goal\n\n" + text + "\n"
    for goal in sorted(missing):
        result += f"\n-- NO OLD ANSWER\npub {goal} : goal.{goal}\n{goal} c = ?\n"
    target = TOP / "crates" / crate / "proofs" / module / "Answers.antt"
    target.parent.mkdir(parents=True, exist_ok=True)
    target.write_text(without_unused(result))
    print("answers", module, sorted(goals or ()), "missing", sorted(missing), "helpers", sorted(helpers))


if __name__ == "__main__":
    if sys.argv[1] == "invariants":
        invariants(sys.argv[2], sys.argv[3], sys.argv[4], sys.argv[5:])
    else:
        answers(sys.argv[2], sys.argv[3], sys.argv[4], sys.argv[5], set(sys.argv[6:]) or None)
