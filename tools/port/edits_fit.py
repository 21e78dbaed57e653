#!/usr/bin/env python3
"""Whether the edits of crates/*/must-fail/ and crates/*/mutants/ fit today's files. Run at the top of the repository.

Prints each edit that does not fit, with what is wrong, and exits 1 if there is one. Of an edit it asks that
- it is in the commit before the port, in the same folder and under the same name, and that none of that commit is gone;
- it has the comments that it has there, and names the same files in the same order;
- each `old:` text stands exactly once in its file, as the pairs before it left that file, and its `new:` text is another.
Whether the check refuses it is for `rt must-fail` and tools/mutants to tell.
"""
import pathlib
import subprocess
import sys

BEFORE = "d58face37500f9464664fa3ea9963e6f3e2320cd"
FOLDERS = ("must-fail", "mutants")


def before():
    """The edits of the commit before the port: path and text."""
    listed = subprocess.run(["git", "ls-tree", "-r", "--name-only", BEFORE, "crates"], check=True, capture_output=True, text=True)
    paths = [path for path in listed.stdout.splitlines() if is_edit(path)]
    asked = "".join(f"{BEFORE}:{path}\n" for path in paths)
    blobs = subprocess.run(["git", "cat-file", "--batch"], check=True, capture_output=True, input=asked.encode()).stdout
    texts = {}
    for path in paths:
        head, _, blobs = blobs.partition(b"\n")
        size = int(head.split()[-1])
        texts[path] = blobs[:size].decode()
        blobs = blobs[size + 1 :]
    return texts


def is_edit(path):
    parts = path.split("/")
    return len(parts) == 4 and parts[2] in FOLDERS and path.endswith(".edit")


def kept(text):
    """The lines that the port leaves alone: comments and files."""
    return [line for line in text.splitlines() if not line.startswith(("old:", "new:"))]


def unfit(crate, text):
    """What is wrong with an edit's pairs."""
    texts, file, old = {}, None, None
    for line in text.splitlines():
        if line.startswith("file: "):
            file = crate / line.removeprefix("file: ")
            if file not in texts:
                texts[file] = file.read_text(encoding="utf-8") if file.is_file() else ""
        elif line.startswith("old: "):
            old = line.removeprefix("old: ")
        elif line.startswith("new:"):
            new = line.removeprefix("new:").removeprefix(" ")
            if not file or not old:
                yield "a 'new:' line has no file or no 'old:' line before it"
                return
            count = texts[file].count(old)
            if count != 1:
                yield f"stands {count} times in {file.name}: {old}"
            if old == new:
                yield f"changes nothing: {old}"
            texts[file] = texts[file].replace(old, new)
            old = None
    if not texts or old:
        yield "it has no pair, or an 'old:' line without its 'new:' line"


def main():
    there = before()
    here = {str(path): path.read_text(encoding="utf-8") for path in pathlib.Path("crates").glob("*/*/*.edit")}
    wrong = [f"{path}: gone" for path in there.keys() - here.keys()]
    for path, text in here.items():
        if path not in there:
            wrong.append(f"{path}: added")
        elif kept(text) != kept(there[path]):
            wrong.append(f"{path}: another comment or file")
        wrong += [f"{path}: {what}" for what in unfit(pathlib.Path(path).parents[1], text)]
    print("\n".join(sorted(wrong) + [f"edits_fit: {len(here)} edits, {len({line.split(': ')[0] for line in wrong})} do not fit"]))
    return 1 if wrong else 0


if __name__ == "__main__":
    sys.exit(main())
