"""An edit: a mistake that a maintainer could make, as a file. Its form is that of `rt must-fail`; so is what is said of one that has another form."""
import pathlib

FOLDERS = ("mutants", "must-fail")
PARTS = ("src/", "specs/", "proofs/")


class Bad(Exception):
    """An edit that cannot be applied, and why."""


def replacements(text):
    """The edit's replacements, in their order: file, old text, new text. Lines of any other kind are comments."""
    file, old, found = "", "", []
    for line in text.splitlines():
        if line.startswith("file: "):
            file = line.removeprefix("file: ")
        elif line.startswith("old: "):
            old = line.removeprefix("old: ")
        elif line.startswith("new:"):
            found.append((file, old, line.removeprefix("new:").removeprefix(" ")))
            old = ""
    if not found:
        raise Bad("it has no 'old:' and 'new:' pair")
    return found


def apply(edit, crate):
    """Applies the edit to a copy of its crate."""
    for file, old, new in replacements(pathlib.Path(edit).read_text(encoding="utf-8")):
        path = crate / file
        if not file.startswith(PARTS) or ".." in path.parts or not path.is_file() or path.is_symlink():
            raise Bad(f"'file: {file}' names no file of the crate below src/, specs/ or proofs/")
        text = path.read_text(encoding="utf-8")
        if not old or old not in text:
            raise Bad(f"an 'old:' text is not in {file}")
        before, _, after = text.partition(old)
        if old in after:
            raise Bad(f"an 'old:' text is in {file} more than once")
        path.write_text(before + new + after, encoding="utf-8")
