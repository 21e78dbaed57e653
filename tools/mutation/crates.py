"""The crates of the repository, by crates.txt, and their edits."""
from .edits import FOLDERS


class Crate:
    """A crate: its folder, what it stands on, of the repository and of the kit, and the edits of it that are asked for."""

    def __init__(self, root, name, is_static, needs, of_kit):
        self.name, self.is_static, self.needs, self.of_kit, self.root = name, is_static, needs, of_kit, root
        self.folder = root / "crates" / name
        self.is_program = (self.folder / "src" / "main.rt").is_file()
        self.library = self.folder / "out" / "rlib" / f"{name}.rlib"  # where `rt lib` puts it
        self.edits = []

    def below(self):
        """The crates of the repository that it stands on, lowest first."""
        found = []
        for need in self.needs:
            found += [each for each in [*need.below(), need] if each not in found]
        return found

    def edits_in(self, folders):
        """The crate's edits in these of its folders, in the order of their names."""
        return sorted((edit for folder in folders for edit in (self.folder / folder).glob("*.edit")), key=lambda edit: edit.stem)


def listed(root):
    """Every crate that crates.txt lists, by name, lowest first: a crate comes after all that it stands on."""
    lines = {}
    for line in (root / "crates.txt").read_text(encoding="utf-8").splitlines():
        head, colon, needs = line.partition("#")[0].partition(":")
        if colon:
            name, *kind = head.split()
            lines[name] = kind, needs.split()
    found = {}

    def visit(name):
        kind, needs = lines[name]
        own = [need for need in needs if need in lines]
        for need in own:
            visit(need)
        if name not in found:
            found[name] = Crate(root, name, "staticlib" in kind, [found[need] for need in own], [need for need in needs if need not in lines])

    for name in lines:
        visit(name)
    return found


def chosen(root, names, all_folders):
    """The crates that have edits to try, each with these: of the crates and the edits (CRATE/EDIT) that are named, or of every crate where none is named.

    An edit that is named is looked for in both folders. Raises KeyError with what is not there."""
    crates = listed(root)
    folders = FOLDERS if all_folders else FOLDERS[:1]
    for name in names or crates:
        crate, slash, edit = name.partition("/")
        if crate not in crates:
            raise KeyError(f"crates.txt lists no crate {crate}")
        found = [e for e in crates[crate].edits_in(FOLDERS if slash else folders) if not slash or e.stem == edit]
        if names and not found:
            raise KeyError(f"{crate} has no edit {edit}" if slash else f"crates/{crate} has no edits in {' or '.join(folders)}/")
        crates[crate].edits += [e for e in found if e not in crates[crate].edits]
    return [crate for crate in crates.values() if crate.edits]
