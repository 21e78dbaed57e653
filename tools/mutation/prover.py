"""The prover's own command, `rattle check`, by which each edit is checked. It is what `rt check` and `rt must-fail` run too.

`rt check` itself would do for one edit, and not for hundreds: it holds the crates below while it runs, so that two edits could not be tried at once, reads
them all once more for each edit, and tells other checkouts on the machine to begin with what it kept in its room, which is gone a moment later.
"""
import pathlib
import subprocess


class Prover:
    """The kit's prover, and the words that it wants for a crate of the repository."""

    def __init__(self):
        page = subprocess.run(["rt", "doc"], stdout=subprocess.PIPE, encoding="utf-8", check=True).stdout.strip()
        self.kit = pathlib.Path(page).parent

    def command(self, crate, kept):
        """Checks the crate whose src/, specs/ and proofs/ stand in the folder that this runs in, over its libraries as `rt lib` made them and over what is
        kept from an earlier check in the folder of that name. On one core: several run at once."""
        words = [str(self.kit / "bin" / "rattle"), "check", "--crate-name", crate.name, f"src/{'main' if crate.is_program else 'lib'}.rt"]
        for name in ["std", *crate.of_kit]:
            words += ["--extern", f"{name}={self.kit}/rlibs/{name}.rlib"]
        for need in crate.needs:
            words += ["--extern", f"{need.name}={need.library}"]
        for folder in [self.kit / "rlibs", *(below.library.parent for below in crate.below())]:
            words += ["-L", f"dependency={folder}"]
        words += ["--antt-project", f"{self.kit}/rattle/logic/antt-project.json", "--logic-built", f"{self.kit}/logic_built"]
        words += ["--links", f"{crate.name}=", *["--crate-type", "staticlib"] * crate.is_static]
        return [*words, "--jobs", "1", "--incremental", str(kept)]

    def listing(self, crate, folder):
        """Lists into the folder what the prover calls the goals and steps of each function, and proves nothing."""
        words = self.command(crate, "kept")
        return [*words[: words.index("--incremental")], "--generated", str(folder), "--old-names"]
