"""Rooms: folders in which a copy of one crate is checked, over the libraries of the repository as they were proved.

What the prover keeps of a room's check, so that the next one need not check it again, is made of links to the files of one whole folder for each crate: the
prover writes a file anew and never into it, so a link is as good as a copy and takes no room on the disk.
"""
import os
import pathlib
import shutil
import subprocess
import tempfile

HOUSE = "nakwemol-mutants-"
MEMORY_FOLDER = pathlib.Path(__file__).resolve().parents[1] / "memory_folder"
COPIED = ("src", "specs", "proofs")
KEPT = "kept"
MODULE = ".oantt"


def remove(folder):
    """Removes a folder, whatever is in it."""
    shutil.rmtree(folder, ignore_errors=True)


def house():
    """A new folder for all that a run makes and leaves nothing of: its rooms, and the prover's temporary files, `tmp`. It is in memory where there is room.

    What a run that was killed has left there goes first."""
    parent = pathlib.Path(subprocess.run([MEMORY_FOLDER], stdout=subprocess.PIPE, encoding="utf-8", check=True).stdout.strip())
    for left in parent.glob(f"{HOUSE}*"):
        if not pathlib.Path("/proc", left.name.removeprefix(HOUSE).partition("-")[0]).exists():
            remove(left)
    made = pathlib.Path(tempfile.mkdtemp(prefix=f"{HOUSE}{os.getpid()}-", dir=parent))
    (made / "tmp").mkdir()
    return made


def make(room, crate):
    """A room with an untouched copy of the crate."""
    room.mkdir(parents=True)
    for part in COPIED:
        if (crate.folder / part).is_dir():
            shutil.copytree(crate.folder / part, room / part)


def seed(room, crate):
    """Gives a room what `rt check` or `rt lib` kept of the crate. The prover takes what is up to date and checks the rest: a folder that holds nothing, or
    something else, costs time and changes no verdict. So does one that another command writes just now, which is then left."""
    try:
        link(crate.folder / "out" / "incremental", room / KEPT)
    except (OSError, shutil.Error):
        remove(room / KEPT)


def link(whole, folder):
    """A folder once more: links to the modules that the prover checked, where they can be made, and copies of the few files beside them, which it marks as
    used."""

    def link_or_copy(file, new):
        if file.endswith(MODULE):
            try:
                return os.link(file, new)
            except OSError:
                pass  # the room is on another disk, or in memory
        return shutil.copy2(file, new)

    shutil.copytree(whole, folder, copy_function=link_or_copy)


def state(folder):
    """What is in a folder: each file's name, size and time of writing."""
    files = (path for path in pathlib.Path(folder).rglob("*") if path.is_file())
    return {str(path): (path.stat().st_size, path.stat().st_mtime_ns) for path in files}
