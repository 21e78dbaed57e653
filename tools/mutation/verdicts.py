"""What a check's log says of an edit."""
import re
from dataclasses import dataclass
from typing import Optional

REFUSED, SHAPE, SURVIVED, BAD = "refused", "refused only by the proof's shape", "SURVIVED", "BAD EDIT"
UNPROVED = "not tried, since its crate is not proved as it stands"

# an error in a file; of a function, a note on a goal that the prover found no answer to by itself, the invariant of a value that it makes among them; and what
# became of a function, below all such notes on it
LINE = re.compile(
    r"^(?P<place>\S+?): error: (?P<said>.*)$|^note: (?P<at>\S+?): (?P<unproved>(it is not proved that |`search` found no proof \(`invariant_of-).*)$|^fn (?P<function>\S+): ", re.MULTILINE
)
# a proof names what is not there any more, most often a goal or a step of the code: both have their names from the code's text, so that of `if x > 9` is gone
# where it says `if x > 8`. The proof does not fit the code then, and whatever else is wrong in its file may come from that
NO_NAME = re.compile(r"has no `[^`]*` that can be named from here|has no field `|is not in scope")
# the prover has values for which all that is known there holds, and the goal does not
FALSE_AT = "allow values at which this goal is false"
# where contracts and definitions stand
STATED = ("src/", "specs/")
# what stands on a declaration that was refused
FOLLOWS = re.compile(r"was not admitted|which was rejected, w(as|ere) not checked")


@dataclass
class Error:
    """What the prover says is wrong: where, in words, and of a note the folder with the proof of its function."""
    place: str
    said: str
    is_note: bool = False
    folder: Optional[str] = None

    @property
    def file(self):
        return self.place.partition(":")[0]


def errors_of(log):
    """Each error, and each note on a goal, that does not follow from another error."""
    found, notes = [], []
    for line in LINE.finditer(log):
        if line["function"]:
            for note in notes:
                note.folder = "/".join(["proofs", *line["function"].split("::")[1:]])
            notes = []
        elif line["at"]:
            notes.append(Error(line["at"].removeprefix("./"), line["unproved"], True))
            found.append(notes[-1])
        elif not FOLLOWS.search(line["said"]):
            found.append(Error(line["place"].removeprefix("./"), line["said"]))
    return found


def verdict(status, log):
    """What became of an edit, and where: REFUSED by a fact at that place, SHAPE, SURVIVED, or BAD where the prover got nothing to prove or to refuse.

    An open goal of a function whose proof does not fit is no fact, since its answer may stand in that proof, unless the prover has values at which it is
    false."""
    if status == 0:
        return SURVIVED, "the crate is still proved with it"
    if status != 1 or not re.search(r"^logic=not-proved", log, re.MULTILINE):
        return BAD, f"it did not reach the prover (status {status})"
    errors = errors_of(log)
    for error in errors:
        # of code the prover says in a note what is not proved: an error in src/ or specs/ itself is of a clause or a definition that means nothing
        if not error.is_note and error.file.startswith(STATED):
            return BAD, f"what it writes is no definition, {error.place}"
    unfit = {error.file for error in errors if NO_NAME.search(error.said)}
    folders = {file.rpartition("/")[0] for file in unfit}
    facts = [error.place for error in errors if error.file not in unfit and (error.folder not in folders or FALSE_AT in error.said)]
    if facts:
        return REFUSED, facts[0]
    return SHAPE, errors[0].place if errors else "the log names no place"
