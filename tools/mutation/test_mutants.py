"""tools/mutants on a small repository of two crates: what it tells of each kind of edit, and what it leaves behind."""
import os
import pathlib
import signal
import subprocess
import tempfile
import unittest

from tools.mutation.verdicts import verdict

TOOL = pathlib.Path(__file__).resolve().parents[1] / "mutants"
PARENTS = (pathlib.Path("/dev/shm"), pathlib.Path(tempfile.gettempdir()))  # where rooms may be made

CODE = """\
#![tactic(auto)]

ghost use Rattle.std.specs.Prelude.{◌≤◌};

// The lesser of a number and 9.
pub fn held(x: u32) -> u32
    ensures { result ≤ 9 }
{
    if x > 9 {
        return 9;
    }
    x
}
"""
ANSWERS = """\
-- The lesser of a number and 9 is at most 9.
use Rattle.std.proofs.Common.{arith}
use Rattle.held.proofs.held.Goals as goal

pub returns-then-x-gt9 : goal.returns-then-x-gt9
returns-then-x-gt9 c = omega arith

pub returns : goal.returns
returns c = let small = c.if-x-gt9.false in omega arith
"""
CODE_ABOVE = """\
#![tactic(auto)]

ghost use Rattle.std.specs.Prelude.{◌≤◌};

// One more than the lesser of a number and 9.
pub fn next(x: u32) -> u32
    ensures { result ≤ 10 }
{
    held::held(x) + 1
}
"""
EDITS = {
    "held/mutants/nothing": ("return 9;", "return 9;"),
    "held/mutants/ten": ("return 9;", "return 10;"),
    "held/mutants/always_nine": ("    if x > 9 {", "    {"),
    "held/mutants/right_in_another_shape": ("if x > 9 {", "if x >= 9 {"),
    "held/mutants/ten_in_another_shape": ("if x > 9 {", "if x > 10 {"),
    "held/mutants/not_there": ("return 11;", "return 12;"),
    "held/mutants/in_two_places": ("9", "8"),
    "held/mutants/no_number": ("return 9;", "return true;"),
    "held/mutants/no_definition": ("result ≤ 9", "result ≤ nine"),
    "held/must-fail/eleven": ("return 9;", "return 11;"),
    "above/mutants/two_more": ("held::held(x) + 1", "held::held(x) + 2"),
}


def files(root):
    """Every file of the repository, but for what is made below target/ and out/, with what it holds."""
    paths = (path for path in root.rglob("*") if path.is_file() and not {"target", "out"}.intersection(path.relative_to(root).parts))
    return {str(path.relative_to(root)): path.read_bytes() for path in paths}


def processes_below(folder):
    """The processes that run in a folder or below it."""
    found = []
    for process in pathlib.Path("/proc").glob("[0-9]*"):
        try:
            if os.readlink(process / "cwd").startswith(f"{folder}/"):
                found.append(process.name)
        except OSError:
            pass  # it has ended, or is another user's
    return found


class Mutants(unittest.TestCase):
    @classmethod
    def setUpClass(cls):
        cls.folder = tempfile.TemporaryDirectory()
        cls.root = root = pathlib.Path(cls.folder.name).resolve()
        texts = {"crates.txt": "held:\nabove: held\n", "crates/held/src/lib.rt": CODE, "crates/held/proofs/held/Answers.antt": ANSWERS}
        texts["crates/above/src/lib.rt"] = CODE_ABOVE
        for name, (old, new) in EDITS.items():
            texts[f"crates/{name}.edit"] = f"# an edit\nfile: src/lib.rt\nold: {old}\nnew: {new}\n"
        for name, text in texts.items():
            (root / name).parent.mkdir(parents=True, exist_ok=True)
            (root / name).write_text(text, encoding="utf-8")
        cls.before = files(root)

        cls.runs = []
        cls.status, cls.told = cls.run_tool("--all")

    @classmethod
    def tearDownClass(cls):
        cls.folder.cleanup()

    @classmethod
    def run_tool(cls, *words):
        tool = cls.begin(*words)
        told = tool.communicate()[0].splitlines()
        return tool.returncode, told

    @classmethod
    def begin(cls, *words):
        tool = subprocess.Popen([TOOL, "--root", cls.root, *words], stdout=subprocess.PIPE, stderr=subprocess.STDOUT, encoding="utf-8")
        cls.runs.append(tool.pid)
        return tool

    def tearDown(self):
        self.assertEqual(files(self.root), self.before, "the tree is not as it was")
        left = [room for parent in PARENTS for run in self.runs for room in parent.glob(f"nakwemol-mutants-{run}-*")]
        self.assertEqual(left, [], "a room is left behind")
        self.assertEqual(processes_below(self.root), [], "a check is still running")

    def told_of(self, edit):
        """What the run over all edits told of one of them, in its own line and, where no fact refused it, once more at the end."""
        lines = [line.partition(f"{edit}: ")[2] for line in self.told if f"{edit}: " in line]
        told = lines[0].rpartition(" (")[0]
        self.assertEqual(lines[1:], [] if told.startswith("refused, ") else [told])
        return told

    def test_a_mutant_that_changes_nothing_survives(self):
        self.assertEqual(self.told_of("held/nothing"), "SURVIVED, the crate is still proved with it")

    def test_a_fact_refuses(self):
        self.assertRegex(self.told_of("held/ten"), r"^refused, proofs/held/Answers\.antt:\d+:\d+$")
        self.assertRegex(self.told_of("held/eleven"), r"^refused, proofs/held/Answers\.antt:\d+:\d+$")

    def test_a_fact_of_a_function_without_a_proof_of_its_own_refuses(self):
        self.assertRegex(self.told_of("above/two_more"), r"^refused, src/lib\.rt:\d+:\d+$")

    def test_the_proofs_shape_alone_is_no_refusal(self):
        self.assertRegex(self.told_of("held/always_nine"), r"^refused only by the proof's shape, proofs/held/Answers\.antt:\d+:\d+$")

    def test_a_proof_is_fitted_to_code_that_changed_its_names_alone(self):
        """The proof names x-gt9, and the code says something else: it is tried under the names that the changed code has."""
        self.assertEqual(self.told_of("held/right_in_another_shape"), "SURVIVED, the crate is still proved with it")
        self.assertRegex(self.told_of("held/ten_in_another_shape"), r"^refused, proofs/held/Answers\.antt:\d+:\d+$")

    def test_bad_edits(self):
        self.assertEqual(self.told_of("held/not_there"), "BAD EDIT, an 'old:' text is not in src/lib.rt")
        self.assertEqual(self.told_of("held/in_two_places"), "BAD EDIT, an 'old:' text is in src/lib.rt more than once")
        self.assertEqual(self.told_of("held/no_number"), "BAD EDIT, it did not reach the prover (status 1)")
        self.assertRegex(self.told_of("held/no_definition"), r"^BAD EDIT, what it writes is no definition, src/lib\.rt:\d+:\d+$")

    def test_all_are_tried_and_counted(self):
        self.assertEqual(self.status, 1)
        self.assertRegex(self.told[-1], r"^mutants: 11 edits, 4 refused by a fact, 7 not \(\d+ s\)$")
        self.assertEqual(sum(" of 11, " in line for line in self.told), 11)

    def test_status_0_where_facts_refuse_every_one(self):
        status, told = self.run_tool("held/eleven", "above")
        self.assertEqual(status, 0)
        self.assertRegex(told[-1], r"^mutants: 2 edits, 2 refused by a fact, 0 not \(\d+ s\)$")

    def test_names_that_are_not_there(self):
        for name, said in [("none", "lists no crate none"), ("held/none", "held has no edit none")]:
            status, told = self.run_tool(name)
            self.assertEqual(status, 2)
            self.assertIn(said, told[-1])

    def test_an_interrupted_run_leaves_nothing_behind(self):
        for how in (signal.SIGINT, signal.SIGTERM):
            tool = self.begin()
            for line in tool.stdout:
                if " of 10, " in line:
                    break
            tool.send_signal(how)
            rest = tool.communicate()[0]
            self.assertEqual(tool.returncode, 130)
            self.assertEqual(rest.splitlines()[-1], "mutants: interrupted; nothing is left behind")


class Verdicts(unittest.TestCase):
    """Logs of checks, cut down to what is read of them."""

    GOAL = "note: src/lib.rt:142:9: it is not proved that what the function ensures holds at its end (`returns-b`); `search` gave up at one of its limits\n"
    AT = "./proofs/Rows/met/Answers.antt"
    GONE = f"{AT}:10:32: error: `returns-a`: module `Rattle.x.proofs.Rows.met.Goals` has no `returns-a` that can be named from here\n"
    NO_STEP = f"{AT}:12:3: error: `returns`: record `Rattle.x.proofs.Rows.met.Lts.Start` has no field `if-a` (nearest: .if-b)\n"
    AFTER = f"{AT}:31:5: error: 2 declarations that depend on `h`, which was rejected, were not checked: returns, loop-i-init\n"
    OWN, OTHER = "fn x::Rows::met: not proved\n", "fn x::Rows::met_twice: not proved\n"

    def verdict(self, *lines):
        return verdict(1, "".join(lines) + "logic=not-proved\n")

    def test_an_open_goal(self):
        self.assertEqual(self.verdict(self.GOAL, self.OWN), ("refused", "src/lib.rt:142:9"))

    def test_the_invariant_of_a_value(self):
        """What a ghost field says of a value that is made there."""
        made = "note: src/lib.rt:75:43: `search` found no proof (`invariant_of-known`); the facts known there allow values at which this goal is false\n"
        self.assertEqual(self.verdict(made, self.OWN), ("refused", "src/lib.rt:75:43"))
        self.assertEqual(self.verdict(self.GONE, made, self.OWN), ("refused", "src/lib.rt:75:43"))

    def test_an_open_goal_of_a_function_whose_proof_does_not_fit(self):
        """The goal's name is another in the changed code, so its answer goes by another name."""
        for line in (self.GONE, self.NO_STEP):
            self.assertEqual(self.verdict(line, self.GOAL, self.OWN)[0], "refused only by the proof's shape")

    def test_a_goal_that_is_false_though_the_proof_does_not_fit(self):
        false = self.GOAL.replace("`search` gave up at one of its limits", "the facts known there allow values at which this goal is false")
        self.assertEqual(self.verdict(self.GONE, false, self.OWN), ("refused", "src/lib.rt:142:9"))

    def test_an_open_goal_of_another_function(self):
        self.assertEqual(self.verdict(self.GONE, self.OWN, self.GOAL, self.OTHER), ("refused", "src/lib.rt:142:9"))

    def test_what_follows_from_another_error(self):
        fact = "./proofs/Sums.antt:9:5: error: `h`: expected type `a ≡ b`, but this has type `a ≡ a`\n"
        self.assertEqual(self.verdict(self.AFTER, fact, self.OWN), ("refused", "proofs/Sums.antt:9:5"))
        self.assertEqual(self.verdict(self.NO_STEP, self.AFTER, self.OWN)[0], "refused only by the proof's shape")

    def test_a_clause_that_means_nothing(self):
        self.assertEqual(self.verdict("specs/Rows.antt:7:24: error: `met`: `nine` is not in scope\n")[0], "BAD EDIT")


if __name__ == "__main__":
    unittest.main()
