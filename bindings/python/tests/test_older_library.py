"""Shared objects of before are turned away: one that would take the same-spot distance for r, and r for the tolerance, without a word; and one that takes
fewer wells, and would refuse by 9 what is taken now."""
import os
import shutil
import subprocess
import sys
import tempfile
import unittest
from pathlib import Path

from nakwemol.calls import PARAMETERS
from tests.words import REPOSITORY

# What a call of before the same-spot distance answers: it has looked at all lists and numbers, and comes to the work area.
OLDER = "unsigned char %s(void) { return 17; }\n"
# And one that takes 48 wells, and looks at them first.
FEWER = "unsigned char %s(const double *values, unsigned long n) { (void)values; return n > 48 ? 9 : 22; }\n"


@unittest.skipIf(shutil.which("cc") is None, "needs cc")
class OlderLibrary(unittest.TestCase):
    def turned_away(self, call, words):
        with tempfile.TemporaryDirectory() as folder:
            source, shared = Path(folder, "older.c"), Path(folder, "older.so")
            source.write_text("".join(call % name for name in PARAMETERS))
            subprocess.run(["cc", "-shared", "-fPIC", "-o", shared, source], check=True)
            environment = {**os.environ, "NAKWEMOL_LIBRARY": str(shared), "PYTHONPATH": str(REPOSITORY / "bindings/python")}
            ended = subprocess.run([sys.executable, "-c", "import nakwemol"], env=environment, stderr=subprocess.PIPE)
        self.assertEqual(ended.returncode, 1)
        self.assertIn(f"OSError: {shared} is {words}: make it anew by", ended.stderr.decode())

    def test_before_the_same_spot_distance(self):
        self.turned_away(OLDER, "older than the same-spot distance, and would take it for r")

    def test_before_96_wells(self):
        self.turned_away(FEWER, "of before 96 wells, and would refuse what is taken now")


if __name__ == "__main__":
    unittest.main()
