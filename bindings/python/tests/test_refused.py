"""A refusal travels: it is copied, and goes through a pickle from one process to another."""
import copy
import os
import pickle
import signal
import subprocess
import sys
import unittest

from nakwemol import Refused
from nakwemol.refused import TOLD
from tests.words import REPOSITORY

POOL = """
import multiprocessing
from nakwemol import Refused, UniversalKrigingOptions, universal_kriging_fit
if __name__ == "__main__":
    with multiprocessing.Pool(1) as pool:
        try:
            pool.apply(universal_kriging_fit, ([[0, 0]], [2, 6], UniversalKrigingOptions(), [[1, 0]]), {"tolerance": 0.0})
        except Refused as refused:
            print(refused.number, refused.kind, refused)
"""
SECONDS = 30


class Travels(unittest.TestCase):
    def test_every_refusal_there_and_back(self):
        for number in TOLD:
            refused = Refused(number)
            travelled = [copy.copy(refused), copy.deepcopy(refused)]
            travelled += [pickle.loads(pickle.dumps(refused, protocol)) for protocol in range(pickle.HIGHEST_PROTOCOL + 1)]
            for other in travelled:
                self.assertEqual((type(other), other.number, other.kind, other.message), (Refused, number, *TOLD[number]))
                self.assertEqual(str(other), f"refused by {number} ({TOLD[number][0]}): {TOLD[number][1]}")

    def test_pool_hands_it_over(self):
        """A pool waits for ever for an answer that it cannot unpickle."""
        path = os.pathsep.join([str(REPOSITORY / "bindings/python"), os.environ.get("PYTHONPATH", "")])
        pool = subprocess.Popen([sys.executable, "-c", POOL], stdout=subprocess.PIPE, stderr=subprocess.PIPE, text=True, start_new_session=True,
                                env={**os.environ, "PYTHONPATH": path})
        try:
            out, err = pool.communicate(timeout=SECONDS)
        except subprocess.TimeoutExpired:
            os.killpg(pool.pid, signal.SIGKILL)
            out, err = "", f"no answer in {SECONDS} s" + pool.communicate()[1]
        self.assertEqual(out, f"1 {TOLD[1][0]} refused by 1 ({TOLD[1][0]}): {TOLD[1][1]}\n", err)


if __name__ == "__main__":
    unittest.main()
