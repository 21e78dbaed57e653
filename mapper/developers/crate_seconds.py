"""What each crate takes that the program and the archive need, proved from nothing, in seconds of one core: mapper/runs/crate_seconds.txt.

Usage: python3 -m mapper.developers.crate_seconds     after `tools/build wellmap nakwemol`, which makes the libraries; minutes on two cores
"""
import os
import subprocess
import sys
import tempfile
from concurrent.futures import ThreadPoolExecutor

from mapper.runs.building import ROOT
from tools.mutation.crates import listed
from tools.mutation.prover import Prover


def seconds(prover, crate):
    """The crate's processor time, over its libraries and over nothing that is kept of it."""
    with tempfile.TemporaryDirectory() as nothing:
        words = prover.command(crate, nothing)
        process = subprocess.Popen(words, cwd=crate.folder, stdin=subprocess.DEVNULL, stdout=subprocess.DEVNULL, stderr=subprocess.DEVNULL)
        _, status, used = os.wait4(process.pid, 0)
    if status:
        sys.exit(f'{crate.name} is not proved')
    return round(used.ru_utime + used.ru_stime)


def main():
    crates, prover = listed(ROOT), Prover()
    top = [crates['wellmap'], crates['nakwemol']]
    needed = [crate for crate in crates.values() if crate in top or any(crate in each.below() for each in top)]
    with ThreadPoolExecutor(2) as pool:
        for crate, took in zip(needed, pool.map(lambda each: seconds(prover, each), needed)):
            print(crate.name, took, flush=True)


if __name__ == '__main__':
    main()
