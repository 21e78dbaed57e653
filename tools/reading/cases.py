#!/usr/bin/env python3
"""Small cases whose numbers are worked out here, outside the port: inputs and expected outcomes, readable and by their patterns.

Usage: tools/reading/cases.py KRIGING.RS

Asserts that the original answers the same wherever it answers, and that each wrong reading listed with a case changes its outcome.
"""
import pathlib
import sys

sys.path.insert(0, str(pathlib.Path(__file__).resolve().parents[2]))

from tools.oracle.oracle import build
from tools.reading import case_files, case_fits, case_older, case_spots


def main():
    build(sys.argv[1])
    case_fits.print_all()
    case_older.print_all()
    case_files.print_all()
    case_spots.print_all()


if __name__ == "__main__":
    main()
