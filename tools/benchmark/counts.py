"""Instructions of one call, counted by valgrind: the same table of parts, by the same differences, that no other program on the machine disturbs."""
import re
import subprocess

from tools.benchmark.tables import Measured, Parts, table

SIZES = [(12, 1, 25), (24, 1, 100), (24, 6, 100), (48, 1, 100), (48, 6, 100), (96, 1, 100)]
ZEROS = ("stopped", "near", "one-place")
KINDS = ("whole", "first-row", "exact", "refused", *ZEROS)
RUNS = {"original": "bench::kriging::original::Fit::run", "port": "bench::port::Fit::run"}
COMPARE, PLACES, EQUAL = "bench::port::Sums::run", (66, 65, 64, 60, 50, 33, 10, 1, 0), 67
NAMED = {"original": ["gauss_jordan_invert_uked"], "port": ["elimination::eliminate", "solution::fill_z", "audit::row_met"]}


def profiled(program, out, side, words, function=None):
    """A profile of one call of one side, of a fit where no other function is named, and what the program says of it."""
    profile = out / "callgrind.out"
    flags = ["--tool=callgrind", f"--callgrind-out-file={profile}", "--collect-atstart=no", f"--toggle-collect={function or RUNS[side]}"]
    run = subprocess.run(["valgrind", *flags, program, "--one", side, "1", *words], text=True, stderr=subprocess.PIPE, check=True)
    return profile, run.stderr


def instructions(said):
    return int(re.search(r"Collected : (\d+)", said)[1])


def counted(program, out, side, words):
    """How many instructions one call takes, and how many rows its audits look at."""
    said = profiled(program, out, side, words)[1]
    return instructions(said), re.search(r"rows (\d+)", said)[1]


def figures(program, out):
    """Counts in the place of times, for the fits whose differences are the parts."""
    made = {}
    for n, p, m in SIZES:
        for kind, nodes in [*((kind, 0 if kind in ZEROS else m) for kind in KINDS), ("whole", 0)]:
            words = ["fit", str(n), str(p), str(nodes), kind]
            (original, _), (port, rows) = (counted(program, out, side, words) for side in RUNS)
            made["part", *words[1:], rows] = Measured(port / original, 0, 0, original, port)
    return made


def by_function(program, out):
    """What the functions that stay functions take, with all that they call: thousands of instructions."""
    rows = []
    for sizes in [(12, 1, 25), (48, 1, 100), (48, 6, 100), (96, 1, 100)]:
        for side, names in NAMED.items():
            profile, _ = profiled(program, out, side, ["fit", *map(str, sizes), "whole"])
            text = subprocess.run(["callgrind_annotate", "--inclusive=yes", "--threshold=100", profile], text=True, capture_output=True, check=True).stdout
            for name in names:
                count = re.search(rf"([\d,]+) \([^)]*\)  \S*{name} ", text)
                rows.append([", ".join(map(str, sizes)), side, name, count[1] if count else "inlined"])
    return table(["n, p, m", "", "function", "instructions"], rows)


def comparisons(program, out):
    """Instructions of a comparison of two exact sums, by the place of the highest word that differs."""
    def row(name, words, place):
        return [name, words, instructions(profiled(program, out, "port", ["compare", str(place)], COMPARE)[1])]

    rows = [*(row(place, 67 - place, place) for place in PLACES), row("equal", 67, EQUAL)]
    return table(["place of the highest differing word", "words", "instructions"], rows)


def thousands(count):
    return f"{count / 1000:.1f}" if count < 100_000 else f"{count / 1000:.0f}"


def small(figures):
    of = {sizes[:2]: Parts(figures, *sizes) for sizes in SIZES}
    at, product = of[48, 1], (of[48, 6].row() - of[24, 6].row()) / 24
    rows = [["one root", *(f"{at.root(side) / 1000:.0f}" for side in RUNS)],
            ["one entry of the matrix: distance, root, variogram", *(f"{at.entry(side) / 1000:.0f}" for side in RUNS)],
            ["one exact product", "", f"{product:.0f}"],
            ["one row of an audit of 48 wells that sums with rounding show, p = 6", "", f"{of[48, 6].shown_row():.0f}"],
            ["one such row by exact sums", "", f"{of[48, 6].row():.0f}"],
            ["what is no product in it", "", f"{of[48, 6].row() - 48 * product:.0f}"]]
    for n in (12, 24, 48, 96):
        rows.append([f"one elimination of {n + 1} rows, thousands", *(thousands(of[n, 1].elimination(side)) for side in RUNS)])
    return table(["instructions", "original", "port"], rows)
