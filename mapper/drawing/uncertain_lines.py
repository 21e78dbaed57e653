"""Contour lines in pieces: drawn through where the level is known well enough, and dashed where it is not.

A level counts as uncertain where its standard deviation is above half the root of what the model rises to, which is the deviation of a guess
without any well near.
"""
import math

from mapper.drawing.contours import cut


def uncertain_above(variogram):
    """The standard deviation above which a level is uncertain; infinite where the model has no top to compare with."""
    return math.sqrt(variogram.top) / 2 if 0 < variogram.top < math.inf else math.inf


def figure_at(field, at):
    """The figure of a field at a place, by straight lines between the nodes around it."""
    column, row = min(int(at[0]), field.columns - 2), min(int(at[1]), field.rows - 2)
    right, up = at[0] - column, at[1] - row
    shares = (1 - right) * (1 - up), right * (1 - up), right * up, (1 - right) * up
    return sum(share * figure for share, figure in zip(shares, field.corners(column, row)) if share)


def pieces(line, figures, most):
    """A line in pieces, each with whether it is uncertain: the figures at its places say so, and it is cut where they pass the most."""
    unsure = [not figure <= most for figure in figures]  # what is no number is uncertain
    found = [(unsure[0], [line[0]])]
    for k in range(1, len(line)):
        if unsure[k] != unsure[k - 1]:
            share = cut(most, figures[k - 1], figures[k])
            there = tuple(a + (b - a) * share for a, b in zip(line[k - 1], line[k]))
            found[-1][1].append(there)
            found.append((unsure[k], [there]))
        found[-1][1].append(line[k])
    return found


def parted(bound_lines, deviation, most):
    """The certain pieces of some lines and the uncertain ones, by the field of the deviations."""
    found = [], []
    for line in bound_lines:
        for unsure, piece in pieces(line, [figure_at(deviation, at) for at in line], most):
            found[unsure].append(piece)
    return found
