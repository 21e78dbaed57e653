"""Calls of the older two that are refused, each number at its edges: alone, together with each later one, and together with all later ones at once.

A way puts one thing wrong: it changes the call, or takes a number away from a lent area. Of two the one that counts first is made last, so that the
other cannot undo it; the reading is asked whether each of them does apply.
"""
from typing import NamedTuple


class Way(NamedTuple):
    """What one mistake does to the call, and the area that it makes too short, by its place."""

    change: object
    short: int | None = None


def nothing(call):
    return call


def changes(edits):
    return {number: [Way(edit) for edit in ways] for number, ways in edits.items()}


def too_short(places):
    return [Way(nothing, place) for place in places]


class Refusals(NamedTuple):
    """A call's numbers in their order, the ways to each, the one of them that stands beside an earlier number, and pairs that no call can have."""

    order: list
    ways: dict
    beside: dict
    never: set

    def way_to(self, number):
        return self.beside.get(number, self.ways[number][0])

    def later(self, first):
        """The numbers after one, without those that cannot apply together with an earlier one."""
        taken = [first]
        for number in self.order[self.order.index(first) + 1:]:
            if not any((other, number) in self.never for other in taken):
                taken.append(number)
        return taken[1:]

    def without(self, number):
        """The same call without a number."""
        return self._replace(order=[other for other in self.order if other != number])

    def combined_with(self, number):
        """Those of the combinations in which a number takes part."""
        return (combination for combination in self.combined() if number in combination[1])

    def combined(self):
        """The number that has to come, all that apply, and their ways."""
        for at, first in enumerate(self.order):
            for way in self.ways[first]:
                yield first, [first], [way]
                beside = [number for number in self.order[at + 1:] if (first, number) not in self.never]
                yield from ((first, [first, number], [way, self.way_to(number)]) for number in beside)
            later = self.later(first)
            yield first, [first, *later], [self.ways[first][0], *map(self.way_to, later)]


def edited(call, ways):
    for way in reversed(ways):
        call = way.change(call)
    return call


def shorts(ways):
    return {way.short for way in ways if way.short is not None}
