"""How a case is printed: every number readable and by its pattern, and what each wrong reading changes."""
from tools.oracle.oracle import ask
from tools.generators.records import line
from tools.patterns import bits, word
from tools.reading.outcomes import differing, shown

ACROSS = 6


def numbers(name, items):
    """A list: counts and codes as they are; f64 numbers, and their patterns below."""
    if not any(isinstance(x, float) for x in items):
        print(f"  {name:14}", *(items or ["(none)"]))
        return
    for at in range(0, len(items), ACROSS):
        part = items[at:at + ACROSS]
        print(f"  {name if at == 0 else '':14}", *(f"{x!r:>22}" for x in part))
        print(" " * 16, *(f"{shown(x):>22}" for x in part))


def title(text):
    print(f"\n==== {text}")


def fields(heading, named):
    print(heading)
    for name, items in named.items():
        numbers(name, list(items) if isinstance(items, (list, tuple)) else [items])


def survey(s):
    v = s.variogram
    lists = {"codes": s.codes, "values": s.values, "coords": s.coords, "external": s.external, "nodes": s.nodes, "node_external": s.node_external}
    fields("inputs", {**lists, "model": v.model, "nugget": v.nugget, "sill": v.sill, "range": v.range, "same_spot": v.same_spot, "r": s.r, "t": s.t})


def on_the_way(matrix, right_hand_sides):
    """What the outcome comes from: the matrix, a row each, and each node's b."""
    rows = {f"matrix row {i}": row for i, row in enumerate(matrix)}
    fields("on the way", {**rows, **{f"b of node {q + 1}": b for q, b in enumerate(right_hand_sides)}})


def agrees(words, answer):
    """Asserts that the original answers so, its second build where the same-spot distance is another than its own."""
    (given,) = ask([line(words)])
    assert given == answer, (given, answer)
    print("the original's second build answers the same" if words[0] == "below" else "the original answers the same")


def ok(count, *lists):
    return " ".join([f"ok {count}", *(word(bits(x)) for items in lists for x in items)])


def wrong(right, readings):
    """Asserts that each wrong reading changes something, and says what."""
    print("wrong readings, and what each changes")
    for name, outcome in readings.items():
        changed = differing(right, outcome)
        assert changed, name
        print(f"  {name:58}", *changed)
