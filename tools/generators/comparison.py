"""crates/vectors_comparison: pairs of sums in 67 words, and by Python's whole numbers their order and how many words tell it.

The pairs: equal sums; sums that differ in one word, at every place, by one, by the highest bit and at random; sums that
differ in the other direction in every lower word; opposite signs; neighbours across a carry out of every word, of both
signs, and across the highest bit of every word; random sums. Each pair is compared both ways round.

The order is that of the two whole numbers. The place of the highest differing word is that of the highest bit of their
exclusive or. Neither looks at words one after another.
"""
import random
import struct

from tools.generators.exact import MOD, words

COUNT = 67
WORD = 1 << 64
ONES = MOD - 1


def signed(pattern):
    """The whole number that a pattern of 4288 bits stands for in two's complement."""
    return pattern if pattern < MOD // 2 else pattern - MOD


def words_taken(a, b):
    return COUNT - ((a ^ b).bit_length() - 1) // 64 if a != b else COUNT


def told(a, b):
    order = "<" if signed(a) < signed(b) else ">" if signed(b) < signed(a) else "="
    return "%s %d" % (order, words_taken(a, b))


def at(place, word=1):
    return word << (64 * place)


def equals(rng):
    for a in (0, 1, ONES, MOD // 2, MOD // 2 - 1, rng.getrandbits(64 * COUNT), rng.getrandbits(64 * 40)):
        yield a, a


def one_word(rng):
    """One word differs, at every place, in sums of both signs: by one, by the highest bit, at random."""
    for base in (rng.getrandbits(64 * COUNT - 1), rng.getrandbits(64 * COUNT - 1) + MOD // 2):
        for place in range(COUNT):
            for change in (1, WORD // 2, rng.randrange(1, WORD)):
                yield base, base ^ at(place, change)


def against_lower(rng):
    """The highest differing word says the one, every lower one the other; of both signs."""
    low, high = [0], [0]
    for place in range(COUNT - 1):
        low.append(low[-1] | at(place, rng.randrange(WORD // 2)))
        high.append(high[-1] | at(place, rng.randrange(WORD // 2, WORD)))
    for place in range(1, COUNT):
        yield low[place] | at(place), high[place]
    for place in range(1, COUNT):
        yield ONES ^ low[place] ^ at(place), ONES ^ high[place]


def opposite(rng):
    """Sums of two signs, as large as each word can make them."""
    yield 0, ONES
    yield MOD // 2, MOD // 2 - 1
    word = rng.randrange(1, WORD // 2)
    for place in range(COUNT):
        yield at(place, word), MOD - at(place, word)


def neighbours():
    """n and n + 1 with a carry out of the words below a place, of both signs, and up to a word's highest bit."""
    for place in range(1, COUNT):
        yield at(place) - 1, at(place)
    for place in range(1, COUNT):
        yield MOD - at(place) - 1, MOD - at(place)
    for place in range(COUNT):
        yield at(place, WORD // 2) - 1, at(place, WORD // 2)


def alike_above(rng):
    """Random sums that have the words above a place in common."""
    for place in (0, 33, 66):
        low = 1 << (64 * (place + 1))
        common = rng.getrandbits(64 * COUNT) // low * low
        yield common + rng.randrange(low), common + rng.randrange(low)


def pairs(rng):
    for of in (equals(rng), one_word(rng), against_lower(rng), opposite(rng), neighbours(), alike_above(rng)):
        yield from of


def records(which, old, new):
    """What makes one sum, `which`, of what it was: words put, or first one word at every place where that takes fewer."""
    fill = max(set(new), key=new.count)
    changed, filled = ([i for i in range(COUNT) if new[i] != word[i]] for word in (old, [fill] * COUNT))
    start, puts = (b"", changed) if len(changed) <= len(filled) + 1 else (struct.pack("<BQQ", 2 + which, 0, fill), filled)
    return start + b"".join(struct.pack("<BQQ", which, i, new[i]) for i in puts)


def files():
    data, lines, sums = b"", [], [[0] * COUNT, [0] * COUNT]
    for pair in pairs(random.Random(3)):
        for which, pattern in enumerate(pair):
            made = words(pattern)
            data += records(which, sums[which], made)
            sums[which] = made
        data += struct.pack("<BQQ", 4, 0, 0)
        lines.append("%s %s\n" % (told(*pair), told(*pair[::-1])))
    assert len(data) < 65536, len(data)
    return {"stdin": data, "stdout": "".join(lines).encode()}
