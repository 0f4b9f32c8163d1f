#!/usr/bin/env python3
"""Makes the sample logs in the folder of this script (document 01's layout), and
those of pooling in `pooling` there.

A reader stores a record when a word is met and takes records out of the chain
when they grow old, so the chain runs through the records in any order and spare
records keep what they held. The pool of two logs is written anew, in order and
without spares. The seed stands here; every run gives the same bytes.
"""

import pathlib
import struct

SEED = 20261115
UNITS = 1 << 20  # S: the finest grid, so that a step is small beside a kernel value

# The six features of a word, all centred near 0.
FEATURES = ("rarity", "length", "syllables", "seen before", "place on the page", "sentence length")


class Random:
    """splitmix64, so that no version of the language changes the samples."""

    def __init__(self, seed):
        self.state = seed

    def next(self):
        self.state = (self.state + 0x9E3779B97F4A7C15) % 2**64
        z = self.state
        z = (z ^ z >> 30) * 0xBF58476D1CE4E5B9 % 2**64
        z = (z ^ z >> 27) * 0x94D049BB133111EB % 2**64
        return z ^ z >> 31

    def between(self, lowest, highest):
        return lowest + self.next() % (highest - lowest + 1)

    def shuffled(self, things):
        things = list(things)
        for last in range(len(things) - 1, 0, -1):
            other = self.between(0, last)
            things[last], things[other] = things[other], things[last]
        return things


def met_word(random):
    """The features of a word, and how hard it is; long and rare ones are hard."""
    rarity = random.between(-40, 40)
    length = 3 * random.between(-5, 5) + rarity // 8
    syllables = 8 * random.between(-2, 3) + length // 3
    seen = random.between(-20, 20)
    features = [rarity, length, syllables, seen, random.between(-30, 30), random.between(-15, 15)]
    return features, 2 * rarity + length + syllables - seen


def words(random, count, margin, noise):
    """Labelled words: hard ones are looked up. Words closer to the line than the
    margin are left out, and noise moves the line about from word to word."""
    items = []
    while len(items) < count:
        features, hardness = met_word(random)
        hardness += random.between(-noise, noise)
        if abs(hardness) >= margin:
            items.append((1 if hardness > 0 else 2, features))
    return items


def rarely_looked_up(random, looked_up, passed_over, noise):
    """So many words of each label, in the order met; words of a label that has
    enough already are left out."""
    left = {1: looked_up, 2: passed_over}
    items = []
    while any(left.values()):
        [(label, features)] = words(random, 1, 0, noise)
        if left[label]:
            left[label] -= 1
            items.append((label, features))
    return items


def middling(random, count, noise):
    """Labelled words of a class that looks up words of middling rarity: common
    words it knows, and the rarest, mostly names, it passes over."""
    items = []
    while len(items) < count:
        features, _ = met_word(random)
        rarity, seen = features[0], features[3]
        strange = 20 - abs(rarity) - seen // 2 + random.between(-noise, noise)
        items.append((1 if strange > 0 else 2, features))
    return items


def year(random, met, line, noise, every):
    """The words met in a year, labelled: those harder than the line are looked up,
    and noise moves the line about from word to word. One in every so many is met
    again at the end of the year and has the other label then."""
    items = [(1 if hardness + random.between(-noise, noise) > line else 2, features) for features, hardness in met]
    return items + [(3 - label, features) for label, features in items[::every]]


def two_years(random):
    """One pupil's words of last year and of this year. This year began with an easy
    book, in which 20 words of last year come up again. The pupil has learnt since:
    a word must be harder than last year to be looked up."""

    def easy(word):
        return word[1] < 20

    last_year = [met_word(random) for _ in range(55)]
    book = [word for word in last_year if easy(word)][:20]
    while len(book) < 47:
        word = met_word(random)
        if easy(word):
            book.append(word)
    return year(random, last_year, -15, 12, 13), year(random, book, 15, 12, 16)


def coarser(items):
    """The same words on a coarser scale, which keeps the square kernel small."""
    return [(label, [feature // 5 for feature in features]) for label, features in items]


def finer(items):
    """The same words on a finer scale; what passes the range is held at its ends."""
    return [(label, [max(-127, min(127, 4 * feature)) for feature in features]) for label, features in items]


def header(records, first, features, kernel, units, ceiling, tolerance, budget):
    """With one ceiling for both labels: the second one is 0."""
    return struct.pack("<HHBBHIIQII", records, first, features, kernel, 0, units, ceiling, tolerance, budget, 0)


def record(following, label, features):
    return struct.pack("<HBB16b", following, label, 0, *features, *[0] * (16 - len(features)))


def log(random, items, spares, kernel, units, ceiling, tolerance, budget):
    """Items scattered over the records, chained in the order of the list; spare
    records hold old words, whose next numbers lead anywhere."""
    count = len(items) + spares
    places = random.shuffled(range(1, count + 1))[: len(items)]
    stored = [record(random.between(0, 999), random.between(0, 3), met_word(random)[0]) for _ in range(count)]
    for (label, features), place, following in zip(items, places, places[1:] + [0]):
        stored[place - 1] = record(following, label, features)
    head = header(count, places[0], len(FEATURES), kernel, units, ceiling, tolerance, budget)
    return head + b"".join(stored)


def damaged(file):
    """The power failed while a record was written: the chain leads back to its
    own start from the middle."""
    first = int.from_bytes(file[2:4], "little")
    place = first
    for _ in range(10):
        place = int.from_bytes(file[32 + 20 * (place - 1) :][:2], "little")
    start = 32 + 20 * (place - 1)
    return file[:start] + first.to_bytes(2, "little") + file[start + 2 :]


def with_second_ceiling(file, ceiling):
    """The same log with another ceiling for the words passed over."""
    return file[:28] + struct.pack("<I", ceiling) + file[32:]


def chained(file):
    """The items of a log in the order of its chain: label and features in use."""
    items = []
    following = int.from_bytes(file[2:4], "little")
    while following != 0:
        following, label, _, *features = struct.unpack_from("<HBB16b", file, 32 + 20 * (following - 1))
        items.append((label, features[: file[4]]))
    return items


def pooled(older, newer):
    """The pool of two logs, by request (h) of document 02: the older one's items,
    then the newer one's; of items with the same features, whatever their labels,
    only the last stays. They become records 1 to n, chained in that order. The
    parameters, bytes 4 to 31, are the newer one's."""
    assert older[4:6] == newer[4:6]  # d and kernel; where they differ, the pool is refused
    items = chained(older) + chained(newer)
    left = []
    for place, (label, features) in enumerate(items):
        if features not in [later for _, later in items[place + 1 :]]:
            left.append((label, features))
    head = struct.pack("<HH", len(left), 1) + newer[4:32]
    following = [*range(2, len(left) + 1), 0]
    return head + b"".join(record(place, *item) for place, item in zip(following, left))


def example():
    """The three-record example of document 01."""
    records = [record(0, 2, [-1]), b"\xee" * 20, record(1, 1, [1])]
    return header(3, 3, 1, 0, 10, 100, 0, 50) + b"".join(records)


def samples(random):
    clean = log(random, words(random, 48, 25, 0), 16, 0, UNITS, 3_000, UNITS // 20, 5_000)
    noisy = log(random, words(random, 90, 0, 40), 30, 0, UNITS, 2_000, UNITS // 20, 20_000)
    square = log(random, coarser(words(random, 40, 10, 5)), 5, 1, UNITS, 3_000, UNITS // 20, 5_000)
    stuck = log(random, words(random, 60, 5, 20), 12, 0, 20_000, 64, 0, 50_000)
    spent = log(random, words(random, 90, 0, 60), 20, 0, UNITS, 2_000, UNITS // 1000, 40)
    fine = log(random, finer(words(random, 60, 10, 10)), 10, 0, UNITS, 1_000, UNITS // 20, 5_000)
    rare = log(random, rarely_looked_up(random, 10, 200, 50), 20, 0, UNITS, 4_000, UNITS // 20, 20_000)
    overlap = log(random, finer(middling(random, 80, 4)), 20, 2, UNITS, 3_000, UNITS // 20, 5_000)
    return {
        "example": example(),
        "clean": clean,
        "noisy": noisy,
        "square": square,
        "stuck": stuck,
        "spent": spent,
        "fine": fine,
        "damaged": damaged(noisy),
        "cut": clean[:700],
        "rare": rare,
        "ceilings": with_second_ceiling(rare, 200),
        "overlap": overlap,
    }


def pooling(random):
    last_year, this_year = two_years(random)
    older = with_second_ceiling(log(random, last_year, 15, 0, UNITS // 4, 1_500, UNITS // 40, 5_000), 1_200)
    newer = log(random, this_year, 10, 0, UNITS, 2_000, UNITS // 20, 20_000)
    return {
        "older": older,
        "newer": newer,
        "pooled": pooled(older, newer),
    }


def main():
    folder = pathlib.Path(__file__).resolve().parent
    random = Random(SEED)
    for name, file in samples(random).items():
        (folder / f"{name}.log").write_bytes(file)
    for name, file in pooling(random).items():
        (folder / "pooling" / f"{name}.log").write_bytes(file)


if __name__ == "__main__":
    main()
