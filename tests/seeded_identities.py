"""Seeded lines of the program identity.

    python3 tests/seeded_identities.py LINES SEED     print so many lines; the same seed gives the same ones
"""

from identities import FAMILIES, ID_START, LONG, asked, family_of, filter_of, identity_of, most_characters, short_fields
from seeded import BYTES, USUAL, one_changed, print_lines
from tags import CHARACTERS, SCHEMES, TAG_START, limit, string_text

REFERENCE = ("0", "7", "9", "A", "Z", "-", "%2F", "%23", "%2f", "a", "#")


def good(random):
    """A tag's text, or its identity with its filter."""
    tag = random.tag()
    return tag.text() if random.below(2) else asked(filter_of(tag), identity_of(tag))


def near(random):
    """An identity of any family whose components are near the limits of its grammar and schemes, and any filter."""
    family = random.choice(FAMILIES)
    filter_ = random.below(10) if random.below(4) else 0
    return asked(filter_, ID_START + family.name + ":" + ".".join(components(random, family)))


def near_tag(random):
    """The same as a tag's text of any scheme of the family, which may not hold it."""
    scheme = random.choice(SCHEMES)
    family = next(family for family in FAMILIES if family.name == family_of(scheme))
    filter_ = [] if family.name == "gid" else [str(random.below(9))]
    return TAG_START + scheme.name + ":" + ".".join(filter_ + components(random, family))


def components(random, family):
    prefix = random.choice((6, 7, 8, 9, 10, 11, 12)) if random.below(8) else 1 + random.below(15)
    found = []
    for place, kind in enumerate(family.components):
        if kind == "numeric":
            found.append(near_integer(random, limit(short_fields(family.name)[place])))
        elif kind == "string":
            found.append(serial(random, family.name))
        elif kind == "part reference":
            found.append(part_reference(random, prefix))
        elif place == 2:
            found.append(digits(random, 1 + random.below(14)))
        else:
            together = family.together or 2 * prefix
            count = (prefix, together - prefix)[place] + (random.below(3) - 1 if random.below(12) == 0 else 0)
            found.append(digits(random, max(count, 0)))
    return found


def digits(random, count):
    return "".join(random.choice("0123456789") for _ in range(count))


def near_integer(random, end):
    """An integer of any size, or one about a limit; of sixteen one begins with a zero."""
    value = end - 2 + random.below(4) if random.below(4) == 0 else random.below(end) >> random.below(end.bit_length())
    return "0" * (random.below(16) == 0) + str(value)


def serial(random, name):
    """A string or an integer near what the family's schemes hold."""
    if random.below(2):
        return near_integer(random, limit(short_fields(name, random.below(7))[-1]))
    most = most_characters(name) if name in LONG else 20
    count = most - 1 + random.below(4) if random.below(4) == 0 else 1 + random.below(most)
    alphabet = CHARACTERS if random.below(2) else b"0123456789"
    return string_text([random.choice(alphabet) for _ in range(count)])


def part_reference(random, prefix):
    """An integer of about as many digits as the row holds, or characters of its own and some that are none."""
    if random.below(2):
        return near_integer(random, 10 ** max(15 - prefix, 1))
    return "".join(random.choice(REFERENCE[: 3 + random.below(9)]) for _ in range(1 + random.below(12)))


def random_bytes(random):
    """Any of a text's usual characters, or any bytes, after some start of a line; some too long."""
    count = random.below(60 if random.below(4) else 300)
    name = random.choice(FAMILIES).name
    starts = ("", TAG_START, TAG_START + "[", ID_START, "3 " + ID_START, f"3 {ID_START}{name}:", f"33 {ID_START}{name}:")
    alphabet = USUAL if random.below(2) else BYTES
    return random.choice(starts) + "".join(random.choice(alphabet) for _ in range(count))


def line(random):
    """Of sixteen lines seven are near a limit, four good, four of these two kinds with a character changed, one random bytes."""
    kind = random.below(16)
    if kind < 7:
        return near(random) if kind < 5 else near_tag(random)
    if kind < 11:
        return good(random)
    if kind == 15:
        return random_bytes(random)
    return one_changed(random, near(random) if random.below(2) else good(random))


if __name__ == "__main__":
    print_lines(line)
