"""Texts and banks that are refused at the places of requests C-12 and C-13 in document 02, each with its number.

tests/faults.py has faults of every kind; here are few of them, but at every place where a part can begin. tests/agree says which
places there are; those of 20 are shown by tests/controls.py, those of further words by tests/long_banks.py.
"""

from faults import zero_bits
from tags import MOST_WORDS, TAG_START, control_fields, limit, scheme_tags, string_value, tags

WRONG = "#"  # in no part that is taken
TOO_LARGE = "9" * 31
CONTROLS = ((1, 0x00), (0, 0x01), (1, 0xFF))  # umi and att: the fields that a text can have differ in length


def refused_texts():
    """Each part missing at the text's end; wrong and, for 8, too large, wherever the row and the parts before let it begin.

    Behind control fields the name, and the parts of each scheme in one row.
    """
    yield 3, TAG_START
    for tag in tags():
        for shape in shapes(tag):
            yield from wrong_parts(shape)
    for control in CONTROLS:
        start = TAG_START + control_fields(*control)
        yield from ((3, start + name) for name in ("", WRONG))
        for tag in scheme_tags():
            yield from wrong_parts(next(shapes(tag.controlled(*control))))


def shapes(tag):
    """The tag with every number of digits that its parts before the last can have together; mostly there is one."""
    moving = [at for at in tag.written()[:-1] if tag.fields[at].kind != "filter" and tag.fields[at].digits is None]
    for at in moving:
        tag = tag.changed(at, 1)
    yield tag
    for at in moving:
        for zeros in range(1, len(str(limit(tag.fields[at]) - 1))):
            tag = tag.changed(at, 10**zeros)
            yield tag


def wrong_parts(tag):
    """tests/faults.py has 4 and 5 without control fields."""
    parts = tag.parts()
    for i, number in enumerate(numbers(tag)):
        yield number, tag.spelt(parts[:i] + [""])
        if number > 5 or tag.start() != TAG_START:
            yield number, tag.spelt(parts[:i] + [WRONG] + parts[i + 1 :])
        if number == 7:
            yield 8, tag.spelt(parts[:i] + [TOO_LARGE])


def numbers(tag):
    """The number of each part whose form is wrong."""
    first = 4 if tag.has("filter") else 5
    *before, last = range(first, first + len(tag.written()))
    return [*before, last if tag.fields[tag.written()[-1]].kind == "reference" else 7]


def refused_banks():
    """Every length that is too short; each bit that must be zero, and all after it; a string that is wrong in its middle."""
    shortened = {tag.scheme.words: tag.bank() for tag in tags()}
    shortened[MOST_WORDS] = f"{MOST_WORDS << 11:04X}" + MOST_WORDS * "0000"
    for words, bank in shortened.items():
        yield from ((9, bank[: 2 * length]) for length in range(2, 2 + 2 * words))
    for tag in tags():
        if tag.partition == 0:
            bank = tag.bank()
            ones = [(1 << count) - 1 for count in range(2, zero_bits(tag) + 1)]
            yield from ((15, f"{int(bank, 16) | value:0{len(bank)}X}") for value in ones)
        if tag.has("string"):
            at = tag.place("string")
            bits = tag.fields[at].bits
            yield 19, tag.changed(at, string_value([0x61] * (bits // 14) + [0x40], bits)).bank()
