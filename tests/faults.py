"""Texts and banks with a fault, and the number that document 01, or request C-11, C-13 or C-15 of document 02, gives for it.

The faults of control fields are in tests/controls.py, those of further words in tests/long_banks.py.
"""

from itertools import combinations

from tags import TAG_START, limit, string_value

NO_INTEGER = ("", "00", "01", "007", ".", "1a", "a", "-1", "+1", " 1", "1 ", "1\r", "1\xB2", "0" * 30)
NO_FILTER = ("", "8", "9", "03", "3 ", "a", "/", ":", "\xB3", "-1", "33")
NO_PREFIX = ("", "1", "12345", "1234567890123", "061414a", "a614141", " 614141", "061\xB2141", "9" * 60)
NO_STRING = (
    *("", "a b", " ", "#", "$", "@", "[", "\\", "^", "`", "{", "~", "\x7F", "\x80", "\0", "a\r", '"', "&", "/"),
    *("<", ">", "?", "%", "%2", "%%", "%25%", "a%", "a%2", "%2f", "%41", "%2E", "%2G", "%G2", "%00", "%A5", "%7E"),
)
NO_NUMERIC = ("", ".", "a", "1a", "a1", "-1", "+1", " 1", "1 ", "1\r", "1\xB2", "\0", "1.", "1.2", "%31", "1/", ":1")
# The fields that are at fault for these numbers of a bank.
AT_FAULT = {15: ("zeros", "fill"), 16: ("partition",), 17: ("prefix",), 18: ("reference",), 19: ("string", "numeric")}
BEYOND = ("9" * 19, "9" * 20, str(2**63), str(2**64), str(2**64 + 1), str(2**128), str(2**128 + 1), "1" + "0" * 40)


def texts(tag):
    """Numbers 2 to 8, each with the texts that are refused with it."""
    yield 2, bad_starts(tag)
    yield 3, bad_names(tag)
    first = 4 if tag.has("filter") else 5  # the number of a text whose first part is wrong
    for place, at in enumerate(tag.written()):
        field = tag.fields[at]
        last = at == tag.written()[-1]
        if field.kind == "filter":
            yield 4, [*replaced(tag, place, NO_FILTER), cut(tag, place)]
        elif field.kind == "prefix":
            yield 5, [*replaced(tag, place, NO_PREFIX), cut(tag, place)]
        elif field.kind == "reference" and field.most is None:
            yield 6, bad_references(tag, place, last)
        elif field.kind == "string":
            yield from bad_strings(tag, place, field.bits // 7)
        elif field.kind == "numeric":
            yield from bad_numerics(tag, place, field.most)
        elif last:
            yield 7, replaced(tag, place, (*NO_INTEGER, "1.", "1.2", "0" + "9" * 30, "9" * 30 + "x"))
            yield 8, replaced(tag, place, too_large(field))
        else:
            others = replaced(tag, place, NO_INTEGER + too_large(field))
            others += more_digits(tag, place) if field.most else []
            yield first + place, [*others, cut(tag, place)]


def bad_starts(tag):
    rest = tag.text()[len(TAG_START) :]
    starts = ("urn:", "urn:epc:id:", "urn:epc:tag;", "urn:epc:Tag:", "urn:epc:tag", "urn:epc:tag.", "urn:EPC:tag:")
    return [start + rest for start in starts]


def bad_names(tag):
    name, rest = tag.scheme.name, ".".join(tag.parts())
    spelt = ("", name.upper(), name[:-1], name[1:], name + "0", name + "\0", " " + name, name.replace("-", "_"))
    return [tag.start() + name, tag.start() + name + "." + rest, *(tag.spelt(tag.parts(), other) for other in spelt)]


def replaced(tag, place, others):
    """The tag's text with other characters for one part."""
    parts = tag.parts()
    return [tag.spelt(parts[:place] + [other] + parts[place + 1 :]) for other in others]


def cut(tag, place):
    """The tag's text up to the end of a part, without the dot."""
    return tag.spelt(tag.parts()[: place + 1])


def bad_references(tag, place, last):
    """A reference with a digit more or less, or one that the prefix's own length makes too long or short."""
    reference, prefix = tag.parts()[place], tag.parts()[place - 1]
    others = [reference + "0", "9" * 60, reference + " ", reference + "\0"]
    if reference:
        others += [reference[:-1], reference[:-1] + "a", "-" + reference[1:], reference[:-1] + "\xB9", ""]
    if last:
        others += [reference + ".", reference + ".0", reference + "\r"]
    prefixes = [other for other in (prefix[:-1], prefix + "0") if 6 <= len(other) <= 12]
    lines = replaced(tag, place, others) + replaced(tag, place - 1, prefixes)
    return lines if last else [*lines, cut(tag, place)]


def more_digits(tag, place):
    """An integer of the row's digits with one more, with zeros before it, and with a prefix whose row has fewer."""
    part, prefix = tag.parts()[place], tag.parts()[place - 1]
    prefixes = [prefix + "0"] if len(prefix) < 12 else []
    return replaced(tag, place, (part + "0", "0" + part, "0" + part[1:])) + replaced(tag, place - 1, prefixes)


def bad_numerics(tag, place, most):
    spoilt = ("9" * most + "x", "9" * most + ".", "x" + "0" * most, "0" * 15 + "a" + "0" * 14, "9" * 30 + "\r")
    yield 7, replaced(tag, place, (*NO_NUMERIC, *spoilt))
    longer = ("0" * (most + 1), "9" * (most + 1), "1" + "0" * most, "0" * most + "1", "0" * 30)
    yield 8, replaced(tag, place, (*longer, *BEYOND))


def bad_strings(tag, place, most):
    yield 7, replaced(tag, place, (*NO_STRING, "a" * most + " ", "a" * (most + 5) + "#", "%2F" * most + "%2"))
    longer = ("a" * (most + 1), "." * (most + 1), "%2F" * (most + 1), "%3Ca" * most, "z" * 2 * most)
    yield 8, replaced(tag, place, longer)


def too_large(field):
    """Integers that are not below a field's limit."""
    values = [value + more for value in (limit(field), 2**field.bits) for more in (0, 1)]
    numerals = (*map(str, values), str(10 ** len(str(2**field.bits))), *BEYOND)
    return tuple(dict.fromkeys(numeral for numeral in numerals if int(numeral) >= limit(field)))


def banks(tag):
    """Numbers 9 to 16, each with the banks that are refused with it."""
    bank, words = tag.bank(), tag.scheme.words
    yield 9, ["", bank[:2], bank[:4], bank[:6], bank[:-4], bank[:-2]]
    yield 10, [control + rest for control in ("0000", "07FF", "0100") for rest in ("", bank[4:])]
    yield 11, [tag.bank(words << 11 | low) for low in (0x100, 0x101, 0x1FF, 0x1C1, 0x7FF, 0x500, 0x300)]
    yield 12, [tag.bank(words << 11 | 0x200 | low) for low in (0, 0x400, *(1 << bit for bit in range(8)), 0x4FF)]
    yield 14, [tag.bank(fewer << 11)[: 4 + 4 * fewer] for fewer in range(1, words)]
    yield 15, [f"{int(bank, 16) | 1 << bit:0{len(bank)}X}" for bit in range(zero_bits(tag))]
    if tag.has("partition"):
        other = tag.changed(tag.place("partition"), 7)
        yield 16, [other.changed(other.place("filter"), value).bank() for value in range(8)]


def zero_bits(tag):
    """How many bits at the end of the words are zero."""
    return sum(field.bits for field in tag.fields if field.kind in ("zeros", "fill"))


def values(tag):
    """Numbers 17 to 19, each with the banks that are refused with it."""
    for kind, number in (("prefix", 17), ("reference", 18)):
        if tag.has(kind):
            place = tag.place(kind)
            field = tag.fields[place]
            above = (limit(field), (limit(field) + 2**field.bits) // 2, 2**field.bits - 1)
            yield number, [tag.changed(place, value).bank() for value in above]
    if tag.has("string"):
        place = tag.place("string")
        bits = tag.fields[place].bits
        most = bits // 7
        strings = ([], [0] * (most - 1) + [0x61], [0, 0x61], [0x61, 0, 0x61], [0x61] * (most - 2) + [0, 0x61])
        outside = ([0x61, 0x20], [0x40], [0x61] * (most - 1) + [0x7F], [0x23] * most, [0x61, 1], [0x7F] * most)
        yield 19, [tag.changed(place, string_value(codes, bits)).bank() for codes in strings + outside]
    if tag.has("numeric"):
        place = tag.place("numeric")
        bits, most = tag.fields[place].bits, tag.fields[place].most
        integers = (0, 1, 2, 9, 20, 99, 2 * 10 ** (most // 2), 10**most - 1, 2 * 10**most, 2**bits - 1)
        yield 19, [tag.changed(place, integer).bank() for integer in integers]


def text_pairs(tag):
    """Texts with two faults, and the first one's number."""
    kinds = [tag.fields[at].kind for at in tag.written()]
    bad = {"filter": "8", "prefix": "12345", "reference": "x", "integer": "01", "string": "%", "numeric": "x"}
    numbers = {"filter": 4, "prefix": 5, "reference": 6, "integer": 7, "string": 7, "numeric": 7}
    faults = [(5 + i if "filter" not in kinds else numbers[kind], i, bad[kind]) for i, kind in enumerate(kinds)]
    parts = tag.parts()
    yield from field_pairs(tag, [parts[:i] + [other] + parts[i + 1 :] for _, i, other in faults])
    for (number, first, one), (_, second, other) in combinations(faults, 2):
        both = [one if i == first else other if i == second else part for i, part in enumerate(parts)]
        yield number, tag.spelt(both)
        yield 3, tag.spelt(both, "gid-95")
        yield 2, "urn:epc:tab:" + tag.spelt(both, "gid-95")[len(TAG_START) :]


def field_pairs(tag, faulty):
    """Texts with a wrong control field and another fault: another start, another name, or these parts."""
    wrong = "[umi=0]:"
    other = wrong + tag.spelt(faulty[0], "gid-95")[len(TAG_START) :]
    yield 2, "urn:epc:tab:" + other
    yield 20, TAG_START + other
    for parts in faulty:
        yield 20, TAG_START + wrong + tag.spelt(parts)[len(TAG_START) :]


def bank_pairs(tag):
    """Banks with two faults, or with all from one on, and the first one's number; and one fault behind control fields."""
    numbers = [11, 12, 13, 14, 15, 16, 17, 18, 19]
    numbers = [number for number in numbers if number not in AT_FAULT or tag.has(*AT_FAULT[number])]
    for chosen in combinations(numbers, 2):
        yield chosen[0], faulty_bank(tag, chosen)
    for start in range(len(numbers)):
        yield numbers[start], faulty_bank(tag, numbers[start:])
    for number in numbers:
        yield number, faulty_bank(tag.controlled(1, 0xA5), [number])


def faulty_bank(tag, numbers):
    """The tag's bank with the faults of these numbers; for 14 it counts a word less than it has."""
    control = tag.control()
    for number in set(numbers) & set(AT_FAULT):
        place = tag.place(*AT_FAULT[number])
        tag = tag.changed(place, 1 if number == 19 else 2 ** tag.fields[place].bits - 1)
    tag = tag.changed(tag.place("header"), 0x38) if 13 in numbers else tag
    control += (0x100 if 11 in numbers else 0) + (0x200 if 12 in numbers else 0)
    control -= 0x800 if 14 in numbers else 0
    return tag.bank(control)
