"""Identities with a fault, and the number that request C-16 of document 02 gives for it: 23 or 25.

A fault is a family's name and what stands behind its colon.
"""

from identities import FAMILIES, LONG, most_characters, rows, short_fields
from tags import PARTITIONS, limit

# A good identity of each family, as components.
GOOD = {
    "sgtin": ["0614141", "812345", "6789"],
    "sscc": ["0614141", "1234567890"],
    "sgln": ["0614141", "12345", "5678"],
    "grai": ["0614141", "12345", "5678"],
    "giai": ["0614141", "5678"],
    "gsrn": ["0614141", "1234567890"],
    "gsrnp": ["0614141", "1234567890"],
    "gdti": ["0614141", "12345", "5678"],
    "gid": ["952056", "2718", "1414"],
    "sgcn": ["4012345", "67890", "04711"],
    "cpi": ["0614141", "98765", "12345"],
}
# What no component is, and what one of its kind is not.
NOTHING = ("#", " ", "%", "%2", "%2f", "%41", "\0", "/", "\xE9", "a b", "1\r", "[", '"')
WRONG = {
    "padded": ("", "a", "1a", "-1", "+1", "1-", "%31"),
    "padded or empty": ("a", "1a", "-1", "+1", "%31"),
    "numeric": ("", "00", "01", "007", "a", "1a", "-1", "+1", "%31", "0" * 30),
    "string": ("", "%2e", "%3c", "%00", "%7E", "%25%", "a%", "%%", "<", ">", "?", "&", "`", "{", "\x7F"),
    "part reference": ("", "a", "1a", "%23%", "%2F%2f", "%25", "%22", "%3C", "_", "+", "*", "!", ":", ","),
}


def replaced(components, place, other):
    return ".".join(components[:place] + [other] + components[place + 1 :])


def no_identities():
    """23: each component in each wrong form, missing, and with one too many."""
    for family in FAMILIES:
        good = GOOD[family.name]
        for place, kind in enumerate(family.components):
            for other in dict.fromkeys(NOTHING + WRONG[kind]):
                yield family.name, replaced(good, place, other)
        for count in range(len(good)):
            yield family.name, ".".join(good[:count])
            yield family.name, "." * count
        if family.components[-1] != "string":
            yield family.name, ".".join([*good, "1"])
            yield family.name, ".".join(good) + "."


def wrong_totals():
    """23: a digit more or less in prefix and reference together, at every length of the prefix."""
    for family in (family for family in FAMILIES if family.together):
        rest = GOOD[family.name][2:]
        for prefix in range(1, family.together + 2):
            for digits in (family.together - prefix - 1, family.together - prefix + 1):
                if digits >= 0:
                    yield family.name, ".".join(["1" * prefix, "2" * digits, *rest])


def no_rows():
    """25 where the grammar has a prefix of 1 to 5 or of 13 and more digits; 23 where the reference would be empty and may not be."""
    for family in (family for family in FAMILIES if family.name != "gid"):
        together = family.together or 17
        prefixes = [prefix for prefix in (*range(1, 6), *range(13, together + 1)) if prefix <= together]
        for prefix in prefixes:
            reference = "2" * (together - prefix) if family.together else GOOD[family.name][1]
            empty = not reference and family.components[1] == "padded"
            rest = [] if len(family.components) == 2 else GOOD[family.name][2:]
            yield 23 if empty else 25, family.name, ".".join(["1" * prefix, reference, *rest])


def too_long():
    """25: a string of one character more than the long scheme holds, and of many, in every row."""
    for name in LONG:
        most = most_characters(name)
        for prefix, reference in rows(name):
            start = "1" * prefix + "." + "2" * reference + "."
            for serial in ("a" * (most + 1), "%2F" * (most + 1), "0" * (most + 1), "." * 60, "9" * 60):
                yield name, start + serial


def too_large():
    """25: the 96-bit scheme's limit and more, where there is no long one; in every row of giai and cpi."""
    for partition, row in enumerate(PARTITIONS):
        prefix = "1" * row["prefix"].digits
        asset = limit(short_fields("giai", partition)[-1])
        for reference in (str(asset), str(asset + 1), "9" * 19, "9" * 40, str(2**64), "00", "007", "a", "1a", "32a%2Fb", "1.2", ":"):
            yield "giai", f"{prefix}.{reference}"
        most = row["CPI"].most
        parts = ("1" + "0" * most, "9" * 19, "9" * 40, "01", "00", "A", "1A", "-", "%23", "%2F", "1%2F", "5PQ7%2FZ43")
        yield from (("cpi", f"{prefix}.{reference}.1") for reference in parts)
        yield from (("cpi", f"{prefix}.1.{serial}") for serial in (2**31, 2**31 + 1, 2**32, 2**64, "9" * 40))
    for place, field in enumerate(short_fields("gid")):
        for value in (limit(field), limit(field) + 1, 2**64, 2**128, "9" * 40):
            yield "gid", replaced(GOOD["gid"], place, str(value))


def no_serials():
    """23: an sgcn serial of 13 digits and more, in every row."""
    for prefix, reference in rows("sgcn"):
        for serial in ("0" * 13, "9" * 13, "1" + "0" * 12, "0" * 40):
            yield "sgcn", ".".join(["1" * prefix, "2" * reference, serial])


def refusals():
    """Every fault with its number."""
    for faults in (no_identities, wrong_totals, no_serials):
        yield from ((23, name, body) for name, body in faults())
    yield from no_rows()
    for faults in (too_long, too_large):
        yield from ((25, name, body) for name, body in faults())
