"""Identities made from tags, as request C-16 of document 02 has them, and the lines of the program identity.

The families' grammar is typed here from section 6.3 of the standard; widths and rows are those of tests/tags.py.
"""

import re
from collections import namedtuple

from tags import PARTITIONS, SCHEMES, layout, partitions

ID_START = "urn:epc:id:"

# The components in order, and how many digits the first two have together, where section 6.3 says so.
Family = namedtuple("Family", "name components together")
FAMILIES = (
    Family("sgtin", ("padded", "padded", "string"), 13),
    Family("sscc", ("padded", "padded"), 17),
    Family("sgln", ("padded", "padded or empty", "string"), 12),
    Family("grai", ("padded", "padded or empty", "string"), 12),
    Family("giai", ("padded", "string"), None),
    Family("gsrn", ("padded", "padded"), 17),
    Family("gsrnp", ("padded", "padded"), 17),
    Family("gdti", ("padded", "padded or empty", "string"), 12),
    Family("gid", ("numeric", "numeric", "numeric"), None),
    Family("sgcn", ("padded", "padded or empty", "padded"), 12),
    Family("cpi", ("padded", "part reference", "numeric"), None),
)
LONG = {"sgtin": "sgtin-198", "sgln": "sgln-195", "grai": "grai-170", "gdti": "gdti-174"}
BY_NAME = {scheme.name: scheme for scheme in SCHEMES}
BY_FAMILY = {family.name: family for family in FAMILIES}
assert all(family.name + "-96" in BY_NAME for family in FAMILIES)


def family_of(scheme):
    return scheme.name.split("-")[0]


def short_fields(name, partition=0):
    """The fields that a text of a family's 96-bit scheme writes behind the filter."""
    fields = layout(BY_NAME[name + "-96"], partition)
    return [field for field in fields if field.kind in ("prefix", "reference", "integer", "numeric")]


def most_characters(name):
    """How many characters the long scheme of a family holds."""
    return layout(BY_NAME[LONG[name]], 0)[-2].bits // 7


def rows(name):
    """For each partition value that a family's 96-bit scheme can have, how many digits prefix and reference have there."""
    prefixes = [PARTITIONS[partition]["prefix"].digits for partition in partitions(BY_NAME[name + "-96"])]
    together = BY_FAMILY[name].together
    return [(prefix, together - prefix if together else None) for prefix in prefixes]


def without_filter(tag):
    return tag.parts()[1:] if tag.has("filter") else tag.parts()


def identity_of(tag):
    return ID_START + family_of(tag.scheme) + ":" + ".".join(without_filter(tag))


def filter_of(tag):
    """The filter to give with the tag's identity to have the tag again."""
    return tag.parts()[0] if tag.has("filter") else "0"


def components_of(identity):
    """The family's name and the components of an identity; a string may hold dots."""
    name, body = identity.removeprefix(ID_START).split(":", 1)
    return name, body.split(".", len(BY_FAMILY[name].components) - 1)


def is_integer(text, bits):
    """Whether a text is an integer of document 01's form that so many bits hold."""
    return re.fullmatch("0|[1-9][0-9]*", text) is not None and int(text) < 2**bits


def chosen(name, serial):
    """The scheme that is chosen for a serial which one of a family's schemes holds."""
    if name in LONG and not is_integer(serial, short_fields(name)[-1].bits):
        return LONG[name]
    return name + "-96"


def tag_text(filter_, name, components):
    """The tag text of an identity that a scheme holds."""
    parts = components if name == "gid" else [filter_, *components]
    return f"urn:epc:tag:{chosen(name, components[-1])}:" + ".".join(parts)


def asked(filter_, identity):
    """The line of an identity and a filter."""
    return f"{filter_} {identity}"


def held(filter_, name, components):
    """The line of an identity that a scheme holds, and its answer."""
    line = asked(filter_, ID_START + name + ":" + ".".join(components))
    return line, "T " + tag_text(filter_, name, components)


def both_ways(tag):
    """A tag's text and its identity's line, and the answer to each: for a long scheme another tag, if the short one holds it."""
    return [(tag.text(), "I " + identity_of(tag)), held(filter_of(tag), family_of(tag.scheme), without_filter(tag))]
