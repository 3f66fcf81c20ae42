"""The blocks of lines that the program identity is run on.

A block gives pairs, as in tests/blocks.py: a line, and the answer that request C-16 of document 02, docs/vectors.tsv or the making of
the line states; None where nothing states one.
"""

import faults
from controls import WRONG
from documents import token, vectors
from identities import FAMILIES, ID_START, LONG, asked, both_ways, components_of, family_of, held, identity_of
from identities import most_characters, rows, short_fields, without_filter
from identity_faults import GOOD, refusals
from identity_lines import every_byte, hostile, last, lengths, other_lines
from seeded import Random
from seeded_identities import line as seeded_line
from tags import SCHEMES, TAG_START, Tag, largest, limit, samples, scheme_tags, smallest, tags

CONTROLS = ((1, 0x00), (0, 0x01), (1, 0xA5))  # umi and att


def annex():
    """Every example of both sources: tags and identities as corrected, from each other where the row has both; identities as printed."""
    ours = [scheme.name for scheme in SCHEMES]
    for name, tag_text, _, printed, note in vectors():
        tag_text = token(note, "{FIX tag_uri=", tag_text)
        identity = token(note, "{FIX pure=", printed)
        number = token(note, "{EXPECT tag=", None)
        if tag_text != "-":
            yield tag_text, f"N {number}" if number else None if identity == "-" else "I " + identity
        if identity != "-":
            yield identity_example(identity, tag_text if name in ours else "-", token(note, "{EXPECT pure=", None))
            yield identity, "X"
        if printed != identity:
            yield asked(3, printed), None


def identity_example(identity, tag_text, number):
    """An identity's line with the filter of its tag, if it has one, and its answer."""
    if number:
        return asked(3, identity), f"N {number}"
    filter_ = "0" if ":gid:" in identity else "3" if tag_text == "-" else tag_text.split(":")[4].split(".")[0]
    line, answer = held(filter_, *components_of(identity))
    assert tag_text in ("-", answer[2:]), line
    return line, answer


def parts():
    """Every scheme at every partition value, both ways: each part behind the filter at its smallest, middle and largest. Each line once."""
    found = []
    for tag in tags():
        places = [place for place in tag.written() if tag.fields[place].kind != "filter"]
        changed = [tag.changed(place, value) for place in places for value in samples(tag.fields[place])]
        for made in (*changed, Tag(tag.scheme, tag.partition, smallest), Tag(tag.scheme, tag.partition, largest)):
            found += both_ways(made)
    return dict.fromkeys(found)


def serials():
    """In every row of the families with a long scheme: what the short one holds, just doesn't and can't; strings as long as may be."""
    for name in LONG:
        end, most = limit(short_fields(name)[-1]), most_characters(name)
        numerals = ("0", "00", "007", str(end - 1), str(end), "9" * most, "0" * most)
        strings = ("a", "1a", "a.b", ".", "1.", ":", "%22%25%26%2F%3C%3E%3F", "%2F" * most, "z" * most, "." * most)
        for prefix, reference in rows(name):
            for serial in numerals + strings:
                yield held("5", name, ["1" * prefix, "2" * reference, serial])


def chosen_again():
    """Tags of long schemes and of gdti-113 whose serials the short one holds, or just doesn't: back, there may be another tag."""
    for tag in scheme_tags():
        name = family_of(tag.scheme)
        if name in LONG and tag.scheme.name != name + "-96":
            end = limit(short_fields(name)[-1])
            for serial in ("0", "7", "10", "00", "007", "006847", str(end - 1), str(end), "99999999999999"):
                parts = tag.parts()[:-1] + [serial]
                identity = ID_START + name + ":" + ".".join(parts[1:])
                yield tag.spelt(parts), "I " + identity
                yield held(parts[0], name, parts[1:])


def filters():
    """Each filter 0 to 9 of each family, and of each scheme's text."""
    for family in FAMILIES:
        for filter_ in range(10):
            line, answer = held(str(filter_), family.name, GOOD[family.name])
            yield line, answer if filter_ < (1 if family.name == "gid" else 8) else "N 24"
    for tag in (tag for tag in scheme_tags() if tag.has("filter")):
        for filter_ in range(10):
            yield tag.spelt([str(filter_), *without_filter(tag)]), "I " + identity_of(tag) if filter_ < 8 else "N 4"


def identity_refusals():
    """Each fault of each family with filter 0, and of three one with filter 9 too: 24 comes after 23 and before 25."""
    for place, (number, name, body) in enumerate(refusals()):
        identity = ID_START + name + ":" + body
        yield asked(0, identity), f"N {number}"
        if place % 3 == 0:
            yield asked(9, identity), f"N {min(number, 24)}"


def tag_refusals():
    """Every number 3 to 8 from every scheme that it can come from, and 20; with another start it is no line."""
    for tag in scheme_tags():
        for number, texts in faults.texts(tag):
            yield from ((text, "X" if number == 2 else f"N {number}") for text in texts)
    tag = scheme_tags()[0]
    for wrong in WRONG:
        yield TAG_START + wrong + ":" + tag.text()[len(TAG_START) :], "N 20"


def control_fields():
    """Control fields are dropped, on every scheme."""
    for tag in scheme_tags():
        for umi, att in CONTROLS:
            yield tag.controlled(umi, att).text(), "I " + identity_of(tag)


def mutations():
    """Fifteen hundred seeded lines: near a limit, good, with one character changed, and random."""
    random = Random(16)
    return [(seeded_line(random), None) for _ in range(1500)]


IDENTITY_BLOCKS = (
    annex,
    parts,
    serials,
    chosen_again,
    filters,
    identity_refusals,
    tag_refusals,
    control_fields,
    other_lines,
    every_byte,
    lengths,
    mutations,
    hostile,
    last,
)
