"""The block of lines with control fields before the scheme's name, as request C-13 of document 02 has them.

A block gives pairs, as in tests/blocks.py.
"""

from tags import TAG_START, both, control_fields, scheme_tags

TAG = scheme_tags()[0]  # the tag whose name and parts stand behind the fields, where one is enough
NAMED = TAG.text()[len(TAG_START) :]
FIELDS = tuple(control_fields(umi, att) for umi, att in ((1, 0x00), (0, 0xA5), (1, 0xA5)))
BEFORE = ("", "[umi=1]", "[att=x01]", "[umi=1][att=xFF]")  # good fields, which a wrong one may follow
OTHERS = "[]:=.,;xX1Uu \0\r\xFF"

# Fields that are never taken: cut and malformed, zero, of other values, of unknown names.
WRONG = (
    *("[", "[]", "[:", "[[", "[=]", "[umi", "[umi]", "[umi=", "[umi=]", "[umi=1", "[umi=1:", "[umi=1[", "[umi=1}"),
    *("[umi=0]", "[umi=2]", "[umi=9]", "[umi=x1]", "[umi=x01]", "[umi=01]", "[umi=10]", "[umi=11]", "[umi=+1]"),
    *("[umi= 1]", "[umi=1 ]", "[ umi=1]", "[umi =1]", "[UMI=1]", "[Umi=1]", "[umi:1]", "[umi1]", "[umi=1,att=x01]"),
    *("[att", "[att]", "[att=", "[att=x", "[att=x]", "[att=x0", "[att=x01", "[att=x01:", "[att=x01)", "[att=x00]"),
    *("[att=x0]", "[att=x1]", "[att=x001]", "[att=x100]", "[att=x0001]", "[att=01]", "[att=1]", "[att=X01]"),
    *("[att=xab]", "[att=xaB]", "[att=xAb]", "[att=xG0]", "[att=x0G]", "[att=x 1]", "[att=x1 ]", "[ATT=x01]"),
    *("[att=0x01]", "[att=%01]", "[xpc=x0004]", "[xpc=x0000]", "[toggle=1]", "[afi=xC1]", "[um=1]", "[at=x01]"),
)
# What is no name and begins with no bracket, or with one that is behind the fields.
NO_FIELDS = (
    *("]", ":", "umi=1:", "umi=1]:" + NAMED, "(umi=1):" + NAMED, "{umi=1}:" + NAMED, "%5Bumi=1%5D:" + NAMED),
    *(":" + NAMED, ":[umi=1]:" + NAMED, " [umi=1]:" + NAMED, "sgtin-96[umi=1]:3.0614141.812345.6789"),
    *(FIELDS[0] + behind + NAMED for behind in (":", "[", "[att=x01]:", "[umi=1]:", "]:", " ", "x")),
    *(FIELDS[1] + behind + NAMED for behind in (":", "[umi=1]:", "[att=x01]:")),
    *(FIELDS[2] + behind + NAMED for behind in (":", "[umi=1]:", "[att=x01]:", "[")),
)


def controls():
    """Control fields that are taken, both ways; wrong ones at every place, refused with 20; what is none. Each line once."""
    refused = (*wrong_fields(), *no_colons(), *changed_fields(), *no_fields())
    answered = [(TAG_START + fields, f"N {number}") for number, fields in refused]
    return dict.fromkeys([*taken(), *every_digit(), *answered])


def taken():
    """Each field alone and both, on every scheme; every value of both on one."""
    for tag in scheme_tags():
        for umi, att in ((umi, att) for umi in (0, 1) for att in (0x00, 0x01, 0x0A, 0x10, 0x80, 0xFF)):
            if umi or att:
                yield from both_ways(tag.controlled(umi, att))
    for umi, att in ((umi, att) for umi in (0, 1) for att in range(1, 256)):
        yield from both_ways(TAG.controlled(umi, att))


def both_ways(tag):
    return both(tag.text(), tag.bank())


def every_digit():
    """Every byte as the digit of umi, and as each of the two of att: a 1, and upper-case hexadecimal."""
    for byte in (byte for byte in range(256) if byte != 0x0A):
        umi = f"[umi={chr(byte)}]:"
        yield TAG_START + umi + NAMED, "B " + TAG.controlled(1, 0).bank() if chr(byte) == "1" else "N 20"
        for digits in ("A" + chr(byte), chr(byte) + "5"):
            good = chr(byte) in "0123456789ABCDEF"
            stated = "B " + TAG.controlled(1, int(digits, 16)).bank() if good else "N 20"
            yield f"{TAG_START}[umi=1][att=x{digits}]:{NAMED}", stated


def wrong_fields():
    """Every field that is wrong, or is out of order or repeated, at every place: before a name, and at the text's end."""
    for before in BEFORE:
        again = [field for field in ("[umi=1]", "[att=x01]", "[att=x02]") if before and not good_behind(before, field)]
        for wrong in (*WRONG, *again):
            yield 20, before + wrong + ":" + NAMED
            yield 20, before + wrong


def good_behind(before, field):
    """Whether a good field may follow these: only att, and only behind umi alone."""
    return before == "[umi=1]" and field.startswith("[att")


def no_colons():
    """Good fields without the colon behind the last."""
    for before in BEFORE[1:]:
        for behind in ("", NAMED, "]:" + NAMED, " :" + NAMED, ".", ";", "\0", "\r", "1", "x"):
            yield 20, before + behind


def changed_fields():
    """Good fields cut at each character, at the text's end and before a name; each character left out, doubled, changed."""
    for fields in FIELDS:
        yield 3, fields
        for at in range(1, len(fields)):
            yield 20, fields[:at]
            yield 20, fields[:at] + NAMED
        last = len(fields) - 1
        for at, character in enumerate(fields):
            yield 3 if at == 0 else 20, fields[:at] + fields[at + 1 :] + NAMED
            yield 3 if at == last else 20, fields[: at + 1] + fields[at:] + NAMED
    yield from other_characters(FIELDS[2])


def other_characters(fields):
    """Both fields with each character but the digits changed; a colon behind the first field ends them there."""
    digits = (fields.index("1"), fields.index("A"), fields.index("5"))
    second = fields.index("[att")
    for at in (at for at in range(len(fields)) if at not in digits):
        for other in (other for other in OTHERS if other != fields[at]):
            number = 3 if at == 0 or (at == second and other == ":") else 20
            yield number, fields[:at] + other + fields[at + 1 :] + NAMED


def no_fields():
    """What is no 20: every other byte behind the start, and fields or brackets where none can stand."""
    for byte in (byte for byte in range(256) if chr(byte) not in "[\n"):
        yield 3, chr(byte) + "umi=1]:" + NAMED
    yield from ((3, fields) for fields in NO_FIELDS)
    yield 4, "sgtin-96:[umi=1]:3.0614141.812345.6789"
    yield 7, "sgtin-96:3.0614141.812345.[umi=1]"
