"""The blocks of lines that the program identity is run on for their kind, their length and their bytes.

A block gives pairs, as in tests/blocks.py.
"""

from documents import ROW_1, ROW_1_CODE
from identities import ID_START, held, identity_of
from identity_faults import GOOD
from tags import CHARACTERS, ESCAPED, TAG_START, scheme_tags

SGTIN = ID_START + "sgtin:0614141.812345.6789"  # of document 01's row 1
OTHER_BYTES = [chr(byte) for byte in range(256) if byte != 0x0A]
DIGITS = "0123456789"
UPPER = "ABCDEFGHIJKLMNOPQRSTUVWXYZ"


def other_lines():
    """Lines of neither kind: other starts, no digit, two, no space, two, letters, banks, nothing; and the shortest of each kind."""
    for line in ("", " ", "3", "3 ", "3 u", "33", "X", "u", "urn", "urn:", "urn:epc:", "urn:epc:tag", "urn:epc:id:", "3 urn:epc:id"):
        yield line, "X"
    for before in ("", " ", "3", "\t", "3\t", "3:", "3.", "3  ", " 3 ", "33 ", "03 ", "-1 ", "+1 ", "a ", "F ", "x3 ", "\0 ", "3 3 "):
        yield before + SGTIN, "X"
    for before in (" ", "3 ", "3", "\xEF\xBB\xBF", "\0", "I "):
        yield before + ROW_1, "X"
    for line in ("3000" + ROW_1_CODE, "0000", "3", "urn:epc:raw:96.x" + ROW_1_CODE, "URN:EPC:TAG:gid-96:1.2.3", "urn:epc:pat:gid-96:1.2.*"):
        yield line, "X"
    for start in ("urn:epc:idpat:", "urn:epc:ID:", "URN:epc:id:", "urn:epc:id;", "urn:epc:tag:", " " + ID_START, "\r" + ID_START):
        yield "3 " + start + SGTIN[len(ID_START) :], "X"
    yield TAG_START, "N 3"
    yield "3 " + ID_START, "N 23"
    for name in ("", "SGTIN", "sgti", "sgtinn", "sgtin-96", "itip", "usdod", "adi", "ginc", "gsin", "upui", "pgln", "bic", "imovn"):
        yield f"3 {ID_START}{name}:0614141.812345.6789", "N 23"
    yield "3 " + ID_START + "sgtin", "N 23"
    yield "3 " + ID_START + ID_START + "sgtin:0614141.812345.6789", "N 23"
    for end in ("\r", "\0", " "):
        yield "3 " + SGTIN + end, "N 23"
        yield ROW_1 + end, "N 7"


def every_byte():
    """Every byte as the digit, the space, the first of a tag's start, and at a place of names and components; every escape."""
    for byte in OTHER_BYTES:
        digit = byte in DIGITS
        good = byte in "01234567"
        yield f"{byte} {SGTIN}", f"T {ROW_1.replace(':3.', f':{byte}.')}" if good else "N 24" if digit else "X"
        yield f"3{byte}{SGTIN}", "T " + ROW_1 if byte == " " else "X"
        yield byte + ROW_1[1:], "I " + SGTIN if byte == "u" else "X"
        yield f"3 {ID_START}{byte}gtin:0614141.812345.6789", "T " + ROW_1 if byte == "s" else "N 23"
        yield changed("sgtin", 0, f"061{byte}141", digit)
        yield changed("sgcn", 2, f"0{byte}1", digit)
        plain = ord(byte) in CHARACTERS and ord(byte) not in ESCAPED
        yield changed("grai", 2, f"a{byte}b", plain)
        yield changed("giai", 1, f"1{byte}", digit, 25 if plain else 23)
        yield changed("cpi", 1, f"1{byte}", digit, 25 if byte in UPPER + "-" else 23)
    for byte in range(256):
        yield changed("gdti", 2, f"a%{byte:02X}", byte in ESCAPED)
        yield changed("cpi", 1, f"A%{byte:02X}", False, 25 if byte in b"/#" else 23)
    for byte in ESCAPED:
        yield changed("gdti", 2, f"a%{byte:02x}", byte in b'"%&')  # the others have a letter
    yield changed("cpi", 1, "A%2f", False)


def changed(name, place, other, taken, number=23):
    """The line of a good identity with another component, and its answer: a tag's text if it is taken, else the number."""
    components = [other if i == place else component for i, component in enumerate(GOOD[name])]
    line, answer = held("0", name, components)
    return line, answer if taken else f"N {number}"


def lengths():
    """Lines as long as a line may be, with the digit and the space, and a little less and more; the longest texts, both ways."""
    for start, end, stated in (
        (ROW_1, "9", "N 8"),
        (ROW_1, "a", "N 7"),
        (TAG_START, "[", "N 20"),
        (TAG_START, "gid-96", "N 3"),
        ("3 " + SGTIN, "9", "N 25"),
        ("3 " + SGTIN, "a", "N 25"),
        ("9 " + SGTIN, "a", "N 24"),
        ("3 " + SGTIN, "#", "N 23"),
        ("3 " + ID_START, "sgtin", "N 23"),
        ("0 " + ID_START + "gid:1.2.3", "9", "N 25"),
        ("3 " + ID_START + "cpi:0614141.", "A", "N 23"),
        ("33 " + SGTIN, "9", "X"),
        (SGTIN, "9", "X"),
    ):
        for length in (199, 200, 201, 202):
            yield (start + end * length)[:length], "X" if length > 200 else stated
    tag = next(tag for tag in scheme_tags() if tag.scheme.name == "sgtin-198")
    parts = tag.parts()[:-1] + ["%2F" * 20]
    longest = tag.spelt(parts)
    assert len(longest) == 99
    yield longest, "I " + ID_START + "sgtin:" + ".".join(parts[1:])
    yield held(parts[0], "sgtin", parts[1:])


def hostile():
    """Lines far longer than any line may be, and lengths about those of buffers; each before a good line."""
    for line in (
        "3 " + ID_START + "sgtin:0614141.812345." + "%2F" * 33000,
        "0 " + ID_START + "gid:1.2." + "9" * 100000,
        ROW_1 + "9" * 50000,
        TAG_START + "[umi=1]" * 10000,
        " " * 20000,
        *("3 " + SGTIN + "a" * (length - len(SGTIN) - 2) for length in (255, 256, 257, 4095, 4096, 4097, 8192, 16384, 65536)),
    ):
        yield line, "X"
        yield "3 " + SGTIN, "T " + ROW_1


def last():
    """Empty lines, then the last line, which no line feed ends."""
    tag = scheme_tags()[0]
    return [("", "X"), ("", "X"), (tag.text(), "I " + identity_of(tag))]
