"""The blocks of lines that the program is run on.

A block gives pairs: a line, and the answer that document 01, request C-11, C-13 or C-15 of document 02,
docs/vectors.tsv or the making of the line states; None where nothing states one. Characters stand for bytes
(latin-1).
"""

import faults
from controls import controls
from documents import ROW_1, ROW_1_CODE, ROW_6, annex, example, known
from long_banks import long_banks
from places import refused_banks, refused_texts
from seeded import Random, mutated
from tags import CHARACTERS, ESCAPED, SCHEMES, TAG_START, Tag
from tags import both, largest, numeric_value, refused, samples, scheme_tags, smallest
from tags import string_text, string_value, tags

GDTI_113 = "urn:epc:tag:gdti-113:3.0614141.12345.0"
SGCN = "urn:epc:tag:sgcn-96:3.4012345.67890.04711"
CPI = "urn:epc:tag:cpi-96:3.0614141.98765"


def parts():
    """Every scheme at every partition value: each part at its smallest, middle and largest, both ways."""
    for tag in tags():
        for place in tag.written():
            for value in samples(tag.fields[place]):
                changed = tag.changed(place, value)
                yield from both(changed.text(), changed.bank())
        for pick in (smallest, largest):
            whole = Tag(tag.scheme, tag.partition, pick)
            yield from both(whole.text(), whole.bank())


def filters():
    """Every filter value of every scheme, both ways."""
    for tag in scheme_tags():
        if tag.has("filter"):
            for value in range(8):
                changed = tag.changed(tag.place("filter"), value)
                yield from both(changed.text(), changed.bank())


def text_refusals():
    """Every number 2 to 8 from every scheme that it can come from; 5, 6 and 8 at every partition value."""
    for tag in scheme_tags():
        for number, lines in faults.texts(tag):
            yield from ((line, f"N {number}") for line in lines)
    for tag in tags():
        for number, lines in faults.texts(tag):
            if number in (5, 6, 8):
                yield from ((line, f"N {number}") for line in lines)


def bank_refusals():
    """Every number 9 to 19 from every scheme that it can come from; 17 to 19 at every partition value."""
    for tag in scheme_tags():
        for number, banks in faults.banks(tag):
            yield from ((bank, refused(number, bank)) for bank in banks)
    for tag in tags():
        for number, banks in faults.values(tag):
            yield from ((bank, refused(number, bank)) for bank in banks)


def headers():
    """Every header; those of no scheme are refused 13, in 1, 6 and 31 words."""
    ours = [scheme.header for scheme in SCHEMES]
    for header in range(256):
        for words in (1, 6, 31):
            bank = f"{words << 11:04X}{header:02X}{'':0<{4 * words - 2}}"
            yield bank, None if header in ours else refused(13, bank)


def first_rule():
    """Two faults at once, and all faults from one on: the first number is given."""
    for tag in scheme_tags():
        for number, line in faults.text_pairs(tag):
            yield line, f"N {number}"
        for number, bank in faults.bank_pairs(tag):
            yield bank, refused(number, bank)


def places():
    """Refusals at the places that no block before shows; a text that is the same in several rows once."""
    for number, line in dict.fromkeys(refused_texts()):
        yield line, f"N {number}"
    for number, bank in refused_banks():
        yield bank, refused(number, bank)


def groups():
    """Every 7-bit group in the first, middle and last place of a string, whole and half as long."""
    for tag in (tag for tag in scheme_tags() if tag.has("string")):
        place = tag.place("string")
        bits = tag.fields[place].bits
        for length in (bits // 7, bits // 14):
            for at in (0, length // 2, length - 1):
                for group in range(128):
                    codes = [0x61] * length
                    codes[at] = group
                    bank = tag.changed(place, string_value(codes, bits)).bank()
                    taken = group in CHARACTERS or (group == 0 and at == length - 1)
                    string = string_text([code for code in codes if code])
                    shown = tag.spelt(tag.parts()[:-1] + [string])
                    yield bank, "T " + shown if taken else refused(19, bank)


def numerics():
    """Numeric strings of every count of digits, both ways; integers with no 1 in front, or nothing behind it."""
    for tag in (tag for tag in scheme_tags() if tag.has("numeric")):
        place = tag.place("numeric")
        field = tag.fields[place]
        integers = list(range(10))
        for count in range(1, field.most + 1):
            mixed = "04711235803112247"[:count]
            ends = ("0" * count, "1".zfill(count), "1".ljust(count, "0"), "9" * count)
            for digits in dict.fromkeys((mixed, *ends)):
                changed = tag.changed(place, numeric_value(digits))
                yield from both(tag.spelt(tag.parts()[:-1] + [digits]), changed.bank())
            integers += [first * 10**count + more for first in range(2, 10) for more in (0, 10**count - 1)]
        for integer in (integer for integer in integers if integer < 2**field.bits):
            bank = tag.changed(place, integer).bank()
            yield bank, refused(19, bank)


def characters():
    """Every byte in the first, middle and last place of a string's text, and every escape in three spellings."""
    tag = next(tag for tag in scheme_tags() if tag.has("string"))
    place = tag.place("string")
    bits = tag.fields[place].bits

    def line(string, codes, taken):
        bank = tag.changed(place, string_value(codes, bits)).bank() if taken else ""
        return tag.spelt(tag.parts()[:-1] + [string]), "B " + bank if taken else "N 7"

    for byte in (byte for byte in range(256) if byte != 0x0A):
        plain = byte in CHARACTERS and byte not in ESCAPED
        for before, after in (("", "aaaa"), ("aa", "aa"), ("aaaa", "")):
            yield line(before + chr(byte) + after, [*before.encode(), byte, *after.encode()], plain)
    for byte in range(256):
        for digits in (f"{byte:02X}", f"{byte:02x}", f"{byte:02X}"[0] + f"{byte:02x}"[1]):
            taken = byte in ESCAPED and digits == digits.upper()
            yield line("a%" + digits + "b", [0x61, byte, 0x62], taken)


def lengths():
    """Lines as long as a line may be, and a little less and more; the longest texts; banks with too few bytes and with more."""
    for start, end, stated in (
        *((start, "9", "N 8") for start in (ROW_1, ROW_6, "urn:epc:tag:gid-96:1.2.3")),
        *((start, end, "N 8") for start in (GDTI_113, SGCN) for end in ("0", "1", "9")),
        *((GDTI_113, end, "N 7") for end in ("a", "0.", "\0")),
        *((CPI, end, "N 6") for end in ("0", "9", "a")),
        *((ROW_6, end, "N 8") for end in ("a", ".", "-0")),
        *((ROW_1, end, "N 7") for end in ("a", ".", "\0", "%2F")),
        *(("urn:", end, "N 2") for end in ("epc:tag", "0", "\xFF")),
        *(("urn:epc:tag:", end, "N 3") for end in ("gid-96", ":", "\0")),
        *(("urn:epc:tag:", end, "N 20") for end in ("[", "[umi=1]", "[att=x01]", "[umi=1][att=x01]")),
        ("urn:epc:tag:[umi=1][att=x01]:", "gid-96", "N 3"),
        (ROW_6, "%2F", None),
    ):
        for length in (199, 200, 201):
            yield (start + end * length)[:length], "X" if length > 200 else stated
    yield from longest_texts()
    for digit, stated in (("0", {126: "N 10", 128: "N 10"}), ("F", {126: "N 9", 128: refused(11, 128 * "F")})):
        for length in (125, 126, 127, 128, 129, 130):
            yield digit * length, stated.get(length, "X")
    for tag in scheme_tags():
        for length in (len(tag.bank()) + 2, 126, 128, 130):
            bank = (tag.bank() + 128 * "F")[:length]
            yield bank, "X" if length > 128 else "T " + tag.text()
    for words in range(32):
        for control in (words << 11 | others for others in (0, 0x01A5, 0x04FF, 0x06FF)):
            bank = f"{control:04X}" + words * "F0A5"
            number = 10 if words == 0 else 11 if control & 0x100 else 12 if control & 0x200 else 13
            yield bank, refused(number, bank)
            yield bank[:-2], "N 9"


def longest_texts():
    """A string of 20 escapes, both ways: 99 characters, and 116 with both control fields."""
    tag = next(tag for tag in scheme_tags() if tag.scheme.name == "sgtin-198")
    tag = tag.changed(tag.place("string"), string_value([0x2F] * 20, 140))
    for longest, length in ((tag, 99), (tag.controlled(1, 0xFF), 116)):
        assert len(longest.text()) == length
        yield from both(longest.text(), longest.bank())


def odd_bytes():
    """Carriage returns, NUL, bytes above 7Fh, blanks, lower-case letters; neither kind of line."""
    bank = "3000" + ROW_1_CODE
    yield ROW_1 + "\r", "N 7"
    yield ROW_1 + "\0", "N 7"
    yield ROW_1 + " ", "N 7"
    for line in (bank + "\r", "\r", "\r\r", "\0", "\0\0", "\x80\xFF", " ", "  ", "\t\t", "\x7F\x7F", "\xEF\xBB\xBF"):
        yield line, "X"
    for line in (bank.lower(), bank[:-1] + "a", "3000 " + ROW_1_CODE, " " + bank, bank + " ", "0x" + bank, bank[:-1]):
        yield line, "X"
    for line in ("u", "ur", "urn", "urn;", "Urn:", "URN:EPC:TAG:", " " + ROW_1, "\xEF\xBB\xBF" + ROW_1, "#", "G0"):
        yield line, "X"
    for line in ("urn:", "urn:\0", "urn:\xFF", "urn:3000", "urn:epc:raw:96.x" + ROW_1_CODE, TAG_START[:-1]):
        yield line, "N 2"
    for byte in (byte for byte in range(256) if byte != 0x0A):
        hexadecimal = chr(byte) in "0123456789ABCDEF"
        yield bank[:8] + chr(byte) + bank[9:], None if hexadecimal else "X"
        yield chr(byte) + "0", "N 9" if hexadecimal else "X"


def mutations():
    """Five thousand tags with one character or one bit changed."""
    random = Random(20)
    return [(mutated(random, random.tag()), None) for _ in range(5000)]


def hostile():
    """Lines far longer than any line may be, and lengths about those of buffers; each before a good line."""
    tag_start = "urn:epc:tag:sgtin-198:0.0614141.812345."
    for line in (
        tag_start + "%2F" * 33000,
        "urn:epc:tag:gid-96:1.2." + "9" * 100000,
        "A" * 100000,
        "." * 50000,
        "urn:epc:tag:" + "." * 20000,
        "urn:epc:tag:" + "[umi=1]" * 10000,
        "3000" + ROW_1_CODE + "0" * 65535,
        *("0" * length for length in (255, 256, 257, 4095, 4096, 4097, 8191, 8192, 8193)),
        *(tag_start + "a" * (length - len(tag_start)) for length in (4096, 16384, 65536)),
    ):
        yield line, "X"
        yield ROW_1, "B 3000" + ROW_1_CODE


def last():
    """Empty lines, then the last line, which no line feed ends."""
    return [("", "N 9"), ("", "N 9"), ("3000" + ROW_1_CODE, "T " + ROW_1)]


BLOCKS = (
    example,
    known,
    annex,
    parts,
    filters,
    text_refusals,
    bank_refusals,
    headers,
    first_rule,
    controls,
    long_banks,
    places,
    groups,
    numerics,
    characters,
    lengths,
    odd_bytes,
    mutations,
    hostile,
    last,
)
