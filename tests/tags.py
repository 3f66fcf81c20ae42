"""Tags made part by part: their texts, their banks, their raw lines.

The scheme and partition tables are read from docs/01-scope.md itself, so no number of them is typed
here, and what is made here can be held against any codec. Typed are only the rows of request C-11, which
docs/02-change-requests.md has in a sentence.
"""

import copy
import pathlib
import re
from collections import namedtuple
from itertools import takewhile

ROOT = pathlib.Path(__file__).resolve().parent.parent
TAG_START = "urn:epc:tag:"
RAW_START = "urn:epc:raw:"
MOST_WORDS = 31

# Table A-1 of the standard by its 7-bit codes, and the characters that a text escapes.
CHARACTERS = [c for c in range(0x21, 0x7B) if c not in (0x23, 0x24, 0x40, 0x5B, 0x5C, 0x5D, 0x5E, 0x60)]
ESCAPED = b'"%&/<>?'
assert len(CHARACTERS) == 82

# C-11's schemes in the form of document 01's rows, and the column of cpi-96's own table (document 000, table 14-24),
# from partition value 0 on. After a slash: the most digits.
ADDED_SCHEMES = (
    "| gdti-113 | 3A | 113 | 8 | F, table D, numeric 58/17 |",
    "| sgcn-96 | 3F | 96 | 6 | F, table D, numeric 41/12 |",
    "| cpi-96 | 3C | 96 | 6 | F, table CPI, integer 31 |",
)
ADDED_COLUMN = ("11/3", "14/4", "17/5", "21/6", "24/7", "27/8", "31/9")

Scheme = namedtuple("Scheme", "name header bits words parts")
# `digits` is how many are written, zeros before them; `most` how many may be written.
Field = namedtuple("Field", "kind bits digits most", defaults=[None, None])


def document_rows(heading):
    """The cells of the rows of document 01's table that has this heading."""
    lines = (ROOT / "docs" / "01-scope.md").read_text(encoding="utf-8").splitlines()
    return table_rows(lines[lines.index(heading) + 2 :])


def table_rows(lines):
    """The cells of the rows that lines begin with."""
    rows = takewhile(lambda line: line.startswith("|"), lines)
    return [[cell.strip() for cell in row.strip("|").split("|")] for row in rows]


def read_schemes():
    rows = document_rows("| Scheme | Header | Bits | Words | Parts after the header |")
    rows += table_rows(ADDED_SCHEMES)
    return [Scheme(name, int(head, 16), int(bits), int(words), parts) for name, head, bits, words, parts in rows]


def read_partitions():
    """For each partition value the field of the prefix, and that of the reference by the table's name."""
    rows = document_rows("| P | Prefix bits/digits | A bits/digits | B | C | D | E bits |")
    partitions = []
    for (_, prefix, *padded, integer), short in zip(rows, ADDED_COLUMN, strict=True):
        row = {"prefix": Field("prefix", *numbers(prefix)), "E": Field("integer", *numbers(integer))}
        row |= {name: Field("reference", *numbers(cell)) for name, cell in zip("ABCD", padded, strict=True)}
        bits, most = numbers(short)
        partitions.append(row | {"CPI": Field("reference", bits, most=most)})
    return partitions


def numbers(cell):
    return [int(number) for number in cell.split("/")]


SCHEMES = read_schemes()
PARTITIONS = read_partitions()
assert len(SCHEMES) == 16 and len(PARTITIONS) == 7


def partitions(scheme):
    """The partition values that a scheme can have; one that it doesn't use, for a scheme without a table."""
    return range(len(PARTITIONS)) if "table" in scheme.parts else range(1)


def layout(scheme, partition):
    """The fields of a scheme's words in order, header first and fill bits last."""
    row = PARTITIONS[partition]
    fields = [Field("header", 8)]
    if scheme.parts.startswith("integers"):
        fields += [Field("integer", int(bits)) for bits in re.findall(r"\d+", scheme.parts)]
    for part in scheme.parts.split(", "):
        if part == "F":
            fields.append(Field("filter", 3))
        elif part.startswith("table"):
            fields += [Field("partition", 3), row["prefix"], row[part.split()[1]]]
        elif part.endswith("zero bits"):
            fields.append(Field("zeros", int(part.split()[0])))
        elif part.startswith(("integer ", "string ")):
            fields.append(Field(part.split()[0], int(part.split()[1])))
        elif part.startswith("numeric "):
            bits, most = numbers(part.split()[1])
            fields.append(Field("numeric", bits, most=most))
    fields.append(Field("fill", 16 * scheme.words - scheme.bits))
    assert sum(field.bits for field in fields) == 16 * scheme.words
    return fields


def limit(field):
    """The values of a field in a text are below this; a string has none."""
    if field.kind == "numeric":
        return 2 * 10**field.most
    digits = field.most if field.digits is None else field.digits
    return 2**field.bits if digits is None else 10**digits


def string_value(codes, bits):
    """The bits of a string: 7 for each character, then zeros."""
    value = 0
    for code in codes:
        value = value << 7 | code
    return value << bits - 7 * len(codes)


def numeric_value(digits):
    """The integer of a numeric string: a 1 before its digits."""
    return int("1" + digits)


def string_text(codes):
    return "".join(f"%{code:02X}" if code in ESCAPED else chr(code) for code in codes)


def field_text(field, value):
    """A field as a text writes it."""
    if field.kind == "string":
        groups = [value >> place & 0x7F for place in range(field.bits - 7, -1, -7)]
        return string_text([group for group in groups if group])
    if field.kind == "numeric":
        return str(value)[1:]
    if field.digits is None:
        return str(value)
    return f"{value:0{field.digits}d}" if field.digits else ""


def control_fields(umi, att):
    """The control fields before a scheme's name, each only if it is not zero, and the colon behind the last."""
    fields = ("[umi=1]" if umi else "") + (f"[att=x{att:02X}]" if att else "")
    return fields and fields + ":"


class Tag:
    """A tag of a scheme: `pick` gives the value of each field that a text writes.

    At first its control bits are 0, and its bank has as many words as the scheme needs.
    """

    def __init__(self, scheme, partition, pick):
        self.scheme, self.partition = scheme, partition
        self.words = scheme.words
        self.umi = self.att = 0
        self.fields = layout(scheme, partition)
        fixed = {"header": scheme.header, "partition": partition, "zeros": 0, "fill": 0}
        self.values = [fixed[f.kind] if f.kind in fixed else pick(f) for f in self.fields]

    def written(self):
        """The places of the fields that a text writes."""
        kinds = ("filter", "prefix", "reference", "integer", "string", "numeric")
        return [place for place, field in enumerate(self.fields) if field.kind in kinds]

    def place(self, *kinds):
        """The place of the last field of these kinds that has bits."""
        return max(place for place, field in enumerate(self.fields) if field.kind in kinds and field.bits)

    def has(self, *kinds):
        return any(field.kind in kinds and field.bits for field in self.fields)

    def changed(self, place, value):
        """The tag with another value in one field, which the field's bits hold."""
        assert 0 <= value < 2 ** self.fields[place].bits
        other = copy.copy(self)
        other.values = [*self.values[:place], value, *self.values[place + 1 :]]
        return other

    def controlled(self, umi, att):
        """The tag with other control fields."""
        other = copy.copy(self)
        other.umi, other.att = umi, att
        return other

    def lengthened(self, words):
        """The tag in a bank of so many words, zeros in the further ones."""
        assert self.scheme.words <= words <= MOST_WORDS
        other = copy.copy(self)
        other.words = words
        return other

    def parts(self):
        return [field_text(self.fields[place], self.values[place]) for place in self.written()]

    def text(self):
        return self.spelt(self.parts())

    def spelt(self, parts, name=None):
        """The tag's text with other parts, or under another name."""
        name = self.scheme.name if name is None else name
        return self.start() + name + ":" + ".".join(parts)

    def start(self):
        """The tag's text up to the name."""
        return TAG_START + control_fields(self.umi, self.att)

    def control(self):
        """The control word: the word count, bit 15h and bits 18h to 1Fh."""
        return self.words << 11 | self.umi << 10 | self.att

    def bank(self, control=None):
        """The bank in hex; a control word other than the tag's own may be given."""
        code = 0
        for field, value in zip(self.fields, self.values):
            code = code << field.bits | value
        code <<= 16 * (self.words - self.scheme.words)
        control = self.control() if control is None else control
        return f"{control:04X}{code:0{4 * self.words}X}"


def smallest(field):
    if field.kind == "string":
        return string_value([0x21], field.bits)
    return numeric_value("0") if field.kind == "numeric" else 0


def middle(field):
    if field.kind == "string":
        return string_value([0x4D, 0x2F, 0x2E, 0x30] * (field.bits // 28), field.bits)
    if field.kind == "numeric":
        return numeric_value(("04711" * 4)[: field.most // 2])
    return limit(field) // 2


def largest(field):
    if field.kind == "string":
        return string_value([0x7A] * (field.bits // 7), field.bits)
    return limit(field) - 1


def samples(field):
    """A field's smallest, middle and largest value; of a numeric string also one nine, all zeros, zeros and a one."""
    values = [smallest(field), middle(field), largest(field)]
    if field.kind == "numeric":
        values += [numeric_value(digits) for digits in ("9", "0" * field.most, "1".zfill(field.most))]
    return values


def tags():
    """Every scheme at every partition value, all parts in the middle."""
    return [Tag(scheme, partition, middle) for scheme in SCHEMES for partition in partitions(scheme)]


def scheme_tags():
    """Every scheme once, all parts in the middle."""
    return [Tag(scheme, partitions(scheme)[-1] // 2, middle) for scheme in SCHEMES]


def both(tag_text, bank):
    """A text and a bank in hex, and the program's answer to each, which is the other."""
    return [(tag_text, "B " + bank), (bank, "T " + tag_text)]


def raw_line(bank):
    """The raw line of a bank in hex that has all its words."""
    control = int(bank[:4], 16)
    words = control >> 11
    afi = f".x{control & 0xFF:02X}" if control & 0x100 else ""
    return f"{RAW_START}{16 * words}{afi}.x{bank[4 : 4 + 4 * words]}"


def refused(number, bank):
    """The program's answer to a bank in hex that is refused with this number."""
    return f"R {number} {raw_line(bank)}" if number >= 11 else f"N {number}"
