"""Seeded tags, and lines of the program tagline.

    python3 tests/seeded.py LINES SEED     print so many lines; the same seed gives the same ones
"""

import random
import sys

from tags import CHARACTERS, MOST_WORDS, SCHEMES, TAG_START, Tag, limit, numeric_value, partitions, string_value

BYTES = [chr(byte) for byte in range(256) if byte != 0x0A]
USUAL = "0123456789.:%ABCDEFabf-_[]=xumit"
PIECES = ("[umi=1]", "[att=x01]", "[att=xFE]", "[umi=0]", "[att=x00]", "[att=xa1]", "[xpc=x0004]", "[", "]", ":")


class Random:
    """Numbers that are the same under every Python: the Mersenne Twister's own bits and nothing else."""

    def __init__(self, seed):
        self.bits = random.Random(seed).getrandbits

    def below(self, limit):
        return self.bits(64) * limit >> 64

    def choice(self, items):
        return items[self.below(len(items))]

    def value(self, field):
        """A value for a field that a text writes.

        Half of the numbers are shorter than their field; half of the numeric strings begin with zeros.
        """
        if field.kind == "string":
            count = 1 + self.below(field.bits // 7)
            return string_value([self.choice(CHARACTERS) for _ in range(count)], field.bits)
        if field.kind == "numeric":
            count = 1 + self.below(field.most)
            digits = "".join(self.choice("0123456789") for _ in range(count))
            zeros = 1 + self.below(count) if self.below(2) else 0
            return numeric_value("0" * zeros + digits[zeros:])
        return self.below(limit(field)) >> (self.below(field.bits) if self.below(2) else 0)

    def words(self, scheme):
        """The scheme's word count, for one bank of four a larger one."""
        return scheme.words if self.below(4) else scheme.words + 1 + self.below(MOST_WORDS - scheme.words)

    def tag(self):
        """A third of the tags have control fields, but for the few whose fields are zero; the banks of a quarter further words."""
        scheme = self.choice(SCHEMES)
        tag = Tag(scheme, self.choice(partitions(scheme)), self.value).lengthened(self.words(scheme))
        return tag if self.below(3) else tag.controlled(self.below(2), self.below(2) * self.below(256))


def good(random):
    """A tag's text or bank."""
    tag = random.tag()
    return tag.text() if random.below(2) else tag.bank()


def mutated(random, tag):
    """A tag's text or bank with one bit turned, or one character changed, put in or left out."""
    if random.below(2):
        bank = tag.bank()
        turned = int(bank, 16) ^ 1 << random.below(4 * len(bank))
        return f"{turned:0{len(bank)}X}"
    return one_changed(random, tag.text() if random.below(4) else tag.bank())


def one_changed(random, line):
    """A line with one character changed, put in or left out."""
    place = random.below(len(line))
    new = random.choice(USUAL if random.below(3) else BYTES)
    kind = random.below(3)
    if kind == 0:
        return line[:place] + line[place + 1 :]
    return line[:place] + new + line[place + (kind == 1) :]


def random_bank(random):
    """A bank with a scheme's header and words, and any bits after it; most have zeros where they must be.

    Of four two have no other control bit, one any that a text can say, one any. Of four one has further words, with
    one bit of them set or none.
    """
    scheme = random.choice(SCHEMES)
    code = random.bits(16 * scheme.words - 8)
    zeros = 16 * scheme.words - scheme.bits + (24 if "zero" in scheme.parts else 0)
    if random.below(8):
        code = code >> zeros << zeros
    words = random.words(scheme)
    further = 16 * (words - scheme.words)
    code = code << further | (1 << random.below(further) if further and random.below(2) else 0)
    control = words << 11 | random.bits(11) & random.choice((0, 0, 0x4FF, 0x7FF))
    bank = f"{control:04X}{scheme.header:02X}{code:0{4 * words - 2}X}"
    return bank + f"{random.bits(64):016X}"[: 2 * random.below(9)] if random.below(4) == 0 else bank


def random_fields(random):
    """A tag's text with any pieces of control fields behind its start."""
    pieces = [random.choice(PIECES) for _ in range(1 + random.below(4))]
    return TAG_START + "".join(pieces) + random.tag().text()[len(TAG_START) :]


def random_bytes(random):
    """Any bytes, any hex digits, or any of a text's usual characters after the start of a tag or a field; some too long."""
    count = random.below(140 if random.below(4) else 420)
    starts = (USUAL, TAG_START), (USUAL, TAG_START + "["), (USUAL, "urn:")
    alphabet, start = random.choice(((BYTES, ""), ("0123456789ABCDEF", ""), *starts))
    return start + "".join(random.choice(alphabet) for _ in range(count))


def line(random):
    """Half of the lines are good; the others mutated, random banks, random fields and random bytes, 4 to 2 to 1 to 1."""
    kind = random.below(16)
    if kind < 8:
        return good(random)
    if kind < 12:
        return mutated(random, random.tag())
    if kind < 14:
        return random_bank(random)
    return random_fields(random) if kind == 14 else random_bytes(random)


def print_lines(line):
    """Prints as many lines as the first argument says, with the second for a seed."""
    lines, seed = map(int, sys.argv[1:])
    random = Random(seed)
    for _ in range(lines):
        sys.stdout.buffer.write(line(random).encode("latin-1") + b"\n")


if __name__ == "__main__":
    print_lines(line)
