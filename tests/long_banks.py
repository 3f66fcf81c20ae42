"""The block of banks with more words than their scheme needs, as request C-15 of document 02 has them.

A block gives pairs, as in tests/blocks.py.
"""

from documents import ROW_1, ROW_1_CODE, ROW_6, ROW_6_CODE
from faults import AT_FAULT, faulty_bank, zero_bits
from tags import MOST_WORDS, both, refused, scheme_tags

CONTROLS = ((1, 0x00), (0, 0x01), (1, 0xA5))  # umi and att
OTHERS = (11, 12, 13, 16, 17, 18, 19)  # what a bank with further words can be refused with, but for 15


def long_banks():
    """Banks of every word count; ones at both ends of each further word; older codes behind shorter ones. Each line once."""
    taken = (*known_rows(), *word_counts(), *controlled())
    not_taken = (*single_ones(), *pairs_of_ones(), *ones_before(), *older_codes(), *other_numbers())
    return dict.fromkeys([*taken, *((bank, refused(number, bank)) for number, bank in not_taken)])


def known_rows():
    """Document 01's rows 1 and 6 in long chips; the program writes the short bank again."""
    yield "4000" + ROW_1_CODE + 2 * "0000", "T " + ROW_1
    yield "F800" + ROW_6_CODE + 18 * "0000", "T " + ROW_6
    yield from both(ROW_1, "3000" + ROW_1_CODE)
    yield from both(ROW_6, "6800" + ROW_6_CODE)


def word_counts():
    """Each scheme in a word less than it needs, and in every word count from its own on."""
    for tag in scheme_tags():
        fewer = tag.words - 1
        bank = tag.bank(fewer << 11)[: 4 + 4 * fewer]
        yield bank, refused(14, bank)
        yield from ((tag.lengthened(words).bank(), "T " + tag.text()) for words in range(fewer + 1, MOST_WORDS + 1))


def controlled():
    """Each control field and both, a word more than each scheme needs and in the longest bank."""
    for tag in scheme_tags():
        for control in CONTROLS:
            for words in (tag.words + 1, MOST_WORDS):
                long = tag.controlled(*control).lengthened(words)
                yield long.bank(), "T " + long.text()


def single_ones():
    """Each further word's first bit, in the longest bank, and its last, in the bank that ends with this word."""
    for tag in scheme_tags():
        for word in further_words(tag):
            yield 15, with_ones(tag.lengthened(MOST_WORDS).bank(), first_bit(word))
            yield 15, with_ones(tag.lengthened(word).bank(), last_bit(word))


def pairs_of_ones():
    """Both again with a later one, the bank's last bit or the next, for the first scheme of each word count."""
    for tag in {tag.words: tag for tag in reversed(scheme_tags())}.values():
        long = tag.lengthened(MOST_WORDS).bank()
        for word in further_words(tag):
            yield 15, with_ones(long, first_bit(word), last_bit(MOST_WORDS))
            if word < MOST_WORDS:
                yield 15, with_ones(long, last_bit(word), first_bit(word + 1))


def ones_before():
    """The first and the last of the zero bits in the scheme's own words, in the longest bank, alone and with its last bit."""
    for tag in scheme_tags():
        last = last_bit(tag.words)
        for address in (last - zero_bits(tag) + 1, last) if zero_bits(tag) else ():
            bank = with_ones(tag.lengthened(MOST_WORDS).bank(), address)
            yield from ((15, bank), (15, with_ones(bank, last_bit(MOST_WORDS))))


def older_codes():
    """A tag written over a longer one, of which the last words are left, or only the last of their bits that are one."""
    for tag in scheme_tags():
        for older in (older for older in scheme_tags() if older.words > tag.words):
            own = 4 + 4 * tag.words
            left = int(older.bank()[own:], 16)
            for ones in (left, left & -left):
                bank = int(tag.lengthened(older.words).bank(), 16) | ones
                yield 15, f"{bank:0{4 + 4 * older.words}X}"


def other_numbers():
    """The other numbers in the longest bank, with zeros in its further words and with its last bit: 16 to 19 come after 15."""
    for tag in scheme_tags():
        for number in OTHERS:
            if number not in AT_FAULT or tag.has(*AT_FAULT[number]):
                bank = faulty_bank(tag.lengthened(MOST_WORDS), [number])
                yield from ((number, bank), (min(number, 15), with_ones(bank, last_bit(MOST_WORDS))))


def further_words(tag):
    """The words that the tag doesn't need, counted from 1."""
    return range(tag.words + 1, MOST_WORDS + 1)


def first_bit(word):
    """The address of a word's first bit."""
    return 0x10 + 16 * word


def last_bit(word):
    return first_bit(word) + 15


def with_ones(bank, *addresses):
    """The bank in hex with the bits at these addresses set."""
    end = 0x10 + 4 * len(bank)
    ones = sum(1 << end - 1 - address for address in addresses)
    return f"{int(bank, 16) | ones:0{len(bank)}X}"
