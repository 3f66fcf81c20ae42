/* tagcodec: RFID tag codes of sixteen GS1 EPC schemes, text to bank, bank to text, the line on the screen, and pure identities.
 *
 * Every function here is proved, in Rattle, to give what docs/01-scope.md says and, for gdti-113, sgcn-96 and cpi-96, C-11 of
 * docs/02-change-requests.md, for the places its C-12, for control fields its C-13, for banks with more words than their code needs its
 * C-15 and for identities its C-16, for any bytes whatever: number, place, word count, length, and each byte of the output. The caller
 * checks nothing beforehand. No function keeps a pointer, allocates, or changes anything but the output, so all may be called from any
 * number of threads.
 *
 * What the caller owes, because C can't check it:
 *   - each pointer is valid for the length beside it (NULL will do where that length is 0);
 *   - the output overlaps no input, and nothing else writes to either during the call.
 */
#ifndef TAGCODEC_H
#define TAGCODEC_H

#include <stddef.h>
#include <stdint.h>

#ifdef __cplusplus
extern "C" {
#endif

/* The bytes that an output must have; a shorter one is refused with 1, whatever is to be written. */
#define TAGCODEC_BANK_ROOM 64
#define TAGCODEC_TEXT_ROOM 160

/* The most words that a bank can have: with the control word before them they fill the 64 bytes. */
#define TAGCODEC_MOST_WORDS 31

/* The numbers. Of those that apply the first is given, in this order. W is a bank's word count, the five bits from 10h on. A scheme's word
 * count is that of its code, the bits in its name / 16, rounded up: 6, 8, 11 or 13. Words behind these are further words. */
enum tagcodec_number {
    TAGCODEC_ACCEPTED = 0,

    TAGCODEC_OUTPUT_TOO_SHORT = 1, /* output shorter than 64 bytes (bank) or 160 bytes (text) */

    /* text to bank; tag to identity gives only 1, 2, 20 and 3 to 8 */
    TAGCODEC_TOO_MANY_WORDS = 21, /* the W asked for is above 31, whatever the text */
    TAGCODEC_START = 2,           /* does not begin with `urn:epc:tag:` */
    TAGCODEC_CONTROL_FIELDS = 20, /* `[` follows, but not `[umi=1]`, or `[att=xNN]` with two upper-case hex digits that are not 00, or
                                     both in this order, and a colon */
    TAGCODEC_NAME = 3,            /* what follows is not a listed name and a colon */
    TAGCODEC_FILTER = 4,          /* filter is not one digit 0 to 7 and a dot (never for gid-96) */
    TAGCODEC_PREFIX = 5,          /* no 6 to 12 digits and a dot; for gid-96, no integer below 2^28 and a dot */
    TAGCODEC_REFERENCE = 6,       /* not the row's digits and a dot, or the end for sscc-96, gsrn-96 and gsrnp-96;
                                     for cpi-96, no integer of at most the row's digits and a dot;
                                     for gid-96, no integer below 2^24 and a dot */
    TAGCODEC_LAST_PART_FORM = 7,  /* last part has the wrong form, empty included */
    TAGCODEC_LAST_PART_SIZE = 8,  /* last part's value, or its number of characters or digits, is too large */
    TAGCODEC_TOO_FEW_WORDS = 22,  /* the W asked for is neither 0 nor at least the scheme's word count */

    /* bank to text; the raw line gives only 1, 9 and 10 */
    TAGCODEC_BANK_TOO_SHORT = 9,      /* fewer than 2 bytes, or fewer than 2 + 2 W */
    TAGCODEC_NO_WORDS = 10,           /* W is 0 */
    TAGCODEC_TOGGLE = 11,             /* toggle is 1: no EPC */
    TAGCODEC_CONTROL_BITS = 12,       /* bit 16h, XPC, is 1 */
    TAGCODEC_HEADER = 13,             /* header not in the table of schemes */
    TAGCODEC_WORD_COUNT = 14,         /* W is below the scheme's word count */
    TAGCODEC_FILL_BITS = 15,          /* a fill bit, one of the 24 zero bits, or a bit of the further words is 1 */
    TAGCODEC_PARTITION = 16,          /* partition value is 7 */
    TAGCODEC_PREFIX_TOO_LARGE = 17,   /* prefix is 10^digits or more */
    TAGCODEC_REFERENCE_TOO_LARGE = 18, /* reference is 10^digits or more; with 0 digits, not 0 */
    TAGCODEC_STRING = 19,             /* string begins with a zero, has a nonzero group after a zero, or a group that is no character;
                                         for gdti-113 and sgcn-96, the integer is not a 1 and 1 to 17 or 12 digits */

    /* identity to tag */
    TAGCODEC_IDENTITY = 23,     /* not an identity of a listed family (below) */
    TAGCODEC_GIVEN_FILTER = 24, /* the filter is above 7, or not 0 for gid */
    TAGCODEC_NO_SCHEME = 25     /* no scheme holds it: a prefix that is not 6 to 12 digits, a part that is too large or too long, or a giai
                                   or cpi reference that is no integer */
};

/* What a call gives. Accepted: number 0, place 0, in `words` the W of the bank that was written or read, 0 where there was none, and the
 * length written from the output's start on; bytes past it are unchanged. Refused: the number, its place, words 0, length 0, and every
 * byte of the output unchanged.
 *
 * The place says where. In a text it is an offset in bytes, from 0: that of the first character of the part that was refused. Where the
 * part is missing, that is where it would begin, which may be the text's length. In a bank it is the address of the first bit of the part
 * that was refused: the bank's first bit is 10h, and the first bit of its code 20h. 16 bits hold any place.
 *
 *   0, 1, 21 to 25  0
 *   2               0
 *   20              the offset of the first control field that is wrong, or where the colon behind the last should stand
 *   3               where the name begins: 12, or behind control fields and their colon 20, 22 or 29
 *   4, 5, 6, 7, 8   the offset where the filter, the prefix, the reference or the last part begins
 *   9               the number of bytes lent
 *   10              10h
 *   11              17h
 *   12              16h
 *   13              20h
 *   14              10h
 *   15              the first bit, in order, that must be 0 and is 1
 *   16              2Bh
 *   17              2Eh
 *   18              the first bit of the reference: 2Eh plus the row's prefix bits
 *   19              the first bit of the string, or of the numeric string's integer, whichever group or digit is wrong
 */
typedef struct tagcodec_reply {
    uint32_t number;
    uint16_t place;
    uint16_t words;
    size_t length;
} tagcodec_reply;

/* The text of a tag, `urn:epc:tag:` and so on, to its bank: numbers 0 to 8 and 20 to 22. `words` is the W that the bank is to have; 0 asks
 * for the smallest, the scheme's word count. The bank begins with the word at address 10h, after the CRC, and has 2 + 2 W bytes, at most
 * 64; if 0 was asked for, at most 28. Bits behind the code are 0. Bit 15h is 1 if the text has `[umi=1]`, bits 18h to 1Fh are NN if the
 * text has `[att=xNN]`; without the field they are 0. A text is bytes; it needs no zero at its end, and a zero in it is a character like
 * others. */
tagcodec_reply tagcodec_text_to_bank(const uint8_t *text, size_t text_length, uint32_t words, uint8_t *out, size_t out_length);

/* A bank, from address 10h on, to the text of its tag: numbers 0, 1 and 9 to 19. A text has at most 116 characters, and no zero is
 * written behind it. Bytes after word W are never looked at. Writing the text again with the W given here gives the same bank; with 0 it
 * gives the bank of the smallest W. */
tagcodec_reply tagcodec_bank_to_text(const uint8_t *bank, size_t bank_length, uint8_t *out, size_t out_length);

/* The raw line of a bank, `urn:epc:raw:` and so on, whatever its code is: numbers 0, 1, 9 and 10. At most 145 characters, and no zero
 * behind them. */
tagcodec_reply tagcodec_raw_line(const uint8_t *bank, size_t bank_length, uint8_t *out, size_t out_length);

/* An identity is `urn:epc:id:`, a family, a colon, and its components with dots between them:
 *
 *   sgtin               prefix.reference.string   prefix and reference have 13 digits together, each one or more
 *   sgln, grai, gdti    prefix.reference.string   12 together; the reference may be empty
 *   sgcn                prefix.reference.serial   12 together; the reference may be empty; the serial has 1 to 12 digits
 *   sscc, gsrn, gsrnp   prefix.reference          17 together, each one or more
 *   giai                prefix.string
 *   cpi                 prefix.reference.integer  the reference is one or more of 0-9, A-Z, `-`, `%23` and `%2F`
 *   gid                 integer.integer.integer
 *
 * A prefix has one digit or more, and no string, no integer and no cpi reference has a limit here: what is too long or too large for every
 * scheme is refused with 25. A string has the characters and escapes of a tag's text, and is not empty; an integer has no leading zero.
 *
 * The text of a tag to its identity: numbers 0 to 8 and 20, with the same places as text to bank. Control fields, filter and the choice
 * between 96 bits and more are left out. At most 92 characters, and no zero behind them. */
tagcodec_reply tagcodec_tag_to_identity(const uint8_t *text, size_t text_length, uint8_t *out, size_t out_length);

/* An identity and the filter that its tag is to have to the text of that tag: numbers 0, 1 and 23 to 25. The scheme is the family's of 96
 * bits if that holds the identity, else sgtin-198, sgln-195, grai-170 or gdti-174; gdti-113 is never chosen. gid has no filter, and takes
 * only 0. The text has no control fields and at most 99 characters, and no zero is written behind it; its identity is the one given. */
tagcodec_reply tagcodec_identity_to_tag(const uint8_t *text, size_t text_length, uint32_t filter, uint8_t *out, size_t out_length);

/* The two texts that a line on the screen can be a part of. */
enum tagcodec_text {
    TAGCODEC_TAG_TEXT = 0,
    TAGCODEC_RAW_TEXT = 1
};

/* The first `length` bytes of the text that `text` names. */
typedef struct tagcodec_shown {
    uint32_t text;
    size_t length;
} tagcodec_shown;

/* The line on the screen, from the tag text, the raw text and the number that tagcodec_bank_to_text gave: all of the tag text for 0, all
 * of the raw text for 11 to 19, the empty start of the raw text for every other number, 20 and above included. */
tagcodec_shown tagcodec_screen(const uint8_t *tag, size_t tag_length, const uint8_t *raw, size_t raw_length, uint32_t number);

#ifdef __cplusplus
}
#endif

#endif
