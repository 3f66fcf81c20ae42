/* The calls on tags and banks from C: document 01's known tags, tags with control fields, banks with further words, the place of every number,
 * each output byte, and the lengths and pointers at the edge. */
#include "expect.h"

static size_t from_hex(const char *hex, uint8_t *bytes) {
    size_t n = strlen(hex) / 2;
    for (size_t i = 0; i < n; i++) {
        unsigned byte;
        sscanf(hex + 2 * i, "%2x", &byte);
        bytes[i] = (uint8_t)byte;
    }
    return n;
}

/* W, the five bits that a bank begins with. */
static uint32_t words_of(const uint8_t *bank) {
    return bank[0] >> 3;
}

static tagcodec_reply to_bank(const char *t, uint32_t words) {
    return tagcodec_text_to_bank((const uint8_t *)t, strlen(t), words, fresh(), TAGCODEC_BANK_ROOM);
}

static tagcodec_reply to_text(const uint8_t *bytes, size_t n) {
    return tagcodec_bank_to_text(bytes, n, fresh(), TAGCODEC_TEXT_ROOM);
}

static tagcodec_reply to_raw(const uint8_t *bytes, size_t n) {
    return tagcodec_raw_line(bytes, n, fresh(), TAGCODEC_TEXT_ROOM);
}

static void text(const char *t, uint32_t words, const char *hex) {
    uint8_t bytes[64];
    size_t n = from_hex(hex, bytes);
    gives(to_bank(t, words), accepted(words_of(bytes), n), bytes, t);
}

static void bank(const char *hex, const char *t) {
    uint8_t bytes[64];
    size_t n = from_hex(hex, bytes);
    gives(to_text(bytes, n), accepted(words_of(bytes), strlen(t)), t, hex);
}

static void raw(const char *hex, const char *line) {
    uint8_t bytes[64];
    size_t n = from_hex(hex, bytes);
    gives(to_raw(bytes, n), accepted(words_of(bytes), strlen(line)), line, hex);
}

/* A text in the smallest bank, which 0 asks for too, each from the other. */
static void both(const char *hex, const char *t) {
    uint8_t bytes[64];
    from_hex(hex, bytes);
    text(t, 0, hex);
    text(t, words_of(bytes), hex);
    bank(hex, t);
}

/* What is wrong with a text is told before 22, and after 21. */
static void text_refused(const char *t, uint32_t number, uint32_t offset) {
    gives(to_bank(t, 0), refused(number, offset), "", t);
    gives(to_bank(t, 1), refused(number, offset), "", t);
    gives(to_bank(t, TAGCODEC_MOST_WORDS), refused(number, offset), "", t);
    gives(to_bank(t, TAGCODEC_MOST_WORDS + 1), refused(21, 0), "", t);
}

/* The raw line is refused only with 9 and 10, and then like the bank. */
static void bank_refused(const char *hex, uint32_t number, uint32_t address) {
    uint8_t bytes[64];
    size_t n = from_hex(hex, bytes);
    gives(to_text(bytes, n), refused(number, address), "", hex);
    if (number <= TAGCODEC_NO_WORDS) gives(to_raw(bytes, n), refused(number, address), "", hex);
}

static void known_tags(void) {
    both("30003074257BF7194E4000001A85", "urn:epc:tag:sgtin-96:3.0614141.812345.6789");
    both("30003374257BF40C0E400000162E", "urn:epc:tag:grai-96:3.0614141.12345.5678");
    both("3000330000000000040000000005", "urn:epc:tag:grai-96:0.000000000001..5");
    bank_refused("3000330000000000044000000005", 18, 0x56);
    raw("3000330000000000044000000005", "urn:epc:raw:96.x330000000000044000000005");
    both("30003174257BF4499602D2000000", "urn:epc:tag:sscc-96:3.0614141.1234567890");
    bank_refused("30003174257BF4499602D2000001", 15, 0x7F);
    both("68003614257BF7194E70AEC400000000000000000000000000000000", "urn:epc:tag:sgtin-198:0.0614141.812345.a.b");
    text("urn:epc:tag:sgtin-96:3.0614141.812345.274877906943", 0, "30003074257BF7194E7FFFFFFFFF");
    text_refused("urn:epc:tag:sgtin-96:3.0614141.812345.274877906944", 8, 38);
    text_refused("urn:epc:tag:sgtin-96:3.0614141.812345.007", 7, 38);
    text_refused("urn:epc:tag:sgtin-198:0.0614141.812345.a%2fb", 7, 39);
    text_refused("urn:epc:tag:sgtin-198:0.0614141.812345.%41", 7, 39);
    text_refused("urn:epc:tag:sgtin-96:8.0614141.812345.6789", 4, 21);
    bank_refused("3000307C257BF7194E4000001A85", 16, 0x2B);
    bank_refused("30003003FFFFFFFFFC0000000000", 17, 0x2E);
    both("30013074257BF7194E4000001A85", "urn:epc:tag:[att=x01]:sgtin-96:3.0614141.812345.6789");
    bank_refused("31003074257BF7194E4000001A85", 11, 0x17);
    raw("31083074257BF7194E4000001A85", "urn:epc:raw:96.x08.x3074257BF7194E4000001A85");
    bank_refused("00003074257BF7194E4000001A85", 10, 0x10);
    bank_refused("30003614257BF7194E70AEC400000000000000000000000000000000", 14, 0x10);
}

/* C-13: the fields alone and both, in the longest text too; section 12's example with an attribute; XPC. */
static void control_fields(void) {
    both("34003074257BF7194E4000001A85", "urn:epc:tag:[umi=1]:sgtin-96:3.0614141.812345.6789");
    both("30FF3074257BF7194E4000001A85", "urn:epc:tag:[att=xFF]:sgtin-96:3.0614141.812345.6789");
    both("340A3174257BF4499602D2000000", "urn:epc:tag:[umi=1][att=x0A]:sscc-96:3.0614141.1234567890");
    both("3001" "3074257BF46DB64000000190", "urn:epc:tag:[att=x01]:sgtin-96:3.0614141.112345.400");
    both("6CFF" "3614257BF7194E57AF5EBD7AF5EBD7AF5EBD7AF5EBD7AF5EBC00",
         "urn:epc:tag:[umi=1][att=xFF]:sgtin-198:0.0614141.812345."
         "%2F%2F%2F%2F%2F%2F%2F%2F%2F%2F%2F%2F%2F%2F%2F%2F%2F%2F%2F%2F");
    bank_refused("32003074257BF7194E4000001A85", 12, 0x16);
    bank_refused("36FF3074257BF7194E4000001A85", 12, 0x16);
    bank_refused("34FFFF74257BF7194E4000001A85", 13, 0x20);
    raw("36FF3074257BF7194E4000001A85", "urn:epc:raw:96.x3074257BF7194E4000001A85");
}

/* 20 at each of its places: a field that is wrong, out of order, repeated or unknown; the missing colon. Behind good fields, what is
 * refused there. */
static void control_places(void) {
    text_refused("urn:epc:tag:[", 20, 12);
    text_refused("urn:epc:tag:[umi=0]:gid-96:1.2.3", 20, 12);
    text_refused("urn:epc:tag:[att=xab]:gid-96:1.2.3", 20, 12);
    text_refused("urn:epc:tag:[umi=1][umi=1]:gid-96:1.2.3", 20, 19);
    text_refused("urn:epc:tag:[umi=1]gid-96:1.2.3", 20, 19);
    text_refused("urn:epc:tag:[att=x01][umi=1]:gid-96:1.2.3", 20, 21);
    text_refused("urn:epc:tag:[att=x01][xpc=x0004]:sgtin-96:3.9521141.112345.400", 20, 21);
    text_refused("urn:epc:tag:[umi=1][att=x01][att=x02]:gid-96:1.2.3", 20, 28);
    text_refused("urn:epc:tag:[umi=1][att=x01]", 20, 28);
    text_refused("urn:epc:tag:umi=1:gid-96:1.2.3", 3, 12);
    text_refused("urn:epc:tag:[umi=1]:[att=x01]:gid-96:1.2.3", 3, 20);
    text_refused("urn:epc:tag:[att=x01]:gid-95:1.2.3", 3, 22);
    text_refused("urn:epc:tag:[umi=1][att=x01]:", 3, 29);
    text_refused("urn:epc:tag:[umi=1]:sgtin-96:8.0614141.812345.6789", 4, 29);
    text_refused("urn:epc:tag:[umi=1][att=x01]:sgtin-96:3.0614141.812345.007", 7, 55);
}

/* The numbers that no known tag has, and places at the end of a text or among several one bits. */
static void places(void) {
    text_refused("", 2, 0);
    text_refused("urn:epc:tag:", 3, 12);
    text_refused("urn:epc:tag:gid-95:1.2.3", 3, 12);
    text_refused("urn:epc:tag:sgtin-96:", 4, 21);
    text_refused("urn:epc:tag:sgtin-96:3.061414.0.1", 6, 30);
    text_refused("urn:epc:tag:sgtin-96:3.06141.0.1", 5, 23);
    text_refused("urn:epc:tag:sgtin-96:3.0614141.812345.", 7, 38);
    bank_refused("", 9, 0);
    bank_refused("30", 9, 1);
    bank_refused("30003074257BF7194E4000001A", 9, 13);
    bank_refused("3000FF74257BF7194E4000001A85", 13, 0x20);
    bank_refused("30003174257BF4499602D2001001", 15, 0x73);
    bank_refused("68003614257BF7194E40000000000000000000000000000000000000", 19, 0x5A);
}

/* The bank with its code in this many words, and its length: zeros in the further words, or words missing. */
static size_t in_words(const char *hex, uint32_t words, uint8_t *bytes) {
    memset(bytes, 0, TAGCODEC_BANK_ROOM);
    from_hex(hex, bytes);
    bytes[0] = (uint8_t)(words << 3 | (bytes[0] & 7));
    return 2 + 2 * words;
}

/* The bit is 1, alone and with the bank's last: code bit c is at 20h + c. */
static void nonzero(const char *hex, uint32_t words, uint32_t bit) {
    uint8_t bytes[TAGCODEC_BANK_ROOM];
    size_t n = in_words(hex, words, bytes);
    char of[100];
    snprintf(of, sizeof of, "code bit %u in %u words: %s", (unsigned)bit, (unsigned)words, hex);
    bytes[2 + bit / 8] |= (uint8_t)(0x80 >> bit % 8);
    gives(to_text(bytes, n), refused(15, 0x20 + bit), "", of);
    bytes[n - 1] |= 1;
    gives(to_text(bytes, n), refused(15, 0x20 + bit), "", of);
}

/* A text, and its bank cut to fewer words than the scheme needs. */
static void too_few_words(const char *hex, const char *t, uint32_t words) {
    uint8_t bytes[TAGCODEC_BANK_ROOM];
    size_t n = in_words(hex, words, bytes);
    gives(to_bank(t, words), refused(22, 0), "", t);
    gives(to_text(bytes, n), refused(14, 0x10), "", hex);
}

/* A text and its bank of this many words, whose code bits must be 0 from `zeros` on. */
static void enough_words(const char *hex, const char *t, uint32_t words, uint32_t zeros) {
    uint8_t bytes[TAGCODEC_BANK_ROOM];
    size_t n = in_words(hex, words, bytes);
    gives(to_bank(t, words), accepted(words, n), bytes, t);
    gives(to_text(bytes, n), accepted(words, strlen(t)), t, hex);
    for (uint32_t bit = zeros; bit < 16 * words; bit++) nonzero(hex, words, bit);
}

/* A text and its smallest bank, in every number of words. */
static void every_count(const char *hex, const char *t, uint32_t zeros) {
    uint8_t smallest[TAGCODEC_BANK_ROOM];
    from_hex(hex, smallest);
    both(hex, t);
    for (uint32_t words = 1; words < words_of(smallest); words++) too_few_words(hex, t, words);
    for (uint32_t words = words_of(smallest); words <= TAGCODEC_MOST_WORDS; words++) enough_words(hex, t, words, zeros);
}

/* 21 whatever the text, and whatever the W would be in fewer bits. */
static void too_many_words(const char *t) {
    const uint32_t asked[] = {32, 33, 64, 255, 256, 256 + 6, 65536, 65536 + 6, UINT32_MAX - 31, UINT32_MAX};
    for (size_t i = 0; i < sizeof asked / sizeof asked[0]; i++) gives(to_bank(t, asked[i]), refused(21, 0), "", t);
}

/* C-15: row 1 in 8 words, row 6 in 31, which are all of the room; rows 1, 5 and 6 and the other word counts of schemes in every number of
 * words; what comes before 15 and after it; bytes behind word W. */
static void long_banks(void) {
    const char *row_1 = "urn:epc:tag:sgtin-96:3.0614141.812345.6789", *row_1_in_8 = "40003074257BF7194E4000001A8500000000",
               *row_6 = "urn:epc:tag:sgtin-198:0.0614141.812345.a.b",
               *row_6_in_31 = "F8003614257BF7194E70AEC4" "0000000000000000000000000000000000000000000000000000"
                              "0000000000000000000000000000000000000000000000000000";
    text(row_1, 8, row_1_in_8);
    bank(row_1_in_8, row_1);
    raw(row_1_in_8, "urn:epc:raw:128.x3074257BF7194E4000001A8500000000");
    text(row_6, 31, row_6_in_31);
    bank(row_6_in_31, row_6);
    text("urn:epc:tag:[umi=1][att=xFF]:sgtin-96:3.0614141.812345.6789", 8, "44FF3074257BF7194E4000001A8500000000");
    bank("44FF3074257BF7194E4000001A8500000000", "urn:epc:tag:[umi=1][att=xFF]:sgtin-96:3.0614141.812345.6789");

    every_count("30003074257BF7194E4000001A85", row_1, 96);
    every_count("30003174257BF4499602D2000000", "urn:epc:tag:sscc-96:3.0614141.1234567890", 72);
    every_count("40003A76451FD7039A000000000001F78000", "urn:epc:tag:gdti-113:3.9521141.98765.007", 113);
    every_count("58003776451FD40C0E59B2C2BF1000000000000000000000", "urn:epc:tag:grai-170:3.9521141.12345.32a%2Fb", 170);
    every_count("68003614257BF7194E70AEC400000000000000000000000000000000", row_6, 198);

    too_many_words(row_1);
    too_many_words("");
    too_many_words("urn:epc:tag:gid-95:1.2.3");

    bank_refused("40003074257BF7194E4000001A850000", 9, 16);
    bank_refused("42003074257BF7194E4000001A8500000001", 12, 0x16);
    bank_refused("4000FF74257BF7194E4000001A8500000001", 13, 0x20);
    bank_refused("4000307C257BF7194E4000001A8500000001", 15, 0x9F);
    bank_refused("4000307C257BF7194E4000001A8500000000", 16, 0x2B);
    bank("30003074257BF7194E4000001A85" "FFFF", row_1);
    bank("40003074257BF7194E4000001A8500000000" "FFFF", row_1);
}

/* A reply goes in two registers: number, place and words in the first, the length in the second. */
static void reply(void) {
    expect(sizeof(tagcodec_reply) == 16, "size", "reply");
    expect(offsetof(tagcodec_reply, number) == 0, "number's offset", "reply");
    expect(offsetof(tagcodec_reply, place) == 4, "place's offset", "reply");
    expect(offsetof(tagcodec_reply, words) == 6, "words' offset", "reply");
    expect(offsetof(tagcodec_reply, length) == 8, "length's offset", "reply");
}

static void edges(void) {
    uint8_t *nowhere = NULL;
    gives(tagcodec_text_to_bank(nowhere, 0, 0, fresh(), 64), refused(2, 0), "", "no text");
    gives(tagcodec_bank_to_text(nowhere, 0, fresh(), 160), refused(9, 0), "", "no bank");
    gives(tagcodec_raw_line(nowhere, 0, fresh(), 160), refused(9, 0), "", "no bank, raw");
    gives(tagcodec_text_to_bank(nowhere, 0, 0, nowhere, 0), refused(1, 0), "", "no text and no output");
    gives(tagcodec_text_to_bank(nowhere, 0, 0, fresh(), 63), refused(1, 0), "", "63 bytes for a bank");
    gives(tagcodec_text_to_bank(nowhere, 0, 32, fresh(), 63), refused(1, 0), "", "63 bytes for a bank of 32 words");
    gives(tagcodec_bank_to_text(nowhere, 0, fresh(), 159), refused(1, 0), "", "159 bytes for a text");
    gives(tagcodec_raw_line(nowhere, 0, fresh(), 159), refused(1, 0), "", "159 bytes for a raw line");
}

/* More output than must be: no more of it is written. */
static void longer_outputs(void) {
    const char *t = "urn:epc:tag:gid-96:0.0.0", *line = "urn:epc:raw:96.x350000000000000000000000";
    const uint8_t bytes[TAGCODEC_BANK_ROOM] = {0x30, 0, 0x35}, in_31[TAGCODEC_BANK_ROOM] = {0xF8, 0, 0x35};
    gives(tagcodec_text_to_bank((const uint8_t *)t, strlen(t), 0, fresh(), sizeof out), accepted(6, 14), bytes, t);
    gives(tagcodec_text_to_bank((const uint8_t *)t, strlen(t), 31, fresh(), sizeof out), accepted(31, 64), in_31, t);
    gives(tagcodec_bank_to_text(bytes, 14, fresh(), sizeof out), accepted(6, strlen(t)), t, t);
    gives(tagcodec_raw_line(bytes, 14, fresh(), sizeof out), accepted(6, strlen(line)), line, line);
}

static void screen(void) {
    const uint8_t tag[] = {'t', 'a', 'g'}, line[] = {'l', 'i', 'n', 'e'};
    for (uint32_t number = 0; number < 1000; number++) {
        tagcodec_shown r = tagcodec_screen(tag, 3, line, 4, number);
        size_t length = number == 0 ? 3 : 11 <= number && number <= 19 ? 4 : 0;
        expect(r.text == (number == 0 ? TAGCODEC_TAG_TEXT : TAGCODEC_RAW_TEXT), "text", "screen");
        expect(r.length == length, "length", "screen");
    }
    expect(tagcodec_screen(tag, 3, line, 4, UINT32_MAX).length == 0, "length", "screen of the last number");
    expect(tagcodec_screen(NULL, 0, NULL, 0, 0).length == 0, "length", "screen of no texts");
}

int main(void) {
    known_tags();
    control_fields();
    control_places();
    places();
    long_banks();
    reply();
    edges();
    longer_outputs();
    screen();
    return told();
}
