/* A bank, given in hexadecimal, or the text of a tag and how many words its bank is to have, if not the fewest:
 * `decode 30003074257BF7194E4000001A85`, `decode urn:epc:tag:gid-96:1.2.3`, `decode urn:epc:tag:gid-96:1.2.3 8`.
 * Prints the number of the first broken rule, 0 for none. With 0: the tag's text and how many words its bank has, or the bank. With
 * another: the place, and for a bank the line on the screen, if there is one to show; for a text the text, and a mark under the
 * character at the place. 21 and 22 refuse the number of words, not the text: that number stands for the place, without a mark. */
#include "shown.h"

static int digit(char c) {
    const char *digits = "0123456789ABCDEF";
    const char *found = c ? strchr(digits, c) : NULL;
    return found ? (int)(found - digits) : -1;
}

/* The bytes of a hexadecimal text, and their number; -1 if it is none, or has more than `most` bytes. */
static int from_hex(const char *text, uint8_t *bytes, size_t most) {
    size_t n = strlen(text);
    if (n % 2 != 0 || n / 2 > most) return -1;
    for (size_t i = 0; i < n / 2; i++) {
        int high = digit(text[2 * i]), low = digit(text[2 * i + 1]);
        if (high < 0 || low < 0) return -1;
        bytes[i] = (uint8_t)(16 * high + low);
    }
    return (int)(n / 2);
}

static void show_bank(const uint8_t *bank, size_t size) {
    uint8_t tag[TAGCODEC_TEXT_ROOM], raw[TAGCODEC_TEXT_ROOM];
    tagcodec_reply shown = tagcodec_bank_to_text(bank, size, tag, sizeof tag);
    tagcodec_reply line = tagcodec_raw_line(bank, size, raw, sizeof raw);
    tagcodec_shown screen = tagcodec_screen(tag, shown.length, raw, line.length, shown.number);

    printf("%u", (unsigned)shown.number);
    if (shown.number == TAGCODEC_BANK_TOO_SHORT) printf(" at %u bytes", (unsigned)shown.place);
    else if (shown.number != TAGCODEC_ACCEPTED) printf(" at %Xh", (unsigned)shown.place);
    if (screen.length > 0) printf(" %.*s", (int)screen.length, (const char *)(screen.text == TAGCODEC_TAG_TEXT ? tag : raw));
    if (shown.number == TAGCODEC_ACCEPTED) printf(" in %u words", (unsigned)shown.words);
    printf("\n");
}

static void show_text(const char *text, uint32_t words) {
    uint8_t bank[TAGCODEC_BANK_ROOM];
    tagcodec_reply reply = tagcodec_text_to_bank((const uint8_t *)text, strlen(text), words, bank, sizeof bank);

    if (reply.number == TAGCODEC_ACCEPTED) {
        printf("0 ");
        for (size_t i = 0; i < reply.length; i++) printf("%02X", (unsigned)bank[i]);
        printf("\n");
    } else if (reply.number == TAGCODEC_TOO_MANY_WORDS || reply.number == TAGCODEC_TOO_FEW_WORDS) {
        printf("%u at %u words\n", (unsigned)reply.number, (unsigned)words);
    } else {
        show_refused(reply, text);
    }
}

static int bad_input(int argc, char **argv) {
    fprintf(stderr, "decode: a text that begins with urn:, alone or with a word count below 2^32, or an even number of upper-case hex "
                    "digits, at most 128:");
    for (int i = 1; i < argc; i++) fprintf(stderr, " %s", argv[i]);
    fprintf(stderr, "\n");
    return 2;
}

int main(int argc, char **argv) {
    const char *given = argc > 1 ? argv[1] : "30003074257BF7194E4000001A85";
    uint8_t bank[64];
    uint32_t words = 0;
    int size = from_hex(given, bank, sizeof bank), asked = argc == 3 && from_decimal(argv[2], &words);
    if (strncmp(given, "urn:", 4) == 0 && (argc <= 2 || asked)) {
        show_text(given, words);
    } else if (size >= 0 && argc <= 2) {
        show_bank(bank, (size_t)size);
    } else {
        return bad_input(argc, argv);
    }
    return 0;
}
