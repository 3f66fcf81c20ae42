/* The text of a tag, or an identity and the filter that its tag is to have:
 * `identify urn:epc:tag:gid-96:1.2.3`, `identify urn:epc:id:sscc:0614141.1234567890 3`.
 * Prints the number of the first broken rule, 0 for none. With 0: the identity of the tag, or the text of the tag. With another: for a tag
 * the place, the text, and a mark under the character at the place; for an identity, whose refusals have no place, nothing more. */
#include "shown.h"

static void show_written(const uint8_t *out, size_t length) {
    printf("0 %.*s\n", (int)length, (const char *)out);
}

static void show_tag(const char *text) {
    uint8_t identity[TAGCODEC_TEXT_ROOM];
    tagcodec_reply reply = tagcodec_tag_to_identity((const uint8_t *)text, strlen(text), identity, sizeof identity);

    if (reply.number == TAGCODEC_ACCEPTED) show_written(identity, reply.length);
    else show_refused(reply, text);
}

static void show_identity(const char *text, uint32_t filter) {
    uint8_t tag[TAGCODEC_TEXT_ROOM];
    tagcodec_reply reply = tagcodec_identity_to_tag((const uint8_t *)text, strlen(text), filter, tag, sizeof tag);

    if (reply.number == TAGCODEC_ACCEPTED) show_written(tag, reply.length);
    else printf("%u\n", (unsigned)reply.number);
}

static int bad_input(int argc, char **argv) {
    fprintf(stderr, "identify: the text of a tag, or an identity and a filter below 2^32; either begins with urn:");
    for (int i = 1; i < argc; i++) fprintf(stderr, " %s", argv[i]);
    fprintf(stderr, "\n");
    return 2;
}

int main(int argc, char **argv) {
    uint32_t filter;
    if (argc < 2 || strncmp(argv[1], "urn:", 4) != 0) return bad_input(argc, argv);
    if (argc == 2) {
        show_tag(argv[1]);
    } else if (argc == 3 && from_decimal(argv[2], &filter)) {
        show_identity(argv[1], filter);
    } else {
        return bad_input(argc, argv);
    }
    return 0;
}
