/* How much stack a call takes: the lines of standard input, texts, identities behind a digit and a space, and banks in hexadecimal, and
 * texts of a megabyte go through each call above a stack that is painted beforehand; what is no longer painted was used. A text goes to its
 * smallest bank and to one of 31 words, and the larger figure counts. Fails where a call takes more than BOUND bytes, or more on a megabyte
 * than on the lines. */
#include <pthread.h>
#include <stdio.h>
#include <string.h>

#include "tagcodec.h"

enum { STACK = 1 << 18, DEEP = 1 << 14, OWN = 256, PAINT = 0xA5, BOUND = 8192, LONG = 1000000, LINES = 1 << 22 };

typedef tagcodec_reply call(const uint8_t *, size_t, uint8_t *, size_t);

static uint8_t stack[STACK] __attribute__((aligned(4096))), lines[LINES], text[LONG];

/* The bytes that the call used below this function's frame, and the frame, which takes fewer than OWN. */
static size_t taken(call *volatile function, const uint8_t *input, size_t length) {
    static uint8_t out[TAGCODEC_TEXT_ROOM];
    volatile uint8_t here, *painted = stack;
    size_t top = (size_t)((uintptr_t)&here - (uintptr_t)stack), i;
    for (i = top - DEEP; i < top - OWN; i++) painted[i] = PAINT;
    function(input, length, out, sizeof out);
    for (i = top - DEEP; i < top - OWN && painted[i] == PAINT;) i++;
    return top - i;
}

static size_t most(size_t before, call *function, const uint8_t *input, size_t length) {
    size_t bytes = taken(function, input, length);
    return bytes > before ? bytes : before;
}

static tagcodec_reply to_smallest(const uint8_t *tag, size_t length, uint8_t *out, size_t out_length) {
    return tagcodec_text_to_bank(tag, length, 0, out, out_length);
}

static tagcodec_reply to_longest(const uint8_t *tag, size_t length, uint8_t *out, size_t out_length) {
    return tagcodec_text_to_bank(tag, length, TAGCODEC_MOST_WORDS, out, out_length);
}

static tagcodec_reply to_tag(const uint8_t *identity, size_t length, uint8_t *out, size_t out_length) {
    return tagcodec_identity_to_tag(identity, length, 0, out, out_length);
}

/* The most bytes that each call took. */
typedef struct {
    size_t bank, identity, tag, shown, raw;
} bytes;

static void on_text(bytes *before, const uint8_t *tag, size_t length) {
    before->bank = most(most(before->bank, to_smallest, tag, length), to_longest, tag, length);
    before->identity = most(before->identity, tagcodec_tag_to_identity, tag, length);
    before->tag = most(before->tag, to_tag, tag, length);
}

static void on_bank(bytes *before, const uint8_t *bank, size_t length) {
    before->shown = most(before->shown, tagcodec_bank_to_text, bank, length);
    before->raw = most(before->raw, tagcodec_raw_line, bank, length);
}

/* A bank in hexadecimal, in place; any other line is left as it is. */
static size_t in_bytes(uint8_t *line, size_t length) {
    for (size_t i = 0; i + 1 < length; i += 2) {
        unsigned byte;
        if (sscanf((const char *)line + i, "%2x", &byte) != 1) return length;
        line[i / 2] = (uint8_t)byte;
    }
    return length / 2;
}

static bytes on_a_megabyte(void) {
    static const char *const STRING = "urn:epc:tag:sgtin-198:3.0614141.712345.", *const SERIAL = "urn:epc:tag:sgtin-96:3.0614141.712345.",
                      *const START = "urn:epc:tag:", *const FIELDS = "urn:epc:tag:[umi=1][att=xFF]:sgtin-198:3.0614141.712345.",
                      *const IDENTITY = "urn:epc:id:sgtin:0614141.712345.", *const PART = "urn:epc:id:cpi:0614141.",
                      *const PREFIX = "urn:epc:id:sscc:";
    const struct {
        const char *begun, *repeated;
    } hostile[] = {{STRING, "%2F"}, {STRING, "A"}, {STRING, "%"}, {STRING, "."}, {STRING, "a%22"}, {SERIAL, "9"},
                   {FIELDS, "%2F"}, {START, "[umi=1]"}, {START, "[att=x01]"}, {START, "["}, {IDENTITY, "%2F"}, {IDENTITY, "A"},
                   {IDENTITY, "."}, {IDENTITY, "a%22"}, {IDENTITY, "9"}, {PART, "%2F"}, {PART, "A%23"}, {PART, "9"}, {PREFIX, "9"}};
    bytes found = {0};
    for (size_t i = 0; i < sizeof hostile / sizeof hostile[0]; i++) {
        size_t at = strlen(hostile[i].begun);
        memcpy(text, hostile[i].begun, at);
        for (size_t n = 0; at < LONG; n++) text[at++] = (uint8_t)hostile[i].repeated[n % strlen(hostile[i].repeated)];
        on_text(&found, text, LONG);
    }
    return found;
}

static bytes on_lines(size_t read) {
    bytes found = {0};
    for (size_t at = 0, next; at < read; at = next) {
        const uint8_t *end = memchr(lines + at, '\n', read - at);
        size_t length = (end ? (size_t)(end - lines) : read) - at;
        next = at + length + 1;
        size_t begun = length > 1 && lines[at + 1] == ' ' ? 2 : 0;
        on_text(&found, lines + at + begun, length - begun);
        length = in_bytes(lines + at, length);
        on_bank(&found, lines + at, length);
    }
    return found;
}

static void *measure(void *failed) {
    bytes on = on_lines(fread(lines, 1, LINES, stdin)), hostile = on_a_megabyte();
    printf("stack: text_to_bank %zu bytes, on a megabyte %zu; bank_to_text %zu; raw_line %zu; ", on.bank, hostile.bank, on.shown, on.raw);
    printf("tag_to_identity %zu, %zu; identity_to_tag %zu, %zu\n", on.identity, hostile.identity, on.tag, hostile.tag);
    *(int *)failed = hostile.bank > on.bank || hostile.identity > on.identity || hostile.tag > on.tag || on.bank > BOUND ||
                     on.identity > BOUND || on.tag > BOUND || on.shown > BOUND || on.raw > BOUND;
    return NULL;
}

int main(void) {
    int failed = 2;
    pthread_attr_t attributes;
    pthread_t thread;
    if (pthread_attr_init(&attributes) != 0 || pthread_attr_setstack(&attributes, stack, STACK) != 0) return 2;
    if (pthread_create(&thread, &attributes, measure, &failed) == 0) pthread_join(thread, NULL);
    return failed;
}
