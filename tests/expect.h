/* What tests/calls.c and tests/identity_calls.c expect of a call: its reply, and each byte of an output that goes on behind what is lent. */
#include <stdio.h>
#include <string.h>

#include "tagcodec.h"

enum { TOLD = 40 };
static int compared, wrong;

/* Tells the first that are wrong; the last line says how many are. */
static void expect(int right, const char *what, const char *of) {
    compared++;
    if (right) return;
    if (wrong++ < TOLD) printf("wrong: %s: %s\n", what, of);
}

enum { UNTOUCHED = 0xA5 };
static uint8_t out[2 * TAGCODEC_TEXT_ROOM];

/* The output before a call; it goes on behind what is lent of it. */
static uint8_t *fresh(void) {
    return memset(out, UNTOUCHED, sizeof out);
}

static tagcodec_reply accepted(uint32_t words, size_t length) {
    return (tagcodec_reply){.words = (uint16_t)words, .length = length};
}

static tagcodec_reply refused(uint32_t number, uint32_t place) {
    return (tagcodec_reply){.number = number, .place = (uint16_t)place};
}

/* The call gave this reply, and exactly these bytes before others that are unchanged. */
static void gives(tagcodec_reply given, tagcodec_reply expected, const void *bytes, const char *of) {
    uint8_t untouched[sizeof out];
    memset(untouched, UNTOUCHED, sizeof untouched);
    expect(given.number == expected.number, "number", of);
    expect(given.place == expected.place, "place", of);
    expect(given.words == expected.words, "words", of);
    expect(given.length == expected.length, "length", of);
    expect(memcmp(out, bytes, expected.length) == 0, "bytes", of);
    expect(memcmp(out + expected.length, untouched, sizeof out - expected.length) == 0, "bytes past the length", of);
}

/* Says how many are wrong; the exit status. */
static int told(void) {
    printf("%d compared, %d wrong\n", compared, wrong);
    return wrong != 0;
}
