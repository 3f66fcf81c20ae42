/* The calls on identities from C: an identity of every family both ways, the scheme that is chosen, the number and place of every refusal,
 * each output byte, and the lengths and pointers at the edge. */
#include "expect.h"

static tagcodec_reply to_identity(const char *t) {
    return tagcodec_tag_to_identity((const uint8_t *)t, strlen(t), fresh(), TAGCODEC_TEXT_ROOM);
}

static tagcodec_reply to_tag(const char *t, uint32_t filter) {
    return tagcodec_identity_to_tag((const uint8_t *)t, strlen(t), filter, fresh(), TAGCODEC_TEXT_ROOM);
}

static void identity(const char *tag, const char *expected) {
    gives(to_identity(tag), accepted(0, strlen(expected)), expected, tag);
}

static void tag(const char *given, uint32_t filter, const char *expected) {
    gives(to_tag(given, filter), accepted(0, strlen(expected)), expected, given);
}

static void both(const char *text, uint32_t filter, const char *pure) {
    identity(text, pure);
    tag(pure, filter, text);
}

static void tag_refused(const char *t, uint32_t number, uint32_t offset) {
    gives(to_identity(t), refused(number, offset), "", t);
}

static void identity_refused(const char *t, uint32_t filter, uint32_t number) {
    gives(to_tag(t, filter), refused(number, 0), "", t);
}

/* The standard's annex, an example of each scheme but gdti-113. */
static void every_scheme(void) {
    both("urn:epc:tag:sgtin-96:3.95060001343.05.123456789", 3, "urn:epc:id:sgtin:95060001343.05.123456789");
    both("urn:epc:tag:sgtin-198:3.95060001343.05.32a%2Fb", 3, "urn:epc:id:sgtin:95060001343.05.32a%2Fb");
    both("urn:epc:tag:sscc-96:0.952012.03456789123", 0, "urn:epc:id:sscc:952012.03456789123");
    both("urn:epc:tag:sgln-96:3.9521141.12345.5678", 3, "urn:epc:id:sgln:9521141.12345.5678");
    both("urn:epc:tag:sgln-195:3.9521141.12345.32a%2Fb", 3, "urn:epc:id:sgln:9521141.12345.32a%2Fb");
    both("urn:epc:tag:grai-96:3.9521141.12345.5678", 3, "urn:epc:id:grai:9521141.12345.5678");
    both("urn:epc:tag:grai-170:3.9521141.12345.32a%2Fb", 3, "urn:epc:id:grai:9521141.12345.32a%2Fb");
    both("urn:epc:tag:giai-96:3.9521141.5678", 3, "urn:epc:id:giai:9521141.5678");
    both("urn:epc:tag:gsrn-96:3.9521141.1234567890", 3, "urn:epc:id:gsrn:9521141.1234567890");
    both("urn:epc:tag:gsrnp-96:3.9521141.1234567890", 3, "urn:epc:id:gsrnp:9521141.1234567890");
    both("urn:epc:tag:gdti-96:3.9521141.12345.5678", 3, "urn:epc:id:gdti:9521141.12345.5678");
    both("urn:epc:tag:gdti-174:3.9521141.98765.ABCDefgh012345678", 3, "urn:epc:id:gdti:9521141.98765.ABCDefgh012345678");
    both("urn:epc:tag:cpi-96:3.9521141.98765.12345", 3, "urn:epc:id:cpi:9521141.98765.12345");
    both("urn:epc:tag:sgcn-96:3.9521141.67890.04711", 3, "urn:epc:id:sgcn:9521141.67890.04711");
    both("urn:epc:tag:gid-96:952056.2718.1414", 0, "urn:epc:id:gid:952056.2718.1414");
}

/* The short scheme up to its limit, gdti-113 never, an empty reference; the longest texts; control fields left out. */
static void chosen(void) {
    both("urn:epc:tag:sgtin-96:7.0614141.812345.274877906943", 7, "urn:epc:id:sgtin:0614141.812345.274877906943");
    both("urn:epc:tag:sgtin-198:7.0614141.812345.274877906944", 7, "urn:epc:id:sgtin:0614141.812345.274877906944");
    both("urn:epc:tag:sgtin-198:7.0614141.812345.007", 7, "urn:epc:id:sgtin:0614141.812345.007");
    both("urn:epc:tag:gdti-174:1.9521141.12345.006847", 1, "urn:epc:id:gdti:9521141.12345.006847");
    both("urn:epc:tag:sgln-96:0.952656789012..0", 0, "urn:epc:id:sgln:952656789012..0");
    identity("urn:epc:tag:gdti-113:3.9521141.12345.006847", "urn:epc:id:gdti:9521141.12345.006847");
    identity("urn:epc:tag:grai-170:3.9521141.12345.5678", "urn:epc:id:grai:9521141.12345.5678");
    both("urn:epc:tag:sgtin-198:0.0614141.812345.%2F%2F%2F%2F%2F%2F%2F%2F%2F%2F%2F%2F%2F%2F%2F%2F%2F%2F%2F%2F", 0,
         "urn:epc:id:sgtin:0614141.812345.%2F%2F%2F%2F%2F%2F%2F%2F%2F%2F%2F%2F%2F%2F%2F%2F%2F%2F%2F%2F");
    identity("urn:epc:tag:[umi=1]:gid-96:1.2.3", "urn:epc:id:gid:1.2.3");
    identity("urn:epc:tag:[umi=1][att=xFF]:sgtin-96:3.0614141.812345.6789", "urn:epc:id:sgtin:0614141.812345.6789");
}

/* A text's own numbers and places. */
static void tags_refused(void) {
    tag_refused("", 2, 0);
    tag_refused("urn:epc:id:gid:1.2.3", 2, 0);
    tag_refused("urn:epc:tag:[umi=1]gid-96:1.2.3", 20, 19);
    tag_refused("urn:epc:tag:[att=x01][umi=1]:gid-96:1.2.3", 20, 21);
    tag_refused("urn:epc:tag:gid-95:1.2.3", 3, 12);
    tag_refused("urn:epc:tag:[umi=1]:gid-95:1.2.3", 3, 20);
    tag_refused("urn:epc:tag:sgtin-96:8.0614141.812345.6789", 4, 21);
    tag_refused("urn:epc:tag:sgtin-96:3.06141.0.1", 5, 23);
    tag_refused("urn:epc:tag:grai-96:3.0614141.1234.5678", 6, 30);
    tag_refused("urn:epc:tag:sgtin-96:3.0614141.812345.007", 7, 38);
    tag_refused("urn:epc:tag:sgtin-96:3.0614141.812345.274877906944", 8, 38);
}

/* 23 before 24 before 25; each with the filter of the one after it wrong too. */
static void identities_refused(void) {
    const char *const no_identity[] = {"", "urn:epc:id:", "urn:epc:id:sgtin", "urn:epc:tag:gid-96:1.2.3", " urn:epc:id:gid:1.2.3",
        "urn:epc:id:itip:9521141.012345.01.02.981", "urn:epc:id:sgtin:0614141.81234.6789", "urn:epc:id:sgtin:0614141.812345.a%2fb",
        "urn:epc:id:sgtin:1234567890123..1", "urn:epc:id:sgcn:4012345.67890.0000000000000", "urn:epc:id:cpi:0614141.a.1",
        "urn:epc:id:cpi:0614141.%2f.1", "urn:epc:id:cpi:0614141.1.01", "urn:epc:id:gid:1.2.03", "urn:epc:id:sscc:0614141.1234567890."};
    const char *const no_scheme[] = {"urn:epc:id:sgtin:12345.12345678.1", "urn:epc:id:sgtin:0614141.812345.aaaaaaaaaaaaaaaaaaaaa",
        "urn:epc:id:giai:9521141.32a%2Fb", "urn:epc:id:giai:952656789012.345678901234567890", "urn:epc:id:giai:9521141.007",
        "urn:epc:id:cpi:9521141.5PQ7%2FZ43.12345", "urn:epc:id:cpi:0614141.01.1", "urn:epc:id:cpi:0614141.1.2147483648",
        "urn:epc:id:sscc:1234567890123.4567", "urn:epc:id:gid:268435456.0.0"};
    for (size_t i = 0; i < sizeof no_identity / sizeof no_identity[0]; i++) {
        identity_refused(no_identity[i], 0, 23);
        identity_refused(no_identity[i], 9, 23);
    }
    for (size_t i = 0; i < sizeof no_scheme / sizeof no_scheme[0]; i++) {
        identity_refused(no_scheme[i], 0, 25);
        identity_refused(no_scheme[i], 9, 24);
    }
}

/* 24 above 7, whatever the filter would be in fewer bits; for gid above 0. */
static void filters(void) {
    const char *sscc = "urn:epc:id:sscc:0614141.1234567890", *gid = "urn:epc:id:gid:1.2.3";
    const uint32_t wrong_filters[] = {8, 9, 16, 255, 256, 256 + 3, 65536, UINT32_MAX - 7, UINT32_MAX};
    for (uint32_t filter = 0; filter <= 7; filter++) {
        char expected[] = "urn:epc:tag:sscc-96:0.0614141.1234567890";
        expected[20] = (char)('0' + filter);
        tag(sscc, filter, expected);
        if (filter > 0) identity_refused(gid, filter, 24);
    }
    for (size_t i = 0; i < sizeof wrong_filters / sizeof wrong_filters[0]; i++) {
        identity_refused(sscc, wrong_filters[i], 24);
        identity_refused(gid, wrong_filters[i], 24);
    }
}

/* 1 before all; no pointer; more output than must be, of which no more is written. */
static void edges(void) {
    const char *t = "urn:epc:tag:gid-96:0.0.0", *pure = "urn:epc:id:gid:0.0.0";
    uint8_t *nowhere = NULL;
    gives(tagcodec_tag_to_identity(nowhere, 0, fresh(), 160), refused(2, 0), "", "no text");
    gives(tagcodec_identity_to_tag(nowhere, 0, 0, fresh(), 160), refused(23, 0), "", "no identity");
    gives(tagcodec_tag_to_identity(nowhere, 0, nowhere, 0), refused(1, 0), "", "no text and no output");
    gives(tagcodec_identity_to_tag(nowhere, 0, 9, nowhere, 0), refused(1, 0), "", "no identity and no output");
    gives(tagcodec_tag_to_identity((const uint8_t *)t, strlen(t), fresh(), 159), refused(1, 0), "", "159 bytes for an identity");
    gives(tagcodec_identity_to_tag((const uint8_t *)pure, strlen(pure), 0, fresh(), 159), refused(1, 0), "", "159 bytes for a tag");
    gives(tagcodec_tag_to_identity((const uint8_t *)t, strlen(t), fresh(), sizeof out), accepted(0, strlen(pure)), pure, t);
    gives(tagcodec_identity_to_tag((const uint8_t *)pure, strlen(pure), 0, fresh(), sizeof out), accepted(0, strlen(t)), t, pure);
}

int main(void) {
    every_scheme();
    chosen();
    tags_refused();
    identities_refused();
    filters();
    edges();
    return told();
}
