/* What the examples in C have in common: a number that is given in decimal, and a text that is refused. */
#include <stdio.h>
#include <stdlib.h>
#include <string.h>

#include "tagcodec.h"

/* Whether a text is decimal digits whose value 32 bits hold; `value` is then that. */
static int from_decimal(const char *text, uint32_t *value) {
    size_t digits = strspn(text, "0123456789");
    unsigned long long read = strtoull(text, NULL, 10);
    *value = (uint32_t)read;
    return digits > 0 && text[digits] == '\0' && read <= UINT32_MAX;
}

/* The number and the place, then the text, and a mark under the character at the place. */
static void show_refused(tagcodec_reply reply, const char *text) {
    printf("%u at %u\n", (unsigned)reply.number, (unsigned)reply.place);
    for (; *text; text++) putchar(' ' <= *text && *text <= '~' ? *text : '?');
    printf("\n%*s^\n", (int)reply.place, "");
}
