#include "say.h"

#include <stdio.h>
#include <stdlib.h>

static unsigned failed;

void say(int holds, const char *what) {
    printf("%s: %s\n", holds ? "ok" : "FAILED", what);
    failed += !holds;
}

unsigned failures(void) { return failed; }

size_t from_hex(const char *text, uint8_t *octets) {
    size_t len = 0;
    char *end;
    for (;;) {
        unsigned long octet = strtoul(text, &end, 16);
        if (end == text) return len;
        octets[len++] = (uint8_t)octet;
        text = end;
    }
}
