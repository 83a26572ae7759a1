/* ttl: a byte, decimal; its entry in the table of all TTL bytes. */
#include "asking.h"

#include <stdio.h>

int answer_ttl(Line *line) {
    witness_ttl_entry entry;
    uint32_t byte;
    if (!scan_number(line, 255, &byte) || line->at != line->end) return 0;
    entry = witness_ttl((uint8_t)byte);
    printf("%u %u", (unsigned)entry.class, (unsigned)entry.guess);
    return 1;
}
