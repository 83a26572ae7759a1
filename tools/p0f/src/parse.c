/* The original's reading of signatures in p0f's text form: for each line of standard input what original_parse_signature gives,
   then record and layout entries in hexadecimal. */
#include <stdio.h>
#include <string.h>

#include "original.h"

static void hex(const uint8_t *p, size_t size) {
    size_t i;
    for (i = 0; i < size; i++) printf("%02x", p[i]);
}

int main(void) {
    char line[1000];
    while (fgets(line, sizeof line, stdin)) {
        uint8_t record[24] = {0}, entries[80] = {0};
        int refused = original_parse_signature((const uint8_t *)line, strcspn(line, "\n"), record, entries);
        printf("%d ", refused);
        hex(record, sizeof record);
        printf(" ");
        hex(entries, 2 * (size_t)record[20]);
        printf("\n");
    }
    return 0;
}
