/* The port's reading of signature lines: for each line of standard input its refusal (0 or 13), then the record and layout entries in
   hexadecimal, or the offset. */
#include <inttypes.h>
#include <stdio.h>
#include <string.h>

#include "../../witness/witness.h"

int main(void) {
    static char line[65536];
    while (fgets(line, sizeof line, stdin)) {
        witness_line_read read = witness_line((const uint8_t *)line, strcspn(line, "\n"));
        size_t i;
        printf("%u ", (unsigned)read.refusal);
        if (read.refusal) {
            printf("%" PRIu64 "\n", read.offset);
            continue;
        }
        for (i = 0; i < sizeof read.raw; i++) printf("%02x", (unsigned)read.raw[i]);
        printf(" ");
        for (i = 0; i < read.count && i < sizeof read.kinds; i++) printf("%02x%02x", (unsigned)read.kinds[i], (unsigned)read.bytes[i]);
        printf("\n");
    }
    return 0;
}
