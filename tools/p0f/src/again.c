/* Lines read and written again: for each line of standard input the line of the record that is read of it, or `refused` and its number. */
#include <stdio.h>
#include <string.h>

#include "../../witness/witness.h"

enum { RECORD = 24, HEADER = 8 };

/* The signature list of the one record that was read. */
static size_t list_of(const witness_line_read *read, uint8_t *list) {
    const uint8_t header[HEADER] = {0, 1, 0, HEADER, 0, (uint8_t)read->count, 0, HEADER + RECORD};
    size_t i;
    memcpy(list, header, HEADER);
    memcpy(list + HEADER, read->raw, RECORD);
    for (i = 0; i < read->count; i++) {
        list[HEADER + RECORD + 2 * i] = read->kinds[i];
        list[HEADER + RECORD + 2 * i + 1] = read->bytes[i];
    }
    return HEADER + RECORD + 2 * read->count;
}

int main(void) {
    static char line[65536];
    while (fgets(line, sizeof line, stdin)) {
        uint8_t list[HEADER + RECORD + 80], text[512];
        witness_line_read read = witness_line((const uint8_t *)line, strcspn(line, "\n"));
        witness_wrote wrote = {0};
        if (!read.refusal) wrote = witness_record(text, sizeof text, list, list_of(&read, list), 0);
        if (read.refusal || wrote.refusal) printf("refused %u\n", (unsigned)(read.refusal ? read.refusal : wrote.refusal));
        else printf("%.*s\n", (int)wrote.length, (const char *)text);
    }
    return 0;
}
