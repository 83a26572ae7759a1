/* line: a signature line, its bytes as text. */
#include "asking.h"

#include <inttypes.h>
#include <stdio.h>

enum { LAYOUT_MOST = 40 };

static void write_record(const witness_line_read *read) {
    size_t i;
    fputs("ok ", stdout);
    for (i = 0; i < sizeof read->raw; i++) printf("%02x", (unsigned)read->raw[i]);
    putchar(' ');
    if (read->count == 0) putchar('-');
    for (i = 0; i < read->count && i < LAYOUT_MOST; i++) printf("%02x%02x", (unsigned)read->kinds[i], (unsigned)read->bytes[i]);
}

int answer_line(Line *line) {
    witness_line_read read;
    Bytes text;
    if (!scan_escaped(line, &text)) return 0;
    read = witness_line(text.at, text.length);
    if (read.refusal) printf("refused %u %" PRIu64, (unsigned)read.refusal, read.offset);
    else write_record(&read);
    return 1;
}
