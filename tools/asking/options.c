/* options: HEX, an option string. */
#include "asking.h"

#include <stdio.h>

void write_options(const witness_options_read *read) {
    write_layout(read->count, read->kinds, read->bytes);
    write_absent_or(" mss=", read->has_mss, read->mss);
    write_absent_or(" wscale=", read->has_wscale, read->wscale);
    printf(" malformed=%u", (unsigned)read->malformed);
}

int answer_options(Line *line) {
    witness_options_read read;
    Bytes options;
    if (!scan_bytes(line, &options) || line->at != line->end) return 0;
    read = witness_options(options.at, options.length);
    if (read.refusal) printf("refused %u", (unsigned)read.refusal);
    else write_options(&read);
    return 1;
}
