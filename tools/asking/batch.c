/* batch: BUNDLE. The lines of the program `termread`, in the mode that is asked for, with ';' between them. */
#include "asking.h"

#include <stdio.h>

enum { PAGE = 4096 };

/* Writes a page with ';' for each newline but the last of all, which `ended` holds back until something follows. */
static void write_page(const uint8_t *page, size_t filled, int *ended) {
    size_t i;
    for (i = 0; i < filled && i < PAGE; i++) {
        if (*ended) putchar(';');
        *ended = page[i] == '\n';
        if (!*ended) putchar(page[i]);
    }
}

int answer_batch(Line *line) {
    uint8_t page[PAGE];
    witness_progress progress;
    Bytes bundle;
    int ended = 0;
    if (!scan_bytes(line, &bundle) || line->at != line->end) return 0;
    progress = witness_first_page(bundle.at, bundle.length, page, line->mode);
    write_page(page, progress.filled, &ended);
    while (progress.left > 0) {
        progress = witness_next_page(bundle.at, bundle.length, progress, page, line->mode);
        write_page(page, progress.filled, &ended);
    }
    return 1;
}
