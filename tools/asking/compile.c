/* compile: a keeper's file, its bytes. The list that it says, or the refusal's number, line and offset; by the library that ships. */
#include "asking.h"
#include "termread.h"

#include <inttypes.h>
#include <stdio.h>

int answer_compile(Line *line) {
    termread_compiled compiled;
    witness_wrote wrote = {0};
    uint8_t *buffer;
    Bytes file;
    size_t room, i;
    if (!scan_bytes(line, &file) || line->at != line->end) return 0;
    /* A signature line has at least 17 bytes, an entry of a layout at least two more: no list needs twice the bytes of its file, and 8. */
    room = 8 + 2 * file.length;
    if (room > TERMREAD_LIST_MOST) room = TERMREAD_LIST_MOST;
    buffer = lend(room);
    compiled = termread_compile_list(buffer, room, file.at, file.length);
    wrote.length = compiled.length;
    wrote.refusal = (uint8_t)compiled.refusal;
    if (!has_line(buffer, room, &wrote)) {
        if (wrote.refusal) printf(" %" PRIu32 " %" PRIu32, compiled.line, compiled.offset);
        return 1;
    }
    fputs("ok ", stdout);
    for (i = 0; i < compiled.length; i++) printf("%02x", (unsigned)buffer[i]);
    return 1;
}
