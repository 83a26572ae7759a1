/* record: LIST INDEX ROOM, the line of a list's record into a buffer of so many bytes. */
#include "asking.h"

int answer_record(Line *line) {
    witness_wrote wrote;
    uint64_t index;
    uint32_t room;
    uint8_t *buffer;
    Bytes list;
    if (!scan_bytes(line, &list) || !scan_text(line, " ") || !scan_long_number(line, UINT64_MAX, &index) || !scan_text(line, " ") ||
        !scan_number(line, ROOM_MOST, &room) || line->at != line->end)
        return 0;
    buffer = lend(room);
    wrote = witness_record(buffer, room, list.at, list.length, index);
    write_wrote(buffer, room, &wrote);
    return 1;
}
