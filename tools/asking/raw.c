/* raw: ROOM OBSERVATION, its raw line into a buffer of so many bytes. */
#include "asking.h"

int answer_raw(Line *line) {
    witness_observation observation;
    witness_wrote wrote;
    uint32_t room;
    uint8_t *buffer;
    if (!scan_number(line, ROOM_MOST, &room) || !scan_text(line, " ") || !scan_observation(line, &observation) || line->at != line->end)
        return 0;
    buffer = lend(room);
    wrote = witness_raw(buffer, room, observation);
    write_wrote(buffer, room, &wrote);
    return 1;
}
