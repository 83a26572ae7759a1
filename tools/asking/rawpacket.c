/* rawpacket: PEER HEX, a packet with its peer's MSS; the raw line of what is observed. */
#include "asking.h"

/* The longest raw line has 432 bytes. */
enum { ROOM = 432 };

int answer_rawpacket(Line *line) {
    witness_packet_read read;
    witness_wrote wrote;
    uint32_t peer;
    uint8_t present, *buffer;
    Bytes packet;
    if (!scan_absent_or(line, UINT16_MAX, &present, &peer) || !scan_last_bytes(line, &packet)) return 0;
    read = witness_packet(packet.at, packet.length, (uint16_t)peer, line->mode);
    if (!write_answer(&read)) return 1;
    buffer = lend(ROOM);
    wrote = witness_raw(buffer, ROOM, read.observation);
    if (has_line(buffer, ROOM, &wrote)) write_text(buffer, wrote.length);
    return 1;
}
