/* observe: PEER HEX, a packet with its peer's MSS. */
#include "asking.h"

#include <stdio.h>

enum { SYN = 1, SYN_ACK, NOTHING, REFUSED };
enum { INVALID_FLAGS = 7 };

int write_answer(const witness_packet_read *read) {
    switch (read->answer) {
    case SYN: fputs("syn ", stdout); return 1;
    case SYN_ACK: fputs("synack ", stdout); return 1;
    case NOTHING: fputs("nothing", stdout); return 0;
    case REFUSED: printf("refused %u", (unsigned)read->refusal); return 0;
    default: printf("unknown answer %u", (unsigned)read->answer); return 0;
    }
}

int answer_observe(Line *line) {
    witness_packet_read read;
    uint32_t peer;
    uint8_t present;
    Bytes packet;
    if (!scan_absent_or(line, UINT16_MAX, &present, &peer) || !scan_last_bytes(line, &packet)) return 0;
    read = witness_packet(packet.at, packet.length, (uint16_t)peer, line->mode);
    if (write_answer(&read)) write_observation(&read.observation);
    if (read.answer == REFUSED && read.refusal == INVALID_FLAGS) printf(" 0x%02X", (unsigned)read.flags);
    return 1;
}
