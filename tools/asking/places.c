/* places: HEX, an option string; where it is damaged, and what each of the three readers makes of it. */
#include "asking.h"

#include <inttypes.h>
#include <stdio.h>

/* What a walk says, with the quirks of a SYN and of a SYN+ACK: nothing else of it hangs on which of them it is. */
static void write_walk(const char *name, const witness_walk_read *syn, const witness_walk_read *syn_ack) {
    printf(" | %s ", name);
    write_layout(syn->count, syn->kinds, syn->bytes);
    write_absent_or(" mss=", syn->has_mss, syn->mss);
    write_absent_or(" wscale=", syn->has_wscale, syn->wscale);
    printf(" syn=0x%08" PRIX32 " synack=0x%08" PRIX32, syn->quirks, syn_ack->quirks);
}

int answer_places(Line *line) {
    witness_walk_read packet[2], strict[2];
    witness_options_read string;
    Bytes options;
    int i;
    if (!scan_bytes(line, &options) || line->at != line->end) return 0;
    string = witness_options(options.at, options.length);
    for (i = 0; i < 2; i++) {
        packet[i] = witness_walk(options.at, options.length, WITNESS_NOTHING, i == 0);
        strict[i] = witness_walk(options.at, options.length, WITNESS_DAMAGE, i == 0);
    }
    if (packet->refusal) {
        printf("refused %u", (unsigned)packet->refusal);
        return 1;
    }
    write_absent_or("past=", packet->has_past, (uint32_t)packet->past_at);
    write_absent_or(" short=", packet->has_short, (uint32_t)packet->short_at);
    write_walk("packet", &packet[0], &packet[1]);
    fputs(" | string ", stdout);
    write_options(&string);
    write_walk("strict", &strict[0], &strict[1]);
    return 1;
}
