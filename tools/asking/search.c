/* search: OBSERVATION | LIST. */
#include "asking.h"

#include <inttypes.h>
#include <stdio.h>

enum { EXACT = 1, FUZZY, NONE, REFUSED = 5 };
enum { BAD_RECORD = 10 };

static void write_reason(const witness_search_read *read) {
    write_absent_or(" hop=", read->far, read->hops);
    printf(" added=0x%08" PRIX32 " missing=0x%08" PRIX32, read->added, read->missing);
}

int answer_search(Line *line) {
    witness_observation observation;
    witness_search_read read;
    Bytes list;
    if (!scan_observation(line, &observation) || !scan_text(line, " |") || !scan_last_bytes(line, &list)) return 0;
    read = witness_search(observation, list.at, list.length);
    switch (read.outcome) {
    case EXACT: printf("exact %u at=%u", (unsigned)read.label, (unsigned)read.number); break;
    case FUZZY:
        printf("fuzzy %u at=%u", (unsigned)read.label, (unsigned)read.number);
        write_reason(&read);
        break;
    case NONE: fputs("none", stdout); break;
    case REFUSED:
        printf("refused %u", (unsigned)read.refusal);
        if (read.refusal == BAD_RECORD) printf(" %" PRIu32, read.bad_record);
        return 1;
    default: printf("unknown answer %u", (unsigned)read.outcome); return 1;
    }
    printf(" count=%u", (unsigned)read.examined);
    return 1;
}
