/* Option strings by every walk: against the model of damage.c, and the laws that bind one walk to another and to the original. */
#include "damage.h"
#include "families.h"
#include "tally.h"
#include "../../witness/witness.h"

enum { STOPS = 4 };

/* The packet walk of the bytes before a place, or of all if there is none. */
static Numbers before(const uint8_t *s, size_t size, int place, int syn) {
    Numbers walk;
    port_walk(s, place < 0 ? size : (size_t)place, WITNESS_NOTHING, syn, &walk);
    return walk;
}

/* No option is both; one that runs past the end is the last. */
static void places_law(const uint8_t *s, size_t size, const Numbers *whole) {
    Numbers expected = *whole;
    int past = (int)whole->n[5] - 65536;
    if (!whole->n[5]) return;
    if (whole->n[5] == whole->n[6]) expected.n[6] = 0;
    expected.n[20] = before(s, size, past, 0).n[20] + 1;
    try_walk(whole, &expected, s, size);
}

/* The original's string reader gives the packet walk of what stands before the first option past the end. */
static void string_law(const uint8_t *s, size_t size, const Numbers *whole, const Numbers *original) {
    Numbers got = before(s, size, whole->n[5] ? (int)(whole->n[5] - 65536) : -1, 0);
    got.n[1] = whole->n[5] != 0;
    got.n[4] = got.n[5] = got.n[6] = 0;
    try_walk(&got, original, s, size);
}

/* The strict walk is the packet walk of what stands before the first damaged option, with OptBad; of a sound string the packet walk. */
static void strict_law(const uint8_t *s, size_t size, const Numbers *whole, const Numbers *strict, int syn) {
    int first = first_damage(whole);
    Numbers expected = before(s, size, first, syn);
    if (first >= 0) {
        expected.n[1] = 1;
        expected.n[4] |= OPT_BAD;
        expected.n[5] = whole->n[5] == 65536u + (unsigned)first ? whole->n[5] : 0;
        expected.n[6] = whole->n[6] == 65536u + (unsigned)first ? whole->n[6] : 0;
    }
    try_walk(strict, &expected, s, size);
}

void try_places(const uint8_t *s, size_t size, const Numbers *original) {
    Numbers walks[STOPS][2], expected;
    int stop, syn;
    for (stop = 0; stop < STOPS; stop++)
        for (syn = 0; syn < 2; syn++) {
            port_walk(s, size, (uint8_t)stop, syn, &walks[stop][syn]);
            model_walk(s, size, (uint8_t)stop, syn, &expected);
            try_walk(&walks[stop][syn], &expected, s, size);
        }
    if (walks[0][0].n[0] != 1) return;
    count_places(&walks[WITNESS_NOTHING][0]);
    places_law(s, size, &walks[WITNESS_NOTHING][0]);
    string_law(s, size, &walks[WITNESS_NOTHING][0], original);
    for (syn = 0; syn < 2; syn++) strict_law(s, size, &walks[WITNESS_NOTHING][syn], &walks[WITNESS_DAMAGE][syn], syn);
}
