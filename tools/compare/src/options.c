/* The families of option strings. */
#include "families.h"
#include "make.h"
#include "tally.h"

#include <string.h>

/* By itself and by every walk. */
static void try_string(const uint8_t *s, size_t size) {
    Numbers original = try_options(s, size);
    try_places(s, size, &original);
}

static void all_strings(const uint8_t *letters, unsigned n, unsigned most) {
    uint8_t s[8];
    unsigned size, i, number, all = 1, rest;
    for (size = 0; size <= most; size++, all *= n)
        for (number = 0; number < all; number++) {
            for (rest = number, i = 0; i < size; i++, rest /= n) s[i] = letters[rest % n];
            try_string(s, size);
        }
}

static void every_byte(void) {
    uint8_t s[48] = {0};
    int base, value;
    size_t size, i;
    family("every value of every byte, and every length, of 6 base strings", OPTIONS);
    for (base = 0; base < STRINGS; base++) {
        size = base_string(base, s);
        for (i = 0; i <= 48; i++) try_string(s, i);
        for (i = 0; i < size; i++) {
            uint8_t kept = s[i];
            for (value = 0; value < 256; value++) s[i] = (uint8_t)value, try_string(s, size);
            s[i] = kept;
        }
    }
}

void option_families(unsigned share) {
    static const uint8_t ten[10] = {0, 1, 2, 3, 4, 5, 8, 10, 15, 255}, six[6] = {0, 1, 2, 3, 4, 8};
    uint8_t s[64];
    Random r = {3};
    unsigned i;
    family("every option string of up to 6 of 10 letters", OPTIONS);
    all_strings(ten, 10, 6);
    family("every option string of up to 8 of 6 letters", OPTIONS);
    all_strings(six, 6, 8);
    every_byte();
    family("random option strings", OPTIONS);
    for (i = 0; i < 2000000 / share; i++) {
        size_t size = make_options(&r, s), k;
        if (chance(&r, 3))
            for (size = below(&r, 64), k = 0; k < size; k++) s[k] = byte_of(&r);
        try_string(s, size);
    }
}
