/* Damaged options, by a model of its own (damage.c). */
#ifndef DAMAGE_H
#define DAMAGE_H

#include "numbers.h"

enum { OPT_BAD = 1 << 28 };

/* A walk over an option string, in the numbering of numbers.h; stop as for witness_walk. */
void model_walk(const uint8_t *s, size_t size, uint8_t stop, int syn, Numbers *out);

/* The first place of damage that a walk came to, -1 if there is none. */
int first_damage(const Numbers *walk);

/* The option string of a packet that has a whole TCP header, and its length. */
size_t packet_options(const uint8_t *p, size_t size, const uint8_t **options);

/* Puts no-ops in the place of a packet's first damaged option and of all options behind it, and gives how many; 0 if none is damaged. The
   strict answer to the damaged packet is the plain one to this, without these entries and with OptBad: what remains of the options is the
   same, and lengths and the rest of the packet are. */
int made_sound(uint8_t *p, size_t size);
void take_filling(Numbers *answer, int filling);

#endif
