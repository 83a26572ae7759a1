/* The families of inputs. The counts of random inputs are divided by share. */
#ifndef FAMILIES_H
#define FAMILIES_H

#include "numbers.h"

void packet_families(unsigned share);
void option_families(unsigned share);
void search_families(unsigned share);
void pair_families(unsigned share);
void line_families(unsigned share);
void raw_line_families(unsigned share);
void record_line_families(unsigned share);

/* An option string by every walk, beside the original's answer to it (places.c). */
void try_places(const uint8_t *s, size_t size, const Numbers *original);

/* Base lines, from which single bytes and lengths are changed. */
enum { LINES = 10 };
size_t base_line(int i, uint8_t *s);

/* Base packets and base option strings, from which single bytes and lengths are changed. */
enum { BASES = 12, BASE_MOST = 128, STRINGS = 6 };
size_t base_packet(int i, uint8_t *p);
size_t base_string(int i, uint8_t *s);

/* Lists of one record at the boundary of a condition, numbered from 0: an observation, a list and its size. */
int boundaries(void);
size_t boundary(int i, uint8_t *observation, uint8_t *list);

/* Lists of up to ROW_MOST records (rows.c), numbered from 0, shorter ones first: how many there are of at most so many records; one of
   them, as an observation, a list and its size; whether each of its records fits. */
enum { ROW_MOST = 6 };
int rows(int most);
size_t row(int number, uint8_t *observation, uint8_t *list);
int row_fits(int number);

#endif
