/* A grammar given as text, and where a string leaves it. */
#ifndef GRAMMAR_H
#define GRAMMAR_H

#include <stddef.h>
#include <stdint.h>

typedef struct Grammar Grammar;

/* A rule is a line `name = alternative | ..`; the first one is the language. An alternative is a row of "text", a name of a rule, M..N
   (the decimal digits of each of these numbers), ( .. ), { .. } any number of times, { .. }N at most N times. */
Grammar *grammar_of(const char *rules);

/* SIZE_MAX if the string is in the language; else the least i whose first i + 1 bytes do not begin any string of the language, or the
   string's length if it goes on. */
size_t grammar_refuses(Grammar *g, const uint8_t *s, size_t size);

#endif
