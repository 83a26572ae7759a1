/* What a signature line says, written in C from the grammar's text alone; and where the original reads otherwise. */
#ifndef LINETEXT_H
#define LINETEXT_H

#include <stddef.h>
#include <stdint.h>

enum { LINE_LONGEST = 512, LINE_MOST = 4096, LINE_ENTRIES = 2048, LAYOUT_ENTRIES = 40 };

typedef struct {
    int read;         /* 0: refused */
    size_t offset;    /* of a refusal */
    size_t count;     /* entries of the layout */
    uint8_t record[24];
    uint8_t kinds[LINE_ENTRIES], bytes[LINE_ENTRIES], named[LINE_ENTRIES]; /* named: `?n` of a kind that has a name */
} LineText;

/* By the grammar, with refusal 13 and its offset. */
void line_by_grammar(const uint8_t *s, size_t size, LineText *line);

/* By the grammar as the original has it, five things changed; its refusals have no offset. */
void line_by_original(const uint8_t *s, size_t size, LineText *line);

/* How the original's answer may differ. */
typedef enum {
    ALIKE,
    EMPTY_LAYOUT,
    NAMED_KIND,
    KIND_OVER_255,
    OVER_40_ENTRIES,
    OVER_512_BYTES,
    NOT_UTF8,
    OTHERWISE,
    LINE_CLASSES
} LineClass;

/* The class of a line, by its text and what the two readings say of it; where there are several causes, by the first one in the line. */
LineClass class_of_line(const uint8_t *s, size_t size, const LineText *here, const LineText *there);

#endif
