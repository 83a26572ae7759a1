/* What the commands of tools/ask share: reading a line, writing its answer. */
#ifndef ASKING_H
#define ASKING_H

#include "witness.h"

/* What is left to be read of a line, without its newline, and the mode that was asked for, in the bits of witness.h. */
typedef struct {
    const char *at;
    const char *end;
    uint8_t mode;
} Line;

/* The bytes that a line gives; they hold until the next ones are read. */
typedef struct {
    const uint8_t *at;
    size_t length;
} Bytes;

/* So many bytes are taken at most. */
enum { BYTES_MOST = 1024 * 1024 * 1024 };

/* A command answers a line on standard output, without the newline: 1. If the line is not of its form it writes nothing: 0. */
#define COMMAND(name, modes) int answer_##name(Line *line);
#include "commands.h"
#undef COMMAND

/* Each of these steps past what it names and gives 1, or gives 0 if something else stands there. */
int scan_text(Line *line, const char *text);
int scan_number(Line *line, uint32_t most, uint32_t *number);
int scan_long_number(Line *line, uint64_t most, uint64_t *number);
int scan_absent_or(Line *line, uint32_t most, uint8_t *present, uint32_t *number);
int scan_quirks(Line *line, uint32_t *quirks);
int scan_bytes(Line *line, Bytes *bytes);
int scan_last_bytes(Line *line, Bytes *bytes);
int scan_escaped(Line *line, Bytes *bytes);
int scan_observation(Line *line, witness_observation *observation);

/* A buffer to be written into, of a pattern; it holds until the next one is lent. So many bytes are lent at most for a line. */
enum { ROOM_MOST = 1000000 };
uint8_t *lend(size_t room);

/* Whether a line was written into a lent buffer; else 'refused N' is written, or 'touched' if a byte that is not of the line changed. */
int has_line(const uint8_t *buffer, size_t room, const witness_wrote *wrote);

/* 'syn ', 'synack ', 'nothing' or 'refused N' of a packet; whether an observation is to follow. */
int write_answer(const witness_packet_read *read);

/* The bytes of a text, in the form that `scan_escaped` reads; and what writing a line answered, with it. */
void write_text(const uint8_t *bytes, size_t length);
void write_wrote(const uint8_t *buffer, size_t room, const witness_wrote *wrote);

void write_absent_or(const char *name, int present, uint32_t number);
void write_layout(uint64_t count, const uint8_t *kinds, const uint8_t *bytes);
void write_options(const witness_options_read *read);
void write_observation(const witness_observation *observation);

#endif
