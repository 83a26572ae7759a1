/* The terminal reader, for C: a terminal's operating system from the first TCP packets, and how sure the answer is.

   Link target/staticlib/libgateway.a (x86-64; `rt staticlib gateway` proves and writes it). Of a C library it needs memcpy
   alone. It allocates nothing, keeps nothing between calls and only reads what it is lent, but for the buffer of a line or a list, so that
   any number of threads may call it.

   Nothing checks this file against the source: tools/link_examples compares what C and Rust programs get through it with what the
   program `termread` prints, in strict mode with what tools/ask answers, and the list of a keeper's file with that of tests/keeper.py. What
   the functions promise is in crates/gateway/src/lib.rt, crates/gateway/specs/Parts.antt, of lines in crates/gateway/specs/Lines.antt, of a
   keeper's file in crates/keeper_file/specs/CompileAnswers.antt. */
#ifndef TERMREAD_H
#define TERMREAD_H

#include <stddef.h>
#include <stdint.h>

#ifdef __cplusplus
extern "C" {
#endif

/* ---- an answer

   Sixteen bytes, which come back in two registers. The outcome alone tells exact, fuzzy and none apart. No two different answers are
   alike in all fields; of a line the struct says how long it is, the buffer which it is. A field that an answer does not have is 0;
   `tolerated` and the bits of `marks` that are not named, or named as kept, are 0 in every answer, and kept for what is to come. */
typedef struct termread_result {
    uint8_t outcome;   /* one of the outcomes */
    uint8_t kind;      /* of exact, fuzzy, none and a packet's line: TERMREAD_SYN or TERMREAD_SYNACK */
    uint8_t refusal;   /* of refused: its number */
    uint8_t tolerated; /* kept for what was tolerated of a fit: 0 */
    uint16_t label;    /* of exact and fuzzy: the label of the record */
    uint16_t number;   /* of exact and fuzzy: which record of the list it is, from 0 */
    uint16_t examined; /* of exact, fuzzy and none: how many records the search examined. Of exact by a specific record, which ends the
                          search: its position, from 1; else the size of the list */
    uint16_t value;    /* of refusal 7: the flags byte; of refusal 10: the index of the first bad record, from 0; of a line: how many
                          bytes it has */
    uint8_t added;     /* of fuzzy: quirks that the packet shows and the record does not */
    uint8_t missing;   /* of fuzzy: quirks of the record that the packet does not show */
    uint8_t hops;      /* of fuzzy, if the TTL is out of the record's range: the hop distance */
    uint8_t marks;     /* of exact and fuzzy: TERMREAD_GENERIC; of fuzzy: TERMREAD_OUT_OF_RANGE */
} termread_result;

/* The fields add up to sixteen bytes, so that there is nothing between them. */
typedef char termread_result_has_sixteen_bytes[sizeof(termread_result) == 16 ? 1 : -1];

/* Outcomes. */
enum {
    TERMREAD_GOOD = 0,    /* of termread_check_list alone: the list is well formed */
    TERMREAD_EXACT = 1,   /* a record fits, and nothing was tolerated; TERMREAD_GENERIC in `marks` says whether it is generic */
    TERMREAD_FUZZY = 2,   /* a record fits, but for what `added`, `missing` and `hops` name; never to be stored as exact */
    TERMREAD_NONE = 3,    /* no record of the list fits */
    TERMREAD_NOTHING = 4, /* a good packet that is neither SYN nor SYN+ACK */
    TERMREAD_REFUSED = 5, /* see `refusal` */
    TERMREAD_LINE = 6     /* of the functions that write a line: it stands in the buffer, from its start, `value` bytes of it */
};

/* Kinds, of an exact, fuzzy or none, and of a packet's line. */
enum {
    TERMREAD_SYN = 1,
    TERMREAD_SYNACK = 2
};

/* Refusals, by the numbers of documents 01 and 02, whose tests come in the order 1 to 6, 14, 7. 8, 11 and 12 are met by option strings,
   observations and bundles only. 13, 24 and 25 are met by keeper's files only; the last two are numbers of our own. */
enum {
    TERMREAD_REFUSED_VERSION = 1,         /* empty, or neither IPv4 nor IPv6 */
    TERMREAD_REFUSED_TOO_SHORT = 2,       /* under 20 bytes (IPv4) or 40 (IPv6) */
    TERMREAD_REFUSED_HEADER_LENGTH = 3,   /* IPv4 header length under 5 words */
    TERMREAD_REFUSED_PROTOCOL = 4,        /* protocol or next header is not TCP */
    TERMREAD_REFUSED_FRAGMENT = 5,        /* an IPv4 fragment */
    TERMREAD_REFUSED_TCP_TOO_SHORT = 6,   /* TCP part under 20 bytes */
    TERMREAD_REFUSED_FLAGS = 7,           /* TCP flags that do not go together; the value is the flags byte */
    TERMREAD_REFUSED_LIST = 9,            /* the list's header or its areas do not fit */
    TERMREAD_REFUSED_RECORD = 10,         /* a record of the list is bad; the value is the index of the first, from 0 */
    TERMREAD_REFUSED_BUNDLE = 12,         /* of a bundle, which the caller reads itself: it does not fit */
    TERMREAD_REFUSED_LINE = 13,           /* of a keeper's file: a line that is neither passed over nor a signature */
    TERMREAD_REFUSED_DATA_OFFSET = 14,    /* strict only: TCP data offset under 5, or 4 times it past the end of the TCP part */
    TERMREAD_REFUSED_BUFFER = 15,         /* of a line, or of the list of a keeper's file: it is longer than the buffer */
    TERMREAD_REFUSED_INDEX = 23,          /* of a record's line: the list has no record of this index */
    TERMREAD_REFUSED_SIGNATURES = 24,     /* of a keeper's file: more than 65,535 signatures */
    TERMREAD_REFUSED_ENTRIES = 25         /* of a keeper's file: layouts of more than 32,763 options, counted together */
};

/* The bits of `marks`. */
enum {
    TERMREAD_OUT_OF_RANGE = 1, /* the TTL is out of the record's range, and `hops` is the hop distance */
    TERMREAD_CLIPPED = 2,      /* kept for a packet that was clipped: 0 */
    TERMREAD_GENERIC = 4       /* the record is generic, byte 21 of it is 1; of exact: and no specific record of the list is exact */
};

/* Quirks, as in bytes 14 to 17 of a list's record. `added` and `missing` hold only the four that may be tolerated: added ECN and
   ID_ZERO, missing DF and ID_NONZERO. */
#define TERMREAD_QUIRK_ECN UINT32_C(0x00000001)
#define TERMREAD_QUIRK_DF UINT32_C(0x00000002)
#define TERMREAD_QUIRK_ID_NONZERO UINT32_C(0x00000004)
#define TERMREAD_QUIRK_ID_ZERO UINT32_C(0x00000008)
#define TERMREAD_QUIRK_MUST_BE_ZERO UINT32_C(0x00000010)
#define TERMREAD_QUIRK_FLOW UINT32_C(0x00000020)
#define TERMREAD_QUIRK_SEQ_ZERO UINT32_C(0x00001000)
#define TERMREAD_QUIRK_ACK_NONZERO UINT32_C(0x00002000)
#define TERMREAD_QUIRK_ACK_ZERO UINT32_C(0x00004000)
#define TERMREAD_QUIRK_URG_NONZERO UINT32_C(0x00008000)
#define TERMREAD_QUIRK_URG UINT32_C(0x00010000)
#define TERMREAD_QUIRK_PUSH UINT32_C(0x00020000)
#define TERMREAD_QUIRK_OWN_TIMESTAMP_ZERO UINT32_C(0x01000000)
#define TERMREAD_QUIRK_PEER_TIMESTAMP_NONZERO UINT32_C(0x02000000)
#define TERMREAD_QUIRK_TRAILING_NONZERO UINT32_C(0x04000000)
#define TERMREAD_QUIRK_EXCESSIVE_SCALE UINT32_C(0x08000000)
#define TERMREAD_QUIRK_OPTIONS_BAD UINT32_C(0x10000000)

/* ---- the functions

   Each pointer is to as many bytes as its length says, and never null: of an empty part give any address.
   peer_mss: the MSS that the peer announced, 0 if it is not known; only a SYN+ACK's answer depends on it.
   list: a signature list as document 01 lays it out; byte 21 of a record is 0 if it is specific, 1 if it is generic. What is found is
   the first specific record in list order that fits exactly, else the first generic one that does, else the first of either kind that fits
   fuzzily. */

/* Whether a list is well formed: TERMREAD_GOOD, and every other field 0; or refusal 9 or 10. Check a list once, when it is loaded. */
termread_result termread_check_list(const uint8_t *list, size_t list_length);

/* The answer of a packet (from its IP header on) against a list that termread_check_list found good: the same as termread_answer's.
   It does not refuse a list: on one with bad records it finds what it would find without them, and counts them as examined; on one that
   does not fit it finds none, and has examined none. */
termread_result termread_answer_checked(const uint8_t *packet, size_t packet_length, uint16_t peer_mss, const uint8_t *list,
                                        size_t list_length);

/* The same against a list that was not checked: refusals 9 and 10 come before any of the packet's. */
termread_result termread_answer(const uint8_t *packet, size_t packet_length, uint16_t peer_mss, const uint8_t *list,
                                size_t list_length);

/* ---- the same two in a mode

   The plain functions above read on where a TCP header contradicts itself: a data offset under 5 gives no options, one that is longer
   than the packet gives those that are there. In strict mode such a header is refused by 14, before its flags are looked at: so is a
   packet that would be TERMREAD_NOTHING, or refused by 7, otherwise.

   They also read on where an option is damaged: one that runs past the end of the options is clipped, a length byte of 0 or 1 counts as 2.
   In strict mode the options of a SYN or SYN+ACK are read up to the first such option and no further, and the quirk `bad` is shown: it fits
   records that ask for `bad`, and those only, exactly or fuzzily as by the rest. A packet with neither gets the plain answer, refusals 1 to
   7 included; so does every packet that is no SYN or SYN+ACK and is not refused by 14, whatever its options.

   The TCP part ends where the IP length says, and never past the packet's bytes: strict mode refuses by 14 a sound header too, if the
   capture cut its options off. Give it whole packets, or at least all of their headers. A header that fills the part is no 14. */
enum {
    TERMREAD_PLAIN = 0, /* no bit is set */
    TERMREAD_STRICT = 1
};

/* mode: bits as named above. The other bits are not read, and kept for what is to come: leave them 0. In TERMREAD_PLAIN both answer as
   their namesakes above. */
termread_result termread_answer_checked_in(const uint8_t *packet, size_t packet_length, uint16_t peer_mss, const uint8_t *list,
                                           size_t list_length, uint8_t mode);
termread_result termread_answer_in(const uint8_t *packet, size_t packet_length, uint16_t peer_mss, const uint8_t *list,
                                   size_t list_length, uint8_t mode);

/* ---- lines

   A signature in p0f's text form, ver:ttl:olen:mss:window,scale:layout:quirks:payload, written into a buffer that the caller lends:
   TERMREAD_LINE, `value` bytes from the buffer's start. No zero byte comes behind them: a line is no C string, and bytes of the buffer past
   it stay as they were. Beside any other answer the whole buffer does. 15 comes last, exactly if the line is longer than the buffer; one of
   the most bytes below never meets it. */
enum {
    TERMREAD_RAW_LINE_MOST = 432,
    TERMREAD_RECORD_LINE_MOST = 434
};

/* What was seen of a packet, as p0f's raw line: TERMREAD_LINE with its kind, TERMREAD_NOTHING, or refusal 1 to 7, 14 (strict) or 15.
     ver       4 or 6
     ttl       the TTL byte: T+D where D hops seem behind it, at most 30; else T, and 0- for a byte of 0
     olen      bytes of IP options (4) or extension headers (6)
     mss       a number, or * where the packet has no such option
     window    the number of the packet, never a multiple of MSS or MTU
     scale     as mss
     layout    the options in their order: nop, mss, ws, sok, sack, ts, eol+N with the bytes behind it, ?K of another kind; may be empty
     quirks    those of df,id+,id-,ecn,0+,flow,seq-,ack+,ack-,uptr+,urgf+,pushf+,ts1-,ts2+,opt+,exws,bad that are shown, in this order; may
               be empty
     payload   0, or + if there is any
   The peer's MSS does not change it. Read as a line of a list, it is a record that the packet fits exactly. */
termread_result termread_raw_line(uint8_t *buffer, size_t buffer_length, const uint8_t *packet, size_t packet_length, uint16_t peer_mss);
termread_result termread_raw_line_in(uint8_t *buffer, size_t buffer_length, const uint8_t *packet, size_t packet_length,
                                     uint16_t peer_mss, uint8_t mode);

/* A record of a list, counted from 0, as its signature line: TERMREAD_LINE with kind 0, or refusal 9 or 10 of the list, which is checked
   each time, 23 or 15. A line has neither the label nor the generic byte. Here ver, window, scale and payload may be *, the TTL T+? or T-,
   the window %N, mss*N or mtu*N. */
termread_result termread_record_line(uint8_t *buffer, size_t buffer_length, const uint8_t *list, size_t list_length, size_t index);

/* ---- a list from a keeper's file

   A keeper's file is a text of signatures, one a line: a label, a blank, `g` and a blank if the signature is generic, and a line as above;
   docs/FORMATS.md has it in full. Empty lines and those that begin with `;` are passed over. A line ends with LF or CR LF, the last one
   with or without. */

/* What comes of it; sixteen bytes, in two registers. */
typedef struct termread_compiled {
    uint32_t length;  /* how many bytes of the buffer, from its start, are the list; 0 if the file is refused */
    uint32_t line;    /* of refused: the number of the line, from 1, those that are passed over counted too; 0 of refusal 15 */
    uint32_t offset;  /* of refusal 13: the first byte of the line, from 0, at which no signature goes on; the line's length if it only ends
                         too soon; where the signature line starts plus 512 if that has over 512 bytes. Else 0 */
    uint32_t refusal; /* 0 if there is a list; else its number: 13, 24, 25 or 15 */
} termread_compiled;

typedef char termread_compiled_has_sixteen_bytes[sizeof(termread_compiled) == 16 ? 1 : -1];

/* The most bytes of such a list, 8 + 2 x 32763 + 24 x 65535: a buffer of so many never meets 15. Nor does one of 8 + 2 x file_length bytes:
   a signature that has 24 bytes in the list, and 2 for each option of its layout, has at least 17 in the file, and one more for each. */
enum {
    TERMREAD_LIST_MOST = 1638374
};

/* The signature list that a keeper's file says, written into a buffer that the caller lends: one record for each signature, in order. It is
   well formed, and need not be checked again. Bytes of the buffer past it stay as they were; on a refusal the whole buffer does. The first
   line that meets 13 is told before any other refusal; then the first with which signatures or options are too many, 24 before 25 on the
   same one; 15 comes last, exactly if the list is longer than the buffer. Line and offset are told modulo 2^32, which a file of less than
   4 GiB does not show. The buffer and the file do not overlap. */
termread_compiled termread_compile_list(uint8_t *buffer, size_t buffer_length, const uint8_t *file, size_t file_length);

#ifdef __cplusplus
}
#endif

#endif
