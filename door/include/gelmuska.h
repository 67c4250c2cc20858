/* Gelmuska's door: reports of scripts, words of the wire, and records, for C.
 *
 * Every function answers 0, or the number of a refusal; docs/REFUSALS.md has the table. What it finds goes out through its
 * last parameters. A refused call leaves everything that its pointers point to as it was.
 *
 * No pointer may be null, not even beside a length of 0, and no two of a call's parameters may overlap, where one of them
 * is written. The functions keep nothing, allocate nothing, and may be called from several threads.
 *
 * Link with target/staticlib/libdoor.a, which `tools/build door` makes.
 */
#ifndef GELMUSKA_H
#define GELMUSKA_H

#include <stddef.h>
#include <stdint.h>

#ifdef __cplusplus
extern "C" {
#endif

/* The refusals that these functions give. */
#define GELMUSKA_SIZE 1u   /* no such set-up */
#define GELMUSKA_LABELS 3u /* too few labels for the channels, or too many */
#define GELMUSKA_SPOILT 8u /* a word that is not whole */
#define GELMUSKA_CODE 11u  /* a payload that is no record, parts that are none, parts that do not fit a word */
#define GELMUSKA_PAGE 14u  /* a script that is too long, or a page that is too small */

/* A script has at most so many bytes, and a page at least so many. */
#define GELMUSKA_MOST_SCRIPT 4096u
#define GELMUSKA_LEAST_PAGE 50000u

/* What a word carries besides its check. Kinds are at most 15, payloads below 2^36. */
struct gelmuska_word {
    uint8_t label;
    uint8_t kind;
    uint64_t payload;
};

/* Codes: 1 stop, 2 run (argument in tenths of km/h, 1 to 60), 3 choose axle (1 to 12), 4 set scale to zero, 5 lamp (0 to 7). */
struct gelmuska_command {
    uint8_t code;
    uint32_t argument;
};

/* Axle 1 to 12; side 0 left, 1 right; force in units of 10 newtons, up to 6000; pressure in hundredths of a bar, up to 1500. */
struct gelmuska_reading {
    uint8_t axle;
    uint8_t side;
    uint16_t force;
    uint16_t pressure;
};

/* How many exchanges were completed, and which of them was the first that left the link clean, 0 while none has. Both stop at
 * 65,535. */
struct gelmuska_observer {
    uint16_t completed;
    uint16_t first;
};

/* Writes the report of a script to the beginning of a page, and its length to *length. Bytes beyond the report stay as they
 * were. Refused GELMUSKA_PAGE. */
uint32_t gelmuska_report(const uint8_t *script, size_t script_length, uint8_t *page, size_t page_length, uint64_t *length);

/* Makes a link of commands over a standard set-up, 1 or 2, with so many labels; offers it the command to stop and performs a
 * round, so many times. Refused GELMUSKA_SIZE, GELMUSKA_LABELS. */
uint32_t gelmuska_rounds(uint8_t setup, uint16_t labels, uint32_t rounds, struct gelmuska_observer *observer);

/* The 64 bits of a word, with their check. Refused GELMUSKA_CODE where the kind or the payload does not fit. */
uint32_t gelmuska_word_pack(const struct gelmuska_word *parts, uint64_t *word);

/* What 64 bits carry. Refused GELMUSKA_SPOILT where they are not whole. */
uint32_t gelmuska_word_read(uint64_t word, struct gelmuska_word *parts);

/* The payload of a command, and back. Refused GELMUSKA_CODE. */
uint32_t gelmuska_command_pack(const struct gelmuska_command *parts, uint64_t *payload);
uint32_t gelmuska_command_unpack(uint64_t payload, struct gelmuska_command *parts);

/* The payload of a reading, and back. Refused GELMUSKA_CODE. */
uint32_t gelmuska_reading_pack(const struct gelmuska_reading *parts, uint64_t *payload);
uint32_t gelmuska_reading_unpack(uint64_t payload, struct gelmuska_reading *parts);

#ifdef __cplusplus
}
#endif

#endif
