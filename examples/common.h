/*
 * What the examples share: reading a file and a number, and words for refusals and kinds.
 */
#ifndef EXAMPLES_COMMON_H
#define EXAMPLES_COMMON_H

#include "ringlog.h"

#include <inttypes.h>
#include <stdbool.h>
#include <stddef.h>
#include <stdint.h>
#include <stdio.h>
#include <stdlib.h>
#include <string.h>

/* What the number of a refusal means. */
static inline const char *meaning(uint32_t number)
{
    switch (number) {
    case RINGLOG_BAD_LENGTH: return "used above the buffer, no root, or too long a message";
    case RINGLOG_BAD_INDEX: return "no such index or count";
    case RINGLOG_BAD_ITEM: return "no value item";
    case RINGLOG_FULL: return "the log has 4,096 entries already";
    case RINGLOG_NO_ROOM: return "no room for the entry";
    case RINGLOG_BAD_SHAPE: return "the log is not well formed, does not open, or a link is broken";
    case RINGLOG_BAD_DIGEST: return "a digest disagrees";
    case RINGLOG_NO_ROOM_FOR_PROOF: return "no room for the proof";
    default: return "a number that this program does not know";
    }
}

/* Whether a call was answered. A refusal is printed, with its number and what that means. */
static inline bool answered(const char *call, uint32_t number)
{
    if (number != RINGLOG_ANSWERED) {
        printf("%s: refused with %" PRIu32 ", %s\n", call, number, meaning(number));
    }
    return number == RINGLOG_ANSWERED;
}

/* The name of a value's kind. */
static inline const char *kind_name(uint8_t kind)
{
    switch (kind) {
    case RINGLOG_TAP: return "tap";
    case RINGLOG_CHANGE: return "stored-value change";
    case RINGLOG_TICKET: return "ticket";
    default: return "of a kind that this program does not know";
    }
}

/* Prints bytes as hexadecimal digits, and ends the line. */
static inline void print_bytes(const uint8_t *bytes, size_t length)
{
    for (size_t i = 0; i < length; i++) {
        printf("%02x", (unsigned)bytes[i]);
    }
    printf("\n");
}

/* Whether the file could be read and is no longer than the longest log. Its bytes are the first
   `used` of those RINGLOG_LONGEST_LOG then, and nothing is known of them yet. */
static inline bool read_file(const char *name, uint8_t *bytes, size_t *used)
{
    FILE *file = fopen(name, "rb");
    bool longer = false;
    bool failed = true;

    if (file != NULL) {
        *used = fread(bytes, 1, RINGLOG_LONGEST_LOG, file);
        longer = *used == RINGLOG_LONGEST_LOG && fgetc(file) != EOF;
        failed = ferror(file) != 0;
        fclose(file);
    }
    if (failed) {
        fprintf(stderr, "%s: cannot be read\n", name);
    } else if (longer) {
        fprintf(stderr, "%s: over %d bytes\n", name, RINGLOG_LONGEST_LOG);
    }
    return !failed && !longer;
}

/* Whether the text is a number in one to nine digits, as an index or a count is. Which of them a
   log has is not asked here: the library refuses the others. */
static inline bool read_number(const char *text, size_t *number)
{
    size_t digits = strspn(text, "0123456789");

    *number = (size_t)strtoul(text, NULL, 10);
    return digits >= 1 && digits <= 9 && text[digits] == '\0';
}

#endif
