/*
 * Buffers of exact size beside memory that may not be touched.
 *
 * A buffer lies in two pages between two without access. It ends where the page behind begins, or begins where the page
 * before ends: a touch outside ends the program there. On its other side the pages are filled up with a pattern.
 */
#ifndef GUARDED_H
#define GUARDED_H

#include <stdbool.h>
#include <stddef.h>
#include <stdint.h>

enum side { ENDS_AT_PAGE, BEGINS_AFTER_PAGE };

struct guarded {
    uint8_t *pages;
    uint8_t *bytes;
    size_t length;
};

/* Maps the four pages. Ends the program if there is no memory. */
void guarded_map(struct guarded *buffer);

/* Lays the content into the two pages as a buffer of that length; a length of 0 is fine, more than they hold is not. */
void guarded_lay(struct guarded *buffer, enum side side, const uint8_t *content, size_t length);

/* From here on a write into the buffer ends the program too, until it is let go. */
void guarded_forbid_writes(struct guarded *buffer);
void guarded_allow_writes(struct guarded *buffer);

/* Whether the rest of the two pages still holds the pattern. */
bool guarded_rest_kept(const struct guarded *buffer);

#endif
