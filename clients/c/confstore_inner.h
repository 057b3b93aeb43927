/* What the files of the library share. It is no part of the interface, and is not installed.
 * SPDX-License-Identifier: Apache-2.0 */
#ifndef CONFSTORE_INNER_H
#define CONFSTORE_INNER_H

#define _GNU_SOURCE
#include "confstore.h"

#include <stdbool.h>
#include <string.h>
#include <time.h>
#include <unistd.h>

/* A time in milliseconds that nobody sets back. */
static inline int64_t now(void) {
    struct timespec time;
    clock_gettime(CLOCK_MONOTONIC, &time);
    return (int64_t)time.tv_sec * 1000 + time.tv_nsec / 1000000;
}

/* Closes a descriptor that may be closed already. */
static inline void close_end(int *end) {
    if (*end >= 0) close(*end);
    *end = -1;
}

/* The end of the document that begins at a place of the bytes, behind its closing line, or 0 where that is not there.
 * No closing line begins before the second place. */
static inline size_t document_end(const struct confstore_bytes *bytes, size_t from, size_t at) {
    const char *data = bytes->data;
    while (at + 4 <= bytes->length) {
        const char *found = memchr(data + at, '.', bytes->length - at - 3);
        if (!found) break;
        at = (size_t)(found - data);
        if (!memcmp(found, "...\n", 4) && (at == from || found[-1] == '\n')) return at + 4;
        at++;
    }
    return 0;
}

/* Reads a number that is written in decimal digits alone. */
static inline bool read_digits(const char *digits, size_t count, uint64_t *number) {
    *number = 0;
    for (size_t at = 0; at < count; at++) {
        unsigned digit = (unsigned)(digits[at] - '0');
        if (digit > 9 || *number > (UINT64_MAX - digit) / 10) return false;
        *number = *number * 10 + digit;
    }
    return count > 0;
}

#endif
