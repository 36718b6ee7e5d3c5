/* What is lent to the judge: a file of any size, and today. */
#ifndef LEND_H
#define LEND_H

#include <stddef.h>
#include <stdint.h>

struct space {
    const uint8_t *bytes;
    size_t size;
};

/* Maps the file read-only, until the program ends. Returns NULL, or why it could not be mapped. The file has to stay as it is meanwhile:
 * one that is cut short ends the program (SIGBUS), and the judge promises nothing of bytes that change while it reads them. */
const char *lend(const char *path, struct space *space);

/* Writes the day as the judge takes it. Returns NULL, or what is wrong with a word that is no real day YYYYMMDD. The judge refuses such a
 * day too, but an empty file or a damaged book before it. The bytes stand until the next call. */
const char *lend_today(const char *word, struct space *today);

#endif
