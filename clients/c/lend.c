#define _POSIX_C_SOURCE 200809L

#include "lend.h"
#include "srf_judge.h"

#include <errno.h>
#include <fcntl.h>
#include <stdbool.h>
#include <stdlib.h>
#include <string.h>
#include <sys/mman.h>
#include <sys/stat.h>
#include <unistd.h>

/* mmap takes no empty file, and the judge takes no null pointer. */
static const uint8_t nothing[1];

static const char *map(int file, struct space *space)
{
    struct stat state;
    void *bytes;

    if (fstat(file, &state) != 0)
        return strerror(errno);
    if (S_ISDIR(state.st_mode))
        return "this is a directory";
    if (!S_ISREG(state.st_mode))
        return "this is no regular file: a pipe or a device cannot be judged";
    space->size = (size_t)state.st_size;
    space->bytes = nothing;
    if (space->size == 0)
        return NULL;
    bytes = mmap(NULL, space->size, PROT_READ, MAP_PRIVATE, file, 0);
    if (bytes == MAP_FAILED)
        return strerror(errno);
    space->bytes = bytes;
    return NULL;
}

const char *lend(const char *path, struct space *space)
{
    /* Without O_NONBLOCK a pipe would be waited for. */
    int file = open(path, O_RDONLY | O_NONBLOCK);
    const char *fault;

    if (file < 0)
        return strerror(errno);
    fault = map(file, space);
    close(file);
    return fault;
}

/* 01 Date: Gregorian, years 0001 to 9999. */
static bool is_day(unsigned year, unsigned month, unsigned day)
{
    static const unsigned lengths[] = { 0, 31, 28, 31, 30, 31, 30, 31, 31, 30, 31, 30, 31 };
    bool leap = year % 4 == 0 && (year % 100 != 0 || year % 400 == 0);

    return year >= 1 && year <= 9999 && month >= 1 && month <= 12 && day >= 1 && day <= lengths[month] + (month == 2 && leap);
}

const char *lend_today(const char *word, struct space *today)
{
    static uint8_t bytes[SRF_TODAY_SIZE];
    /* strtoul alone takes signs and blanks too. */
    bool digits = strlen(word) == SRF_TODAY_SIZE && strspn(word, "0123456789") == SRF_TODAY_SIZE;
    unsigned number = digits ? (unsigned)strtoul(word, NULL, 10) : 0;
    unsigned year = number / 10000, month = number / 100 % 100, day = number % 100;

    if (!is_day(year, month, day))
        return "this is no day YYYYMMDD";
    srf_today(bytes, year, month, day);
    today->bytes = bytes;
    today->size = sizeof bytes;
    return NULL;
}
