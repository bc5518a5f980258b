/*
 * What the C tests share: checks that are counted, and the closing line. Include it first.
 */
#ifndef CHECK_H
#define CHECK_H

#ifndef _DEFAULT_SOURCE
#define _DEFAULT_SOURCE /* for mmap */
#endif

#include "senna.h"

#include <assert.h>
#include <stdio.h>
#include <string.h>
#include <sys/mman.h>
#include <unistd.h>

static unsigned passed = 0;
static unsigned failed = 0;

static void check(int holds, const char *what)
{
    if (holds) {
        passed++;
    } else {
        failed++;
        printf("FAILED c: %s\n", what);
    }
}

/* Prints the closing line; what main returns. */
static int closing(void)
{
    printf("%u passed, %u failed\n", passed, failed);
    return failed > 0;
}

/* One object of a message. */
static inline senna_entry entry(unsigned object, unsigned mode, uint32_t version, int64_t value)
{
    senna_entry e;
    e.object = (uint8_t)object;
    e.mode = (uint8_t)mode;
    e.version = version;
    e.value = value;
    return e;
}

#endif
