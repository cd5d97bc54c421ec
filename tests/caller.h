/* What the callers from C and C++ share: a comparison that tells of each wrong answer, and the last line. */
#ifndef CALLER_H
#define CALLER_H

#include <inttypes.h>
#include <stdio.h>

#include "bulitampaw.h"

#ifdef __cplusplus
#define CALLED_FROM "C++"
#else
#define CALLED_FROM "C"
#endif

static int failures = 0;

static void same(const char *what, uint64_t got, uint64_t wanted) {
    if (got != wanted) {
        printf("%s: got 0x%" PRIx64 ", wanted 0x%" PRIx64 "\n", what, got, wanted);
        failures++;
    }
}

/* Says how it went, and answers the exit status. */
static int finished(const char *subject) {
    printf("%s from " CALLED_FROM ": %s\n", subject, failures == 0 ? "all as the paper says" : "wrong answers");
    return failures != 0;
}

#endif
