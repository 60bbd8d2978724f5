/* What the examples in C share: the number of a call that has to be done, and numbers that look like
 * chance. */
#ifndef ANSWERS_H
#define ANSWERS_H

#include "kuldebiq.h"

#include <inttypes.h>
#include <stdio.h>
#include <stdlib.h>

/* The number of a call that was done. Ends the program at one that was refused. */
static inline uint64_t number(const char *call, kuldebiq_answer answer) {
    if (answer.status != KULDEBIQ_DONE) {
        fprintf(stderr, "%s: %s (%" PRIu64 ")\n", call, kuldebiq_status_text(answer.status),
                answer.number);
        exit(1);
    }
    return answer.number;
}

/* The same numbers in each run. */
static inline uint32_t drawn(uint64_t *state) {
    *state = *state * 6364136223846793005u + 1442695040888963407u;
    return (uint32_t)(*state >> 33);
}

#endif
