/* A sorted list in four parts, each a mapped file with hints of its own: docs/scale.md. The place of
 * a question is the part's offset and the place in the part. Which part it is, is asked of the parts'
 * first keys, a list with hints of its own too. Each place is compared with that in the whole
 * list. */
#define _POSIX_C_SOURCE 200809L
#include "kuldebiq.h"

#include <fcntl.h>
#include <inttypes.h>
#include <stdbool.h>
#include <stdio.h>
#include <stdlib.h>
#include <sys/mman.h>
#include <unistd.h>

enum { COUNT = 100000, PARTS = 4, EPSILON = 32 };

static void expect(bool holds, const char *what) {
    if (!holds) {
        fprintf(stderr, "parts: %s\n", what);
        exit(1);
    }
}

typedef struct numbers {
    const uint64_t *at;
    size_t count;
} numbers;

/* Hints of keys, in room that the caller frees. */
static numbers hints_of(numbers keys) {
    kuldebiq_hints hints = KULDEBIQ_NOTHING;
    kuldebiq_answer made = kuldebiq_hints_build(&hints, keys.at, keys.count, EPSILON);
    expect(made.status == KULDEBIQ_DONE, kuldebiq_status_text(made.status));
    uint64_t *room = malloc(made.number * 8);
    expect(room != NULL, "no memory was found");
    kuldebiq_answer written = kuldebiq_hints_write(&hints, room, made.number);
    expect(written.status == KULDEBIQ_DONE, kuldebiq_status_text(written.status));
    kuldebiq_hints_free(&hints);
    return (numbers){room, written.number};
}

/* Keys in a file without a name, where they are mapped. */
static numbers stored(numbers keys) {
    char name[] = "/tmp/kuldebiq-XXXXXX";
    int file = mkstemp(name);
    expect(file >= 0, "a file that can't be made");
    unlink(name);
    size_t size = keys.count * 8;
    expect(write(file, keys.at, size) == (ssize_t)size, "a file that can't be written");
    void *at = mmap(NULL, size, PROT_READ, MAP_SHARED, file, 0);
    expect(at != MAP_FAILED, "a file that can't be mapped");
    close(file);
    return (numbers){at, keys.count};
}

/* The parts: their keys, their hints, the first keys with hints of their own, and the offsets. */
typedef struct parts {
    numbers keys[PARTS], hints[PARTS], first_hints;
    uint64_t first[PARTS];
    uint64_t offset[PARTS];
} parts;

static uint64_t place_in(const parts *all, uint64_t question) {
    size_t before = kuldebiq_find((const uint64_t *)all->first, PARTS, all->first_hints.at,
                                  all->first_hints.count, question);
    size_t part = before == 0 ? 0 : before - 1;
    numbers keys = all->keys[part], hints = all->hints[part];
    return all->offset[part] +
           kuldebiq_find(keys.at, keys.count, hints.at, hints.count, question);
}

int main(void) {
    /* Each square twice, so that equal keys may run over an edge of two parts. */
    uint64_t *squares = malloc(COUNT * sizeof *squares);
    expect(squares != NULL, "no memory was found");
    for (uint64_t i = 0; i < COUNT; i++) squares[i] = (i / 2) * (i / 2);

    static const size_t edge[PARTS + 1] = {0, 10001, 10002, 70000, COUNT};
    parts all;
    for (int i = 0; i < PARTS; i++) {
        all.keys[i] = stored((numbers){squares + edge[i], edge[i + 1] - edge[i]});
        all.hints[i] = hints_of(all.keys[i]);
        all.first[i] = squares[edge[i]];
        all.offset[i] = edge[i];
    }
    all.first_hints = hints_of((numbers){all.first, PARTS});

    numbers whole = hints_of((numbers){squares, COUNT});
    for (uint64_t i = 0; i < COUNT; i++) {
        for (uint64_t q = squares[i] < 1 ? 0 : squares[i] - 1; q <= squares[i] + 1; q++) {
            expect(place_in(&all, q) ==
                       kuldebiq_find(squares, COUNT, whole.at, whole.count, q),
                   "a place that isn't the one in the whole list");
        }
    }
    const uint64_t asked[] = {0, 25000000, 25000001, UINT64_MAX};
    for (int i = 0; i < 4; i++)
        printf("below %" PRIu64 ": %" PRIu64 "\n", asked[i], place_in(&all, asked[i]));

    for (int i = 0; i < PARTS; i++) {
        munmap((void *)(uintptr_t)all.keys[i].at, all.keys[i].count * 8);
        free((void *)(uintptr_t)all.hints[i].at);
    }
    free((void *)(uintptr_t)all.first_hints.at);
    free((void *)(uintptr_t)whole.at);
    free(squares);
    return 0;
}
