/* Each allocation of a call fails in turn: the call is refused, and what its handle held it holds. The
 * three functions below stand for those of the kit's archive. */
#include "kuldebiq.h"

#include <stdbool.h>
#include <stdio.h>
#include <stdlib.h>

typedef struct tried {
    bool ok;
    void *at;
} tried;

/* How many allocations are still granted, and how many blocks there are. */
static long granted;
static long blocks;

tried rattle_alloc(size_t size, size_t align);
tried rattle_realloc(void *at, size_t kept, size_t size, size_t align);
void rattle_dealloc(void *at);

static tried of(void *at, void *other) { return (tried){at != NULL, at != NULL ? at : other}; }

tried rattle_alloc(size_t size, size_t align) {
    if (granted-- <= 0) return of(NULL, &granted);
    blocks++;
    return of(malloc(size > 0 ? size : align), &granted);
}

tried rattle_realloc(void *at, size_t kept, size_t size, size_t align) {
    (void)kept, (void)align;
    return granted-- <= 0 ? of(NULL, at) : of(realloc(at, size), at);
}

void rattle_dealloc(void *at) {
    blocks--;
    free(at);
}

static void expect(bool holds, const char *what) {
    if (!holds) {
        printf("differs: %s\n", what);
        exit(1);
    }
}

static bool is(kuldebiq_answer answer, uint32_t status, uint64_t number) {
    return answer.status == status && answer.number == number;
}

/* The map of 1000 keys, made anew and made of other pairs, while each allocation fails in turn. */
static void load_and_compact(kuldebiq_map *map) {
    static kuldebiq_pair pairs[1000];
    for (uint64_t i = 0; i < 1000; i++) pairs[i] = (kuldebiq_pair){2 * i, i};
    kuldebiq_answer answer;
    for (long tries = 0;; tries++) {
        granted = tries;
        answer = kuldebiq_map_compact(map, 5);
        if (answer.status == KULDEBIQ_DONE) break;
        expect(is(answer, KULDEBIQ_NO_MEMORY, 0), "a compaction");
        expect(is(kuldebiq_map_capacity(map), KULDEBIQ_DONE, 1023), "that the old map stands");
    }
    expect(answer.number == 1000 && is(kuldebiq_map_capacity(map), KULDEBIQ_DONE, 2047), "the new map");
    for (long tries = 0;; tries++) {
        granted = tries;
        answer = kuldebiq_map_load(map, 4, pairs, 1000);
        if (answer.status == KULDEBIQ_DONE) break;
        expect(is(answer, KULDEBIQ_NO_MEMORY, 0), "a load");
        expect(is(kuldebiq_map_get(map, 999), KULDEBIQ_DONE, 1006), "that all keys stand");
    }
    kuldebiq_pair last = {0, 0};
    granted = 0;
    expect(is(kuldebiq_map_range(map, 1997, 9999, &last, 1), KULDEBIQ_DONE, 1) && last.key == 1998 &&
               is(kuldebiq_map_previous(map, 5, &last), KULDEBIQ_DONE, 0) && last.value == 2,
           "pairs without memory");
    const uint64_t keys[] = {1998, 1999, 0};
    uint64_t values[3];
    uint8_t present[3];
    expect(is(kuldebiq_map_get_many(map, keys, 3, values, 3, present, 3), KULDEBIQ_DONE, 3) &&
               present[0] == 1 && values[0] == 999 && present[1] == 0 && values[1] == 0,
           "values without memory");
}

int main(void) {
    enum { COUNT = 5000 };
    static uint64_t keys[COUNT];
    for (uint64_t i = 0; i < COUNT; i++) keys[i] = i * i;
    kuldebiq_index index = KULDEBIQ_NOTHING, other = KULDEBIQ_NOTHING;
    granted = 1000;
    expect(is(kuldebiq_index_build(&index, keys, 10, 0, 0), KULDEBIQ_DONE, 10), "the first index");
    long tries = -1;
    kuldebiq_answer answer;
    do {
        granted = ++tries;
        answer = kuldebiq_index_build(&index, keys, COUNT, 2, 1);
        if (answer.status == KULDEBIQ_DONE) break;
        expect(is(answer, KULDEBIQ_NO_MEMORY, 0), "a build");
        expect(is(kuldebiq_position(&index, 50), KULDEBIQ_DONE, 8), "that the first index stands");
    } while (true);
    expect(is(answer, KULDEBIQ_DONE, COUNT), "the build in the end");
    printf("a build asked for memory %s\n", tries > 3 ? "several times" : "hardly");
    /* Positions come without memory too. */
    uint32_t positions[3];
    granted = 0;
    expect(is(kuldebiq_positions(&index, keys + 100, 3, positions, 3), KULDEBIQ_DONE, 3) &&
               positions[0] == 100 && positions[2] == 102,
           "positions without memory");
    expect(is(kuldebiq_index_share(&index, &other), KULDEBIQ_NO_MEMORY, 0), "a share");
    /* Places come by hints, also without memory; the hints that a handle holds stand. */
    kuldebiq_hints hints = KULDEBIQ_NOTHING;
    static uint64_t numbers[COUNT];
    granted = 1000;
    answer = kuldebiq_hints_build(&hints, keys, COUNT, 64);
    expect(answer.status == KULDEBIQ_DONE && answer.number <= COUNT, "hints");
    for (tries = 0;; tries++) {
        granted = tries;
        kuldebiq_answer other_hints = kuldebiq_hints_build(&hints, keys, 4000, 2);
        if (other_hints.status == KULDEBIQ_DONE) break;
        expect(is(other_hints, KULDEBIQ_NO_MEMORY, 0), "hints without memory");
        expect(is(kuldebiq_hints_count(&hints), KULDEBIQ_DONE, answer.number), "that hints stand");
    }
    granted = 0;
    answer = kuldebiq_hints_write(&hints, numbers, COUNT);
    expect(answer.status == KULDEBIQ_DONE, "hints without memory");
    expect(kuldebiq_find(keys, 4000, numbers, answer.number, 50) == 8, "a place without memory");
    /* Keys of 32 bits are copied, which fails in turn too. */
    static uint32_t narrow[COUNT];
    for (uint32_t i = 0; i < COUNT; i++) narrow[i] = 3 * i;
    uint64_t held = answer.number;
    for (tries = 0;; tries++) {
        granted = tries;
        answer = kuldebiq_hints_build32(&hints, narrow, COUNT, 2);
        if (answer.status == KULDEBIQ_DONE) break;
        expect(is(answer, KULDEBIQ_NO_MEMORY, 0), "hints of keys of 32 bits without memory");
        expect(is(kuldebiq_hints_count(&hints), KULDEBIQ_DONE, held), "that hints stand still");
    }
    kuldebiq_map map = KULDEBIQ_NOTHING;
    expect(is(kuldebiq_map_new(&map, 4), KULDEBIQ_NO_MEMORY, 0), "a map");
    granted = 1000;
    expect(is(kuldebiq_map_new(&map, 4), KULDEBIQ_DONE, 1023), "a map in the end");
    for (uint64_t key = 0; key < 1000; key++) {
        for (tries = 0;; tries++) {
            granted = tries;
            answer = kuldebiq_map_put(&map, key, key + 7);
            if (answer.status == KULDEBIQ_DONE) break;
            expect(is(answer, KULDEBIQ_NO_MEMORY, 0), "a put");
            expect(is(kuldebiq_map_get(&map, key), KULDEBIQ_ABSENT, 0), "that the map stands");
            expect(is(kuldebiq_map_count(&map, 0, 9999), KULDEBIQ_DONE, key), "that all keys stand");
        }
    }
    load_and_compact(&map);
    kuldebiq_map_free(&map);
    kuldebiq_hints_free(&hints);
    kuldebiq_index_free(&index);
    kuldebiq_index_free(&other);
    expect(blocks == 0, "that all memory is given back");
    puts("what stood stands");
    return 0;
}
