/* Positions of sorted keys, and a walk along a map: each call's answer is looked at. */
#include "answers.h"

static void ask(void) {
    const uint64_t keys[] = {2, 3, 5, 7, 11, 13, 17, 19, 23, 29};
    kuldebiq_index index = KULDEBIQ_NOTHING;
    uint64_t count = number("build", kuldebiq_index_build(&index, keys, 10, 64, 4));
    printf("%" PRIu64 " keys\n", count);
    printf("below 12: %" PRIu64 "\n", number("position", kuldebiq_position(&index, 12)));
    const uint64_t questions[] = {30, 1, 19};
    uint32_t positions[3];
    number("positions", kuldebiq_positions(&index, questions, 3, positions, 3));
    for (int i = 0; i < 3; i++) {
        printf("below %" PRIu64 ": %" PRIu32 "\n", questions[i], positions[i]);
    }
    /* Keys that fall are refused, and the index that the handle holds stands. */
    const uint64_t falling[] = {1, 4, 3};
    kuldebiq_answer refused = kuldebiq_index_build(&index, falling, 3, 64, 4);
    if (refused.status != KULDEBIQ_UNSORTED) exit(1);
    printf("refused: %s (%" PRIu64 ")\n", kuldebiq_status_text(refused.status), refused.number);
    kuldebiq_index_free(&index);
}

static void walk(void) {
    kuldebiq_map map = KULDEBIQ_NOTHING;
    number("new", kuldebiq_map_new(&map, 10));
    for (uint64_t key = 10; key <= 60; key += 10) {
        number("put", kuldebiq_map_put(&map, key, key * key));
    }
    number("del", kuldebiq_map_del(&map, 20));
    const kuldebiq_update updates[] = {{KULDEBIQ_PUT, 70, 4900}, {KULDEBIQ_DEL, 10, 0}};
    printf("applied %" PRIu64 "\n", number("apply", kuldebiq_map_apply(&map, updates, 2)));
    printf("swept %" PRIu64 "\n", number("sweep", kuldebiq_map_sweep(&map, 35, 55)));
    uint64_t from = 0;
    kuldebiq_pair pair;
    for (;;) {
        kuldebiq_answer next = kuldebiq_map_next(&map, from, &pair);
        if (next.status == KULDEBIQ_ABSENT) break;
        number("next", next);
        printf("%" PRIu64 " -> %" PRIu64 "\n", pair.key, pair.value);
        if (pair.key == UINT64_MAX) break;
        from = pair.key + 1;
    }
    kuldebiq_map_free(&map);
}

int main(void) {
    ask();
    walk();
    return 0;
}
