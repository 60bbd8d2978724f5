/* How much stack the calls take: they run on a stack of their own that is filled with one byte
 * before, and what isn't that byte afterwards was used. Ends with 1 if that is more than the header
 * says. */
#define _XOPEN_SOURCE 700
#include "answers.h"

#include <string.h>
#include <ucontext.h>

enum { SIZE = 1 << 20, PAINT = 0xa5, COUNT = 300000 };

static unsigned char stack[SIZE];
static uint64_t keys[COUNT], hints[2 * COUNT], values[COUNT];
static uint8_t present[COUNT];
static size_t places[COUNT];
static uint32_t positions[COUNT], narrow[COUNT];
static kuldebiq_pair pairs[COUNT];
static kuldebiq_update updates[COUNT];
static ucontext_t outside, inside;

static void look_up(void) {
    kuldebiq_hints made = KULDEBIQ_NOTHING;
    uint64_t count = number("build32", kuldebiq_hints_build32(&made, narrow, COUNT, 8));
    number("write", kuldebiq_hints_write(&made, hints, 2 * COUNT));
    number("many32", kuldebiq_find_many32(narrow, COUNT, hints, count, keys, COUNT, places, COUNT));
    count = number("build", kuldebiq_hints_build(&made, keys, COUNT, 8));
    number("write", kuldebiq_hints_write(&made, hints, 2 * COUNT));
    number("many", kuldebiq_find_many(keys, COUNT, hints, count, keys, COUNT, places, COUNT));
    number("past", kuldebiq_find_past_many(keys, COUNT, hints, count, keys, COUNT, places, COUNT));
    kuldebiq_region region = {2, {5, 5}, {60000, 60000}};
    kuldebiq_stretch stretch = {0, 0};
    while (number("box", kuldebiq_box(keys, COUNT, hints, count, &region, stretch.end, &stretch)) > 0) {}
    kuldebiq_hints_free(&made);
}

static void ask(void) {
    kuldebiq_index index = KULDEBIQ_NOTHING;
    number("build", kuldebiq_index_build(&index, keys, COUNT, 0, 0));
    number("positions", kuldebiq_positions(&index, keys, COUNT, positions, COUNT));
    kuldebiq_index_free(&index);
}

static void update(void) {
    kuldebiq_map map = KULDEBIQ_NOTHING;
    number("new", kuldebiq_map_new(&map, 16));
    for (size_t i = 0; i < COUNT; i++) number("put", kuldebiq_map_put(&map, keys[i], i));
    number("apply", kuldebiq_map_apply(&map, updates, COUNT));
    number("get many", kuldebiq_map_get_many(&map, keys, COUNT, values, COUNT, present, COUNT));
    number("sweep", kuldebiq_map_sweep(&map, 0, keys[COUNT / 2]));
    number("range", kuldebiq_map_range(&map, 0, UINT64_MAX, pairs, COUNT));
    number("count", kuldebiq_map_count(&map, 0, UINT64_MAX));
    kuldebiq_pair last;
    number("previous", kuldebiq_map_previous(&map, UINT64_MAX, &last));
    number("compact", kuldebiq_map_compact(&map, 14));
    for (size_t i = 0; i < COUNT; i++) pairs[i] = (kuldebiq_pair){2 * i, i};
    number("load", kuldebiq_map_load(&map, 14, pairs, COUNT));
    kuldebiq_map_free(&map);
}

static void call(void) {
    look_up();
    ask();
    update();
}

int main(int words, char **word) {
    uint64_t state = 1, key = 0;
    for (size_t i = 0; i < COUNT; i++) {
        keys[i] = key += 1 + drawn(&state) % 9000;
        narrow[i] = (uint32_t)key;
        updates[i] = (kuldebiq_update){i % 2, key, i};
    }
    memset(stack, PAINT, SIZE);
    getcontext(&inside);
    inside.uc_stack.ss_sp = stack;
    inside.uc_stack.ss_size = SIZE;
    inside.uc_link = &outside;
    makecontext(&inside, call, 0);
    swapcontext(&outside, &inside);
    size_t spare = 0;
    while (spare < SIZE && stack[spare] == PAINT) spare++;
    size_t used = SIZE - spare;
    if (words > 1 && strcmp(word[1], "exactly") == 0) printf("%zu bytes\n", used);
    puts(used <= 65536 ? "64 KiB of stack are enough" : "64 KiB of stack are not enough");
    return used > 65536;
}
