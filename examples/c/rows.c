/* Rows in three columns, sorted by the code of their place (x, y): a box is some stretches of rows,
 * and a column is summed over them. Beside it each row is tested. Beside the rows that are nearest to
 * a centre all are sorted by how far they are. */
#include "answers.h"

#include <stdbool.h>

enum { COUNT = 200000, SIDE = 65536, NEAREST = 20 };

/* The rows: where each is, and an amount. */
static uint32_t x[COUNT], y[COUNT];
static uint64_t amount[COUNT], codes[COUNT];

/* What a box has of them. */
typedef struct totals {
    uint64_t rows;
    uint64_t amount;
} totals;

static int by_code(const void *one, const void *other) {
    uint64_t a = *(const uint64_t *)one, b = *(const uint64_t *)other;
    return a < b ? -1 : a > b;
}

/* Fills the columns, in the order of the codes. */
static void fill(void) {
    uint64_t state = 1;
    for (size_t row = 0; row < COUNT; row++) {
        const uint32_t point[] = {drawn(&state) % SIDE, drawn(&state) % SIDE};
        codes[row] = number("code", kuldebiq_code(point, 2));
    }
    qsort(codes, COUNT, sizeof codes[0], by_code);
    for (size_t row = 0; row < COUNT; row++) {
        uint32_t point[2];
        number("point", kuldebiq_point(codes[row], point, 2));
        x[row] = point[0];
        y[row] = point[1];
        amount[row] = drawn(&state) % 100;
    }
}

/* The hints of the codes: the number is how many. */
static size_t make_hints(uint64_t **hints) {
    kuldebiq_hints made = KULDEBIQ_NOTHING;
    size_t count = number("build", kuldebiq_hints_build(&made, codes, COUNT, 64));
    *hints = malloc(count * sizeof **hints);
    if (*hints == NULL) exit(1);
    number("write", kuldebiq_hints_write(&made, *hints, count));
    kuldebiq_hints_free(&made);
    return count;
}

/* The rows in a box, stretch by stretch. */
static totals by_stretches(const kuldebiq_region *region, const uint64_t *hints, size_t count) {
    totals sum = {0, 0};
    kuldebiq_stretch stretch = {0, 0};
    while (number("box", kuldebiq_box(codes, COUNT, hints, count, region, stretch.end, &stretch))) {
        sum.rows += stretch.end - stretch.first;
        for (size_t row = stretch.first; row < stretch.end; row++) sum.amount += amount[row];
    }
    return sum;
}

/* The same by a test of each row. */
static totals by_filter(const kuldebiq_region *region) {
    totals sum = {0, 0};
    for (size_t row = 0; row < COUNT; row++) {
        if (region->low[0] <= x[row] && x[row] <= region->high[0] && region->low[1] <= y[row] &&
            y[row] <= region->high[1]) {
            sum.rows++;
            sum.amount += amount[row];
        }
    }
    return sum;
}

static bool same(totals one, totals other) {
    return one.rows == other.rows && one.amount == other.amount;
}

static void ask(const kuldebiq_region *region, const uint64_t *hints, size_t count) {
    totals sum = by_stretches(region, hints, count);
    /* Hints lead, and nothing rests on them. */
    const uint64_t damaged[] = {1, 2, 3};
    if (!same(sum, by_filter(region)) || !same(sum, by_stretches(region, NULL, 0)) ||
        !same(sum, by_stretches(region, damaged, 3))) {
        fputs("rows: another sum than by a test of each row\n", stderr);
        exit(1);
    }
    printf("from (%" PRIu32 ", %" PRIu32 ") to (%" PRIu32 ", %" PRIu32 "): %" PRIu64
           " rows, amount %" PRIu64 "\n",
           region->low[0], region->low[1], region->high[0], region->high[1], sum.rows, sum.amount);
}

static uint64_t how_far(size_t row, const uint32_t centre[2], uint32_t metric) {
    uint64_t right = x[row] < centre[0] ? centre[0] - x[row] : x[row] - centre[0];
    uint64_t up = y[row] < centre[1] ? centre[1] - y[row] : y[row] - centre[1];
    if (metric == KULDEBIQ_EUCLID) return right * right + up * up;
    return right < up ? up : right;
}

/* By the distance, and then by the row. */
static int by_distance(const void *one, const void *other) {
    const kuldebiq_neighbour *a = one, *b = other;
    if (a->distance != b->distance) return a->distance < b->distance ? -1 : 1;
    return a->place < b->place ? -1 : a->place > b->place;
}

static void ask_near(const uint32_t centre[2], uint32_t metric, const uint64_t *hints,
                     size_t count) {
    static kuldebiq_neighbour all[COUNT];
    for (size_t row = 0; row < COUNT; row++) {
        all[row] = (kuldebiq_neighbour){row, how_far(row, centre, metric), 0};
    }
    qsort(all, COUNT, sizeof all[0], by_distance);
    kuldebiq_neighbour near[NEAREST];
    number("nearest",
           kuldebiq_nearest(codes, COUNT, hints, count, centre, 2, metric, near, NEAREST));
    uint64_t sum = 0;
    for (size_t i = 0; i < NEAREST; i++) {
        if (by_distance(&near[i], &all[i]) != 0) {
            fputs("rows: others are nearer by a sort of all\n", stderr);
            exit(1);
        }
        sum += amount[near[i].place];
    }
    printf("nearest to (%" PRIu32 ", %" PRIu32 ") by %s: %d rows, amount %" PRIu64 ", from %" PRIu64
           " to %" PRIu64 " away\n",
           centre[0], centre[1], metric == KULDEBIQ_EUCLID ? "squares" : "the greater difference",
           NEAREST, sum, near[0].distance, near[NEAREST - 1].distance);
}

/* Refused, with a number that says why. */
static void refuse(const kuldebiq_region *region) {
    kuldebiq_stretch stretch;
    kuldebiq_answer answer = kuldebiq_box(codes, COUNT, NULL, 0, region, 0, &stretch);
    if (answer.status == KULDEBIQ_DONE) exit(1);
    printf("refused: %s (%" PRIu64 ")\n", kuldebiq_status_text(answer.status), answer.number);
}

int main(void) {
    fill();
    uint64_t *hints;
    size_t count = make_hints(&hints);
    const kuldebiq_region regions[] = {
        {2, {0, 0}, {SIDE - 1, SIDE - 1}},
        {2, {1000, 2000}, {1999, 2999}},
        {2, {32000, 100}, {33000, 65000}},
        {2, {30000, 30000}, {35000, 35000}},
        {2, {7, 7}, {7, 7}},
    };
    for (size_t i = 0; i < sizeof regions / sizeof regions[0]; i++) ask(&regions[i], hints, count);
    const uint32_t centres[][2] = {{32768, 32767}, {0, SIDE - 1}, {123, 45678}};
    for (size_t i = 0; i < sizeof centres / sizeof centres[0]; i++) {
        ask_near(centres[i], KULDEBIQ_CHEBYSHEV, hints, count);
        ask_near(centres[i], KULDEBIQ_EUCLID, hints, count);
    }
    refuse(&(kuldebiq_region){5, {0}, {0}});
    refuse(&(kuldebiq_region){2, {0, 4}, {9, 3}});
    refuse(&(kuldebiq_region){3, {0, 0, 0}, {9, 9, 1u << 21}});
    free(hints);
    return 0;
}
