/* Keys in a file that is read by pages, and neither read whole nor mapped: the hints, which are in
 * memory, say which page to read first. They need not be trusted: what a page holds decides. So half
 * of the runs take damaged hints, and each run finds what halving finds. */
#define _POSIX_C_SOURCE 200809L
#include "answers.h"

#include <stdbool.h>
#include <string.h>
#include <unistd.h>

enum { KEYS = 10000000, A_PAGE = 512, PAGES = (KEYS + A_PAGE - 1) / A_PAGE, QUESTIONS = 20000 };

static int file;
static uint64_t pages_read;
static uint64_t questions[QUESTIONS], places[QUESTIONS];

/* A page of the file in memory: 4 KiB of keys, fewer in the last one. */
typedef struct page {
    uint64_t keys[A_PAGE];
    size_t count;
} page;

static void expect(bool holds, const char *what) {
    if (!holds) {
        fprintf(stderr, "pages: %s\n", what);
        exit(1);
    }
}

static void read_page(size_t number, page *into) {
    ssize_t size = pread(file, into->keys, sizeof into->keys, (off_t)(number * sizeof into->keys));
    expect(size > 0 && size % 8 == 0, "a page that can't be read");
    into->count = (size_t)size / 8;
    pages_read++;
}

/* How many keys are below the question. Its place is known to lie from the front of one page to the
 * end of another, which narrow with each page that is read. The first one is given; from it on the
 * pages lie twice as far apart each time, until the place lies between two, and then halve. */
static size_t place_of(uint64_t question, size_t first) {
    size_t from = 0, to = PAGES, at = first, step = 1;
    page here;
    for (;;) {
        read_page(at, &here);
        if (question <= here.keys[0] && at > from) {
            to = at;
        } else if (question > here.keys[here.count - 1] && at + 1 < to) {
            from = at + 1;
        } else {
            return at * A_PAGE + kuldebiq_find(here.keys, here.count, NULL, 0, question);
        }
        if (from > 0 && to < PAGES) {
            at = from + (to - from) / 2;
        } else if (from > 0) {
            at = from + step - 1 < to ? from + step - 1 : to - 1;
        } else {
            at = to > step ? to - step : 0;
        }
        step *= 2;
    }
}

/* The same by halving alone. */
static size_t place_by_halving(uint64_t question) {
    size_t from = 0, to = PAGES;
    page here;
    for (;;) {
        size_t at = from + (to - from) / 2;
        read_page(at, &here);
        if (question <= here.keys[0] && at > from) {
            to = at;
        } else if (question > here.keys[here.count - 1] && at + 1 < to) {
            from = at + 1;
        } else {
            return at * A_PAGE + kuldebiq_find(here.keys, here.count, NULL, 0, question);
        }
    }
}

static void tell(const char *how) {
    printf("%s: %.1f pages a lookup\n", how, (double)pages_read / QUESTIONS);
    pages_read = 0;
}

/* By hints that may be any numbers. */
static void ask(const char *how, const uint64_t *hints, size_t hint_count) {
    for (size_t i = 0; i < QUESTIONS; i++) {
        size_t told = kuldebiq_told(hints, hint_count, KEYS, questions[i]);
        size_t at = told < KEYS ? told / A_PAGE : PAGES - 1;
        expect(place_of(questions[i], at) == places[i], "another place than by halving");
    }
    tell(how);
}

/* Keys at uneven steps, written to the file, and the questions among them. Gives their hints. */
static uint64_t *make(size_t *hint_count) {
    uint64_t *keys = malloc(KEYS * sizeof *keys), state = 1;
    expect(keys != NULL, "no memory");
    uint64_t key = 0;
    for (size_t i = 0; i < KEYS; i++) keys[i] = key += 1 + drawn(&state) % (i % 1000 < 500 ? 9 : 900);
    for (size_t i = 0; i < QUESTIONS; i++) questions[i] = keys[drawn(&state) % KEYS] + i % 2;
    char name[] = "/tmp/kuldebiq-pages-XXXXXX";
    file = mkstemp(name);
    expect(file >= 0 && unlink(name) == 0, "a file that can't be made");
    for (size_t done = 0; done < KEYS * sizeof *keys;) {
        ssize_t size = write(file, (const char *)keys + done, KEYS * sizeof *keys - done);
        expect(size > 0, "a file that can't be written");
        done += (size_t)size;
    }
    kuldebiq_hints made = KULDEBIQ_NOTHING;
    *hint_count = number("build", kuldebiq_hints_build(&made, keys, KEYS, 32));
    uint64_t *hints = malloc(*hint_count * sizeof *hints);
    expect(hints != NULL, "no memory");
    number("write", kuldebiq_hints_write(&made, hints, *hint_count));
    kuldebiq_hints_free(&made);
    free(keys);
    return hints;
}

int main(void) {
    size_t hint_count;
    uint64_t *hints = make(&hint_count), state = 7;
    kuldebiq_hints_facts facts;
    kuldebiq_hints_of(hints, hint_count, &facts);
    expect(facts.known == 1 && facts.epsilon == 32, "what the hints say of themselves");
    for (size_t i = 0; i < QUESTIONS; i++) places[i] = place_by_halving(questions[i]);
    tell("halving");
    ask("hints", hints, hint_count);
    for (size_t i = 0; i < 6 + facts.lines; i++) {
        hints[6 + drawn(&state) % (hint_count - 6)] ^= (uint64_t)1 << drawn(&state) % 64;
    }
    ask("damaged hints", hints, hint_count);
    memset(hints, 255, hint_count * sizeof *hints);
    ask("no hints", hints, hint_count);
    free(hints);
    close(file);
    return 0;
}
