/* Lookups in files that are mapped, and not read nor copied:
 *
 *     mapped KEYS HINTS                 makes hints of a key file
 *     mapped KEYS HINTS QUESTION..      how many keys are below each question
 *
 * A key file is the number of keys and then the keys, sorted; hints are the numbers that
 * kuldebiq_hints_write gives. All have 64 bits, the lowest byte first, as this machine has them.
 * With no words it does both over files of its own. */
#define _POSIX_C_SOURCE 200809L
#include "kuldebiq.h"

#include <fcntl.h>
#include <inttypes.h>
#include <stdbool.h>
#include <stdio.h>
#include <stdlib.h>
#include <sys/mman.h>
#include <sys/stat.h>
#include <unistd.h>

static void expect(bool holds, const char *what) {
    if (!holds) {
        fprintf(stderr, "mapped: %s\n", what);
        exit(1);
    }
}

/* A file as the numbers in it, where it lies. */
typedef struct numbers {
    const uint64_t *at;
    size_t count;
} numbers;

static numbers mapped(const char *name) {
    struct stat about;
    int file = open(name, O_RDONLY);
    expect(file >= 0 && fstat(file, &about) == 0, "no such file");
    size_t size = (size_t)about.st_size;
    expect(size > 0 && size % 8 == 0, "a file that isn't made of 64-bit numbers");
    void *at = mmap(NULL, size, PROT_READ, MAP_SHARED, file, 0);
    expect(at != MAP_FAILED, "a file that can't be mapped");
    close(file);
    return (numbers){at, size / 8};
}

static void unmap(numbers file) { munmap((void *)(uintptr_t)file.at, file.count * 8); }

/* The keys of a key file, behind their number. */
static numbers keys_of(numbers file) {
    expect(file.at[0] == file.count - 1, "a key file with another number of keys");
    return (numbers){file.at + 1, file.count - 1};
}

static void save(const char *name, numbers list) {
    FILE *file = fopen(name, "wb");
    expect(file != NULL, "a file that can't be made");
    size_t written = fwrite(list.at, 8, list.count, file);
    expect(fclose(file) == 0 && written == list.count, "a file that can't be written");
}

static void make_hints(const char *keys_name, const char *hints_name) {
    numbers file = mapped(keys_name), keys = keys_of(file);
    kuldebiq_hints hints = KULDEBIQ_NOTHING;
    kuldebiq_answer made = kuldebiq_hints_build(&hints, keys.at, keys.count, 64);
    expect(made.status == KULDEBIQ_DONE, kuldebiq_status_text(made.status));
    uint64_t *room = malloc(made.number * 8);
    expect(room != NULL, "no memory was found");
    kuldebiq_answer written = kuldebiq_hints_write(&hints, room, made.number);
    expect(written.status == KULDEBIQ_DONE, kuldebiq_status_text(written.status));
    save(hints_name, (numbers){room, written.number});
    free(room);
    kuldebiq_hints_free(&hints);
    unmap(file);
}

static void ask(const char *keys_name, const char *hints_name, int count, char **questions) {
    numbers file = mapped(keys_name), keys = keys_of(file), hints = mapped(hints_name);
    for (int i = 0; i < count; i++) {
        uint64_t question = strtoull(questions[i], NULL, 10);
        printf("below %" PRIu64 ": %zu\n", question,
               kuldebiq_find(keys.at, keys.count, hints.at, hints.count, question));
    }
    unmap(hints);
    unmap(file);
}

/* Both, over the squares of 0 to 99,999 in a folder that is taken away again. */
static void show(void) {
    enum { COUNT = 100000 };
    char folder[] = "/tmp/kuldebiq-XXXXXX", keys_name[64], hints_name[64];
    expect(mkdtemp(folder) != NULL, "a folder that can't be made");
    snprintf(keys_name, sizeof keys_name, "%s/keys", folder);
    snprintf(hints_name, sizeof hints_name, "%s/hints", folder);
    uint64_t *squares = malloc((COUNT + 1) * 8);
    expect(squares != NULL, "no memory was found");
    squares[0] = COUNT;
    for (uint64_t i = 0; i < COUNT; i++) squares[i + 1] = i * i;
    save(keys_name, (numbers){squares, COUNT + 1});
    free(squares);
    make_hints(keys_name, hints_name);
    char zero[] = "0", two[] = "2", million[] = "1000000", last[] = "18446744073709551615";
    char *questions[] = {zero, two, million, last};
    ask(keys_name, hints_name, 4, questions);
    unlink(keys_name);
    unlink(hints_name);
    rmdir(folder);
}

int main(int count, char **word) {
    if (count == 1) {
        show();
    } else if (count == 3) {
        make_hints(word[1], word[2]);
    } else if (count > 3) {
        ask(word[1], word[2], count - 3, word + 3);
    } else {
        fputs("usage: mapped KEYS HINTS [QUESTION..]\n", stderr);
        return 2;
    }
    return 0;
}
