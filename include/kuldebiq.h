/* SPDX-License-Identifier: MIT
 *
 * Kuldebiq for C and C++: lookups in sorted keys by the PGM-index, and an ordered map that changes.
 *
 * Words. The place of a key is its number in the list, counted from 0. A question is a number to
 * look up. Its position is how many keys are below it, which is the place of the first key that is
 * not below it. A line predicts the places of a run, which is a stretch of neighbouring keys. A
 * hint is a number that leads a lookup and need not be trusted. An entry is what an update costs a
 * map: one for each put or deletion.
 *
 * What to take. Take hints (kuldebiq_find) where many threads ask at once, or where the keys are to
 * stay where they lie, as in a mapped file: a lookup is given the keys and the hints, needs no
 * handle and takes no memory. Else take an index, which keeps a copy of the keys and has a handle
 * for each thread, or a map, whose keys come and go. A call writes to its handle, so handles that
 * lie in one cache line slow one another down: give each at least 64 bytes of its own.
 *
 * What is proved. What a call answers, what it writes, and what a handle holds afterwards are
 * proved to be what is said below, if the caller keeps to the rules here. Three things are tested
 * and not proved: that this header declares the calls of the library, that (NULL, 0) is an empty
 * list, and that what a handle held is freed. How long a call takes and how much memory it asks for
 * is described only.
 *
 * Handles. A kuldebiq_index, a kuldebiq_map or a kuldebiq_hints is a variable of yours that holds
 * an index, a map or hints, or nothing. Begin with KULDEBIQ_NOTHING. From then on only the calls
 * change it, and nobody else frees what it points to. A handle may move: copy it to another place,
 * free there first what that one held, and set the old one to KULDEBIQ_NOTHING. Two copies are
 * never both used. The _free call frees what the handle holds and leaves it holding nothing; it may
 * be called again. A call that fills a handle frees what it held before. Each other call refuses a
 * handle that holds nothing, with KULDEBIQ_NOTHING_HELD.
 *
 * Pointers. These are rules, since a call can't test its pointers. Each pointer is not null, is
 * aligned as its type needs, and points to as many values of its type as the call is told. The
 * values of one pointer lie apart from those of each other pointer of the call, unless both are
 * only read. A pointer that goes with a count may be null if the count is 0: (NULL, 0) is an empty
 * list in each call, and no room. Keys, hints, questions, updates and pairs to load are only
 * read. Nobody may write to them while the call runs; they may be freed once it has returned.
 * Nothing that a call gives points into what a handle holds. A compiler that knows the attribute
 * nonnull warns of a null handle, and -fsanitize=undefined reports one where it is passed.
 *
 * Refusals. Each call tests everything else itself. A refusal is a status with a number. If several
 * refusals fit, the call returns the first one, in the order in which its comment names them. A
 * refused call leaves the handle holding what it held, also when memory runs out. A compiler that
 * can do so warns of an answer that isn't looked at.
 *
 * Room. A call that writes a list is told how many values there is room for, and leaves alone what
 * lies behind the values that it writes. Too little room is refused with KULDEBIQ_TOO_LITTLE_ROOM:
 * nothing is written, and the number is how much room is needed. Only kuldebiq_map_range writes as
 * many values as there is room for, so that a map can be read in parts.
 *
 * Threads. A call without a handle may run beside any other call. A handle is used by one call at a
 * time, also by a call that only asks. Different handles may be used side by side, also two that
 * share an index (kuldebiq_index_share): a program whose threads ask one index gives each thread a
 * handle, in a cache line of its own. A handle may go to another thread by whatever orders memory
 * between the two, such as a lock, or starting or joining a thread. No call waits, and none starts
 * a thread.
 *
 * Costs. None of this is proved. A lookup by hints or in an index searches a few segments, and then
 * the keys near the place to which they lead: epsilon says how near. If many questions come in one
 * call, their reads of memory overlap.
 *
 * kuldebiq_map_get searches a buffer of 64 entries, and then the map's levels, the newest first, up
 * to the first one that has the key; kuldebiq_map_get_many does so for 32 keys side by side.
 * kuldebiq_map_range searches each level once for each 64 pairs that it writes, and then goes along
 * key by key. kuldebiq_map_count searches each level once and goes along all the keys that it
 * counts. kuldebiq_map_next and kuldebiq_map_first, and downwards kuldebiq_map_previous and
 * kuldebiq_map_last, search each level once and go along the deleted keys that they pass, each of
 * which costs as much as another key. A map remembers one stretch of numbers without a key, where 0
 * comes behind 2^64 - 1: a sweep leaves one, kuldebiq_map_pop_first up to the key that it took,
 * kuldebiq_map_pop_last from that key on, and kuldebiq_map_del none. A search that begins in it
 * goes on behind it. So keys may be taken from both ends in turn, and a queue takes its first key
 * by kuldebiq_map_pop_first: after kuldebiq_map_first and kuldebiq_map_del each search would pass
 * all the keys that were taken before.
 *
 * A put writes to the buffer. Each 64th put merges levels: half of the time only the lowest, and at
 * the longest all of them, which takes as long as loading the whole map. A level that has an entry
 * for a key keeps that entry, its place in the level's index and some bits of a filter. Old entries
 * go when their levels are merged or the map is compacted.
 *
 * Surroundings. The library is for Linux on x86-64-v2. kuldebiq_version and those calls of "Lookups
 * by hints" that have no handle only read what they are given and write to the caller's room, so
 * they may also be made from a signal handler and in the forked child of a process with threads.
 * Make no other call there. 64 KiB of stack are enough for each call; that is measured, and not
 * proved (examples/c/stack.c, whose calls took 6 KiB).
 *
 * Memory. The library asks for memory by three functions. The archive that examples/install.sh
 * makes has them inside, over malloc, realloc and free. A program that links crates/kuldebiq's own
 * archive may bring its own three. Their contract:
 *
 *     typedef struct { bool found; void *at; } tried;
 *     tried rattle_alloc(size_t size, size_t align);
 *     tried rattle_realloc(void *at, size_t old_size, size_t size, size_t align);
 *     void rattle_dealloc(void *at);
 *
 * align is a power of two, 1 to 16. A block is aligned to each power of two up to 16 that divides
 * its size. If there is memory, found is true and at is the block, also for size 0: that is a block
 * of its own, as of align bytes, which is given back like any other. If there is none, found is
 * false, at is not null and is not used, and a block that was to grow stays as it was.
 * rattle_realloc keeps the first bytes of the block, as many as the lesser of the two sizes, and
 * gives back the block at the old place. Each block is given back once, by rattle_dealloc. All
 * three belong to one allocator, and don't call this library.
 */
#ifndef KULDEBIQ_H
#define KULDEBIQ_H

#include <stddef.h>
#include <stdint.h>

#ifdef __cplusplus
extern "C" {
#endif

/* The version of this header, as a number and as a text. kuldebiq_version() is the library's. */
#define KULDEBIQ_VERSION 1000
#define KULDEBIQ_VERSION_TEXT "0.1.0"

/* The parameters at these places, counted from 1, must not be null. */
#if defined(__GNUC__)
#define KULDEBIQ_NOT_NULL(places) __attribute__((nonnull places))
#else
#define KULDEBIQ_NOT_NULL(places)
#endif

/* The caller has to look at the answer of this call. */
#if (defined(__cplusplus) && __cplusplus >= 201703L) ||                                            \
    (defined(__STDC_VERSION__) && __STDC_VERSION__ >= 202311L)
#define KULDEBIQ_NODISCARD [[nodiscard]]
#elif defined(__GNUC__)
#define KULDEBIQ_NODISCARD __attribute__((warn_unused_result))
#else
#define KULDEBIQ_NODISCARD
#endif

/* How a call ended, and the number that goes with it. */
enum {
    /* The call did its work. Its comment says what the number is. */
    KULDEBIQ_DONE = 0,
    /* There was not enough memory. The number is 0. */
    KULDEBIQ_NO_MEMORY = 1,
    /* The handle holds nothing. The number is 0. */
    KULDEBIQ_NOTHING_HELD = 2,
    /* There is no such key. The number is 0. */
    KULDEBIQ_ABSENT = 3,
    /* The keys aren't in order. The number is the first place whose key is below the key before it;
       of pairs, the first place whose key isn't above the key before it. */
    KULDEBIQ_UNSORTED = 4,
    /* There are 2^32 keys or more. The number is how many there are. */
    KULDEBIQ_TOO_MANY_KEYS = 5,
    /* An error bound is above 1,048,576. The number is that bound. */
    KULDEBIQ_EPSILON_TOO_GREAT = 6,
    /* There is no such level. The number is how many levels there are. */
    KULDEBIQ_NO_SUCH_LEVEL = 7,
    /* There is no such segment. The number is how many segments the level has. */
    KULDEBIQ_NO_SUCH_SEGMENT = 8,
    /* There isn't room for all that is to be written. The number is how much room is needed. */
    KULDEBIQ_TOO_LITTLE_ROOM = 9,
    /* A map has 1 to 26 levels. The number is how many were asked for. */
    KULDEBIQ_LEVELS_OUT_OF_RANGE = 10,
    /* The map can't accept so many entries. The number is how many it has accepted, or, of a map
       that was to be made, how many it could accept. */
    KULDEBIQ_FULL = 11,
    /* There is no key at this place. The number is how many keys there are. */
    KULDEBIQ_NO_SUCH_PLACE = 12,
    /* An update is neither a put nor a deletion nor a sweep. The number is the place of the first
       such update, counted from 0. */
    KULDEBIQ_NO_SUCH_KIND = 13,
    /* A point or a region has 2, 3 or 4 coordinates. The number is how many were given. */
    KULDEBIQ_DIMS_OUT_OF_RANGE = 14,
    /* A number is too great for a coordinate. The number is the first place of one. */
    KULDEBIQ_COORDINATE_TOO_GREAT = 15,
    /* A region's low is above its high, or its high is too great for a coordinate. The number is
       the first such coordinate, counted from 0. */
    KULDEBIQ_NO_INTERVAL = 16,
    /* A number from 2^63 on is no code of three coordinates. The number is 0. */
    KULDEBIQ_NO_CODE = 17,
    /* The coordinates end within a point. The number is how many they are. */
    KULDEBIQ_PART_OF_A_POINT = 18,
    /* There is no such metric. The number is what was given. */
    KULDEBIQ_NO_SUCH_METRIC = 19
};

/* A status in words. The text lives as long as the program. */
static inline const char *kuldebiq_status_text(uint32_t status) {
    switch (status) {
    case KULDEBIQ_DONE: return "done";
    case KULDEBIQ_NO_MEMORY: return "no memory was found";
    case KULDEBIQ_NOTHING_HELD: return "the handle holds nothing";
    case KULDEBIQ_ABSENT: return "there is no such key";
    case KULDEBIQ_UNSORTED: return "the keys aren't in order";
    case KULDEBIQ_TOO_MANY_KEYS: return "there are 2^32 keys or more";
    case KULDEBIQ_EPSILON_TOO_GREAT: return "an error bound is above 1,048,576";
    case KULDEBIQ_NO_SUCH_LEVEL: return "there is no such level";
    case KULDEBIQ_NO_SUCH_SEGMENT: return "there is no such segment";
    case KULDEBIQ_TOO_LITTLE_ROOM: return "there isn't room for all that is to be written";
    case KULDEBIQ_LEVELS_OUT_OF_RANGE: return "a map has 1 to 26 levels";
    case KULDEBIQ_FULL: return "the map can't accept as many entries";
    case KULDEBIQ_NO_SUCH_PLACE: return "there is no key at such a place";
    case KULDEBIQ_NO_SUCH_KIND: return "an update is neither a put nor a deletion nor a sweep";
    case KULDEBIQ_DIMS_OUT_OF_RANGE: return "a point has 2 to 4 coordinates";
    case KULDEBIQ_COORDINATE_TOO_GREAT: return "a number is too great for a coordinate";
    case KULDEBIQ_NO_INTERVAL: return "a low is above its high, or a high is too great";
    case KULDEBIQ_NO_CODE: return "a number from 2^63 on is no code of three coordinates";
    case KULDEBIQ_PART_OF_A_POINT: return "the coordinates end within a point";
    case KULDEBIQ_NO_SUCH_METRIC: return "there is no such metric";
    default: return "no status of this version";
    }
}

typedef struct kuldebiq_answer {
    uint32_t status; /* KULDEBIQ_DONE, or why the call was refused */
    uint64_t number; /* the answer, or what the status says of it */
} kuldebiq_answer;

/* A handle to an index, or to nothing. */
typedef struct kuldebiq_held_index *kuldebiq_index;

/* A handle to a map, or to nothing. */
typedef struct kuldebiq_held_map *kuldebiq_map;

/* A handle to hints, or to nothing. */
typedef struct kuldebiq_held_hints *kuldebiq_hints;

/* What a handle begins with, kuldebiq_index index = KULDEBIQ_NOTHING; and what one becomes that
 * moved: *from = KULDEBIQ_NOTHING; */
#if defined(__cplusplus) && __cplusplus >= 201103L
#define KULDEBIQ_NOTHING nullptr
#else
#define KULDEBIQ_NOTHING NULL
#endif

/* A segment of a level: where its run of places begins, its line, and a witness that the run had to
 * end, which is three places that no line fits.
 *
 * A place of level 0 is a point (x, y). Each distinct key is one, at its first position among the
 * keys. Behind a key that repeats comes a further point: the number after the key, at the position
 * after the last of these keys, unless that number is a key too or has more than 64 bits. A place
 * of a level above is a segment of the level below, at its first x.
 *
 * The line y0 + rise * (x - x0) / run, in exact fractions, is within the level's error bound e of
 * each place of the run, and is the steepest one that is. It goes through (x of a, y of a - e) and
 * (x of b, y of b + e), and x0 is the x of a. If the run has one place, the line is level, at that
 * place's y. No line is within e at all three of the places p, q and r. */
typedef struct kuldebiq_segment {
    uint32_t start; /* the first place of the run, which ends before the next segment's start */
    uint32_t a;     /* the place whose point lies above the line, by the bound */
    uint32_t b;     /* the place whose point lies below it, by the bound; a in a run of one place */
    uint32_t side;  /* where the place r lies: 1 over the steepest line that fits the run, 2 under
                       the flattest; 0 if the run is the level's last one, which has no witness: p,
                       q and r are 0 then */
    uint32_t p;     /* the first place of the witness, in the run */
    uint32_t q;     /* the second place of the witness, in the run */
    uint32_t r;     /* the third one, which the run had to leave out */
    uint64_t x0;    /* the x of a, at which the line has the height y0 */
    int64_t y0;     /* that height; may be below 0 */
    uint64_t rise;  /* by how much the line rises */
    uint64_t run;   /* over how great a distance in x, at least 1 */
} kuldebiq_segment;

/* A key with its value. */
typedef struct kuldebiq_pair {
    uint64_t key;
    uint64_t value;
} kuldebiq_pair;

/* What an update does. */
enum {
    KULDEBIQ_PUT = 0,  /* puts the value at the key */
    KULDEBIQ_DEL = 1,  /* deletes the key; the value isn't read */
    KULDEBIQ_SWEEP = 2 /* deletes the keys from the key to the value, both included */
};

/* One of many updates of a map. */
typedef struct kuldebiq_update {
    uint32_t kind;  /* KULDEBIQ_PUT, KULDEBIQ_DEL or KULDEBIQ_SWEEP */
    uint64_t key;   /* the key; of a sweep, the lowest key */
    uint64_t value; /* the value of a put; of a sweep, the highest key */
} kuldebiq_update;

/* A region: the least and the greatest number of each coordinate, both included. Only the first
 * dims of them are read. */
typedef struct kuldebiq_region {
    uint32_t dims;
    uint32_t low[4];
    uint32_t high[4];
} kuldebiq_region;

/* Places that stand side by side: from first on, before end. */
typedef struct kuldebiq_stretch {
    size_t first;
    size_t end;
} kuldebiq_stretch;

/* What hints say of themselves. It need not be true of any keys. */
typedef struct kuldebiq_hints_facts {
    uint64_t known;   /* 1 if they are in the format, and else 0, as the rest is then */
    uint64_t epsilon; /* the error bound that they were made with */
    uint64_t lines;   /* how many lines they have */
} kuldebiq_hints_facts;

/* How far two points are from one another. */
enum {
    KULDEBIQ_CHEBYSHEV = 0, /* the greatest difference of a coordinate */
    KULDEBIQ_EUCLID = 1     /* the square of the distance: the sum of the differences' squares */
};

/* A place in sorted codes, and how far the point of its code is from a centre. */
typedef struct kuldebiq_neighbour {
    uint64_t place;
    uint64_t distance;      /* by KULDEBIQ_EUCLID the square's lowest 64 bits */
    uint64_t distance_high; /* how many times 2^64 more: 0 to 3, and 0 by KULDEBIQ_CHEBYSHEV */
} kuldebiq_neighbour;

/* Sizes and offsets are the same as in the library. */
#if defined(__cplusplus) && __cplusplus >= 201103L
#define KULDEBIQ_IS(holds) static_assert(holds, "another layout than the library's")
#elif !defined(__cplusplus) && defined(__STDC_VERSION__) && __STDC_VERSION__ >= 201112L
#define KULDEBIQ_IS(holds) _Static_assert(holds, "another layout than the library's")
#endif
#ifdef KULDEBIQ_IS
KULDEBIQ_IS(sizeof(void *) == 8 && sizeof(size_t) == 8);
KULDEBIQ_IS(sizeof(kuldebiq_answer) == 16 && offsetof(kuldebiq_answer, number) == 8);
KULDEBIQ_IS(sizeof(kuldebiq_index) == 8 && sizeof(kuldebiq_map) == 8);
KULDEBIQ_IS(sizeof(kuldebiq_hints) == 8);
KULDEBIQ_IS(sizeof(kuldebiq_segment) == 64 && offsetof(kuldebiq_segment, a) == 4);
KULDEBIQ_IS(offsetof(kuldebiq_segment, b) == 8 && offsetof(kuldebiq_segment, side) == 12);
KULDEBIQ_IS(offsetof(kuldebiq_segment, p) == 16 && offsetof(kuldebiq_segment, q) == 20);
KULDEBIQ_IS(offsetof(kuldebiq_segment, r) == 24 && offsetof(kuldebiq_segment, x0) == 32);
KULDEBIQ_IS(offsetof(kuldebiq_segment, y0) == 40 && offsetof(kuldebiq_segment, rise) == 48);
KULDEBIQ_IS(offsetof(kuldebiq_segment, run) == 56);
KULDEBIQ_IS(sizeof(kuldebiq_pair) == 16 && offsetof(kuldebiq_pair, value) == 8);
KULDEBIQ_IS(sizeof(kuldebiq_update) == 24 && offsetof(kuldebiq_update, key) == 8);
KULDEBIQ_IS(offsetof(kuldebiq_update, value) == 16);
KULDEBIQ_IS(sizeof(kuldebiq_region) == 36 && offsetof(kuldebiq_region, low) == 4);
KULDEBIQ_IS(offsetof(kuldebiq_region, high) == 20);
KULDEBIQ_IS(sizeof(kuldebiq_stretch) == 16 && offsetof(kuldebiq_stretch, end) == 8);
KULDEBIQ_IS(sizeof(kuldebiq_hints_facts) == 24 && offsetof(kuldebiq_hints_facts, epsilon) == 8);
KULDEBIQ_IS(offsetof(kuldebiq_hints_facts, lines) == 16);
KULDEBIQ_IS(sizeof(kuldebiq_neighbour) == 24 && offsetof(kuldebiq_neighbour, distance) == 8);
KULDEBIQ_IS(offsetof(kuldebiq_neighbour, distance_high) == 16);
#endif
#undef KULDEBIQ_IS

/* The version of the library, to be compared with KULDEBIQ_VERSION, that of this header. */
uint32_t kuldebiq_version(void);

/* ---- Lookups by hints ----
 *
 * The keys stay yours, and so do the hints, numbers that lead a lookup among them. Both may lie in
 * memory or be mapped from files. The hints that kuldebiq_hints_write gave for these very keys make
 * a lookup fast; damaged hints, those of other keys, or none, (NULL, 0), make it slower and nothing
 * else. The keys need not be in order either. If a key is below the one before it, a lookup returns
 * a place that brackets the question: the key before that place is below the question, unless the
 * place is 0, and the key at it isn't, unless the place is count. There may be several such places.
 * Which one is returned depends on the hints, and kuldebiq_find_many may write another one than
 * kuldebiq_find returns.
 *
 * A call whose name ends with 32 is the same for keys of 32 bits each. Hints and questions have 64
 * bits in all calls. */

/* Returns how many keys are below the question, if the keys never fall: the place of the first key
 * that is not below the question, or count if there is none. In any keys it returns a place from 0
 * to count that brackets the question. */
size_t kuldebiq_find(const uint64_t *keys, size_t count, const uint64_t *hints, size_t hint_count,
                     uint64_t question);

/* Returns how many keys are at most the question, if the keys never fall: all of them for 2^64 - 1.
 * The keys that equal the question then stand from the place that kuldebiq_find returns up to this
 * one. In any keys it returns a place from 0 to count: the key before it is at most the question,
 * unless the place is 0, and the key at it isn't, unless the place is count. */
size_t kuldebiq_find_past(const uint64_t *keys, size_t count, const uint64_t *hints,
                          size_t hint_count, uint64_t question);

size_t kuldebiq_find32(const uint32_t *keys, size_t count, const uint64_t *hints,
                       size_t hint_count, uint64_t question);
size_t kuldebiq_find_past32(const uint32_t *keys, size_t count, const uint64_t *hints,
                            size_t hint_count, uint64_t question);

/* Writes the place of each question, faster than a call for each. If the keys never fall, it is
 * what kuldebiq_find returns, and in any keys a place that brackets the question. The number is how
 * many questions there are, which may come in any order. room is how many places there is room for,
 * at least one for each question.
 *
 * Refused with KULDEBIQ_TOO_LITTLE_ROOM. Then nothing is written. */
KULDEBIQ_NODISCARD
kuldebiq_answer kuldebiq_find_many(const uint64_t *keys, size_t count, const uint64_t *hints,
                                   size_t hint_count, const uint64_t *questions, size_t asked,
                                   size_t *places, size_t room);
KULDEBIQ_NODISCARD
kuldebiq_answer kuldebiq_find_many32(const uint32_t *keys, size_t count, const uint64_t *hints,
                                     size_t hint_count, const uint64_t *questions, size_t asked,
                                     size_t *places, size_t room);

/* The same with the places that kuldebiq_find_past returns. In keys that fall it may write another
 * one, of which the same holds.
 *
 * Refused with KULDEBIQ_TOO_LITTLE_ROOM. Then nothing is written. */
KULDEBIQ_NODISCARD
kuldebiq_answer kuldebiq_find_past_many(const uint64_t *keys, size_t count, const uint64_t *hints,
                                        size_t hint_count, const uint64_t *questions, size_t asked,
                                        size_t *places, size_t room);
KULDEBIQ_NODISCARD
kuldebiq_answer kuldebiq_find_past_many32(const uint32_t *keys, size_t count, const uint64_t *hints,
                                          size_t hint_count, const uint64_t *questions,
                                          size_t asked, size_t *places, size_t room);

/* Returns where the hints say that the question's place is, from 0 to count: where to look first
 * among count keys that lie where no call can read them, as in pages of a file. Hints that were
 * made of these keys lead to within their epsilon + 2 of the place that kuldebiq_find returns; no
 * other hints need to. Hints in no format say 0. */
size_t kuldebiq_told(const uint64_t *hints, size_t hint_count, size_t count, uint64_t question);

/* Writes what hints say of themselves. Hints in no format leave all three numbers 0. */
void kuldebiq_hints_of(const uint64_t *hints, size_t hint_count, kuldebiq_hints_facts *facts)
    KULDEBIQ_NOT_NULL((3));

/* Makes hints of the sorted keys, and has the handle hold them. The keys are judged first, before
 * any memory is asked for. They aren't copied.
 *
 * epsilon is the error bound, in positions, at most 1,048,576. The hints describe as few lines as
 * possible within epsilon of the keys' positions, as many as level 0 of an index has segments. They
 * lead each question to within epsilon + 2 of its position. A greater bound takes as many lines or
 * fewer, and a lookup reads more keys.
 *
 * The number is how many hints there are: six, a table, and three for each line, in all at most six
 * and five for each line. What the handle held before is freed.
 *
 * Refused with KULDEBIQ_EPSILON_TOO_GREAT, KULDEBIQ_TOO_MANY_KEYS, KULDEBIQ_UNSORTED or
 * KULDEBIQ_NO_MEMORY, judged in this order. Then the handle holds what it held. */
KULDEBIQ_NODISCARD
kuldebiq_answer kuldebiq_hints_build(kuldebiq_hints *hints, const uint64_t *keys, size_t count,
                                     uint32_t epsilon) KULDEBIQ_NOT_NULL((1));

/* The same of keys of 32 bits each. While the hints are made they take 8 bytes a key more, for a
 * copy. */
KULDEBIQ_NODISCARD
kuldebiq_answer kuldebiq_hints_build32(kuldebiq_hints *hints, const uint32_t *keys, size_t count,
                                       uint32_t epsilon) KULDEBIQ_NOT_NULL((1));

/* The number is how many hints the handle holds.
 *
 * Refused with KULDEBIQ_NOTHING_HELD. */
KULDEBIQ_NODISCARD
kuldebiq_answer kuldebiq_hints_count(kuldebiq_hints *hints) KULDEBIQ_NOT_NULL((1));

/* Writes the hints, to be kept, saved or mapped. A file of them has each hint in 64 bits, lowest
 * byte first. The number is how many hints there are. room is how many hints there is room for.
 *
 * Refused with KULDEBIQ_NOTHING_HELD or KULDEBIQ_TOO_LITTLE_ROOM, judged in this order. Then
 * nothing is written. */
KULDEBIQ_NODISCARD
kuldebiq_answer kuldebiq_hints_write(kuldebiq_hints *hints, uint64_t *to, size_t room)
    KULDEBIQ_NOT_NULL((1));

/* Frees what the handle holds, if anything. It holds nothing then. */
void kuldebiq_hints_free(kuldebiq_hints *hints) KULDEBIQ_NOT_NULL((1));

/* ---- Boxes in sorted codes ----
 *
 * The code of a point (Morton's, or Z-order) interleaves the bits of its coordinates: bit b of
 * coordinate c is bit b * dims + c of the code. A point has 2, 3 or 4 coordinates, each below 2^32,
 * 2^21 or 2^16. Rows that are kept in the order of their points' codes are asked for a region by
 * stretches of places: rows from first on, before end. The codes stay yours, and so do the hints,
 * as in lookups: hints of these very codes make a call fast, and others, or none, slower and
 * nothing else. No call has a handle or takes memory, so any threads may ask side by side. */

/* The number is the code of a point of dims coordinates.
 *
 * Refused with KULDEBIQ_DIMS_OUT_OF_RANGE or KULDEBIQ_COORDINATE_TOO_GREAT, judged in this order. */
KULDEBIQ_NODISCARD
kuldebiq_answer kuldebiq_code(const uint32_t *point, size_t dims);

/* Writes the dims coordinates of a code. The number is dims.
 *
 * Refused with KULDEBIQ_DIMS_OUT_OF_RANGE or KULDEBIQ_NO_CODE, judged in this order. Then nothing
 * is written. */
KULDEBIQ_NODISCARD
kuldebiq_answer kuldebiq_point(uint64_t code, uint32_t *point, size_t dims);

/* Writes the codes of points, in their order. coordinates has count numbers: those of the first
 * point, then those of the second, and so on. The number is how many points there are. room is how
 * many codes there is room for, at least one for each point.
 *
 * Refused with KULDEBIQ_DIMS_OUT_OF_RANGE, KULDEBIQ_PART_OF_A_POINT, KULDEBIQ_COORDINATE_TOO_GREAT
 * or KULDEBIQ_TOO_LITTLE_ROOM, judged in this order. Then nothing is written. */
KULDEBIQ_NODISCARD
kuldebiq_answer kuldebiq_codes(uint32_t dims, const uint32_t *coordinates, size_t count,
                               uint64_t *codes, size_t room);

/* Writes the next places, from one on, whose codes lie in the region. The number is how many they
 * are. At the end it is 0, and first and end are count.
 *
 * If the codes never fall, the places are all that stand side by side, so calls from 0 on, each
 * from the end of the one before, give all places of codes in the region, each once and in order.
 * Of codes that fall it gives some stretches, each behind the one before, and then comes to the
 * end. A number that is no code of so many coordinates lies in no region.
 *
 * Refused with KULDEBIQ_DIMS_OUT_OF_RANGE or KULDEBIQ_NO_INTERVAL, judged in this order. Then
 * nothing is written. */
KULDEBIQ_NODISCARD
kuldebiq_answer kuldebiq_box(const uint64_t *codes, size_t count, const uint64_t *hints,
                             size_t hint_count, const kuldebiq_region *region, size_t from,
                             kuldebiq_stretch *stretch) KULDEBIQ_NOT_NULL((5, 7));

/* Writes the places whose points are nearest to a centre of dims coordinates, the nearest first,
 * and of those that are equally far the lower place first: as many as there is room for, or all.
 * The number is how many were written. The search works in this room alone. metric is
 * KULDEBIQ_CHEBYSHEV or KULDEBIQ_EUCLID.
 *
 * If the codes never fall and all are codes of dims coordinates, no other place stands before one
 * that is written. In any numbers each place is written at most once, with its own distance; of a
 * number from 2^63 on the highest bit doesn't count if dims is 3.
 *
 * Refused with KULDEBIQ_DIMS_OUT_OF_RANGE, KULDEBIQ_COORDINATE_TOO_GREAT or
 * KULDEBIQ_NO_SUCH_METRIC, judged in this order. Then nothing is written. */
KULDEBIQ_NODISCARD
kuldebiq_answer kuldebiq_nearest(const uint64_t *codes, size_t count, const uint64_t *hints,
                                 size_t hint_count, const uint32_t *centre, size_t dims,
                                 uint32_t metric, kuldebiq_neighbour *neighbours, size_t room);

/* ---- The index ----
 *
 * An index has levels of segments over sorted keys. Level 0 has the fewest segments whose lines are
 * within epsilon of the keys' positions. Each level above has the fewest segments that are within
 * epsilon_above over the first x of the segments below it, and the last level has one segment. A
 * key may repeat. */

/* Builds the index of the sorted keys, and has the handle hold it. The keys are judged first,
 * before any memory is asked for, and then copied.
 *
 * epsilon is the error bound of level 0, in positions. epsilon_above is that of the levels above,
 * in places. Both are at most 1,048,576; 64 and 4 serve most keys. The number is how many keys
 * there are. What the handle held before is freed.
 *
 * Refused with KULDEBIQ_EPSILON_TOO_GREAT (the number is the greater bound),
 * KULDEBIQ_TOO_MANY_KEYS, KULDEBIQ_UNSORTED or KULDEBIQ_NO_MEMORY, judged in this order. Then the
 * handle holds what it held. */
KULDEBIQ_NODISCARD
kuldebiq_answer kuldebiq_index_build(kuldebiq_index *index, const uint64_t *keys, size_t count,
                                     uint32_t epsilon, uint32_t epsilon_above)
    KULDEBIQ_NOT_NULL((1));

/* Has a second handle hold the first one's index too, for use by another thread. The number is 0.
 * The index is freed once no handle holds it. What the second handle held before is freed.
 *
 * Refused with KULDEBIQ_NOTHING_HELD or KULDEBIQ_NO_MEMORY. Then the second handle holds what it
 * held. */
KULDEBIQ_NODISCARD
kuldebiq_answer kuldebiq_index_share(kuldebiq_index *index, kuldebiq_index *other)
    KULDEBIQ_NOT_NULL((1, 2));

/* Frees what the handle holds, if anything. It holds nothing then. */
void kuldebiq_index_free(kuldebiq_index *index) KULDEBIQ_NOT_NULL((1));

/* The number is the position of a question: how many keys are below it. That is the place of the
 * first key that is not below the question, or the number of keys if there is none.
 *
 * Refused with KULDEBIQ_NOTHING_HELD. */
KULDEBIQ_NODISCARD
kuldebiq_answer kuldebiq_position(kuldebiq_index *index, uint64_t question) KULDEBIQ_NOT_NULL((1));

/* The number is how many keys are at most the question. That is the place of the first key that is
 * above the question, or the number of keys if there is none, as for 2^64 - 1. The keys that equal
 * the question stand from its position up to this place.
 *
 * Refused with KULDEBIQ_NOTHING_HELD. */
KULDEBIQ_NODISCARD
kuldebiq_answer kuldebiq_position_after(kuldebiq_index *index, uint64_t question)
    KULDEBIQ_NOT_NULL((1));

/* The number is the key at a place, counted from 0.
 *
 * Refused with KULDEBIQ_NOTHING_HELD or KULDEBIQ_NO_SUCH_PLACE. */
KULDEBIQ_NODISCARD
kuldebiq_answer kuldebiq_key_at(kuldebiq_index *index, uint64_t place) KULDEBIQ_NOT_NULL((1));

/* Writes the position of each question at that question's place, faster than a call for each. The
 * number is how many questions there are, which may come in any order. room is how many positions
 * there is room for, at least one for each question. The call takes memory for at most 4096
 * positions, and does without if there is none.
 *
 * Refused with KULDEBIQ_NOTHING_HELD or KULDEBIQ_TOO_LITTLE_ROOM, judged in this order. Then
 * nothing is written. */
KULDEBIQ_NODISCARD
kuldebiq_answer kuldebiq_positions(kuldebiq_index *index, const uint64_t *questions, size_t count,
                                   uint32_t *positions, size_t room) KULDEBIQ_NOT_NULL((1));

/* The number is how many keys there are.
 *
 * Refused with KULDEBIQ_NOTHING_HELD. */
KULDEBIQ_NODISCARD
kuldebiq_answer kuldebiq_index_keys(kuldebiq_index *index) KULDEBIQ_NOT_NULL((1));

/* The number is how many levels there are: 0 if there is no key.
 *
 * Refused with KULDEBIQ_NOTHING_HELD. */
KULDEBIQ_NODISCARD
kuldebiq_answer kuldebiq_index_levels(kuldebiq_index *index) KULDEBIQ_NOT_NULL((1));

/* The number is how many segments a level has. Levels are counted from 0, the lowest.
 *
 * Refused with KULDEBIQ_NOTHING_HELD or KULDEBIQ_NO_SUCH_LEVEL. */
KULDEBIQ_NODISCARD
kuldebiq_answer kuldebiq_index_segments(kuldebiq_index *index, uint32_t level)
    KULDEBIQ_NOT_NULL((1));

/* Writes the segment at a place of a level, counted from 0. The number is 0.
 *
 * Refused with KULDEBIQ_NOTHING_HELD, KULDEBIQ_NO_SUCH_LEVEL or KULDEBIQ_NO_SUCH_SEGMENT, judged in
 * this order. Then nothing is written. */
KULDEBIQ_NODISCARD
kuldebiq_answer kuldebiq_index_segment(kuldebiq_index *index, uint32_t level, uint64_t place,
                                       kuldebiq_segment *segment) KULDEBIQ_NOT_NULL((1, 4));

/* ---- The map ----
 *
 * An ordered map of keys to values. A map accepts a certain number of entries in its life and no
 * more: a put or a deletion is one entry, whatever was at the key, and a sweep (the deletion of a
 * range of keys) is one for each key that it deletes. With 26 levels it accepts 4,294,967,295: at a
 * million a second they last 71 minutes. A map that is to go on is made anew by
 * kuldebiq_map_compact when it is full, with one entry for each key. */

/* Makes an empty map, and has the handle hold it. levels is 1 to 26. The number is how many entries
 * the map accepts: 64 * 2^levels - 1. What the handle held before is freed.
 *
 * Refused with KULDEBIQ_LEVELS_OUT_OF_RANGE or KULDEBIQ_NO_MEMORY. Then the handle holds what it
 * held. */
KULDEBIQ_NODISCARD
kuldebiq_answer kuldebiq_map_new(kuldebiq_map *map, uint32_t levels) KULDEBIQ_NOT_NULL((1));

/* Makes the map of pairs whose keys rise, and has the handle hold it. levels is as for
 * kuldebiq_map_new, and the map has accepted one entry for each pair. The number is count. The
 * pairs are judged first, before any memory is asked for, and then copied. What the handle held
 * before is freed.
 *
 * Refused with KULDEBIQ_LEVELS_OUT_OF_RANGE, KULDEBIQ_UNSORTED (the number is the first place whose
 * key isn't above the one before it), KULDEBIQ_FULL (the number is how many entries such a map can
 * accept) or KULDEBIQ_NO_MEMORY, judged in this order. Then the handle holds what it held. */
KULDEBIQ_NODISCARD
kuldebiq_answer kuldebiq_map_load(kuldebiq_map *map, uint32_t levels, const kuldebiq_pair *pairs,
                                  size_t count) KULDEBIQ_NOT_NULL((1));

/* Makes the handle's map anew from its keys and values. The new map has this many levels, 1 to 26,
 * and has accepted one entry for each key and no other. So a map that is full can go on, with more
 * levels or without its old entries. The number is how many keys it has. While the call runs both
 * maps take memory.
 *
 * Refused with KULDEBIQ_NOTHING_HELD, KULDEBIQ_LEVELS_OUT_OF_RANGE, KULDEBIQ_FULL (the number is
 * how many entries such a map can accept) or KULDEBIQ_NO_MEMORY. The first two are judged in this
 * order; if there are too many keys, either of the last two is returned. Then the map is as it
 * was. */
KULDEBIQ_NODISCARD
kuldebiq_answer kuldebiq_map_compact(kuldebiq_map *map, uint32_t levels) KULDEBIQ_NOT_NULL((1));

/* Frees what the handle holds, if anything. It holds nothing then. */
void kuldebiq_map_free(kuldebiq_map *map) KULDEBIQ_NOT_NULL((1));

/* Puts a value at a key, and replaces the value that was there. The number is 0.
 *
 * Refused with KULDEBIQ_NOTHING_HELD, KULDEBIQ_FULL or KULDEBIQ_NO_MEMORY, judged in this order.
 * Then the map is as it was. */
KULDEBIQ_NODISCARD
kuldebiq_answer kuldebiq_map_put(kuldebiq_map *map, uint64_t key, uint64_t value)
    KULDEBIQ_NOT_NULL((1));

/* Deletes a key. The number is 1 if the map had it, and 0 if not; either is an entry.
 *
 * Refused as kuldebiq_map_put is. */
KULDEBIQ_NODISCARD
kuldebiq_answer kuldebiq_map_del(kuldebiq_map *map, uint64_t key) KULDEBIQ_NOT_NULL((1));

/* Deletes the keys from low to high, both included. The number is how many there were: none if low
 * is above high.
 *
 * Refused as kuldebiq_map_put is, with KULDEBIQ_FULL if the map can't accept an entry for each. */
KULDEBIQ_NODISCARD
kuldebiq_answer kuldebiq_map_sweep(kuldebiq_map *map, uint64_t low, uint64_t high)
    KULDEBIQ_NOT_NULL((1));

/* Applies many updates in order, all or none. This does the same as a call for each and is faster.
 * The number is count. The call takes memory for a copy of the updates.
 *
 * Refused with KULDEBIQ_NOTHING_HELD, KULDEBIQ_NO_SUCH_KIND, KULDEBIQ_FULL or KULDEBIQ_NO_MEMORY.
 * The first two are judged in this order; if the entries are too many, either of the last two is
 * returned. Then the map is as it was. */
KULDEBIQ_NODISCARD
kuldebiq_answer kuldebiq_map_apply(kuldebiq_map *map, const kuldebiq_update *updates, size_t count)
    KULDEBIQ_NOT_NULL((1));

/* The number is the value at a key.
 *
 * Refused with KULDEBIQ_NOTHING_HELD, or with KULDEBIQ_ABSENT if the map doesn't have the key. */
KULDEBIQ_NODISCARD
kuldebiq_answer kuldebiq_map_get(kuldebiq_map *map, uint64_t key) KULDEBIQ_NOT_NULL((1));

/* Writes the value at each key at its place, and whether the map has the key: present[i] is 1 if it
 * has, and else 0, with values[i] = 0. The number is how many keys there are. Takes no memory.
 *
 * Refused with KULDEBIQ_NOTHING_HELD, or with KULDEBIQ_TOO_LITTLE_ROOM if either room is too
 * little. Then nothing is written. */
KULDEBIQ_NODISCARD
kuldebiq_answer kuldebiq_map_get_many(kuldebiq_map *map, const uint64_t *keys, size_t count,
                                      uint64_t *values, size_t room, uint8_t *present,
                                      size_t present_room) KULDEBIQ_NOT_NULL((1));

/* The number is 1 if the map has a key, and 0 if not.
 *
 * Refused with KULDEBIQ_NOTHING_HELD. */
KULDEBIQ_NODISCARD
kuldebiq_answer kuldebiq_map_contains(kuldebiq_map *map, uint64_t key) KULDEBIQ_NOT_NULL((1));

/* The number is 1 if the map has no key at all, and else 0.
 *
 * Refused with KULDEBIQ_NOTHING_HELD. */
KULDEBIQ_NODISCARD
kuldebiq_answer kuldebiq_map_is_empty(kuldebiq_map *map) KULDEBIQ_NOT_NULL((1));

/* Writes the map's least key, with its value. The number is 0.
 *
 * Refused with KULDEBIQ_NOTHING_HELD, or with KULDEBIQ_ABSENT if the map has no key. Then nothing
 * is written. */
KULDEBIQ_NODISCARD
kuldebiq_answer kuldebiq_map_first(kuldebiq_map *map, kuldebiq_pair *pair)
    KULDEBIQ_NOT_NULL((1, 2));

/* Writes the map's greatest key, with its value. The number is 0.
 *
 * Refused with KULDEBIQ_NOTHING_HELD, or with KULDEBIQ_ABSENT if the map has no key. Then nothing
 * is written. */
KULDEBIQ_NODISCARD
kuldebiq_answer kuldebiq_map_last(kuldebiq_map *map, kuldebiq_pair *pair)
    KULDEBIQ_NOT_NULL((1, 2));

/* Takes the map's least key out, and writes it with its value. The number is 0. It is one entry.
 *
 * Refused with KULDEBIQ_NOTHING_HELD, KULDEBIQ_ABSENT if the map has no key, KULDEBIQ_FULL or
 * KULDEBIQ_NO_MEMORY, judged in this order. Then the map is as it was, and nothing is written. */
KULDEBIQ_NODISCARD
kuldebiq_answer kuldebiq_map_pop_first(kuldebiq_map *map, kuldebiq_pair *pair)
    KULDEBIQ_NOT_NULL((1, 2));

/* Takes the map's greatest key out, and writes it with its value. The number is 0. It is one entry.
 *
 * Refused as kuldebiq_map_pop_first is. */
KULDEBIQ_NODISCARD
kuldebiq_answer kuldebiq_map_pop_last(kuldebiq_map *map, kuldebiq_pair *pair)
    KULDEBIQ_NOT_NULL((1, 2));

/* Writes the map's least key that is at least from, with its value. The number is 0.
 *
 * Refused with KULDEBIQ_NOTHING_HELD, or with KULDEBIQ_ABSENT if there is no such key. Then nothing
 * is written. */
KULDEBIQ_NODISCARD
kuldebiq_answer kuldebiq_map_next(kuldebiq_map *map, uint64_t from, kuldebiq_pair *pair)
    KULDEBIQ_NOT_NULL((1, 3));

/* Writes the map's greatest key that is at most to, with its value. The number is 0.
 *
 * Refused with KULDEBIQ_NOTHING_HELD, or with KULDEBIQ_ABSENT if there is no such key. Then nothing
 * is written. */
KULDEBIQ_NODISCARD
kuldebiq_answer kuldebiq_map_previous(kuldebiq_map *map, uint64_t to, kuldebiq_pair *pair)
    KULDEBIQ_NOT_NULL((1, 3));

/* Writes the first keys from low to high, both included, with their values, by rising key, as many
 * as there is room for. The number is how many pairs were written: none if low is above high. To
 * read a whole map, call it with low = 0 and high = 2^64 - 1. As long as the room was filled and
 * the last key isn't high, call it again with low = the last key + 1.
 *
 * Refused with KULDEBIQ_NOTHING_HELD. Then nothing is written. */
KULDEBIQ_NODISCARD
kuldebiq_answer kuldebiq_map_range(kuldebiq_map *map, uint64_t low, uint64_t high,
                                   kuldebiq_pair *pairs, size_t room) KULDEBIQ_NOT_NULL((1));

/* The number is how many keys the map has from low to high, both included: none if low is above
 * high. The call goes along these keys.
 *
 * Refused with KULDEBIQ_NOTHING_HELD. */
KULDEBIQ_NODISCARD
kuldebiq_answer kuldebiq_map_count(kuldebiq_map *map, uint64_t low, uint64_t high)
    KULDEBIQ_NOT_NULL((1));

/* The number is how many entries the map has accepted.
 *
 * Refused with KULDEBIQ_NOTHING_HELD. */
KULDEBIQ_NODISCARD
kuldebiq_answer kuldebiq_map_accepted(kuldebiq_map *map) KULDEBIQ_NOT_NULL((1));

/* The number is how many entries the map accepts in its life.
 *
 * Refused with KULDEBIQ_NOTHING_HELD. */
KULDEBIQ_NODISCARD
kuldebiq_answer kuldebiq_map_capacity(kuldebiq_map *map) KULDEBIQ_NOT_NULL((1));

#ifdef __cplusplus
}
#endif

#endif
