// Halving a sorted list, one question at a time and many together: how many keys are below each.
#pragma once
#include "shared.hpp"

// The choice is written as an instruction, since g++ 12 makes a branch of `?:` here.
static inline const u64 *step(const u64 *base, const u64 *next, u64 probe, u64 question) {
    asm("cmp %[question], %[probe]\n\tcmovb %[next], %[base]"
        : [base] "+r"(base)
        : [next] "r"(next), [probe] "r"(probe), [question] "r"(question)
        : "cc");
    return base;
}

static inline std::size_t halve(const u64 *keys, std::size_t count, u64 question) {
    if (count == 0) return 0;
    const u64 *base = keys;
    while (count > 1) {
        std::size_t half = count / 2;
        count -= half;
        base = step(base, base + half, base[half - 1], question);
    }
    return (std::size_t)(base - keys) + (*base < question);
}

// So many questions go down together, so that their reads of memory overlap.
template <int MANY> static inline void halve_together(const u64 *keys, std::size_t count,
                                                      const u64 *questions, u64 *places) {
    const u64 *base[MANY];
    for (int i = 0; i < MANY; ++i) base[i] = keys;
    std::size_t left = count;
    while (left > 1) {
        std::size_t half = left / 2;
        left -= half;
        std::size_t ahead = left / 2;
        for (int i = 0; i < MANY; ++i) {
            base[i] = step(base[i], base[i] + half, base[i][half - 1], questions[i]);
            if (ahead) __builtin_prefetch(base[i] + ahead - 1);
        }
    }
    for (int i = 0; i < MANY; ++i)
        places[i] = (u64)(base[i] - keys) + (count && *base[i] < questions[i]);
}
