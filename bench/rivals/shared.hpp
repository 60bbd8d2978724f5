// What the rivals share: names of whole numbers, a clock, random numbers, files of numbers, and
// what a container takes of memory.
#pragma once
#include <algorithm>
#include <chrono>
#include <cmath>
#include <cstdint>
#include <cstdio>
#include <cstdlib>
#include <limits>
#include <malloc.h>
#include <new>
#include <string>
#include <vector>

using u32 = std::uint32_t;
using u64 = std::uint64_t;
using i64 = std::int64_t;
using i128 = __int128;
using u128 = unsigned __int128;

[[noreturn]] inline void fail(const std::string &what) {
    std::fprintf(stderr, "%s\n", what.c_str());
    std::exit(2);
}

inline double seconds() {
    auto now = std::chrono::steady_clock::now().time_since_epoch();
    return std::chrono::duration<double>(now).count();
}

// xoshiro256** by Blackman and Vigna, seeded by splitmix64.
struct Random {
    u64 state[4];
    explicit Random(u64 seed) {
        for (auto &word : state) {
            u64 z = (seed += 0x9e3779b97f4a7c15ull);
            z = (z ^ (z >> 30)) * 0xbf58476d1ce4e5b9ull;
            z = (z ^ (z >> 27)) * 0x94d049bb133111ebull;
            word = z ^ (z >> 31);
        }
    }
    static u64 turned(u64 x, int k) { return (x << k) | (x >> (64 - k)); }
    using result_type = u64;
    static constexpr u64 min() { return 0; }
    static constexpr u64 max() { return ~0ull; }
    u64 operator()() {
        u64 drawn = turned(state[1] * 5, 7) * 9, t = state[1] << 17;
        state[2] ^= state[0];
        state[3] ^= state[1];
        state[1] ^= state[2];
        state[0] ^= state[3];
        state[2] ^= t;
        state[3] = turned(state[3], 45);
        return drawn;
    }
    u64 below(u64 n) { return (u64)(((u128)(*this)() * n) >> 64); }
    // From low to high, both included.
    u64 between(u64 low, u64 high) {
        u64 width = high - low;
        return width == ~0ull ? (*this)() : low + below(width + 1);
    }
    // At least 0 and below 1.
    double unit() { return (double)((*this)() >> 11) * 0x1.0p-53; }
};

// The numbers of 64 bits behind a count, as in a key file.
inline std::vector<u64> read_numbers(const std::string &name) {
    FILE *file = std::fopen(name.c_str(), "rb");
    u64 count = 0;
    if (!file || std::fread(&count, 8, 1, file) != 1) fail("no file of numbers: " + name);
    std::vector<u64> numbers(count);
    if (std::fread(numbers.data(), 8, count, file) != count) fail("too short: " + name);
    std::fclose(file);
    return numbers;
}

inline void write_numbers(const std::string &name, const std::vector<u64> &numbers) {
    FILE *file = std::fopen(name.c_str(), "wb");
    u64 count = numbers.size();
    bool written = file && std::fwrite(&count, 8, 1, file) == 1 &&
                   std::fwrite(numbers.data(), 8, count, file) == count;
    if (!written || std::fclose(file)) fail("not written: " + name);
}

// What malloc took for the containers that use this allocator, with the 8 bytes before each block.
inline std::size_t counted_bytes = 0;
template <class T> struct Counting {
    using value_type = T;
    Counting() = default;
    template <class U> Counting(const Counting<U> &) {}
    T *allocate(std::size_t n) {
        void *block = std::malloc(n * sizeof(T));
        if (!block) throw std::bad_alloc();
        counted_bytes += malloc_usable_size(block) + 8;
        return (T *)block;
    }
    void deallocate(T *block, std::size_t) {
        counted_bytes -= malloc_usable_size(block) + 8;
        std::free(block);
    }
    template <class U> bool operator==(const Counting<U> &) const { return true; }
};
