// Makes the files that the tables are measured on:
//   make_inputs keys KIND N SEED FILE          a key file of N sorted keys
//   make_inputs questions KEYS N SEED FILE     N questions to a key file, in the same form
//   make_inputs finds QUESTIONS FILE           the same questions as a script of lines `find`
//   make_inputs puts N SEED FILE               a script of N lines `put` with random keys
// Half of the questions are keys, a quarter lie in a gap between neighbours, and a quarter anywhere
// between the ends. No key is 2^64 - 1, which the C++ PGM-index reserves.
#include "shared.hpp"
#include <random>

static const u64 TOP = std::numeric_limits<u64>::max() - 1;

using Keys = std::vector<u64>;

static Keys uniform(Random &random, u64 n) {
    Keys keys(n);
    for (u64 &key : keys) key = std::min(random(), TOP);
    return keys;
}

// 1, 2, 3, ..
static Keys numbers(Random &, u64 n) {
    Keys keys(n);
    for (u64 i = 0; i < n; ++i) keys[i] = i + 1;
    return keys;
}

// Numbers in a row, with a hole of 2 to 1000 behind one key in a hundred.
static Keys dense(Random &random, u64 n) {
    Keys keys(n);
    u64 next = 1000000;
    for (u64 &key : keys) {
        key = next;
        next += random.below(100) ? 1 : random.between(2, 1000);
    }
    return keys;
}

// Numbers of rows, with a hole of 2 to 200 behind one in fifty, where rows went.
static Keys ids(Random &random, u64 n) {
    Keys keys(n);
    u64 next = 1;
    for (u64 &key : keys) {
        key = next;
        next += random.below(50) ? 1 : random.between(2, 200);
    }
    return keys;
}

// A reading each minute, in seconds, with a gap behind one in a thousand: the device was off for 2
// to 10,000 minutes.
static Keys minutes(Random &random, u64 n) {
    Keys keys(n);
    u64 next = 1500000000;
    for (u64 &key : keys) {
        key = next;
        next += 60 * (random.below(1000) ? 1 : random.between(2, 10000));
    }
    return keys;
}

static Keys lognormal(Random &random, u64 n) {
    std::normal_distribution<double> normal(0, 2);
    Keys keys(n);
    for (u64 &key : keys) key = (u64)(std::exp(normal(random)) * 1e9);
    return keys;
}

// The low bits are drawn too, since a double has 53.
static Keys normal(Random &random, u64 n) {
    std::normal_distribution<double> normal(0, 1);
    Keys keys(n);
    for (u64 &key : keys) {
        double drawn = std::clamp(normal(random), -7.9, 7.9);
        key = (u64)((i64)(drawn * 0x1.0p60)) + (u64(1) << 63) + (random() >> 54);
    }
    return keys;
}

static void fall(Random &random, u64 low, int bits, u64 n, Keys &keys) {
    if (n == 0) return;
    if (n <= 6 || bits <= 3 || (bits < 62 && (u64(1) << bits) <= 4 * n)) {
        for (u64 i = 0; i < n; ++i) keys.push_back(low + (random() >> (64 - bits)));
        return;
    }
    double kind = random.unit(), part = 0.5;
    if (kind < 0.5)
        part = 0.05 + 0.9 * random.unit();
    else if (kind < 0.6)
        part = 0.05 * random.unit();
    else if (kind < 0.7)
        part = 1 - 0.05 * random.unit();
    u64 left = std::binomial_distribution<u64>(n, part)(random);
    fall(random, low, bits - 1, left, keys);
    fall(random, low + (u64(1) << (bits - 1)), bits - 1, n - left, keys);
}

// A range is halved again and again, and its keys fall into the halves unevenly: clusters at every
// scale.
static Keys cascade(Random &random, u64 n) {
    Keys keys;
    keys.reserve(n);
    fall(random, 0, 63, n, keys);
    return keys;
}

// Uniform below 2^40, and 21 outliers.
static Keys outliers(Random &random, u64 n) {
    Keys keys(n);
    for (u64 i = 0; i < n; ++i) {
        bool is_out = i + 21 >= n;
        keys[i] = is_out ? (u64)std::exp2(48 + 15.99 * random.unit()) : random() >> 24;
    }
    return keys;
}

// Seconds of events, in waves of a day and of a week, now and then with a burst: many equal keys.
static Keys events(Random &random, u64 n) {
    Keys keys;
    for (u64 second = 1000000000; keys.size() < n; ++second) {
        double day = std::sin(2 * M_PI * (double)(second % 86400) / 86400);
        double week = std::sin(2 * M_PI * (double)(second % 604800) / 604800);
        double rate = 1.2 * (1 + 0.6 * day) * (1 + 0.2 * week);
        u64 many = std::poisson_distribution<u64>(rate)(random);
        if (random.below(20000) == 0) many += random.between(50, 500);
        while (many-- && keys.size() < n) keys.push_back(second);
    }
    return keys;
}

static Keys pareto(Random &random, u64 n) {
    Keys keys(n);
    for (u64 &key : keys) {
        double drawn = 1e9 * std::pow(1 - random.unit(), -1 / 1.1);
        key = drawn >= 1.8e19 ? TOP : (u64)drawn;
    }
    return keys;
}

struct Kind {
    const char *name;
    Keys (*make)(Random &, u64);
};

static const Kind KINDS[] = {
    {"uniform", uniform}, {"cascade", cascade},   {"events", events},       {"dense", dense},
    {"pareto", pareto},   {"outliers", outliers}, {"lognormal", lognormal}, {"normal", normal},
    {"numbers", numbers}, {"ids", ids},           {"minutes", minutes},
};

static Keys keys_of(const std::string &kind, u64 n, u64 seed) {
    for (const Kind &one : KINDS) {
        if (kind == one.name) {
            Random random(seed);
            Keys keys = one.make(random, n);
            std::sort(keys.begin(), keys.end());
            return keys;
        }
    }
    fail("no such kind of keys: " + kind);
}

static Keys questions_of(const Keys &keys, u64 n, u64 seed) {
    Random random(seed);
    Keys questions(n);
    for (u64 i = 0; i < n; ++i) {
        u64 at = random.below(keys.size());
        u64 next = at + 1 < keys.size() ? keys[at + 1] : keys[at];
        if (i < n / 2)
            questions[i] = keys[at];
        else if (i < n / 4 * 3)
            questions[i] = random.between(keys[at], next);
        else
            questions[i] = random.between(keys.front(), keys.back());
    }
    for (u64 i = n; i > 1; --i) std::swap(questions[i - 1], questions[random.below(i)]);
    return questions;
}

static FILE *opened(const char *name) {
    FILE *file = std::fopen(name, "wb");
    if (!file) fail(std::string("not written: ") + name);
    return file;
}

int main(int count, char **words) {
    std::string what = count > 1 ? words[1] : "";
    auto number = [&](int at) { return std::strtoull(words[at], nullptr, 10); };
    if (what == "keys" && count == 6) {
        write_numbers(words[5], keys_of(words[2], number(3), number(4)));
    } else if (what == "questions" && count == 6) {
        write_numbers(words[5], questions_of(read_numbers(words[2]), number(3), number(4)));
    } else if (what == "finds" && count == 4) {
        FILE *file = opened(words[3]);
        for (u64 question : read_numbers(words[2]))
            std::fprintf(file, "find %llu\n", (unsigned long long)question);
        if (std::fclose(file)) fail("not written");
    } else if (what == "puts" && count == 5) {
        Random random(number(3));
        FILE *file = opened(words[4]);
        for (u64 i = 0; i < number(2); ++i)
            std::fprintf(file, "put %llu %llu\n", (unsigned long long)random(),
                         (unsigned long long)i);
        if (std::fclose(file)) fail("not written");
    } else {
        fail("usage: make_inputs keys|questions|finds|puts ..");
    }
}
