// Ways to find how many keys are below a question: lookups KEYS QUESTIONS ROUNDS [WAY ..]
// Both files are a count and numbers of 64 bits. Each way goes once a round, and the least time
// counts; without a name all ways go. Prints a line for each way: what it takes beyond the keys, in
// bytes; the milliseconds of building; the nanoseconds of a question alone, chained (each waits for
// the answer before it) and sixteen together, 0 where there is no such way; how many answers differ
// from std::lower_bound; and the sum of the answers.
#include "learned.hpp"
#include "pgm_index.hpp"
#include "searches.hpp"
#include <functional>
#include <memory>
#if __has_include(<absl/container/btree_map.h>)
#include <absl/container/btree_map.h>
#define HAS_TREE 1
#endif

using Numbers = std::vector<u64>;
using Ask = std::function<u64(const Numbers &)>;

constexpr int MANY = 16;

struct Way {
    std::string name;
    size_t bytes = 0, pieces = 0;
    std::function<double()> build = [] { return 0.0; };
    Ask alone, chained, together;
    std::function<void(const Numbers &, Numbers &)> places;
    double times[4] = {1e99, 1e99, 1e99, 1e99};
};

template <class Find> static u64 sum_alone(const Find &find, const Numbers &questions) {
    u64 sum = 0;
    for (u64 question : questions) sum += find(question);
    return sum;
}

// The instruction makes 0 of the last answer, in a way that the processor has to wait for.
template <class Find> static u64 sum_chained(const Find &find, const Numbers &questions) {
    u64 sum = 0, last = 0;
    for (u64 question : questions) {
        u64 none = last;
        asm volatile("and $0, %0" : "+r"(none) : : "cc");
        last = find(question + none);
        sum += last;
    }
    return sum;
}

template <class Group> static u64 sum_together(const Group &group, const Numbers &questions) {
    u64 sum = 0, places[MANY];
    for (size_t i = 0; i + MANY <= questions.size(); i += MANY) {
        group(questions.data() + i, places);
        for (u64 place : places) sum += place;
    }
    return sum;
}

template <class Find> static Way way_of(const std::string &name, Find find) {
    Way way;
    way.name = name;
    way.alone = [find](const Numbers &questions) { return sum_alone(find, questions); };
    way.chained = [find](const Numbers &questions) { return sum_chained(find, questions); };
    way.places = [find](const Numbers &questions, Numbers &places) {
        for (size_t i = 0; i < questions.size(); ++i) places[i] = find(questions[i]);
    };
    return way;
}

// A way whose index leaves a window of the keys, which std::lower_bound searches.
template <class Made, class Make> static Way windowed(const std::string &name, const Numbers &keys,
                                                      Make make, size_t pieces(const Made &)) {
    std::shared_ptr<Made> made = make();
    const u64 *at = keys.data();
    Way way = way_of(name, [made, at](u64 question) {
        auto window = made->search(question);
        return (u64)(std::lower_bound(at + window.lo, at + window.hi, question) - at);
    });
    way.bytes = made->bytes();
    way.pieces = pieces(*made);
    way.build = [make] {
        double start = seconds();
        auto again = make();
        return (seconds() - start) * 1e3;
    };
    return way;
}

template <class Pgm> static Way pgm_way(const std::string &name, const Numbers &keys) {
    auto make = [&keys] { return std::make_shared<Pgm>(keys.begin(), keys.end()); };
    return windowed<Pgm>(name, keys, make, [](const Pgm &made) { return made.segments(); });
}

// All windows of a group first, and then their searches.
static void add_together(Way &way, const Numbers &keys) {
    auto made = std::make_shared<pgm::Index<64>>(keys.begin(), keys.end());
    const u64 *at = keys.data();
    auto group = [made, at](const u64 *questions, u64 *places) {
        pgm::Window windows[MANY];
        for (int i = 0; i < MANY; ++i) {
            windows[i] = made->search(questions[i]);
            __builtin_prefetch(at + (windows[i].lo + windows[i].hi) / 2);
        }
        for (int i = 0; i < MANY; ++i) {
            auto [pos, low, high] = windows[i];
            places[i] = low + halve(at + low, high - low, questions[i]);
        }
    };
    way.together = [group](const Numbers &questions) { return sum_together(group, questions); };
}

#ifdef HAS_TREE
using Tree = absl::btree_map<u64, u64, std::less<u64>, Counting<std::pair<const u64, u64>>>;

static std::shared_ptr<Tree> tree_of(const Numbers &keys) {
    auto tree = std::make_shared<Tree>();
    for (size_t i = 0; i < keys.size(); ++i)
        if (i == 0 || keys[i] != keys[i - 1]) tree->emplace_hint(tree->end(), keys[i], i);
    return tree;
}

static Way tree_way(const Numbers &keys) {
    size_t before = counted_bytes;
    auto tree = tree_of(keys);
    size_t bytes = counted_bytes - before, count = keys.size();
    Way way = way_of("btree_map", [tree, count](u64 question) {
        auto found = tree->lower_bound(question);
        return found == tree->end() ? (u64)count : found->second;
    });
    way.bytes = bytes;
    way.build = [&keys] {
        double start = seconds();
        auto again = tree_of(keys);
        return (seconds() - start) * 1e3;
    };
    return way;
}
#endif

static Way halving_way(const Numbers &keys) {
    const u64 *at = keys.data();
    size_t count = keys.size();
    Way way = way_of("halving", [at, count](u64 question) { return halve(at, count, question); });
    way.together = [at, count](const Numbers &questions) {
        auto group = [at, count](const u64 *few, u64 *places) {
            halve_together<MANY>(at, count, few, places);
        };
        return sum_together(group, questions);
    };
    return way;
}

static Way spline_way(const Numbers &keys) {
    auto make = [&keys] { return std::make_shared<RadixSpline>(keys, 16, 18); };
    return windowed<RadixSpline>("spline_16", keys, make,
                                 [](const RadixSpline &made) { return made.knots(); });
}

static Way rmi_way(const std::string &name, const Numbers &keys, int bits) {
    auto make = [&keys, bits] { return std::make_shared<Rmi>(keys, size_t(1) << bits); };
    return windowed<Rmi>(name, keys, make, [](const Rmi &made) { return made.leaves(); });
}

// The ways that are wanted, in their order.
static std::vector<Way> ways_of(const Numbers &keys, const std::vector<std::string> &wanted) {
    const u64 *at = keys.data();
    size_t count = keys.size();
    std::vector<Way> ways;
    auto want = [&](const std::string &name, auto make) {
        bool is_wanted = wanted.empty();
        for (const std::string &word : wanted) is_wanted |= word == name;
        if (is_wanted) ways.push_back(make(name));
    };
    using Name = const std::string &;
    want("lower_bound", [&](Name name) {
        return way_of(name, [at, count](u64 question) {
            return (u64)(std::lower_bound(at, at + count, question) - at);
        });
    });
    want("halving", [&](Name) { return halving_way(keys); });
    want("pgm_16", [&](Name name) { return pgm_way<pgm::Index<16>>(name, keys); });
    want("pgm_64", [&](Name name) {
        Way way = pgm_way<pgm::Index<64>>(name, keys);
        add_together(way, keys);
        return way;
    });
    want("pgm_256", [&](Name name) { return pgm_way<pgm::Index<256>>(name, keys); });
    want("buckets_16", [&](Name name) { return pgm_way<pgm::Bucketing<16>>(name, keys); });
    want("spline_16", [&](Name) { return spline_way(keys); });
    want("rmi_16", [&](Name name) { return rmi_way(name, keys, 16); });
    want("rmi_20", [&](Name name) { return rmi_way(name, keys, 20); });
#ifdef HAS_TREE
    want("btree_map", [&](Name) { return tree_way(keys); });
#endif
    return ways;
}

// Goes all ways once.
static void go_once(std::vector<Way> &ways, const Numbers &questions) {
    for (Way &way : ways) {
        way.times[0] = std::min(way.times[0], way.build());
        const Ask *asks[] = {&way.alone, &way.chained, &way.together};
        for (int i = 0; i < 3; ++i) {
            if (!*asks[i]) continue;
            double start = seconds();
            volatile u64 sum = (*asks[i])(questions);
            (void)sum;
            double each = (seconds() - start) * 1e9 / (double)questions.size();
            way.times[i + 1] = std::min(way.times[i + 1], each);
        }
    }
}

int main(int count, char **words) {
    if (count < 4) fail("usage: lookups KEYS QUESTIONS ROUNDS [WAY ..]");
    Numbers keys = read_numbers(words[1]), questions = read_numbers(words[2]);
    questions.resize(questions.size() / MANY * MANY);
    std::vector<Way> ways = ways_of(keys, {words + 4, words + count});
    for (int round = 0; round < std::atoi(words[3]); ++round) go_once(ways, questions);
    Numbers truth, places(questions.size());
    for (u64 question : questions)
        truth.push_back((u64)(std::lower_bound(keys.begin(), keys.end(), question) - keys.begin()));
    std::printf("keys %zu questions %zu\n", keys.size(), questions.size());
    for (Way &way : ways) {
        way.places(questions, places);
        u64 wrong = 0, sum = 0;
        for (size_t i = 0; i < places.size(); ++i) wrong += places[i] != truth[i], sum += places[i];
        if (way.together && way.together(questions) != sum) fail(way.name + ": together differs");
        double *times = way.times;
        std::printf("way %s bytes %zu pieces %zu build %.1f alone %.0f chained %.0f together %.0f "
                    "wrong %llu checksum %llu\n",
                    way.name.c_str(), way.bytes, way.pieces, times[0] < 1e98 ? times[0] : 0,
                    times[1], times[2], times[3] < 1e98 ? times[3] : 0, (unsigned long long)wrong,
                    (unsigned long long)sum);
    }
}
