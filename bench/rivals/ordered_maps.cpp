// The updates and questions of `bench map`, in its order and on its keys, on absl::btree_map and on
// std::map: nanoseconds each, the least of three rounds on a new map, and the same checksums. Many
// keys are asked for one by one, since a tree has no other way.
//
//     ordered_maps tree N
//     ordered_maps map N
#include <absl/container/btree_map.h>

#include <algorithm>
#include <chrono>
#include <cstdint>
#include <cstdio>
#include <cstdlib>
#include <iterator>
#include <map>
#include <string>
#include <utility>
#include <vector>

using Number = uint64_t;

using Pairs = std::vector<std::pair<Number, Number>>;

constexpr Number kRange = 100, kTaken = 1000000, kMiddle = ~Number(0) / 2;

static Number scattered(Number number) {
    Number word = (number + 1) * 0x9E3779B97F4A7C15ull;
    word = (word ^ (word >> 30)) * 0xBF58476D1CE4E5B9ull;
    word = (word ^ (word >> 27)) * 0x94D049BB133111EBull;
    return word ^ (word >> 31);
}
static Number drawn(Number stream, Number number) {
    return scattered(stream * (Number(1) << 40) + number);
}
static Number some_key(Number n, Number word) { return scattered((word >> 32) * n >> 32); }

struct Update {
    Number key, value;
    bool is_put;
};

static std::vector<Update> updates(Number n, Number from, Number stream) {
    std::vector<Update> list;
    for (Number i = 0; i < n; ++i) {
        if (i % 2 == 0)
            list.push_back({scattered(from + i), i, true});
        else
            list.push_back({some_key(n, drawn(stream, i)), 0, false});
    }
    return list;
}

// How many things were done, and their checksum.
struct Done {
    Number things, sum;
};

static Pairs sorted_pairs(Number n) {
    Pairs pairs;
    for (Number i = 0; i < n; ++i) pairs.push_back({scattered(i), i});
    std::sort(pairs.begin(), pairs.end());
    return pairs;
}

template <class Map> static Done least_keys(const Map &map, Number n, Number stream) {
    Number sum = 0;
    for (Number i = 0; i < n; ++i) {
        auto found = map.lower_bound(drawn(stream, i));
        if (found != map.end()) sum += found->first + found->second;
    }
    return {n, sum};
}

template <class Map> static Done values(const Map &map, Number n, bool hits) {
    Number sum = 0;
    for (Number i = 0; i < n; ++i) {
        auto found = map.find(hits ? some_key(n, drawn(1, i)) : drawn(7, i));
        if (found != map.end())
            sum += found->second;
        else if (!hits)
            ++sum;
    }
    return {n, sum};
}

template <class Map> static Done ranges(const Map &map, Number n, Number stream) {
    Number sum = 0, many = n / 10 + (n % 10 != 0);
    for (Number i = 0; i < many; ++i) {
        auto at = map.lower_bound(drawn(stream, i));
        for (Number k = 0; k < kRange && at != map.end(); ++k, ++at) sum += at->first + at->second;
    }
    return {many, sum};
}

template <class Map> static Done walk(const Map &map) {
    Number sum = 0;
    for (const auto &pair : map) sum += pair.first + pair.second;
    return {map.size(), sum};
}

template <class Map> static Done walk_back(const Map &map) {
    Number sum = 0;
    for (auto at = map.rbegin(); at != map.rend(); ++at) sum += at->first + at->second;
    return {map.size(), sum};
}

// From a key to another, which is included.
template <class Map> static Done counts(const Map &map, Number n, Number stream) {
    Number width, sum = 0, many = n / 10 + (n % 10 != 0);
    if (__builtin_mul_overflow(~Number(0) / n, kRange, &width)) width = ~Number(0);
    for (Number i = 0; i < many; ++i) {
        Number low = drawn(stream, i), high;
        if (__builtin_add_overflow(low, width, &high)) high = ~Number(0);
        for (auto at = map.lower_bound(low); at != map.end() && at->first <= high; ++at) ++sum;
    }
    return {many, sum};
}

template <class Map> static Done update_all(Map &map, const std::vector<Update> &list) {
    for (auto &update : list) {
        if (update.is_put)
            map.insert_or_assign(update.key, update.value);
        else
            map.erase(update.key);
    }
    return {list.size(), 0};
}

template <class Map> static Done give_up(Map &map, Number n) {
    map.clear();
    return {n, 0};
}

// Pairs that come sorted are put at the end.
template <class Map> static Done load(Map &map, const Pairs &pairs) {
    map.insert(pairs.begin(), pairs.end());
    return {pairs.size(), 0};
}

template <class Map> static Done sweep(Map &map) {
    Number many = map.size();
    map.erase(map.begin(), map.upper_bound(kMiddle));
    many -= map.size();
    return {many, many};
}

template <class Map> static Done firsts(const Map &map, Number n) {
    Number sum = 0;
    for (Number i = 0; i < n; ++i) {
        // The map may have changed, for all that the compiler knows.
        asm volatile("" : : "r"(&map) : "memory");
        auto least = map.begin();
        if (least != map.end()) sum += least->first + least->second;
    }
    return {n, sum};
}

// The least pair, or the least and the greatest in turn.
template <class Map> static Done take_all(Map &map, bool both) {
    Done done{0, 0};
    while (!map.empty()) {
        auto taken = both && done.things % 2 == 1 ? std::prev(map.end()) : map.begin();
        done.sum += taken->first + taken->second;
        ++done.things;
        map.erase(taken);
    }
    return done;
}

struct Work {
    Number n;
    std::vector<Update> puts, first, second;
    Pairs pairs;
};

// The map of most works, one whose least keys are taken, and one that is taken from at both ends.
template <class Map> struct Maps {
    Map map, queue, deque;
};

// The works by name, in their order.
template <class Map> struct Phase {
    const char *name;
    Done (*go)(Maps<Map> &maps, const Work &work);
};

template <class Map> static const std::vector<Phase<Map>> &phases() {
    using M = Maps<Map> &;
    using W = const Work &;
    static const std::vector<Phase<Map>> list = {
        {"put", [](M maps, W work) { return update_all(maps.map, work.puts); }},
        {"hit", [](M maps, W work) { return values(maps.map, work.n, true); }},
        {"miss", [](M maps, W work) { return values(maps.map, work.n, false); }},
        {"many16", [](M maps, W work) { return values(maps.map, work.n, true); }},
        {"many1000", [](M maps, W work) { return values(maps.map, work.n, true); }},
        {"next", [](M maps, W work) { return least_keys(maps.map, work.n, 2); }},
        {"range", [](M maps, W work) { return ranges(maps.map, work.n, 8); }},
        {"walk", [](M maps, W) { return walk(maps.map); }},
        {"back", [](M maps, W) { return walk_back(maps.map); }},
        {"count", [](M maps, W work) { return counts(maps.map, work.n, 9); }},
        {"mixed", [](M maps, W work) { return update_all(maps.map, work.first); }},
        {"next2", [](M maps, W work) { return least_keys(maps.map, work.n, 3); }},
        {"range2", [](M maps, W work) { return ranges(maps.map, work.n, 10); }},
        {"walk2", [](M maps, W) { return walk(maps.map); }},
        {"count2", [](M maps, W work) { return counts(maps.map, work.n, 11); }},
        {"apply", [](M maps, W work) { return update_all(maps.map, work.second); }},
        {"next3", [](M maps, W work) { return least_keys(maps.map, work.n, 4); }},
        {"drop", [](M maps, W work) { return give_up(maps.map, work.n); }},
        {"load", [](M maps, W work) { return load(maps.map, work.pairs); }},
        {"walk3", [](M maps, W) { return walk(maps.map); }},
        {"sweep", [](M maps, W) { return sweep(maps.map); }},
        {"first", [](M maps, W work) { return firsts(maps.map, work.n); }},
        {"take", [](M maps, W) { return take_all(maps.queue, false); }},
        {"ends", [](M maps, W) { return take_all(maps.deque, true); }},
    };
    return list;
}

template <class Map> static void time_all(Number n) {
    Work work{n, {}, updates(n, n, 5), updates(n, 2 * n, 6), sorted_pairs(n)};
    for (Number i = 0; i < n; ++i) work.puts.push_back({scattered(i), i, true});
    const auto &list = phases<Map>();
    std::vector<double> least(list.size(), 1e18);
    std::vector<Number> sums(list.size());
    for (int round = 0; round < 3; ++round) {
        Map queue(work.pairs.begin(), work.pairs.begin() + std::min(n, kTaken));
        Maps<Map> maps{{}, queue, std::move(queue)};
        for (std::size_t phase = 0; phase < list.size(); ++phase) {
            auto start = std::chrono::steady_clock::now();
            Done done = list[phase].go(maps, work);
            auto time = std::chrono::steady_clock::now() - start;
            double each = std::chrono::duration<double, std::nano>(time).count() /
                          std::max<Number>(done.things, 1);
            least[phase] = std::min(least[phase], each);
            sums[phase] = done.sum;
        }
    }
    for (std::size_t phase = 0; phase < list.size(); ++phase)
        std::printf("%s %.1f checksum %llu\n", list[phase].name, least[phase],
                    (unsigned long long)sums[phase]);
}

int main(int count, char **words) {
    if (count != 3) return 2;
    Number n = std::strtoull(words[2], nullptr, 10);
    if (n == 0) return 2;
    if (words[1] == std::string("tree"))
        time_all<absl::btree_map<Number, Number>>(n);
    else if (words[1] == std::string("map"))
        time_all<std::map<Number, Number>>(n);
    else
        return 2;
    return 0;
}
