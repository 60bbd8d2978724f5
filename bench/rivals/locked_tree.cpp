// A B-tree that many threads read under one lock, beside `bench read`: absl::btree_map and
// std::shared_mutex.
//   locked_tree KEYS LOOKS
// The same keys, questions and batches as `bench read`, and the same lines: one, two and four
// readers look LOOKS times each at one key, first while the writer is still and then while it
// writes batches of 16 puts without pause, each batch under the lock. A look takes the lock shared.
// Millions of looks a second of all readers together, batches written meanwhile, the sum of what
// was found, and the longest time of a look in microseconds, of a round of its own in which each
// look is timed.
#include <absl/container/btree_map.h>
#include <algorithm>
#include <atomic>
#include <chrono>
#include <cstdint>
#include <cstdio>
#include <cstdlib>
#include <mutex>
#include <shared_mutex>
#include <thread>
#include <vector>

using u64 = std::uint64_t;
using Clock = std::chrono::steady_clock;

static double since(Clock::time_point start) {
    return std::chrono::duration<double>(Clock::now() - start).count();
}

static u64 scattered(u64 turn, u64 keys) { return turn * 0x9E3779B97F4A7C15ull % keys; }

struct Locked {
    absl::btree_map<u64, u64> map;
    std::shared_mutex lock;
    u64 get(u64 key) {
        std::shared_lock<std::shared_mutex> held(lock);
        auto at = map.find(key);
        return at == map.end() ? 0 : at->second;
    }
    void put(const u64 *keys, int count) {
        std::unique_lock<std::shared_mutex> held(lock);
        for (int i = 0; i < count; ++i) map.insert_or_assign(keys[i], keys[i]);
    }
};

struct Looked {
    u64 sum = 0;
    double longest = 0;
};

static Looked look_all(Locked &tree, u64 keys, unsigned looks, bool timed) {
    Looked looked;
    for (unsigned turn = 0; turn < looks; ++turn) {
        Clock::time_point start;
        if (timed) start = Clock::now();
        looked.sum += tree.get(scattered(turn, keys));
        if (timed) looked.longest = std::max(looked.longest, since(start));
    }
    return looked;
}

struct Round {
    double seconds;
    u64 batches;
    Looked all;
};

// All readers look, in threads of their own, and the writer writes beside them or is still.
static Round one_round(Locked &tree, unsigned readers, u64 keys, unsigned looks, bool writing,
                       bool timed) {
    std::vector<Looked> looked(readers);
    std::atomic<bool> done(!writing);
    u64 batches = 0;
    auto start = Clock::now();
    std::thread writer([&] {
        u64 batch[16];
        for (u64 turn = 0; !done.load(); ++turn) {
            std::fill(batch, batch + 16, scattered(turn, keys));
            tree.put(batch, 16);
            ++batches;
        }
    });
    std::vector<std::thread> threads;
    for (unsigned i = 0; i < readers; ++i)
        threads.emplace_back([&, i] { looked[i] = look_all(tree, keys, looks, timed); });
    for (auto &thread : threads) thread.join();
    done = true;
    writer.join();
    Round round{since(start), batches, {}};
    for (auto &one : looked) {
        round.all.sum += one.sum;
        round.all.longest = std::max(round.all.longest, one.longest);
    }
    return round;
}

int main(int argc, char **argv) {
    if (argc != 3) return 0;
    u64 keys = std::strtoull(argv[1], nullptr, 10);
    unsigned looks = (unsigned)std::strtoul(argv[2], nullptr, 10);
    if (keys == 0) return 1;
    for (unsigned readers : {1u, 2u, 4u}) {
        Locked tree;
        for (u64 key = 0; key < keys; ++key) tree.map.insert_or_assign(key, key);
        for (bool writing : {false, true}) {
            Round plain = one_round(tree, readers, keys, looks, writing, false);
            Round timed = one_round(tree, readers, keys, looks, writing, true);
            double rate = (double)readers * looks / plain.seconds / 1e6;
            std::printf("readers %u writing %s looks %.2f batches %llu\n", readers,
                        writing ? "true" : "false", rate, (unsigned long long)plain.batches);
            std::printf("  longest %.1f sum %llu\n", timed.all.longest * 1e6,
                        (unsigned long long)plain.all.sum);
        }
    }
}
