// Updates of several senders through one queue, beside `pgmtool mix`: they are dealt out in turn to
// senders, each in a thread of its own, and one thread takes all of them.
#pragma once
#include "shared.hpp"
#include <thread>

struct Update {
    u64 kind, key, value;
};
struct Item {
    u32 sender;
    Update update;
};

// How many items a queue holds, at most or at the least.
constexpr std::size_t ROOM = 64;

inline std::vector<Update> some_updates(std::size_t count) {
    std::vector<Update> updates(count);
    Random random(1);
    for (Update &update : updates) update = {random.below(4) == 0, random.below(count), random()};
    return updates;
}

// Looks whether each sender's updates came, in their order.
inline void check_order(const std::vector<Item> &came, const std::vector<Update> &updates,
                        std::size_t senders) {
    std::vector<std::size_t> next(senders);
    for (std::size_t number = 0; number < senders; ++number) next[number] = number;
    for (const Item &item : came) {
        std::size_t &place = next[item.sender];
        if (place >= updates.size() || updates[place].value != item.update.value)
            fail("an update came out of its sender's order");
        place += senders;
    }
}

// `send(number)` is what a sender sends by, made in its thread; `take()` gives the next item.
// Prints seconds, and millions of updates a second.
template <class Send, class Take>
void time_senders(std::size_t count, std::size_t senders, const Send &send, const Take &take) {
    const std::vector<Update> updates = some_updates(count);
    std::vector<Item> came;
    came.reserve(count);
    const double start = seconds();
    std::vector<std::thread> threads;
    for (std::size_t number = 0; number < senders; ++number) {
        threads.emplace_back([&, number] {
            auto sender = send(number);
            for (std::size_t place = number; place < count; place += senders)
                sender({u32(number), updates[place]});
        });
    }
    while (came.size() < count) came.push_back(take());
    for (std::thread &thread : threads) thread.join();
    const double taken = seconds() - start;
    check_order(came, updates, senders);
    std::printf("%.6f seconds, %.2f million updates a second\n", taken,
                (double)count / taken / 1e6);
}
