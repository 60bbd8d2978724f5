// Updates of several senders through moodycamel's queue, each sender with a token of its own
// (Cameron Desrochers; libconcurrentqueue-dev):
//   concurrent_queue UPDATES SENDERS WAY
// The queue grows as it must, so who sends never waits. WAY is `yield`, where who takes and finds
// it empty lets others run and tries again, or `wait`, where he is woken.
#include "senders.hpp"
#include <concurrentqueue/blockingconcurrentqueue.h>
#include <memory>

template <class Queue, class Take>
void time_queue(std::size_t count, std::size_t senders, const Take &take) {
    Queue queue(count / 8, senders, 0);
    moodycamel::ConsumerToken taker(queue);
    auto send = [&](std::size_t) {
        auto token = std::make_shared<moodycamel::ProducerToken>(queue);
        return [&, token](const Item &item) {
            if (!queue.enqueue(*token, item)) fail("no memory");
        };
    };
    time_senders(count, senders, send, [&] {
        Item item;
        take(queue, taker, item);
        return item;
    });
}

int main(int count, char **words) {
    if (count != 4) fail("usage: concurrent_queue UPDATES SENDERS yield|wait");
    std::size_t updates = std::strtoull(words[1], nullptr, 10);
    std::size_t senders = std::strtoull(words[2], nullptr, 10);
    if (std::string(words[3]) == "wait")
        time_queue<moodycamel::BlockingConcurrentQueue<Item>>(
            updates, senders,
            [](auto &queue, auto &taker, Item &item) { queue.wait_dequeue(taker, item); });
    else
        time_queue<moodycamel::ConcurrentQueue<Item>>(updates, senders,
                                                      [](auto &queue, auto &taker, Item &item) {
                                                          while (!queue.try_dequeue(taker, item))
                                                              std::this_thread::yield();
                                                      });
}
