// Updates of several senders through one std::deque behind a lock: locked_deque UPDATES SENDERS WAY
// The deque holds at most 64. WAY is `yield`, where who finds it full or empty lets others run and
// tries again, as `mix` does, or `wait`, where two condition variables wake him.
#include "senders.hpp"
#include <condition_variable>
#include <deque>
#include <mutex>

struct Queue {
    std::deque<Item> items;
    std::mutex lock;
    std::condition_variable has_room, has_item;
    bool waits;

    void send(const Item &item) {
        if (waits) {
            std::unique_lock<std::mutex> held(lock);
            has_room.wait(held, [&] { return items.size() < ROOM; });
            items.push_back(item);
            held.unlock();
            has_item.notify_one();
            return;
        }
        for (;; std::this_thread::yield()) {
            std::lock_guard<std::mutex> held(lock);
            if (items.size() < ROOM) {
                items.push_back(item);
                return;
            }
        }
    }

    Item take() {
        if (waits) {
            std::unique_lock<std::mutex> held(lock);
            has_item.wait(held, [&] { return !items.empty(); });
            Item item = items.front();
            items.pop_front();
            held.unlock();
            has_room.notify_one();
            return item;
        }
        for (;; std::this_thread::yield()) {
            std::lock_guard<std::mutex> held(lock);
            if (!items.empty()) {
                Item item = items.front();
                items.pop_front();
                return item;
            }
        }
    }
};

int main(int count, char **words) {
    if (count != 4) fail("usage: locked_deque UPDATES SENDERS yield|wait");
    Queue queue;
    queue.waits = std::string(words[3]) == "wait";
    auto send = [&](std::size_t) { return [&](const Item &item) { queue.send(item); }; };
    time_senders(std::strtoull(words[1], nullptr, 10), std::strtoull(words[2], nullptr, 10), send,
                 [&] { return queue.take(); });
}
