// Positions of sorted keys, and a map that is put to, compacted, moved and walked both ways.
#include "kuldebiq.hpp"

#include <cstdint>
#include <exception>
#include <iostream>
#include <utility>
#include <vector>

static void ask() {
    const std::vector<std::uint64_t> keys{2, 3, 5, 7, 11, 13, 17, 19, 23, 29}, questions{30, 1, 19};
    kuldebiq::index index(keys);
    std::cout << index.size() << " keys\nbelow 12: " << index.position(12) << '\n';
    std::vector<std::uint32_t> positions(questions.size());
    index.share().positions(questions, positions);
    for (std::size_t i = 0; i < questions.size(); i++) {
        std::cout << "below " << questions[i] << ": " << positions[i] << '\n';
    }
    const std::vector<std::uint64_t> falling{1, 4, 3};
    try {
        index = kuldebiq::index(falling);
    } catch (const kuldebiq::refused &refusal) {
        std::cout << "refused: " << refusal.what() << '\n';
    }
    std::cout << "still below 12: " << index.position(12) << '\n';
}

static void walk() {
    kuldebiq::map map(1);
    for (std::uint64_t key = 10; key <= 60; key += 10) map.put(key, key * key);
    std::cout << "deleted " << map.del(20) << ", swept " << map.sweep(35, 55) << '\n';
    for (const kuldebiq::pair &pair : map.range()) {
        std::cout << pair.key << " -> " << pair.value << '\n';
    }
    // A map that is full is compacted by itself, to more levels where it has to be.
    for (std::uint64_t key = 100; key < 1100; key++) map.put(key, key);
    const kuldebiq::map moved = std::move(map);
    std::cout << "moved from: " << (*map.get() == KULDEBIQ_NOTHING ? "nothing" : "something") << '\n';
}

static void queue() {
    kuldebiq::map map(1);
    for (std::uint64_t key = 0; key < 126; key++) map.put(key, 2 * key);
    try {
        map.put(1, 1, kuldebiq::when_full::refuse);
        map.put(2, 2, kuldebiq::when_full::refuse);
    } catch (const kuldebiq::refused &refusal) {
        std::cout << "full: " << refusal.number() << " entries\n";
    }
    std::uint64_t sum = 0;
    while (const auto taken = map.pop_first()) {
        sum += taken->value;
        if (taken->key % 2 == 0 && taken->key < 126) map.put(taken->key + 1000, 1);
    }
    std::cout << "sum of what was taken: " << sum << ", empty: " << map.empty() << '\n';
    for (std::uint64_t key : {3, 1, 2}) map.put(key, 10 * key);
    for (const kuldebiq::pair &pair : map.range_back(0, 2)) {
        std::cout << pair.key << " -> " << pair.value << '\n';
    }
    std::cout << "up to 2: " << map.previous(2)->key << ", absent: " << !map.get(9) << '\n';
    const std::vector<std::uint64_t> keys{3, 9, 1};
    std::vector<std::uint64_t> values(keys.size());
    std::vector<std::uint8_t> present(keys.size());
    map.get_many(keys, values, present);
    for (std::size_t i = 0; i < keys.size(); i++) {
        std::cout << keys[i] << (present[i] ? " -> " : " is absent, ") << values[i] << '\n';
    }
    std::cout << "last: " << map.pop_last()->key << ", then " << map.last()->key << '\n';
}

int main() {
    try {
        ask();
        walk();
        queue();
    } catch (const std::exception &error) {
        std::cerr << error.what() << '\n';
        return 1;
    }
    return 0;
}
