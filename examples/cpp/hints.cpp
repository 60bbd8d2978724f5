// Lookups by hints in spans of 64-bit and of 32-bit keys, boxes of codes, and a map that a range-based for
// goes along.
#include "kuldebiq.hpp"

#include <array>
#include <cstdint>
#include <exception>
#include <iostream>
#include <vector>

namespace {

void ask() {
    const std::vector<std::uint64_t> keys{2, 3, 5, 7, 11, 13, 17, 19, 23, 29, 29, 31};
    const std::vector<std::uint64_t> hints = kuldebiq::hints_of(keys, 2);
    const kuldebiq::sorted sorted(keys, hints);
    std::cout << "below 12: " << sorted.find(12) << ", up to 29: " << sorted.find_past(29) << '\n';
    for (const std::uint64_t key : sorted.between(4, 12)) std::cout << key << '\n';
    const std::array<std::uint64_t, 3> questions{30, 1, 19};
    std::array<std::size_t, 3> places{};
    sorted.find_many(questions, places);
    for (const std::size_t place : places) std::cout << "place " << place << '\n';
    std::cout << "made for an epsilon of " << kuldebiq::facts_of(hints)->epsilon << '\n';
}

void ask_narrow() {
    const std::vector<std::uint32_t> keys{2, 3, 5, 5, 4294967295};
    const std::vector<std::uint64_t> hints = kuldebiq::hints_of(keys);
    const kuldebiq::sorted sorted(keys, hints);
    std::cout << "5 stands from " << sorted.find(5) << " up to " << sorted.find_past(5) << '\n';
    const std::array<std::uint64_t, 3> questions{5, 0, UINT64_MAX};
    std::array<std::size_t, 3> places{};
    sorted.find_past_many(questions, places);
    for (const std::size_t place : places) std::cout << "behind place " << place << '\n';
}

// Of the square of side 4 the middle has the codes 3, 6, 9 and 12.
void ask_box() {
    const std::vector<std::uint64_t> codes{1, 3, 6, 7, 10, 12};
    const std::vector<std::uint64_t> hints = kuldebiq::hints_of(codes);
    for (const kuldebiq::stretch &rows : kuldebiq::box(codes, hints, {2, {1, 1}, {2, 2}})) {
        std::cout << "rows " << rows.first << " to " << rows.end << '\n';
    }
}

void walk() {
    std::vector<kuldebiq::pair> squares;
    for (std::uint64_t key = 1; key <= 1000; key++) squares.push_back({key, key * key});
    kuldebiq::map map(squares, 10);
    map.sweep(1, 990);
    std::cout << map.compact(3) << " keys\n";
    map.put(UINT64_MAX, 1);
    std::uint64_t sum = 0;
    for (const kuldebiq::pair &pair : map.range()) sum += pair.value;
    std::cout << "sum of values: " << sum << '\n';
    for (const kuldebiq::pair &pair : map.range(998, 2000)) {
        std::cout << pair.key << " -> " << pair.value << '\n';
    }
    std::cout << "up to 995: " << map.previous(995)->key << '\n';
}

} // namespace

int main() {
    try {
        ask();
        ask_narrow();
        ask_box();
        walk();
    } catch (const std::exception &error) {
        std::cerr << error.what() << '\n';
        return 1;
    }
    return 0;
}
