// Whole programs beside `pgmtool build`: reading read KEYS reads a key file, and reading build KEYS
// builds a C++ PGM-index of it in one thread, ε 64. Prints how many keys and segments there are.
#include "pgm_index.hpp"

int main(int count, char **words) {
    std::string what = count == 3 ? words[1] : "";
    if (what != "read" && what != "build") fail("usage: reading read|build KEYS");
    std::vector<u64> keys = read_numbers(words[2]);
    size_t segments = 0;
    if (what == "build") segments = pgm::Index<64>(keys.begin(), keys.end()).segments();
    std::printf("keys %zu segments %zu\n", keys.size(), segments);
}
