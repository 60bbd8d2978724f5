// The fitter of a C++ PGM-index over the distinct keys of a file, each at the height of its place:
// fitter KEYS EPS ROUNDS. Prints how many keys and segments there are, and the nanoseconds of the
// least round.
#include "pgm_index.hpp"

static size_t segments(const std::vector<u64> &keys, u64 eps) {
    pgm::LineFitter<false> fitter(eps);
    size_t made = keys.empty() ? 0 : 1;
    for (size_t i = 0; i < keys.size(); ++i) {
        if (fitter.add(keys[i], i)) continue;
        ++made;
        fitter.add(keys[i], i);
    }
    return made;
}

int main(int count, char **words) {
    if (count != 4) fail("usage: fitter KEYS EPS ROUNDS");
    std::vector<u64> keys = read_numbers(words[1]);
    keys.erase(std::unique(keys.begin(), keys.end()), keys.end());
    double least = 1e99;
    size_t made = 0;
    for (int round = 0; round < std::atoi(words[3]); ++round) {
        double start = seconds();
        made = segments(keys, std::strtoull(words[2], nullptr, 10));
        least = std::min(least, seconds() - start);
    }
    std::printf("keys %zu eps %s runs %zu nanoseconds %.0f\n", keys.size(), words[2], made,
                least * 1e9);
}
