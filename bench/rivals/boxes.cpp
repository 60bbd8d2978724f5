// Boxes by a scan of sorted Morton codes that jumps by BIGMIN (Tropf and Herzog, Angewandte
// Informatik 2, 1981) and a galloping search. It needs a processor with BMI2.
//   boxes make uniform|clustered N DIMS SEED NAME      NAME.points, and a script for each set
//   boxes time POINTS DIMS ROUNDS SCRIPT..             the least time of each script
// Each box is about one of the points. Prints for each script how many boxes it has, how many
// points are in them, the sum of the coordinates of all these, the first taken once, the second
// three times, the third five times, in 64 bits, and the nanoseconds of a box.
#include "points.hpp"
#include "searches.hpp"
#include <immintrin.h>

using std::size_t;

// The bits that each coordinate has in a code.
template <int D> constexpr std::array<u64, D> MASKS = [] {
    std::array<u64, D> masks{};
    for (int b = 0; b < 64 / D * D; ++b) masks[b % D] |= u64(1) << b;
    return masks;
}();

template <int D> static u64 encode(const Point<D> &point) {
    u64 code = 0;
    for (int d = 0; d < D; ++d) code |= _pdep_u64(point[d], MASKS<D>[d]);
    return code;
}

// The coordinates are compared where they stand in the codes.
template <int D> static bool is_inside(u64 code, u64 low, u64 high) {
    bool inside = true;
    for (int d = 0; d < D; ++d) {
        u64 bits = MASKS<D>[d], at = code & bits;
        inside &= (at >= (low & bits)) & (at <= (high & bits));
    }
    return inside;
}

// The least code above one outside that is in the box.
template <int D> static u64 next_inside(u64 code, u64 low, u64 high) {
    u64 best = high, differ = (code ^ low) | (code ^ high);
    for (int b = differ ? 63 - __builtin_clzll(differ) : -1; b >= 0; --b) {
        u64 bit = u64(1) << b, below = MASKS<D>[b % D] & (bit - 1);
        switch (((code >> b) & 1) << 2 | ((low >> b) & 1) << 1 | ((high >> b) & 1)) {
        case 1:
            best = (low | bit) & ~below;
            high = (high & ~bit) | below;
            break;
        case 3:
            return low;
        case 4:
            return best;
        case 5:
            low = (low | bit) & ~below;
            break;
        default:
            break;
        }
    }
    return best;
}

// How many codes outside are passed one by one before a jump.
constexpr int PASSED = 32;

// From a place on, in steps that grow, and then by halving.
static size_t gallop(const std::vector<u64> &codes, u64 code, size_t from) {
    size_t count = codes.size(), step = 16, low = from;
    if (from == 0) return halve(codes.data(), count, code);
    while (low + step < count && codes[low + step] < code) {
        low += step;
        step *= 4;
    }
    size_t high = std::min(count, low + step + 1);
    return low + halve(codes.data() + low, high - low, code);
}

template <int D> static void visit(const std::vector<u64> &codes, const Box<D> &box, Found &found) {
    u64 low = encode<D>(box.low), high = encode<D>(box.high);
    size_t i = gallop(codes, low, 0);
    for (int passed = 0; i < codes.size() && codes[i] <= high;) {
        u64 code = codes[i];
        if (is_inside<D>(code, low, high)) {
            add_point<D>(found, [&](int d) { return _pext_u64(code, MASKS<D>[d]); });
            passed = 0;
        } else if (++passed > PASSED) {
            passed = 0;
            i = gallop(codes, next_inside<D>(code, low, high), i);
            continue;
        }
        ++i;
    }
}

template <int D> static void time_all(char **words, int rounds) {
    std::vector<u64> codes;
    for (const Point<D> &point : read_points<D>(words[0])) codes.push_back(encode<D>(point));
    std::sort(codes.begin(), codes.end());
    time_boxes<D>(words + 3, rounds,
                  [&](const Box<D> &box, Found &found) { visit<D>(codes, box, found); });
}

// The greatest coordinate; of two the last number stays free.
template <int D> constexpr double TOP = D == 2 ? 4294967294.0 : 2097151.0;

template <int D>
static std::vector<Point<D>> points_of(const std::string &kind, u64 n, Random &random) {
    std::vector<Point<D>> points(n);
    if (kind == "uniform") {
        for (auto &point : points)
            for (u32 &at : point) at = (u32)(random.unit() * (TOP<D> + 1));
        return points;
    }
    // A thousand clusters of very different width.
    std::vector<std::pair<Point<D>, double>> clusters(1000);
    for (auto &[middle, width] : clusters) {
        for (u32 &at : middle) at = (u32)(random.unit() * TOP<D>);
        width = TOP<D> * std::exp2(-4 - 10 * random.unit());
    }
    for (auto &point : points) {
        auto &[middle, width] = clusters[random.below(clusters.size())];
        for (int d = 0; d < D; ++d) {
            double drawn = -6;
            for (int i = 0; i < 12; ++i) drawn += random.unit();
            point[d] = (u32)std::clamp((double)middle[d] + width * drawn, 0.0, TOP<D>);
        }
    }
    return points;
}

// So many boxes that cover a part of the space, and are so many times as long in one direction.
template <int D> static void write_boxes(const std::string &name,
                                         const std::vector<Point<D>> &points, double part,
                                         double longer, int many, Random &random) {
    FILE *file = std::fopen(name.c_str(), "wb");
    if (!file) fail("not written: " + name);
    double side = std::pow(part, 1.0 / D);
    for (int i = 0; i < many; ++i) {
        const Point<D> &middle = points[random.below(points.size())];
        Box<D> box;
        for (int d = 0; d < D; ++d) {
            double times = longer == 1 ? 1 : d == i % D ? std::pow(longer, D - 1.0) : 1 / longer;
            double half = std::min(side * times, 1.0) * TOP<D> / 2;
            double at = std::clamp((double)middle[d], half, TOP<D> - half);
            box.low[d] = (u32)std::max(0.0, at - half);
            box.high[d] = (u32)std::min(TOP<D>, at + half);
        }
        std::fputs("box", file);
        for (u32 low : box.low) std::fprintf(file, " %u", low);
        for (u32 high : box.high) std::fprintf(file, " %u", high);
        std::fputc('\n', file);
    }
    if (std::fclose(file)) fail("not written: " + name);
}

template <int D> static void make(const std::string &kind, u64 n, u64 seed, const std::string &to) {
    Random random(seed);
    auto points = points_of<D>(kind, n, random);
    std::ofstream out(to + ".points", std::ios::binary);
    out.write((const char *)&n, 8);
    out.write((const char *)points.data(), (std::streamsize)(n * sizeof(Point<D>)));
    if (!out.flush()) fail("not written: " + to);
    write_boxes<D>(to + ".square1e-6", points, 1e-6, 1, 20000, random);
    write_boxes<D>(to + ".square1e-4", points, 1e-4, 1, 5000, random);
    write_boxes<D>(to + ".square1e-2", points, 1e-2, 1, 200, random);
    write_boxes<D>(to + ".square1e-1", points, 1e-1, 1, 50, random);
    write_boxes<D>(to + ".thin1e-4", points, 1e-4, D == 2 ? 16 : 4, 2000, random);
}

int main(int count, char **words) {
    std::string what = count > 1 ? words[1] : "";
    int dims = what == "make" && count == 7 ? std::atoi(words[4])
               : count > 4                  ? std::atoi(words[3])
                                            : 0;
    if (what == "make" && dims == 2)
        make<2>(words[2], std::stoull(words[3]), std::stoull(words[5]), words[6]);
    else if (what == "make" && dims == 3)
        make<3>(words[2], std::stoull(words[3]), std::stoull(words[5]), words[6]);
    else if (what == "time" && dims == 2)
        time_all<2>(words + 2, std::atoi(words[4]));
    else if (what == "time" && dims == 3)
        time_all<3>(words + 2, std::atoi(words[4]));
    else
        fail("usage: boxes make KIND N 2|3 SEED NAME, or boxes time POINTS 2|3 ROUNDS SCRIPT..");
}
