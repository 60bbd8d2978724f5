// The steps that fitting by hulls takes, counted: the algorithm of crates/hulls in plain C++, with
// a counter.
//   steps KEYS EPS     a file of 64-bit keys after a 64-bit count; each distinct key is a point at
//   the height of its place
#include <cstdint>
#include <cstdio>
#include <cstdlib>
#include <vector>

typedef unsigned long long u64;
typedef __int128 i128;

static u64 steps = 0;

struct Vertex {
    u64 x;
    uint32_t height, place;
};
struct Slope {
    long long rise;
    u64 run;
};

static Slope between(const Vertex &low, const Vertex &high, uint32_t lift) {
    return {(long long)high.height + lift - low.height, high.x - low.x};
}
static bool is_below(const Slope &f, const Slope &g) {
    ++steps;
    return (i128)f.rise * g.run < (i128)g.rise * f.run;
}

// The pair, and the upper hull of the points that can be the lower place of a later one.
struct Hull {
    std::vector<Vertex> vertices;
    size_t tangent = 0;
    Slope slope;
    void start(const Vertex &first) {
        vertices.clear();
        vertices.push_back(first);
        tangent = 0;
        slope = {1LL << 40, 1};
    }
    bool is_over(const Vertex &next) {
        return is_below(slope, between(vertices[tangent], next, 0));
    }
    bool turn_to(const Vertex &next, uint32_t lift) {
        Slope nearest = between(vertices[tangent], next, lift);
        if (!is_below(nearest, slope)) return false;
        slope = nearest;
        while (tangent + 1 < vertices.size()) {
            Slope further = between(vertices[tangent + 1], next, lift);
            if (!is_below(further, slope)) break;
            ++tangent;
            slope = further;
        }
        return true;
    }
    void take_in(const Vertex &next, bool stands_out) {
        if (!stands_out) return;
        while (vertices.size() > tangent + 1) {
            const Vertex &last = vertices.back();
            if (is_below(between(last, next, 0), between(vertices[vertices.size() - 2], last, 0)))
                break;
            vertices.pop_back();
        }
        vertices.push_back(next);
    }
};

static Vertex upright(const std::vector<u64> &keys, size_t i) {
    return {keys[i], (uint32_t)i, (uint32_t)i};
}
static Vertex turned(const std::vector<u64> &keys, size_t i) {
    return {keys[i], ~(uint32_t)i, (uint32_t)i};
}

int main(int argc, char **argv) {
    if (argc != 3) return 2;
    FILE *file = fopen(argv[1], "rb");
    u64 n;
    if (!file || fread(&n, 8, 1, file) != 1) return 3;
    std::vector<u64> keys(n);
    if (fread(keys.data(), 8, n, file) != n) return 3;
    size_t m = 0;
    for (size_t i = 0; i < n; ++i)
        if (i == 0 || keys[i] != keys[i - 1]) keys[m++] = keys[i];
    uint32_t lift = 2 * (uint32_t)atoi(argv[2]);
    Hull steep, flat;
    size_t runs = 0;
    u64 most = 0;
    for (size_t i = 0; i < m;) {
        ++runs;
        size_t start = i;
        u64 before = steps;
        steep.start(upright(keys, i));
        flat.start(turned(keys, i));
        for (++i; i < m; ++i) {
            Vertex point = upright(keys, i), mirrored = turned(keys, i);
            if (steep.is_over(point) || flat.is_over(mirrored)) break;
            bool falls = steep.turn_to(point, lift), rises = flat.turn_to(mirrored, lift);
            steep.take_in(point, rises);
            flat.take_in(mirrored, falls);
        }
        u64 per_point = (steps - before + (i - start) - 1) / (i - start);
        if (per_point > most) most = per_point;
    }
    printf("keys %zu eps %s runs %zu steps %llu (%.2f a key, at most %llu a key in any run)\n", m,
           argv[2], runs, steps, (double)steps / (double)m, most);
}
