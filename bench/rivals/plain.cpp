// What the proved program is measured against: it reads a key file, cuts it by the same rule (the
// pairs of a run), and
// prints the same lines, with no check of the file. Usage: plain FILE EPS
#include <cstdint>
#include <cstdio>
#include <cstdlib>
#include <vector>

struct Slope {
    int64_t rise;
    uint64_t run;
};

struct Segment {
    uint64_t start, a, b;
};

static bool at_most(Slope f, Slope g) {
    return (__int128)f.rise * g.run <= (__int128)g.rise * f.run;
}

int main(int, char **words) {
    FILE *file = fopen(words[1], "rb");
    uint64_t n;
    if (!file || fread(&n, 8, 1, file) != 1) return 3;
    std::vector<uint64_t> keys(n);
    if (fread(keys.data(), 8, n, file) != n) return 3;
    int64_t eps = atoi(words[2]);

    std::vector<Segment> segments;
    for (uint64_t s = 0, e; s < n; s = e) {
        uint64_t a = s, b = s;
        e = s + 1;
        if (e < n) {
            b = e;
            Slope steep{1 + 2 * eps, keys[b] - keys[a]}, flat{1 - 2 * eps, keys[b] - keys[a]};
            for (e = s + 2; e < n; e++) {
                Slope steeper = steep, flatter = flat;
                uint64_t low = a, high = b;
                for (uint64_t j = s; j < e; j++) {
                    int64_t up = e - j;
                    Slope to_top{up + 2 * eps, keys[e] - keys[j]},
                        to_bottom{up - 2 * eps, keys[e] - keys[j]};
                    if (!at_most(steeper, to_top)) steeper = to_top, low = j, high = e;
                    if (!at_most(to_bottom, flatter)) flatter = to_bottom;
                }
                if (!at_most(flatter, steeper)) break;
                steep = steeper, flat = flatter, a = low, b = high;
            }
        }
        segments.push_back({s, a, b});
    }

    static char buffer[1 << 16];
    setvbuf(stdout, buffer, _IOFBF, sizeof buffer);
    if (n) printf("level 0 list %lu eps %ld runs %zu\n", n, eps, segments.size());
    for (size_t i = 0; i < segments.size(); i++) {
        Segment g = segments[i];
        uint64_t end = i + 1 < segments.size() ? segments[i + 1].start : n;
        if (g.a == g.b)
            printf("run %lu %lu pair %lu %lu line %lu %lu 0 1\n", g.start, end, g.a, g.b, keys[g.a],
                   g.a);
        else
            printf("run %lu %lu pair %lu %lu line %lu %ld %lu %lu\n", g.start, end, g.a, g.b,
                   keys[g.a], (int64_t)g.a - eps, g.b - g.a + 2 * eps, keys[g.b] - keys[g.a]);
    }
}
