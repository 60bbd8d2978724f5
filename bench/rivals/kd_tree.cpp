// The points nearest to each centre of a script, by a k-d tree of leaves of 16 points:
//   kd_tree POINTS DIMS ROUNDS SCRIPT..            by the greatest difference of a coordinate
//   kd_tree euclid POINTS DIMS ROUNDS SCRIPT..     by Euclid's distance
// The files are those of `pgmtool near`, and so is the first distance. An answer is sorted by
// distance; points equally far come in any order. Prints, for each script, how many questions and
// points there are, the sum of all distances, and nanoseconds a question.
#include "points.hpp"

using std::size_t;

constexpr size_t LEAF = 16;

// The greatest difference of a coordinate; a point that is found is its distance and its place in
// one number.
struct Greatest {
    using Far = u32;
    using Found = u64;
    static void take(u32 &far, u32 apart) { far = std::max(far, apart); }
    static Found found(u32 far, u32 place) { return u64(far) << 32 | place; }
    static u32 far_of(Found found) { return found >> 32; }
    static u32 place_of(Found found) { return (u32)found; }
};

// The square of Euclid's distance.
struct Euclid {
    using Far = double;
    using Found = std::pair<double, u32>;
    static void take(double &far, u32 apart) { far += (double)apart * (double)apart; }
    static Found found(double far, u32 place) { return {far, place}; }
    static double far_of(Found found) { return found.first; }
    static u32 place_of(Found found) { return found.second; }
};

template <int D> struct Node {
    u32 low[D], high[D]; // the least box that has its points
    u32 first, last;     // its points: first..last
    u32 right;           // the right child, and 0 in a leaf; the left one follows the node
};

template <int D, class Distance> class Tree {
public:
    using Far = typename Distance::Far;
    using Heap = std::vector<typename Distance::Found>;

    explicit Tree(std::vector<Point<D>> of) : points(std::move(of)) {
        if (!points.empty()) build(0, points.size());
    }

    // The k nearest points by distance.
    void nearest(const Point<D> &centre, size_t k, Heap &heap) const {
        heap.clear();
        if (k > 0 && !nodes.empty()) search(0, to_box(nodes[0], centre), centre, k, heap);
        std::sort_heap(heap.begin(), heap.end());
    }

    // The points in the order of their places.
    const std::vector<Point<D>> &placed() const { return points; }

private:
    std::vector<Point<D>> points;
    std::vector<Node<D>> nodes;

    u32 build(size_t first, size_t last) {
        u32 here = nodes.size();
        Node<D> node;
        for (int c = 0; c < D; c++) {
            node.low[c] = UINT32_MAX;
            node.high[c] = 0;
            for (size_t i = first; i < last; i++) {
                node.low[c] = std::min(node.low[c], points[i][c]);
                node.high[c] = std::max(node.high[c], points[i][c]);
            }
        }
        node.first = first;
        node.last = last;
        node.right = 0;
        nodes.push_back(node);
        if (last - first <= LEAF) return here;
        int widest = 0;
        for (int c = 1; c < D; c++)
            if (node.high[c] - node.low[c] > node.high[widest] - node.low[widest]) widest = c;
        size_t middle = first + (last - first) / 2;
        auto less = [widest](const auto &a, const auto &b) { return a[widest] < b[widest]; };
        std::nth_element(points.begin() + first, points.begin() + middle, points.begin() + last,
                         less);
        build(first, middle);
        u32 right = build(middle, last);
        nodes[here].right = right;
        return here;
    }

    static Far to_box(const Node<D> &node, const Point<D> &centre) {
        Far far = 0;
        for (int c = 0; c < D; c++) {
            u32 below = centre[c] < node.low[c] ? node.low[c] - centre[c] : 0;
            u32 above = centre[c] > node.high[c] ? centre[c] - node.high[c] : 0;
            Distance::take(far, std::max(below, above));
        }
        return far;
    }

    static Far to_point(const Point<D> &point, const Point<D> &centre) {
        Far far = 0;
        for (int c = 0; c < D; c++) {
            u32 a = point[c], b = centre[c];
            Distance::take(far, a < b ? b - a : a - b);
        }
        return far;
    }

    // The nearer child first; a box no nearer than the furthest of k points has none to add.
    void search(u32 at, Far away, const Point<D> &centre, size_t k, Heap &heap) const {
        if (heap.size() == k && away >= Distance::far_of(heap.front())) return;
        const Node<D> &node = nodes[at];
        if (node.right == 0) {
            for (u32 i = node.first; i < node.last; i++)
                add(Distance::found(to_point(points[i], centre), i), k, heap);
            return;
        }
        Far left = to_box(nodes[at + 1], centre), right = to_box(nodes[node.right], centre);
        if (left <= right) {
            search(at + 1, left, centre, k, heap);
            search(node.right, right, centre, k, heap);
        } else {
            search(node.right, right, centre, k, heap);
            search(at + 1, left, centre, k, heap);
        }
    }

    static void add(typename Distance::Found found, size_t k, Heap &heap) {
        if (heap.size() < k) {
            heap.push_back(found);
        } else if (found < heap.front()) {
            std::pop_heap(heap.begin(), heap.end());
            heap.back() = found;
        } else {
            return;
        }
        std::push_heap(heap.begin(), heap.end());
    }
};

template <int D> void by_greatest(const char *name, int rounds, char **scripts) {
    const Tree<D, Greatest> tree(read_points<D>(name));
    std::vector<u64> heap;
    for (; *scripts; scripts++) {
        auto centres = read_centres<D>(*scripts);
        double least = 1e99;
        u64 found = 0, distances = 0;
        for (int round = 0; round < rounds; round++) {
            found = distances = 0;
            double start = seconds();
            for (const auto &centre : centres) {
                tree.nearest(centre.at, centre.k, heap);
                found += heap.size();
                for (u64 point : heap) distances += Greatest::far_of(point);
            }
            least = std::min(least, seconds() - start);
        }
        std::printf("script %s questions %zu found %llu distances %llu nanoseconds %.1f\n",
                    *scripts, centres.size(), (unsigned long long)found,
                    (unsigned long long)distances,
                    least * 1e9 / (double)std::max<size_t>(centres.size(), 1));
    }
}

template <int D> void by_euclid(const char *name, int rounds, char **scripts) {
    const Tree<D, Euclid> tree(read_points<D>(name));
    std::vector<Euclid::Found> heap;
    time_nearest<D>(scripts, rounds, tree.placed(), [&](const auto &centre, auto &places) {
        tree.nearest(centre.at, centre.k, heap);
        places.clear();
        for (const Euclid::Found &found : heap) places.push_back(Euclid::place_of(found));
    });
}

int main(int count, char **words) {
    bool is_euclid = count > 1 && std::string(words[1]) == "euclid";
    char **given = words + (is_euclid ? 2 : 1);
    std::string dims = given + 2 < words + count ? given[1] : "";
    int rounds = dims.empty() ? 0 : std::atoi(given[2]);
    if (dims == "2")
        (is_euclid ? by_euclid<2> : by_greatest<2>)(given[0], rounds, given + 3);
    else if (dims == "3")
        (is_euclid ? by_euclid<3> : by_greatest<3>)(given[0], rounds, given + 3);
    else
        fail("usage: kd_tree [euclid] POINTS 2|3 ROUNDS SCRIPT..");
}
