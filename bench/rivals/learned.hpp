// A RadixSpline (Kipf and others, 2020) and an RMI of two layers (Kraska and others, 2018), written
// from the published designs and not their authors' text. The spline is a greedy corridor in
// `double`, with a table over the top bits; of numbers behind equal keys it promises nothing. The
// RMI has lines of least squares as its root and leaves, and of each leaf the greatest error.
#pragma once
#include "shared.hpp"
#include <cstddef>

using std::size_t;

class RadixSpline {
    struct Knot {
        u64 x;
        double y;
    };
    u64 min_ = 0, max_ = 0;
    size_t n_ = 0, err_;
    int shift_ = 0;
    std::vector<Knot> knots_;
    std::vector<u32> table_;

    // Above 0 where the second direction is clockwise of the first.
    static double turn(double dx1, double dy1, double dx2, double dy2) {
        return dy1 * dx2 - dy2 * dx1;
    }

public:
    RadixSpline(const std::vector<u64> &a, size_t err, int radix_bits) : n_(a.size()), err_(err) {
        if (!n_) return;
        min_ = a.front();
        max_ = a.back();
        u64 span = max_ - min_;
        int bits = span ? 64 - __builtin_clzll(span) : 1;
        shift_ = std::max(0, bits - radix_bits);

        auto e = (double)err;
        Knot up{}, down{}, prev{};
        size_t distinct = 0;
        for (size_t i = 0; i < n_; ++i) {
            u64 x = a[i];
            auto y = (double)i;
            if (i && x == prev.x) continue;
            if (distinct == 0)
                knots_.push_back({x, y});
            else if (distinct == 1) {
                up = {x, y + e};
                down = {x, y < e ? 0 : y - e};
            } else {
                const Knot &k = knots_.back();
                auto dx = (double)(x - k.x), dy = y - k.y;
                auto ux = (double)(up.x - k.x), uy = up.y - k.y, lx = (double)(down.x - k.x),
                     ly = down.y - k.y;
                double yu = y + e, yl = y < e ? 0 : y - e;
                if (!(turn(ux, uy, dx, dy) > 0) || !(turn(lx, ly, dx, dy) < 0)) {
                    knots_.push_back(prev);
                    up = {x, yu};
                    down = {x, yl};
                } else {
                    if (turn(ux, uy, dx, yu - k.y) > 0) up = {x, yu};
                    if (turn(lx, ly, dx, yl - k.y) < 0) down = {x, yl};
                }
            }
            prev = {x, y};
            ++distinct;
        }
        if (knots_.back().x != max_) knots_.push_back(prev);

        table_.assign((span >> shift_) + 2, 0);
        u64 done = 0;
        for (size_t i = 0; i < knots_.size(); ++i) {
            u64 p = (knots_[i].x - min_) >> shift_;
            while (done < p) table_[++done] = (u32)i;
        }
        while (done + 1 < table_.size()) table_[++done] = (u32)knots_.size();
    }

    struct Window {
        size_t lo, hi;
    };
    Window search(u64 q) const {
        size_t est;
        if (q <= min_)
            est = 0;
        else if (q >= max_)
            est = n_ - 1;
        else {
            u64 p = (q - min_) >> shift_;
            u32 b = table_[p], e = table_[p + 1];
            size_t i;
            if (e - b < 32) {
                i = b;
                while (knots_[i].x < q) ++i;
            } else {
                i = (size_t)(std::lower_bound(knots_.begin() + b, knots_.begin() + e, q,
                                              [](const Knot &k, u64 v) { return k.x < v; }) -
                             knots_.begin());
            }
            const Knot &l = knots_[i - 1], &r = knots_[i];
            double slope = (r.y - l.y) / (double)(r.x - l.x);
            est = (size_t)std::fma((double)(q - l.x), slope, l.y);
        }
        return {est < err_ ? 0 : est - err_, std::min(n_, est + err_ + 2)};
    }
    size_t bytes() const { return knots_.size() * sizeof(Knot) + table_.size() * sizeof(u32); }
    size_t knots() const { return knots_.size(); }
};

class Rmi {
    struct Leaf {
        double slope, at0;
        u32 start, err;
    };
    u64 min_ = 0;
    size_t n_ = 0;
    double root_slope_ = 0, root_at0_ = 0;
    std::vector<Leaf> leaves_;

    size_t leaf_of(u64 q) const {
        double v = root_at0_ + root_slope_ * (double)(q - min_);
        return (size_t)std::clamp(v, 0.0, (double)(leaves_.size() - 2));
    }
    static size_t predict(const Leaf &l, const Leaf &next, double x) {
        return (size_t)std::clamp(l.at0 + l.slope * x, (double)l.start, (double)next.start);
    }
    // Least squares about a moving origin, for the sake of the digits.
    struct Fit {
        double n = 0, mx = 0, my = 0, sxx = 0, sxy = 0;
        void add(double x, double y) {
            n += 1;
            double dx = x - mx;
            mx += dx / n;
            my += (y - my) / n;
            sxx += dx * (x - mx);
            sxy += dx * (y - my);
        }
        double slope() const { return sxx > 0 ? std::max(0.0, sxy / sxx) : 0; }
        double at0() const { return my - slope() * mx; }
    };

public:
    Rmi(const std::vector<u64> &a, size_t leaves) : n_(a.size()), leaves_(leaves + 1) {
        if (!n_) return;
        min_ = a[0];
        Fit root;
        for (size_t i = 0; i < n_; ++i)
            if (i == 0 || a[i] != a[i - 1]) root.add((double)(a[i] - min_), (double)i);
        double scale = (double)leaves / (double)n_;
        root_slope_ = root.slope() * scale;
        root_at0_ = root.at0() * scale;

        size_t i = 0;
        for (size_t l = 0; l < leaves; ++l) {
            Leaf &leaf = leaves_[l];
            leaf.start = (u32)i;
            size_t from = i;
            Fit f;
            for (; i < n_ && leaf_of(a[i]) == l; ++i)
                if (i == from || a[i] != a[i - 1]) f.add((double)(a[i] - min_), (double)i);
            leaf.slope = f.slope();
            leaf.at0 = f.n > 0 ? f.at0() : (double)from;
        }
        leaves_[leaves] = {0, (double)n_, (u32)n_, 0};
        for (size_t l = 0; l < leaves; ++l) {
            Leaf &leaf = leaves_[l];
            size_t err = 0, first_of_run = leaf.start, end = leaves_[l + 1].start;
            for (size_t k = leaf.start; k < end; ++k) {
                if (k > leaf.start && a[k] != a[k - 1]) first_of_run = k;
                size_t p = predict(leaf, leaves_[l + 1], (double)(a[k] - min_));
                size_t below = p > first_of_run ? p - first_of_run : first_of_run - p;
                // A number just above this key has its place behind it.
                size_t above = p > k + 1 ? p - (k + 1) : k + 1 - p;
                err = std::max(err, std::max(below, above));
            }
            leaf.err = (u32)err;
        }
    }
    struct Window {
        size_t lo, hi;
    };
    Window search(u64 q) const {
        if (q <= min_) return {0, 1};
        const Leaf *l = &leaves_[leaf_of(q)];
        size_t p = predict(l[0], l[1], (double)(q - min_));
        size_t lo = p < l->err ? 0 : p - l->err;
        return {std::max<size_t>(lo, l->start), std::min<size_t>(p + l->err + 1, l[1].start)};
    }
    size_t bytes() const { return leaves_.size() * sizeof(Leaf); }
    size_t leaves() const { return leaves_.size() - 1; }
    size_t worst() const {
        size_t w = 0;
        for (auto &l : leaves_) w = std::max<size_t>(w, l.err);
        return w;
    }
};
