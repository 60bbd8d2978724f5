// Points, boxes and centres of D coordinates, and the files that have them (docs/formats.md).
#pragma once
#include "shared.hpp"
#include <array>
#include <fstream>

template <int D> using Point = std::array<u32, D>;
template <int D> struct Box { Point<D> low, high; };
template <int D> struct Centre {
    Point<D> at;
    std::size_t k;
};

template <int D> std::vector<Point<D>> read_points(const std::string &name) {
    std::ifstream in(name, std::ios::binary);
    u64 count = 0;
    in.read((char *)&count, 8);
    std::vector<Point<D>> points(in ? count : 0);
    in.read((char *)points.data(), (std::streamsize)(points.size() * sizeof(Point<D>)));
    if (!in) fail("no point file: " + name);
    return points;
}

template <int D> std::vector<Box<D>> read_boxes(const std::string &name) {
    std::ifstream in(name);
    std::vector<Box<D>> boxes;
    for (std::string word; in >> word;) {
        Box<D> box;
        for (u32 &low : box.low) in >> low;
        for (u32 &high : box.high) in >> high;
        if (word != "box" || !in) fail("no script: " + name);
        boxes.push_back(box);
    }
    return boxes;
}

template <int D> std::vector<Centre<D>> read_centres(const std::string &name) {
    std::ifstream in(name);
    std::vector<Centre<D>> centres;
    for (std::string word; in >> word;) {
        Centre<D> centre;
        for (u32 &at : centre.at) in >> at;
        if (word != "near" || !(in >> centre.k)) fail("no script: " + name);
        centres.push_back(centre);
    }
    return centres;
}

// What the points of boxes have together: their number, and the sum of their coordinates, the first
// taken once, the second three times, the third five times, in 64 bits.
struct Found {
    u64 points = 0, sum = 0;
};

template <int D, class Coordinates> void add_point(Found &found, const Coordinates &coordinate) {
    ++found.points;
    for (int d = 0; d < D; ++d) found.sum += (u64)coordinate(d) * (2 * d + 1);
}

// Times the boxes of each script, the least of so many rounds, and prints what was found in them.
template <int D, class Visit> void time_boxes(char **scripts, int rounds, const Visit &visit) {
    for (; *scripts; ++scripts) {
        auto boxes = read_boxes<D>(*scripts);
        double least = 1e99;
        Found found;
        for (int round = 0; round < rounds; ++round) {
            found = Found();
            double start = seconds();
            for (const Box<D> &box : boxes) visit(box, found);
            least = std::min(least, seconds() - start);
        }
        std::printf("script %s boxes %zu found %llu checksum %llu nanoseconds %.0f\n", *scripts,
                    boxes.size(), (unsigned long long)found.points, (unsigned long long)found.sum,
                    least * 1e9 / (double)std::max<std::size_t>(boxes.size(), 1));
    }
}

// The square of Euclid's distance, as a double: exact below 2^53.
template <int D> double squared(const Point<D> &a, const Point<D> &b) {
    double sum = 0;
    for (int d = 0; d < D; ++d) {
        double apart = (double)a[d] - (double)b[d];
        sum += apart * apart;
    }
    return sum;
}

// Looks whether the places of a centre's k nearest points are that, by all points.
template <int D> void check_nearest(const std::vector<Point<D>> &points, const Centre<D> &centre,
                                    const std::vector<std::size_t> &places) {
    std::size_t k = std::min(centre.k, points.size());
    if (places.size() != k) fail("too few points");
    std::vector<double> all, found;
    for (const Point<D> &point : points) all.push_back(squared<D>(point, centre.at));
    for (std::size_t place : places) found.push_back(all[place]);
    std::partial_sort(all.begin(), all.begin() + (std::ptrdiff_t)k, all.end());
    std::sort(found.begin(), found.end());
    if (!std::equal(found.begin(), found.end(), all.begin())) fail("there are nearer points");
}

// Times the nearest points by Euclid's distance of each script's centres, the least of so many
// rounds, and prints how many were found and the sum of their distances. `nearest` writes the
// places of a centre's points; those of the first eight centres are looked at.
template <int D, class Nearest> void time_nearest(char **scripts, int rounds,
                                                  const std::vector<Point<D>> &points,
                                                  const Nearest &nearest) {
    std::vector<std::size_t> places;
    for (; *scripts; ++scripts) {
        auto centres = read_centres<D>(*scripts);
        double least = 1e99, distances = 0;
        u64 found = 0;
        for (int round = 0; round < rounds; ++round) {
            found = 0;
            double start = seconds();
            for (const Centre<D> &centre : centres) {
                nearest(centre, places);
                found += places.size();
            }
            least = std::min(least, seconds() - start);
        }
        for (std::size_t i = 0; i < centres.size(); ++i) {
            nearest(centres[i], places);
            if (i < 8) check_nearest<D>(points, centres[i], places);
            for (std::size_t place : places)
                distances += std::sqrt(squared<D>(points[place], centres[i].at));
        }
        std::printf("script %s questions %zu found %llu distances %.3f nanoseconds %.1f\n",
                    *scripts, centres.size(), (unsigned long long)found, distances,
                    least * 1e9 / (double)std::max<std::size_t>(centres.size(), 1));
    }
}
