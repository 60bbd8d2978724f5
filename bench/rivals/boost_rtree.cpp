// Boxes, and the points nearest to a centre by Euclid's distance, by the R-tree of Boost.Geometry
// (Adam Wulkiewicz; libboost-dev): rstar<16>, made of all points at once.
//   boost_rtree box POINTS DIMS ROUNDS SCRIPT..
//   boost_rtree near POINTS DIMS ROUNDS SCRIPT..
// The files are those of `pgmtool box` and `pgmtool near`. Prints what `boxes` and `kd_tree` print.
#include "points.hpp"
// Its own headers include some of these.
#define BOOST_ALLOW_DEPRECATED_HEADERS
#include <boost/geometry.hpp>
#include <boost/geometry/index/rtree.hpp>
#include <boost/iterator/function_output_iterator.hpp>

namespace geometry = boost::geometry;

// Numbers of points are compared as doubles where a distance is wanted, as whole numbers else.
template <class Number, int D> using Spot =
    geometry::model::point<Number, D, geometry::cs::cartesian>;

template <class Number, int D> Spot<Number, D> spot_of(const Point<D> &point) {
    Spot<Number, D> spot;
    geometry::set<0>(spot, (Number)point[0]);
    geometry::set<1>(spot, (Number)point[1]);
    if constexpr (D > 2) geometry::set<2>(spot, (Number)point[2]);
    return spot;
}

template <class Value> using Tree = geometry::index::rtree<Value, geometry::index::rstar<16>>;

template <int D> u32 coordinate(const Spot<u32, D> &spot, int d) {
    if constexpr (D > 2)
        if (d == 2) return geometry::get<2>(spot);
    return d ? geometry::get<1>(spot) : geometry::get<0>(spot);
}

template <int D> void boxes(const char *name, int rounds, char **scripts) {
    std::vector<Spot<u32, D>> spots;
    for (const Point<D> &point : read_points<D>(name)) spots.push_back(spot_of<u32, D>(point));
    const Tree<Spot<u32, D>> tree(spots);
    time_boxes<D>(scripts, rounds, [&](const Box<D> &box, Found &found) {
        geometry::model::box<Spot<u32, D>> region(spot_of<u32, D>(box.low),
                                                  spot_of<u32, D>(box.high));
        auto add = [&](const Spot<u32, D> &spot) {
            add_point<D>(found, [&](int d) { return coordinate<D>(spot, d); });
        };
        tree.query(geometry::index::intersects(region), boost::make_function_output_iterator(add));
    });
}

template <int D> void near(const char *name, int rounds, char **scripts) {
    auto points = read_points<D>(name);
    using Value = std::pair<Spot<double, D>, u32>;
    std::vector<Value> values;
    for (const Point<D> &point : points)
        values.emplace_back(spot_of<double, D>(point), (u32)values.size());
    const Tree<Value> tree(values);
    time_nearest<D>(scripts, rounds, points, [&](const auto &centre, auto &places) {
        places.clear();
        auto add = [&](const Value &value) { places.push_back(value.second); };
        if (centre.k == 0) return;
        tree.query(geometry::index::nearest(spot_of<double, D>(centre.at), (unsigned)centre.k),
                   boost::make_function_output_iterator(add));
    });
}

int main(int count, char **words) {
    std::string what = count > 4 ? words[1] : "", dims = count > 4 ? words[3] : "";
    int rounds = count > 4 ? std::atoi(words[4]) : 0;
    if (what == "box" && dims == "2")
        boxes<2>(words[2], rounds, words + 5);
    else if (what == "box" && dims == "3")
        boxes<3>(words[2], rounds, words + 5);
    else if (what == "near" && dims == "2")
        near<2>(words[2], rounds, words + 5);
    else if (what == "near" && dims == "3")
        near<3>(words[2], rounds, words + 5);
    else
        fail("usage: boost_rtree box|near POINTS 2|3 ROUNDS SCRIPT..");
}
