// The points nearest to a centre by Euclid's distance, by the k-d tree of nanoflann (Jose Luis
// Blanco-Claraco, after FLANN by Marius Muja and David Lowe; libnanoflann-dev), with its own leaves
// of 10 points: nanoflann_tree POINTS DIMS ROUNDS SCRIPT..
// The files are those of `pgmtool near`. Prints what `kd_tree` prints.
#include "points.hpp"
#include <nanoflann.hpp>

// The points as nanoflann asks for them.
template <int D> struct Cloud {
    std::vector<Point<D>> points;
    std::size_t kdtree_get_point_count() const { return points.size(); }
    double kdtree_get_pt(std::size_t place, std::size_t d) const { return points[place][d]; }
    template <class Box> bool kdtree_get_bbox(Box &) const { return false; }
};

template <int D> void near(const char *name, int rounds, char **scripts) {
    using Distance = nanoflann::L2_Simple_Adaptor<double, Cloud<D>>;
    using Tree = nanoflann::KDTreeSingleIndexAdaptor<Distance, Cloud<D>, D, std::size_t>;
    const Cloud<D> cloud{read_points<D>(name)};
    Tree tree(D, cloud);
    tree.buildIndex();
    std::vector<double> squares;
    time_nearest<D>(scripts, rounds, cloud.points, [&](const auto &centre, auto &places) {
        double at[D];
        for (int d = 0; d < D; ++d) at[d] = centre.at[d];
        places.resize(centre.k);
        squares.resize(centre.k);
        places.resize(tree.knnSearch(at, centre.k, places.data(), squares.data()));
    });
}

int main(int count, char **words) {
    std::string dims = count > 3 ? words[2] : "";
    if (dims == "2")
        near<2>(words[1], std::atoi(words[3]), words + 4);
    else if (dims == "3")
        near<3>(words[1], std::atoi(words[3]), words + 4);
    else
        fail("usage: nanoflann_tree POINTS 2|3 ROUNDS SCRIPT..");
}
