// Times calls of the library beside Boost's, on one triangulation given as rotation lists on standard input: a number of
// vertices, and for each vertex its degree and its neighbours, clockwise.
#include <pigale.h>

#include <boost/graph/adjacency_list.hpp>
#include <boost/graph/boyer_myrvold_planar_test.hpp>
#include <boost/graph/chrobak_payne_drawing.hpp>
#include <boost/graph/is_straight_line_drawing.hpp>
#include <boost/graph/planar_canonical_ordering.hpp>
#include <chrono>
#include <cstdio>
#include <iostream>
#include <vector>

using graph = boost::adjacency_list<boost::vecS, boost::vecS, boost::undirectedS, boost::property<boost::vertex_index_t, int>,
                                    boost::property<boost::edge_index_t, int>>;
using edge = boost::graph_traits<graph>::edge_descriptor;
struct point {
    std::size_t x, y;
};

// The microseconds of a call, over as many as take a fifth of a second.
template <class Call> double took(Call call)
{
    using clock = std::chrono::steady_clock;
    auto start = clock::now();
    long calls = 0;
    double passed = 0;
    for (; passed < 0.2; passed = std::chrono::duration<double>(clock::now() - start).count()) call(), calls++;
    return passed / static_cast<double>(calls) * 1e6;
}

int main()
{
    std::size_t n, degree;
    std::cin >> n;
    std::vector<std::size_t> ends;
    std::vector<std::uint16_t> neighbours;
    graph map(n);
    int number = 0;
    for (std::size_t v = 0; v < n; v++) {
        std::cin >> degree;
        for (std::size_t i = 0, u; i < degree; i++) {
            std::cin >> u;
            neighbours.push_back(static_cast<std::uint16_t>(u));
            if (v < u) boost::add_edge(v, u, boost::property<boost::edge_index_t, int>(number++), map);
        }
        ends.push_back(neighbours.size());
    }
    std::vector<std::int32_t> x(n), y(n);
    pigale_numbers found;
    auto draw = [&] { return pigale_schnyder(ends.data(), n, neighbours.data(), neighbours.size(), x.data(), n, y.data(), n, &found); };
    auto reach = static_cast<std::int32_t>(n) - 2;
    auto check = [&] {
        return pigale_check(ends.data(), n, neighbours.data(), neighbours.size(), x.data(), n, y.data(), n, reach, reach, &found);
    };
    if (draw() || check()) return 1;

    std::vector<point> places(n);
    auto at = boost::make_iterator_property_map(places.begin(), get(boost::vertex_index, map));
    auto boost_draw = [&] {
        std::vector<std::vector<edge>> around(n);
        auto embedding = boost::make_iterator_property_map(around.begin(), get(boost::vertex_index, map));
        boost::boyer_myrvold_planarity_test(boost::boyer_myrvold_params::graph = map,
                                            boost::boyer_myrvold_params::embedding = embedding);
        std::vector<std::size_t> order;
        boost::planar_canonical_ordering(map, embedding, std::back_inserter(order));
        boost::chrobak_payne_straight_line_drawing(map, embedding, order.begin(), order.end(), at);
    };
    boost_draw();
    bool good = boost::is_straight_line_drawing(map, at);
    std::printf("| %zu | %.1f | %.1f | %.1f | %.1f |%s\n", n, took(draw), took(check), took(boost_draw),
                took([&] { good &= boost::is_straight_line_drawing(map, at); }), good ? "" : " (Boost refuses its own)");
    return 0;
}
