// Draws a planar Boost graph: Boost finds an embedding, Pigale draws it on the grid n - 2 by n - 2 and judges the drawing.
//
//   c++ -std=c++17 draw.cpp $(pkg-config --cflags --libs pigale) -o draw && ./draw
#include <pigale.h>

#include <boost/graph/adjacency_list.hpp>
#include <boost/graph/boyer_myrvold_planar_test.hpp>
#include <iostream>
#include <vector>

using graph = boost::adjacency_list<boost::vecS, boost::vecS, boost::undirectedS, boost::no_property,
                                    boost::property<boost::edge_index_t, std::size_t>>;
using edge = boost::graph_traits<graph>::edge_descriptor;

int main()
{
    graph wheel(7);
    std::size_t number = 0;
    for (int v = 1; v < 7; v++) {
        boost::add_edge(0, v, number++, wheel);
        boost::add_edge(v, v % 6 + 1, number++, wheel);
    }
    std::vector<std::vector<edge>> around(num_vertices(wheel));
    if (!boost::boyer_myrvold_planarity_test(boost::boyer_myrvold_params::graph = wheel,
                                             boost::boyer_myrvold_params::embedding = &around[0]))
        return 1;

    // The arrays of the map: the neighbours of each vertex, vertex after vertex, and where each list ends.
    std::vector<std::size_t> ends;
    std::vector<std::uint16_t> neighbours;
    for (std::size_t v = 0; v < around.size(); v++) {
        for (edge e : around[v]) {
            std::size_t from = source(e, wheel), to = target(e, wheel);
            neighbours.push_back(static_cast<std::uint16_t>(from == v ? to : from));
        }
        ends.push_back(neighbours.size());
    }

    std::vector<std::int32_t> x(ends.size()), y(ends.size());
    pigale_numbers found;
    if (pigale_schnyder(ends.data(), ends.size(), neighbours.data(), neighbours.size(), x.data(), x.size(), y.data(), y.size(),
                        &found) != PIGALE_OK)
        return 1;
    for (std::size_t v = 0; v < ends.size(); v++) std::cout << v << " at " << x[v] << ' ' << y[v] << '\n';
    int reach = static_cast<int>(ends.size()) - 2;
    return pigale_check(ends.data(), ends.size(), neighbours.data(), neighbours.size(), x.data(), x.size(), y.data(), y.size(),
                        reach, reach, &found);
}
