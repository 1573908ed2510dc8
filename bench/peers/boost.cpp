/* Boost's planarity test and drawing, over lines of graph6: `boost test` or `boost draw`.

   For each graph a line: `p` and the neighbours of each vertex, clockwise or counterclockwise and closed by 0 (test),
   or `p` and x and y of each vertex (draw, from three vertices on), or `k` and the ends of the edges of a Kuratowski
   subgraph. Vertices are numbered from 1. */
#include "graph6.h"
#include <boost/graph/adjacency_list.hpp>
#include <boost/graph/boyer_myrvold_planar_test.hpp>
#include <boost/graph/chrobak_payne_drawing.hpp>
#include <boost/graph/make_biconnected_planar.hpp>
#include <boost/graph/make_connected.hpp>
#include <boost/graph/make_maximal_planar.hpp>
#include <boost/graph/planar_canonical_ordering.hpp>
#include <string>
#include <utility>
#include <vector>

using namespace boost;
using Graph = adjacency_list<vecS, vecS, undirectedS, property<vertex_index_t, int>, property<edge_index_t, int>>;
using Edge = graph_traits<Graph>::edge_descriptor;
using Embedding = std::vector<std::vector<Edge>>;
struct Place { std::size_t x, y; };

static void number_edges(Graph &g) {
    int i = 0;
    for (auto [e, end] = edges(g); e != end; ++e) put(get(edge_index, g), *e, i++);
}

static void embed(Graph &g, Embedding &around) {
    number_edges(g);
    around.assign(num_vertices(g), {});
    boyer_myrvold_planarity_test(boyer_myrvold_params::graph = g, boyer_myrvold_params::embedding = &around[0]);
}

static void draw(Graph &g, Embedding &around) {
    make_connected(g);
    embed(g, around);
    make_biconnected_planar(g, &around[0]);
    embed(g, around);
    make_maximal_planar(g, &around[0]);
    embed(g, around);
    std::vector<graph_traits<Graph>::vertex_descriptor> order;
    auto rounds = make_iterator_property_map(around.begin(), get(vertex_index, g));
    planar_canonical_ordering(g, rounds, std::back_inserter(order));
    std::vector<Place> places(num_vertices(g));
    chrobak_payne_straight_line_drawing(g, rounds, order.begin(), order.end(),
        make_iterator_property_map(places.begin(), get(vertex_index, g)));
    for (const Place &p : places) printf(" %zu %zu", p.x, p.y);
}

static void add(int u, int v, void *ends) { static_cast<std::vector<std::pair<int, int>> *>(ends)->emplace_back(u, v); }

int main(int count, char **words) {
    const bool draws = count == 2 && std::string(words[1]) == "draw";
    std::vector<std::pair<int, int>> ends;
    for (int n; ends.clear(), (n = next_graph(add, &ends)) >= 0;) {
        Graph g(ends.begin(), ends.end(), n);
        number_edges(g);
        Embedding around(n);
        std::vector<Edge> kuratowski;
        if (boyer_myrvold_planarity_test(boyer_myrvold_params::graph = g, boyer_myrvold_params::embedding = &around[0],
                boyer_myrvold_params::kuratowski_subgraph = std::back_inserter(kuratowski))) {
            putchar('p');
            if (draws) draw(g, around);
            else for (int v = 0; v < n; v++) {
                for (const Edge &e : around[v]) printf(" %d", int(source(e, g) == std::size_t(v) ? target(e, g) : source(e, g)) + 1);
                printf(" 0");
            }
        } else {
            putchar('k');
            for (const Edge &e : kuratowski) printf(" %d %d", int(source(e, g)) + 1, int(target(e, g)) + 1);
        }
        putchar('\n');
    }
}
