/* LEMON's minimum cost flow on an assignment problem: lemon simplex|scaling dense|sparse, the text on standard input. */
#include "text.h"
#include <lemon/cost_scaling.h>
#include <lemon/network_simplex.h>
#include <lemon/smart_graph.h>

using Graph = lemon::SmartDigraph;

template <class Solver>
static int64_t solved(const Graph &graph, const Graph::ArcMap<int> &one, const Graph::ArcMap<int64_t> &costs,
                      const Graph::NodeMap<int> &supplies) {
    Solver solver(graph);
    solver.upperMap(one).costMap(costs).supplyMap(supplies).run();
    return solver.template totalCost<int64_t>();
}

int main(int, char **words) {
    Text text(!strcmp(words[2], "sparse"));
    Watch watch;
    Graph graph;
    graph.reserveNode(2 * text.n);
    graph.reserveArc(static_cast<int>(text.pairs.size()));
    for (int node = 0; node < 2 * text.n; node++) graph.addNode();
    for (const Pair &pair : text.pairs) graph.addArc(Graph::nodeFromId(pair.person), Graph::nodeFromId(text.n + pair.object));
    Graph::ArcMap<int> one(graph, 1);
    Graph::ArcMap<int64_t> costs(graph);
    for (size_t arc = 0; arc < text.pairs.size(); arc++) costs[Graph::arcFromId(static_cast<int>(arc))] = text.pairs[arc].cost;
    Graph::NodeMap<int> supplies(graph);
    for (int node = 0; node < 2 * text.n; node++) supplies[Graph::nodeFromId(node)] = node < text.n ? 1 : -1;
    if (!strcmp(words[1], "simplex"))
        watch.tell(solved<lemon::NetworkSimplex<Graph, int, int64_t>>(graph, one, costs, supplies));
    else
        watch.tell(solved<lemon::CostScaling<Graph, int, int64_t>>(graph, one, costs, supplies));
}
