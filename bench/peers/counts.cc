/* LEMON's minimum cost flow on a problem with counts and groups, for bench/counts.py. */
#include <algorithm>
#include <cstddef>
#include <cstdint>
#include <ctime>
#include <lemon/cost_scaling.h>
#include <lemon/network_simplex.h>
#include <lemon/static_graph.h>
#include <utility>
#include <vector>

using Graph = lemon::StaticDigraph;

struct Arc {
    int from, to;
    int64_t least, most, cost;
};

/* The problem's lists, as nushbaret_counts takes them; groups has a number for each column, 0 for none. */
struct Problem {
    size_t n, m, pairs;
    const uint32_t *rows, *columns;
    const int64_t *costs;
    const uint32_t *row_least, *row_most, *column_least, *column_most, *groups;
};

/* Rows, columns, a hub, and a node for each row and each of its groups: a unit from row to column for each chosen pair. */
struct Network {
    int nodes;
    std::vector<Arc> arcs;

    explicit Network(const Problem &problem) : nodes(static_cast<int>(problem.n + problem.m + 1)) {
        int n = static_cast<int>(problem.n), hub = nodes - 1;
        for (size_t i = 0; i < problem.n; i++)
            arcs.push_back({hub, static_cast<int>(i), problem.row_least[i], problem.row_most[i], 0});
        for (size_t j = 0; j < problem.m; j++)
            arcs.push_back({n + static_cast<int>(j), hub, problem.column_least[j], problem.column_most[j], 0});
        add_pairs(problem, n);
        std::stable_sort(arcs.begin(), arcs.end(), [](const Arc &a, const Arc &b) { return a.from < b.from; });
    }

private:
    void add_pairs(const Problem &problem, int n) {
        std::vector<uint32_t> last_rows(problem.m + 1, 0);
        std::vector<int> group_nodes(problem.m + 1, 0);
        for (size_t k = 0; k < problem.pairs; k++) {
            uint32_t row = problem.rows[k], column = problem.columns[k], group = problem.groups[column - 1];
            int from = static_cast<int>(row) - 1;
            if (group != 0 && last_rows[group] != row) {
                last_rows[group] = row, group_nodes[group] = nodes++;
                arcs.push_back({from, group_nodes[group], 0, 1, 0});
            }
            if (group != 0) from = group_nodes[group];
            arcs.push_back({from, n + static_cast<int>(column) - 1, 0, 1, problem.costs[k]});
        }
    }
};

template <class Solver>
static bool solved(const Graph &graph, const Network &network, int64_t *cost, double *seconds) {
    Graph::ArcMap<int64_t> least(graph), most(graph), costs(graph);
    for (size_t k = 0; k < network.arcs.size(); k++) {
        Graph::Arc arc = graph.arc(static_cast<int>(k));
        least[arc] = network.arcs[k].least, most[arc] = network.arcs[k].most, costs[arc] = network.arcs[k].cost;
    }
    std::clock_t begin = std::clock();
    Solver solver(graph);
    bool is_best = solver.lowerMap(least).upperMap(most).costMap(costs).run() == Solver::OPTIMAL;
    if (is_best) *cost = solver.template totalCost<int64_t>();
    *seconds = static_cast<double>(std::clock() - begin) / CLOCKS_PER_SEC;
    return is_best;
}

/* Whether there is a plan, with the least cost; the seconds leave out the graph's building. */
extern "C" int lemon_counts(int is_scaling, const Problem *problem, int64_t *cost, double *seconds) {
    Network network(*problem);
    std::vector<std::pair<int, int>> ends;
    for (const Arc &arc : network.arcs) ends.emplace_back(arc.from, arc.to);
    Graph graph;
    graph.build(network.nodes, ends.begin(), ends.end());
    if (is_scaling) return solved<lemon::CostScaling<Graph, int64_t, int64_t>>(graph, network, cost, seconds);
    return solved<lemon::NetworkSimplex<Graph, int64_t, int64_t>>(graph, network, cost, seconds);
}
