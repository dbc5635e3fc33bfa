/* The largest clique by cliquer. */
#include <cliquer/cliquer.h>
#include <stdint.h>

/* A graph of so many vertices; the ends of edge i are ends[2 i] and ends[2 i + 1]. */
void *shim_cliquer_new(uint64_t vertices, const uint64_t *ends, size_t length)
{
    graph_t *graph = graph_new(vertices);
    for (size_t i = 0; i + 1 < length; i += 2)
        GRAPH_ADD_EDGE(graph, ends[i], ends[i + 1]);
    return graph;
}

void shim_cliquer_free(void *graph)
{
    graph_free(graph);
}

/* The size of the largest clique, 0 where that is a vertex alone, with the default options but for
   the printing of times. */
uint64_t shim_cliquer_largest(void *graph)
{
    clique_options options = *clique_default_options;
    options.time_function = NULL;
    set_t clique = clique_unweighted_find_single(graph, 0, 0, FALSE, &options);
    uint64_t size = set_size(clique);
    set_free(clique);
    return size < 2 ? 0 : size;
}
