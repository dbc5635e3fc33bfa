/* Maximal cliques by igraph. */
#include <igraph.h>
#include <stdint.h>
#include <stdlib.h>

static void checked(igraph_error_t error)
{
    if (error != IGRAPH_SUCCESS)
        abort();
}

/* A graph of so many vertices; the ends of edge i are ends[2 i] and ends[2 i + 1]. */
void *shim_igraph_new(uint64_t vertices, const uint64_t *ends, size_t length)
{
    igraph_t *graph = malloc(sizeof *graph);
    igraph_vector_int_t list;
    if (graph == NULL)
        abort();
    checked(igraph_vector_int_init(&list, length));
    for (size_t i = 0; i < length; i++)
        VECTOR(list)[i] = ends[i];
    checked(igraph_create(graph, &list, vertices, IGRAPH_UNDIRECTED));
    igraph_vector_int_destroy(&list);
    return graph;
}

void shim_igraph_free(void *graph)
{
    igraph_destroy(graph);
    free(graph);
}

/* The fewest vertices of a group, and so of a clique that is looked for. */
enum { FEWEST = 2 };

/* How many maximal cliques of so many vertices or more there are. */
uint64_t shim_igraph_count(const void *graph)
{
    igraph_integer_t count;
    checked(igraph_maximal_cliques_count(graph, &count, FEWEST, 0));
    return count;
}

struct sizes {
    igraph_integer_t half;
    uint64_t *counts;
};

/* Counts a clique by the size of the smaller of its parts, below and from the middle of the vertices. */
static igraph_error_t by_smaller_part(const igraph_vector_int_t *clique, void *argument)
{
    struct sizes *sizes = argument;
    igraph_integer_t size = igraph_vector_int_size(clique), low = 0;
    for (igraph_integer_t i = 0; i < size; i++)
        low += VECTOR(*clique)[i] < sizes->half;
    sizes->counts[low < size - low ? low : size - low]++;
    return IGRAPH_SUCCESS;
}

/* Adds to counts[m] those of these cliques whose smaller part has m vertices. */
void shim_igraph_callback(const void *graph, uint64_t *counts)
{
    struct sizes sizes = {igraph_vcount(graph) / 2, counts};
    checked(igraph_maximal_cliques_callback(graph, by_smaller_part, &sizes, FEWEST, 0));
}
