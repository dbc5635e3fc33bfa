/* Lists the groups of a graph for k = 1 by pages of one record, finds the largest, and counts in how many of them sets lie;
   then the same with a vertex masked. */
#include <inttypes.h>
#include <stdio.h>

#include "mastpickle.h"

/* Five vertices; the positive edges 0,1, 0,4 and 2,3 and the negative edges 0,2, 0,3, 1,2, 1,3 and 2,4. */
static const uint8_t edge_list[] = {
    0x10, 5,
    0x21, 0, 1, 0x22, 0, 2, 0x22, 0, 3, 0x21, 0, 4,
    0x22, 1, 2, 0x22, 1, 3, 0x21, 2, 3, 0x22, 2, 4,
    0xff,
};

static const uint64_t k = 1;

static void print_set(uint64_t set)
{
    for (int p = 0; p < 64; p++)
        if (set >> p & 1)
            printf(" %d", p);
}

static void print_group(const char *name, uint64_t left, uint64_t right)
{
    printf("%s", name);
    print_set(left);
    printf(" |");
    print_set(right);
    printf("\n");
}

/* The number in eight bytes, low byte first. */
static uint64_t word_at(const uint8_t *bytes)
{
    uint64_t word = 0;
    for (int i = 7; i >= 0; i--)
        word = word << 8 | bytes[i];
    return word;
}

static int refused(const char *call, uint64_t number)
{
    fprintf(stderr, "%s: refused %" PRIu64 "\n", call, number);
    return 1;
}

/* Prints in how many groups each of some sets lies: the empty one, 0, 1 and 3, 1 and 4. */
static int count(const uint64_t *graph)
{
    const uint64_t sets[] = {0, 1 << 0, 1 << 1 | 1 << 3, 1 << 1 | 1 << 4};
    uint64_t counts[4];
    uint64_t number = mastpickle_count(graph, MASTPICKLE_GRAPH_WORDS, k, sets, 4, counts, 4);
    if (number != 0)
        return refused("count", number);
    for (int i = 0; i < 4; i++) {
        printf("in %" PRIu64 " of them:", counts[i]);
        print_set(sets[i]);
        printf("\n");
    }
    return 0;
}

/* Prints the groups, the largest, and the counts. */
static int report(const uint64_t *graph)
{
    uint8_t record[MASTPICKLE_RECORD_BYTES];
    uint64_t page[4] = {0, MASTPICKLE_MORE, MASTPICKLE_START, 0};
    uint64_t number;
    while (page[1] == MASTPICKLE_MORE) {
        number = mastpickle_list_page(graph, MASTPICKLE_GRAPH_WORDS, k, page[2], page[3], record, sizeof record, page, 4);
        if (number != 0)
            return refused("list_page", number);
        if (page[0] == 1)
            print_group("group", word_at(record), word_at(record + 8));
    }

    uint64_t sides[2];
    number = mastpickle_largest(graph, MASTPICKLE_GRAPH_WORDS, k, sides, 2);
    if (number == MASTPICKLE_NO_GROUP)
        printf("no group\n");
    else if (number != 0)
        return refused("largest", number);
    else
        print_group("largest", sides[0], sides[1]);
    return count(graph);
}

int main(void)
{
    uint64_t graph[MASTPICKLE_GRAPH_WORDS];
    uint64_t place;
    uint64_t number = mastpickle_decode(edge_list, sizeof edge_list, graph, MASTPICKLE_GRAPH_WORDS, &place, 1);
    if (number != 0)
        return refused("decode", number);
    if (report(graph) != 0)
        return 1;

    /* 1 keeps its edges and is in no group, so nothing can be added to 0, 2 and 3. */
    printf("with 1 masked\n");
    graph[MASTPICKLE_GRAPH_WORDS - 1] = 1 << 1;
    return report(graph);
}
