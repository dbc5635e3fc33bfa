/*
 * Mastpickle: the balanced groups of a signed graph, for C and C++.
 *
 * Link with target/staticlib/libmastpickle.a, which `make lib` builds (x86-64 Linux). Every
 * function here is proved to meet its contract, which stands at the function in
 * crates/mastpickle_c/src/lib.rt.
 *
 * A set of vertices is balanced where every two of them have an edge and it splits in two sides,
 * positive edges inside a side and negative ones across. A group for threshold k is a balanced set
 * of two vertices or more, with at least k on each side, that no larger balanced set contains.
 * A vertex may be masked: it keeps its edges and is in no group. A balanced set has no masked
 * vertex, so what only a masked vertex would extend is a group.
 *
 * Numbers are 64 bits wide. A set of vertices is a number with bit p for vertex p. A graph is an
 * array of MASTPICKLE_GRAPH_WORDS words: n, then for each of 64 vertices the set of its positive
 * partners, then for each the set of its negative partners, and last the set of masked vertices.
 * An array may be longer than a call needs: the words behind are neither read nor written.
 *
 * Every function returns 0 or the number of a refusal. Refusals 1 to 15 are those of the calls;
 * each function says which it has and what it then writes. The numbers from 101 up are this
 * interface's own, are looked at first and in their order, and change nothing in any array.
 *
 * What a caller owes: a pointer is not null, also where its length is 0, is aligned for its type,
 * and has as many elements behind it as the length beside it says; and an array that a call may
 * write shares no element with another array of that call. Lengths count elements.
 *
 * What a call uses: its arguments, the arrays behind them and the stack. No function keeps a
 * pointer, uses the heap or has a state, so calls may run at the same time in any threads. The
 * library calls memcpy and memset, which the linker has to supply, and nothing else. A call takes
 * at most so many bytes of stack, its return address among them:
 *
 *     mastpickle_new             256
 *     mastpickle_check_sound   5,120
 *     mastpickle_check_call    5,120
 *     mastpickle_decode        3,072
 *     mastpickle_encode        5,120
 *     mastpickle_classify      4,096
 *     mastpickle_reduce       11,264
 *     mastpickle_list_page    40,960
 *     mastpickle_largest      30,720
 *     mastpickle_record_at       256
 *     mastpickle_count        61,440
 *
 * Each is above what the frames of the machine code add up to, with 65 levels of a search, and
 * `make trials` measures calls against it. The frames of the caller and of signal handlers are the
 * caller's to add, and so is what memcpy and memset take: nothing was measured for those of the GNU
 * C library, but a dynamic linker that binds them when they are first called took 1,552 bytes then
 * on one machine, and may take more on another.
 *
 * How long a call takes is not promised; bench/RESULTS.md has what was measured. Only small pages
 * bound the time of a call, and they do not bound it for sure: mastpickle_list_page ends when its
 * buffer is full, but where groups are rare it may search long for the next one. mastpickle_count
 * goes through all groups, of which a graph may have thousands of millions.
 */
#ifndef MASTPICKLE_H
#define MASTPICKLE_H

#include <stddef.h>
#include <stdint.h>

#ifdef __cplusplus
extern "C" {
#endif

/* The version of the library and of the program `groups`. */
#define MASTPICKLE_VERSION "4.1.0"

/* The words of a graph, the bytes of a record, the longest edge list that mastpickle_encode writes
   (an amendment list, which mastpickle_decode reads too, may have any length), the most sets that
   mastpickle_count takes, and a stack that is enough for every call. */
#define MASTPICKLE_GRAPH_WORDS 130
#define MASTPICKLE_RECORD_BYTES 16
#define MASTPICKLE_LONGEST_EDGE_LIST 6179
#define MASTPICKLE_MOST_SETS 256
#define MASTPICKLE_STACK_BYTES 61440

/* Refusals of a list, by mastpickle_decode; of an amendment list neither MASTPICKLE_REPEATED nor
   MASTPICKLE_MASKED_TWICE. */
#define MASTPICKLE_NO_OPENING 1
#define MASTPICKLE_TOO_MANY_VERTICES 2
#define MASTPICKLE_UNKNOWN_COMMAND 3
#define MASTPICKLE_TRUNCATED 4
#define MASTPICKLE_OUT_OF_RANGE 5
#define MASTPICKLE_LOOP 6
#define MASTPICKLE_REPEATED 7
#define MASTPICKLE_UNCLOSED 8
#define MASTPICKLE_TRAILING_BYTES 9
#define MASTPICKLE_MASKED_TWICE 15

/* Refusals of the other calls. */
#define MASTPICKLE_UNSOUND 10
#define MASTPICKLE_THRESHOLD_TOO_LARGE 11
#define MASTPICKLE_NO_GROUP 12
#define MASTPICKLE_BUFFER_TOO_SHORT 13
#define MASTPICKLE_TOO_MANY_SETS 14

/* Refusals of this interface: an array for a graph has fewer than MASTPICKLE_GRAPH_WORDS words; the
   array for the answer has fewer words than the function says; a bookmark's kind is none of the two
   below. */
#define MASTPICKLE_SHORT_GRAPH 101
#define MASTPICKLE_SHORT_ANSWER 102
#define MASTPICKLE_NO_BOOKMARK 103

/* The kind of a bookmark: at the first group, or after a set in listing order. */
#define MASTPICKLE_START 0
#define MASTPICKLE_AFTER 1

/* Whether groups are due behind a page. */
#define MASTPICKLE_FINISHED 0
#define MASTPICKLE_MORE 1

/* What mastpickle_classify says of a set, with the words that follow; those not named are 0. The
   first that applies is said, in this order, but for MASTPICKLE_ALONE and then MASTPICKLE_MASKED,
   which come right after MASTPICKLE_VERTEX_OUT_OF_RANGE. */
#define MASTPICKLE_NO_VERDICT 0          /* the call was refused */
#define MASTPICKLE_EMPTY 1               /* the set has no vertex */
#define MASTPICKLE_VERTEX_OUT_OF_RANGE 2 /* its lowest vertex that the graph does not have */
#define MASTPICKLE_MISSING_EDGE 3        /* its first two vertices with no edge */
#define MASTPICKLE_UNBALANCED 4          /* its first three vertices with 1 or 3 negative edges */
#define MASTPICKLE_TOO_SMALL 5           /* the sizes of its sides, left first; one is under k */
#define MASTPICKLE_EXTENSIBLE 6          /* the lowest vertex whose addition keeps it balanced */
#define MASTPICKLE_GROUP 7               /* its left and its right side */
#define MASTPICKLE_ALONE 8               /* the set has one vertex, so it is no group */
#define MASTPICKLE_MASKED 9              /* its lowest vertex that is masked */

/*
 * Writes the graph of n vertices with no edge and nothing masked; the graph of no vertices where n
 * is over 64.
 * Returns 0, or 101.
 */
uint64_t mastpickle_new(uint64_t n, uint64_t *graph, size_t graph_words);

/*
 * Whether the graph is sound: n is at most 64, no vertex is its own partner, no partner is both
 * positive and negative, partnership is mutual, and vertices from n up have no part in it and are
 * not masked.
 * Returns 0 where it is sound and 10 where it is not, or 101.
 */
uint64_t mastpickle_check_sound(const uint64_t *graph, size_t graph_words);

/*
 * Whether a call on the graph with threshold k would be refused.
 * Returns 0 where it would not, 10 where the graph is not sound, 11 where k is over 32, or 101.
 */
uint64_t mastpickle_check_call(const uint64_t *graph, size_t graph_words, uint64_t k);

/*
 * Reads a list, which gives edges and masks vertices: an edge list, whose first byte is 0x10, or an
 * amendment list, whose first byte is 0x11. In an amendment list edges and masks may be given again
 * and edges taken back, and of what it says of two vertices the last counts; it may have any
 * length, and is never refused with 7 or 15. docs/FORMAT.md has the bytes.
 * Writes the graph of the list, and into answer[0] 0.
 * Returns 0; or 1 to 9 or 15 where the list is refused, and then writes the graph of no vertices,
 * which masks nothing, and into answer[0] the place of the fault; or 101, 102 (one word).
 */
uint64_t mastpickle_decode(const uint8_t *bytes, size_t length, uint64_t *graph, size_t graph_words,
                           uint64_t *answer, size_t answer_words);

/*
 * Writes the edge list of a graph in canonical form, lower vertex first and edges ascending, those
 * of masked vertices too, then the masked vertices ascending; and into answer[0] its length. The
 * bytes of `out` behind it stay.
 * Returns 0; or 10, or 13 where `out` is shorter than the list, and then writes 0 into answer[0]
 * and no byte of `out`; or 101, 102 (one word).
 */
uint64_t mastpickle_encode(const uint64_t *graph, size_t graph_words, uint8_t *out,
                           size_t out_bytes, uint64_t *answer, size_t answer_words);

/*
 * Says what a set is in the graph at threshold k. Writes the verdict into answer[0] and its data
 * into answer[1] to answer[3].
 * Returns 0; or 10, 11, and then writes MASTPICKLE_NO_VERDICT and zeros; or 101, 102 (four words).
 */
uint64_t mastpickle_classify(const uint64_t *graph, size_t graph_words, uint64_t k, uint64_t set,
                             uint64_t *answer, size_t answer_words);

/*
 * Writes the graph without the edges that no group for k can use. It has the same masked vertices
 * and the same groups for k, with the same sides.
 * First all edges of masked vertices are taken out, for every k and without a look. Then edges are
 * dropped in rounds, up to the first that drops nothing. The first looks at all vertices, masked
 * ones too, and all edges left, each other one at the vertices of the edges dropped in the round
 * before and at the kept edges that have such a vertex. Writes into answer[0] the looks: how many
 * vertices and edges all rounds together look at.
 * Returns 0; or 10, 11, and then writes the graph of no vertices, which masks nothing, and into
 * answer[0] 0; or 101, for either graph, 102 (one word).
 */
uint64_t mastpickle_reduce(const uint64_t *graph, size_t graph_words, uint64_t k, uint64_t *reduced,
                           size_t reduced_words, uint64_t *answer, size_t answer_words);

/*
 * Writes the records of the first groups for k that are due at a bookmark, in listing order, as
 * many as fit whole into `out`; the bytes behind them stay. A record is the left side, then the
 * right side, 8 bytes each, low byte first.
 * At kind MASTPICKLE_START all groups are due (`set` is not looked at), at MASTPICKLE_AFTER those
 * that come after the set.
 * Writes into answer[0] how many records it wrote, into answer[1] MASTPICKLE_FINISHED or
 * MASTPICKLE_MORE, and into answer[2] and answer[3] the kind and the set of the bookmark from which
 * the next page goes on; the set of MASTPICKLE_START is 0.
 * Returns 0; or 10, 11, and then writes no byte of `out`, and as the answer the count 0,
 * MASTPICKLE_MORE and the bookmark that it got; or 101, 102 (four words), 103.
 */
uint64_t mastpickle_list_page(const uint64_t *graph, size_t graph_words, uint64_t k, uint64_t kind,
                              uint64_t set, uint8_t *out, size_t out_bytes, uint64_t *answer,
                              size_t answer_words);

/*
 * Finds the group for k with the most vertices, of equals the first in listing order. Writes its
 * left side into answer[0] and its right side into answer[1].
 * Returns 0; or 10, 11, or 12 where there is no group, and then writes zeros; or 101, 102 (two
 * words).
 */
uint64_t mastpickle_largest(const uint64_t *graph, size_t graph_words, uint64_t k, uint64_t *answer,
                            size_t answer_words);

/*
 * Finds record i of a listing. Writes into answer[0] the place of its first byte and into answer[1]
 * its length, 16; zeros where the listing has no whole record i.
 * Returns 0, or 102 (two words).
 */
uint64_t mastpickle_record_at(const uint8_t *listing, size_t listing_bytes, uint64_t i,
                              uint64_t *answer, size_t answer_words);

/*
 * Writes into counts[i], for each i below sets_length, in how many groups for k the set sets[i]
 * lies: how many contain all its vertices. The empty set lies in all groups, a set with a vertex
 * that is masked or that the graph does not have in none. The words of `counts` behind them stay.
 * Returns 0; or 10, 11, 13 where `counts` is shorter than `sets`, 14 where there are more than
 * MASTPICKLE_MOST_SETS sets, and then writes no word of `counts`; or 101.
 */
uint64_t mastpickle_count(const uint64_t *graph, size_t graph_words, uint64_t k,
                          const uint64_t *sets, size_t sets_length, uint64_t *counts,
                          size_t counts_length);

#ifdef __cplusplus
}
#endif

#endif
