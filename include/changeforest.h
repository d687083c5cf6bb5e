/* changeforest.h: the proved segmentation core, for C and C++.

   Each function answers 0, or the number of a refusal. A refusal has changed nothing: every array and every output is as it was. An
   answer of 0 has stored the outputs; of an array that is written, the first entries are as told and the rest is unchanged. Only
   changeforest_nearest_f32 answers its value.

   What the caller guarantees. The proofs assume it and no function can test it:
   - an array is passed as a pointer and its length in entries: the pointer is not null (not even where the length is 0), is aligned
     for its type, and that many entries lie behind it;
   - the entries of an array, and what an output points to, are initialised; a bool is 0 or 1;
   - an array that is written, and an output, overlap no other array and no other output of the call. Arrays that are only read may
     overlap each other;
   - the stack has room: 16 KiB; for changeforest_permutation_test 80 KiB more where the first curve is longer than 4,096 (it is then
     refused); for changeforest_tree and changeforest_fed_tree 1 KiB more for each level of the tree, of which there are at most the
     greater of 1 and floor((n-1)/m), or floor(n/m) where closed is true. So 5 MiB are always enough, and a thread may have less.
   Every other value of the arguments is allowed, and is answered or refused.

   A call allocates nothing, keeps no pointer, and has no state but what it is passed: calls on memory of their own may run at the same
   time.

   Sizes: n 1 to 4,096 rows (1,024 for ordering and predict), d 1 to 64 columns, m 1 to 4,096. A matrix is n*d cells, row after row.
   forbidden is a list of pairs a, b: the rows a < x <= b are barred. A segment [start, stop) has the rows from start to stop-1.

   Segments can be searched and stored before a tree is grown: those of layers, at most 64, each a value in [1/4096, 1); or those drawn:
   draws is a list of pairs start, stop, of any length, of which at most w records are stored, w 0 to 4,096. With neither all is as in the
   original changeforest's BS, with layers as in its SBS, with draws as in its WBS, which draws them itself.

   closed is a setting, the closed end: whether the right part of a split may have exactly m rows. The candidates of [start, stop) are
   the rows x that are not barred with start+m <= x and x+m < stop, or x+m <= stop where closed is true. Where it is false all is as in
   the original changeforest, which has no such setting.

   While a deck feeds, a run's cells come in lots, row after row, a lot ending anywhere or being empty. What stands between two calls is
   the caller's: n and d; count, how many cells were taken; and sums. Where each call finds them as the last one left them, the first
   d+count entries of sums are the prefix sums of the cells so far, however they were cut up, and once all n*d were taken
   changeforest_fed_tree answers what changeforest_tree does of the whole matrix. With any others a call still answers or refuses.

   Refusals; of those that apply to a call the lowest number is given:
    1  n or d outside its size, or cells_len not n*d
    2  m outside its size, or a relative length not strictly between 0 and 0.5
    3  a threshold that is NaN, or alpha not strictly between 0 and 1
    4  an infinite or NaN cell, likelihood, delta, base or observed maximum
    5  forbidden_len odd, or a forbidden pair with a > b; draws_len odd
    6  more than 64 layers, or a layer value not in [1/4096, 1); layers and draws both; w above 4,096, with draws or without
    7  an array that is written is shorter than its room; for fed_tree also sums
    8  start > stop or stop > n; a split below start or above stop; for predict also start = stop; a draw with stop > n, also one that is
       passed over or not reached; for why a row at or past n
    9  2*m >= stop-start, or where closed is true 2*m > stop-start; for permutations likewise with L for stop-start
   10  every row of the candidate range is barred
   11  no list of p permutations of 0..L-1, or p above 999
   12  curves: their number, their lengths, or a guess that is no candidate
   13  more cells than n*d: count, and for feed lot_len besides
   14  fewer cells than n*d, for close and fed_tree */

#ifndef CHANGEFOREST_H
#define CHANGEFOREST_H

#include <stdbool.h>
#include <stddef.h>
#include <stdint.h>

#ifdef __cplusplus
extern "C" {
#endif

/* The ceiling of the f64 product relative*n, into m. Refusals: 1 (n alone), 2. */
uint32_t changeforest_minimal_segment_length(double relative, size_t n, size_t *m);

/* The float nearest to x, ties to even: an overflow is infinite, a NaN stays NaN, -0 stays -0. Refuses nothing. */
float changeforest_nearest_f32(double x);

/* The candidates of [start, stop), ascending, into rows, and how many, into count. Room: rows stop-start-2*m, or stop-start-2*m+1 where
   closed is true, or 0 where that is negative. Refusals: 1 (n alone), 2, 5, 7, 8, 9, 10. */
uint32_t changeforest_split_candidates(size_t n, size_t m, bool closed, const size_t *forbidden, size_t forbidden_len, size_t start,
                                       size_t stop, size_t *rows, size_t rows_len, size_t *count);

/* The gain of cutting [start, stop) at split, into gain; 0 where split is start or stop. sums takes the matrix's prefix sums.
   Room: sums (n+1)*d. Refusals: 1, 4, 7, 8. */
uint32_t changeforest_gain(const double *cells, size_t cells_len, size_t n, size_t d, size_t start, size_t stop, size_t split,
                           double *sums, size_t sums_len, double *gain);

/* The first of the candidates with the greatest gain, into split, and that gain, into gain; 0 and minus infinity where all are NaN.
   sums takes the matrix's prefix sums. Room: sums (n+1)*d. Refusals: 1, 2, 4, 5, 7, 8, 9, 10. */
uint32_t changeforest_find_best_split(const double *cells, size_t cells_len, size_t n, size_t d, size_t m, bool closed,
                                      const size_t *forbidden, size_t forbidden_len, size_t start, size_t stop, double *sums,
                                      size_t sums_len, size_t *split, double *gain);

/* Where a record comes from, its origin, is told by a kind and a number. No choice depends on it. The kinds: */
enum {
    CHANGEFOREST_DIRECT = 0, /* a segment's own search while the tree is grown; number is 0 */
    CHANGEFOREST_LAYER = 1,  /* a layer; number is its place in layers, from 1 */
    CHANGEFOREST_DRAW = 2    /* a draw; number is its pair's place in draws, from 0, pairs that leave no record counted too */
};

/* The records of the segments of all layers, or of those drawn, and how many, into count: start, stop, best split, kind and number of
   each into rows, five entries a record, its gain into gains. A layer's value v gives 2*ceil(f32(1/v))-1 segments. A draw with
   start >= stop is passed over; the others are searched in order until w records stand or there are no more. A segment that a search
   would refuse leaves no record. sums takes the matrix's prefix sums. Room: sums (n+1)*d; with T the layers' segments summed, or w where
   draws_len is not 0, rows 5*T and gains T. Refusals: 1, 2, 4, 5, 6, 7, 8 (draws). */
uint32_t changeforest_stored_segments(const double *cells, size_t cells_len, size_t n, size_t d, size_t m, bool closed,
                                      const size_t *forbidden, size_t forbidden_len, const double *layers, size_t layers_len,
                                      const size_t *draws, size_t draws_len, size_t w, double *sums, size_t sums_len, size_t *rows,
                                      size_t rows_len, double *gains, size_t gains_len, size_t *count);

/* The best split of [start, stop), its gain, and its origin. */
struct changeforest_record {
    size_t start;
    size_t stop;
    size_t split;
    double gain;
    size_t kind;
    size_t number;
};

/* A segment of the tree: whether it is cut; its choice, where it has one (else all zero), which may carry the ends of a stored segment
   inside it; the places of its parts in the list of nodes (0 and 0 where it is not cut). */
struct changeforest_node {
    size_t start;
    size_t stop;
    bool significant;
    bool has_choice;
    struct changeforest_record choice;
    size_t left;
    size_t right;
};

/* The tree of the run: a segment is cut at its choice's split where the choice's gain exceeds threshold, and then both parts are grown.
   The nodes in preorder into nodes, the rows that are cut from left to right into cuts; the records into rows and gains, first those that
   changeforest_stored_segments stores, as it does. counts takes how many nodes, records and cuts there are, and how many of the records
   are stored ones, in this order. sums takes the matrix's prefix sums. Room: sums (n+1)*d; with T as there and B the greater of 1 and
   2*floor((n-1)/m)-1, or 2*floor(n/m)-1 where closed is true, rows 5*(T+B), gains T+B, nodes B, cuts (B-1)/2; counts 4.
   Refusals: 1, 2, 3 (threshold), 4, 5, 6, 7, 8 (draws). */
uint32_t changeforest_tree(const double *cells, size_t cells_len, size_t n, size_t d, size_t m, bool closed, double threshold,
                           const size_t *forbidden, size_t forbidden_len, const double *layers, size_t layers_len, const size_t *draws,
                           size_t draws_len, size_t w, double *sums, size_t sums_len, size_t *rows, size_t rows_len, double *gains,
                           size_t gains_len, struct changeforest_node *nodes, size_t nodes_len, size_t *cuts, size_t cuts_len,
                           size_t *counts, size_t counts_len);

/* Opens a run of which no cell is taken: d zeros into sums, the first row of its prefix sums, and 0 into count. Room: sums (n+1)*d, for
   the whole run. Refusals: 1 (n and d), 7. */
uint32_t changeforest_open(size_t n, size_t d, double *sums, size_t sums_len, size_t *count);

/* Takes a lot of cells, the next ones after count, which is read and then lot_len more: for each cell x, in order, its prefix sum into
   sums, which is (0 + x) + the entry d before it. So lot_len entries of sums change, from d+count on, and no other. A lot that is refused
   takes nothing, and the run may go on. Room: sums (n+1)*d. Refusals: 1 (n and d), 4, 7, 13. */
uint32_t changeforest_feed(const double *lot, size_t lot_len, size_t n, size_t d, double *sums, size_t sums_len, size_t *count);

/* Whether a run is whole: 0 where all n*d cells were taken. It stores nothing: a run that is closed too early is open as before.
   Refusals: 1 (n and d), 13, 14. */
uint32_t changeforest_close(size_t n, size_t d, size_t count);

/* The later sheet: the tree as changeforest_tree grows it, told as there, over sums in place of a matrix. Of sums the first (n+1)*d
   entries are read, whatever they hold, NaN and infinities too, and none is written. Room: as for changeforest_tree.
   Refusals: 1 (n and d), 2, 3 (threshold), 5, 6, 7, 8 (draws), 13, 14. */
uint32_t changeforest_fed_tree(const double *sums, size_t sums_len, size_t n, size_t d, size_t count, size_t m, bool closed,
                               double threshold, const size_t *forbidden, size_t forbidden_len, const double *layers, size_t layers_len,
                               const size_t *draws, size_t draws_len, size_t w, size_t *rows, size_t rows_len, double *gains,
                               size_t gains_len, struct changeforest_node *nodes, size_t nodes_len, size_t *cuts, size_t cuts_len,
                               size_t *counts, size_t counts_len);

/* What changeforest_why stores in reason. */
enum {
    CHANGEFOREST_CUT = 0,    /* the segment is cut at the row */
    CHANGEFOREST_NEAR = 1,   /* too near an end: row < start+m, or not row+m < stop, or not row+m <= stop where closed is true */
    CHANGEFOREST_BARRED = 2, /* a < row and row <= b: the first listed pair that bars it */
    CHANGEFOREST_NAN = 3,    /* its gain in the segment is no number */
    CHANGEFOREST_BELOW = 4   /* that gain does not exceed threshold */
};

/* Why a row is on the sheet or is not. The tree that changeforest_tree grows of the same arguments is gone down from the run to the
   segment that is cut at row, or to the one that holds row and is not cut: its own ends into start and stop, whatever its choice carries.
   Where it is not cut, reason takes the first of the other four that applies: so each before it is false. For CHANGEFOREST_CUT alone the
   origin of the choice goes into kind and number, and once more into text, as "direct", "layer K" or "draw K" with number for K, and how
   many bytes these are into length; no NUL stands behind them. For CHANGEFOREST_BARRED alone the pair goes into a and b, for
   CHANGEFOREST_BELOW alone the gain into gain. Otherwise all these stay as they were. Row 0 is too near an end. sums, rows and gains are
   left as changeforest_stored_segments leaves them. Room: sums (n+1)*d; with T as there, rows 5*T and gains T; text 25, also where the
   answer writes none. Refusals: 1, 2, 3 (threshold), 4, 5, 6, 7, 8 (draws, row). */
uint32_t changeforest_why(const double *cells, size_t cells_len, size_t n, size_t d, size_t m, bool closed, double threshold,
                          const size_t *forbidden, size_t forbidden_len, const double *layers, size_t layers_len, const size_t *draws,
                          size_t draws_len, size_t w, size_t row, double *sums, size_t sums_len, size_t *rows, size_t rows_len,
                          double *gains, size_t gains_len, char *text, size_t text_len, uint32_t *reason, size_t *start, size_t *stop,
                          size_t *kind, size_t *number, size_t *length, size_t *a, size_t *b, double *gain);

/* For each row all rows by squared distance from it, equal ones by lower index, into ordering, row after row; distances takes the
   last row's. Room: ordering n*n, distances n. Refusals: 1, 4, 7. */
uint32_t changeforest_ordering(const double *cells, size_t cells_len, size_t n, size_t d, uint32_t *ordering, size_t ordering_len,
                               double *distances, size_t distances_len);

/* For each row of [start, stop), into predictions: the row itself is dropped from its order, wherever it stands there (it is the first,
   unless another row with a lower index is at distance 0 too); of the others the first k that lie in [start, stop) are taken, and
   those at or past split counted; the prediction is that count divided by k. k is the whole square root of stop-start. So no row is its
   own neighbour, and the prediction of a segment's only row is 0. ordering and distances are filled as by changeforest_ordering. Room:
   ordering n*n, distances n, predictions stop-start, or 0 where start > stop. Refusals: 1, 4, 7, 8. */
uint32_t changeforest_predict(const double *cells, size_t cells_len, size_t n, size_t d, size_t start, size_t stop, size_t split,
                              uint32_t *ordering, size_t ordering_len, double *distances, size_t distances_len, double *predictions,
                              size_t predictions_len);

/* The gain curve of two rows of likelihoods, into curve. Room: curve l0_len. Refusals: 4, 7, 12 (l1_len not l0_len, or l0_len not 1
   to 4,096). */
uint32_t changeforest_gain_from_likelihoods(const double *l0, size_t l0_len, const double *l1, size_t l1_len, double *curve,
                                            size_t curve_len);

/* The first candidate of [start, stop) with the greatest value of curve, into split, and that value, into gain; guess and minus
   infinity where none is greater than that. curve has an entry for each row of the segment and may hold infinities and NaN.
   Refusals: 1 (n alone), 2, 5, 8, 9, 10, 12 (guess is no candidate, or curve_len not stop-start). */
uint32_t changeforest_pick(const double *curve, size_t curve_len, size_t n, size_t m, bool closed, const size_t *forbidden,
                           size_t forbidden_len, size_t start, size_t stop, size_t guess, size_t *split, double *gain);

/* One to three guesses for [start, stop), ascending, and how many, into count; of first, second and third those beyond the count are
   unchanged. Where given is false forbidden is not looked at; an empty list that is given is not the same as none. Where closed is true
   and given is false a segment of two rows gives its one candidate twice. Refusals: 1 (n alone), 2, 5, 8, 9, 10. */
uint32_t changeforest_guesses(size_t n, size_t m, bool closed, bool given, const size_t *forbidden, size_t forbidden_len, size_t start,
                              size_t stop, size_t *first, size_t *second, size_t *third, size_t *count);

/* 1 and for each of p permutations with a sum that reaches maximum 1 more, into counter; counter/(p+1) into p_value; whether that is
   at most alpha into significant. Of three curves of deltas and their bases the first k are looked at, 1 to 3, and L is the first
   one's length (0 where k is 0). permutations has p*L entries, permutation after permutation.
   Refusals: 2, 3 (alpha), 4, 9, 11, 12 (k not 1 to 3, or the k lengths not all the same from 1 to 4,096). */
uint32_t changeforest_permutation_test(const double *deltas0, size_t deltas0_len, const double *deltas1, size_t deltas1_len,
                                       const double *deltas2, size_t deltas2_len, double base0, double base1, double base2, size_t k,
                                       const size_t *permutations, size_t permutations_len, size_t p, size_t m, bool closed,
                                       double alpha, double maximum, size_t *counter, double *p_value, bool *significant);

#ifdef __cplusplus
}
#endif

#endif
