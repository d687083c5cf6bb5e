/* Six rows of two readings, handed over while the deck feeds, and the sheet at the end. */
#include <math.h>
#include <stdio.h>
#include <string.h>

#include "changeforest.h"

enum { ROWS = 6, COLUMNS = 2, CELLS = ROWS * COLUMNS, SUMS = CELLS + COLUMNS, SHORTEST = 1, NODES = 2 * ((ROWS - 1) / SHORTEST) - 1 };

static const double cells[CELLS] = {3, 10, 4, 10, 3, 11, 9, 10, 8, 10, 9, 11};
static const double bad[] = {9, NAN};

/* Nothing is barred and nothing stored beforehand, but a pointer is never null. */
static const size_t none[1];
static const double layerless[1];

/* What the run is between two calls: the state, which is its sizes and count, and the sums. */
static size_t count;
static double sums[SUMS];

/* What a tree is grown in. */
struct sheet {
    size_t rows[5 * NODES], cuts[(NODES - 1) / 2], counts[4];
    double gains[NODES];
    struct changeforest_node nodes[NODES];
};
static struct sheet later, whole;
static double whole_sums[SUMS];

static void feed(const double *lot, size_t lot_len)
{
    uint32_t no = changeforest_feed(lot, lot_len, ROWS, COLUMNS, sums, SUMS, &count);
    printf("a lot of %zu: ", lot_len);
    if (no != 0)
        printf("refused %u, ", (unsigned)no);
    printf("%zu cells taken\n", count);
}

static void close_run(void)
{
    printf("closed with %zu cells: %u\n", count, (unsigned)changeforest_close(ROWS, COLUMNS, count));
}

int main(void)
{
    if (changeforest_open(ROWS, COLUMNS, sums, SUMS, &count) != 0)
        return 1;
    feed(cells, 3);
    feed(bad, 2);
    feed(cells + 3, 0);
    feed(cells + 3, 6);
    close_run();
    feed(cells, CELLS);
    feed(cells + 9, 3);
    close_run();

    uint32_t no = changeforest_fed_tree(sums, SUMS, ROWS, COLUMNS, count, SHORTEST, false, 10.0, none, 0, layerless, 0, none, 0, 0,
                                        later.rows, 5 * NODES, later.gains, NODES, later.nodes, NODES, later.cuts, (NODES - 1) / 2,
                                        later.counts, 4);
    if (no != 0) {
        printf("refused %u\n", (unsigned)no);
        return 1;
    }
    for (size_t i = 0; i < later.counts[2]; i++)
        printf("cut at row %zu\n", later.cuts[i]);

    no = changeforest_tree(cells, CELLS, ROWS, COLUMNS, SHORTEST, false, 10.0, none, 0, layerless, 0, none, 0, 0, whole_sums, SUMS,
                           whole.rows, 5 * NODES, whole.gains, NODES, whole.nodes, NODES, whole.cuts, (NODES - 1) / 2, whole.counts, 4);
    bool same = no == 0 && memcmp(sums, whole_sums, sizeof sums) == 0 && memcmp(later.cuts, whole.cuts, sizeof later.cuts) == 0 &&
                memcmp(later.counts, whole.counts, sizeof later.counts) == 0 && memcmp(later.rows, whole.rows, sizeof later.rows) == 0 &&
                memcmp(later.gains, whole.gains, sizeof later.gains) == 0;
    printf("%s those of the whole matrix\n", same ? "sums and sheet are" : "sums or sheet are not");
    return !same;
}
