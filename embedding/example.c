/* Twelve rows of two readings: the sheet of the rows where they shift. */
#include <stdio.h>

#include "changeforest.h"

/* Room for the nodes: the greater of 1 and 2*floor((ROWS-1)/SHORTEST)-1, as the end is not closed. A layer of 0.5 has three segments. */
enum { ROWS = 12, COLUMNS = 2, SHORTEST = 2, NODES = 2 * ((ROWS - 1) / SHORTEST) - 1, SEGMENTS = 3, RECORDS = SEGMENTS + NODES };

/* The library's nodes are laid out as this compiler lays them out. */
_Static_assert(sizeof(struct changeforest_node) == 88, "size");
_Static_assert(offsetof(struct changeforest_node, significant) == 16, "significant");
_Static_assert(offsetof(struct changeforest_node, has_choice) == 17, "has_choice");
_Static_assert(offsetof(struct changeforest_node, choice) == 24, "choice");
_Static_assert(offsetof(struct changeforest_node, choice.gain) == 48, "choice.gain");
_Static_assert(offsetof(struct changeforest_node, choice.kind) == 56, "choice.kind");
_Static_assert(offsetof(struct changeforest_node, left) == 72, "left");

static const double cells[ROWS * COLUMNS] = {
    3, 10, 4, 10, 3, 11, 4, 10, 3, 10, 9, 10, 8, 10, 9, 11, 8, 10, 4, 10, 3, 11, 4, 10,
};

/* Row 3 is no place to cut: 2 < x <= 3. With layers there are no draws, but a pointer is never null. */
static const size_t forbidden[] = {2, 3}, draws[1];
static const double layers[] = {0.5};

static double sums[(ROWS + 1) * COLUMNS], gains[RECORDS];
static size_t rows[5 * RECORDS], cuts[(NODES - 1) / 2], counts[4];
static struct changeforest_node nodes[NODES];

/* Where a record comes from. */
static void origin(const struct changeforest_record *record)
{
    if (record->kind == CHANGEFOREST_LAYER)
        printf("layer %zu", record->number);
    else if (record->kind == CHANGEFOREST_DRAW)
        printf("draw %zu", record->number);
    else
        printf("direct");
}

int main(void)
{
    uint32_t no = changeforest_tree(cells, ROWS * COLUMNS, ROWS, COLUMNS, SHORTEST, false, 10.0, forbidden, 2, layers, 1, draws, 0, 0,
                                    sums, (ROWS + 1) * COLUMNS, rows, 5 * RECORDS, gains, RECORDS, nodes, NODES, cuts, (NODES - 1) / 2,
                                    counts, 4);
    if (no != 0) {
        printf("refused %u\n", (unsigned)no);
        return 1;
    }
    printf("%zu nodes, %zu records, %zu of them stored, %zu cuts\n", counts[0], counts[1], counts[3], counts[2]);
    for (size_t i = 0; i < counts[2]; i++)
        printf("cut at row %zu\n", cuts[i]);
    for (size_t i = 0; i < counts[0]; i++) {
        const struct changeforest_node *node = &nodes[i];
        printf("[%zu, %zu)", node->start, node->stop);
        if (node->significant) {
            printf(" cut: parts %zu and %zu, gain %.6f in [%zu, %zu), ", node->left, node->right, node->choice.gain, node->choice.start,
                   node->choice.stop);
            origin(&node->choice);
        }
        putchar('\n');
    }
    return 0;
}
