/* The marked cases of document 01, some of them with a closed end, some draws, where records come from, each reason for a row, runs that
   are fed, and each refusal, through the C functions: one line for each call, held to marked.stdout. Arrays that are written are mostly
   lent longer than their room, some exactly as long, and shorter where 7 is to be given; more stands behind each. `touched` is printed
   where an entry that was not told, lent or not, is not as it was. */
#include <inttypes.h>
#include <math.h>
#include <stdio.h>
#include <string.h>

#include "changeforest.h"

#define LEN(a) (sizeof(a) / sizeof((a)[0]))

enum { ROOM = 64, SPARE = 3, TEXT = 25 };
static const size_t none[1];
static const double layerless[1];

/* What is stored before a tree is grown. */
struct lists {
    const double *layers;
    size_t layers_len;
    const size_t *draws;
    size_t draws_len;
    size_t w;
};
static const struct lists nothing = {layerless, 0, none, 0, 0};

static uint64_t bits(double x)
{
    uint64_t b;
    memcpy(&b, &x, sizeof b);
    return b;
}

static void end(uint32_t no)
{
    if (no != 0)
        printf(" refused %" PRIu32, no);
    putchar('\n');
}

/* The entries of a lent array that were told, and whether the rest is as it was. */
static void rows_told(const size_t *rows, size_t told)
{
    for (size_t i = 0; i < told; i++)
        printf(" %zu", rows[i]);
    for (size_t i = told; i < ROOM; i++)
        if (rows[i] != 77)
            printf(" touched");
}

static void floats_told(const double *values, size_t told)
{
    for (size_t i = 0; i < told; i++)
        printf(" %016" PRIx64, bits(values[i]));
    for (size_t i = told; i < ROOM; i++)
        if (values[i] != 7.5)
            printf(" touched");
}

static void fill_rows(size_t *rows)
{
    for (size_t i = 0; i < ROOM; i++)
        rows[i] = 77;
}

static void fill_floats(double *values)
{
    for (size_t i = 0; i < ROOM; i++)
        values[i] = 7.5;
}

static void candidates(const char *name, size_t n, size_t m, bool closed, const size_t *forbidden, size_t forbidden_len, size_t stop,
                       size_t room)
{
    size_t rows[ROOM], count = 0;
    fill_rows(rows);
    uint32_t no = changeforest_split_candidates(n, m, closed, forbidden, forbidden_len, 0, stop, rows, room, &count);
    printf("%s", name);
    rows_told(rows, count);
    end(no);
}

static void gain(const char *name, const double *cells, size_t n, size_t start, size_t stop, size_t split)
{
    double sums[ROOM], found = 7.5;
    fill_floats(sums);
    uint32_t no = changeforest_gain(cells, n, n, 1, start, stop, split, sums, n + 1 + SPARE, &found);
    printf("%s %016" PRIx64 " sums", name, bits(found));
    floats_told(sums, no == 0 ? n + 1 : 0);
    end(no);
}

static void search(const char *name, const double *cells, size_t n, size_t m, bool closed, size_t stop)
{
    double sums[ROOM], found = 7.5;
    size_t split = 77;
    fill_floats(sums);
    uint32_t no = changeforest_find_best_split(cells, n, n, 1, m, closed, none, 0, 0, stop, sums, n + 1 + SPARE, &split, &found);
    printf("%s %zu %016" PRIx64, name, split, bits(found));
    end(no);
}

static struct lists layered(const double *layers)
{
    return (struct lists){layers, 1, none, 0, 0};
}

static struct lists drawn(const size_t *draws, size_t draws_len, size_t w)
{
    return (struct lists){layerless, 0, draws, draws_len, w};
}

static void segments_in(const char *name, const double *cells, size_t n, bool closed, struct lists l, size_t rows_len, size_t gains_len)
{
    double sums[ROOM], gains[ROOM];
    size_t rows[ROOM], count = 0;
    fill_floats(sums);
    fill_floats(gains);
    fill_rows(rows);
    uint32_t no = changeforest_stored_segments(cells, n, n, 1, 1, closed, none, 0, l.layers, l.layers_len, l.draws, l.draws_len, l.w, sums,
                                               n + 1 + SPARE, rows, rows_len, gains, gains_len, &count);
    printf("%s %zu:", name, count);
    rows_told(rows, 5 * count);
    floats_told(gains, count);
    end(no);
}

static void segments(const char *name, const double *cells, size_t n, bool closed, struct lists l, size_t room)
{
    segments_in(name, cells, n, closed, l, 5 * room, room);
}

static bool same_record(const struct changeforest_record *a, const struct changeforest_record *b)
{
    return a->start == b->start && a->stop == b->stop && a->split == b->split && bits(a->gain) == bits(b->gain) && a->kind == b->kind &&
           a->number == b->number;
}

static bool same_node(const struct changeforest_node *a, const struct changeforest_node *b)
{
    return a->start == b->start && a->stop == b->stop && a->significant == b->significant && a->has_choice == b->has_choice &&
           same_record(&a->choice, &b->choice) && a->left == b->left && a->right == b->right;
}

/* What a tree is grown in. B = 13 for the longest run here, T = 10 at most unless 6 is to be given. */
struct grown {
    double gains[ROOM];
    size_t rows[2 * ROOM], cuts[ROOM], counts[5];
    struct changeforest_node nodes[ROOM];
};
static const struct changeforest_node other = {77, 77, true, true, {77, 77, 77, 7.5, 77, 77}, 77, 77};

static void fill_grown(struct grown *g)
{
    for (size_t i = 0; i < ROOM; i++)
        g->nodes[i] = other;
    for (size_t i = 0; i < LEN(g->counts); i++)
        g->counts[i] = 77;
    fill_floats(g->gains);
    fill_rows(g->rows);
    fill_rows(g->rows + ROOM);
    fill_rows(g->cuts);
}

/* Without a choice all of it is zero. */
static void grown_told(const char *name, const struct grown *g, uint32_t no)
{
    static const struct changeforest_record zero;
    size_t told = no == 0 ? g->counts[0] : 0;
    printf("%s %zu %zu %zu %zu %zu nodes", name, g->counts[0], g->counts[1], g->counts[2], g->counts[3], g->counts[4]);
    for (size_t i = 0; i < told; i++) {
        const struct changeforest_node *x = &g->nodes[i];
        printf(" %zu,%zu,%d:", x->start, x->stop, x->significant);
        if (x->has_choice)
            printf("%zu,%016" PRIx64 ",%zu,%zu,%zu,%zu", x->choice.split, bits(x->choice.gain), x->choice.start, x->choice.stop,
                   x->choice.kind, x->choice.number);
        else
            putchar(same_record(&x->choice, &zero) ? '-' : '?');
        printf(":%zu,%zu", x->left, x->right);
    }
    for (size_t i = told; i < ROOM; i++)
        if (!same_node(&g->nodes[i], &other))
            printf(" touched");
    printf(" cuts");
    rows_told(g->cuts, no == 0 ? g->counts[2] : 0);
    printf(" rows");
    rows_told(g->rows, no == 0 ? 5 * g->counts[1] : 0);
    rows_told(g->rows + ROOM, 0);
    printf(" gains");
    floats_told(g->gains, no == 0 ? g->counts[1] : 0);
    end(no);
}

static void tree(const char *name, const double *cells, size_t n, bool closed, double threshold, struct lists l, size_t room,
                 size_t counts_len)
{
    double sums[ROOM];
    struct grown g;
    fill_floats(sums);
    fill_grown(&g);
    uint32_t no = changeforest_tree(cells, n, n, 1, 1, closed, threshold, none, 0, l.layers, l.layers_len, l.draws, l.draws_len, l.w, sums,
                                    n + 1 + SPARE, g.rows, 2 * ROOM, g.gains, ROOM, g.nodes, room, g.cuts, ROOM, g.counts, counts_len);
    grown_told(name, &g, no);
}

/* Of three rows, of two columns unless d is to be refused. */
static void open_run(const char *name, size_t d, size_t room)
{
    double sums[ROOM];
    size_t count = 77;
    fill_floats(sums);
    uint32_t no = changeforest_open(3, d, sums, room, &count);
    printf("%s %zu sums", name, count);
    floats_told(sums, no == 0 ? d : 0);
    end(no);
}

/* Behind count cells of that run, 1 to 6. The sums of all cells taken are told, of a lot that is refused those before it. */
static void lot(const char *name, size_t d, size_t count, const double *cells, size_t len, size_t room)
{
    static const double before[] = {0, 0, 1, 2, 4, 6, 9, 12};
    double sums[ROOM];
    fill_floats(sums);
    size_t told = count <= 6 ? 2 + count : LEN(before);
    memcpy(sums, before, told * sizeof before[0]);
    uint32_t no = changeforest_feed(cells, len, 3, d, sums, room, &count);
    printf("%s %zu sums", name, count);
    floats_told(sums, no == 0 ? 2 + count : told);
    end(no);
}

static void close_run(const char *name, size_t d, size_t count)
{
    printf("%s", name);
    end(changeforest_close(3, d, count));
}

/* Of eight rows of one column. Behind the sums stand others, lent or not; all stay as they were. */
static void later(const char *name, const double *sums, size_t sums_len, size_t d, size_t count, size_t m, bool closed, double threshold,
                  struct lists l, size_t room, size_t counts_len)
{
    double lent[9 + SPARE];
    struct grown g;
    memcpy(lent, sums, sizeof lent);
    fill_grown(&g);
    uint32_t no = changeforest_fed_tree(lent, sums_len, 8, d, count, m, closed, threshold, none, 0, l.layers, l.layers_len, l.draws,
                                        l.draws_len, l.w, g.rows, 2 * ROOM, g.gains, ROOM, g.nodes, room, g.cuts, ROOM, g.counts,
                                        counts_len);
    grown_told(name, &g, no);
    if (memcmp(lent, sums, sizeof lent) != 0)
        printf("touched\n");
}

/* Rows 5 and 6 are barred, 6 twice. Of the outputs, those that the reason does not go with stay 77 and 7.5. */
static void why_in(const char *name, const double *cells, size_t n, bool closed, double threshold, struct lists l, size_t row, size_t room,
                   size_t stored, size_t text_len)
{
    static const size_t barred[] = {6, 6, 5, 6, 4, 6};
    double sums[ROOM], gains[ROOM], found = 7.5;
    size_t rows[ROOM], start = 77, stop = 77, kind = 77, number = 77, length = 77, a = 77, b = 77;
    uint32_t reason = 77;
    char text[ROOM];
    fill_floats(sums);
    fill_floats(gains);
    fill_rows(rows);
    memset(text, '#', ROOM);
    uint32_t no = changeforest_why(cells, n, n, 1, 1, closed, threshold, barred, LEN(barred), l.layers, l.layers_len, l.draws, l.draws_len,
                                   l.w, row, sums, n + 1 + SPARE, rows, 5 * room, gains, room, text, text_len, &reason, &start, &stop,
                                   &kind, &number, &length, &a, &b, &found);
    printf("%s %" PRIu32 " %zu %zu %zu %zu %zu %zu %zu %016" PRIx64 " text", name, reason, start, stop, kind, number, length, a, b,
           bits(found));
    size_t told = no == 0 && reason == CHANGEFOREST_CUT && length <= TEXT ? length : 0;
    if (told != 0)
        printf(" %.*s", (int)told, text);
    for (size_t i = told; i < ROOM; i++)
        if (text[i] != '#')
            printf(" touched");
    printf(" sums");
    floats_told(sums, no == 0 ? n + 1 : 0);
    printf(" records");
    rows_told(rows, 5 * stored);
    floats_told(gains, stored);
    end(no);
}

static void why(const char *name, const double *cells, size_t n, bool closed, double threshold, struct lists l, size_t row, size_t room,
                size_t stored)
{
    why_in(name, cells, n, closed, threshold, l, row, room, stored, TEXT + SPARE);
}

static void predict(const char *name, const double *cells, size_t n, size_t stop, size_t split)
{
    uint32_t ordering[ROOM] = {0};
    double distances[ROOM], predictions[ROOM];
    fill_floats(distances);
    fill_floats(predictions);
    uint32_t no = changeforest_predict(cells, n, n, 1, 0, stop, split, ordering, n * n, distances, n + SPARE, predictions,
                                       stop + SPARE);
    printf("%s", name);
    floats_told(predictions, no == 0 ? stop : 0);
    end(no);
}

static void order(const char *name, const double *cells, size_t n, size_t room)
{
    uint32_t ordering[ROOM] = {0};
    double distances[ROOM];
    fill_floats(distances);
    uint32_t no = changeforest_ordering(cells, n, n, 1, ordering, room, distances, n);
    printf("%s", name);
    for (size_t i = 0; no == 0 && i < n * n; i++)
        printf(" %" PRIu32, ordering[i]);
    floats_told(distances, no == 0 ? n : 0);
    end(no);
}

static void curve(const char *name, const double *l0, size_t l0_len, const double *l1, size_t l1_len)
{
    double found[ROOM];
    fill_floats(found);
    uint32_t no = changeforest_gain_from_likelihoods(l0, l0_len, l1, l1_len, found, l0_len + SPARE);
    printf("%s", name);
    floats_told(found, no == 0 ? l0_len : 0);
    end(no);
}

static void pick(const char *name, const double *values, size_t len, bool closed, size_t guess)
{
    size_t split = 77;
    double found = 7.5;
    uint32_t no = changeforest_pick(values, len, len, 1, closed, none, 0, 0, len, guess, &split, &found);
    printf("%s %zu %016" PRIx64, name, split, bits(found));
    end(no);
}

static void guesses(const char *name, size_t m, bool closed, bool given, const size_t *forbidden, size_t forbidden_len, size_t stop)
{
    size_t first = 77, second = 77, third = 77, count = 77;
    uint32_t no = changeforest_guesses(20, m, closed, given, forbidden, forbidden_len, 0, stop, &first, &second, &third, &count);
    printf("%s %zu: %zu %zu %zu", name, count, first, second, third);
    end(no);
}

static void test(const char *name, size_t k, size_t length, bool closed, const size_t *permutations, size_t len, double alpha)
{
    static const double deltas[3] = {1, 0, -1}, empty[1];
    size_t counter = 77;
    double p_value = 7.5;
    bool significant = true;
    uint32_t no = changeforest_permutation_test(deltas, length, empty, 0, empty, 0, 0, 0, 0, k, permutations, len, 3, 1, closed, alpha, 1,
                                                &counter, &p_value, &significant);
    printf("%s %zu %016" PRIx64 " %d", name, counter, bits(p_value), significant);
    end(no);
}

static void length(const char *name, double relative, size_t n)
{
    size_t m = 77;
    uint32_t no = changeforest_minimal_segment_length(relative, n, &m);
    printf("%s %zu", name, m);
    end(no);
}

int main(void)
{
    static const size_t m4[] = {3, 5}, m5[] = {0, 9}, odd[] = {3};
    static const double m6[] = {0, 0, 8, 0, 0}, m9[] = {0, 1, 3, 7}, infinite[] = {0, 1e308 * 10, 0, 0};
    static const size_t m10[] = {2, 1, 0, 0, 1, 2, 1, 0, 2}, twice[] = {2, 1, 1, 0, 1, 2, 1, 0, 2};
    static const double m7[] = {0, 0, 0, 0, 8, 8, 8, 8}, m8[5], m11[20];
    static const double half[] = {0.5}, quarter[] = {0.25}, one[] = {1.0};
    static const double l0[] = {3, 1, 0}, l1[] = {1, 1, 2}, values[] = {9, 1, 4, 4, 0};
    static const double last[] = {0, 0, 0, 8}, rising[] = {0, 0, 1, 2};
    static const size_t both[] = {0, 1, 1, 0, 0, 1};
    static const double bump[] = {0, 0, 8, 8, 0, 0, 0, 0};
    static const size_t draws[] = {4, 4, 0, 2, 0, 4, 2, 6}, past[] = {0, 4, 9, 9}, whole[] = {0, 8};
    static const double two[] = {0.25, 0.5};
    static const struct lists second = {two, LEN(two), none, 0, 0};
    static const double high[] = {1e308, 1e308, 1e308}, steep[] = {0, 0, 1e308, 1e308};
    static const double equal[] = {5, 5, 9}, nearly[] = {1e-200, 0, 9};
    static const double fed[] = {1, 2, 3, 4, 5, 6}, unfit[] = {2, 3, NAN, 5};
    static const double m7_sums[9 + SPARE] = {0, 0, 0, 0, 0, 8, 16, 24, 32, NAN}, bump_sums[9 + SPARE] = {0, 0, 0, 8, 16, 16, 16, 16, 16};
    static const double odd_sums[9 + SPARE] = {0, 0, 0, 8, NAN, 16, INFINITY, 16, 16};

    candidates("M1", 10, 3, false, none, 0, 10, 4 + SPARE);
    candidates("M2", 10, 5, false, none, 0, 10, 0);
    candidates("M3", 9, 4, false, none, 0, 9, 1 + SPARE);
    candidates("M4", 10, 3, false, m4, LEN(m4), 10, 4 + SPARE);
    candidates("M5", 10, 3, false, m5, LEN(m5), 10, 4 + SPARE);
    gain("M6 at 2", m6, LEN(m6), 0, 5, 2);
    gain("M6 at 3", m6, LEN(m6), 0, 5, 3);
    search("M6", m6, LEN(m6), 1, false, 5);
    tree("M7", m7, LEN(m7), false, 10, nothing, 13, 4);
    tree("M8", m8, LEN(m8), false, -1, nothing, 7, 5);
    tree("M7 with a layer", m7, LEN(m7), false, 10, layered(half), 13, 4);
    predict("M9", m9, LEN(m9), 4, 2);
    order("M9 ordering", m9, LEN(m9), 16);
    predict("equal rows", equal, LEN(equal), 3, 1);
    predict("nearly equal rows", nearly, LEN(nearly), 3, 1);
    test("M10", 1, 3, false, m10, LEN(m10), 0.05);
    segments("M11", m11, LEN(m11), false, layered(half), 3 + SPARE);
    segments("M11 quarter", m11, LEN(m11), false, layered(quarter), 7);
    length("relative", 0.07, 100);
    curve("curve", l0, 3, l1, 3);
    pick("pick", values, LEN(values), false, 3);
    guesses("between", 1, false, false, odd, 1, 20);
    guesses("listed", 1, false, true, none, 0, 20);
    guesses("one", 2, false, true, none, 0, 5);
    printf("f32 %016" PRIx64 "\n", bits(changeforest_nearest_f32(0.1)));

    candidates("M1 closed", 10, 3, true, none, 0, 10, 5 + SPARE);
    candidates("M2 closed", 10, 5, true, none, 0, 10, 1);
    search("last closed", last, LEN(last), 1, true, 4);
    tree("M8 closed", m8, LEN(m8), true, -1, nothing, 9, 5);
    segments("two rows closed", m11, 4, true, layered(half), 3 + SPARE);
    pick("pick closed", rising, LEN(rising), true, 3);
    guesses("two rows between closed", 1, true, false, odd, 1, 2);
    guesses("two rows listed closed", 1, true, true, none, 0, 2);
    test("two values closed", 1, 2, true, both, LEN(both), 0.05);

    segments("draws", bump, LEN(bump), false, drawn(draws, LEN(draws), 3), 3);
    segments("one record of draws", bump, LEN(bump), false, drawn(draws, LEN(draws), 1), 1 + SPARE);
    segments("no record of draws", bump, LEN(bump), false, drawn(draws, LEN(draws), 0), 0);
    segments("draws closed", bump, LEN(bump), true, drawn(draws, LEN(draws), 2), 2);
    tree("no sheet", bump, LEN(bump), false, 40, nothing, 13, 4);
    tree("sheet of draws", bump, LEN(bump), false, 40, drawn(draws, LEN(draws), 1), 13, 5);

    segments("second layer", bump, LEN(bump), false, second, 10);
    tree("sheet of the second layer", bump, LEN(bump), false, 40, second, 13, 4);
    tree("sheet of its own", bump, LEN(bump), false, 31, drawn(whole, LEN(whole), 1), 13, 4);

    why("why 0", m7, LEN(m7), false, 10, nothing, 0, SPARE, 0);
    why("why 2", m7, LEN(m7), false, 10, nothing, 2, SPARE, 0);
    why("why 4", m7, LEN(m7), false, 10, nothing, 4, 0, 0);
    why("why 5", m7, LEN(m7), false, 10, nothing, 5, SPARE, 0);
    why("why 6", m7, LEN(m7), false, 10, nothing, 6, SPARE, 0);
    why("why 7", m7, LEN(m7), false, 10, nothing, 7, SPARE, 0);
    why("no number", high, LEN(high), false, -1, nothing, 1, SPARE, 0);
    why("not above infinity", steep, LEN(steep), false, infinite[1], nothing, 2, SPARE, 0);
    why("not above", bump, LEN(bump), false, 40, nothing, 4, SPARE, 0);
    why("cut by a draw", bump, LEN(bump), false, 40, drawn(draws, LEN(draws), 1), 2, 1, 1);
    why("cut behind it", bump, LEN(bump), false, 40, drawn(draws, LEN(draws), 1), 4, 1 + SPARE, 1);
    why("cut by a layer", bump, LEN(bump), false, 40, layered(half), 2, 3, 2);
    why_in("cut by the second layer", bump, LEN(bump), false, 40, second, 2, 10, 2, TEXT);
    why_in("cut by its own", bump, LEN(bump), false, 31, drawn(whole, LEN(whole), 1), 4, 1, 1, TEXT);
    why("last row", last, LEN(last), false, 48, nothing, 3, SPARE, 0);
    why("last row closed", last, LEN(last), true, 48, nothing, 3, SPARE, 0);

    open_run("open", 2, 8 + SPARE);
    open_run("open exactly", 2, 8);
    lot("lot of one", 2, 0, fed, 1, 8 + SPARE);
    lot("lot of four", 2, 1, fed + 1, 4, 8);
    lot("lot of none", 2, 5, fed, 0, 8);
    lot("last lot", 2, 5, fed + 5, 1, 8 + SPARE);
    lot("lot of none behind it", 2, 6, fed, 0, 8);
    close_run("close", 2, 6);
    later("later M7", m7_sums, 9, 1, 8, 1, false, 10, nothing, 13, 4);
    later("later M7 with a layer", m7_sums, 9 + SPARE, 1, 8, 1, false, 10, layered(half), 13, 4);
    later("later M7 closed", m7_sums, 9, 1, 8, 4, true, 10, nothing, 3, 4);
    later("later sheet of draws", bump_sums, 9 + SPARE, 1, 8, 1, false, 40, drawn(draws, LEN(draws), 1), 13, 5);
    later("later odd sums", odd_sums, 9, 1, 8, 1, false, 40, nothing, 13, 4);

    candidates("no rows", 0, 3, false, none, 0, 10, 4);
    length("half", 0.5, 100);
    test("alpha", 1, 3, false, m10, LEN(m10), 1);
    search("infinite", infinite, LEN(infinite), 1, false, 4);
    candidates("odd list", 10, 3, false, odd, LEN(odd), 10, 4);
    segments("layer of 1", m11, LEN(m11), false, layered(one), 1);
    tree("NaN threshold", m8, LEN(m8), false, infinite[1] - infinite[1], nothing, 7, 2);
    tree("short nodes", m8, LEN(m8), false, -1, nothing, 6, 4);
    tree("short counts", m8, LEN(m8), false, -1, nothing, 7, 3);
    tree("no counts", m8, LEN(m8), false, -1, nothing, 7, 0);
    candidates("short", 10, 3, false, none, 0, 10, 3);
    order("short ordering", m9, LEN(m9), 15);
    gain("split past stop", m6, LEN(m6), 0, 3, 4);
    test("no curve", 0, 3, false, m10, LEN(m10), 0.05);
    test("twice", 1, 3, false, twice, LEN(twice), 0.05);
    curve("lengths differ", l0, 3, l1, 2);
    pick("no candidate", values, LEN(values), false, 0);

    candidates("nine rows closed", 9, 5, true, none, 0, 9, 0);
    candidates("short closed", 10, 5, true, none, 0, 10, 0);
    tree("short nodes closed", m8, LEN(m8), true, -1, nothing, 8, 4);
    search("last", last, LEN(last), 2, false, 4);
    pick("no candidate unless closed", rising, LEN(rising), false, 3);
    guesses("two rows between", 1, false, false, odd, 1, 2);
    test("two values", 1, 2, false, both, LEN(both), 0.05);

    segments("odd draws", bump, LEN(bump), false, drawn(draws, 7, 2), 2);
    tree("odd draws of a tree", bump, LEN(bump), false, 40, drawn(draws, 1, 2), 13, 4);
    segments("layers and draws", bump, LEN(bump), false, (struct lists){half, 1, draws, LEN(draws), 2}, 3);
    tree("layers and draws of a tree", bump, LEN(bump), false, 40, (struct lists){half, 1, draws, 2, 2}, 13, 4);
    segments("4,097 records of draws", bump, LEN(bump), false, drawn(draws, LEN(draws), 4097), 3);
    segments("4,097 records without draws", bump, LEN(bump), false, drawn(none, 0, 4097), 3);
    tree("4,097 records of a tree", bump, LEN(bump), false, 40, drawn(draws, LEN(draws), 4097), 13, 4);
    segments("short for draws", bump, LEN(bump), false, drawn(draws, LEN(draws), 3), 2);
    segments_in("three entries a record", bump, LEN(bump), false, drawn(draws, LEN(draws), 3), 9, 3);
    segments("short and past the run", bump, LEN(bump), false, drawn(past, LEN(past), 3), 2);
    tree("short counts and past the run", bump, LEN(bump), false, 40, drawn(past, LEN(past), 1), 13, 3);
    segments("past the run", bump, LEN(bump), false, drawn(past, LEN(past), 1), 1);
    tree("past the run of a tree", bump, LEN(bump), false, 40, drawn(past, LEN(past), 1), 13, 4);

    why("why NaN", m7, LEN(m7), false, infinite[1] - infinite[1], nothing, 8, SPARE, 0);
    why("why an odd list", bump, LEN(bump), false, 40, drawn(draws, 7, 2), 2, 2, 0);
    why("why 4,097 records", bump, LEN(bump), false, 40, drawn(draws, LEN(draws), 4097), 2, 3, 0);
    why("why in short room", bump, LEN(bump), false, 40, drawn(draws, LEN(draws), 3), 8, 2, 0);
    why("why past the run", bump, LEN(bump), false, 40, drawn(past, LEN(past), 1), 2, 1, 0);
    why("why 8", m7, LEN(m7), false, 10, nothing, 8, SPARE, 0);
    why("why the last of all", m7, LEN(m7), false, 10, nothing, SIZE_MAX, SPARE, 0);
    why_in("short text of a cut", m7, LEN(m7), false, 10, nothing, 4, SPARE, 0, TEXT - 1);
    why_in("short text of a cut by a draw", bump, LEN(bump), false, 40, drawn(draws, LEN(draws), 1), 2, 1, 0, TEXT - 1);
    why_in("short text of a cut by a layer", bump, LEN(bump), false, 40, layered(half), 2, 3, 0, TEXT - 1);
    why_in("short text of 0", m7, LEN(m7), false, 10, nothing, 0, SPARE, 0, TEXT - 1);
    why_in("short text of 5", m7, LEN(m7), false, 10, nothing, 5, SPARE, 0, TEXT - 1);
    why_in("short text of no number", high, LEN(high), false, -1, nothing, 1, SPARE, 0, TEXT - 1);
    why_in("short text of not above", bump, LEN(bump), false, 40, nothing, 4, SPARE, 0, TEXT - 1);
    why_in("short text of 8", m7, LEN(m7), false, 10, nothing, 8, SPARE, 0, TEXT - 1);
    why_in("no text", m7, LEN(m7), false, 10, nothing, 4, SPARE, 0, 0);
    why_in("no text and NaN", m7, LEN(m7), false, infinite[1] - infinite[1], nothing, 4, SPARE, 0, 0);

    open_run("open no columns", 0, 8);
    open_run("open 65 columns", 65, 8);
    open_run("open in short room", 2, 7);
    lot("lot of no columns", 0, 7, unfit, 3, 7);
    lot("bad cell", 2, 1, unfit, 4, 8 + SPARE);
    lot("bad cell, short and too many", 2, 4, unfit, 3, 7);
    lot("lot in short room", 2, 5, fed, 2, 7);
    lot("too many", 2, 5, fed, 2, 8 + SPARE);
    lot("too many before", 2, 7, fed, 0, 8);
    lot("too many for 64 bits", 2, SIZE_MAX, fed, 2, 8);
    close_run("close no columns", 0, 7);
    close_run("close too many", 2, 7);
    close_run("close the most of all", 2, SIZE_MAX);
    close_run("close early", 2, 5);
    close_run("close at once", 2, 0);
    later("later no columns", m7_sums, 8, 0, 9, 0, false, 10, nothing, 13, 4);
    later("later m of 0", m7_sums, 8, 1, 9, 0, false, NAN, nothing, 13, 4);
    later("later NaN", m7_sums, 8, 1, 9, 1, false, NAN, drawn(past, 3, 1), 13, 4);
    later("later odd draws", m7_sums, 8, 1, 9, 1, false, 10, drawn(past, 3, 4097), 13, 4);
    later("later 4,097 records", m7_sums, 8, 1, 9, 1, false, 10, drawn(past, LEN(past), 4097), 13, 4);
    later("later short sums", m7_sums, 8, 1, 9, 1, false, 10, drawn(past, LEN(past), 1), 13, 4);
    later("later short nodes", m7_sums, 9, 1, 9, 1, false, 10, drawn(past, LEN(past), 1), 12, 4);
    later("later short counts", m7_sums, 9, 1, 9, 1, false, 10, drawn(past, LEN(past), 1), 13, 3);
    later("later past the run", m7_sums, 9, 1, 9, 1, false, 10, drawn(past, LEN(past), 1), 13, 4);
    later("later too many", m7_sums, 9, 1, 9, 1, false, 10, nothing, 13, 4);
    later("later past the run early", m7_sums, 9, 1, 7, 1, false, 10, drawn(past, LEN(past), 1), 13, 4);
    later("later early", m7_sums, 9, 1, 7, 1, false, 10, nothing, 13, 4);
    return 0;
}
