/* include/lockdapple.h compiles as C and C++, its structs lie as the libraries' do, and each function answers
 * what document 01 says of a flat frame of 8 by 8 pixels. Grid files are gridfile.c's, comparisons compare.c's. */
#include "lockdapple.h"

#include <stdio.h>
#include <string.h>

#ifdef __cplusplus
#define HOLDS(what) static_assert(what, #what)
#else
#define HOLDS(what) _Static_assert(what, #what)
#endif

HOLDS(sizeof(struct lockdapple_found) == 24);
HOLDS(offsetof(struct lockdapple_found, row) == 4);
HOLDS(offsetof(struct lockdapple_found, col) == 6);
HOLDS(offsetof(struct lockdapple_found, sad) == 8);
HOLDS(offsetof(struct lockdapple_found, cost) == 16);
HOLDS(sizeof(struct lockdapple_ends) == 12);
HOLDS(offsetof(struct lockdapple_ends, mvx_min) == 4);
HOLDS(offsetof(struct lockdapple_ends, mvy_max) == 10);
HOLDS(sizeof(struct lockdapple_vector) == 4);
HOLDS(offsetof(struct lockdapple_vector, col) == 2);
HOLDS(sizeof(struct lockdapple_subsets) == 64);
HOLDS(offsetof(struct lockdapple_subsets, min_sad) == 4);
HOLDS(offsetof(struct lockdapple_subsets, threshold) == 8);
HOLDS(offsetof(struct lockdapple_subsets, b_count) == 12);
HOLDS(offsetof(struct lockdapple_subsets, c_count) == 16);
HOLDS(offsetof(struct lockdapple_subsets, center) == 20);
HOLDS(offsetof(struct lockdapple_subsets, b) == 24);
HOLDS(offsetof(struct lockdapple_subsets, c) == 44);
HOLDS(sizeof(struct lockdapple_written) == 16);
HOLDS(offsetof(struct lockdapple_written, bytes) == 8);
HOLDS(sizeof(struct lockdapple_shape) == 12);
HOLDS(offsetof(struct lockdapple_shape, columns) == 4);
HOLDS(offsetof(struct lockdapple_shape, rows) == 8);
HOLDS(sizeof(struct lockdapple_reader) == 40);
HOLDS(offsetof(struct lockdapple_reader, cells) == 12);
HOLDS(offsetof(struct lockdapple_reader, held) == 16);
HOLDS(offsetof(struct lockdapple_reader, part) == 20);
HOLDS(offsetof(struct lockdapple_reader, spare) == 36);
HOLDS(sizeof(struct lockdapple_comparison) == 24);
HOLDS(offsetof(struct lockdapple_comparison, count) == 8);
HOLDS(offsetof(struct lockdapple_comparison, first) == 16);

/* The quarter, half and full plane of a frame of 8 by 8: 2 + 40, 4 + 80 and 8 + 96 samples a side. */
static uint8_t flat[104 * 104];
static const size_t quarter = 42 * 42, half = 84 * 84, full = 104 * 104;

static int wrong;

static void expect(const char *what, struct lockdapple_found got, uint32_t code, int16_t row, int16_t col, uint32_t sad,
                   uint64_t cost) {
    if (got.code == code && got.row == row && got.col == col && got.sad == sad && got.cost == cost) return;
    printf("%s: code %u row %d col %d sad %u cost %llu\n", what, (unsigned)got.code, got.row, got.col,
           (unsigned)got.sad, (unsigned long long)got.cost);
    wrong = 1;
}

/* A step at level 4, and a run by a list of one number, of the flat frame with no previous grid. */
static uint32_t step(size_t superblock, int16_t *rows, int16_t *cols, uint32_t *sads) {
    return lockdapple_superblock_step(8, 8, 4, superblock, flat, full, flat, half, flat, quarter, flat, full, flat, half,
                                      flat, quarter, 0, rows, 0, cols, 0, sads, 0, rows, 4, cols, 4, sads, 4);
}

static uint32_t run(uint16_t superblock, int16_t *rows, int16_t *cols, uint32_t *sads) {
    return lockdapple_frame_run(8, 8, flat, full, flat, half, flat, quarter, flat, full, flat, half, flat, quarter, 0, rows,
                                0, cols, 0, sads, 0, &superblock, 1, rows, 4, cols, 4, sads, 4);
}

static void expect_cells(const char *what, const int16_t *rows, const int16_t *cols, const uint32_t *sads, int16_t row,
                         int16_t col, uint32_t sad) {
    int i;
    for (i = 0; i < 4; i++) {
        if (rows[i] == row && cols[i] == col && sads[i] == sad) continue;
        printf("%s: cell %d is %d %d %u\n", what, i, rows[i], cols[i], (unsigned)sads[i]);
        wrong = 1;
    }
}

int main(void) {
    int16_t rows[4] = {0, 0, 0, 0}, cols[4] = {0, 0, 0, 0}, far_cols[4] = {224, 0, 0, 0};
    uint32_t sads[4] = {0, 0, 0, 0};
    int16_t run_rows[4] = {7, 7, 7, 7}, run_cols[4] = {7, 7, 7, 7};
    uint32_t run_sads[4] = {7, 7, 7, 7};
    struct lockdapple_ends ends = lockdapple_range(64, 64, 4, 0, 0, 0);
    struct lockdapple_subsets found, refused;

    memset(flat, 90, sizeof flat);
    if (lockdapple_rate(-1, 8) != 8 || lockdapple_rate(16383, -16383) != 54) wrong = 1, puts("rate");
    if (ends.code != 0 || ends.mvx_min != -160 || ends.mvx_max != 160) wrong = 1, puts("range");
    if (lockdapple_range(8, 8, 4, 1, 0, 0).code != 2) wrong = 1, puts("range of a refined block of level 4");

    expect("candidate", lockdapple_candidate(8, 8, 4, 0, 0, 0, flat, quarter, flat, quarter, 8, -8, 16), 0, 8, -8, 0, 192);
    expect("candidate out of range", lockdapple_candidate(8, 8, 4, 0, 0, 0, flat, quarter, flat, quarter, 49, 0, 1), 0, 49,
           0, UINT32_MAX, UINT64_MAX);
    expect("a plane one short", lockdapple_candidate(8, 8, 4, 0, 0, 0, flat, quarter - 1, flat, quarter, 0, 0, 0), 4, 0, 0,
           0, 0);
    expect("diamond", lockdapple_diamond(8, 8, 4, 0, 0, flat, quarter, flat, quarter, 8, 0, 0), 0, 8, 0, 0, 0);
    expect("hexagon", lockdapple_hexagon(8, 8, 4, 0, 0, flat, quarter, flat, quarter, 0, -48, 0), 0, 0, -48, 0, 0);
    expect("multi-hexagon", lockdapple_multi_hexagon(8, 8, 4, 0, 0, flat, quarter, flat, quarter, 48, 48, 0), 0, 48, 48, 0,
           0);
    expect("a start out of range", lockdapple_diamond(8, 8, 4, 0, 0, flat, quarter, flat, quarter, 0, 49, 0), 9, 0, 0, 0, 0);
    expect("refine", lockdapple_refine(8, 8, 3, 0, 0, flat, half, flat, half, rows, 4, cols, 4, sads, 4, 0), 0, -8, -8, 0,
           0);
    expect("a grid one short", lockdapple_refine(8, 8, 3, 0, 0, flat, half, flat, half, rows, 4, cols, 4, sads, 3, 0), 5, 0,
           0, 0, 0);
    expect("an empty window", lockdapple_refine(8, 8, 3, 0, 0, flat, half, flat, half, rows, 4, far_cols, 4, sads, 4, 0), 8,
           0, 0, 0, 0);

    /* one block of 2 by 2 samples at level 4, with no neighbour: B is the zero vector, and nothing was sampled */
    found = lockdapple_predictors(8, 8, 4, 0, 0, 0, rows, 0, cols, 0, sads, 0, rows, 4, cols, 4, sads, 4);
    if (found.code != 0 || found.min_sad != 1048575 || found.threshold != 1258294 || found.b_count != 1 ||
        found.c_count != 0 || found.center.row != 0 || found.b[0].row != 0 || found.b[0].col != 0)
        wrong = 1, puts("predictors");
    refused = lockdapple_predictors(8, 8, 4, 0, 0, 1, rows, 0, cols, 0, sads, 0, rows, 4, cols, 4, sads, 4);
    if (refused.code != 5 || refused.min_sad != 0 || refused.threshold != 0 || refused.b_count != 0)
        wrong = 1, puts("predictors with a previous grid too short");

    if (step(1, run_rows, run_cols, run_sads) != 3) wrong = 1, puts("a superblock past the frame");
    if (run(7, run_rows, run_cols, run_sads) != 6) wrong = 1, puts("a list of one wrong number");
    expect_cells("a refusal", run_rows, run_cols, run_sads, 7, 7, 7);
    if (step(0, run_rows, run_cols, run_sads) != 0) wrong = 1, puts("step");
    expect_cells("a step at level 4", run_rows, run_cols, run_sads, 0, 0, 0);
    if (run(0, run_rows, run_cols, run_sads) != 0) wrong = 1, puts("run");
    expect_cells("a run", run_rows, run_cols, run_sads, -24, -24, 0);
    puts(wrong ? "header: different" : "header: as document 01 says");
    return wrong;
}
