/* Compares the grids of two files that differ in one cell of four, document 02's example, and hands on what a reading
 * refused. */
#include "lockdapple.h"

#include <stdio.h>
#include <string.h>

/* A file of 4 by 2 cells has 84 bytes; a grid is lent with two cells more than that. */
enum { bytes = 84, lent = 10 };

struct grid {
    int16_t rows[lent], cols[lent];
    uint32_t sads[lent];
};

static int wrong;

static void expect(int holds, const char *what) {
    if (holds) return;
    fprintf(stderr, "compare: %s\n", what);
    wrong = 1;
}

static struct lockdapple_shape read_grid(const uint8_t *file, size_t size, struct grid *g) {
    return lockdapple_grid_read(file, size, g->rows, lent, g->cols, lent, g->sads, lent);
}

static struct lockdapple_comparison compare(struct lockdapple_shape first, const struct grid *f, struct lockdapple_shape second,
                                            const struct grid *g, size_t from) {
    return lockdapple_grids_compare(first, f->rows, lent, f->cols, lent, f->sads, lent, second, g->rows, lent, g->cols, lent,
                                    g->sads, lent, from);
}

/* The next place by itself is what the comparison calls the first. */
static int goes(struct lockdapple_shape first, const struct grid *f, struct lockdapple_shape second, const struct grid *g,
                size_t from, uint32_t code, uint64_t place) {
    struct lockdapple_place next = lockdapple_grids_next(first, f->rows, lent, f->cols, lent, f->sads, lent, second, g->rows,
                                                         lent, g->cols, lent, g->sads, lent, from);
    return next.code == code && next.place == place;
}

static int says(struct lockdapple_comparison c, uint32_t code, uint64_t count, uint64_t first) {
    return c.code == code && c.count == count && c.first == first;
}

int main(void) {
    struct grid flat, other, f, g;
    uint8_t flat_file[bytes], other_file[bytes], wide_file[bytes];
    struct lockdapple_shape first, second;
    size_t i;

    memset(&flat, 0, sizeof flat);
    for (i = 0; i < lent; i++) flat.rows[i] = flat.cols[i] = -24;
    other = flat;
    other.rows[1] = 0;
    other.cols[1] = 8;
    other.sads[1] = 64;
    lockdapple_grid_write(8, 8, flat.rows, lent, flat.cols, lent, flat.sads, lent, flat_file, bytes);
    lockdapple_grid_write(8, 8, other.rows, lent, other.cols, lent, other.sads, lent, other_file, bytes);
    lockdapple_grid_write(16, 8, flat.rows, lent, flat.cols, lent, flat.sads, lent, wide_file, bytes);

    /* what stands past the files' cells is no difference */
    memset(&f, 0, sizeof f);
    memset(&g, 1, sizeof g);
    first = read_grid(flat_file, 44, &f);
    second = read_grid(other_file, 44, &g);
    expect(says(compare(first, &f, second, &g, 0), 0, 1, 1), "one cell of four");
    expect(says(compare(first, &f, second, &g, 1), 0, 1, 1), "from the cell itself on");
    expect(says(compare(first, &f, second, &g, 2), 0, 0, 4), "from the next cell on");
    expect(says(compare(first, &f, second, &g, 9), 0, 0, 4), "from past the last cell on");
    expect(says(compare(first, &f, first, &f, 0), 0, 0, 4), "equal grids");
    g.sads[3] = 1;
    expect(says(compare(first, &f, second, &g, 0), 0, 2, 1), "a cell whose SAD alone differs");
    expect(says(compare(first, &f, second, &g, 2), 0, 1, 3), "the next one");
    expect(goes(first, &f, second, &g, 0, 0, 1), "the first by itself");
    expect(goes(first, &f, second, &g, 2, 0, 3), "the next by itself");
    expect(goes(first, &f, second, &g, 4, 0, 4), "none behind the last");

    expect(says(lockdapple_grids_compare(first, f.rows, 4, f.cols, 4, f.sads, 4, second, g.rows, 4, g.cols, 4, g.sads, 3, 0),
                13, 0, 0),
           "a buffer too short");
    second = read_grid(wide_file, bytes, &g);
    expect(says(compare(first, &f, second, &g, 0), 14, 0, 0), "unequal shapes");
    expect(goes(first, &f, second, &g, 0, 14, 0), "unequal shapes, the next by itself");
    wide_file[0] = 0;
    second = read_grid(wide_file, bytes, &g);
    expect(says(compare(first, &f, second, &g, 0), 10, 0, 0), "the second file refused");
    first = read_grid(flat_file, 43, &f);
    expect(says(compare(first, &f, second, &g, 0), 11, 0, 0), "both files refused");
    if (!wrong) puts("compare: as expected");
    return wrong;
}
