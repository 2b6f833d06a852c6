/* Calls every entry point that takes a buffer with null pointers and counts of 0: empty and absent buffers as C programs have
 * them. */
#include "lockdapple.h"

#include <stdio.h>
#include <string.h>

/* The sides of the planes of a frame of 8 by 8 pixels: full, half and quarter size. */
enum { full = 8 + 2 * 48, half = 4 + 2 * 40, quarter = 2 + 2 * 20, cells = 4 };

static int wrong;

static void expect(int holds, const char *what) {
    if (holds) return;
    fprintf(stderr, "null: %s\n", what);
    wrong = 1;
}

static void blocks(void) {
    expect(lockdapple_candidate(8, 8, 2, 0, 0, 0, NULL, 0, NULL, 0, 0, 0, 0).code == 4, "candidate");
    expect(lockdapple_diamond(8, 8, 2, 0, 0, NULL, 0, NULL, 0, 0, 0, 0).code == 4, "diamond");
    expect(lockdapple_hexagon(8, 8, 2, 0, 0, NULL, 0, NULL, 0, 0, 0, 0).code == 4, "hexagon");
    expect(lockdapple_multi_hexagon(8, 8, 2, 0, 0, NULL, 0, NULL, 0, 0, 0, 0).code == 4, "multi-hexagon");
    expect(lockdapple_refine(8, 8, 2, 0, 0, NULL, 0, NULL, 0, NULL, 0, NULL, 0, NULL, 0, 0).code == 4, "refine");
    expect(lockdapple_predictors(8, 8, 2, 0, 0, 0, NULL, 0, NULL, 0, NULL, 0, NULL, 0, NULL, 0, NULL, 0).code == 5,
           "predictors");
}

static void frames(void) {
    static uint8_t a[full * full], b[half * half], c[quarter * quarter];
    int16_t rows[cells], cols[cells];
    uint32_t sads[cells];
    uint16_t list[1] = {0};

    expect(lockdapple_superblock_step(8, 8, 4, 0, NULL, 0, NULL, 0, NULL, 0, NULL, 0, NULL, 0, NULL, 0, 0, NULL, 0, NULL, 0,
                                      NULL, 0, NULL, 0, NULL, 0, NULL, 0) == 4,
           "step");
    expect(lockdapple_frame_run(8, 8, NULL, 0, NULL, 0, NULL, 0, NULL, 0, NULL, 0, NULL, 0, 0, NULL, 0, NULL, 0, NULL, 0, NULL,
                                0, NULL, 0, NULL, 0, NULL, 0) == 4,
           "run");

    /* an absent previous grid, in a step and in a run that do their work */
    memset(a, 90, sizeof a);
    memset(b, 90, sizeof b);
    memset(c, 90, sizeof c);
    expect(lockdapple_superblock_step(8, 8, 4, 0, NULL, 0, NULL, 0, c, sizeof c, NULL, 0, NULL, 0, c, sizeof c, 0, NULL, 0,
                                      NULL, 0, NULL, 0, rows, cells, cols, cells, sads, cells) == 0,
           "step with no previous grid, and no planes but its level's");
    expect(lockdapple_frame_run(8, 8, a, sizeof a, b, sizeof b, c, sizeof c, a, sizeof a, b, sizeof b, c, sizeof c, 0, NULL, 0,
                                NULL, 0, NULL, 0, list, 1, rows, cells, cols, cells, sads, cells) == 0,
           "run with no previous grid");
    expect(rows[3] == -24 && cols[3] == -24 && sads[3] == 0, "its last cell");
}

static void files(void) {
    struct lockdapple_shape none = {0, 0, 0};
    struct lockdapple_reader fresh = lockdapple_reader_new(), taken;
    struct lockdapple_comparison all;
    struct lockdapple_place next;

    expect(lockdapple_grid_write(8, 8, NULL, 0, NULL, 0, NULL, 0, NULL, 0).code == 5, "write");
    expect(lockdapple_grid_read(NULL, 0, NULL, 0, NULL, 0, NULL, 0).code == 11, "read");
    expect(lockdapple_grid_peek(NULL, 0).code == 11, "peek");
    taken = lockdapple_reader_take(fresh, NULL, 0, NULL, 0, NULL, 0, NULL, 0);
    expect(memcmp(&taken, &fresh, sizeof taken) == 0, "an empty fragment");
    all = lockdapple_grids_compare(none, NULL, 0, NULL, 0, NULL, 0, none, NULL, 0, NULL, 0, NULL, 0, 0);
    expect(all.code == 0 && all.count == 0 && all.first == 0, "compare");
    next = lockdapple_grids_next(none, NULL, 0, NULL, 0, NULL, 0, none, NULL, 0, NULL, 0, NULL, 0, 0);
    expect(next.code == 0 && next.place == 0, "next");
}

int main(void) {
    blocks();
    frames();
    files();
    if (!wrong) puts("null: as expected");
    return wrong;
}
