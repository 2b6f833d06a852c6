/* The entry points of Lockdapple, for C and C++ on x86-64.
 *
 * Link the static library that `tools/hostlib inter OUT.a` writes; for the
 * three functions of grid files, that of `gridfile`; for the three of a link's
 * reader, that of `reader`, which has the others as well; for the comparison at
 * the end, that of `compare`, likewise. A program can link any of them. No
 * function asks anything of its caller: whatever numbers and buffers come, it
 * ends, reads only what it was lent, and answers or refuses; a step, a run and
 * the reading of a file write to the grid that they are lent, the writing of a
 * file to the bytes that it is lent, and nowhere else. A slice is a pointer
 * and a count of elements; with a count of 0 the pointer may be anything, null
 * too. Else it points to so many elements, aligned as C aligns their type. A
 * buffer that is written must not overlap another. No function keeps anything
 * between calls, so threads may call at the same time if none writes what
 * another is lent.
 *
 * Frame: width and height are multiples of 8, from 8 to 1,024.
 * Level: 4, 3 or 2, with blocks of 64, 32 or 16 pixels, shift s = 2, 1 or 0,
 * and planes with a pad P of 20, 40 or 48 samples.
 * Block: named by its first cell (bx, by); a cell is 4 by 4 pixels, and 4·bx
 * and 4·by are multiples of the block size.
 * Plane: bytes, stride (width >> s) + 2P, (height >> s) + 2P rows; sample
 * (x, y) is at (y + P) * stride + x + P. A longer slice is allowed.
 * Six planes, where a call is lent them all: the current frame's full, half
 * and quarter plane (levels 2, 3 and 4), then the reference frame's in the
 * same order.
 * Vectors are (row, col) in eighths of a pixel of the level's planes.
 * Grid: three buffers, the cells' rows, cols and normalised SADs, each of
 * width / 4 by height / 4 cells, row by row; its vectors are of the full size.
 * A longer buffer is allowed, and its cells past the frame's are never written.
 * Previous grid: with `present` 0 there is none, and its three buffers are
 * neither tested nor read; anything else says that there is one.
 * Superblock: 64 by 64 pixels, numbered from 0 in raster order,
 * (width + 63) / 64 in each of (height + 63) / 64 rows.
 *
 * Refusals (the lowest that applies, but for the reading of a file, where the
 * first from the file's front counts, and for a comparison, which names its
 * order; with 0 in every other field; after one every cell of the grid and
 * every byte of the file stays as it was; a link's reader alone keeps its
 * shape, and the cells taken in before):
 *   0  done
 *   1  width or height outside the rule above
 *   2  level not 2, 3 or 4; for a refinement, not 2 or 3
 *   3  block start not inside the frame, or not a multiple of the block size;
 *      for a step, a superblock number not in the frame
 *   4  a plane is shorter than stride times rows
 *   5  a buffer of the grid, or of a previous grid that is present, is shorter
 *      than (width / 4) * (height / 4)
 *   6  the list does not name each superblock exactly once and nothing else
 *   7  the list has two superblocks that share an edge against raster order
 *   8  a refinement's window is empty
 *   9  the start vector is outside the block's range
 *  10  a record of the file that is read does not start with the mark
 *  11  the file that is read is too short or too long
 *  12  the file that is read has an odd number of columns or rows
 *  13  fewer bytes are lent than the file has that is written, or a buffer of
 *      a grid has fewer cells than the file that is read, or than the shape that
 *      is compared
 *  14  the two grids that are compared have unequal shapes
 */
#ifndef LOCKDAPPLE_H
#define LOCKDAPPLE_H

#include <stddef.h>
#include <stdint.h>

#ifdef __cplusplus
extern "C" {
#endif

/* A refusal's number, and a vector with its sum of absolute differences and
 * its cost, at the level's shift. */
struct lockdapple_found {
    uint32_t code;
    int16_t row;
    int16_t col;
    uint32_t sad;
    uint64_t cost;
};

/* A refusal's number, and the ends of a block's range, both included, at the
 * level's shift: columns in x, rows in y. */
struct lockdapple_ends {
    uint32_t code;
    int16_t mvx_min;
    int16_t mvx_max;
    int16_t mvy_min;
    int16_t mvy_max;
};

struct lockdapple_vector {
    int16_t row;
    int16_t col;
};

/* A refusal's number, and the predictors of a block at the level's shift:
 * b_count vectors of list B and c_count of list C, the zero vector after them;
 * the centre, the zero vector at level 4; the minimum SAD, and the SAD below
 * which a search stops. */
struct lockdapple_subsets {
    uint32_t code;
    uint32_t min_sad;
    uint32_t threshold;
    uint32_t b_count;
    uint32_t c_count;
    struct lockdapple_vector center;
    struct lockdapple_vector b[5];
    struct lockdapple_vector c[5];
};

/* Twice the bit length of |component >> 1|, summed over both components. */
uint32_t lockdapple_rate(int16_t row, int16_t col);

/* The range of a block: the level's own, or with `refined` not 0 the larger
 * one that the level refines first (64 pixels at level 3, 32 at level 2).
 * Refuses with 1, 2 and 3. */
struct lockdapple_ends lockdapple_range(size_t width, size_t height, size_t level, size_t refined, size_t bx, size_t by);

/* What one vector costs a block: 256 * SAD + rate * weight, or the largest
 * numbers where it is out of range. `refined` as above. Refuses with 1 to 4. */
struct lockdapple_found lockdapple_candidate(size_t width, size_t height, size_t level, size_t refined, size_t bx,
                                             size_t by, const uint8_t *cur, size_t cur_len, const uint8_t *reference,
                                             size_t reference_len, int16_t row, int16_t col, uint32_t weight);

/* Diamond search from the vector (row, col). Refuses with 1 to 4 and 9. */
struct lockdapple_found lockdapple_diamond(size_t width, size_t height, size_t level, size_t bx, size_t by,
                                           const uint8_t *cur, size_t cur_len, const uint8_t *reference,
                                           size_t reference_len, int16_t row, int16_t col, uint32_t weight);

/* Hexagon search from the vector (row, col). Refuses with 1 to 4 and 9. */
struct lockdapple_found lockdapple_hexagon(size_t width, size_t height, size_t level, size_t bx, size_t by,
                                           const uint8_t *cur, size_t cur_len, const uint8_t *reference,
                                           size_t reference_len, int16_t row, int16_t col, uint32_t weight);

/* Uneven multi-hexagon search, reach 24, from the vector (row, col). Refuses
 * with 1 to 4 and 9. */
struct lockdapple_found lockdapple_multi_hexagon(size_t width, size_t height, size_t level, size_t bx, size_t by,
                                                 const uint8_t *cur, size_t cur_len, const uint8_t *reference,
                                                 size_t reference_len, int16_t row, int16_t col, uint32_t weight);

/* Refinement of the block of 64 (level 3) or 32 (level 2) pixels at cell
 * (bx, by), round the full-size vector stored in that cell of the grid. It
 * reads that cell's row and col alone and writes nothing. Refuses with 1 to 5
 * and 8. */
struct lockdapple_found lockdapple_refine(size_t width, size_t height, size_t level, size_t bx, size_t by,
                                          const uint8_t *cur, size_t cur_len, const uint8_t *reference,
                                          size_t reference_len, const int16_t *rows, size_t rows_len,
                                          const int16_t *cols, size_t cols_len, const uint32_t *sads, size_t sads_len,
                                          uint32_t weight);

/* The predictors of the level's own block at cell (bx, by), from the grid as
 * it stands and the previous one. Writes nothing. Refuses with 1, 2, 3 and 5. */
struct lockdapple_subsets lockdapple_predictors(size_t width, size_t height, size_t level, size_t bx, size_t by,
                                                size_t present, const int16_t *prev_rows, size_t prev_rows_len,
                                                const int16_t *prev_cols, size_t prev_cols_len,
                                                const uint32_t *prev_sads, size_t prev_sads_len, const int16_t *rows,
                                                size_t rows_len, const int16_t *cols, size_t cols_len,
                                                const uint32_t *sads, size_t sads_len);

/* One superblock at one level, at weight 0: its refinements in raster order
 * (none at level 4), then its blocks in raster order, each result saved in the
 * grid. Of the six planes only the two of the level are tested and read.
 * Refuses with 1 to 5, and with 8 where a window of any of its refinements is
 * empty in the grid before the step. */
uint32_t lockdapple_superblock_step(size_t width, size_t height, size_t level, size_t superblock, const uint8_t *cur,
                                    size_t cur_len, const uint8_t *cur_half, size_t cur_half_len,
                                    const uint8_t *cur_quarter, size_t cur_quarter_len, const uint8_t *reference,
                                    size_t reference_len, const uint8_t *ref_half, size_t ref_half_len,
                                    const uint8_t *ref_quarter, size_t ref_quarter_len, size_t present,
                                    const int16_t *prev_rows, size_t prev_rows_len, const int16_t *prev_cols,
                                    size_t prev_cols_len, const uint32_t *prev_sads, size_t prev_sads_len,
                                    int16_t *rows, size_t rows_len, int16_t *cols, size_t cols_len, uint32_t *sads,
                                    size_t sads_len);

/* A run of a frame, at weight 0: levels 4, 3 and 2, and in each a step for
 * every superblock in the order of `list`, which holds each superblock's
 * number once. All six planes are tested. Refuses with 1, 4, 5, 6 and 7. */
uint32_t lockdapple_frame_run(size_t width, size_t height, const uint8_t *cur, size_t cur_len, const uint8_t *cur_half,
                              size_t cur_half_len, const uint8_t *cur_quarter, size_t cur_quarter_len,
                              const uint8_t *reference, size_t reference_len, const uint8_t *ref_half,
                              size_t ref_half_len, const uint8_t *ref_quarter, size_t ref_quarter_len, size_t present,
                              const int16_t *prev_rows, size_t prev_rows_len, const int16_t *prev_cols,
                              size_t prev_cols_len, const uint32_t *prev_sads, size_t prev_sads_len,
                              const uint16_t *list, size_t list_len, int16_t *rows, size_t rows_len, int16_t *cols,
                              size_t cols_len, uint32_t *sads, size_t sads_len);

/* Grid files: a grid as bytes, to be kept.
 *
 * A file is records, and each starts with the mark, the bytes 4C 47 (hex). The
 * first then has the columns of cells less one and the rows of cells less one,
 * a byte each; each later one is a cell, row by row: its row and its col as
 * signed 16-bit numbers and its SAD as an unsigned one of 32 bits, the lowest
 * byte first. So it has 4 bytes, and 10 for each cell: 44 for a frame of 8 by 8
 * pixels, 655,364 for one of 1,024 by 1,024. What a run has left is kept by
 *
 *     size_t cells = (width / 4) * (height / 4), size = 4 + 10 * cells;
 *     uint8_t *file = malloc(size);
 *     if (lockdapple_grid_write(width, height, rows, cells, cols, cells, sads,
 *                               cells, file, size).code == 0)
 *         fwrite(file, 1, size, out);
 */

/* A refusal's number, and how many bytes the file has. */
struct lockdapple_written {
    uint32_t code;
    uint64_t bytes;
};

/* A refusal's number, and the columns and rows of cells of the grid: the
 * frame's width and height are four times as much. */
struct lockdapple_shape {
    uint32_t code;
    uint32_t columns;
    uint32_t rows;
};

/* The file of a frame's grid, written from the start of `file`; bytes past it
 * are never written. Refuses with 1, 5 and 13. */
struct lockdapple_written lockdapple_grid_write(size_t width, size_t height, const int16_t *rows, size_t rows_len,
                                                const int16_t *cols, size_t cols_len, const uint32_t *sads,
                                                size_t sads_len, uint8_t *file, size_t file_len);

/* A refusal's number, the columns and rows of cells that a header says, and how
 * many bytes the whole file has. */
struct lockdapple_peek {
    uint32_t code;
    uint32_t columns;
    uint32_t rows;
    uint64_t bytes;
};

/* A look at the header of a file that starts with these bytes, four of which
 * are enough, so that buffers can be made ready for it. Refuses with 10, 11
 * where fewer than four come, and 12. */
struct lockdapple_peek lockdapple_grid_peek(const uint8_t *file, size_t file_len);

/* The grid of a file that all of `file` is; cells past the file's are never
 * written. Refuses from the front: the header with 10, 11, 12 and 13, then the
 * cells with 10 and 11: 10 where a wrong byte stands in a mark, 11 where bytes
 * run out or are left over. */
struct lockdapple_shape lockdapple_grid_read(const uint8_t *file, size_t file_len, int16_t *rows, size_t rows_len,
                                             int16_t *cols, size_t cols_len, uint32_t *sads, size_t sads_len);

/* A grid file that comes in fragments of any lengths, empty ones too. However
 * it is cut, the states and the cells are those of one fragment, if each call
 * is lent the same grid:
 *
 *     struct lockdapple_reader reader = lockdapple_reader_new();
 *     while (reader.code == 0 && (length = receive(link, fragment, sizeof fragment)) >= 0)
 *         reader = lockdapple_reader_take(reader, fragment, length, rows, cells,
 *                                         cols, cells, sads, cells);
 *     reader = lockdapple_reader_end(reader);
 *     if (reader.code != 0)
 *         fprintf(stderr, "refused %u after %u cells\n", reader.code, reader.cells);
 *     else
 *         printf("%u by %u cells\n", reader.columns, reader.rows);
 *
 * where receive gives a fragment's length, 0 for an empty one, and a negative
 * number at the file's end. The last state has the shape that a comparison is
 * given: its code, and its columns and rows, which only count where that is 0.
 */

/* The state between two calls: the refusal so far (0 for none), the columns and
 * rows that the header said (0 before it ended), how many whole good cell
 * records were taken in, and how many bytes of the next record, with these
 * bytes; what is not in use holds 0. */
struct lockdapple_reader {
    uint32_t code;
    uint32_t columns;
    uint32_t rows;
    uint32_t cells;
    uint32_t held;
    uint8_t part[16];
    uint32_t spare;
};

/* A reader that has taken in nothing. */
struct lockdapple_reader lockdapple_reader_new(void);

/* The next state, with the cells of the fragment in the grid. Refuses with 10,
 * 12 and 13 as lockdapple_grid_read does, with 13 at a later call too if the
 * grid is too short for what the header said, and with 11 for a byte left over.
 * Cells taken in before a refusal stay, and further calls change nothing. */
struct lockdapple_reader lockdapple_reader_take(struct lockdapple_reader reader, const uint8_t *fragment,
                                                size_t fragment_len, int16_t *rows, size_t rows_len, int16_t *cols,
                                                size_t cols_len, uint32_t *sads, size_t sads_len);

/* The state at the file's end: 11 where bytes are missing, else as it was. */
struct lockdapple_reader lockdapple_reader_end(struct lockdapple_reader reader);

/* Two grids cell by cell. Each comes with the shape that its reading gave back,
 * a refused one too, so both files are read before anything is asked:
 *
 *     struct lockdapple_shape a, b;
 *     struct lockdapple_comparison c;
 *     a = lockdapple_grid_read(a_file, a_size, a_rows, n, a_cols, n, a_sads, n);
 *     b = lockdapple_grid_read(b_file, b_size, b_rows, n, b_cols, n, b_sads, n);
 *     c = lockdapple_grids_compare(a, a_rows, n, a_cols, n, a_sads, n,
 *                                  b, b_rows, n, b_cols, n, b_sads, n, 0);
 *     if (c.code != 0)
 *         printf("refused %u\n", c.code);
 *     else
 *         printf("differ %lu of %u\n", (unsigned long)c.count, a.columns * a.rows);
 */

/* A refusal's number, how many cells differ from a cell on, and the first of
 * them, cells being numbered from 0 row by row; where none differs, the number
 * of cells. */
struct lockdapple_comparison {
    uint32_t code;
    uint64_t count;
    uint64_t first;
};

/* The cells that differ in row, col or SAD, from cell `from` on, counted to the
 * last. Refuses with the first shape's number, then with the second's, then
 * with 14, then with 13. */
struct lockdapple_comparison lockdapple_grids_compare(struct lockdapple_shape first, const int16_t *first_rows,
                                                      size_t first_rows_len, const int16_t *first_cols,
                                                      size_t first_cols_len, const uint32_t *first_sads,
                                                      size_t first_sads_len, struct lockdapple_shape second,
                                                      const int16_t *second_rows, size_t second_rows_len,
                                                      const int16_t *second_cols, size_t second_cols_len,
                                                      const uint32_t *second_sads, size_t second_sads_len, size_t from);

/* A refusal's number, and the first cell that differs from a cell on; where none
 * does, the number of cells. */
struct lockdapple_place {
    uint32_t code;
    uint64_t place;
};

/* The next of these cells by itself: asked from 0 on, and then from each place
 * + 1 on, it goes through all of them and looks at no cell twice. Refuses as
 * lockdapple_grids_compare. */
struct lockdapple_place lockdapple_grids_next(struct lockdapple_shape first, const int16_t *first_rows,
                                              size_t first_rows_len, const int16_t *first_cols, size_t first_cols_len,
                                              const uint32_t *first_sads, size_t first_sads_len,
                                              struct lockdapple_shape second, const int16_t *second_rows,
                                              size_t second_rows_len, const int16_t *second_cols,
                                              size_t second_cols_len, const uint32_t *second_sads,
                                              size_t second_sads_len, size_t from);

#ifdef __cplusplus
}
#endif

#endif
