/* Keeps the grid that a run leaves on a flat frame of 8 by 8 pixels: the file is printed in hex, a record a line, and read
 * back, whole and byte by byte. One refusal of each call goes before. */
#include "lockdapple.h"

#include <stdio.h>
#include <string.h>

/* The quarter, half and full plane of the frame: 2 + 40, 4 + 80 and 8 + 96 samples a side. */
static uint8_t flat[104 * 104];
static const size_t quarter = 42 * 42, half = 84 * 84, full = 104 * 104;

static int wrong;

static void expect(int holds, const char *what) {
    if (holds) return;
    fprintf(stderr, "gridfile: %s\n", what);
    wrong = 1;
}

/* The header ends at byte 4, each cell 10 bytes further on. */
static void print_records(const uint8_t *file, size_t bytes) {
    size_t i;
    for (i = 0; i < bytes; i++) printf("%02X%c", file[i], i % 10 == 3 ? '\n' : ' ');
}

/* The file as a link hands it over, a byte and then nothing in turn; `bytes` of it before the end. */
static struct lockdapple_reader read_slowly(const uint8_t *file, size_t bytes, int16_t *rows, int16_t *cols, uint32_t *sads) {
    struct lockdapple_reader reader = lockdapple_reader_new();
    size_t i;
    for (i = 0; i < bytes; i++) {
        reader = lockdapple_reader_take(reader, file + i, 1, rows, 5, cols, 5, sads, 5);
        reader = lockdapple_reader_take(reader, file, 0, rows, 5, cols, 5, sads, 5);
    }
    return lockdapple_reader_end(reader);
}

int main(void) {
    int16_t rows[4] = {0, 0, 0, 0}, cols[4] = {0, 0, 0, 0};
    uint32_t sads[4] = {0, 0, 0, 0};
    /* a byte and a cell more than the file and the grid have */
    uint8_t file[45];
    int16_t back_rows[5] = {7, 7, 7, 7, 7}, back_cols[5] = {7, 7, 7, 7, 7};
    uint32_t back_sads[5] = {7, 7, 7, 7, 7};
    const uint16_t list = 0;
    struct lockdapple_written written;
    struct lockdapple_shape shape;
    struct lockdapple_reader reader;

    memset(flat, 90, sizeof flat);
    memset(file, 7, sizeof file);
    expect(lockdapple_frame_run(8, 8, flat, full, flat, half, flat, quarter, flat, full, flat, half, flat, quarter, 0, rows,
                                0, cols, 0, sads, 0, &list, 1, rows, 4, cols, 4, sads, 4) == 0,
           "run");

    written = lockdapple_grid_write(8, 8, rows, 4, cols, 4, sads, 4, file, 43);
    expect(written.code == 13 && written.bytes == 0 && file[0] == 7, "writing with a byte too few");
    written = lockdapple_grid_write(8, 8, rows, 4, cols, 4, sads, 4, file, 45);
    expect(written.code == 0 && written.bytes == 44 && file[44] == 7, "writing");

    shape = lockdapple_grid_read(file, 45, back_rows, 5, back_cols, 5, back_sads, 5);
    expect(shape.code == 11 && shape.columns == 0 && shape.rows == 0 && back_rows[0] == 7, "reading with a byte too many");
    shape = lockdapple_grid_read(file, 44, back_rows, 5, back_cols, 5, back_sads, 5);
    expect(shape.code == 0 && shape.columns == 2 && shape.rows == 2, "reading");
    expect(memcmp(back_rows, rows, sizeof rows) == 0 && memcmp(back_cols, cols, sizeof cols) == 0 &&
               memcmp(back_sads, sads, sizeof sads) == 0,
           "the grid that is read");
    expect(back_rows[4] == 7 && back_cols[4] == 7 && back_sads[4] == 7, "a cell past the file's");

    memset(back_rows, 0, sizeof back_rows);
    reader = read_slowly(file, 43, back_rows, back_cols, back_sads);
    expect(reader.code == 11 && reader.cells == 3 && reader.held == 0 && back_rows[2] == rows[2] && back_rows[3] == 0,
           "a byte too few from the link");
    reader = read_slowly(file, 44, back_rows, back_cols, back_sads);
    expect(reader.code == 0 && reader.columns == 2 && reader.rows == 2 && reader.cells == 4, "reading from the link");
    expect(memcmp(back_rows, rows, sizeof rows) == 0, "the grid from the link");

    print_records(file, 44);
    return wrong;
}
