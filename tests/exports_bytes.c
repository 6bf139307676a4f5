/* The header's functions on frames, pages and files from C: good and refused input of each, and every answer that they give. */
#include "matlink.h"
#include <stdio.h>
#include <string.h>

static struct matlink_frame frame, read_back, kept;
static uint8_t bytes[40], bytes_before[40], page_bytes[61 * MATLINK_LINE_BYTES];
static uint16_t page_cells[61 * MATLINK_ROW_CELLS];
static uint64_t written;

/* What is only read is lent as const. */
static const struct matlink_frame *const lent_frame = &frame;
static const uint8_t *const lent_bytes = bytes;
static const uint16_t *const lent_cells = page_cells;

static void write_bytes(const char *what, size_t buffer_count) {
    uint8_t answer;
    memset(bytes, 77, sizeof bytes);
    memcpy(bytes_before, bytes, sizeof bytes);
    written = 99;
    answer = matlink_write_frame(lent_frame, bytes, buffer_count, &written);
    printf("write, %s: %u, count %u, bytes %u %u %u %u %u %u, last %u, behind %u %u%s\n", what, answer, (unsigned)written, bytes[0],
           bytes[1], bytes[2], bytes[3], bytes[4], bytes[5], bytes[35], bytes[36], bytes[39],
           memcmp(bytes, bytes_before, sizeof bytes) == 0 ? ", all as it was" : "");
}

static void read_bytes(const char *what, size_t count) {
    uint8_t answer;
    memset(&read_back, 0xAA, sizeof read_back);
    kept = read_back;
    answer = matlink_read_frame(lent_bytes, count, &read_back);
    printf("read, %s: %u, kind %u life %u window %u number %u last %u, cells %u %u%s\n", what, answer, read_back.kind, read_back.life,
           read_back.window, read_back.number, read_back.last, read_back.cell[0], read_back.cell[15],
           memcmp(&read_back, &kept, sizeof kept) == 0 ? ", all as it was" : "");
}

static void data_frames(void) {
    int i;
    frame.kind = MATLINK_DATA_FRAME;
    frame.life = MATLINK_TIME_MOST;
    frame.window = MATLINK_WINDOW_MOST;
    frame.number = 2 * MATLINK_WINDOW_MOST - 1;
    frame.last = 9;
    for (i = 0; i < MATLINK_ROW_CELLS; i++) frame.cell[i] = (uint16_t)(MATLINK_CELL_MOST - i);
    write_bytes("data", MATLINK_DATA_FRAME_BYTES);
    read_bytes("data", MATLINK_DATA_FRAME_BYTES);
    read_bytes("35 bytes", 35);
    read_bytes("no byte", 0);
    /* from here on one thing more is wrong each time, and it is asked before the others */
    write_bytes("35 bytes of room", 35);
    frame.cell[15] = MATLINK_CELL_TORN;
    write_bytes("torn", MATLINK_DATA_FRAME_BYTES);
    read_bytes("torn", MATLINK_DATA_FRAME_BYTES);
    frame.cell[15] = MATLINK_CELL_MOST + 1;
    write_bytes("cell 4096", 35);
    frame.life = MATLINK_TIME_MOST + 1;
    write_bytes("life 251", 35);
    frame.number = 64;
    write_bytes("number 64", 35);
    frame.window = 0;
    write_bytes("window 0", 35);
}

static void reply_frames(void) {
    frame.kind = MATLINK_REPLY_FRAME;
    frame.life = 1;
    frame.window = 2;
    frame.number = 3;
    frame.last = 0;
    write_bytes("reply", 40);
    read_bytes("reply", MATLINK_REPLY_FRAME_BYTES);
    write_bytes("4 bytes of room", 4);
    frame.last = 1;
    write_bytes("span of 3", 4);
    frame.life = 257;
    write_bytes("life 257", 4);
    frame.last = 4;
    write_bytes("last 4", 4);
    frame.window = 258;
    write_bytes("window 258", 4);
    frame.kind = 3;
    write_bytes("kind 3", 4);
    frame.kind = 0;
    write_bytes("kind 0", 4);
}

/* The bytes 0 to 4 of a frame, and behind them none that makes a legal cell: one thing less is wrong each time. */
static void read_order(void) {
    static const uint8_t tries[][5] = {{3, 0, 0, 64, 66}, {2, 0, 0, 64, 66}, {2, 0, 32, 64, 66}, {2, 0, 32, 63, 61},
                                       {2, 1, 32, 63, 61}, {2, 1, 32, 63, 30}};
    size_t i;
    memset(bytes, 254, sizeof bytes);
    for (i = 0; i < sizeof tries / sizeof tries[0]; i++) {
        memcpy(bytes, tries[i], 5);
        read_bytes("of 6 bytes", 6);
        read_bytes("reply", MATLINK_REPLY_FRAME_BYTES);
        if (bytes[0] == 2) bytes[0] = 1;
        read_bytes("data", MATLINK_DATA_FRAME_BYTES);
    }
}

static void page(const char *what, size_t cells, uint64_t number, size_t buffer_count) {
    uint8_t answer;
    size_t i, behind = 0;
    memset(page_bytes, '.', sizeof page_bytes);
    written = 99;
    answer = matlink_page(lent_cells, cells, number, page_bytes, buffer_count, &written);
    for (i = (size_t)written; i < sizeof page_bytes; i++) behind += page_bytes[i] == '.';
    printf("page, %s: %u, count %u, as it was behind %u\n", what, answer, (unsigned)written, (unsigned)behind);
    /* the first line and the last one */
    if (answer == MATLINK_DONE) {
        fwrite(page_bytes, 1, MATLINK_LINE_BYTES, stdout);
        fwrite(page_bytes + written - MATLINK_LINE_BYTES, 1, MATLINK_LINE_BYTES, stdout);
    }
}

static void pages(void) {
    const size_t whole = MATLINK_PAGE_ROWS * MATLINK_LINE_BYTES, all = sizeof page_cells / sizeof page_cells[0];
    size_t i;
    for (i = 0; i < all; i++) page_cells[i] = (uint16_t)(i * 273 % (MATLINK_CELL_MOST + 1));
    page("of 60 rows", all, 0, whole);
    page("of 1 row", all, 1, MATLINK_LINE_BYTES);
    page("more room", all, 1, whole);
    page_cells[all - 1] = MATLINK_CELL_TORN;
    page("torn", all, 1, MATLINK_LINE_BYTES);
    /* from here on one thing more is wrong each time, and it is asked before the others */
    page("22 bytes of room", all, 1, MATLINK_LINE_BYTES - 1);
    page_cells[all - 1] = MATLINK_CELL_MOST + 1;
    page("cell 4096", all, 1, MATLINK_LINE_BYTES - 1);
    page("the page before it", all, 0, whole);
    page("page 2", all, 2, 0);
    page("60 times it is 44 modulo 2 to the 64", all, UINT64_MAX / 60 + 1, whole);
    page("no row", 0, 0, whole);
    page("part of a row", all - 1, 2, 0);
}

/* Two saves of leg 3 of horse 258: a row, and no rows. */
static uint8_t entries[2 * MATLINK_FILE_SAVED_BYTES + 1] = {2, 1, 3, 1, 1, 0, 2, 1, 3, 2, 0, 0};
static uint16_t rows[2 * MATLINK_ROW_CELLS] = {0, 255, 256, MATLINK_CELL_MOST, MATLINK_CELL_TORN};
static uint8_t file[56];
static const uint8_t *const lent_file = file, *const lent_entries = entries;
static const uint16_t *const lent_rows = rows;

static void write_file(const char *what, size_t entries_count, size_t rows_count, size_t buffer_count) {
    uint8_t answer;
    size_t i, behind = 0;
    memset(file, 77, sizeof file);
    written = 99;
    answer = matlink_file_write(lent_entries, entries_count, lent_rows, rows_count, file, buffer_count, &written);
    for (i = (size_t)written; i < sizeof file; i++) behind += file[i] == 77;
    printf("file, %s: %u, count %u, as it was behind %u\n", what, answer, (unsigned)written, (unsigned)behind);
}

static void look_up(const char *what, size_t count, uint32_t horse, uint32_t leg) {
    uint64_t start = 99, length = 99;
    uint8_t answer = matlink_file_lookup(lent_file, count, horse, leg, &start, &length);
    printf("look up, %s: %u, start %u, length %u\n", what, answer, (unsigned)start, (unsigned)length);
}

static void print_file(void) {
    size_t i;
    for (i = 0; i < (size_t)written; i++) printf("%u%s", file[i], i % 10 == 0 || i + 1 == written ? "\n" : " ");
}

static void look_up_order(void) {
    look_up("save 2, without rows", 53, 258, 3);
    look_up("leg 4", 53, 258, 4);
    look_up("horse 258 modulo 65,536", 53, 65536 + 258, 3);
    look_up("leg 3 modulo 256", 53, 258, 256 + 3);
    file[21] = 0;
    file[22] = 16;
    look_up("cell 4096", 53, 258, 3);
    file[21] = file[22] = 255;
    look_up("torn", 53, 258, 3);
    /* from here on one thing more is wrong each time, and it is asked before the others */
    look_up("leg 0", 53, 258, 0);
    file[14] = 1;
    look_up("save 1 twice", 53, 258, 0);
    file[17] = 21;
    look_up("start 21", 53, 258, 0);
    look_up("no byte", 0, 258, 0);
}

static void files(void) {
    const size_t both = 2 * MATLINK_FILE_SAVED_BYTES;
    write_file("one entry", MATLINK_FILE_SAVED_BYTES, MATLINK_ROW_CELLS, 43);
    look_up("save 1", 43, 258, 3);
    write_file("two entries", both, MATLINK_ROW_CELLS, 53);
    print_file();
    look_up_order();
    write_file("more room", both, MATLINK_ROW_CELLS, sizeof file);
    write_file("no entry", 0, 0, 1);
    look_up("of no entry", 1, 0, 1);
    write_file("a row more", both, 2 * MATLINK_ROW_CELLS, sizeof file);
    write_file("a cell less", both, MATLINK_ROW_CELLS - 1, sizeof file);
    write_file("13 bytes", both + 1, MATLINK_ROW_CELLS, sizeof file);
    rows[15] = MATLINK_CELL_MOST + 1;
    write_file("cell 4096", both, MATLINK_ROW_CELLS, 53);
    rows[15] = 0;
    entries[9] = 1;
    write_file("save 1 twice", both, MATLINK_ROW_CELLS, 53);
    write_file("52 bytes of room", both, MATLINK_ROW_CELLS, 52);
    entries[8] = MATLINK_FILE_LEG_MOST + 1;
    write_file("leg 7", both, MATLINK_ROW_CELLS, 53);
}

int main(void) {
    data_frames();
    reply_frames();
    read_order();
    pages();
    files();
    return 0;
}
