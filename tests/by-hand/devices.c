/* What the calls of a mat and of a pad by themselves take: stack, and the size of the structs. bench.sh says what it prints.
 *
 *   devices stack    bytes of stack that each function of matlink_devices.h takes, and the proved function behind it
 *   devices size     bytes of a mat and of a pad */
#include "matlink_devices.h"
#include "stack.h"
#include <stdio.h>
#include <stdlib.h>
#include <string.h>

static struct matlink_mat mat;
static struct matlink_pad pad;
static uint16_t mat_limits[5], mat_numbers[2], pad_limits[5], pad_numbers[1];
static uint16_t row[MATLINK_ROW_CELLS], record[32 * MATLINK_ROW_CELLS];
/* Of a mat that sent a row with its whole life, and of a pad that replies to it. */
static uint8_t data[MATLINK_DATA_FRAME_BYTES], reply[MATLINK_REPLY_FRAME_BYTES];
static uint8_t answer;
static uint64_t count, rows;
static size_t lent_count, lent_rows;

static void check(int good, const char *what) {
    if (!good) {
        fprintf(stderr, "devices: %s\n", what);
        exit(1);
    }
}

/* A mat with a row sent and due again, and a pad that holds it. */
static void fresh(void) {
    uint64_t n;
    check(matlink_mat_open(&mat, 8, 1, 1, 1, 1) == 0 && matlink_pad_open(&pad, 8, 1, 1, 1, 1) == 0, "no fresh devices");
    check(matlink_mat_send(&mat, row, MATLINK_ROW_CELLS, data, sizeof data, &n) == 0, "no row was sent");
    check(matlink_mat_tick(&mat, 1) == 0, "no tick passed");
    check(matlink_pad_receive(&pad, data, sizeof data, reply, sizeof reply, &n) == 0, "no row arrived");
    matlink_mat_numbers(&mat, mat_limits, mat_numbers);
    matlink_pad_numbers(&pad, pad_limits, pad_numbers);
    reply[0] = 2;
    reply[1] = 1;
    reply[2] = 8;
    reply[3] = reply[4] = 0;
    answer = 255;
}

#define MAT mat_limits, mat_numbers, mat.mark, mat.timer, mat.cell
#define PAD pad_limits, pad_numbers, pad.mark, pad.timer, pad.cell

/* A function that calls `name` with these arguments. */
#define MEASURE(caller, name, ...) \
    static NOINLINE void caller(int measured) { \
        CALL(name); \
        answer = call(__VA_ARGS__); \
    }

MEASURE(mat_open, matlink_mat_open, &mat, 8, 1, 1, 1, 1)
MEASURE(lent_mat_open, matlink_lent_mat_open, MAT, 8, 1, 1, 1, 1)
MEASURE(mat_send, matlink_mat_send, &mat, row, MATLINK_ROW_CELLS, data, sizeof data, &count)
MEASURE(lent_mat_send, matlink_lent_mat_send, MAT, row, MATLINK_ROW_CELLS, data, sizeof data, &lent_count)
MEASURE(mat_resend, matlink_mat_resend, &mat, 0, data, sizeof data, &count)
MEASURE(lent_mat_resend, matlink_lent_mat_resend, MAT, 0, data, sizeof data, &lent_count)
MEASURE(mat_receive, matlink_mat_receive, &mat, reply, sizeof reply, &count)
MEASURE(lent_mat_receive, matlink_lent_mat_receive, MAT, reply, sizeof reply, &lent_count)
MEASURE(mat_tick, matlink_mat_tick, &mat, 1)
MEASURE(lent_mat_tick, matlink_lent_mat_tick, MAT, 1)
MEASURE(pad_open, matlink_pad_open, &pad, 8, 1, 1, 1, 1)
MEASURE(lent_pad_open, matlink_lent_pad_open, PAD, 8, 1, 1, 1, 1)
MEASURE(pad_reply, matlink_pad_reply, &pad, record, 32 * MATLINK_ROW_CELLS, reply, sizeof reply, &rows, &count)
MEASURE(lent_pad_reply, matlink_lent_pad_reply, PAD, record, 32 * MATLINK_ROW_CELLS, reply, sizeof reply, &lent_rows, &lent_count)
MEASURE(pad_tick, matlink_pad_tick, &pad, 1)
MEASURE(lent_pad_tick, matlink_lent_pad_tick, PAD, 1)

/* A row of the window, and one that is old: it has the number in front of wanted. */
static uint8_t old_data[MATLINK_DATA_FRAME_BYTES] = {1, 1, 8, 15};

static NOINLINE void pad_receive(int measured) {
    CALL(matlink_pad_receive);
    answer = call(&pad, data, sizeof data, reply, sizeof reply, &count);
    answer |= call(&pad, old_data, sizeof old_data, reply, sizeof reply, &count);
}

static NOINLINE void lent_pad_receive(int measured) {
    CALL(matlink_lent_pad_receive);
    answer = call(PAD, data, sizeof data, reply, sizeof reply, &lent_count);
    answer |= call(PAD, old_data, sizeof old_data, reply, sizeof reply, &lent_count);
}

static const struct {
    const char *name;
    void (*call)(int);
} measures[] = {
    {"matlink_mat_open", mat_open}, {"matlink_lent_mat_open", lent_mat_open},
    {"matlink_mat_send", mat_send}, {"matlink_lent_mat_send", lent_mat_send},
    {"matlink_mat_resend", mat_resend}, {"matlink_lent_mat_resend", lent_mat_resend},
    {"matlink_mat_receive", mat_receive}, {"matlink_lent_mat_receive", lent_mat_receive},
    {"matlink_mat_tick", mat_tick}, {"matlink_lent_mat_tick", lent_mat_tick},
    {"matlink_pad_open", pad_open}, {"matlink_lent_pad_open", lent_pad_open},
    {"matlink_pad_receive", pad_receive}, {"matlink_lent_pad_receive", lent_pad_receive},
    {"matlink_pad_reply", pad_reply}, {"matlink_lent_pad_reply", lent_pad_reply},
    {"matlink_pad_tick", pad_tick}, {"matlink_lent_pad_tick", lent_pad_tick},
};

static void stack(void) {
    size_t i, size;
    for (i = 0; i < sizeof measures / sizeof measures[0]; i++) {
        size = stack_of(measures[i].call, fresh);
        check(answer == 0, measures[i].name);
        printf("%s\t%u\n", measures[i].name, (unsigned)size);
    }
}

int main(int words, char **word) {
    int sizes = words == 2 && strcmp(word[1], "size") == 0;
    check(sizes || (words == 2 && strcmp(word[1], "stack") == 0), "devices stack | size");
    if (sizes) printf("%u\t%u\n", (unsigned)sizeof mat, (unsigned)sizeof pad);
    else stack();
    return 0;
}
