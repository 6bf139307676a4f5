/* Rows taken from the supply to the record and back to acknowledged, in the five ways that docs/BENCHMARK.md sets beside other
 * links. bench.sh says what it prints.
 *
 *   beside list            the ways: number, name, rows
 *   beside way N BATCH W   takes all rows in way N, so many in a batch, over a link of window W; the work stands in all_rows
 */
#include "matlink_devices.h"
#include <stdio.h>
#include <stdlib.h>
#include <string.h>

#define NOINLINE __attribute__((noinline))
#define ROWS 4096 /* each batch size divides it */
#define LONGEST (4 * ROWS)
#define FRAME 36 /* bytes of the longer kind */

static struct matlink ends;
static struct matlink_mat mat;
static struct matlink_pad pad;
static struct matlink_counts total;
/* Longer than needed: a single event is always lent a row and space for 32. */
static uint16_t supply[(ROWS + 1) * 16], record[(ROWS + 32) * 16];
static uint8_t events[2 * LONGEST], answers[LONGEST];
static size_t event_count;

/* Each message as it stood in the link when it went into the air, and as it was read when it arrived. They are kept here and
 * compared at the end, so that the comparison is not counted. */
static struct matlink_frame went[2 * ROWS], came[2 * ROWS];
static size_t written, taken;

static void check(int good, const char *what) {
    if (!good) {
        fprintf(stderr, "beside: %s\n", what);
        exit(1);
    }
}

static void add(uint8_t kind, size_t times) {
    for (; times > 0; times--) events[2 * event_count++] = kind;
}

static void begin(uint32_t window, size_t batch) {
    size_t row;
    uint32_t i;
    for (i = 0; i < ROWS * 16; i++) supply[i] = (uint16_t)((uint32_t)(i * 2654435761u) >> 20);
    for (row = 0; row < ROWS; row += batch) {
        add(1, batch);
        add(3, batch);
        add(4, 1);
        add(5, 1);
    }
    memset(answers, 255, sizeof answers);
    check(matlink_open(&ends, window, 250, 250, 250, 1000) == 0, "the link was not opened");
    check(matlink_mat_open(&mat, window, 250, 250, 250, 1000) == 0, "the mat was not opened");
    check(matlink_pad_open(&pad, window, 250, 250, 250, 1000) == 0, "the pad was not opened");
}

static inline void count(struct matlink_counts *sum, const struct matlink_counts *rise) {
    sum->sent += rise->sent;
    sum->acknowledged += rise->acknowledged;
    sum->recorded += rise->recorded;
}

static uint8_t one_run(size_t batch) {
    (void)batch;
    return matlink_run(&ends, events, 2 * event_count, supply, ROWS * 16, record, ROWS * 16, answers, event_count, &total);
}

static uint8_t run_a_batch(size_t batch) {
    struct matlink_counts rise;
    size_t row, each = 2 * batch + 2, at = 0;
    uint8_t refused = 0;
    for (row = 0; row < ROWS; row += batch) {
        refused |= matlink_run(&ends, events + 2 * at, 2 * each, supply + 16 * row, 16 * batch, record + 16 * row, 16 * batch,
                               answers + at, each, &rise);
        count(&total, &rise);
        at += each;
    }
    return refused;
}

/* One event with the next row of the supply, and with the part of the record that was not written yet. */
static inline void one_event(struct matlink_counts *sum, size_t at) {
    struct matlink_counts rise;
    answers[at] = matlink_step(&ends, events[2 * at], events[2 * at + 1], supply + 16 * sum->sent, 16,
                               record + 16 * sum->recorded, 32 * 16, &rise);
    count(sum, &rise);
}

static uint8_t single_events(size_t batch) {
    struct matlink_counts sum = {0};
    size_t at;
    (void)batch;
    for (at = 0; at < event_count; at++) one_event(&sum, at);
    total = sum;
    return 0;
}

/* The bytes in the air, oldest first. */
struct wire {
    uint8_t bytes[32][FRAME];
    uint64_t length[32];
    size_t first, last;
};

/* The message that stands last in its table goes out as a frame. */
static uint8_t put(struct wire *wire, uint16_t kind) {
    struct matlink_frame *frame = &went[written++];
    const uint16_t *words = kind == 1 ? ends.data + 18 * (ends.data_count - 1) : ends.reply + 3 * (ends.reply_count - 1);
    size_t place = wire->last++ % 32;
    frame->kind = kind;
    frame->life = words[0];
    frame->window = ends.window;
    frame->number = words[1];
    if (kind == 1) memcpy(frame->cell, words + 2, sizeof frame->cell);
    else frame->last = words[2];
    return matlink_write_frame(frame, wire->bytes[place], FRAME, &wire->length[place]);
}

/* The oldest frame comes in. */
static uint8_t take(struct wire *wire) {
    size_t place = wire->first++ % 32;
    return matlink_read_frame(wire->bytes[place], wire->length[place], &came[taken++]);
}

static uint8_t events_and_frames(size_t batch) {
    static struct wire data, reply;
    struct matlink_counts sum = {0};
    size_t at;
    uint8_t refused = 0;
    (void)batch;
    for (at = 0; at < event_count; at++) {
        uint8_t kind = events[2 * at];
        if (kind == 3) refused |= take(&data);
        if (kind == 5) refused |= take(&reply);
        one_event(&sum, at);
        if (kind == 1) refused |= put(&data, 1);
        if (kind == 4) refused |= put(&reply, 2);
    }
    total = sum;
    return refused;
}

/* Nothing but their frames goes between the two devices. */
static uint8_t two_devices(size_t batch) {
    static uint8_t data[32][MATLINK_DATA_FRAME_BYTES], reply[MATLINK_REPLY_FRAME_BYTES];
    struct matlink_counts sum = {0};
    uint64_t length, rows, acknowledged;
    uint8_t refused = 0;
    size_t row, at;
    for (row = 0; row < ROWS; row += batch) {
        for (at = 0; at < batch; at++)
            refused |= matlink_mat_send(&mat, supply + 16 * (row + at), 16, data[at], sizeof data[at], &length);
        for (at = 0; at < batch; at++)
            refused |= matlink_pad_receive(&pad, data[at], sizeof data[at], reply, sizeof reply, &length);
        refused |= matlink_pad_reply(&pad, record + 16 * sum.recorded, 32 * 16, reply, sizeof reply, &rows, &length);
        refused |= matlink_mat_receive(&mat, reply, sizeof reply, &acknowledged);
        sum.sent += batch;
        sum.recorded += rows;
        sum.acknowledged += acknowledged;
    }
    total = sum;
    return refused;
}

struct way {
    const char *name;
    uint8_t (*rows)(size_t batch);
    int frames, link;
};

static const struct way ways[] = {
    {"one long run", one_run, 0, 1},
    {"one run a batch", run_a_batch, 0, 1},
    {"single events", single_events, 0, 1},
    {"single events, frames written and read", events_and_frames, 1, 1},
    {"a mat and a pad by themselves, frames between them", two_devices, 0, 0},
};

#define WAYS (sizeof ways / sizeof ways[0])

/* Stored after the call, so that the call is no jump and callgrind sees where all_rows ends. */
static uint8_t refused_any;

static NOINLINE void all_rows(uint8_t (*rows)(size_t), size_t batch) {
    refused_any = rows(batch);
}

/* Every row is recorded in its order and acknowledged, nothing is left in the air, and each frame was read as it was written. */
static void finish(const struct way *way, size_t batch) {
    size_t i;
    check(refused_any == 0, "a call was refused");
    for (i = 0; way->link && i < event_count; i++) check(answers[i] == 0, "an event was refused");
    check(total.sent == ROWS && total.recorded == ROWS && total.acknowledged == ROWS, "the counts are not all rows");
    check(memcmp(record, supply, ROWS * 16 * sizeof record[0]) == 0, "the record is not the supply");
    check(ends.data_count == 0 && ends.reply_count == 0 && ends.oldest == ends.next && ends.wanted == ends.next, "a rest is left");
    check(mat.oldest == mat.next && pad.wanted == mat.next, "a rest is left at a device");
    check(written == (way->frames ? ROWS + ROWS / batch : 0) && taken == written, "the frames are not one a message");
    for (i = 0; i < written; i++) check(memcmp(&went[i], &came[i], sizeof went[i]) == 0, "a frame was read otherwise");
}

int main(int words, char **word) {
    size_t n, batch;
    int list = words == 2 && strcmp(word[1], "list") == 0;
    check(list || (words == 5 && strcmp(word[1], "way") == 0), "beside list | way N BATCH W");
    if (list) {
        for (n = 0; n < WAYS; n++) printf("%u\t%s\t%u\n", (unsigned)n, ways[n].name, (unsigned)ROWS);
        return 0;
    }
    n = strtoul(word[2], NULL, 10);
    batch = strtoul(word[3], NULL, 10);
    check(n < WAYS && batch >= 1 && batch <= 32 && ROWS % batch == 0, "no such way or batch");
    begin((uint32_t)strtoul(word[4], NULL, 10), batch);
    all_rows(ways[n].rows, batch);
    finish(&ways[n], batch);
    return 0;
}
