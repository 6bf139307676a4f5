/* The call for one event from C, one call an event, and the stack that calls need. bench.sh says what it prints.
 *
 *   steps list       the rides: number, name, w, events
 *   steps ride N     does ride N; its calls stand in one_step, and the proved part of them in matlink_lent_step
 *   steps time N     million events per second of ride N, the best of some runs
 *   steps stack      bytes of stack that each function of the header takes, and the proved function behind it
 */
#include "../../c/matlink_text.c"
#include "stack.h"
#include <stdio.h>
#include <stdlib.h>
#include <string.h>
#include <time.h>

#define LONGEST 20000

static struct matlink ends;
static struct matlink_counts counts;
static uint16_t row[16], record[32 * 16];
static uint8_t answers[LONGEST];

/* A ride in blocks: so many rows are sent, they arrive, one reply covers them, and it arrives. Or ticks alone, after so many rows
 * were sent, and some of them have arrived. */
struct ride {
    const char *name;
    uint32_t window, block, sent, arrived;
};

static const struct ride rides[] = {
    {"quiet, row by row", 8, 1, 0, 0},
    {"quiet, row by row", 32, 1, 0, 0},
    {"quiet, w rows at a time", 8, 8, 0, 0},
    {"quiet, w rows at a time", 32, 32, 0, 0},
    {"ticks, 32 rows in the air", 32, 0, 32, 0},
    {"ticks, 16 rows in the air and 16 held", 32, 0, 32, 16},
    {"ticks, 32 rows held", 32, 0, 32, 32},
};

#define RIDES (sizeof rides / sizeof rides[0])

static size_t add(uint8_t *events, size_t at, uint8_t kind, uint8_t argument, uint32_t times) {
    for (; times > 0; times--) {
        events[2 * at] = kind;
        events[2 * at + 1] = argument;
        at++;
    }
    return at;
}

/* The list that is measured; how many events it has. Ticks are few, so that nothing leaves the air. */
static size_t list(const struct ride *ride, uint8_t *events) {
    size_t at = 0;
    if (ride->block == 0) return add(events, 0, 8, 1, 200);
    while (at + 2 * ride->block + 2 <= LONGEST) {
        at = add(events, at, 1, 0, ride->block);
        at = add(events, at, 3, 0, ride->block);
        at = add(events, at, 4, 0, 1);
        at = add(events, at, 5, 0, 1);
    }
    return at;
}

static void check(int good, const char *what) {
    if (!good) {
        fprintf(stderr, "steps: %s\n", what);
        exit(1);
    }
}

/* A fresh link, and by a run what comes before the list. */
static void begin(const struct ride *ride) {
    static uint16_t supply[32 * 16];
    uint8_t before[2 * 64];
    size_t count = add(before, add(before, 0, 1, 0, ride->sent), 3, 0, ride->arrived);
    check(matlink_open(&ends, ride->window, 250, 250, 250, 1000) == 0, "the link was not opened");
    check(matlink_run(&ends, before, 2 * count, supply, 32 * 16, record, 32 * 16, answers, count, &counts) == 0, "no start");
    while (count > 0) check(answers[--count] == 0, "an event before the list was refused");
}

static NOINLINE uint8_t one_step(uint32_t kind, uint32_t argument) {
    return matlink_step(&ends, kind, argument, row, 16, record, 32 * 16, &counts);
}

static void walk(const uint8_t *events, size_t count) {
    size_t i;
    uint8_t refused = 0;
    for (i = 0; i < count; i++) refused |= one_step(events[2 * i], events[2 * i + 1]);
    check(refused == 0, "an event was refused");
}

static double rate(const struct ride *ride, const uint8_t *events, size_t count) {
    double best = 0;
    int i;
    for (i = 0; i < 30; i++) {
        struct timespec start, end;
        double seconds;
        begin(ride);
        clock_gettime(CLOCK_MONOTONIC, &start);
        walk(events, count);
        clock_gettime(CLOCK_MONOTONIC, &end);
        seconds = (double)(end.tv_sec - start.tv_sec) + 1e-9 * (double)(end.tv_nsec - start.tv_nsec);
        if ((double)count / seconds > best) best = (double)count / seconds;
    }
    return best / 1e6;
}

/* Below is the stack. A list in which an event of every kind is done. */
static const uint8_t every[] = {1, 0, 1, 0, 1, 0, 3, 1, 6, 1, 8, 1, 3, 0, 4, 0, 7, 0, 8, 250, 8, 250, 8, 250, 8, 250, 2, 0, 3, 0, 5, 0};

static uint16_t supply[16 * 16], head[10], frame_head[5], cells[16];
static size_t numbers[3];
static struct matlink_frame frame;
static uint8_t bytes[MATLINK_DATA_FRAME_BYTES];
static const char *volatile text;

#define ARRAYS ends.mat_mark, ends.mat_timer, ends.mat_cell, ends.pad_mark, ends.pad_timer, ends.pad_cell, ends.data, ends.reply

static NOINLINE void lent_open(int measured) {
    CALL(matlink_lent_open);
    answers[0] = call(head, ARRAYS, 8, 250, 250, 250, 1000);
}

static NOINLINE void whole_open(int measured) {
    CALL(matlink_open);
    answers[0] = call(&ends, 8, 250, 250, 250, 1000);
}

static NOINLINE void lent_step(int measured) {
    CALL(matlink_lent_step);
    size_t i;
    for (i = 0; i < sizeof every; i += 2)
        answers[i / 2] = call(head, ARRAYS, every[i], every[i + 1], row, 16, record, 32 * 16, numbers);
}

static NOINLINE void whole_step(int measured) {
    CALL(matlink_step);
    size_t i;
    for (i = 0; i < sizeof every; i += 2) answers[i / 2] = call(&ends, every[i], every[i + 1], row, 16, record, 32 * 16, &counts);
}

static NOINLINE void lent_run(int measured) {
    CALL(matlink_lent_run);
    call(head, ARRAYS, every, sizeof every, supply, 16 * 16, record, 32 * 16, answers, sizeof answers, numbers);
}

static NOINLINE void whole_run(int measured) {
    CALL(matlink_run);
    call(&ends, every, sizeof every, supply, 16 * 16, record, 32 * 16, answers, sizeof answers, &counts);
}

static NOINLINE void lent_ride(int measured) {
    CALL(matlink_lent_ride);
    call(8, 250, 250, 250, 1000, every, sizeof every, supply, 16 * 16, record, 32 * 16, answers, sizeof answers, numbers);
}

static NOINLINE void whole_ride(int measured) {
    CALL(matlink_ride);
    call(8, 250, 250, 250, 1000, every, sizeof every, supply, 16 * 16, record, 32 * 16, answers, sizeof answers, &counts);
}

/* A data frame and a reply frame. */
static const uint8_t data_bytes[MATLINK_DATA_FRAME_BYTES] = {1, 250, 32, 63}, reply_bytes[MATLINK_REPLY_FRAME_BYTES] = {2, 1, 2, 3, 0};

static NOINLINE void lent_read_frame(int measured) {
    CALL(matlink_lent_read_frame);
    answers[0] = call(data_bytes, sizeof data_bytes, frame_head, cells);
    answers[1] = call(reply_bytes, sizeof reply_bytes, frame_head, cells);
}

static NOINLINE void whole_read_frame(int measured) {
    CALL(matlink_read_frame);
    answers[0] = call(data_bytes, sizeof data_bytes, &frame);
    answers[1] = call(reply_bytes, sizeof reply_bytes, &frame);
}

static NOINLINE void lent_write_frame(int measured) {
    static const uint16_t data[5] = {1, 250, 32, 63, 0}, reply[5] = {2, 1, 2, 3, 0};
    CALL(matlink_lent_write_frame);
    answers[0] = call(data, cells, bytes, sizeof bytes, numbers);
    answers[1] = call(reply, cells, bytes, sizeof bytes, numbers);
}

static NOINLINE void whole_write_frame(int measured) {
    static const struct matlink_frame data = {1, 250, 32, 63, 0, {0}}, reply = {2, 1, 2, 3, 0, {0}};
    uint64_t count;
    CALL(matlink_write_frame);
    answers[0] = call(&data, bytes, sizeof bytes, &count);
    answers[1] = call(&reply, bytes, sizeof bytes, &count);
}

/* A page of 60 rows. */
static NOINLINE void page(int measured) {
    static uint16_t rows[MATLINK_PAGE_ROWS * MATLINK_ROW_CELLS];
    static uint8_t lines[MATLINK_PAGE_ROWS * MATLINK_LINE_BYTES];
    uint64_t count;
    CALL(matlink_page);
    answers[0] = call(rows, sizeof rows / sizeof rows[0], 0, lines, sizeof lines, &count);
}

/* A file of two entries, of one row and of none. */
static uint8_t file[21 + 32];

static NOINLINE void file_write(int measured) {
    static const uint8_t entries[12] = {1, 0, 1, 1, 1, 0, 1, 0, 1, 2, 0, 0};
    uint64_t count;
    CALL(matlink_file_write);
    answers[0] = call(entries, sizeof entries, cells, MATLINK_ROW_CELLS, file, sizeof file, &count);
}

/* Of the file that file_write left. */
static NOINLINE void file_lookup(int measured) {
    uint64_t start, length;
    CALL(matlink_file_lookup);
    answers[0] = call(file, sizeof file, 1, 1, &start, &length);
}

static NOINLINE void answer_text(int measured) {
    CALL(matlink_answer_text);
    text = call(255);
}

/* A function measured, and how many answers the call of it leaves. */
struct measure {
    const char *name;
    void (*call)(int);
    size_t answers;
};

#define EVENTS (sizeof every / 2)

static const struct measure measures[] = {
    {"matlink_open", whole_open, 1},
    {"matlink_lent_open", lent_open, 1},
    {"matlink_step", whole_step, EVENTS},
    {"matlink_lent_step", lent_step, EVENTS},
    {"matlink_run", whole_run, EVENTS},
    {"matlink_lent_run", lent_run, EVENTS},
    {"matlink_ride", whole_ride, EVENTS},
    {"matlink_lent_ride", lent_ride, EVENTS},
    {"matlink_read_frame", whole_read_frame, 2},
    {"matlink_lent_read_frame", lent_read_frame, 2},
    {"matlink_write_frame", whole_write_frame, 2},
    {"matlink_lent_write_frame", lent_write_frame, 2},
    {"matlink_page", page, 1},
    {"matlink_file_write", file_write, 1},
    {"matlink_file_lookup", file_lookup, 1},
    {"matlink_answer_text", answer_text, 0},
};

static void fresh(void) {
    check(matlink_open(&ends, 8, 250, 250, 250, 1000) == 0, "the link was not opened");
    matlink_numbers(&ends, head);
    memset(answers, 255, sizeof answers);
}

static size_t used(const struct measure *measure) {
    size_t size = stack_of(measure->call, fresh), at;
    for (at = 0; at < measure->answers; at++) check(answers[at] == 0, "a call or an event was refused");
    return size;
}

static void stack(void) {
    size_t i;
    for (i = 0; i < sizeof measures / sizeof measures[0]; i++) printf("%s\t%u\n", measures[i].name, (unsigned)used(&measures[i]));
}

int main(int words, char **word) {
    static uint8_t events[2 * LONGEST];
    size_t n = words > 2 ? strtoul(word[2], NULL, 10) : 0, count;
    check(words > 1 && n < RIDES, "steps list | ride N | time N | stack");
    if (strcmp(word[1], "list") == 0) {
        for (n = 0; n < RIDES; n++)
            printf("%u\t%s\t%u\t%u\n", (unsigned)n, rides[n].name, (unsigned)rides[n].window, (unsigned)list(&rides[n], events));
    } else if (strcmp(word[1], "stack") == 0) {
        stack();
    } else {
        count = list(&rides[n], events);
        begin(&rides[n]);
        if (strcmp(word[1], "ride") == 0) walk(events, count);
        else printf("%.2f\n", rate(&rides[n], events, count));
    }
    return 0;
}
