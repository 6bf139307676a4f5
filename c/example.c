/* A ride to copy: of two rows one is lost in the air, both are sent again when their timers have run out, one reply covers both,
 * and it arrives. Each step prints a line with its answer. The program ends with 1 at the first answer, frame or record that is
 * not as it must be.
 *
 *    cc -I c/include -o example c/example.c c/matlink_text.c target/staticlib/libexports.a
 */
#include "matlink.h"
#include <stdio.h>
#include <stdlib.h>
#include <string.h>

#define ROWS 2
#define CELLS (ROWS * MATLINK_ROW_CELLS)

static struct matlink ends;                   /* 3668 bytes, so not on the stack */
static uint16_t supply[CELLS], record[CELLS]; /* the rows to send, and the rows that came over */
static struct matlink_counts total;           /* what was counted so far */

static void must(int good, const char *what) {
    printf("%s%s\n", good ? "" : "NOT SO: ", what);
    if (!good) exit(1);
}

static void answered(const char *what, uint8_t answer, uint8_t expected) {
    printf("%s: %u%s%s\n", what, answer, answer == MATLINK_DONE ? "" : ", ",
           answer == MATLINK_DONE ? "" : matlink_answer_text(answer));
    if (answer != expected) must(0, matlink_answer_text(expected));
}

static void add(struct matlink_counts *sum, const struct matlink_counts *more) {
    sum->sent += more->sent;
    sum->acknowledged += more->acknowledged;
    sum->recorded += more->recorded;
    sum->data_put += more->data_put;
    sum->data_arrived += more->data_arrived;
    sum->data_lost += more->data_lost;
    sum->data_dropped += more->data_dropped;
    sum->reply_put += more->reply_put;
    sum->reply_arrived += more->reply_arrived;
    sum->reply_lost += more->reply_lost;
    sum->reply_dropped += more->reply_dropped;
}

/* One event. It is handed the rows that were not sent yet and the part of the record that was not written yet. */
static void event(const char *what, uint32_t kind, uint32_t argument, uint8_t expected) {
    size_t sent = (size_t)total.sent * MATLINK_ROW_CELLS, recorded = (size_t)total.recorded * MATLINK_ROW_CELLS;
    struct matlink_counts counts;
    answered(what, matlink_step(&ends, kind, argument, supply + sent, CELLS - sent, record + recorded, CELLS - recorded, &counts),
             expected);
    add(&total, &counts);
}

/* Message p of a table goes by radio: it is written as a frame from where it stands in the link, read and compared. */
static void radio(uint16_t kind, size_t p) {
    int is_data = kind == MATLINK_DATA_FRAME;
    const uint16_t *message = is_data ? ends.data + p * MATLINK_DATA_NUMBERS : ends.reply + p * MATLINK_REPLY_NUMBERS;
    struct matlink_frame out, in;
    uint8_t bytes[MATLINK_DATA_FRAME_BYTES];
    uint64_t count;
    memset(&out, 0, sizeof out);
    out.kind = kind;
    out.life = message[0];
    out.window = ends.window;
    out.number = message[1];
    if (is_data) memcpy(out.cell, message + 2, sizeof out.cell);
    else out.last = message[2];
    answered("  frame written", matlink_write_frame(&out, bytes, sizeof bytes, &count), MATLINK_DONE);
    answered("  frame read", matlink_read_frame(bytes, (size_t)count, &in), MATLINK_DONE);
    must(memcmp(&out, &in, sizeof out) == 0, "  it is the frame that was written");
}

int main(void) {
    int i;
    for (i = 0; i < CELLS; i++) supply[i] = (uint16_t)(100 + i);
    answered("open", matlink_open(&ends, 8, 2, 2, 2, 7), MATLINK_DONE);
    event("send row 0", MATLINK_SEND, 0, MATLINK_DONE);
    event("send row 1", MATLINK_SEND, 0, MATLINK_DONE);
    event("row 0 is lost", MATLINK_LOSE_DATA, 0, MATLINK_DONE);
    radio(MATLINK_DATA_FRAME, 0);
    event("row 1 arrives", MATLINK_ARRIVE_DATA, 0, MATLINK_DONE);
    event("reply", MATLINK_REPLY, 0, MATLINK_NOTHING_READY); /* row 0 is wanted */
    event("send row 0 again", MATLINK_RESEND, 0, MATLINK_TIMER_RUNNING);
    event("the resend wait passes", MATLINK_TICK, ends.resend_wait, MATLINK_DONE);
    event("send row 0 again", MATLINK_RESEND, 0, MATLINK_DONE);
    event("send row 1 again", MATLINK_RESEND, 1, MATLINK_DONE); /* its reply timer has run out at the pad */
    radio(MATLINK_DATA_FRAME, 1);
    event("row 0 arrives", MATLINK_ARRIVE_DATA, 0, MATLINK_DONE);
    event("row 1 arrives", MATLINK_ARRIVE_DATA, 0, MATLINK_DONE);
    event("reply", MATLINK_REPLY, 0, MATLINK_DONE);
    radio(MATLINK_REPLY_FRAME, 0);
    event("reply arrives", MATLINK_ARRIVE_REPLY, 0, MATLINK_DONE);
    must(total.sent == ROWS && total.recorded == ROWS && total.acknowledged == ROWS, "every row was sent, recorded, acknowledged");
    must(total.data_put == 4 && total.data_arrived == 3 && total.data_lost == 1, "of four data messages one was lost");
    must(memcmp(record, supply, sizeof record) == 0, "the record is the supply");
    return 0;
}
