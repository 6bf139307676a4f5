/* The header's functions on links from C: good and refused input of each, and every answer that they give. tests/exports_bytes.c
 * has those on frames, pages and files.
 *
 *   exports          does the calls
 *   exports texts    the text of each number from 0 to 255 */
#include "matlink.h"
#include <stdio.h>
#include <string.h>

static struct matlink now, before;
static struct matlink_counts counts;
static uint16_t rows[2 * MATLINK_ROW_CELLS], record[2 * MATLINK_ROW_CELLS], record_before[2 * MATLINK_ROW_CELLS];
static uint8_t answers[8];

/* What is only read is lent as const. */
static const uint16_t *const supply = rows;

/* What a single event or a ride is lent, in cells. */
static size_t supply_lent = MATLINK_ROW_CELLS, record_lent = 2 * MATLINK_ROW_CELLS;

static void show_counts(void) {
    printf(" sent %u acknowledged %u recorded %u", (unsigned)counts.sent, (unsigned)counts.acknowledged,
           (unsigned)counts.recorded);
    printf(" data %u %u %u %u replies %u %u %u %u", (unsigned)counts.data_put, (unsigned)counts.data_arrived,
           (unsigned)counts.data_lost, (unsigned)counts.data_dropped, (unsigned)counts.reply_put,
           (unsigned)counts.reply_arrived, (unsigned)counts.reply_lost, (unsigned)counts.reply_dropped);
}

/* What is to stay is kept, and afterwards compared byte for byte. */
static void keep(void) {
    before = now;
    memcpy(record_before, record, sizeof record);
}

static void show_link(uint8_t answer) {
    int same = memcmp(&now, &before, sizeof now) == 0 && memcmp(record, record_before, sizeof record) == 0;
    printf("%s\n", same ? ", all as it was" : answer == 0 ? "" : ", CHANGED");
}

static void open_link(const char *what, uint32_t window, uint32_t data_life, uint32_t reply_life, uint32_t reply_wait,
                      uint32_t resend_wait) {
    static struct matlink zeros;
    uint8_t answer;
    memset(&now, 0xAA, sizeof now);
    answer = matlink_open(&now, window, data_life, reply_life, reply_wait, resend_wait);
    printf("open, %s: %u, window %u, resend wait %u%s\n", what, answer, now.window, now.resend_wait,
           memcmp(&now, &zeros, sizeof now) == 0 ? ", zeros" : "");
}

static void step(uint32_t kind, uint32_t argument) {
    uint8_t answer;
    keep();
    memset(&counts, 0xAA, sizeof counts);
    answer = matlink_step(&now, kind, argument, supply, supply_lent, record, record_lent, &counts);
    printf("event %u %u: %u", (unsigned)kind, (unsigned)argument, answer);
    show_counts();
    show_link(answer);
}

static void run(const char *what, const uint8_t *events, size_t events_count, size_t supply_count, size_t answers_count) {
    uint8_t answer;
    keep();
    memset(&counts, 0xAA, sizeof counts);
    memset(answers, 77, sizeof answers);
    answer = matlink_run(&now, events, events_count, supply, supply_count, record, 32, answers, answers_count, &counts);
    printf("run, %s: %u, answers %u %u %u %u %u %u", what, answer, answers[0], answers[1], answers[2], answers[3], answers[4],
           answers[5]);
    show_counts();
    show_link(answer);
}

static void ride(const char *what, uint32_t window, uint32_t data_life, uint32_t resend_wait, const uint8_t *events,
                 size_t events_count) {
    uint8_t answer;
    memset(record, 0, sizeof record);
    memset(&counts, 0xAA, sizeof counts);
    memset(answers, 77, sizeof answers);
    answer = matlink_ride(window, data_life, 1, 1, resend_wait, events, events_count, supply, supply_lent, record, 32, answers, 8,
                          &counts);
    printf("ride, %s: %u, answers %u %u", what, answer, answers[0], answers[4]);
    show_counts();
    printf(", record %u %u %u\n", record[0], record[15], record[16]);
}

static void openings(void) {
    open_link("good", MATLINK_WINDOW_MOST, MATLINK_TIME_MOST, MATLINK_TIME_MOST, MATLINK_TIME_MOST, MATLINK_RESEND_WAIT_MOST);
    open_link("resend wait 1001", 1, 2, 2, 2, MATLINK_RESEND_WAIT_MOST + 1);
    open_link("data life 251", MATLINK_WINDOW_MOST, MATLINK_TIME_MOST + 1, 1, 1, 0);
    open_link("window 0", 0, 2, 2, 2, 0);
    open_link("window 33", MATLINK_WINDOW_MOST + 1, 2, 2, 2, 0);
    open_link("window 65544", 65544, 2, 2, 2, 0);
    open_link("data life 0", 1, 0, 2, 2, 0);
    open_link("reply life 70000", 1, 2, 70000, 2, 0);
    open_link("reply wait 65537", 1, 2, 2, 65537, 0);
    open_link("resend wait 3", 1, 2, 2, 2, 3);
    open_link("resend wait 4", 1, 2, 2, 2, 4);
    open_link("resend wait 65536", 1, 2, 2, 2, 65536);
    step(8, 1);
    open_link("resend wait 0", 1, 2, 2, 2, 0);
    open_link("resend wait 7", 1, 2, 2, 2, 7);
}

static void events(void) {
    step(MATLINK_SEND, 0);
    step(MATLINK_SEND, 0);
    step(MATLINK_ARRIVE_DATA, 0);
    step(MATLINK_REPLY, 0);
    step(MATLINK_ARRIVE_REPLY, 0);
    step(MATLINK_ARRIVE_REPLY, 0);
    step(0, 0);
    step(9, 0);
    step(MATLINK_SEND, 1);
    step(MATLINK_REPLY, 1);
    step(MATLINK_TICK, 0);
    step(MATLINK_TICK, MATLINK_TICK_MOST);
    step(MATLINK_TICK, MATLINK_TICK_MOST + 1);
    step(MATLINK_LOSE_DATA, 0);
    step(MATLINK_LOSE_REPLY, 0);
    step(256, 0);
    step(264, 1);
    step(8, 257);
    step(4294967295u, 0);
    printf("recorded %u %u, behind it %u\n", record[0], record[15], record[16]);
}

/* A mark is on for anything but 0, and a call that is done leaves 0 or 1. */
static void marks(void) {
    open_link("for marks", 4, 2, 2, 2, 7);
    step(1, 0);
    step(1, 0);
    now.mat_mark[1] = 513;
    step(2, 1);
    step(8, 1);
    printf("mark %u\n", now.mat_mark[1]);
    now.pad_mark[0] = 65535;
    now.pad_timer[0] = 1;
    step(4, 0);
    printf("mark %u\n", now.pad_mark[0]);
    now.mat_mark[0] = 2;
    step(8, 1);
    now.mat_mark[0] = 0;
    now.data_count = MATLINK_TABLE_MOST + 1;
    step(8, 1);
}

/* Every message of the air is like the first one: data for row 0, replies for a row recorded before. */
static void fill_air(void) {
    int p;
    for (p = 1; p < MATLINK_TABLE_MOST; p++) memcpy(now.data + p * MATLINK_DATA_NUMBERS, now.data, 2 * MATLINK_DATA_NUMBERS);
    for (p = 0; p < MATLINK_TABLE_MOST; p++) now.reply[p * MATLINK_REPLY_NUMBERS] = 1;
    now.data_count = now.reply_count = MATLINK_TABLE_MOST;
}

/* Where several questions are answered no, the answer is that of the first one in the header's order. */
static void mat_order(void) {
    open_link("for the mat's order", 2, 2, 2, 2, 7);
    supply_lent = 17;
    now.window = 0;
    step(9, 0);
    now.window = 2;
    step(9, 0);
    supply_lent = 16;
    step(9, 0);
    step(MATLINK_SEND, 0);
    step(MATLINK_SEND, 0);
    fill_air();
    supply_lent = 0;
    rows[15] = MATLINK_CELL_MOST + 1;
    step(MATLINK_SEND, 0);
    now.next = 1;
    step(MATLINK_SEND, 0);
    supply_lent = 16;
    step(MATLINK_SEND, 0);
    rows[15] = MATLINK_CELL_TORN - 1;
    step(MATLINK_SEND, 0);
    rows[15] = MATLINK_CELL_MOST;
    step(MATLINK_SEND, 0);
    now.next = 2;
    now.mat_mark[1] = 1;
    step(MATLINK_RESEND, 2);
    step(MATLINK_RESEND, 1);
    now.mat_mark[1] = 0;
    step(MATLINK_RESEND, 1);
    now.mat_timer[1] = 0;
    step(MATLINK_RESEND, 1);
    now.data_count = 1;
    step(MATLINK_RESEND, 1);
    now.reply[1] = now.reply[2] = 2;
    step(MATLINK_ARRIVE_REPLY, MATLINK_TABLE_MOST);
    step(MATLINK_ARRIVE_REPLY, 0);
    step(MATLINK_LOSE_REPLY, 0);
    step(MATLINK_LOSE_DATA, 1);
    step(MATLINK_LOSE_DATA, 1);
}

static void pad_order(void) {
    open_link("for the pad's order", 2, 2, 2, 2, 7);
    step(MATLINK_SEND, 0);
    fill_air();
    record_lent = 15;
    step(MATLINK_REPLY, 0);
    step(MATLINK_ARRIVE_DATA, MATLINK_TABLE_MOST);
    step(MATLINK_ARRIVE_DATA, 31);
    step(MATLINK_REPLY, 0);
    record_lent = 16;
    step(MATLINK_REPLY, 0);
    now.reply_count = 31;
    step(MATLINK_REPLY, 0);
    step(MATLINK_ARRIVE_DATA, 0);
    now.reply_count = 31;
    step(MATLINK_ARRIVE_DATA, 0);
    printf("in the air %u and %u\n", now.data_count, now.reply_count);
    step(MATLINK_TICK, 1); /* the life of all replies but the last one was 1, and that of all other messages 2 */
    step(MATLINK_TICK, 1);
    record_lent = 32;
}

static void runs(void) {
    static const uint8_t list[] = {1, 0, 3, 0, 4, 0, 5, 0, 1, 0};
    memset(record, 0, sizeof record);
    open_link("for runs", 2, 1, 1, 1, 4);
    run("five events", list, 5 * MATLINK_EVENT_BYTES, 32, 8);
    run("odd bytes", list, 9, 32, 8);
    run("half a row", list, 10, 24, 8);
    run("four answers", list, 10, 32, 4);
    run("a refused event", list + 4, 2, 32, 1);
    run("nothing", list, 0, 0, 0);
    run("four answers, half a row", list, 10, 24, 4);
    run("three answers, half a row, odd bytes", list, 9, 24, 3);
    now.window = 0;
    run("not sound", list, 10, 32, 8);
    run("not sound, three answers, half a row, odd bytes", list, 9, 24, 3);
}

static void rides(void) {
    static const uint8_t list[] = {1, 0, 3, 0, 4, 0, 5, 0, 1, 0, 8, 1, 8, 1, 8, 1, 8, 1};
    supply_lent = 32;
    ride("five events", 2, 1, 4, list, 10);
    ride("window 65538", 65538, 1, 4, list, 10);
    ride("data life 65537", 2, 65537, 4, list, 10);
    ride("resend wait 3", 2, 4, 3, list, 10);
    ride("odd bytes", 2, 1, 4, list, 9);
    ride("odd bytes, resend wait 3", 2, 4, 3, list, 9);
    ride("resend wait 3, data life 0", 2, 0, 3, list, 10);
    ride("data life 0, window 0", 0, 0, 4, list, 10);
    ride("nine events", 2, 1, 4, list, 18);
    rows[15] = MATLINK_CELL_TORN;
    ride("a torn cell", 2, 1, 4, list, 10);
    supply_lent = 24;
    ride("nine events, half a row", 2, 1, 4, list, 18);
    ride("nine events, half a row, odd bytes", 2, 1, 4, list, 17);
}

static void texts(void) {
    unsigned n;
    for (n = 0; n < 256; n++) printf("%u %s\n", n, matlink_answer_text((uint8_t)n));
}

int main(int words, char **word) {
    int i;
    if (words > 1 && strcmp(word[1], "texts") == 0) {
        texts();
        return 0;
    }
    for (i = 0; i < 32; i++) rows[i] = (uint16_t)(5 + i / 16);
    printf("a link has %u bytes, counts %u, a frame %u\n", (unsigned)sizeof now, (unsigned)sizeof counts,
           (unsigned)sizeof(struct matlink_frame));
    openings();
    events();
    marks();
    runs();
    rides();
    mat_order();
    pad_order();
    return 0;
}
