/* The calls of a mat and of a pad from C: each done, and refused with each number that it gives. What has to stay is compared byte for
 * byte, and so is what stands behind what was written. A line is printed for each call. */
#include "matlink_devices.h"
#include <stdio.h>
#include <string.h>

static struct matlink_mat mat, mat_before;
static struct matlink_pad pad, pad_before;

/* Buffers have some bytes more than a frame, all 77 before a call. */
static uint8_t frame[40], data[40], reply[40], untouched[40];
static uint16_t rows[3 * MATLINK_ROW_CELLS], record[4 * MATLINK_ROW_CELLS], record_before[4 * MATLINK_ROW_CELLS];
static uint64_t told, told_rows;
static size_t room = sizeof frame, cells = 2 * MATLINK_ROW_CELLS;

/* What is only read is lent as const. */
static const uint16_t *supply = rows;
static const uint8_t *const arriving = data;

static void keep(void) {
    mat_before = mat;
    pad_before = pad;
    memset(frame, 77, sizeof frame);
    memset(reply, 77, sizeof reply);
    memcpy(record_before, record, sizeof record);
    told = told_rows = 99;
}

static int mat_stayed(void) { return memcmp(&mat, &mat_before, sizeof mat) == 0; }

static int pad_stayed(void) { return memcmp(&pad, &pad_before, sizeof pad) == 0; }

static int behind(const uint8_t *buffer, size_t at) { return memcmp(buffer + at, untouched, sizeof untouched - at) == 0; }

/* A call that is refused leaves all as it was, and tells 0. */
static void end(uint8_t answer, int stayed) {
    printf("%s\n", answer == 0 ? "" : stayed ? ", all as it was" : ", CHANGED");
}

static void show_mat(void) {
    unsigned w = mat.window > 4 ? 4 : mat.window, i;
    printf(", oldest %u next %u, marks and timers", mat.oldest, mat.next);
    for (i = 0; i < w; i++) printf(" %u/%u", mat.mark[i], mat.timer[i]);
}

static void show_pad(void) {
    unsigned w = pad.window > 4 ? 4 : pad.window, i;
    printf(", wanted %u, marks and timers", pad.wanted);
    for (i = 0; i < w; i++) printf(" %u/%u", pad.mark[i], pad.mark[i] ? pad.timer[i] : 0);
}

static void show_bytes(const uint8_t *buffer, size_t count) {
    size_t i;
    printf(", bytes");
    for (i = 0; i < count; i++) printf(" %u", buffer[i]);
}

static void open_mat(const char *what, uint32_t w, uint32_t data_life, uint32_t reply_life, uint32_t reply_wait, uint32_t resend_wait) {
    static struct matlink_mat zeros;
    uint8_t answer;
    memset(&mat, 0xAA, sizeof mat);
    answer = matlink_mat_open(&mat, w, data_life, reply_life, reply_wait, resend_wait);
    printf("open a mat, %s: %u, limits %u %u %u %u %u%s", what, answer, mat.window, mat.data_life, mat.reply_life, mat.reply_wait,
           mat.resend_wait, memcmp(&mat, &zeros, sizeof mat) == 0 ? ", zeros" : "");
    memset(&mat, 0, 5 * sizeof mat.window);
    printf("%s\n", memcmp(&mat, &zeros, sizeof mat) == 0 ? "" : ", NOT FRESH");
    matlink_mat_open(&mat, w, data_life, reply_life, reply_wait, resend_wait);
}

static void open_pad(const char *what, uint32_t w, uint32_t data_life, uint32_t reply_life, uint32_t reply_wait, uint32_t resend_wait) {
    static struct matlink_pad zeros;
    uint8_t answer;
    memset(&pad, 0xAA, sizeof pad);
    answer = matlink_pad_open(&pad, w, data_life, reply_life, reply_wait, resend_wait);
    printf("open a pad, %s: %u, limits %u %u %u %u %u%s", what, answer, pad.window, pad.data_life, pad.reply_life, pad.reply_wait,
           pad.resend_wait, memcmp(&pad, &zeros, sizeof pad) == 0 ? ", zeros" : "");
    memset(&pad, 0, 5 * sizeof pad.window);
    printf("%s\n", memcmp(&pad, &zeros, sizeof pad) == 0 ? "" : ", NOT FRESH");
    matlink_pad_open(&pad, w, data_life, reply_life, reply_wait, resend_wait);
}

/* The frame is the one that matlink_write_frame makes of the row that the mat keeps. */
static int right_frame(void) {
    static struct matlink_frame row;
    static uint8_t bytes[MATLINK_DATA_FRAME_BYTES];
    uint64_t count;
    row.kind = MATLINK_DATA_FRAME;
    row.life = mat.data_life;
    row.window = mat.window;
    row.number = frame[3];
    memcpy(row.cell, mat.cell + frame[3] % mat.window * MATLINK_ROW_CELLS, sizeof row.cell);
    return matlink_write_frame(&row, bytes, sizeof bytes, &count) == MATLINK_DONE && memcmp(bytes, frame, sizeof bytes) == 0;
}

static void sent(const char *what, uint8_t answer) {
    int stayed = mat_stayed() && behind(frame, 0) && told == 0;
    printf("%s: %u, written %u", what, answer, (unsigned)told);
    if (answer == 0) {
        show_bytes(frame, 5);
        printf(" .. %u %u%s%s", frame[34], frame[35], behind(frame, 36) ? "" : ", WROTE BEHIND THE FRAME",
               right_frame() ? "" : ", ANOTHER FRAME");
        show_mat();
    }
    end(answer, stayed);
}

static void send_row(const char *what) {
    keep();
    sent(what, matlink_mat_send(&mat, supply, cells, frame, room, &told));
}

static void resend(const char *what, uint32_t k) {
    keep();
    sent(what, matlink_mat_resend(&mat, k, frame, room, &told));
}

static void mat_receive(const char *what, const uint8_t *bytes, size_t count) {
    uint8_t answer;
    keep();
    answer = matlink_mat_receive(&mat, bytes, count, &told);
    printf("the mat receives %s: %u, acknowledged %u", what, answer, (unsigned)told);
    if (answer == 0) show_mat();
    end(answer, mat_stayed() && told == 0);
}

static void mat_tick(uint32_t d) {
    uint8_t answer;
    keep();
    answer = matlink_mat_tick(&mat, d);
    printf("%u ticks at the mat: %u", (unsigned)d, answer);
    if (answer == 0) show_mat();
    end(answer, mat_stayed());
}

static void pad_receive(const char *what, const uint8_t *bytes, size_t count) {
    uint8_t answer;
    keep();
    answer = matlink_pad_receive(&pad, bytes, count, reply, room, &told);
    printf("the pad receives %s: %u, written %u", what, answer, (unsigned)told);
    if (answer == 0) {
        show_pad();
        if (told == 5) show_bytes(reply, 5);
        printf("%s%s", behind(reply, told) ? "" : ", WROTE BEHIND THE FRAME", told == 5 && !pad_stayed() ? ", CHANGED" : "");
    }
    end(answer, pad_stayed() && behind(reply, 0) && told == 0);
}

static void pad_reply(const char *what, size_t record_count) {
    uint8_t answer;
    size_t to = 0;
    keep();
    answer = matlink_pad_reply(&pad, record, record_count, reply, room, &told_rows, &told);
    printf("reply, %s: %u, rows %u, written %u", what, answer, (unsigned)told_rows, (unsigned)told);
    if (answer == 0) {
        to = MATLINK_ROW_CELLS * (size_t)told_rows;
        show_bytes(reply, 5);
        printf(", record %u %u%s", record[0], record[to - 1], behind(reply, 5) ? "" : ", WROTE BEHIND THE FRAME");
        printf("%s", memcmp(record + to, record_before + to, sizeof record - 2 * to) == 0 ? "" : ", WROTE BEHIND THE ROWS");
        show_pad();
    }
    end(answer, pad_stayed() && behind(reply, 0) && told == 0 && told_rows == 0 && memcmp(record, record_before, sizeof record) == 0);
}

static void pad_tick(uint32_t d) {
    uint8_t answer;
    keep();
    answer = matlink_pad_tick(&pad, d);
    printf("%u ticks at the pad: %u", (unsigned)d, answer);
    if (answer == 0) show_pad();
    end(answer, pad_stayed());
}

static void openings(void) {
    open_mat("good", 32, 250, 250, 250, 1000);
    open_mat("window 0", 0, 2, 2, 2, 7);
    open_mat("window 65537", 65537, 2, 2, 2, 7);
    open_mat("window 33, data life 0, resend wait 3", 33, 0, 2, 2, 3);
    open_mat("data life 251, resend wait 1", 2, 251, 2, 2, 1);
    open_mat("reply wait 65538", 2, 2, 2, 65538, 7);
    open_mat("resend wait 3", 2, 2, 2, 2, 3);
    open_mat("resend wait 65536", 2, 2, 2, 2, 65536);
    mat_tick(1);
    open_mat("resend wait 0", 2, 2, 2, 2, 0);
    open_pad("good", 32, 250, 250, 250, 1000);
    open_pad("window 33", 33, 2, 2, 2, 7);
    open_pad("window 0, reply life 0", 0, 2, 0, 2, 7);
    open_pad("reply life 65537, resend wait 1001", 2, 2, 65537, 2, 1001);
    open_pad("resend wait 1001", 2, 2, 2, 2, 1001);
    open_pad("resend wait 65540", 2, 2, 2, 2, 65540);
    pad_tick(1);
    open_pad("resend wait 0", 2, 2, 2, 2, 0);
}

/* Two rows go over, the second one twice before the reply and once after it, and both replies come back. */
static void over(void) {
    static uint8_t first[36], answered[5], single[5];
    open_mat("to send", 2, 3, 2, 2, 7);
    open_pad("to receive", 2, 3, 2, 2, 7);
    send_row("send row 0");
    memcpy(first, frame, sizeof first);
    cells = MATLINK_ROW_CELLS;
    supply = rows + MATLINK_ROW_CELLS;
    send_row("send row 1");
    supply = rows;
    memcpy(data, frame, sizeof data);
    pad_receive("row 1", arriving, 36);
    pad_receive("row 1 again", arriving, 36);
    pad_tick(1);
    pad_receive("row 0", first, 36);
    mat_tick(6);
    resend("row 1, its timer at 1", 1);
    mat_tick(4294967295u);
    resend("row 1", 1);
    record[32] = record[33] = record[63] = 4321;
    pad_reply("two rows", 32);
    memcpy(answered, reply, sizeof answered);
    pad_receive("row 1, an old row", arriving, 36);
    memcpy(single, reply, sizeof single);
    mat_receive("the reply for row 1", single, 5);
    mat_receive("the reply for both rows", answered, 5);
    mat_receive("it again", answered, 5);
    pad_tick(65536);
    pad_reply("no row", 0);
}

/* Where several questions are answered no, the answer is that of the first one in the header's order. */
static void sends_refused(void) {
    open_mat("for a send's order", 2, 2, 2, 2, 7);
    rows[15] = MATLINK_CELL_MOST + 1;
    mat.mark[0] = 1;
    room = 35;
    cells = 15;
    send_row("not sound, part of a row, no room");
    mat.mark[0] = 0;
    mat.next = 2;
    send_row("part of a row, window full, no room");
    cells = 0;
    send_row("window full, no row, no room");
    mat.next = 1;
    send_row("no row, no room");
    cells = 2 * MATLINK_ROW_CELLS;
    send_row("cell 4096, no room");
    rows[15] = MATLINK_CELL_TORN;
    send_row("no room");
    room = 36;
    send_row("a torn cell, just room");
    printf("the torn cell is %u in the mat\n", mat.cell[31]);
    rows[15] = 5;
}

static void resends_refused(void) {
    open_mat("for a resend's order", 2, 2, 2, 2, 7);
    room = 40;
    send_row("row 0");
    send_row("row 1");
    mat.mark[1] = 513;
    room = 0;
    mat.timer[0] = 8;
    resend("not sound, no such row, no room", 2);
    mat.timer[0] = 7;
    resend("no such row, no room", 2);
    resend("row 4294967295, no room", 4294967295u);
    resend("acknowledged, timer running, no room", 1);
    mat.mark[1] = 0;
    resend("timer running, no room", 1);
    mat.timer[1] = 0;
    resend("no room", 1);
    room = 36;
    resend("just room", 1);
    mat.mark[1] = 513;
    mat_tick(1);
    mat_tick(0);
    mat.oldest = 4;
    mat_tick(0);
}

/* The five bytes of a reply, one of them changed. */
static void damaged_reply(const char *what, int at, uint8_t byte) {
    uint8_t bytes[5] = {2, 1, 2, 0, 1};
    bytes[at] = byte;
    mat_receive(what, bytes, 5);
}

static void mat_receives(void) {
    static const uint8_t none[36] = {3, 0, 0};
    open_mat("to be replied to", 2, 2, 2, 2, 7);
    send_row("row 0");
    memcpy(data, frame, sizeof data);
    mat_receive("no bytes", none, 0);
    mat_receive("36 bytes of kind 3", none, 36);
    mat_receive("35 bytes of data", arriving, 35);
    mat_receive("data", arriving, 36);
    data[2] = 3;
    mat_receive("data of another window", arriving, 36);
    data[4] = data[5] = 255;
    data[35] = 16;
    mat_receive("data with a cell 4101", arriving, 36);
    damaged_reply("a reply of window 33", 2, 33);
    damaged_reply("a reply of number 4", 3, 4);
    damaged_reply("a reply of life 251", 1, 251);
    damaged_reply("a reply of three rows", 3, 3);
    damaged_reply("a reply of window 3", 2, 3);
    damaged_reply("a reply for two rows, one outstanding", 4, 1);
    mat.timer[1] = 8;
    damaged_reply("not sound, a reply of kind 0", 0, 0);
    mat.timer[1] = 0;
    damaged_reply("a reply for row 0", 4, 0);
}

static void damaged_data(const char *what, int at, uint8_t byte) {
    uint8_t kept = data[at];
    data[at] = byte;
    pad_receive(what, arriving, 36);
    data[at] = kept;
}

static void pad_receives(void) {
    static const uint8_t reply_frame[5] = {2, 1, 2, 0, 0};
    open_mat("to send", 2, 2, 2, 2, 7);
    open_pad("to receive", 2, 2, 2, 2, 7);
    room = 40;
    cells = MATLINK_ROW_CELLS;
    send_row("row 0");
    memcpy(data, frame, sizeof data);
    room = 4;
    pad_receive("no bytes", arriving, 0);
    damaged_data("kind 0", 0, 0);
    pad_receive("37 bytes of data", arriving, 37);
    pad_receive("a reply", reply_frame, 5);
    damaged_data("window 0", 2, 0);
    damaged_data("number 4", 3, 4);
    damaged_data("life 0", 1, 0);
    damaged_data("a cell 65285", 5, 255);
    damaged_data("window 3", 2, 3);
    damaged_data("row 2, an old one, no room", 3, 2);
    pad.wanted = 4;
    damaged_data("not sound, kind 0", 0, 0);
    pad.wanted = 0;
    room = 5;
    damaged_data("row 2, an old one, just room", 3, 2);
    room = 0;
    pad_receive("row 0, no room, which it does not need", arriving, 36);
}

static void replies_refused(void) {
    room = 4;
    pad.timer[0] = 3;
    pad_reply("not sound, no cells, no room", 0);
    pad.timer[0] = 0;
    pad_reply("timer at 0, no cells, no room", 0);
    pad.timer[0] = 2;
    pad_reply("no cells, no room", 0);
    pad_reply("15 cells, no room", 15);
    pad_reply("no room", 16);
    pad.mark[0] = 65535;
    room = 5;
    pad_reply("just room, a mark of 65535", 16);
    printf("the mark is %u\n", pad.mark[0]);
    pad_tick(0);
    pad.mark[0] = 2;
    pad.cell[0] = MATLINK_CELL_MOST + 1;
    pad_tick(0);
    pad_reply("a cell of a row held is 4096", 16);
}

int main(void) {
    int i;
    for (i = 0; i < 48; i++) rows[i] = (uint16_t)(5 + i / 16);
    memset(untouched, 77, sizeof untouched);
    printf("a mat has %u bytes, a pad %u\n", (unsigned)sizeof mat, (unsigned)sizeof pad);
    openings();
    over();
    sends_refused();
    resends_refused();
    mat_receives();
    pad_receives();
    replies_refused();
    return 0;
}
