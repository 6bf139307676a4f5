/* A mat and a pad as two devices, with nothing but frames between them. Each is a process of its own, and this process is the air:
 * it takes the frames that they write, loses some, delays the others so that they overtake one another, drops those that come to
 * the end of their life, and hands the rest over. Between them it hands over noise, bytes that a device must refuse. When every row
 * is acknowledged and no frame is left, the mat hands in its supply and the pad its record, and the two are compared.
 *
 *    cc -D_POSIX_C_SOURCE=200809L -I c/include -o devices c/devices.c c/matlink_text.c target/staticlib/libexports.a
 *    ./devices [SEED [ROWS [WINDOW]]]
 *
 * A device has two lines to the air, each a pair of datagram sockets. Its radio carries frames and noise, and nothing else. Its wire
 * is for the interrupts: the air says that bytes have come by radio, or that a tick has passed, and the device says that a frame
 * of its own is on the radio, or that it has done its work. The air waits for that, so one process works at a time, and what happens
 * depends on the three numbers alone. The program ends with 1 at the first thing that is not as it must be, and says which. */
#include "matlink_devices.h"
#include <errno.h>
#include <signal.h>
#include <stdio.h>
#include <stdlib.h>
#include <string.h>
#include <sys/socket.h>
#include <sys/time.h>
#include <sys/wait.h>
#include <unistd.h>

enum { DATA_LIFE = 5, REPLY_LIFE = 4, REPLY_WAIT = 3, RESEND_WAIT = DATA_LIFE + REPLY_LIFE + REPLY_WAIT - 2 }; /* the shortest */
enum { ROWS_MOST = 10000, AIR_MOST = 256, RADIO_MOST = 64 }; /* rows, frames in the air, bytes that a radio takes at once */
enum { QUIET_TICKS_MOST = 2000, SECONDS_MOST = 20 };         /* ticks without an acknowledgment; how long a process waits */
#define LIMITS window, DATA_LIFE, REPLY_LIFE, REPLY_WAIT, RESEND_WAIT
#define CELLS MATLINK_ROW_CELLS

enum end { MAT, PAD, AIR }; /* MAT also stands for data frames, which the mat writes, and PAD for reply frames */
enum call { OPEN, SEND, RESEND, RECEIVE, REPLY, TICK, CALLS };
enum event { BYTES, TICKED, OVER };                       /* what the air says to a device */
struct told { uint32_t frame, answer, rows; };            /* what it says: is a frame on the radio, or what did its receive answer */
struct report { uint32_t answers[CALLS][256], changed; }; /* its answers, and how many refused calls changed it */

static const char *const names[] = {"mat", "pad", "air"};
static const size_t frame_bytes[] = {MATLINK_DATA_FRAME_BYTES, MATLINK_REPLY_FRAME_BYTES};
static size_t rows = 1000;
static uint32_t window = 8;

/* All three processes */

static enum end me = AIR;
static int radio[2], wire[2]; /* the lines: the air has those of both ends, a device its own */
static pid_t child[2];        /* the devices, where this is the air */

static void stop(void) {
    int d;
    for (d = MAT; d <= PAD; d++)
        if (child[d] > 0 && kill(child[d], SIGKILL) == 0) waitpid(child[d], NULL, 0);
    exit(1);
}

static void fail(const char *what) {
    fprintf(stderr, "%s: %s: %s\n", names[me], what, errno == EAGAIN ? "the other end does nothing" : strerror(errno));
    stop();
}

static void put(int line, const void *bytes, size_t count) {
    while (send(line, bytes, count, MSG_NOSIGNAL) < 0)
        if (errno != EINTR) fail("send");
}

static size_t get(int line, void *bytes, size_t most) {
    ssize_t count;
    while ((count = recv(line, bytes, most, 0)) < 0)
        if (errno != EINTR) fail("recv");
    return (size_t)count;
}

/* A device */

static union { struct matlink_mat mat; struct matlink_pad pad; } device, before; /* as it is, and as its last call left it */
static struct report report;
static uint16_t cells[ROWS_MOST * CELLS]; /* the mat's supply, or the pad's record */
static size_t sent, done;                 /* the rows that the mat sent; those acknowledged, or recorded by the pad */

static void tell(uint32_t frame, uint8_t answer) {
    struct told told = {frame, answer, (uint32_t)done};
    put(wire[me], &told, sizeof told);
}

static void transmit(const uint8_t *frame, uint64_t count) {
    tell(1, MATLINK_DONE);
    put(radio[me], frame, (size_t)count);
}

/* The answer is counted. A refused call must have left the device as the call before left it. */
static uint8_t counted(enum call call, uint8_t answer) {
    report.answers[call][answer]++;
    if (answer != MATLINK_DONE && memcmp(&device, &before, sizeof device) != 0) report.changed++;
    memcpy(&before, &device, sizeof device);
    return answer;
}

/* A tick has passed. Each row whose timer has run out is sent again, and then new ones while the window has room. */
static void mat_timer(void) {
    uint8_t frame[MATLINK_DATA_FRAME_BYTES], answer = MATLINK_DONE;
    uint64_t written;
    uint32_t k;
    counted(TICK, matlink_mat_tick(&device.mat, 1));
    for (k = 0; k < window && answer != MATLINK_NOT_OUTSTANDING; k++) {
        answer = counted(RESEND, matlink_mat_resend(&device.mat, k, frame, sizeof frame, &written));
        if (answer == MATLINK_DONE) transmit(frame, written);
    }
    while (counted(SEND, matlink_mat_send(&device.mat, cells + sent * CELLS, (rows - sent) * CELLS, frame, sizeof frame, &written)) ==
           MATLINK_DONE) {
        sent++;
        transmit(frame, written);
    }
}

static uint8_t mat_radio(const uint8_t *bytes, size_t count) {
    uint64_t acknowledged;
    uint8_t answer = counted(RECEIVE, matlink_mat_receive(&device.mat, bytes, count, &acknowledged));
    done += (size_t)acknowledged;
    return answer;
}

/* A tick has passed. The rows that are ready go into the record, and a reply for them goes out. */
static void pad_timer(void) {
    uint8_t reply[MATLINK_REPLY_FRAME_BYTES], answer;
    uint64_t recorded, written;
    counted(TICK, matlink_pad_tick(&device.pad, 1));
    answer = counted(REPLY, matlink_pad_reply(&device.pad, cells + done * CELLS, (rows - done) * CELLS, reply, sizeof reply, &recorded,
                                              &written));
    done += (size_t)recorded;
    if (answer == MATLINK_DONE) transmit(reply, written);
}

static uint8_t pad_radio(const uint8_t *bytes, size_t count) {
    uint8_t reply[MATLINK_REPLY_FRAME_BYTES];
    uint64_t written;
    uint8_t answer = counted(RECEIVE, matlink_pad_receive(&device.pad, bytes, count, reply, sizeof reply, &written));
    if (written > 0) transmit(reply, written); /* the row is an old one and gets a reply of its own */
    return answer;
}

/* A device works until the air says that all is over. Then it hands in its report and its rows. */
static void run(void) {
    uint8_t event, answer, bytes[RADIO_MOST];
    size_t i, count;
    for (i = 0; i < rows * CELLS; i++)
        cells[i] = (uint16_t)(me == PAD ? MATLINK_CELL_TORN - 1 : i % 97 == 5 ? MATLINK_CELL_TORN : (i * 73 + i / CELLS) % 4096);
    counted(OPEN, me == MAT ? matlink_mat_open(&device.mat, LIMITS) : matlink_pad_open(&device.pad, LIMITS));
    for (get(wire[me], &event, 1); event != OVER; get(wire[me], &event, 1)) {
        answer = MATLINK_DONE;
        if (event == BYTES) {
            count = get(radio[me], bytes, sizeof bytes);
            answer = me == MAT ? mat_radio(bytes, count) : pad_radio(bytes, count);
        } else if (me == MAT) mat_timer();
        else pad_timer();
        tell(0, answer);
    }
    put(wire[me], &report, sizeof report);
    for (i = 0; i < rows; i++) put(wire[me], cells + i * CELLS, CELLS * sizeof cells[0]);
}

/* The air */

struct frame { uint8_t bytes[MATLINK_DATA_FRAME_BYTES]; enum end from; unsigned life, delay, number; }; /* life and delay left */
static struct frame air[AIR_MOST];
static size_t in_air;
static struct { unsigned sent, lost, dropped, arrived, delayed, reordered, latest, noise; } count_of[2];
static uint8_t last[2][MATLINK_DATA_FRAME_BYTES]; /* the last frame that each end sent */
static uint32_t done_by[2];                       /* rows acknowledged, rows recorded */
static uint64_t random_state;

static void must(int good, const char *what) {
    printf("%s%s\n", good ? "" : "NOT SO: ", what);
    if (!good) stop();
}

/* A number from 0 to n - 1 */
static unsigned chance(unsigned n) {
    random_state = random_state * 6364136223846793005u + 1442695040888963407u;
    return (unsigned)(random_state >> 33) % n;
}

/* A frame goes into the air, and its byte 1 says for how many ticks. One in ten is lost, and one in sixteen of the others is held up
 * until its life is over; the rest arrive within their life. */
static void into_air(enum end from, const uint8_t *bytes) {
    struct frame frame = {.from = from, .life = bytes[1], .number = ++count_of[from].sent};
    memcpy(frame.bytes, bytes, frame_bytes[from]);
    memcpy(last[from], bytes, frame_bytes[from]);
    if (chance(10) == 0) count_of[from].lost++;
    else if (in_air == AIR_MOST || frame.life == 0) must(0, "frames in the air are few, and have a life");
    else {
        frame.delay = chance(16) == 0 ? frame.life + chance(3 * frame.life) : chance(frame.life);
        air[in_air++] = frame;
    }
}

static struct frame taken_out(size_t i) {
    struct frame frame = air[i];
    memmove(air + i, air + i + 1, (--in_air - i) * sizeof frame);
    return frame;
}

/* A device is told what has happened, writes frames, and gives the answer of its receive. */
static uint8_t turn(enum end d, uint8_t event) {
    struct told told;
    uint8_t bytes[RADIO_MOST];
    put(wire[d], &event, 1);
    while (get(wire[d], &told, sizeof told), told.frame) {
        if (get(radio[d], bytes, sizeof bytes) != frame_bytes[d]) must(0, "a frame has the length of its kind");
        into_air(d, bytes);
    }
    done_by[d] = told.rows;
    return (uint8_t)told.answer;
}

/* Bytes arrive at a device, which must answer with this number. */
static void arrive(enum end d, const uint8_t *bytes, size_t count, uint8_t number) {
    uint8_t answer;
    put(radio[d], bytes, count);
    answer = turn(d, BYTES);
    if (answer == number) return;
    printf("NOT SO: the %s answers %u, and not %u, %s\n", names[d], number, answer, matlink_answer_text(answer));
    stop();
}

/* Any frame whose delay is over arrives. Gives 0 where there is none. */
static int arrives(void) {
    struct frame frame;
    size_t i, due = in_air;
    unsigned n = 0;
    for (i = 0; i < in_air; i++)
        if (air[i].delay == 0 && chance(++n) == 0) due = i;
    if (due == in_air) return 0;
    frame = taken_out(due);
    count_of[frame.from].arrived++;
    count_of[frame.from].delayed += frame.life < frame.bytes[1];
    if (frame.number < count_of[frame.from].latest) count_of[frame.from].reordered++;
    else count_of[frame.from].latest = frame.number;
    arrive(frame.from == MAT ? PAD : MAT, frame.bytes, frame_bytes[frame.from], MATLINK_DONE);
    return 1;
}

/* A good frame becomes bytes that the other end must refuse. Gives the number with which it must. */
static uint8_t damage(enum end from, uint8_t *bytes, size_t *count) {
    switch (chance(9)) {
    case 0: *count = 0; return MATLINK_UNKNOWN_FRAME;
    case 1: bytes[0] = (uint8_t)(3 + chance(254)); return MATLINK_UNKNOWN_FRAME; /* 256 becomes 0, here and below */
    case 2: *count = chance(2) ? *count + 1 : 1 + chance((unsigned)*count - 1); return MATLINK_BAD_FRAME_LENGTH;
    case 3: bytes[2] = (uint8_t)(33 + chance(224)); return MATLINK_BAD_FRAME_WINDOW;
    case 4: bytes[3] = (uint8_t)(2 * window + chance(256 - 2 * window)); return MATLINK_BAD_FRAME_NUMBER;
    case 5: bytes[1] = (uint8_t)(251 + chance(6)); return MATLINK_BAD_FRAME_LIFE;
    case 6: memcpy(bytes, last[1 - from], *count = frame_bytes[1 - from]); return MATLINK_UNKNOWN_FRAME; /* its own last frame */
    case 7: /* the w of another link */
        bytes[2] = (uint8_t)(1 + (window + chance(31)) % 32);
        memset(bytes + 3, 0, *count - 3);
        return MATLINK_BAD_FRAME_WINDOW;
    default:
        if (from == MAT) bytes[5 + 2 * chance(CELLS)] = (uint8_t)(16 + chance(239));
        else bytes[4] = (uint8_t)((bytes[3] + window + chance(window)) % (2 * window));
        return from == MAT ? MATLINK_ILLEGAL_CELL : MATLINK_BAD_FRAME_SPAN;
    }
}

static void noise(enum end from) {
    uint8_t bytes[MATLINK_DATA_FRAME_BYTES + 1] = {0}, number;
    size_t count = frame_bytes[from];
    if (chance(8) != 0 || count_of[MAT].sent == 0 || count_of[PAD].sent == 0) return;
    memcpy(bytes, last[from], count);
    number = damage(from, bytes, &count);
    count_of[from].noise++;
    arrive(from == MAT ? PAD : MAT, bytes, count, number);
}

/* A tick passes for every frame and for both devices. Then frames arrive, and noise. */
static void tick(void) {
    size_t i = 0;
    while (i < in_air) {
        air[i].delay -= air[i].delay > 0;
        if (--air[i].life > 0) i++;
        else count_of[taken_out(i).from].dropped++;
    }
    turn(MAT, TICKED);
    turn(PAD, TICKED);
    do {
        noise(MAT);
        noise(PAD);
    } while (arrives());
}

static void ride(void) {
    unsigned ticks = 0, quiet = 0, acknowledged = 0;
    while ((acknowledged < rows || in_air > 0) && quiet < QUIET_TICKS_MOST) {
        tick();
        ticks++;
        quiet = done_by[MAT] == acknowledged ? quiet + 1 : 0;
        acknowledged = done_by[MAT];
    }
    printf("%u ticks, %u rows acknowledged, %u rows recorded\n", ticks, acknowledged, (unsigned)done_by[PAD]);
}

static void print_frames(enum end d) {
    printf("%s frames: %u sent, %u lost, %u dropped as their life was over, %u arrived, %u of them delayed, %u reordered\n",
           d == MAT ? "data" : "reply", count_of[d].sent, count_of[d].lost, count_of[d].dropped, count_of[d].arrived,
           count_of[d].delayed, count_of[d].reordered);
    printf("noise for the %s: %u times\n", names[1 - d], count_of[d].noise);
}

/* Prints the answers of a device, and gives how many of them must not come. Those of receive were compared when they came. */
static unsigned print_answers(enum end d, const struct report *of) {
    static const char *const calls[] = {"open", "send", "resend", "receive", "reply", "tick"};
    static const uint8_t may[CALLS][4] = {[SEND] = {MATLINK_WINDOW_FULL, MATLINK_NO_ROW_LEFT}, [REPLY] = {MATLINK_NOTHING_READY},
        [RESEND] = {MATLINK_NOT_OUTSTANDING, MATLINK_ALREADY_ACKNOWLEDGED, MATLINK_TIMER_RUNNING}}; /* and MATLINK_DONE, which is 0 */
    unsigned call, number, times, wrong, bad = 0;
    for (call = 0; call < CALLS; call++)
        for (number = 0; number < 256; number++) {
            times = of->answers[call][number];
            if (times == 0) continue;
            wrong = call != RECEIVE && memchr(may[call], (int)number, sizeof may[call]) == NULL;
            printf("%s %-7s %2u %6u times, %s%s\n", names[d], calls[call], number, times, matlink_answer_text((uint8_t)number),
                   wrong ? ": MUST NOT COME" : "");
            bad += wrong;
        }
    return bad;
}

/* The devices hand in what they have, and end. The pad's record is compared with the mat's supply. */
static void finish(void) {
    struct report of[2];
    uint16_t row[2][CELLS];
    uint8_t over = OVER;
    unsigned i, c, bad = 0, different = 0, torn = 0;
    int d, status;
    for (d = MAT; d <= PAD; d++) {
        put(wire[d], &over, 1);
        get(wire[d], &of[d], sizeof of[d]);
        bad += print_answers((enum end)d, &of[d]);
    }
    for (i = 0; i < rows; i++) {
        get(wire[MAT], row[MAT], sizeof row[MAT]);
        get(wire[PAD], row[PAD], sizeof row[PAD]);
        for (c = 0; c < CELLS; c++) different += row[MAT][c] != row[PAD][c];
        for (c = 0; c < CELLS; c++) torn += row[PAD][c] == MATLINK_CELL_TORN;
    }
    printf("%u cells compared, %u of the record are torn\n", i * CELLS, torn);
    for (d = MAT; d <= PAD; d++) {
        if (waitpid(child[d], &status, 0) < 0) fail("waitpid");
        child[d] = 0;
        if (status != 0) must(0, "a device ends with 0");
    }
    must(bad == 0, "no answer came that must not come");
    must(of[MAT].changed + of[PAD].changed == 0, "no refused call changed anything");
    must(done_by[MAT] == rows && of[MAT].answers[SEND][MATLINK_DONE] == rows, "every row was sent and acknowledged");
    must(in_air == 0, "no frame is left in the air");
    must(done_by[PAD] == rows && different == 0, "the record is the supply");
}

/* A device gets its lines, at whose ends nothing waits for ever, and works as a process of its own. */
static void start(enum end d) {
    const struct timeval most = {SECONDS_MOST, 0};
    int lines[2][2], i, far;
    for (i = 0; i < 2; i++)
        if (socketpair(AF_UNIX, SOCK_DGRAM, 0, lines[i]) != 0) fail("socketpair");
    for (i = 0; i < 8; i++)
        if (setsockopt(lines[i / 4][i / 2 % 2], SOL_SOCKET, i % 2 ? SO_RCVTIMEO : SO_SNDTIMEO, &most, sizeof most) != 0)
            fail("setsockopt");
    child[d] = fork();
    if (child[d] < 0) fail("fork");
    far = child[d] == 0;
    radio[d] = lines[0][far];
    wire[d] = lines[1][far];
    if (far) child[MAT] = 0; /* a device ends no other one */
    if (close(lines[0][!far]) != 0 || close(lines[1][!far]) != 0) fail("close");
    if (!far) return;
    if (d == PAD && (close(radio[MAT]) != 0 || close(wire[MAT]) != 0)) fail("close");
    me = d;
    run();
    exit(0);
}

static unsigned long argument(const char *text, unsigned long least, unsigned long most) {
    char *behind;
    unsigned long number = strtoul(text, &behind, 10);
    if (*text >= '0' && *text <= '9' && *behind == 0 && number >= least && number <= most) return number;
    fprintf(stderr, "devices [SEED [ROWS [WINDOW]]]: `%s` is not a number from %lu to %lu\n", text, least, most);
    exit(1);
}

int main(int argc, char **argv) {
    random_state = argc > 1 ? argument(argv[1], 0, 4294967295u) : 1;
    if (argc > 2) rows = argument(argv[2], 1, ROWS_MOST);
    if (argc > 3) window = (uint32_t)argument(argv[3], 1, MATLINK_WINDOW_MOST);
    start(MAT);
    start(PAD);
    printf("seed %lu, %lu rows, window %u\n", (unsigned long)random_state, (unsigned long)rows, (unsigned)window);
    printf("data life %d, reply life %d, reply wait %d, resend wait %d\n", DATA_LIFE, REPLY_LIFE, REPLY_WAIT, RESEND_WAIT);
    ride();
    print_frames(MAT);
    print_frames(PAD);
    finish();
    if (fflush(stdout) != 0) fail("standard output");
    return 0;
}
