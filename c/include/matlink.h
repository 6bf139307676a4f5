/* The mat link for C. Each call lends the members of a struct to a function of the static library libexports.a that is proved
 * to meet its contract for every input; matlink_page, matlink_file_lookup and matlink_file_write are such functions themselves.
 * The calls work in place: there is nothing to allocate and nothing to close, and what is kept between two calls stands in the
 * struct. matlink_text.c, which gives answers in words, is compiled with the program.
 *
 * Slices. A slice is two arguments, a pointer to its first element and the count of its elements. No pointer is NULL, and each
 * is aligned for its type, also where the count is 0.
 *
 * Answers. Every call returns the number of its answer (enum matlink_answer). 0 is done; any other number is that of the first
 * question answered no, in the order that the function's comment gives, and the call is then refused. The comment says all
 * that a call writes, done or refused; everything else is as it was.
 *
 * Overlap. What a call may write (link, record, answers, counts, out, buffer, count, start, length) overlaps nothing else
 * that is handed to the same call. What it only reads (supply, events, frame, file, entries, rows, the record of
 * matlink_page) may overlap one another. The functions of this header copy the ten numbers of a link, the five numbers of a
 * frame, the counts and `count` to and from variables of their own, and write them back after the proved function has
 * returned, some of them unchanged; arrays and slices are lent as they are.
 *
 * At the same time. A call uses the memory that it is handed and its stack, and no other. So calls may interrupt each other if
 * neither may write what the other is handed.
 *
 * Stack. Each comment says how many bytes of stack a call takes below its return address, and how many of these the proved
 * function takes below its own. They were measured by tests/by-hand/steps.c on x86-64, with the functions of this header
 * compiled by gcc 12.2 at -O2 and not inlined. No input makes them more; other processors and compilers give other figures.
 */
#ifndef MATLINK_H
#define MATLINK_H

#include "matlink_lent.h"
#include <stddef.h>
#include <stdint.h>

#ifdef __cplusplus
extern "C" {
#endif

/* Sizes, and the largest numbers that are allowed. The smallest time, life and window is 1. */
#define MATLINK_ROW_CELLS 16          /* cells of a row, the unit of supply and record */
#define MATLINK_CELL_MOST 4095        /* a cell, unless it is torn */
#define MATLINK_CELL_TORN 65535       /* what a torn cell reads */
#define MATLINK_WINDOW_MOST 32        /* the window w, and the rows that each end has places for */
#define MATLINK_TIME_MOST 250         /* data life, reply life and reply wait, in ticks */
#define MATLINK_RESEND_WAIT_MOST 1000 /* the resend wait, in ticks */
#define MATLINK_TABLE_MOST 32         /* messages of one table, data or replies */
#define MATLINK_DATA_NUMBERS 18       /* numbers of a message in `data`: life, number, sixteen cells */
#define MATLINK_REPLY_NUMBERS 3       /* numbers of a message in `reply`: life, first, last */
#define MATLINK_EVENT_BYTES 2         /* bytes of an event in a list: kind, argument */
#define MATLINK_TICK_MOST 255         /* ticks of one event */
#define MATLINK_DATA_FRAME_BYTES 36   /* 1, life, w, number, sixteen cells with the low byte first */
#define MATLINK_REPLY_FRAME_BYTES 5   /* 2, life, w, first, last */
#define MATLINK_PAGE_ROWS 60          /* rows of a page; the last one of a record may have fewer */
#define MATLINK_LINE_BYTES 23         /* bytes of a page's line: 5 columns, a space, sixteen digits or hyphens, a line feed */
#define MATLINK_PAGED_ROWS_MOST 100000 /* rows of a record that has pages */
#define MATLINK_COUNTS 11             /* numbers of struct matlink_counts */
#define MATLINK_FILE_ENTRIES_MOST 64  /* entries of a horse's file */
#define MATLINK_FILE_ENTRY_BYTES 10   /* bytes of an entry: horse 2, leg 1, save 1, rows 2, start of the body 4 */
#define MATLINK_FILE_SAVED_BYTES 6    /* the same without the start, as a writer takes it */
#define MATLINK_FILE_ROW_BYTES 32     /* bytes of a row in a body: sixteen cells with the low byte first */
#define MATLINK_FILE_LEG_MOST 6       /* legs and saves count from 1 */
#define MATLINK_FILE_SAVE_MOST 255
#define MATLINK_FILE_ROWS_MOST 65535  /* rows of a body; it may have none */
#define MATLINK_FILE_BYTES_MOST 134216321 /* bytes of the longest file */

/* The kinds of events, with their arguments. Rows and messages are counted from the oldest, which is 0; when a message leaves a
 * table, those behind it move up. */
enum matlink_event {
    MATLINK_SEND = 1,         /* 0: the next row of the supply is sent */
    MATLINK_RESEND = 2,       /* k: outstanding row k is sent again */
    MATLINK_ARRIVE_DATA = 3,  /* p: data message p arrives at the pad */
    MATLINK_REPLY = 4,        /* 0: the rows that are ready are recorded, and one reply for them is sent */
    MATLINK_ARRIVE_REPLY = 5, /* p: reply p arrives at the mat */
    MATLINK_LOSE_DATA = 6,    /* p: data message p is lost */
    MATLINK_LOSE_REPLY = 7,   /* p: reply p is lost */
    MATLINK_TICK = 8,         /* d, 1 to 255: d ticks pass */
};

/* The kinds of frames. */
enum matlink_frame_kind {
    MATLINK_DATA_FRAME = 1,  /* a row under its number */
    MATLINK_REPLY_FRAME = 2, /* a reply for rows */
};

/* The answers. Beside each number stands the question that was answered no. */
enum matlink_answer {
    MATLINK_DONE = 0,                  /* none was */
    MATLINK_BAD_WINDOW = 1,            /* is the window 1 to 32? */
    MATLINK_BAD_TIMES = 2,             /* are data life, reply life and reply wait 1 to 250? */
    MATLINK_BAD_WAIT = 3,              /* is the resend wait 0, or from the sum of the three times less 2 to 1000? */
    MATLINK_UNSOUND = 4,               /* is the link, the mat or the pad sound? its struct says when it is */
    MATLINK_ODD_EVENTS = 5,            /* is the count of event bytes even? */
    MATLINK_PARTIAL_ROW = 6,           /* is the count of the supply's cells a multiple of 16? */
    MATLINK_SHORT_ANSWERS = 7,         /* is there an answer byte for each event? */
    MATLINK_UNKNOWN_KIND = 8,          /* is the event's kind 1 to 8? */
    MATLINK_BAD_ARGUMENT = 9,          /* is the argument of a send or reply 0, and that of a tick not 0? */
    MATLINK_WINDOW_FULL = 10,          /* send: are fewer than w rows outstanding? */
    MATLINK_NO_ROW_LEFT = 11,          /* send: is a row left in the supply? */
    MATLINK_ILLEGAL_CELL = 12,         /* send, data frame, page: is every cell of the row or of the page legal: 0 to 4095, or 65535? */
    MATLINK_DATA_TABLE_FULL = 13,      /* send, resend: are fewer than 32 data messages in the air? */
    MATLINK_NOT_OUTSTANDING = 14,      /* resend: are more than k rows outstanding? */
    MATLINK_ALREADY_ACKNOWLEDGED = 15, /* resend: is the row not acknowledged? */
    MATLINK_TIMER_RUNNING = 16,        /* resend: is the row's resend timer 0? */
    MATLINK_NO_MESSAGE = 17,           /* arrival, loss: has the table more than p messages? */
    MATLINK_REPLY_TABLE_FULL = 18,     /* reply, arrival of an old row: are fewer than 32 replies in the air? */
    MATLINK_SPAN_NOT_OUTSTANDING = 19, /* reply that arrives: are all its rows outstanding? */
    MATLINK_NOTHING_READY = 20,        /* reply: is the row wanted held, with a reply timer above 0? */
    MATLINK_RECORD_FULL = 21,          /* reply: has the record space for all the rows that are ready? */
    MATLINK_UNKNOWN_FRAME = 22,        /* frame: is its kind 1 or 2? received: is it that of the other end? */
    MATLINK_BAD_FRAME_LENGTH = 23,     /* frame that is read: is its length that of its kind? */
    MATLINK_BAD_FRAME_WINDOW = 24,     /* frame: is its window 1 to 32? received: is it that of the device? */
    MATLINK_BAD_FRAME_NUMBER = 25,     /* frame: are its numbers below twice its window? */
    MATLINK_BAD_FRAME_LIFE = 26,       /* frame: is its life 1 to 250? */
    MATLINK_BAD_FRAME_SPAN = 27,       /* reply frame: does it cover at most w rows? */
    MATLINK_SHORT_BUFFER = 28,         /* frame that is written: is the buffer long enough? */
    MATLINK_BAD_INPUT_LENGTH = 29,     /* the trial program alone: is the length of its input right? */
    MATLINK_BAD_RECORD_LENGTH = 30,    /* page: is the record whole rows, and at most 100,000? */
    MATLINK_NO_SUCH_PAGE = 31,         /* page: has the record a row for it? */
    MATLINK_SHORT_PAGE_BUFFER = 32,    /* page: has the buffer 23 bytes for each row of it? */
    MATLINK_BAD_FILE = 33,             /* file: does it fit the rules, and, when it is written, the buffer? */
    MATLINK_SAVED_TWICE = 34,          /* file: does no horse, leg and save stand there twice? */
    MATLINK_NO_SUCH_LEG = 35,          /* file: has the horse this leg? */
};

/* The text of an answer, in the words of docs/RIDES.md, and "unknown answer" for a number that is none. It is constant and
 * never NULL. Stack: none. */
const char *matlink_answer_text(uint8_t answer);

/* A link. It has no padding and can be copied byte for byte; a copy is a link as good as the first. Whoever makes a link up or
 * changes a number may write anything: matlink_step and matlink_run ask first whether it is sound (4). A mark is off for 0 and on
 * for anything else, and a call that is done leaves 0 or 1. The row with number n has place n mod w in the arrays of an end, and
 * message p of a table begins at p times MATLINK_DATA_NUMBERS or MATLINK_REPLY_NUMBERS.
 *
 * A link is sound if
 *    questions 1 to 3 are answered yes of its limits, and the resend wait is not 0;
 *    oldest, next and wanted are below 2w, and the rows outstanding, (next - oldest) mod 2w of them, are at most w;
 *    the mat has no mark at the place of oldest, nor at one of the first w places whose row is not outstanding;
 *    of the first w places each timer of the mat is at most the resend wait, and each of the pad at most the reply wait;
 *    each table has at most 32 messages, whose lives are 1 to the data life or reply life and whose numbers are below 2w, and
 *    each reply covers at most w rows, (last - first) mod 2w + 1;
 *    the cells of rows outstanding, of rows held (marked at the pad) and of data messages are legal: 0 to 4095, or 65535, a
 *    torn one.
 *
 * What a call that is done leaves beyond the first w places, behind the messages of a table, in the cells of rows neither
 * outstanding nor held and in the reply timers of rows not held is not promised. Two links in the same state may differ there. */
struct matlink {
    uint16_t window, data_life, reply_life, reply_wait, resend_wait;
    uint16_t oldest, next, wanted, data_count, reply_count;
    uint16_t mat_mark[MATLINK_WINDOW_MOST], mat_timer[MATLINK_WINDOW_MOST], mat_cell[MATLINK_WINDOW_MOST * MATLINK_ROW_CELLS];
    uint16_t pad_mark[MATLINK_WINDOW_MOST], pad_timer[MATLINK_WINDOW_MOST], pad_cell[MATLINK_WINDOW_MOST * MATLINK_ROW_CELLS];
    uint16_t data[MATLINK_TABLE_MOST * MATLINK_DATA_NUMBERS];
    uint16_t reply[MATLINK_TABLE_MOST * MATLINK_REPLY_NUMBERS];
};

/* What a call counted: by how many rows those sent, acknowledged and recorded rose; and of the messages of each table how many
 * were put in it, arrived, were lost, and were dropped as their life was over. A send or a resend puts a data message; a reply, or
 * the arrival of an old row, puts a reply. A refused event counts nothing. For a call of matlink_step or matlink_run, whatever the
 * link is, and for the sums over several calls that each work on the link as the one before left it,
 *    messages at the start + put = arrived + lost + dropped + messages left
 * holds for each table. A ride starts without messages. */
struct matlink_counts {
    uint64_t sent, acknowledged, recorded;
    uint64_t data_put, data_arrived, data_lost, data_dropped;
    uint64_t reply_put, reply_arrived, reply_lost, reply_dropped;
};

/* A frame. One of kind 1 carries a row under its number; when read, its `last` is 0. One of kind 2 is a reply for the rows from
 * `number` to `last`; when read, its cells are 0. It has no padding. */
struct matlink_frame {
    uint16_t kind, life, window, number, last, cell[MATLINK_ROW_CELLS];
};

/* Writes a page of a record as text to the front of the buffer: up to 60 rows, from row 60 times `page` on. Pages count from 0.
 * A line is 23 bytes of ASCII: the row's number, counted from 0, at the right of 5 columns, with spaces in front; a space; for
 * each cell a digit, its shade, which is the cell times 10 divided by 4096, rounded down, or a hyphen where the cell is torn; a
 * line feed. No 0 ends the text.
 * Asked in this order: the record is whole rows, and at most 100,000 (30); the page has a row (31), whatever number it is; the
 * cells of the page, and no others (12); the length of the buffer (32), 23 bytes for each row of this page.
 * Done: `count` gets the count of bytes written, 23 for each row, and the bytes behind them are as they were.
 * Refused: the buffer is as it was, and `count` gets 0, whichever question it was.
 * What a call takes goes with the rows of the page, however long the record is.
 * Stack: 56 bytes. */
uint8_t matlink_page(const uint16_t *record, size_t record_count, uint64_t page, uint8_t *buffer, size_t buffer_count,
                     uint64_t *count);

/* A horse's file has a byte c, 0 to 64; c entries of 10 bytes, its contents; then, up to the file's end, the bodies in the
 * same order without gaps, 32 bytes for each row. An entry is horse (2 bytes), leg (1), save (1), rows (2), and where its
 * body starts (4), counted from the file's first byte; numbers and cells stand low byte first. Of a horse's leg the body
 * with the highest save is current.
 *
 * Finds the current body of a horse's leg.
 * Asked in this order: the file fits the rules (33): c is at most 64, and the file is long enough for its contents; each leg
 * is 1 to 6, and no save is 0; the first body starts behind the contents, each other one where the one before it ends, and
 * the last one ends with the file; every cell of every body is legal, 0 to 4095 or 65535. No horse, leg and save stand there
 * twice, whichever horse is looked up (34). The horse has the leg (35), whatever numbers these two are.
 * Done: `start` and `length` get the place of the body in the file, in bytes. A body of no rows has length 0.
 * Refused: they get 0 and 0, whichever question it was.
 * A call reads each cell of the file once, and for 34 compares each two entries at most once.
 * Stack: 52 bytes. */
uint8_t matlink_file_lookup(const uint8_t *file, size_t file_count, uint32_t horse, uint32_t leg, uint64_t *start,
                            uint64_t *length);

/* Writes a horse's file to the front of the buffer. `entries` has 6 bytes for each entry: horse (2), leg (1), save (1), rows
 * (2), low byte first. `rows` has the cells of all their rows, 16 a row, in the same order. The starts are worked out.
 * Asked in this order: this makes a file, and the buffer holds it (33): whole entries, at most 64; each leg is 1 to 6, and
 * no save is 0; just the cells of the rows that the entries count, each legal; a byte of the buffer for the count, 10 for
 * each entry and 32 for each row. No horse, leg and save stand there twice (34).
 * Done: `count` gets the count of bytes written, and the bytes behind them are as they were.
 * Refused: the buffer is as it was, and `count` gets 0, whichever question it was.
 * Stack: 114 bytes. */
uint8_t matlink_file_write(const uint8_t *entries, size_t entries_count, const uint16_t *rows, size_t rows_count, uint8_t *buffer,
                           size_t buffer_count, uint64_t *count);

#ifdef __cplusplus
}
#endif

/* Inner: the numbers of a link go into an array, since a pointer to one member must not be used for the next one. */
static inline void matlink_numbers(const struct matlink *link, uint16_t *head) {
    head[0] = link->window;
    head[1] = link->data_life;
    head[2] = link->reply_life;
    head[3] = link->reply_wait;
    head[4] = link->resend_wait;
    head[5] = link->oldest;
    head[6] = link->next;
    head[7] = link->wanted;
    head[8] = link->data_count;
    head[9] = link->reply_count;
}

/* Inner: what an event may change of them comes back. */
static inline void matlink_moved(struct matlink *link, const uint16_t *head) {
    link->oldest = head[5];
    link->next = head[6];
    link->wanted = head[7];
    link->data_count = head[8];
    link->reply_count = head[9];
}

/* Inner */
static inline void matlink_counted(struct matlink_counts *counts, const size_t *numbers) {
    counts->sent = numbers[0];
    counts->acknowledged = numbers[1];
    counts->recorded = numbers[2];
    counts->data_put = numbers[3];
    counts->data_arrived = numbers[4];
    counts->data_lost = numbers[5];
    counts->data_dropped = numbers[6];
    counts->reply_put = numbers[7];
    counts->reply_arrived = numbers[8];
    counts->reply_lost = numbers[9];
    counts->reply_dropped = numbers[10];
}

/* Opens a link.
 * Asked in this order: window (1), the three times (2), resend wait (3). A limit of more than 16 bits is refused as 65535 is.
 * What stood in the link before is not read.
 * Done: every number of the link is written. It has these limits, but for a resend wait of 0 the shortest one, the sum of the
 * three times less 2; all other numbers are 0.
 * Refused: every number of the link is 0, and matlink_step and matlink_run answer 4 to such a link.
 * Stack: 208 bytes, the proved function 96. */
static inline uint8_t matlink_open(struct matlink *link, uint32_t window, uint32_t data_life, uint32_t reply_life,
                                   uint32_t reply_wait, uint32_t resend_wait) {
    uint16_t head[10] = {0};
    uint8_t answer = matlink_lent_open(head, link->mat_mark, link->mat_timer, link->mat_cell, link->pad_mark, link->pad_timer,
                                       link->pad_cell, link->data, link->reply, window, data_life, reply_life, reply_wait,
                                       resend_wait);
    link->window = head[0];
    link->data_life = head[1];
    link->reply_life = head[2];
    link->reply_wait = head[3];
    link->resend_wait = head[4];
    matlink_moved(link, head);
    return answer;
}

/* One event.
 * Asked in this order: the link is sound (4), the supply is whole rows (6), kind (8), argument (9); then
 *    send                    10, 11, 12, 13
 *    resend                  14, 15, 16, 13
 *    data arrives            17, and 18 if its row is old: its number is none of the w from wanted on
 *    reply                   20, 21, 18
 *    a reply arrives         17, 19
 *    data or reply is lost   17
 *    ticks                   nothing more
 * A kind or an argument above 255 is no event: 8. 6 is asked of every event, and 12 of the first row of the supply alone.
 * Done: the link is the one after the event. A send takes the first row of the supply. A reply writes the rows that it records
 * to the front of the record, and the cells behind them are as they were; other events write nothing there. The counts say what
 * was counted. The next call gets the supply from behind the rows sent, and the record from behind the rows recorded.
 * Refused: link and record are as they were, and the counts are 0, whichever question it was.
 * Stack: 896 bytes, the proved function 656. */
static inline uint8_t matlink_step(struct matlink *link, uint32_t kind, uint32_t argument, const uint16_t *supply,
                                   size_t supply_count, uint16_t *record, size_t record_count,
                                   struct matlink_counts *counts) {
    uint16_t head[10];
    size_t numbers[MATLINK_COUNTS] = {0};
    uint8_t answer;
    matlink_numbers(link, head);
    answer = matlink_lent_step(head, link->mat_mark, link->mat_timer, link->mat_cell, link->pad_mark, link->pad_timer,
                               link->pad_cell, link->data, link->reply, kind, argument, supply, supply_count, record,
                               record_count, numbers);
    matlink_moved(link, head);
    matlink_counted(counts, numbers);
    return answer;
}

/* A list of events, two bytes each, kind and argument.
 * Asked in this order: the link is sound (4), the event bytes are even in count (5), the supply is whole rows (6), there is an
 * answer byte for each event (7). Then each event is put in its turn and asked from 8 on as by matlink_step, with the rows of
 * the supply that were not sent yet and the part of the record that was not written yet. A refused event changes nothing but
 * its answer byte, and the next one follows. A list may be empty.
 * Done: the link is the one after all events; if every event was refused, it is as it was. The first answer bytes are the
 * events' answers, one each, and the rows recorded stand at the front of the record; the rest of both is as it was. The counts
 * say what was counted in all.
 * Refused: link, record and answers are as they were, and the counts are 0, whichever question it was.
 * Stack: 1104 bytes, the proved function 848. */
static inline uint8_t matlink_run(struct matlink *link, const uint8_t *events, size_t events_count, const uint16_t *supply,
                                  size_t supply_count, uint16_t *record, size_t record_count, uint8_t *answers,
                                  size_t answers_count, struct matlink_counts *counts) {
    uint16_t head[10];
    size_t numbers[MATLINK_COUNTS] = {0};
    uint8_t answer;
    matlink_numbers(link, head);
    answer = matlink_lent_run(head, link->mat_mark, link->mat_timer, link->mat_cell, link->pad_mark, link->pad_timer,
                              link->pad_cell, link->data, link->reply, events, events_count, supply, supply_count, record,
                              record_count, answers, answers_count, numbers);
    matlink_moved(link, head);
    matlink_counted(counts, numbers);
    return answer;
}

/* A link opened and run, which is gone afterwards.
 * Asked in this order: 1, 2, 3 as by matlink_open, then 5, 6, 7 and the events as by matlink_run.
 * Done: record, answers and counts as by matlink_run.
 * Refused: record and answers are as they were, and the counts are 0, whichever question it was.
 * Stack: 4640 bytes, the proved function 4464. The link is kept there. */
static inline uint8_t matlink_ride(uint32_t window, uint32_t data_life, uint32_t reply_life, uint32_t reply_wait,
                                   uint32_t resend_wait, const uint8_t *events, size_t events_count, const uint16_t *supply,
                                   size_t supply_count, uint16_t *record, size_t record_count, uint8_t *answers,
                                   size_t answers_count, struct matlink_counts *counts) {
    size_t numbers[MATLINK_COUNTS] = {0};
    uint8_t answer = matlink_lent_ride(window, data_life, reply_life, reply_wait, resend_wait, events, events_count, supply,
                                       supply_count, record, record_count, answers, answers_count, numbers);
    matlink_counted(counts, numbers);
    return answer;
}

/* Reads a frame from any bytes.
 * Asked in this order: there is a first byte, and it is a kind (22); length (23), window (24), numbers (25), life (26); then of
 * a data frame the cells (12), and of a reply frame the rows that it covers (27).
 * Done: every number of `out` is written, with 0 for what the kind does not have.
 * Refused: `out` is as it was.
 * Stack: 32 bytes, the proved function 0. */
static inline uint8_t matlink_read_frame(const uint8_t *frame, size_t frame_count, struct matlink_frame *out) {
    uint16_t head[5] = {0};
    uint8_t answer = matlink_lent_read_frame(frame, frame_count, head, out->cell);
    if (answer == MATLINK_DONE) {
        out->kind = head[0];
        out->life = head[1];
        out->window = head[2];
        out->number = head[3];
        out->last = head[4];
    }
    return answer;
}

/* Writes a frame to the front of the buffer.
 * Asked in this order: kind (22), window (24), numbers (25), life (26); then of a data frame the cells (12), and of a reply
 * frame the rows that it covers (27); then the length of the buffer (28). What the kind does not have (`last` of a data frame,
 * the cells of a reply frame) is not looked at.
 * Done: `count` gets the count of bytes written, 36 of a data frame and 5 of a reply frame, and the bytes behind them are as
 * they were.
 * Refused: the buffer is as it was, and `count` gets 0, whichever question it was.
 * Stack: 64 bytes, the proved function 16. */
static inline uint8_t matlink_write_frame(const struct matlink_frame *frame, uint8_t *buffer, size_t buffer_count,
                                          uint64_t *count) {
    uint16_t head[5];
    size_t written = 0;
    uint8_t answer;
    head[0] = frame->kind;
    head[1] = frame->life;
    head[2] = frame->window;
    head[3] = frame->number;
    head[4] = frame->last;
    answer = matlink_lent_write_frame(head, frame->cell, buffer, buffer_count, &written);
    *count = written;
    return answer;
}

#endif
