/* A mat and a pad by themselves, for a device that holds one of them: frames go in and out. The calls lend the members of a
 * struct to functions of the static library libexports.a that are proved to meet their contracts for every input. What
 * matlink.h says of slices, answers and calls at the same time holds here; matlink_text.c has the answers in words.
 *
 * A mat and a pad that were opened with the same limits, with nothing between them but the frames that they write, each
 * handed on at most once and within its life, and with the same ticks passing at both, are the two ends of a link.
 *
 * Overlap. What a call may write (mat, pad, frame of a send or resend, reply, record, written, acknowledged, rows) overlaps
 * nothing else that is handed to the same call. The functions copy the limits and the numbers of a device to variables of
 * their own. After the proved function has returned they write `written`, `acknowledged` and `rows`, and, but in a tick, the
 * numbers, some of them unchanged; arrays and slices are lent as they are.
 *
 * Stack. Each comment says how many bytes of stack a call takes below its return address, and how many of these the proved
 * function takes below its own, as in matlink.h, measured by tests/by-hand/devices.c. */
#ifndef MATLINK_DEVICES_H
#define MATLINK_DEVICES_H

#include "matlink.h"

/* A mat (sender). It has no padding and can be copied byte for byte; a copy is a mat as good as the first. Whoever makes one
 * up or changes a number may write anything: each call asks first whether it is sound (4). A mark is off for 0 and on for
 * anything else, and a call that is done leaves 0 or 1. The row with number n has place n mod w in the arrays.
 *
 * A mat is sound if
 *    questions 1 to 3 are answered yes of its limits, and the resend wait is not 0;
 *    oldest and next are below 2w, and the rows outstanding, (next - oldest) mod 2w of them, are at most w;
 *    it has no mark at the place of oldest, nor at one of the first w places whose row is not outstanding;
 *    of the first w places each timer is at most the resend wait;
 *    the cells of rows outstanding are legal: 0 to 4095, or 65535, a torn one.
 *
 * What a call that is done leaves beyond the first w places and in the cells of rows not outstanding is not promised. Two
 * mats in the same state may differ there. */
struct matlink_mat {
    uint16_t window, data_life, reply_life, reply_wait, resend_wait;
    uint16_t oldest, next;
    uint16_t mark[MATLINK_WINDOW_MOST], timer[MATLINK_WINDOW_MOST], cell[MATLINK_WINDOW_MOST * MATLINK_ROW_CELLS];
};

/* A pad (receiver), likewise. Its marks are those of rows held.
 *
 * A pad is sound if
 *    questions 1 to 3 are answered yes of its limits, and the resend wait is not 0;
 *    wanted is below 2w;
 *    of the first w places each timer is at most the reply wait;
 *    the cells of rows held at the first w places are legal.
 *
 * What a call that is done leaves beyond the first w places, and in the cells and timers of rows not held, is not promised. */
struct matlink_pad {
    uint16_t window, data_life, reply_life, reply_wait, resend_wait;
    uint16_t wanted;
    uint16_t mark[MATLINK_WINDOW_MOST], timer[MATLINK_WINDOW_MOST], cell[MATLINK_WINDOW_MOST * MATLINK_ROW_CELLS];
};

/* Inner: the numbers of a mat go into arrays, since a pointer to one member must not be used for the next one. */
static inline void matlink_mat_numbers(const struct matlink_mat *mat, uint16_t *limits, uint16_t *numbers) {
    limits[0] = mat->window;
    limits[1] = mat->data_life;
    limits[2] = mat->reply_life;
    limits[3] = mat->reply_wait;
    limits[4] = mat->resend_wait;
    numbers[0] = mat->oldest;
    numbers[1] = mat->next;
}

/* Inner: what a call may change of them comes back. */
static inline void matlink_mat_moved(struct matlink_mat *mat, const uint16_t *numbers) {
    mat->oldest = numbers[0];
    mat->next = numbers[1];
}

/* Inner */
static inline void matlink_pad_numbers(const struct matlink_pad *pad, uint16_t *limits, uint16_t *numbers) {
    limits[0] = pad->window;
    limits[1] = pad->data_life;
    limits[2] = pad->reply_life;
    limits[3] = pad->reply_wait;
    limits[4] = pad->resend_wait;
    numbers[0] = pad->wanted;
}

/* Opens a mat.
 * Asked in this order: window (1), the three times (2), resend wait (3). A limit of more than 16 bits is refused as 65535 is.
 * What stood in the mat before is not read.
 * Done: every number of the mat is written. It has these limits, but for a resend wait of 0 the shortest one, the sum of the
 * three times less 2; all other numbers are 0.
 * Refused: every number of the mat is 0, and the other calls answer 4 to such a mat.
 * Stack: 160 bytes, the proved function 80. */
static inline uint8_t matlink_mat_open(struct matlink_mat *mat, uint32_t window, uint32_t data_life, uint32_t reply_life,
                                       uint32_t reply_wait, uint32_t resend_wait) {
    uint16_t limits[5] = {0}, numbers[2] = {0};
    uint8_t answer = matlink_lent_mat_open(limits, numbers, mat->mark, mat->timer, mat->cell, window, data_life, reply_life,
                                           reply_wait, resend_wait);
    mat->window = limits[0];
    mat->data_life = limits[1];
    mat->reply_life = limits[2];
    mat->reply_wait = limits[3];
    mat->resend_wait = limits[4];
    matlink_mat_moved(mat, numbers);
    return answer;
}

/* The first row of the supply is sent.
 * Asked in this order: the mat is sound (4), the supply is whole rows (6), 10, 11, 12 of that row; the length of the frame's
 * buffer (28), MATLINK_DATA_FRAME_BYTES.
 * Done: the mat is the one after the send. The data frame, with the whole data life, stands at the front of the buffer, and
 * the bytes behind it are as they were. `written` gets 36. The next send gets the supply from behind the row.
 * Refused: mat and buffer are as they were, and `written` gets 0, whichever question it was.
 * Stack: 400 bytes, the proved function 304. */
static inline uint8_t matlink_mat_send(struct matlink_mat *mat, const uint16_t *supply, size_t supply_count, uint8_t *frame,
                                       size_t frame_count, uint64_t *written) {
    uint16_t limits[5], numbers[2];
    size_t bytes = 0;
    uint8_t answer;
    matlink_mat_numbers(mat, limits, numbers);
    answer = matlink_lent_mat_send(limits, numbers, mat->mark, mat->timer, mat->cell, supply, supply_count, frame, frame_count,
                                   &bytes);
    matlink_mat_moved(mat, numbers);
    *written = bytes;
    return answer;
}

/* Outstanding row k, counted from the oldest as 0, is sent again.
 * Asked in this order: the mat is sound (4), 14, 15, 16, whatever number k is; the length of the frame's buffer (28).
 * Done: the row's resend timer is set, and the frame is written as by matlink_mat_send.
 * Refused: as by matlink_mat_send.
 * Stack: 400 bytes, the proved function 304. */
static inline uint8_t matlink_mat_resend(struct matlink_mat *mat, uint32_t k, uint8_t *frame, size_t frame_count,
                                         uint64_t *written) {
    uint16_t limits[5], numbers[2];
    size_t bytes = 0;
    uint8_t answer;
    matlink_mat_numbers(mat, limits, numbers);
    answer = matlink_lent_mat_resend(limits, numbers, mat->mark, mat->timer, mat->cell, k, frame, frame_count, &bytes);
    matlink_mat_moved(mat, numbers);
    *written = bytes;
    return answer;
}

/* Any bytes arrive at the mat.
 * Asked in this order: the mat is sound (4); the questions of matlink_read_frame; the frame is a reply (22); its window is
 * that of the mat (24); the rows of the reply are outstanding (19).
 * Done: the rows are acknowledged, and `acknowledged` gets by how many rows oldest rose, which may be 0.
 * Refused: the mat is as it was, and `acknowledged` gets 0, whichever question it was.
 * Stack: 288 bytes, the proved function 208. */
static inline uint8_t matlink_mat_receive(struct matlink_mat *mat, const uint8_t *frame, size_t frame_count,
                                          uint64_t *acknowledged) {
    uint16_t limits[5], numbers[2];
    size_t rows = 0;
    uint8_t answer;
    matlink_mat_numbers(mat, limits, numbers);
    answer = matlink_lent_mat_receive(limits, numbers, mat->mark, mat->timer, mat->cell, frame, frame_count, &rows);
    matlink_mat_moved(mat, numbers);
    *acknowledged = rows;
    return answer;
}

/* d ticks pass at the mat.
 * Asked in this order: the mat is sound (4), d is not 0 (9).
 * Done: each resend timer of the first w places falls by d and stops at 0. d may be any number above 0.
 * Refused: the mat is as it was.
 * Stack: 336 bytes, the proved function 288. */
static inline uint8_t matlink_mat_tick(struct matlink_mat *mat, uint32_t d) {
    uint16_t limits[5], numbers[2];
    matlink_mat_numbers(mat, limits, numbers);
    return matlink_lent_mat_tick(limits, numbers, mat->mark, mat->timer, mat->cell, d);
}

/* Opens a pad, as matlink_mat_open a mat.
 * Stack: 160 bytes, the proved function 80. */
static inline uint8_t matlink_pad_open(struct matlink_pad *pad, uint32_t window, uint32_t data_life, uint32_t reply_life,
                                       uint32_t reply_wait, uint32_t resend_wait) {
    uint16_t limits[5] = {0}, numbers[1] = {0};
    uint8_t answer = matlink_lent_pad_open(limits, numbers, pad->mark, pad->timer, pad->cell, window, data_life, reply_life,
                                           reply_wait, resend_wait);
    pad->window = limits[0];
    pad->data_life = limits[1];
    pad->reply_life = limits[2];
    pad->reply_wait = limits[3];
    pad->resend_wait = limits[4];
    pad->wanted = numbers[0];
    return answer;
}

/* Any bytes arrive at the pad.
 * Asked in this order: the pad is sound (4); the questions of matlink_read_frame; the frame is one of data (22); its window
 * is that of the pad (24); and if its row is old, its number none of the w from wanted on, the length of the reply's buffer
 * (28), MATLINK_REPLY_FRAME_BYTES.
 * Done: a row of the window is held, the buffer is as it was, and `written` gets 0. Of an old row the reply frame, with the
 * whole reply life, stands at the front of the buffer, the bytes behind it are as they were, the pad is in the same state, and
 * `written` gets 5.
 * Refused: pad and buffer are as they were, and `written` gets 0, whichever question it was.
 * Stack: 352 bytes, the proved function 256. */
static inline uint8_t matlink_pad_receive(struct matlink_pad *pad, const uint8_t *frame, size_t frame_count, uint8_t *reply,
                                          size_t reply_count, uint64_t *written) {
    uint16_t limits[5], numbers[1];
    size_t bytes = 0;
    uint8_t answer;
    matlink_pad_numbers(pad, limits, numbers);
    answer = matlink_lent_pad_receive(limits, numbers, pad->mark, pad->timer, pad->cell, frame, frame_count, reply, reply_count,
                                      &bytes);
    pad->wanted = numbers[0];
    *written = bytes;
    return answer;
}

/* The rows that are ready, from wanted on without a gap, are recorded, and one reply for them is written.
 * Asked in this order: the pad is sound (4), 20, 21, the length of the reply's buffer (28).
 * Done: wanted passes the rows, and they stand at the front of the record. The reply frame, with the whole reply life, stands
 * at the front of its buffer. What is behind them in both is as it was. `rows` gets the count of rows, and `written` 5. The
 * next reply gets the record from behind the rows.
 * Refused: pad, record and buffer are as they were, and `rows` and `written` get 0, whichever question it was.
 * Stack: 320 bytes, the proved function 192. */
static inline uint8_t matlink_pad_reply(struct matlink_pad *pad, uint16_t *record, size_t record_count, uint8_t *reply,
                                        size_t reply_count, uint64_t *rows, uint64_t *written) {
    uint16_t limits[5], numbers[1];
    size_t count = 0, bytes = 0;
    uint8_t answer;
    matlink_pad_numbers(pad, limits, numbers);
    answer = matlink_lent_pad_reply(limits, numbers, pad->mark, pad->timer, pad->cell, record, record_count, reply, reply_count,
                                    &count, &bytes);
    pad->wanted = numbers[0];
    *rows = count;
    *written = bytes;
    return answer;
}

/* d ticks pass at the pad, as by matlink_mat_tick: each reply timer of the first w places falls by d and stops at 0.
 * Stack: 272 bytes, the proved function 224. */
static inline uint8_t matlink_pad_tick(struct matlink_pad *pad, uint32_t d) {
    uint16_t limits[5], numbers[1];
    matlink_pad_numbers(pad, limits, numbers);
    return matlink_lent_pad_tick(limits, numbers, pad->mark, pad->timer, pad->cell, d);
}

#endif
