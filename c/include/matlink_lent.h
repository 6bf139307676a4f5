/* Part of matlink.h and matlink_devices.h, which include it. */
#ifndef MATLINK_LENT_H
#define MATLINK_LENT_H

#include <stddef.h>
#include <stdint.h>

#ifdef __cplusplus
extern "C" {
#endif

/* Inner: the proved functions that the calls of matlink.h and matlink_devices.h lend to. Each asks, answers and writes as the call
 * of its name there. The numbers of a link are lent as an array of ten, those of a frame as an array of five and the counts as an
 * array of MATLINK_COUNTS, in the order of their struct. Of a mat or a pad the limits are an array of five, and the numbers behind
 * them one of two (a mat's) or one (a pad's). */
uint8_t matlink_lent_open(uint16_t *head, uint16_t *mat_mark, uint16_t *mat_timer, uint16_t *mat_cell, uint16_t *pad_mark,
                          uint16_t *pad_timer, uint16_t *pad_cell, uint16_t *data, uint16_t *reply, uint32_t window,
                          uint32_t data_life, uint32_t reply_life, uint32_t reply_wait, uint32_t resend_wait);
uint8_t matlink_lent_step(uint16_t *head, uint16_t *mat_mark, uint16_t *mat_timer, uint16_t *mat_cell, uint16_t *pad_mark,
                          uint16_t *pad_timer, uint16_t *pad_cell, uint16_t *data, uint16_t *reply, uint32_t kind,
                          uint32_t argument, const uint16_t *supply, size_t supply_count, uint16_t *record,
                          size_t record_count, size_t *counts);
uint8_t matlink_lent_run(uint16_t *head, uint16_t *mat_mark, uint16_t *mat_timer, uint16_t *mat_cell, uint16_t *pad_mark,
                         uint16_t *pad_timer, uint16_t *pad_cell, uint16_t *data, uint16_t *reply, const uint8_t *events,
                         size_t events_count, const uint16_t *supply, size_t supply_count, uint16_t *record,
                         size_t record_count, uint8_t *answers, size_t answers_count, size_t *counts);
uint8_t matlink_lent_ride(uint32_t window, uint32_t data_life, uint32_t reply_life, uint32_t reply_wait, uint32_t resend_wait,
                          const uint8_t *events, size_t events_count, const uint16_t *supply, size_t supply_count,
                          uint16_t *record, size_t record_count, uint8_t *answers, size_t answers_count, size_t *counts);
uint8_t matlink_lent_read_frame(const uint8_t *frame, size_t frame_count, uint16_t *head, uint16_t *cells);
uint8_t matlink_lent_write_frame(const uint16_t *head, const uint16_t *cells, uint8_t *buffer, size_t buffer_count,
                                 size_t *count);
uint8_t matlink_lent_mat_open(uint16_t *limits, uint16_t *numbers, uint16_t *mark, uint16_t *timer, uint16_t *cell,
                              uint32_t window, uint32_t data_life, uint32_t reply_life, uint32_t reply_wait,
                              uint32_t resend_wait);
uint8_t matlink_lent_mat_send(const uint16_t *limits, uint16_t *numbers, uint16_t *mark, uint16_t *timer, uint16_t *cell,
                              const uint16_t *supply, size_t supply_count, uint8_t *frame, size_t frame_count,
                              size_t *written);
uint8_t matlink_lent_mat_resend(const uint16_t *limits, uint16_t *numbers, uint16_t *mark, uint16_t *timer, uint16_t *cell,
                                uint32_t k, uint8_t *frame, size_t frame_count, size_t *written);
uint8_t matlink_lent_mat_receive(const uint16_t *limits, uint16_t *numbers, uint16_t *mark, uint16_t *timer, uint16_t *cell,
                                 const uint8_t *frame, size_t frame_count, size_t *acknowledged);
uint8_t matlink_lent_mat_tick(const uint16_t *limits, uint16_t *numbers, uint16_t *mark, uint16_t *timer, uint16_t *cell,
                              uint32_t d);
uint8_t matlink_lent_pad_open(uint16_t *limits, uint16_t *numbers, uint16_t *mark, uint16_t *timer, uint16_t *cell,
                              uint32_t window, uint32_t data_life, uint32_t reply_life, uint32_t reply_wait,
                              uint32_t resend_wait);
uint8_t matlink_lent_pad_receive(const uint16_t *limits, uint16_t *numbers, uint16_t *mark, uint16_t *timer, uint16_t *cell,
                                 const uint8_t *frame, size_t frame_count, uint8_t *reply, size_t reply_count,
                                 size_t *written);
uint8_t matlink_lent_pad_reply(const uint16_t *limits, uint16_t *numbers, uint16_t *mark, uint16_t *timer, uint16_t *cell,
                               uint16_t *record, size_t record_count, uint8_t *reply, size_t reply_count, size_t *rows,
                               size_t *written);
uint8_t matlink_lent_pad_tick(const uint16_t *limits, uint16_t *numbers, uint16_t *mark, uint16_t *timer, uint16_t *cell,
                              uint32_t d);

#ifdef __cplusplus
}
#endif

#endif
