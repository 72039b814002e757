/* The card's calls written by hand in C, without proofs: what the library is measured against. */
#ifndef BY_HAND_H
#define BY_HAND_H

#include "wsprcard.h"

/* Each takes and answers what the call of wsprcard.h behind its first word does, whatever it is given. */
wspr_word hand_pack(const uint8_t *callsign, size_t callsign_len, const uint8_t *locator, size_t locator_len,
                    uint32_t power);
wspr_message hand_unpack(uint64_t word, uint8_t *callsign, size_t callsign_len, uint8_t *locator, size_t locator_len);

wspr_written hand_write_word(uint64_t word, uint8_t *frame, size_t frame_len);
wspr_written hand_write_message(const uint8_t *callsign, size_t callsign_len, const uint8_t *locator,
                                size_t locator_len, uint32_t power, uint8_t *frame, size_t frame_len);
wspr_word hand_read_word(const uint8_t *frame, size_t frame_len);
wspr_message hand_read_message(const uint8_t *frame, size_t frame_len, uint8_t *callsign, size_t callsign_len,
                               uint8_t *locator, size_t locator_len);

wspr_repaired plain_repair(const uint8_t *frame, size_t frame_len, uint32_t limit, uint32_t budget);
wspr_repaired tuned_repair(const uint8_t *frame, size_t frame_len, uint32_t limit, uint32_t budget);

wspr_message hand_u4b_write(uint8_t first, uint8_t third, uint8_t grid5, uint8_t grid6, uint32_t altitude,
                            int32_t temperature, uint32_t voltage, uint32_t speed, uint32_t gps, uint8_t *callsign,
                            size_t callsign_len, uint8_t *locator, size_t locator_len);
u4b_reading hand_u4b_read(const uint8_t *callsign, size_t callsign_len, const uint8_t *locator, size_t locator_len,
                          uint32_t power);

#endif
