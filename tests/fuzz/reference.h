/* The independent implementation in Rust behind the card's C interface: each answers as the export of its name does. */
#ifndef REFERENCE_H
#define REFERENCE_H

#include "wsprcard.h"

wspr_word reference_pack(const uint8_t *callsign, size_t callsign_len, const uint8_t *locator, size_t locator_len,
                         uint32_t power);
wspr_message reference_unpack(uint64_t word, uint8_t *callsign, size_t callsign_len, uint8_t *locator,
                              size_t locator_len);
wspr_written reference_write_word(uint64_t word, uint8_t *frame, size_t frame_len);
wspr_written reference_write_message(const uint8_t *callsign, size_t callsign_len, const uint8_t *locator,
                                     size_t locator_len, uint32_t power, uint8_t *frame, size_t frame_len);
wspr_word reference_read_word(const uint8_t *frame, size_t frame_len);
wspr_message reference_read_message(const uint8_t *frame, size_t frame_len, uint8_t *callsign, size_t callsign_len,
                                    uint8_t *locator, size_t locator_len);
wspr_repaired reference_repair(const uint8_t *frame, size_t frame_len, uint32_t limit, uint32_t budget);

/* The live count of a frame of 162 symbols 0 to 3. It is counted through to the end, so the limit has to be low. */
uint64_t reference_live_count(const uint8_t *frame, uint32_t limit);

wspr_message reference_u4b_write(uint8_t first, uint8_t third, uint8_t grid5, uint8_t grid6, uint32_t altitude,
                                 int32_t temperature, uint32_t voltage, uint32_t speed, uint32_t gps,
                                 uint8_t *callsign, size_t callsign_len, uint8_t *locator, size_t locator_len);
u4b_reading reference_u4b_read(const uint8_t *callsign, size_t callsign_len, const uint8_t *locator,
                               size_t locator_len, uint32_t power);

#endif
