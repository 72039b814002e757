/*
 * wsprcard: WSPR type 1 messages, their 50-bit words, frames of 162 symbols and their repair, and U4B
 * basic telemetry.
 *
 * Every call takes any bytes and any numbers, always ends, and either does its job or refuses by the
 * table below. On success `refusal` and `place` are 0. On a refusal every other number of the result
 * is 0, and no buffer is written.
 *
 * A buffer is a pointer and its length: `callsign` and `callsign_len`, `locator` and `locator_len`,
 * `frame` and `frame_len`. That many bytes must be there. NULL with length 0 is an empty buffer.
 * Buffers lent to one call must not overlap. Callsign and locator have no terminating zero: none is
 * counted in a length, and none is written.
 *
 *   refusal                                                      place
 *   1  a buffer hasn't its exact length (callsign 6, locator 4,  0
 *      frame 162)
 *   2  a character is outside its set                            the first such, 0 to 9
 *   3  the power isn't one of the 19                             0
 *   4  the word is 2^50 or more; where a message is read also:   0
 *      its upper 28 bits, the callsign's number, are 262,177,560
 *      or more
 *   5  the 15 bits after them, the locator's number, are         0
 *      32,400 or more
 *   6  the low seven bits less 64 aren't a legal power; from     0
 *      the air most often a message of type 2 or 3, with a
 *      compound or a hashed callsign
 *   7  a symbol is above 3                                       the first such, 0 to 161
 *   8  a sync bit (a symbol modulo 2) is wrong                   the first such, 0 to 161
 *   9  no 50-bit word has this frame                             0
 *   10 the first character isn't 0, 1 or Q, or a space stands in 0, else the first space's, 3 to 5
 *      places 3 to 5
 *   11 B is even: extended telemetry, not basic                  0
 *   12 A is 615,168 or more                                      0
 *   13 B is 604,800 or more                                      0
 *   14 a telemetry input is out of range                         the first such: 0 first, 1 third,
 *                                                                2 grid5, 3 grid6, 4 altitude,
 *                                                                5 temperature, 6 voltage, 7 speed,
 *                                                                8 gps
 *   15 the limit is above 12; the budget is 0 or above 65,536    0 the limit, 1 the budget
 *   16 the live count is above the budget; a larger one, up to   0
 *      65,536, or a smaller limit may answer
 *   17 no word is within the limit                               0
 *   18 two or more words share the fewest disagreements          0
 *
 * Callsign places 0 to 5: 0 is 0-9, A-Z or space; 1 is 0-9 or A-Z; 2 is 0-9; 3 to 5 are A-Z or
 * space. Locator places 6 to 9: 6 and 7 are A-R, 8 and 9 are 0-9. The powers are
 * 0 3 7 10 13 17 20 23 27 30 33 37 40 43 47 50 53 57 60 dBm.
 *
 * Small letters of a callsign and a locator count as their capitals: a call answers what it answers
 * to the capital form, the message with a to z replaced by A to Z, refusals too. What a call writes
 * or returns is capitals only.
 *
 * A frame is one byte a symbol, each 0 to 3, in the order in which they are sent. A symbol is its sync
 * bit (the symbol modulo 2) and twice its data bit.
 *
 * The word's 50 bits, highest first, and then 31 zeros are clocked into the coder, and each of these 81
 * gives two of the frame's 162 data bits. The disagreements of a word with a received frame are the
 * number of data bits in which the word's own frame differs from it. A prefix is the first 1 to 81
 * clocked bits of a word, and its disagreements are counted in its own data bits only, two for each of
 * its bits. It is live if they are at most the limit. The live count is the number of live prefixes of
 * all lengths together.
 *
 * Telemetry comes as a message. The callsign's places 0 and 2, its first and third character, name
 * the channel. The number A, of sub-square and altitude, has its digits in places 1, 3, 4 and 5, with
 * radices 36, 26, 26, 26. The number B, of temperature, voltage, speed and GPS, has its digits in
 * places 6 to 9 and in the power's index, its place from 0 in the list above, with radices 18, 18, 10,
 * 10, 19. The highest digit comes first. At place 1 the digits count 0 to 9 and the letters 10 to 35;
 * at the other places letters and digits count from 0. The message that u4b_write gives goes to
 * wspr_write_message, and one that wspr_read_message gives goes to u4b_read.
 */
#ifndef WSPRCARD_H
#define WSPRCARD_H

#include <stddef.h>
#include <stdint.h>

#ifdef __cplusplus
extern "C" {
#endif

typedef struct {
    uint32_t refusal, place;
} wspr_written;

typedef struct {
    uint32_t refusal, place;
    uint64_t word;
} wspr_word;

typedef struct {
    uint32_t refusal, place, power;
} wspr_message;

/* The word nearest to a received frame: its disagreements in data bits, 0 to 12; the live count in prefixes, 81 to
 * 65,536; the number of symbols whose sync bit is wrong, 0 to 162; and the margin in data bits, 1 to 13: how many more
 * disagreements the next nearest word has. */
typedef struct {
    uint32_t refusal, place;
    uint64_t word;
    uint32_t disagreements, live, sync_wrong, margin;
} wspr_repaired;

/* What telemetry says, in the units in which it is read: metres, degrees, millivolts, knots. */
typedef struct {
    uint32_t refusal, place;
    uint8_t first, third, grid5, grid6;
    uint32_t altitude;
    int32_t temperature;
    uint32_t voltage, speed, gps;
} u4b_reading;

/* The word of a message. Refusals 1, 2, 3, in that order. */
wspr_word wspr_pack(const uint8_t *callsign, size_t callsign_len, const uint8_t *locator, size_t locator_len,
                    uint32_t power);

/* The message of a word: writes its callsign and locator, returns its power. Refusals 1, 4, 5, 6, in that order: 4, 5
 * and 6 exactly for the words that wspr_pack never makes. */
wspr_message wspr_unpack(uint64_t word, uint8_t *callsign, size_t callsign_len, uint8_t *locator, size_t locator_len);

/* Writes the frame of a word, a message's or not. Refusals 1, 4, in that order: 4 for a word of 2^50 or more only. */
wspr_written wspr_write_word(uint64_t word, uint8_t *frame, size_t frame_len);

/* Writes the frame of a message. Refusals 1 (any of the three buffers), 2, 3, in that order. */
wspr_written wspr_write_message(const uint8_t *callsign, size_t callsign_len, const uint8_t *locator, size_t locator_len,
                                uint32_t power, uint8_t *frame, size_t frame_len);

/* Strict reading: the word of a frame, without any repair. Refusals 1, 7, 8, 9, in that order: exactly for the frames
 * that wspr_write_word never makes. */
wspr_word wspr_read_word(const uint8_t *frame, size_t frame_len);

/* Strict reading to the message: writes its callsign and locator, returns its power. First the refusals of
 * wspr_read_word; then, with a word in hand, those of wspr_unpack: 1 (callsign, locator), 4, 5, 6. With both buffers of
 * their lengths it refuses exactly the frames that wspr_write_message never makes. */
wspr_message wspr_read_message(const uint8_t *frame, size_t frame_len, uint8_t *callsign, size_t callsign_len,
                               uint8_t *locator, size_t locator_len);

/* Repair: the word with the fewest disagreements of all 2^50 words, from a frame that may be damaged and is only read.
 * The live count measures the work: the search stops at once where it passes the budget.
 *
 *   limit   0 to 12 data bits: the most disagreements that the word may have
 *   budget  1 to 65,536 prefixes: the largest live count that is gone through
 *
 * The live count of a clean frame, in which no data bit is flipped, by limit; proved up to limit 10:
 *
 *   limit  0  1   2   3   4     5     6     7      8      9     10      11      12
 *   live  81 81 131 279 569 1,573 3,495 7,611 17,851 42,557 97,265 222,823 514,948
 *
 * A budget below the live count refuses even a clean frame (16): with a budget of 65,536, the largest, a clean frame is
 * answered at limits up to 9, and at limits 10 to 12 with none. So use limits up to 9. No frame, whatever was received,
 * has a live count above that of a clean frame at twice the limit: so a budget of 569 is enough for every frame at
 * limit 2, and one of 17,851 at limit 4. This is proved; at limits from 5 on no budget is proved to be enough for every
 * frame.
 *
 * At limit 2 the live count of a clean frame is 131, and that of a frame with one flipped data bit at most 135, reached
 * exactly where the data bit of symbol 105, counted from 0, is the flipped one. So a budget of 131 always gives the
 * word of a clean frame back, and one of 135 that of a frame with one flipped data bit, too. This is proved for every
 * word.
 *
 * The frames of two words differ in at least 28 data bits (proved). So whichever word was sent, and whichever of its
 * frame's data bits were flipped:
 *
 *   as many as the limit, or fewer: that word is given, with the number of flipped bits as its disagreements, where the
 *     budget is the live count or more; so two at most are always repaired at limit 2 and budget 16,000, and four at
 *     most at limit 4 and a budget of 17,851 or more
 *   more than the limit, but flips and limit together fewer than 28: no word is given, but 17, or 16 where the live
 *     count is above the budget
 *   at any limit and budget, a word other than the sent one takes more flipped bits than it has disagreements, and 28
 *     or more of both together: at limit 4 at least 24, at limit 2 at least 26
 *
 * The margin: every other word has at least so many more disagreements than the answer. Where no other word is within
 * the limit, the next is taken to have limit + 1. As no two words are within one limit, the margin is always limit + 1
 * less the disagreements: it grows with the limit, and other words may be further away than that.
 *
 * Refusals 1, 15, 7, 16, 17, 18, in that order; 18 is never given. Sync bits never refuse a repair: the wrong ones are
 * counted. A repaired word need not be a message's: wspr_unpack turns it into its message, or refuses. */
wspr_repaired wspr_repair(const uint8_t *frame, size_t frame_len, uint32_t limit, uint32_t budget);

/* The message of a telemetry report: writes its callsign and locator, returns its power. Each reading is rounded down
 * to its step.
 *
 *   first        the channel's first character, '0', '1' or 'Q'
 *   third        the channel's third character, '0' to '9'
 *   grid5 grid6  the sub-square's letters, 'A' to 'X' each
 *   altitude     0 to 21,359 metres, in steps of 20
 *   temperature  -500 to 399 tenths of a degree, in steps of 10
 *   voltage      3,000 to 4,999 millivolts, in steps of 50
 *   speed        0 to 839 tenths of a knot, in steps of 20
 *   gps          0 or 1
 *
 * Small letters are out of range here: only those of a callsign and a locator count as their capitals.
 *
 * Refusals 1, 14, in that order: nothing is clamped. What u4b_read gives of the message is the low end of each step, so
 * never above what was measured and less than one step below it: -10 to -1 tenths give -1 degree, 0 to 9 give 0. */
wspr_message u4b_write(uint8_t first, uint8_t third, uint8_t grid5, uint8_t grid6, uint32_t altitude,
                       int32_t temperature, uint32_t voltage, uint32_t speed, uint32_t gps, uint8_t *callsign,
                       size_t callsign_len, uint8_t *locator, size_t locator_len);

/* The telemetry of a message: first, third, grid5 and grid6 as u4b_write takes them; altitude 0 to 21,340 metres,
 * temperature -50 to 39 degrees, voltage 3,000 to 4,950 millivolts, speed 0 to 82 knots, gps 0 or 1. Refusals 1, 2, 3,
 * 10, 11, 12, 13, in that order: exactly for the messages whose capital form u4b_write never makes. Of what is read,
 * u4b_write makes the message's capital form again, with temperature and speed times 10. */
u4b_reading u4b_read(const uint8_t *callsign, size_t callsign_len, const uint8_t *locator, size_t locator_len,
                     uint32_t power);

#ifdef __cplusplus
}
#endif

#endif
