/* U4B basic telemetry by hand: two numbers by Horner's rule, and their digits by divisions by constants. */
#include "by_hand.h"
#include "message.h"

#define POSITIONS 615168
#define SENSORS 604800

static int is_first(uint8_t byte)
{
    return byte == '0' || byte == '1' || byte == 'Q';
}

/* The capital of a small letter; any other byte as it is. */
static uint8_t capital_of(uint8_t byte)
{
    return byte >= 'a' && byte <= 'z' ? (uint8_t)(byte - 'a' + 'A') : byte;
}

static int is_sub_square(uint8_t byte)
{
    return byte >= 'A' && byte <= 'X';
}

static wspr_message refused(uint32_t refusal, uint32_t place)
{
    return (wspr_message){.refusal = refusal, .place = place};
}

/* The number of sub-square and altitude, in places 1, 3, 4 and 5. */
static void write_position(uint32_t number, uint8_t *callsign)
{
    uint32_t highest = number / (26 * 26 * 26);

    callsign[1] = (uint8_t)(highest < 10 ? '0' + highest : 'A' + highest - 10);
    callsign[3] = (uint8_t)('A' + number / (26 * 26) % 26);
    callsign[4] = (uint8_t)('A' + number / 26 % 26);
    callsign[5] = (uint8_t)('A' + number % 26);
}

/* The number of temperature, voltage, speed and GPS, in the locator and the power, which is returned. */
static uint32_t write_sensors(uint32_t number, uint8_t *locator)
{
    uint32_t above = number / POWERS;

    locator[3] = (uint8_t)('0' + above % 10);
    locator[2] = (uint8_t)('0' + above / 10 % 10);
    locator[1] = (uint8_t)('A' + above / 100 % 18);
    locator[0] = (uint8_t)('A' + above / 1800 % 18);
    return powers[number % POWERS];
}

/* The place of the first input that is out of its range, or 9. */
static uint32_t first_out_of_range(uint8_t first, uint8_t third, uint8_t grid5, uint8_t grid6, uint32_t altitude,
                                   int32_t temperature, uint32_t voltage, uint32_t speed, uint32_t gps)
{
    if (!is_first(first))
        return 0;
    if (third < '0' || third > '9')
        return 1;
    if (!is_sub_square(grid5))
        return 2;
    if (!is_sub_square(grid6))
        return 3;
    if (altitude > 21359)
        return 4;
    if (temperature < -500 || temperature > 399)
        return 5;
    if (voltage < 3000 || voltage > 4999)
        return 6;
    if (speed > 839)
        return 7;
    return gps > 1 ? 8 : 9;
}

wspr_message hand_u4b_write(uint8_t first, uint8_t third, uint8_t grid5, uint8_t grid6, uint32_t altitude,
                            int32_t temperature, uint32_t voltage, uint32_t speed, uint32_t gps, uint8_t *callsign,
                            size_t callsign_len, uint8_t *locator, size_t locator_len)
{
    uint32_t place, position, sensors;

    if (callsign_len != CALLSIGN || locator_len != LOCATOR)
        return refused(1, 0);
    place = first_out_of_range(first, third, grid5, grid6, altitude, temperature, voltage, speed, gps);
    if (place < 9)
        return refused(14, place);
    position = ((grid5 - 'A') * 24u + (grid6 - 'A')) * 1068 + altitude / 20;
    sensors = (uint32_t)(temperature + 500) / 10 * 40 + (voltage - 2000) / 50 % 40;
    sensors = ((sensors * 42 + speed / 20) * 2 + gps) * 2 + 1;
    callsign[0] = first;
    callsign[2] = third;
    write_position(position, callsign);
    return (wspr_message){.power = write_sensors(sensors, locator)};
}

static u4b_reading unread(uint32_t refusal, uint32_t place)
{
    return (u4b_reading){.refusal = refusal, .place = place};
}

/* What a channel and two numbers say that are basic telemetry's. */
static u4b_reading reading_of(uint8_t first, uint8_t third, uint32_t position, uint32_t sensors)
{
    return (u4b_reading){
        .first = first,
        .third = third,
        .grid5 = (uint8_t)('A' + position / (24 * 1068)),
        .grid6 = (uint8_t)('A' + position / 1068 % 24),
        .altitude = 20 * (position % 1068),
        .temperature = (int32_t)(sensors / (40 * 42 * 4)) - 50,
        .voltage = 3000 + 50 * ((sensors / (42 * 4) + 20) % 40),
        .speed = 2 * (sensors / 4 % 42),
        .gps = sensors / 2 % 2,
    };
}

u4b_reading hand_u4b_read(const uint8_t *callsign, size_t callsign_len, const uint8_t *locator, size_t locator_len,
                          uint32_t power)
{
    parts m;
    const uint32_t *d = m.digits;
    uint32_t position, sensors;
    uint8_t first;

    take_apart(&m, callsign, callsign_len, locator, locator_len, power);
    if (m.refusal)
        return unread(m.refusal, m.place);
    first = capital_of(callsign[0]);
    if (!is_first(first))
        return unread(10, 0);
    for (uint32_t place = 3; place < CALLSIGN; place++)
        if (callsign[place] == ' ')
            return unread(10, place);
    position = ((d[1] * 26 + d[3]) * 26 + d[4]) * 26 + d[5];
    sensors = (((d[6] * 18 + d[7]) * 10 + d[8]) * 10 + d[9]) * POWERS + m.index;
    if (sensors % 2 == 0)
        return unread(11, 0);
    if (position >= POSITIONS)
        return unread(12, 0);
    if (sensors >= SENSORS)
        return unread(13, 0);
    return reading_of(first, callsign[2], position, sensors);
}
