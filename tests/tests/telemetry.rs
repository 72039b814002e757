// Writing telemetry and reading it: the library against the independent implementation, on
// legal, damaged and arbitrary inputs.
use std::collections::HashSet;

use wsprcard_tests::answers::{message_answer, reading_answer, refused_message, refused_reading};
use wsprcard_tests::card;
use wsprcard_tests::counts::Counts;
use wsprcard_tests::inputs::{
    bad_character, bad_power, capital_form, characters_of, field_lengths, is_legal, legal_bytes,
    message_in_any_case, message_in_small_letters, random_characters, random_message,
    random_telemetry, recase, spoil, spoil_telemetry, LEGAL_BYTES,
};
use wsprcard_tests::lent::Lent;
use wsprcard_tests::reference::frame::FRAME_LEN;
use wsprcard_tests::reference::message::{Message, CALLSIGN_LEN, CHARACTERS, LOCATOR_LEN, POWERS};
use wsprcard_tests::reference::telemetry::{self as reference, Telemetry, AS, BS, ROOM_A, ROOM_B};
use wsprcard_tests::rng::Rng;

/// Compares the library with the reference, call by call, and counts the answers.
struct Check {
    rng: Rng,
    counts: Counts,
}

impl Check {
    fn new(seed: u64) -> Check {
        Check { rng: Rng::new(seed), counts: Counts::new() }
    }

    fn write(&mut self, telemetry: &Telemetry) -> card::Message {
        self.write_into(telemetry, CALLSIGN_LEN, LOCATOR_LEN)
    }

    fn write_into(
        &mut self,
        telemetry: &Telemetry,
        callsign_len: usize,
        locator_len: usize,
    ) -> card::Message {
        let callsign = Lent::random(&mut self.rng, callsign_len);
        let locator = Lent::random(&mut self.rng, locator_len);
        self.write_lent(telemetry, callsign, locator)
    }

    fn write_lent(
        &mut self,
        telemetry: &Telemetry,
        mut callsign: Lent,
        mut locator: Lent,
    ) -> card::Message {
        let found = card::write_telemetry_lent(telemetry, &mut callsign, &mut locator);
        let answer = reference::write(telemetry, callsign.len(), locator.len());
        let input = || format!("write {telemetry:?} into {} {}", callsign.shown(), locator.shown());
        assert_eq!(found, message_answer(answer), "{}", input());
        let message = answer.ok();
        callsign.assert_holds(message.as_ref().map(|message| &message.callsign), input);
        locator.assert_holds(message.as_ref().map(|message| &message.locator), input);
        self.counts.count("write", found.refusal);
        found
    }

    fn read(&mut self, callsign: &[u8], locator: &[u8], power: u32) -> card::Reading {
        let callsign = Lent::holding(&mut self.rng, callsign);
        let locator = Lent::holding(&mut self.rng, locator);
        self.read_lent(callsign, locator, power)
    }

    fn read_message(&mut self, message: &Message) -> card::Reading {
        self.read(&message.callsign, &message.locator, message.power)
    }

    /// Ten characters, of which the first six are the callsign.
    fn read_characters(&mut self, characters: &[u8; 10], power: u32) -> card::Reading {
        self.read(&characters[..6], &characters[6..], power)
    }

    /// The same, and holds the answer to that of the capital form.
    fn read_as_capitals(&mut self, characters: &[u8; 10], power: u32) -> card::Reading {
        let found = self.read_characters(characters, power);
        let capitals = capital_form(*characters);
        let expected = card::read_telemetry(&capitals[..6], &capitals[6..], power);
        assert_eq!(found, expected, "{} {power}", text(characters));
        found
    }

    fn read_lent(&mut self, mut callsign: Lent, mut locator: Lent, power: u32) -> card::Reading {
        let found = card::read_telemetry_lent(&mut callsign, &mut locator, power);
        let answer = reference::read(callsign.lent(), locator.lent(), power);
        let input = || format!("read {} {} {power}", callsign.shown(), locator.shown());
        assert_eq!(found, reading_answer(answer), "{}", input());
        assert!(callsign.is_unchanged(), "{} wrote at the callsign", input());
        assert!(locator.is_unchanged(), "{} wrote at the locator", input());
        self.counts.count("read", found.refusal);
        found
    }

    fn finish(self, at_least: &[(&'static str, u32, u64)]) {
        self.counts.finish(at_least);
    }
}

/// The message that the library writes of telemetry it must accept.
fn message_of(telemetry: &Telemetry) -> Message {
    let (mut callsign, mut locator) = ([0; CALLSIGN_LEN], [0; LOCATOR_LEN]);
    let found = card::write_telemetry(telemetry, &mut callsign, &mut locator);
    assert_eq!((found.refusal, found.place), (0, 0), "write {telemetry:?}");
    Message { callsign, locator, power: found.power }
}

/// The telemetry that the library reads from a message it must accept.
fn telemetry_in(message: &Message) -> Telemetry {
    let found = card::read_telemetry(&message.callsign, &message.locator, message.power);
    assert_eq!((found.refusal, found.place), (0, 0), "read {message:?}");
    Telemetry {
        first: found.first,
        third: found.third,
        grid5: found.grid5,
        grid6: found.grid6,
        altitude: found.altitude,
        temperature: found.temperature,
        voltage: found.voltage,
        speed: found.speed,
        gps: found.gps,
    }
}

/// What is to be read of telemetry that was written, said without its codes.
fn whole_steps(written: &Telemetry) -> Telemetry {
    Telemetry {
        altitude: written.altitude - written.altitude % 20,
        temperature: (written.temperature - written.temperature.rem_euclid(10)) / 10,
        voltage: written.voltage - written.voltage % 50,
        speed: (written.speed - written.speed % 20) / 10,
        ..*written
    }
}

/// The four readings of a report in the units in which they are written, with their steps.
fn in_steps(written: &Telemetry) -> [(&'static str, i64, i64); 4] {
    [
        ("altitude", i64::from(written.altitude), 20),
        ("temperature", i64::from(written.temperature), 10),
        ("voltage", i64::from(written.voltage), 50),
        ("speed", i64::from(written.speed), 20),
    ]
}

/// What reads back is never above what was written and less than one step below it.
fn assert_within_steps(written: &Telemetry, reading: Telemetry) {
    let pairs = in_steps(written).into_iter().zip(in_steps(&reading.in_tenths()));
    for ((name, measured, step), (_, back, _)) in pairs {
        assert!(
            (0..step).contains(&(measured - back)),
            "{name}: {measured} reads back as {back}, in steps of {step}"
        );
    }
}

/// The telemetry of a report's message: each reading is the low end of its step.
fn read_back(message: &Message, written: &Telemetry) -> Telemetry {
    let reading = telemetry_in(message);
    assert_eq!(reading, whole_steps(written), "{message:?}");
    assert_within_steps(written, reading);
    reading
}

/// The bench sheet's report.
const REPORT: Telemetry = Telemetry {
    first: b'Q',
    third: b'2',
    grid5: b'S',
    grid6: b'K',
    altitude: 12_340,
    temperature: -150,
    voltage: 4_100,
    speed: 300,
    gps: 1,
};

/// The report with the largest A and the largest B.
const LARGEST: Telemetry = Telemetry {
    first: b'0',
    third: b'0',
    grid5: b'X',
    grid6: b'X',
    altitude: 21_359,
    temperature: 399,
    voltage: 3_999,
    speed: 839,
    gps: 1,
};

fn message(callsign: &[u8; 6], locator: &[u8; 4], power: u32) -> Message {
    Message { callsign: *callsign, locator: *locator, power }
}

/// A message of a channel with any A and any B, a report's or not.
fn message_with(rng: &mut Rng, a: u32, b: u32) -> Message {
    let third = rng.between(b'0'.into(), b'9'.into()) as u8;
    let callsign = reference::callsign_of(rng.pick(b"01Q"), third, a);
    let (locator, power) = reference::locator_and_power_of(b);
    Message { callsign, locator, power }
}

/// A message of random telemetry.
fn random_report(rng: &mut Rng) -> Message {
    let telemetry = random_telemetry(rng);
    reference::write(&telemetry, CALLSIGN_LEN, LOCATOR_LEN).unwrap()
}

fn text(bytes: &[u8]) -> String {
    bytes.escape_ascii().to_string()
}

// The published values

#[test]
fn the_bench_sheet_holds() {
    let mut check = Check::new(1);
    assert_eq!((reference::a_of(&REPORT), reference::b_of(&REPORT)), (472_673, 235_599));
    assert_eq!(message_of(&REPORT), message(b"QQ2XFT", b"GP99", 60));
    let reading = Telemetry { temperature: -15, speed: 30, ..REPORT };
    assert_eq!(telemetry_in(&message(b"QQ2XFT", b"GP99", 60)), reading);
    assert_eq!(telemetry_in(&message(b"qq2xft", b"gp99", 60)), reading);
    assert_eq!(telemetry_in(&message(b"qQ2xFt", b"Gp99", 60)), reading);
    assert_eq!((reference::a_of(&LARGEST), reference::b_of(&LARGEST)), (615_167, 604_799));
    assert_eq!(message_of(&LARGEST), message(b"0Z0AAH", b"RM31", 33));
    let reading =
        Telemetry { altitude: 21_340, temperature: 39, voltage: 3_950, speed: 82, ..LARGEST };
    assert_eq!(telemetry_in(&message(b"0Z0AAH", b"RM31", 33)), reading);
    assert_eq!(telemetry_in(&message(b"0z0aah", b"rm31", 33)), reading);
    assert_eq!(check.read(b"0Z0AAI", b"RM31", 33), refused_reading(12, 0));
    assert_eq!(check.read(b"0Z0AAH", b"RM31", 37), refused_reading(11, 0));
    assert_eq!(check.read(b"0Z0AAH", b"RM31", 40), refused_reading(13, 0));
    assert_eq!(check.read(b"000AAA", b"AA00", 0), refused_reading(11, 0));
    assert_eq!(check.read(b"0z0aai", b"rm31", 33), refused_reading(12, 0));
    assert_eq!(check.read(b"0z0aah", b"rm31", 37), refused_reading(11, 0));
    assert_eq!(check.read(b"0z0aah", b"rm31", 40), refused_reading(13, 0));
    assert_eq!(check.read(b"000aaa", b"aa00", 0), refused_reading(11, 0));
    let too_high = Telemetry { altitude: 21_360, ..REPORT };
    assert_eq!(check.write(&too_high), refused_message(14, 4));
    check.finish(&[("write", 14, 1), ("read", 11, 4), ("read", 12, 2), ("read", 13, 2)]);
}

/// Voltage 3,000 is code 20, 4,999 is code 19, code 0 reads 4,000; altitude 21,359 is code
/// 1,067. The codes are found in the numbers that the library's messages hold.
#[test]
fn the_bench_sheets_codes_hold() {
    for (voltage, code) in [(3_000, 20), (4_999, 19), (4_000, 0), (3_999, 39), (4_049, 0)] {
        let message = message_of(&Telemetry { voltage, ..REPORT });
        let b = reference::b_in(&message.locator, message.power);
        assert_eq!(b / (2 * 2 * 42) % 40, code, "{voltage} mV in {message:?}");
    }
    let mut rng = Rng::new(2);
    let b = (35 * 40 * 42 + 15) * 4 + 3;
    assert_eq!(telemetry_in(&message_with(&mut rng, 472_673, b)).voltage, 4_000);
    let message = message_of(&Telemetry { altitude: 21_359, ..REPORT });
    assert_eq!(reference::a_in(&message.callsign) % 1068, 1_067, "{message:?}");
}

/// The lowest and the highest input at every place, in every combination.
#[test]
fn every_corner_of_the_ranges_is_written_and_read_back() {
    let mut check = Check::new(3);
    for ends in 0u32..512 {
        let end = |place: u32, low: u32, high: u32| if ends >> place & 1 == 0 { low } else { high };
        let telemetry = Telemetry {
            first: end(0, b'0'.into(), b'Q'.into()) as u8,
            third: end(1, b'0'.into(), b'9'.into()) as u8,
            grid5: end(2, b'A'.into(), b'X'.into()) as u8,
            grid6: end(3, b'A'.into(), b'X'.into()) as u8,
            altitude: end(4, 0, 21_359),
            temperature: end(5, 0, 899) as i32 - 500,
            voltage: end(6, 3_000, 4_999),
            speed: end(7, 0, 839),
            gps: end(8, 0, 1),
        };
        assert_eq!(check.write(&telemetry).refusal, 0, "{telemetry:?}");
        let message = message_of(&telemetry);
        assert_eq!(check.read_message(&message).refusal, 0, "{message:?}");
        read_back(&message, &telemetry);
    }
    check.finish(&[("write", 0, 512), ("read", 0, 512)]);
}

// Writing: every input in its range and around it

/// Writes telemetry with this input changed to each of these values, the others random, and
/// holds the answer to: written and read back in whole steps, or refused 14 at this place.
fn each_is_written_or_refused<Value>(
    seed: u64,
    place: usize,
    values: impl IntoIterator<Item = Value>,
    set: impl Fn(&mut Telemetry, Value),
    at_least: (u64, u64),
) {
    let mut check = Check::new(seed);
    for value in values {
        let mut telemetry = random_telemetry(&mut check.rng);
        set(&mut telemetry, value);
        let found = check.write(&telemetry);
        if telemetry.in_range()[place] {
            let message = message_of(&telemetry);
            read_back(&message, &telemetry);
        } else {
            assert_eq!(found, refused_message(14, place as u32), "{telemetry:?}");
        }
    }
    check.finish(&[("write", 0, at_least.0), ("write", 14, at_least.1)]);
}

/// Numbers whose low bits are in a range, though they aren't: each legal one with one higher
/// bit changed.
fn with_a_higher_bit(legal: impl Iterator<Item = u32>, bits: u32) -> Vec<u32> {
    legal.flat_map(|number| (bits..32).map(move |bit| number ^ 1 << bit)).collect()
}

/// Numbers at the ends of those of 16, 31 and 32 bits. As signed ones: at both ends and below 0.
fn extremes() -> impl Iterator<Item = u32> {
    let half = 1u32 << 31;
    (65_000..66_000).chain(half - 700..half + 700).chain(u32::MAX - 1_000..=u32::MAX)
}

#[test]
fn every_altitude_is_written_or_refused() {
    let mut altitudes: Vec<u32> = (0..=43_000).collect();
    altitudes.extend(extremes());
    altitudes.extend(with_a_higher_bit((0..=21_359).step_by(97), 15));
    let set = |telemetry: &mut Telemetry, altitude| telemetry.altitude = altitude;
    each_is_written_or_refused(4, 4, altitudes, set, (21_360, 21_640 + 3_400 + 221 * 17));
}

#[test]
fn every_temperature_is_written_or_refused() {
    let mut temperatures: Vec<i32> = (-5_000..=5_000).collect();
    temperatures.extend(extremes().map(|number| number as i32));
    let legal = (-500..=399).step_by(7).map(|temperature: i32| temperature as u32);
    temperatures.extend(with_a_higher_bit(legal, 10).into_iter().map(|number| number as i32));
    let set = |telemetry: &mut Telemetry, temperature| telemetry.temperature = temperature;
    each_is_written_or_refused(5, 5, temperatures, set, (900, 9_101 + 2_900 + 129 * 22));
}

/// Tenths are rounded down: ten to each degree, at zero and at both ends too.
#[test]
fn tenths_of_a_degree_are_rounded_down() {
    let degrees_of = [
        (-500, -50),
        (-499, -50),
        (-491, -50),
        (-490, -49),
        (-489, -49),
        (-20, -2),
        (-19, -2),
        (-11, -2),
        (-10, -1),
        (-9, -1),
        (-5, -1),
        (-1, -1),
        (0, 0),
        (1, 0),
        (9, 0),
        (10, 1),
        (19, 1),
        (20, 2),
        (389, 38),
        (390, 39),
        (399, 39),
    ];
    for (temperature, degrees) in degrees_of {
        let message = message_of(&Telemetry { temperature, ..REPORT });
        assert_eq!(telemetry_in(&message).temperature, degrees, "{temperature} tenths");
        let code = reference::b_in(&message.locator, message.power) / (40 * 42 * 2 * 2);
        assert_eq!(code as i32, degrees + 50, "{temperature} tenths");
    }
}

#[test]
fn every_voltage_is_written_or_refused() {
    let mut voltages: Vec<u32> = (0..=12_000).collect();
    voltages.extend(extremes());
    voltages.extend(with_a_higher_bit((3_000..=4_999).step_by(7), 13));
    let set = |telemetry: &mut Telemetry, voltage| telemetry.voltage = voltage;
    each_is_written_or_refused(6, 6, voltages, set, (2_000, 10_001 + 3_400 + 286 * 19));
}

#[test]
fn every_speed_is_written_or_refused() {
    let mut speeds: Vec<u32> = (0..=4_000).collect();
    speeds.extend(extremes());
    speeds.extend(with_a_higher_bit(0..=839, 10));
    let set = |telemetry: &mut Telemetry, speed| telemetry.speed = speed;
    each_is_written_or_refused(7, 7, speeds, set, (840, 3_161 + 3_400 + 840 * 22));
}

#[test]
fn every_gps_value_is_written_or_refused() {
    let mut values: Vec<u32> = (0..=1_000).collect();
    values.extend(extremes());
    values.extend(with_a_higher_bit(0..=1, 1));
    let set = |telemetry: &mut Telemetry, gps| telemetry.gps = gps;
    each_is_written_or_refused(8, 8, values, set, (2, 999 + 3_400 + 60));
}

/// Every pair of bytes for the channel: the 30 channels are written, all else is refused.
#[test]
fn every_channel_is_written_or_refused() {
    let mut check = Check::new(9);
    for first in 0..=255 {
        for third in 0..=255 {
            let telemetry = Telemetry { first, third, ..random_telemetry(&mut check.rng) };
            let found = check.write(&telemetry);
            match (first, third) {
                (b'0' | b'1' | b'Q', b'0'..=b'9') => {
                    let reading = telemetry_in(&message_of(&telemetry));
                    assert_eq!((reading.first, reading.third), (first, third));
                }
                (b'0' | b'1' | b'Q', _) => assert_eq!(found, refused_message(14, 1), "{third}"),
                _ => assert_eq!(found, refused_message(14, 0), "{first} {third}"),
            }
        }
    }
    check.finish(&[("write", 0, 30), ("write", 14, 65_506)]);
}

/// Every pair of bytes for the sub-square: capitals A to X are written, all else is refused.
#[test]
fn every_sub_square_is_written_or_refused() {
    let mut check = Check::new(10);
    for grid5 in 0..=255 {
        for grid6 in 0..=255 {
            let telemetry = Telemetry { grid5, grid6, ..random_telemetry(&mut check.rng) };
            let found = check.write(&telemetry);
            match (grid5, grid6) {
                (b'A'..=b'X', b'A'..=b'X') => {
                    let reading = telemetry_in(&message_of(&telemetry));
                    assert_eq!((reading.grid5, reading.grid6), (grid5, grid6));
                }
                (b'A'..=b'X', _) => assert_eq!(found, refused_message(14, 3), "{grid6}"),
                _ => assert_eq!(found, refused_message(14, 2), "{grid5} {grid6}"),
            }
        }
    }
    check.finish(&[("write", 0, 576), ("write", 14, 64_960)]);
}

/// Every A: each altitude code in each sub-square, written, read, and written again.
#[test]
fn every_a_is_written_and_read_back() {
    let mut check = Check::new(11);
    for square in 0..576 {
        for code in 0..1_068 {
            let telemetry = Telemetry {
                grid5: b'A' + (square / 24) as u8,
                grid6: b'A' + (square % 24) as u8,
                altitude: 20 * code + check.rng.below(20) as u32,
                ..random_telemetry(&mut check.rng)
            };
            assert_written_and_read_back(&mut check, &telemetry);
        }
    }
    check.finish(&[("write", 0, 615_168), ("read", 0, 615_168)]);
}

/// Every B: each temperature, voltage and speed code, without and with GPS.
#[test]
fn every_b_is_written_and_read_back() {
    let mut check = Check::new(12);
    for degrees in -50..=39 {
        for voltage in (3_000..5_000).step_by(50) {
            for speed in (0..840).step_by(20) {
                for gps in 0..=1 {
                    let telemetry = Telemetry {
                        temperature: 10 * degrees + check.rng.below(10) as i32,
                        voltage: voltage + check.rng.below(50) as u32,
                        speed: speed + check.rng.below(20) as u32,
                        gps,
                        ..random_telemetry(&mut check.rng)
                    };
                    assert_written_and_read_back(&mut check, &telemetry);
                }
            }
        }
    }
    check.finish(&[("write", 0, 302_400), ("read", 0, 302_400)]);
}

fn assert_written_and_read_back(check: &mut Check, telemetry: &Telemetry) {
    check.write(telemetry);
    let message = message_of(telemetry);
    check.read_message(&message);
    let reading = read_back(&message, telemetry);
    assert_eq!(message_of(&reading.in_tenths()), message, "{reading:?}");
}

// Writing: refusals and buffers

/// Every set of inputs out of range.
#[test]
fn the_first_of_several_inputs_out_of_range_is_refused() {
    let mut check = Check::new(13);
    for places in 1u32..512 {
        for _ in 0..200 {
            let mut telemetry = random_telemetry(&mut check.rng);
            for place in (0..9).filter(|place| places >> place & 1 == 1) {
                spoil_telemetry(&mut check.rng, &mut telemetry, place);
            }
            let first = places.trailing_zeros();
            assert_eq!(check.write(&telemetry), refused_message(14, first), "{telemetry:?}");
        }
    }
    check.finish(&[("write", 14, 511 * 200)]);
}

#[test]
fn random_telemetry_is_written() {
    let mut check = Check::new(14);
    for _ in 0..200_000 {
        let telemetry = random_telemetry(&mut check.rng);
        assert_eq!(check.write(&telemetry).refusal, 0, "{telemetry:?}");
    }
    check.finish(&[("write", 0, 200_000)]);
}

#[test]
fn arbitrary_inputs_are_written_or_refused() {
    let mut check = Check::new(15);
    for _ in 0..200_000 {
        let mut telemetry = random_telemetry(&mut check.rng);
        let number = check.rng.number() as u32 >> check.rng.below(32);
        let byte = check.rng.byte();
        match check.rng.below(9) {
            0 => telemetry.first = byte,
            1 => telemetry.third = byte,
            2 => telemetry.grid5 = byte,
            3 => telemetry.grid6 = byte,
            4 => telemetry.altitude = number,
            5 => telemetry.temperature = number as i32,
            6 => telemetry.voltage = number,
            7 => telemetry.speed = number,
            _ => telemetry.gps = number,
        }
        check.write(&telemetry);
    }
    check.finish(&[("write", 0, 20_000), ("write", 14, 100_000)]);
}

/// Lengths 0 to 12 and 255 of either buffer, with inputs that would be written or refused.
#[test]
fn wrong_lengths_are_refused_before_all_else_in_writing() {
    let mut check = Check::new(16);
    for callsign_len in field_lengths() {
        for locator_len in field_lengths() {
            for turn in 0..40 {
                let mut telemetry = random_telemetry(&mut check.rng);
                if turn % 2 == 1 {
                    spoil_telemetry(&mut check.rng, &mut telemetry, turn % 9);
                }
                let found = check.write_into(&telemetry, callsign_len, locator_len);
                if (callsign_len, locator_len) != (6, 4) {
                    assert_eq!(found, refused_message(1, 0), "{callsign_len} {locator_len}");
                }
            }
        }
    }
    check.finish(&[("write", 0, 20), ("write", 1, 195 * 40), ("write", 14, 20)]);
}

/// Filled with a pattern and then with its complement, no byte can be right by chance.
#[test]
fn every_byte_of_a_message_is_written() {
    let mut check = Check::new(17);
    for _ in 0..50_000 {
        let telemetry = random_telemetry(&mut check.rng);
        let pattern = check.rng.bytes(10);
        let complement: Vec<u8> = pattern.iter().map(|byte| !byte).collect();
        for filling in [pattern, complement] {
            let callsign = Lent::holding(&mut check.rng, &filling[..6]);
            let locator = Lent::holding(&mut check.rng, &filling[6..]);
            let found = check.write_lent(&telemetry, callsign, locator);
            assert_eq!(found.refusal, 0, "{telemetry:?}");
        }
    }
    check.finish(&[("write", 0, 2 * 50_000)]);
}

// Reading: every message

/// Every callsign of a channel, spaces and all: 36·27·27·27 of them. The counts are 01's: a
/// space in places 3 to 5 is 10, an A of 615,168 or more is 12.
#[test]
fn every_callsign_of_a_channel_is_read_or_refused() {
    let mut check = Check::new(18);
    for channel in [b"00", b"17", b"Q2"] {
        for callsign in callsigns(channel) {
            let Message { locator, power, .. } = random_report(&mut check.rng);
            check.read(&callsign, &locator, power);
        }
    }
    check.finish(&[
        ("read", 0, 3 * 615_168),
        ("read", 10, 3 * 36 * (27 * 27 * 27 - 26 * 26 * 26)),
        ("read", 12, 3 * (36 * 26 * 26 * 26 - 615_168)),
    ]);
}

/// Every legal callsign with these first and third characters.
fn callsigns(channel: &[u8; 2]) -> impl Iterator<Item = [u8; 6]> {
    let [first, third] = *channel;
    CHARACTERS[1].iter().flat_map(move |&second| {
        (0..27 * 27 * 27).map(move |number: usize| {
            let character = |digit: usize| CHARACTERS[3][digit % 27];
            let last = [character(number / 27 / 27), character(number / 27), character(number)];
            [first, second, third, last[0], last[1], last[2]]
        })
    })
}

/// Every locator with every power: 32,400·19 of them. An even B is 11, an odd one of 604,800
/// or more is 13.
#[test]
fn every_locator_and_power_is_read_or_refused() {
    let mut check = Check::new(19);
    for b in 0..ROOM_B {
        let (locator, power) = reference::locator_and_power_of(b);
        let callsign = random_report(&mut check.rng).callsign;
        check.read(&callsign, &locator, power);
    }
    check.finish(&[("read", 0, 302_400), ("read", 11, 307_800), ("read", 13, 5_400)]);
}

/// All 37 legal characters and all small letters at place 0, and all digits at place 2. A small q
/// is given back as Q.
#[test]
fn every_channel_is_read_or_refused() {
    let mut check = Check::new(20);
    for first in CHARACTERS[0].iter().copied().chain(b'a'..=b'z') {
        for &third in CHARACTERS[2] {
            for _ in 0..20 {
                let Message { mut callsign, locator, power } = random_report(&mut check.rng);
                callsign[0] = first;
                callsign[2] = third;
                let found = check.read(&callsign, &locator, power);
                match first {
                    b'0' | b'1' | b'Q' => assert_eq!((found.first, found.third), (first, third)),
                    b'q' => assert_eq!((found.first, found.third), (b'Q', third)),
                    _ => assert_eq!(found, refused_reading(10, 0), "{}", text(&callsign)),
                }
            }
        }
    }
    check.finish(&[("read", 0, 40 * 20), ("read", 10, (340 + 250) * 20)]);
}

/// Every set of spaces at places 3 to 5, with good and bad first characters, and with the letters
/// as capitals and in any case.
#[test]
fn the_first_space_is_refused() {
    let mut check = Check::new(21);
    for spaces in 1u32..8 {
        for &first in CHARACTERS[0] {
            for turn in 0..50 {
                let Message { mut callsign, locator, power } = random_report(&mut check.rng);
                callsign[0] = first;
                for place in (0..3).filter(|place| spaces >> place & 1 == 1) {
                    callsign[3 + place] = b' ';
                }
                if turn % 2 == 1 {
                    recase(&mut check.rng, &mut callsign);
                }
                let is_good = b"01Q".contains(&first);
                let place = if is_good { 3 + spaces.trailing_zeros() } else { 0 };
                let found = check.read(&callsign, &locator, power);
                assert_eq!(found, refused_reading(10, place), "{}", text(&callsign));
            }
        }
    }
    check.finish(&[("read", 10, 7 * 37 * 50)]);
}

/// A and B near their ends together: 11 comes first, then 12, then 13.
#[test]
fn numbers_near_their_ends_are_read_or_refused() {
    let mut check = Check::new(22);
    let near_a = (AS - 40..AS + 40).chain(ROOM_A - 40..ROOM_A).chain(0..40);
    for a in near_a {
        for b in (BS - 60..BS + 60).chain(ROOM_B - 60..ROOM_B).chain(0..60) {
            let message = message_with(&mut check.rng, a, b);
            let found = check.read_message(&message);
            let first = match (b % 2, a >= 615_168, b >= 604_800) {
                (0, _, _) => 11,
                (_, true, _) => 12,
                (_, _, true) => 13,
                _ => 0,
            };
            assert_eq!((found.refusal, found.place), (first, 0), "{message:?}");
        }
    }
    check.finish(&[
        ("read", 0, 80 * 60),
        ("read", 11, 160 * 120),
        ("read", 12, 80 * 120),
        ("read", 13, 80 * 60),
    ]);
}

/// Place 1 is Z for legal and for refused numbers: it is A that counts, up to AAH after Z.
#[test]
fn the_last_place_1_is_read_as_far_as_aah() {
    let mut check = Check::new(23);
    let last: Vec<_> = callsigns(b"00").filter(|callsign| callsign[1] == b'Z').collect();
    for callsign in last {
        let found = check.read(&callsign, b"RM31", 33);
        let is_last = callsign[3..] <= b"AAH"[..] && !callsign[3..].contains(&b' ');
        assert_eq!(found.refusal == 0, is_last, "{}", text(&callsign));
    }
    check.finish(&[("read", 0, 8), ("read", 10, 2_107), ("read", 12, 17_568)]);
}

// Small letters

/// Every small letter, and the two bytes beside them, at every place but the first, which is the
/// channel's: a to z count as their capitals where those are legal.
#[test]
fn small_letters_count_as_their_capitals() {
    let mut check = Check::new(37);
    for place in 1..10 {
        for byte in b'`'..=b'{' {
            for _ in 0..60 {
                let (mut characters, power) = report_characters(&mut check.rng);
                characters[place] = byte;
                let found = check.read_characters(&characters, power);
                let counts = match place {
                    1 | 3..=5 => (b'a'..=b'z').contains(&byte),
                    6 | 7 => (b'a'..=b'r').contains(&byte),
                    _ => false,
                };
                if counts {
                    characters[place] = byte - 32;
                    let expected = card::read_telemetry(&characters[..6], &characters[6..], power);
                    assert_eq!(found, expected, "{byte} at {place} of {}", text(&characters));
                } else {
                    assert_eq!(found, refused_reading(2, place as u32), "{}", text(&characters));
                }
            }
        }
    }
    check.finish(&[
        ("read", 0, (4 * 26 + 2 * 18) * 30),
        ("read", 2, (4 * 2 + 2 * 10 + 3 * 28) * 60),
        ("read", 12, 1),
        ("read", 13, 1),
    ]);
}

/// Messages of the channels with any A and any B that there is room for, telemetry or not. What is
/// read of them in small letters is what is read of their capital form, and is written as that.
#[test]
fn messages_in_any_case_are_read_as_their_capital_form() {
    let mut check = Check::new(38);
    for _ in 0..200_000 {
        let a = check.rng.below(ROOM_A.into()) as u32;
        let b = check.rng.below(ROOM_B.into()) as u32;
        let message = message_with(&mut check.rng, a, b);
        let Message { callsign, locator, power } = message;
        let expected = card::read_telemetry(&callsign, &locator, power);
        let in_any_case = message_in_any_case(&mut check.rng, &message);
        for typed in [in_any_case, message_in_small_letters(&message)] {
            assert_eq!(check.read_message(&typed), expected, "{typed:?}");
            if expected.refusal == 0 {
                let reading = telemetry_in(&typed);
                assert_eq!(message_of(&reading.in_tenths()), message, "{typed:?}");
            }
        }
    }
    check.finish(&[
        ("read", 0, 2 * 90_000),
        ("read", 11, 2 * 90_000),
        ("read", 12, 2 * 2_000),
        ("read", 13, 2 * 600),
    ]);
}

/// Every set of faults that a message to be read can have, the letters in any case.
#[test]
fn refusals_of_messages_in_any_case_are_those_of_their_capital_form() {
    let mut check = Check::new(39);
    for faults in 0u32..512 {
        for _ in 0..100 {
            let (mut callsign, mut locator, power) = faulty_report(&mut check.rng, faults);
            recase(&mut check.rng, &mut callsign);
            recase(&mut check.rng, &mut locator);
            let found = check.read(&callsign, &locator, power);
            let capitals = [callsign.to_ascii_uppercase(), locator.to_ascii_uppercase()];
            let expected = card::read_telemetry(&capitals[0], &capitals[1], power);
            assert_eq!(found, expected, "faults {faults:09b} {}", text(&callsign));
            let first = FAULTS.get(faults.trailing_zeros() as usize).copied().unwrap_or(0);
            assert_eq!(found.refusal, first, "faults {faults:09b} {}", text(&callsign));
        }
    }
    check.finish(&[
        ("read", 0, 100),
        ("read", 1, 384 * 100),
        ("read", 2, 64 * 100),
        ("read", 3, 32 * 100),
        ("read", 10, 24 * 100),
        ("read", 11, 4 * 100),
        ("read", 12, 2 * 100),
        ("read", 13, 100),
    ]);
}

/// What is given by itself has no capital form: a small q and the letters a to x are refused at
/// their places, the first of them where there are several.
#[test]
fn small_letters_given_by_themselves_are_not_written() {
    let mut check = Check::new(40);
    assert_eq!(check.write(&Telemetry { first: b'q', ..REPORT }), refused_message(14, 0));
    for letter in b'a'..=b'x' {
        let fifth = Telemetry { grid5: letter, ..REPORT };
        assert_eq!(check.write(&fifth), refused_message(14, 2), "{letter}");
        let sixth = Telemetry { grid6: letter, ..REPORT };
        assert_eq!(check.write(&sixth), refused_message(14, 3), "{letter}");
        let both = Telemetry { grid6: letter, ..fifth };
        assert_eq!(check.write(&both), refused_message(14, 2), "{letter}");
        let all = Telemetry { first: b'q', ..both };
        assert_eq!(check.write(&all), refused_message(14, 0), "{letter}");
    }
    check.finish(&[("write", 14, 1 + 4 * 24)]);
}

// Reading: refusals and buffers

#[test]
fn every_byte_at_every_place_is_read_or_refused() {
    let mut check = Check::new(24);
    for place in 0..10 {
        for byte in 0..=255 {
            for turn in 0..24 {
                let (mut characters, mut power) = report_characters(&mut check.rng);
                if turn % 2 == 1 {
                    recase(&mut check.rng, &mut characters);
                }
                characters[place] = byte;
                if turn % 3 == 2 {
                    power = bad_power(&mut check.rng);
                }
                let found = check.read_as_capitals(&characters, power);
                if !is_legal(place, byte) {
                    assert_eq!(found, refused_reading(2, place as u32), "{}", text(&characters));
                }
            }
        }
    }
    check.finish(&[
        ("read", 0, 1_000),
        ("read", 2, (2_560 - LEGAL_BYTES) * 24),
        ("read", 3, LEGAL_BYTES * 8),
        ("read", 10, (34 + 25 + 3) * 16),
        ("read", 11, 10),
        ("read", 12, 10),
        ("read", 13, 10),
    ]);
}

/// The ten characters of random telemetry, and its power.
fn report_characters(rng: &mut Rng) -> ([u8; 10], u32) {
    let message = random_report(rng);
    (characters_of(&message), message.power)
}

/// Every set of places with bad characters, with a legal power and with others.
#[test]
fn the_first_of_several_bad_characters_is_refused() {
    let mut check = Check::new(25);
    for places in 1u32..1024 {
        for turn in 0..30 {
            let (mut characters, mut power) = report_characters(&mut check.rng);
            for (place, character) in characters.iter_mut().enumerate() {
                if places >> place & 1 == 1 {
                    *character = bad_character(&mut check.rng, place);
                }
            }
            if turn % 2 == 1 {
                power = bad_power(&mut check.rng);
            }
            let found = check.read_characters(&characters, power);
            let first = places.trailing_zeros();
            assert_eq!(found, refused_reading(2, first), "{} {power}", text(&characters));
        }
    }
    check.finish(&[("read", 2, 1023 * 30)]);
}

#[test]
fn every_power_is_read_or_refused() {
    let mut check = Check::new(26);
    let mut powers: Vec<u32> = (0..=1_023).collect();
    powers.extend(extremes());
    powers.extend(with_a_higher_bit(POWERS.into_iter(), 6));
    powers.extend((0..10_000).map(|_| check.rng.number() as u32));
    for power in powers {
        for _ in 0..10 {
            let (characters, _) = report_characters(&mut check.rng);
            let found = check.read_characters(&characters, power);
            if !POWERS.contains(&power) {
                assert_eq!(found, refused_reading(3, 0), "{} {power}", text(&characters));
            }
        }
    }
    check.finish(&[("read", 0, 50), ("read", 3, 140_000), ("read", 11, 50)]);
}

/// The refusal of each fault that a message to be read can have, in the order in which they
/// count.
const FAULTS: [u32; 9] = [1, 1, 2, 3, 10, 10, 11, 12, 13];

/// Every set of faults: both lengths, a bad character, a bad power, the first character, a
/// space, an even B, a large A, a large B.
#[test]
fn refusals_come_in_their_order_in_reading() {
    let mut check = Check::new(27);
    for faults in 0u32..512 {
        for _ in 0..200 {
            let (callsign, locator, power) = faulty_report(&mut check.rng, faults);
            let found = check.read(&callsign, &locator, power);
            let first = FAULTS.get(faults.trailing_zeros() as usize).copied().unwrap_or(0);
            assert_eq!(found.refusal, first, "faults {faults:09b} {}", text(&callsign));
        }
    }
    check.finish(&[
        ("read", 0, 200),
        ("read", 1, 384 * 200),
        ("read", 2, 64 * 200),
        ("read", 3, 32 * 200),
        ("read", 10, 24 * 200),
        ("read", 11, 4 * 200),
        ("read", 12, 2 * 200),
        ("read", 13, 200),
    ]);
}

/// A report with just these faults, bit by bit those of `FAULTS`.
fn faulty_report(rng: &mut Rng, faults: u32) -> (Vec<u8>, Vec<u8>, u32) {
    let has = |fault: u32| faults >> fault & 1 == 1;
    let a = if has(7) { rng.between(AS.into(), ROOM_A as u64 - 1) } else { rng.below(AS.into()) };
    let half_b =
        if has(8) { rng.between(BS as u64 / 2, ROOM_B as u64 / 2 - 1) } else { rng.below(302_400) };
    let b = 2 * half_b + u64::from(!has(6));
    let Message { mut callsign, locator, mut power } = message_with(rng, a as u32, b as u32);
    if has(5) {
        callsign[rng.between(3, 5) as usize] = b' ';
    }
    if has(4) {
        callsign[0] = rng.pick(b"23456789ABCDEFGHIJKLMNOPRSTUVWXYZ ");
    }
    if has(3) {
        power = bad_power(rng);
    }
    let mut characters = [callsign.as_slice(), locator.as_slice()].concat();
    if has(2) {
        spoil(rng, &mut characters, 0);
    }
    let (mut callsign, mut locator) = (characters[..6].to_vec(), characters[6..].to_vec());
    if has(1) {
        locator.resize(rng.pick(&[0, 1, 3, 5, 6, 10]), b'0');
    }
    if has(0) {
        callsign.resize(rng.pick(&[0, 1, 4, 5, 7, 10]), b'A');
    }
    (callsign, locator, power)
}

#[test]
fn wrong_lengths_are_refused_before_all_else_in_reading() {
    let mut check = Check::new(28);
    for callsign_len in field_lengths() {
        for locator_len in field_lengths() {
            for faults in 0..128 {
                let (mut callsign, mut locator, power) = faulty_report(&mut check.rng, faults << 2);
                callsign.resize(callsign_len, b'A');
                locator.resize(locator_len, b'0');
                let found = check.read(&callsign, &locator, power);
                if (callsign_len, locator_len) != (6, 4) {
                    assert_eq!(found, refused_reading(1, 0), "{callsign_len} {locator_len}");
                }
            }
        }
    }
    check.finish(&[
        ("read", 0, 1),
        ("read", 1, 195 * 128),
        ("read", 2, 64),
        ("read", 3, 32),
        ("read", 10, 24),
        ("read", 11, 4),
        ("read", 12, 2),
        ("read", 13, 1),
    ]);
}

#[test]
fn null_with_length_0_is_refused() {
    let mut check = Check::new(29);
    for turn in 0..2_000 {
        for nulls in 1..4 {
            let (callsign, locator, power) = faulty_report(&mut check.rng, (turn % 128) << 2);
            let mut telemetry = random_telemetry(&mut check.rng);
            if turn % 2 == 1 {
                spoil_telemetry(&mut check.rng, &mut telemetry, turn as usize % 9);
            }
            let rng = &mut check.rng;
            let lent_callsign = Lent::null_or_holding(rng, nulls & 1 != 0, &callsign);
            let lent_locator = Lent::null_or_holding(rng, nulls & 2 != 0, &locator);
            let found = check.read_lent(lent_callsign, lent_locator, power);
            assert_eq!(found, refused_reading(1, 0), "NULLs {nulls:b}");
            let rng = &mut check.rng;
            let lent_callsign = Lent::null_or_holding(rng, nulls & 1 != 0, &callsign);
            let lent_locator = Lent::null_or_holding(rng, nulls & 2 != 0, &locator);
            let found = check.write_lent(&telemetry, lent_callsign, lent_locator);
            assert_eq!(found, refused_message(1, 0), "NULLs {nulls:b}");
        }
    }
    check.finish(&[("write", 1, 6_000), ("read", 1, 6_000)]);
}

/// Lengths whose lowest 8 or 16 bits are those of a right length.
#[test]
fn long_buffers_are_refused() {
    let mut check = Check::new(30);
    for extra in [0, 256, 512, 65_536, 131_072] {
        for other in [0, 256, 65_536] {
            for _ in 0..4 {
                let Message { callsign, locator, power } = random_report(&mut check.rng);
                let mut callsign = callsign.to_vec();
                let mut locator = locator.to_vec();
                callsign.extend(legal_bytes(&mut check.rng, 0, extra));
                locator.extend(legal_bytes(&mut check.rng, 6, other));
                let refusal = u32::from(extra + other != 0);
                let found = check.read(&callsign, &locator, power);
                assert_eq!(found.refusal, refusal, "lengths {} {}", 6 + extra, 4 + other);
                let telemetry = random_telemetry(&mut check.rng);
                let found = check.write_into(&telemetry, 6 + extra, 4 + other);
                assert_eq!(found.refusal, refusal, "lengths {} {}", 6 + extra, 4 + other);
            }
        }
    }
    check.finish(&[("write", 0, 4), ("write", 1, 56), ("read", 0, 4), ("read", 1, 56)]);
}

/// Lengths whose lowest 32 bits are those of a right length. The memory past the first bytes
/// is only asked for, never used, since the library has to refuse by the length alone.
#[test]
fn buffers_of_four_gibibytes_are_refused() {
    let mut long = vec![0; (1 << 32) + CALLSIGN_LEN];
    long[..CALLSIGN_LEN].copy_from_slice(b"QQ2XFT");
    assert_eq!(card::read_telemetry(&long, b"GP99", 60), refused_reading(1, 0));
    let mut locator = *b"????";
    let found = card::write_telemetry(&LARGEST, &mut long, &mut locator);
    assert_eq!(found, refused_message(1, 0));
    assert_eq!((&long[..CALLSIGN_LEN], &locator), (&b"QQ2XFT"[..], b"????"));
    long.truncate((1 << 32) + LOCATOR_LEN);
    long[..LOCATOR_LEN].copy_from_slice(b"GP99");
    assert_eq!(card::read_telemetry(b"QQ2XFT", &long, 60), refused_reading(1, 0));
    let mut callsign = *b"??????";
    let found = card::write_telemetry(&LARGEST, &mut callsign, &mut long);
    assert_eq!(found, refused_message(1, 0));
    assert_eq!((&long[..LOCATOR_LEN], &callsign), (&b"GP99"[..], b"??????"));
}

// Reading: random messages and bytes

/// Messages of the channels with any A and any B that there is room for.
#[test]
fn random_messages_of_the_channels_are_read_or_refused() {
    let mut check = Check::new(31);
    for _ in 0..300_000 {
        let a = check.rng.below(ROOM_A.into()) as u32;
        let b = check.rng.below(ROOM_B.into()) as u32;
        let message = message_with(&mut check.rng, a, b);
        check.read_message(&message);
    }
    check.finish(&[
        ("read", 0, 130_000),
        ("read", 11, 140_000),
        ("read", 12, 3_000),
        ("read", 13, 1_000),
    ]);
}

#[test]
fn random_messages_are_read_or_refused() {
    let mut check = Check::new(32);
    for _ in 0..300_000 {
        let message = random_message(&mut check.rng);
        check.read_message(&message);
    }
    check.finish(&[
        ("read", 0, 8_000),
        ("read", 10, 250_000),
        ("read", 11, 8_000),
        ("read", 12, 100),
        ("read", 13, 100),
    ]);
}

/// Any bytes at all, or legal characters with some bytes damaged.
#[test]
fn arbitrary_bytes_are_read_or_refused() {
    let mut check = Check::new(33);
    for turn in 0..200_000 {
        let mut characters = random_characters(&mut check.rng);
        if turn % 4 == 0 {
            characters.fill_with(|| check.rng.byte());
        }
        if turn % 4 == 1 {
            (characters, _) = report_characters(&mut check.rng);
            let place = check.rng.below(10) as usize;
            characters[place] ^= 1 << check.rng.below(8);
        }
        let power = check.rng.below(70) as u32;
        check.read_characters(&characters, power);
    }
    check.finish(&[
        ("read", 0, 2_000),
        ("read", 2, 60_000),
        ("read", 3, 60_000),
        ("read", 10, 20_000),
        ("read", 11, 2_000),
        ("read", 12, 10),
        ("read", 13, 10),
    ]);
}

// There and back

/// By the library alone.
#[test]
fn written_telemetry_is_read_back() {
    let mut rng = Rng::new(34);
    for _ in 0..300_000 {
        let telemetry = random_telemetry(&mut rng);
        let message = message_of(&telemetry);
        read_back(&message, &telemetry);
    }
}

/// By the library alone, from messages that are telemetry and others. Those that are read are
/// written again, the same.
#[test]
fn a_read_message_is_written_again() {
    let mut rng = Rng::new(35);
    let (mut accepted, mut rejected) = (0, 0);
    for _ in 0..300_000 {
        let a = rng.below(ROOM_A.into()) as u32;
        let b = rng.below(ROOM_B.into()) as u32;
        let message = message_with(&mut rng, a, b);
        let found = card::read_telemetry(&message.callsign, &message.locator, message.power);
        if found.refusal == 0 {
            let reading = telemetry_in(&message);
            assert_eq!(message_of(&reading.in_tenths()), message, "{reading:?}");
            accepted += 1;
        } else {
            rejected += 1;
        }
    }
    assert!(accepted >= 130_000 && rejected >= 130_000, "{accepted} read, {rejected} refused");
}

/// Telemetry to a message, its word and its frame, and all the way back, by the library alone. On
/// the way the message's letters are in any case.
#[test]
fn telemetry_goes_through_a_frame() {
    let mut rng = Rng::new(36);
    for _ in 0..20_000 {
        let telemetry = random_telemetry(&mut rng);
        let sent = message_of(&telemetry);
        let Message { callsign, locator, power } = message_in_any_case(&mut rng, &sent);
        let mut frame = [255; FRAME_LEN];
        let written = card::write_message(&callsign, &locator, power, &mut frame);
        assert_eq!(written.refusal, 0, "{telemetry:?}");
        let (mut callsign, mut locator) = ([0; CALLSIGN_LEN], [0; LOCATOR_LEN]);
        let read = card::read_message(&frame, &mut callsign, &mut locator);
        assert_eq!(read.refusal, 0, "{telemetry:?}");
        let message = Message { callsign, locator, power: read.power };
        assert_eq!(message, sent, "{telemetry:?}");
        read_back(&message, &telemetry);
    }
}

/// All callsigns of one channel are read with a report's locator and power, and all locators
/// and powers with a report's callsign, each as capitals and in any case. Those accepted are just
/// those whose capital form the reference makes.
#[test]
fn reading_accepts_exactly_what_writing_makes() {
    let mut rng = Rng::new(41);
    let made: HashSet<[u8; 6]> = every_a().map(|telemetry| made_of(&telemetry).callsign).collect();
    assert_eq!(made.len(), 615_168);
    for callsign in callsigns(b"Q2") {
        let mut typed = callsign;
        recase(&mut rng, &mut typed);
        for typed in [callsign, typed] {
            let found = card::read_telemetry(&typed, b"GP99", 60);
            assert_eq!(found.refusal == 0, made.contains(&callsign), "{}", text(&typed));
        }
    }
    let made: HashSet<([u8; 4], u32)> = every_b()
        .map(|telemetry| made_of(&telemetry))
        .map(|message| (message.locator, message.power))
        .collect();
    assert_eq!(made.len(), 302_400);
    for b in 0..ROOM_B {
        let (locator, power) = reference::locator_and_power_of(b);
        let is_made = made.contains(&(locator, power));
        let mut typed = locator;
        recase(&mut rng, &mut typed);
        for typed in [locator, typed] {
            let found = card::read_telemetry(b"QQ2XFT", &typed, power);
            assert_eq!(found.refusal == 0, is_made, "{} {power}", text(&typed));
        }
    }
}

/// The message that the reference writes.
fn made_of(telemetry: &Telemetry) -> Message {
    reference::write(telemetry, CALLSIGN_LEN, LOCATOR_LEN).unwrap()
}

/// The bench sheet's report in every sub-square at every altitude step.
fn every_a() -> impl Iterator<Item = Telemetry> {
    (0..576).flat_map(|square| {
        let (grid5, grid6) = (b'A' + (square / 24) as u8, b'A' + (square % 24) as u8);
        (0..21_360).step_by(20).map(move |altitude| Telemetry { grid5, grid6, altitude, ..REPORT })
    })
}

/// The bench sheet's report with every temperature, voltage and speed step, without and with
/// GPS.
fn every_b() -> impl Iterator<Item = Telemetry> {
    (0..90 * 40 * 42 * 2).map(|index| Telemetry {
        temperature: index as i32 / (40 * 42 * 2) * 10 - 500,
        voltage: 3_000 + index / (42 * 2) % 40 * 50,
        speed: index / 2 % 42 * 20,
        gps: index % 2,
        ..REPORT
    })
}
