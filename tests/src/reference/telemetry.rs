// U4B basic telemetry as a message. The callsign's first and third character name the channel,
// its other four hold the number A (sub-square, altitude); the locator and the power hold the
// number B (temperature, voltage, speed, GPS).
use super::message::{self, Message, CALLSIGN_LEN, LOCATOR_LEN, POWERS};
use super::Refusal;

/// How many numbers A and B can take in telemetry, 24·24·1068 and 90·40·42·2·2, and how many
/// a message has room for, 36·26·26·26 and 18·18·10·10·19.
pub const AS: u32 = 615_168;
pub const BS: u32 = 604_800;
pub const ROOM_A: u32 = 632_736;
pub const ROOM_B: u32 = 615_600;

/// What a balloon reports. Altitude is in metres, voltage in millivolts. Temperature and speed
/// are in tenths of a degree and of a knot as they are written, in degrees and knots as read.
#[derive(Clone, Copy, Debug, PartialEq, Eq)]
pub struct Telemetry {
    pub first: u8,
    pub third: u8,
    pub grid5: u8,
    pub grid6: u8,
    pub altitude: u32,
    pub temperature: i32,
    pub voltage: u32,
    pub speed: u32,
    pub gps: u32,
}

impl Telemetry {
    /// What was read, in the units in which it is written.
    pub fn in_tenths(self) -> Telemetry {
        Telemetry { temperature: self.temperature * 10, speed: self.speed * 10, ..self }
    }

    /// Which of the inputs to be written are in their ranges, in the order of their places.
    pub fn in_range(&self) -> [bool; 9] {
        [
            is_first(self.first),
            self.third.is_ascii_digit(),
            (b'A'..=b'X').contains(&self.grid5),
            (b'A'..=b'X').contains(&self.grid6),
            self.altitude <= 21_359,
            (-500..=399).contains(&self.temperature),
            (3_000..=4_999).contains(&self.voltage),
            self.speed <= 839,
            self.gps <= 1,
        ]
    }
}

pub fn write(
    telemetry: &Telemetry,
    callsign_len: usize,
    locator_len: usize,
) -> Result<Message, Refusal> {
    message::check_lengths(callsign_len, locator_len)?;
    if let Some(place) = telemetry.in_range().iter().position(|in_range| !in_range) {
        return Err(Refusal { number: 14, place: place as u32 });
    }
    let callsign = callsign_of(telemetry.first, telemetry.third, a_of(telemetry));
    let (locator, power) = locator_and_power_of(b_of(telemetry));
    Ok(Message { callsign, locator, power })
}

pub fn read(callsign: &[u8], locator: &[u8], power: u32) -> Result<Telemetry, Refusal> {
    let Message { callsign, locator, power } =
        message::message_in_capitals(callsign, locator, power)?;
    if !is_first(callsign[0]) {
        return Err(Refusal { number: 10, place: 0 });
    }
    if let Some(place) = (3..CALLSIGN_LEN).find(|&place| callsign[place] == b' ') {
        return Err(Refusal { number: 10, place: place as u32 });
    }
    let a = a_in(&callsign);
    let b = b_in(&locator, power);
    if b.is_multiple_of(2) {
        return Err(Refusal { number: 11, place: 0 });
    }
    if a >= AS {
        return Err(Refusal { number: 12, place: 0 });
    }
    if b >= BS {
        return Err(Refusal { number: 13, place: 0 });
    }
    Ok(telemetry_of(callsign[0], callsign[2], a, b))
}

fn is_first(character: u8) -> bool {
    b"01Q".contains(&character)
}

/// A of inputs in their ranges.
pub fn a_of(telemetry: &Telemetry) -> u32 {
    let g5 = u32::from(telemetry.grid5 - b'A');
    let g6 = u32::from(telemetry.grid6 - b'A');
    (g5 * 24 + g6) * 1068 + telemetry.altitude / 20
}

/// B of inputs in their ranges. Tenths of a degree are rounded down, below zero too: -5 are -1
/// degree, and the remainder left over is never below zero.
pub fn b_of(telemetry: &Telemetry) -> u32 {
    let temperature = (telemetry.temperature.div_euclid(10) + 50) as u32;
    let voltage = (telemetry.voltage - 2_000) / 50 % 40;
    let speed = telemetry.speed / 20;
    (((temperature * 40 + voltage) * 42 + speed) * 2 + telemetry.gps) * 2 + 1
}

fn telemetry_of(first: u8, third: u8, a: u32, b: u32) -> Telemetry {
    let voltage_code = b / (2 * 2 * 42) % 40;
    Telemetry {
        first,
        third,
        grid5: b'A' + (a / (24 * 1068)) as u8,
        grid6: b'A' + (a / 1068 % 24) as u8,
        altitude: a % 1068 * 20,
        temperature: (b / (2 * 2 * 42 * 40)) as i32 - 50,
        voltage: 3_000 + 50 * ((voltage_code + 20) % 40),
        speed: b / (2 * 2) % 42 * 2,
        gps: b / 2 % 2,
    }
}

/// The callsign field of a channel and any A below 632,736, a report's or not.
pub fn callsign_of(first: u8, third: u8, a: u32) -> [u8; CALLSIGN_LEN] {
    let letter = |digit: u32| b'A' + digit as u8;
    let rest = match a / (26 * 26 * 26) {
        digit @ 0..=9 => b'0' + digit as u8,
        other => letter(other - 10),
    };
    [first, rest, third, letter(a / (26 * 26) % 26), letter(a / 26 % 26), letter(a % 26)]
}

/// A of a callsign field of legal characters, its letters capitals, that has no spaces in places
/// 3 to 5.
pub fn a_in(callsign: &[u8]) -> u32 {
    let letter = |place: usize| u32::from(callsign[place] - b'A');
    let rest = match callsign[1] {
        digit @ b'0'..=b'9' => u32::from(digit - b'0'),
        _ => letter(1) + 10,
    };
    rest * (26 * 26 * 26) + letter(3) * (26 * 26) + letter(4) * 26 + letter(5)
}

/// The locator and the power of any B below 615,600, a report's or not.
pub fn locator_and_power_of(b: u32) -> ([u8; LOCATOR_LEN], u32) {
    let left = b / 19;
    let locator = [
        b'A' + (left / (10 * 10 * 18)) as u8,
        b'A' + (left / (10 * 10) % 18) as u8,
        b'0' + (left / 10 % 10) as u8,
        b'0' + (left % 10) as u8,
    ];
    (locator, POWERS[(b % 19) as usize])
}

/// B of a locator of legal characters, its letters capitals, and a legal power.
pub fn b_in(locator: &[u8], power: u32) -> u32 {
    let index = POWERS.iter().position(|&legal| legal == power).unwrap() as u32;
    let letter = |place: usize| u32::from(locator[place] - b'A');
    let digit = |place: usize| u32::from(locator[place] - b'0');
    (((letter(0) * 18 + letter(1)) * 10 + digit(2)) * 10 + digit(3)) * 19 + index
}
