// A WSPR type 1 message (callsign field, locator, power) and its packing into 50 bits.
use super::Refusal;

pub const CALLSIGN_LEN: usize = 6;
pub const LOCATOR_LEN: usize = 4;

/// The legal powers in dBm.
pub const POWERS: [u32; 19] =
    [0, 3, 7, 10, 13, 17, 20, 23, 27, 30, 33, 37, 40, 43, 47, 50, 53, 57, 60];

/// The characters legal at each place: 0 to 5 are the callsign's, 6 to 9 the locator's. A small
/// letter is legal where its capital is.
pub const CHARACTERS: [&[u8]; 10] = [
    b"0123456789ABCDEFGHIJKLMNOPQRSTUVWXYZ ",
    b"0123456789ABCDEFGHIJKLMNOPQRSTUVWXYZ",
    b"0123456789",
    b"ABCDEFGHIJKLMNOPQRSTUVWXYZ ",
    b"ABCDEFGHIJKLMNOPQRSTUVWXYZ ",
    b"ABCDEFGHIJKLMNOPQRSTUVWXYZ ",
    b"ABCDEFGHIJKLMNOPQR",
    b"ABCDEFGHIJKLMNOPQR",
    b"0123456789",
    b"0123456789",
];

/// How many numbers N, M1 and the word can take: 37·36·10·27·27·27, 180·180, 2^50.
pub const CALLSIGNS: u64 = 262_177_560;
pub const LOCATORS: u64 = 32_400;
pub const WORDS: u64 = 1 << 50;

#[derive(Clone, Copy, Debug, PartialEq, Eq)]
pub struct Message {
    pub callsign: [u8; CALLSIGN_LEN],
    pub locator: [u8; LOCATOR_LEN],
    pub power: u32,
}

pub fn pack(callsign: &[u8], locator: &[u8], power: u32) -> Result<u64, Refusal> {
    let Message { callsign, locator, power } = message_in_capitals(callsign, locator, power)?;
    Ok(word_of(callsign_number(&callsign), locator_number(&locator), u64::from(power) + 64))
}

/// The message with small letters as their capitals, so that no other function sees a small one.
/// Refuses what isn't a message.
pub fn message_in_capitals(
    callsign: &[u8],
    locator: &[u8],
    power: u32,
) -> Result<Message, Refusal> {
    check_lengths(callsign.len(), locator.len())?;
    let message = Message { callsign: capitals(callsign), locator: capitals(locator), power };
    for (place, character) in message.callsign.iter().chain(&message.locator).enumerate() {
        if !CHARACTERS[place].contains(character) {
            return Err(Refusal { number: 2, place: place as u32 });
        }
    }
    if !POWERS.contains(&power) {
        return Err(Refusal { number: 3, place: 0 });
    }
    Ok(message)
}

/// A field of just so many bytes, each as its capital.
fn capitals<const LEN: usize>(field: &[u8]) -> [u8; LEN] {
    let field: [u8; LEN] = field.try_into().expect("the length was checked");
    field.map(capital)
}

/// A small letter as the letter of the same place among the capitals; any other byte as it is.
fn capital(byte: u8) -> u8 {
    match byte {
        b'a'..=b'z' => b'A' + (byte - b'a'),
        _ => byte,
    }
}

pub fn unpack(word: u64, callsign_len: usize, locator_len: usize) -> Result<Message, Refusal> {
    check_lengths(callsign_len, locator_len)?;
    let n = word >> 22;
    let m1 = word % (1 << 22) / 128;
    let low = (word % 128) as u32;
    if word >= WORDS || n >= CALLSIGNS {
        return Err(Refusal { number: 4, place: 0 });
    }
    if m1 >= LOCATORS {
        return Err(Refusal { number: 5, place: 0 });
    }
    match POWERS.iter().find(|&&power| power + 64 == low) {
        None => Err(Refusal { number: 6, place: 0 }),
        Some(&power) => Ok(Message { callsign: callsign_of(n), locator: locator_of(m1), power }),
    }
}

pub fn check_lengths(callsign_len: usize, locator_len: usize) -> Result<(), Refusal> {
    if callsign_len == CALLSIGN_LEN && locator_len == LOCATOR_LEN {
        Ok(())
    } else {
        Err(Refusal { number: 1, place: 0 })
    }
}

/// The word from its three fields: N, M1 and the low seven bits (power + 64).
pub fn word_of(n: u64, m1: u64, low: u64) -> u64 {
    let m = m1 * 128 + low;
    n * (1 << 22) + m
}

/// N of a callsign field of legal characters, its letters capitals.
pub fn callsign_number(callsign: &[u8]) -> u64 {
    let mut n = value(callsign[0]);
    n = n * 36 + value(callsign[1]);
    n = n * 10 + value(callsign[2]);
    n = n * 27 + value(callsign[3]) - 10;
    n = n * 27 + value(callsign[4]) - 10;
    n * 27 + value(callsign[5]) - 10
}

/// The callsign field whose number is `n`, below 262,177,560.
fn callsign_of(n: u64) -> [u8; CALLSIGN_LEN] {
    [
        character(n / (36 * 10 * 27 * 27 * 27)),
        character(n / (10 * 27 * 27 * 27) % 36),
        character(n / (27 * 27 * 27) % 10),
        character(n / (27 * 27) % 27 + 10),
        character(n / 27 % 27 + 10),
        character(n % 27 + 10),
    ]
}

/// M1 of a locator of legal characters, its letters capitals.
pub fn locator_number(locator: &[u8]) -> u64 {
    let a = u64::from(locator[0] - b'A');
    let b = u64::from(locator[1] - b'A');
    let c = u64::from(locator[2] - b'0');
    let d = u64::from(locator[3] - b'0');
    (179 - 10 * a - c) * 180 + 10 * b + d
}

/// The locator whose number is `m1`, below 32,400.
fn locator_of(m1: u64) -> [u8; LOCATOR_LEN] {
    let ac = 179 - m1 / 180;
    let bd = m1 % 180;
    [b'A' + (ac / 10) as u8, b'A' + (bd / 10) as u8, b'0' + (ac % 10) as u8, b'0' + (bd % 10) as u8]
}

/// Digits count 0 to 9, letters 10 to 35, space 36.
fn value(character: u8) -> u64 {
    match character {
        b'0'..=b'9' => u64::from(character - b'0'),
        b'A'..=b'Z' => u64::from(character - b'A') + 10,
        b' ' => 36,
        _ => panic!("no value for the byte {character}"),
    }
}

fn character(value: u64) -> u8 {
    match value {
        0..=9 => b'0' + value as u8,
        10..=35 => b'A' + (value - 10) as u8,
        36 => b' ',
        _ => panic!("no character for the value {value}"),
    }
}
