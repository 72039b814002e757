// Random messages, words, frames, repairs and telemetry: legal ones, and such as are refused.
use crate::reference::frame::{frame_of, FRAME_LEN};
use crate::reference::message::{word_of, Message, CALLSIGNS, CHARACTERS, LOCATORS, POWERS, WORDS};
use crate::reference::repair::live_count;
use crate::reference::telemetry::Telemetry;
use crate::reference::Refusal;
use crate::rng::Rng;

pub fn random_message(rng: &mut Rng) -> Message {
    let characters = random_characters(rng);
    message_of(&characters, rng.pick(&POWERS))
}

/// The message of ten characters, of which the first six are the callsign.
pub fn message_of(characters: &[u8; 10], power: u32) -> Message {
    Message {
        callsign: characters[..6].try_into().unwrap(),
        locator: characters[6..].try_into().unwrap(),
        power,
    }
}

/// The ten characters of a message.
pub fn characters_of(message: &Message) -> [u8; 10] {
    let mut characters = [0; 10];
    characters[..6].copy_from_slice(&message.callsign);
    characters[6..].copy_from_slice(&message.locator);
    characters
}

pub fn random_characters(rng: &mut Rng) -> [u8; 10] {
    CHARACTERS.map(|legal| rng.pick(legal))
}

/// Legal characters from this place on; past the field's end those of any place.
pub fn legal_bytes(rng: &mut Rng, first_place: usize, len: usize) -> Vec<u8> {
    (0..len).map(|index| rng.pick(CHARACTERS[(first_place + index) % 10])).collect()
}

/// The capital form of ten characters, by the standard library's rule and not by the reference's.
pub fn capital_form(mut characters: [u8; 10]) -> [u8; 10] {
    characters.make_ascii_uppercase();
    characters
}

/// Makes letters small: all of them once in four times, else each by a coin.
pub fn recase(rng: &mut Rng, characters: &mut [u8]) {
    let all = rng.below(4) == 0;
    for character in characters {
        if all || rng.coin() {
            character.make_ascii_lowercase();
        }
    }
}

/// The message with its letters in any case.
pub fn message_in_any_case(rng: &mut Rng, message: &Message) -> Message {
    let mut characters = characters_of(message);
    recase(rng, &mut characters);
    message_of(&characters, message.power)
}

/// The message with all letters small.
pub fn message_in_small_letters(message: &Message) -> Message {
    let mut characters = characters_of(message);
    characters.make_ascii_lowercase();
    message_of(&characters, message.power)
}

/// Whether a byte is legal at a place: a small letter is where its capital is.
pub fn is_legal(place: usize, byte: u8) -> bool {
    CHARACTERS[place].contains(&byte.to_ascii_uppercase())
}

/// How many bytes are legal at all ten places together: digits, capitals, spaces, and small letters
/// at places 0, 1, 3 to 5 (a to z) and 6 and 7 (a to r).
pub const LEGAL_BYTES: u64 = (37 + 36 + 10 + 3 * 27 + 2 * 18 + 2 * 10) + (5 * 26 + 2 * 18);

/// Puts a character that is refused at one place of the field, if it has any.
pub fn spoil(rng: &mut Rng, field: &mut [u8], first_place: usize) {
    if !field.is_empty() {
        let index = rng.below(field.len() as u64) as usize;
        field[index] = bad_character(rng, (first_place + index) % 10);
    }
}

pub fn bad_character(rng: &mut Rng, place: usize) -> u8 {
    let mut character = rng.byte();
    while is_legal(place, character) {
        character = rng.byte();
    }
    character
}

pub fn bad_power(rng: &mut Rng) -> u32 {
    let near = rng.coin();
    loop {
        let power = if near { rng.below(70) as u32 } else { rng.number() as u32 };
        if !POWERS.contains(&power) {
            return power;
        }
    }
}

pub fn random_legal_word(rng: &mut Rng) -> u64 {
    word_of(rng.below(CALLSIGNS), rng.below(LOCATORS), good_low(rng))
}

/// A word below 2^50 that is refused by this number: 4, 5 or 6. Fields after the one refused
/// are good or bad.
pub fn bad_word(rng: &mut Rng, number: u32) -> u64 {
    let any_m1 = rng.below(1 << 15);
    let any_low = rng.below(128);
    let good_n = rng.below(CALLSIGNS);
    match number {
        4 => word_of(rng.between(CALLSIGNS, (1 << 28) - 1), any_m1, any_low),
        5 => word_of(good_n, rng.between(LOCATORS, (1 << 15) - 1), any_low),
        6 => word_of(good_n, rng.below(LOCATORS), bad_low(rng)),
        _ => panic!("no word is refused by {number}"),
    }
}

pub fn good_low(rng: &mut Rng) -> u64 {
    u64::from(rng.pick(&POWERS)) + 64
}

/// The low seven bits of a word when they aren't those of a legal power.
pub fn bad_low(rng: &mut Rng) -> u64 {
    loop {
        let low = rng.below(128);
        if low < 64 || !POWERS.contains(&(low as u32 - 64)) {
            return low;
        }
    }
}

pub fn random_word(rng: &mut Rng) -> u64 {
    rng.below(WORDS)
}

pub fn random_frame(rng: &mut Rng) -> [u8; FRAME_LEN] {
    frame_of(random_word(rng))
}

/// Words at the ends, with a single bit, and without a single bit.
pub fn edge_words() -> Vec<u64> {
    let mut words = vec![0, WORDS - 1];
    words.extend((0..50).map(|bit| 1 << bit));
    words.extend((0..50).map(|bit| WORDS - 1 - (1 << bit)));
    words
}

/// Lengths of a lent callsign or locator, the right ones among them.
pub fn field_lengths() -> impl Iterator<Item = usize> {
    (0..=12).chain([255])
}

/// All lengths but a frame's own up to about twice that, and some longer ones: 418 and 674
/// have its lowest 8 bits, the last two its lowest 16.
pub fn wrong_lengths() -> impl Iterator<Item = usize> {
    (0..=330).filter(|&len| len != FRAME_LEN).chain([418, 674, 1000, 65_698, 131_234])
}

/// The frame's symbols, cut off at this length or followed by others up to it.
pub fn resized(rng: &mut Rng, frame: &[u8], len: usize) -> Vec<u8> {
    let mut symbols = frame.to_vec();
    symbols.resize_with(len, || rng.below(4) as u8);
    symbols
}

/// So many different places of a frame.
pub fn random_places(rng: &mut Rng, count: usize) -> Vec<usize> {
    let mut places: Vec<usize> = (0..FRAME_LEN).collect();
    for index in 0..count {
        places.swap(index, rng.between(index as u64, FRAME_LEN as u64 - 1) as usize);
    }
    places.truncate(count);
    places
}

/// The frame with the data bits at these places flipped.
pub fn flipped(mut frame: [u8; FRAME_LEN], places: &[usize]) -> [u8; FRAME_LEN] {
    for &place in places {
        frame[place] ^= 2;
    }
    frame
}

/// The places at which the data bits of two frames differ.
pub fn differing_places(one: &[u8; FRAME_LEN], other: &[u8; FRAME_LEN]) -> Vec<usize> {
    (0..FRAME_LEN).filter(|&place| one[place] / 2 != other[place] / 2).collect()
}

/// Turns so many sync bits over.
pub fn spoil_sync(rng: &mut Rng, frame: &mut [u8; FRAME_LEN], count: usize) {
    for place in random_places(rng, count) {
        frame[place] ^= 1;
    }
}

/// Any symbols 0 to 3.
pub fn noise(rng: &mut Rng) -> [u8; FRAME_LEN] {
    [0; FRAME_LEN].map(|_| rng.below(4) as u8)
}

pub fn bad_symbol(rng: &mut Rng) -> u8 {
    rng.between(4, 255) as u8
}

/// What repair is asked, and the refusal it is to give.
#[derive(Debug)]
pub struct Asked {
    pub symbols: Vec<u8>,
    pub limit: u32,
    pub budget: u32,
    pub refusal: Option<Refusal>,
}

/// Asks with just these faults, a bit each from the lowest on: the length, the limit, the
/// budget, a symbol above 3, a live count above the budget, no word within the limit. Repair
/// refuses them in this order.
pub fn asked_with_faults(rng: &mut Rng, faults: u32) -> Asked {
    let has = |fault: u32| faults >> fault & 1 == 1;
    let flips = if has(5) { 3 } else { rng.below(3) as usize };
    let places = random_places(rng, flips);
    let mut frame = flipped(random_frame(rng), &places);
    let live = live_count(&frame, 2);
    let limit = if has(1) { rng.pick(&[13, 14, 258, u32::MAX]) } else { 2 };
    let budget = match faults {
        _ if has(2) => rng.pick(&[0, 65_537, 131_072, u32::MAX]),
        _ if has(4) => rng.between(1, live - 1) as u32,
        _ => rng.between(live, 65_536) as u32,
    };
    let place = rng.below(FRAME_LEN as u64) as usize;
    if has(3) {
        frame[place] = bad_symbol(rng);
    }
    let len = if has(0) { rng.pick(&[0, 1, 161, 163, 324, 418]) } else { FRAME_LEN };
    let symbols = resized(rng, &frame, len);
    // Each has place 0 but the budget and the symbol.
    let table = [(1, 0), (15, 0), (15, 1), (7, place as u32), (16, 0), (17, 0)];
    let first = table.get(faults.trailing_zeros() as usize);
    let refusal = first.map(|&(number, place)| Refusal { number, place });
    Asked { symbols, limit, budget, refusal }
}

/// Inputs in their ranges, in the units in which they are written.
pub fn random_telemetry(rng: &mut Rng) -> Telemetry {
    Telemetry {
        first: rng.pick(b"01Q"),
        third: rng.between(b'0'.into(), b'9'.into()) as u8,
        grid5: rng.between(b'A'.into(), b'X'.into()) as u8,
        grid6: rng.between(b'A'.into(), b'X'.into()) as u8,
        altitude: rng.below(21_360) as u32,
        temperature: rng.below(900) as i32 - 500,
        voltage: rng.between(3_000, 4_999) as u32,
        speed: rng.below(840) as u32,
        gps: rng.below(2) as u32,
    }
}

/// Puts an input that is refused at this place: 0 is the first character, 8 is GPS. Numbers
/// are near the ranges or anywhere.
pub fn spoil_telemetry(rng: &mut Rng, telemetry: &mut Telemetry, place: usize) {
    while telemetry.in_range()[place] {
        let count = rng.pick(&[4, 1_000, 6_000, 25_000, 1 << 32]);
        let number = rng.below(count) as u32;
        match place {
            0 => telemetry.first = rng.byte(),
            1 => telemetry.third = rng.byte(),
            2 => telemetry.grid5 = rng.byte(),
            3 => telemetry.grid6 = rng.byte(),
            4 => telemetry.altitude = number,
            5 if rng.coin() => telemetry.temperature = number as i32,
            5 => telemetry.temperature = (number as i32).wrapping_neg(),
            6 => telemetry.voltage = number,
            7 => telemetry.speed = number,
            8 => telemetry.gps = number,
            _ => panic!("no input has the place {place}"),
        }
    }
}
