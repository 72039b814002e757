// A frame: the 162 symbols of a 50-bit word. Coded bits are sums of shifted copies of the
// clocked bits, and a frame is read by taking such copies away until nothing is left.
use super::message::{self, Message, WORDS};
use super::Refusal;

pub const FRAME_LEN: usize = 162;

/// How many bits are clocked into each register: the word's 50, then 31 zeros.
pub const CLOCKED: usize = 81;
pub const ZEROS: usize = 31;

/// The masks of the two registers. Bit j of a mask takes the bit that was clocked in j steps
/// before the newest.
pub const MASKS: [u32; 2] = [0xf2d0_5351, 0xe461_3c47];

/// The sync vector in the rows of its table, whose "0.0" near the end is two zeros.
const SYNC: [u8; FRAME_LEN] = *b"\
    110000001000111000100101111000000010010100\
    000010110011010001101000011010101010010010\
    110001101010001000001001001110110011010001\
    110000010100110000000110101100011000";

pub fn write_word(word: u64, frame_len: usize) -> Result<[u8; FRAME_LEN], Refusal> {
    check_length(frame_len)?;
    if word < WORDS {
        Ok(frame_of(word))
    } else {
        Err(Refusal { number: 4, place: 0 })
    }
}

pub fn write_message(
    callsign: &[u8],
    locator: &[u8],
    power: u32,
    frame_len: usize,
) -> Result<[u8; FRAME_LEN], Refusal> {
    check_length(frame_len)?;
    Ok(frame_of(message::pack(callsign, locator, power)?))
}

pub fn read_word(frame: &[u8]) -> Result<u64, Refusal> {
    check_length(frame.len())?;
    check_symbols(frame)?;
    if let Some(place) = frame.iter().zip(sync()).position(|(symbol, bit)| symbol % 2 != bit) {
        return Err(Refusal { number: 8, place: place as u32 });
    }
    let [first, second] = coded_bits_in(frame);
    match (word_coded_as(first, MASKS[0]), word_coded_as(second, MASKS[1])) {
        (Some(word), Some(other)) if word == other => Ok(word),
        _ => Err(Refusal { number: 9, place: 0 }),
    }
}

/// The lent lengths count only once the frame has given a word.
pub fn read_message(
    frame: &[u8],
    callsign_len: usize,
    locator_len: usize,
) -> Result<Message, Refusal> {
    message::unpack(read_word(frame)?, callsign_len, locator_len)
}

pub fn check_length(frame_len: usize) -> Result<(), Refusal> {
    if frame_len == FRAME_LEN {
        Ok(())
    } else {
        Err(Refusal { number: 1, place: 0 })
    }
}

pub fn check_symbols(frame: &[u8]) -> Result<(), Refusal> {
    match frame.iter().position(|&symbol| symbol > 3) {
        None => Ok(()),
        Some(place) => Err(Refusal { number: 7, place: place as u32 }),
    }
}

/// The frame of a word below 2^50.
pub fn frame_of(word: u64) -> [u8; FRAME_LEN] {
    frame_of_clocked(u128::from(word) << ZEROS)
}

/// The frame of any 81 clocked bits, the first one highest. It is a word's own only if the
/// last 31 of them are zeros.
pub fn frame_of_clocked(clocked: u128) -> [u8; FRAME_LEN] {
    let coded = MASKS.map(|mask| coded_bits(clocked, mask));
    let mut frame = sync();
    for (index, place) in places().enumerate() {
        let data = coded[index % 2] >> (CLOCKED - 1 - index / 2) & 1;
        frame[place] += 2 * data as u8;
    }
    frame
}

pub fn sync() -> [u8; FRAME_LEN] {
    SYNC.map(|digit| digit - b'0')
}

/// Where S0 to S161 go: each address from 0 to 255 with its eight bits reversed, if that is
/// below 162.
pub fn places() -> impl Iterator<Item = usize> {
    (0..=u8::MAX)
        .map(|address| usize::from(address.reverse_bits()))
        .filter(|&place| place < FRAME_LEN)
}

/// The parities of one register, the first one highest, as are the clocked bits. Each is the
/// sum modulo 2 of the clocked bits j steps before it, over the bits j that the mask has.
fn coded_bits(clocked: u128, mask: u32) -> u128 {
    (0..32).filter(|j| mask >> j & 1 == 1).fold(0, |sum, j| sum ^ clocked >> j)
}

/// The coded bits of the first and of the second register, put back in order.
fn coded_bits_in(frame: &[u8]) -> [u128; 2] {
    let mut coded = [0; 2];
    for (index, place) in places().enumerate() {
        let bits = &mut coded[index % 2];
        *bits = *bits * 2 + u128::from(frame[place] / 2);
    }
    coded
}

/// The word with these coded bits from one register. Both masks take the newest bit, so the
/// highest coded bit that is left comes from the highest clocked bit not yet found.
fn word_coded_as(coded: u128, mask: u32) -> Option<u64> {
    let mut word = 0;
    let mut left = coded;
    for position in (ZEROS..CLOCKED).rev() {
        if left >> position & 1 == 1 {
            word += 1 << (position - ZEROS);
            left ^= coded_bits(1 << position, mask);
        }
    }
    (left == 0).then_some(word)
}
