// The vectors that come with WSJT-X: messages with their words and frames.
use std::fs;
use std::path::Path;

use crate::reference::frame::FRAME_LEN;
use crate::reference::message::Message;

pub struct Vector {
    pub message: Message,
    pub word: u64,
    pub frame: [u8; FRAME_LEN],
}

/// All 39 lines of `callsign|locator|dBm|word in hex|symbols`.
pub fn wsjtx() -> Vec<Vector> {
    let path = Path::new(env!("CARGO_MANIFEST_DIR")).join("../crates/wsjtx_vectors/stdin");
    let lines = fs::read_to_string(&path)
        .unwrap_or_else(|error| panic!("the vectors at {}: {error}", path.display()));
    let vectors: Vec<Vector> = lines
        .lines()
        .map(|line| vector(line).unwrap_or_else(|| panic!("not a vector: {line}")))
        .collect();
    assert_eq!(vectors.len(), 39, "the vectors at {}", path.display());
    vectors
}

fn vector(line: &str) -> Option<Vector> {
    let mut fields = line.split('|');
    let message = Message {
        callsign: fields.next()?.as_bytes().try_into().ok()?,
        locator: fields.next()?.as_bytes().try_into().ok()?,
        power: fields.next()?.parse().ok()?,
    };
    let word = u64::from_str_radix(fields.next()?, 16).ok()?;
    let frame = symbols(fields.next()?)?;
    fields.next().is_none().then_some(Vector { message, word, frame })
}

fn symbols(digits: &str) -> Option<[u8; FRAME_LEN]> {
    let digits: [u8; FRAME_LEN] = digits.as_bytes().try_into().ok()?;
    let are_symbols = digits.iter().all(|digit| (b'0'..=b'3').contains(digit));
    are_symbols.then(|| digits.map(|digit| digit - b'0'))
}
