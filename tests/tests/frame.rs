// Writing frames and strictly reading them: the library against the independent
// implementation, on clean, damaged and arbitrary inputs.
use wsprcard_tests::answers::{
    message_answer, refused_message, refused_word, word_answer, written_answer,
};
use wsprcard_tests::card;
use wsprcard_tests::counts::Counts;
use wsprcard_tests::facts::LEAST_DISTANCE;
use wsprcard_tests::inputs::{
    bad_character, bad_power, bad_symbol, bad_word, capital_form, edge_words, field_lengths,
    is_legal, legal_bytes, message_in_any_case, message_in_small_letters, message_of,
    random_characters, random_frame, random_legal_word, random_message, random_places, random_word,
    recase, resized, spoil, wrong_lengths, LEGAL_BYTES,
};
use wsprcard_tests::lent::Lent;
use wsprcard_tests::reference::frame::{self as reference, CLOCKED, FRAME_LEN};
use wsprcard_tests::reference::message::{
    self, Message, CALLSIGNS, CALLSIGN_LEN, LOCATORS, LOCATOR_LEN, POWERS, WORDS,
};
use wsprcard_tests::rng::Rng;
use wsprcard_tests::vectors::{self, Vector};

type Frame = [u8; FRAME_LEN];

const WRITTEN: card::Written = card::Written { refusal: 0, place: 0 };

/// Compares the library with the reference, call by call, and counts the answers.
struct Check {
    rng: Rng,
    counts: Counts,
}

impl Check {
    fn new(seed: u64) -> Check {
        Check { rng: Rng::new(seed), counts: Counts::new() }
    }

    fn write_word(&mut self, word: u64) -> card::Written {
        self.write_word_into(word, FRAME_LEN)
    }

    fn write_word_into(&mut self, word: u64, frame_len: usize) -> card::Written {
        let frame = Lent::random(&mut self.rng, frame_len);
        self.write_word_lent(word, frame)
    }

    fn write_word_lent(&mut self, word: u64, mut frame: Lent) -> card::Written {
        let found = card::write_word_lent(word, &mut frame);
        let answer = reference::write_word(word, frame.len());
        let input = || format!("write_word {word:#x} into {}", frame.shown());
        assert_eq!(found, written_answer(answer), "{}", input());
        frame.assert_holds(answer.ok().as_ref(), input);
        self.counts.count("write_word", found.refusal);
        found
    }

    fn write_message(&mut self, message: &Message) -> card::Written {
        self.write_message_into(&message.callsign, &message.locator, message.power, FRAME_LEN)
    }

    /// Ten characters, of which the first six are the callsign.
    fn write_characters(&mut self, characters: &[u8; 10], power: u32) -> card::Written {
        self.write_message_into(&characters[..6], &characters[6..], power, FRAME_LEN)
    }

    fn write_message_into(
        &mut self,
        callsign: &[u8],
        locator: &[u8],
        power: u32,
        frame_len: usize,
    ) -> card::Written {
        let callsign = Lent::holding(&mut self.rng, callsign);
        let locator = Lent::holding(&mut self.rng, locator);
        let frame = Lent::random(&mut self.rng, frame_len);
        self.write_message_lent(callsign, locator, power, frame)
    }

    fn write_message_lent(
        &mut self,
        mut callsign: Lent,
        mut locator: Lent,
        power: u32,
        mut frame: Lent,
    ) -> card::Written {
        let found = card::write_message_lent(&mut callsign, &mut locator, power, &mut frame);
        let answer = reference::write_message(callsign.lent(), locator.lent(), power, frame.len());
        let input = || {
            let (callsign, locator) = (callsign.shown(), locator.shown());
            format!("write_message {callsign} {locator} {power} into {}", frame.shown())
        };
        assert_eq!(found, written_answer(answer), "{}", input());
        assert!(callsign.is_unchanged(), "{} wrote at the callsign", input());
        assert!(locator.is_unchanged(), "{} wrote at the locator", input());
        frame.assert_holds(answer.ok().as_ref(), input);
        self.counts.count("write_message", found.refusal);
        found
    }

    fn read_word(&mut self, frame: &[u8]) -> card::Word {
        let frame = Lent::holding(&mut self.rng, frame);
        self.read_word_lent(frame)
    }

    fn read_word_lent(&mut self, mut frame: Lent) -> card::Word {
        let found = card::read_word_lent(&mut frame);
        let answer = reference::read_word(frame.lent());
        assert_eq!(found, word_answer(answer), "read_word {}", frame.shown());
        assert!(frame.is_unchanged(), "read_word {} wrote at the frame", frame.shown());
        self.counts.count("read_word", found.refusal);
        found
    }

    fn read_message(&mut self, frame: &[u8]) -> card::Message {
        self.read_message_into(frame, CALLSIGN_LEN, LOCATOR_LEN)
    }

    fn read_message_into(
        &mut self,
        frame: &[u8],
        callsign_len: usize,
        locator_len: usize,
    ) -> card::Message {
        let frame = Lent::holding(&mut self.rng, frame);
        let callsign = Lent::random(&mut self.rng, callsign_len);
        let locator = Lent::random(&mut self.rng, locator_len);
        self.read_message_lent(frame, callsign, locator)
    }

    fn read_message_lent(
        &mut self,
        mut frame: Lent,
        mut callsign: Lent,
        mut locator: Lent,
    ) -> card::Message {
        let found = card::read_message_lent(&mut frame, &mut callsign, &mut locator);
        let answer = reference::read_message(frame.lent(), callsign.len(), locator.len());
        let input = || {
            let (callsign, locator) = (callsign.shown(), locator.shown());
            format!("read_message {} into {callsign} {locator}", frame.shown())
        };
        assert_eq!(found, message_answer(answer), "{}", input());
        assert!(frame.is_unchanged(), "{} wrote at the frame", input());
        let message = answer.ok();
        callsign.assert_holds(message.as_ref().map(|message| &message.callsign), input);
        locator.assert_holds(message.as_ref().map(|message| &message.locator), input);
        self.counts.count("read_message", found.refusal);
        found
    }

    fn finish(self, at_least: &[(&'static str, u32, u64)]) {
        self.counts.finish(at_least);
    }
}

/// The frame that the library writes of a word it must accept.
fn frame_of(word: u64) -> Frame {
    let mut frame = [255; FRAME_LEN];
    let found = card::write_word(word, &mut frame);
    assert_eq!(found, WRITTEN, "write_word {word:#x}");
    frame
}

/// The frame that the library writes of a message it must accept.
fn frame_of_message(message: &Message) -> Frame {
    let mut frame = [255; FRAME_LEN];
    let found = card::write_message(&message.callsign, &message.locator, message.power, &mut frame);
    assert_eq!(found, WRITTEN, "write_message {message:?}");
    frame
}

/// The message that the library reads from a frame it must accept.
fn message_in(frame: &Frame) -> Message {
    let (mut callsign, mut locator) = ([0; CALLSIGN_LEN], [0; LOCATOR_LEN]);
    let found = card::read_message(frame, &mut callsign, &mut locator);
    assert_eq!((found.refusal, found.place), (0, 0), "read_message {frame:?}");
    Message { callsign, locator, power: found.power }
}

fn read(word: u64) -> card::Word {
    card::Word { refusal: 0, place: 0, word }
}

fn refused(refusal: u32, place: u32) -> card::Written {
    card::Written { refusal, place }
}

/// Symbols that reading refuses by this number. Numbers 4, 5 and 6 are those of the word in
/// the frame, and 0 is none at all.
fn symbols_refused_by(rng: &mut Rng, number: u32) -> Vec<u8> {
    let mut frame = reference::frame_of(random_legal_word(rng));
    let place = rng.below(FRAME_LEN as u64) as usize;
    match number {
        0 => {}
        1 => {
            let len = rng.pick(&[0, 1, 161, 163, 324, 418]);
            return resized(rng, &frame, len);
        }
        4..=6 => frame = reference::frame_of(bad_word(rng, number)),
        7 => frame[place] = bad_symbol(rng),
        8 => frame[place] ^= 1,
        9 => frame[place] ^= 2,
        _ => panic!("no frame is refused by {number}"),
    }
    frame.to_vec()
}

// The published values

#[test]
fn frames_are_those_of_wsjtx() {
    let mut check = Check::new(1);
    for Vector { message, word, frame } in vectors::wsjtx() {
        assert_eq!(frame_of(word), frame, "{word:#x}");
        assert_eq!(frame_of_message(&message), frame, "{message:?}");
        let small = message_in_small_letters(&message);
        assert_eq!(frame_of_message(&small), frame, "{small:?}");
        assert_eq!(message_in(&frame), message, "{message:?}");
        check.write_word(word);
        check.write_message(&message);
        check.write_message(&small);
        assert_eq!(check.read_word(&frame), read(word), "{message:?}");
        check.read_message(&frame);
    }
    check.finish(&[
        ("write_word", 0, 39),
        ("write_message", 0, 2 * 39),
        ("read_word", 0, 39),
        ("read_message", 0, 39),
    ]);
}

#[test]
fn the_bench_sheet_holds() {
    let mut check = Check::new(2);
    let message = Message { callsign: *b" K1ABC", locator: *b"FN20", power: 37 };
    let word = 259_047_992 * 4_194_304 + 2_942_821;
    assert_eq!(frame_of_message(&message), frame_of(word));
    assert_eq!(frame_of_message(&message_of(b" k1abcfn20", 37)), frame_of(word));
    for len in [0, 161, 163] {
        let symbols = resized(&mut check.rng, &frame_of(word), len);
        assert_eq!(check.read_word(&symbols), refused_word(1, 0), "{len} symbols");
        assert_eq!(check.read_message(&symbols), refused_message(1, 0), "{len} symbols");
        assert_eq!(check.write_word_into(word, len), refused(1, 0), "{len} symbols");
        let found = check.write_message_into(b" K1ABC", b"FN20", 37, len);
        assert_eq!(found, refused(1, 0), "{len} symbols");
    }
    assert_eq!(check.write_characters(b" k1abcfs20", 37), refused(2, 7));
    check.finish(&[
        ("write_word", 1, 3),
        ("write_message", 1, 3),
        ("write_message", 2, 1),
        ("read_word", 1, 3),
        ("read_message", 1, 3),
    ]);
}

/// S0, S1, S2, S3 go to places 0, 128, 64, 32. When the first clocked bit is the only one,
/// they are the lowest bit of both masks, then the next bit of both.
#[test]
fn the_first_coded_bits_go_to_their_published_places() {
    assert_eq!(frame_of(0), reference::sync());
    let frame = frame_of(1 << 49);
    assert_eq!([0, 128, 64, 32].map(|place: usize| frame[place] / 2), [1, 1, 0, 1]);
    let ones = frame.iter().filter(|&symbol| symbol / 2 == 1).count() as u32;
    assert_eq!(ones, 0xf2d0_5351u32.count_ones() + 0xe461_3c47u32.count_ones());
}

// Writing words

#[test]
fn edge_words_are_written_and_read_back() {
    let mut check = Check::new(3);
    for word in edge_words() {
        assert_eq!(check.write_word(word), WRITTEN, "{word:#x}");
        assert_eq!(check.read_word(&reference::frame_of(word)), read(word), "{word:#x}");
    }
    check.finish(&[("write_word", 0, 102), ("read_word", 0, 102)]);
}

#[test]
fn random_words_are_written_and_read_back() {
    let mut check = Check::new(4);
    for turn in 0..80_000 {
        let mut word = random_word(&mut check.rng);
        if turn % 4 == 0 {
            word >>= check.rng.below(50);
        }
        assert_eq!(check.write_word(word), WRITTEN, "{word:#x}");
        assert_eq!(check.read_word(&reference::frame_of(word)), read(word), "{word:#x}");
    }
    check.finish(&[("write_word", 0, 80_000), ("read_word", 0, 80_000)]);
}

/// Words with any higher bit set are 2^50 or more, whatever their lower bits are.
#[test]
fn words_above_fifty_bits_are_not_written() {
    let mut check = Check::new(5);
    let mut words = vec![WORDS, WORDS + 1, u64::MAX, u64::MAX - 1, u64::MAX - WORDS];
    words.extend((50..64).map(|bit| 1 << bit));
    for _ in 0..20_000 {
        words.push(random_word(&mut check.rng) + (1 << check.rng.between(50, 63)));
        words.push(random_legal_word(&mut check.rng) + (check.rng.between(1, (1 << 14) - 1) << 50));
    }
    for word in words {
        assert_eq!(check.write_word(word), refused(4, 0), "{word:#x}");
    }
    check.finish(&[("write_word", 4, 40_019)]);
}

#[test]
fn wrong_lengths_are_refused_before_all_else_in_writing_words() {
    let mut check = Check::new(6);
    for len in wrong_lengths() {
        for _ in 0..10 {
            let word = random_word(&mut check.rng);
            assert_eq!(check.write_word_into(word, len), refused(1, 0), "{word:#x}, {len} symbols");
            let word = WORDS + check.rng.number() % WORDS;
            assert_eq!(check.write_word_into(word, len), refused(1, 0), "{word:#x}, {len} symbols");
        }
    }
    check.finish(&[("write_word", 1, 335 * 20)]);
}

// Strict reading

/// Every symbol changed to every other value, in several frames: the whole answer is known.
#[test]
fn a_frame_with_one_changed_symbol_is_refused() {
    let mut check = Check::new(7);
    let mut frames = vec![reference::frame_of(0), reference::frame_of(WORDS - 1)];
    frames.extend((0..8).map(|_| random_frame(&mut check.rng)));
    for frame in frames {
        for place in 0..FRAME_LEN {
            for symbol in (0..=255).filter(|&symbol| symbol != frame[place]) {
                let mut changed = frame;
                changed[place] = symbol;
                let found = check.read_word(&changed);
                let expected = match symbol {
                    4..=255 => refused_word(7, place as u32),
                    _ if symbol % 2 != frame[place] % 2 => refused_word(8, place as u32),
                    _ => refused_word(9, 0),
                };
                assert_eq!(found, expected, "{symbol} at {place} of {frame:?}");
            }
        }
    }
    let symbols = 10 * FRAME_LEN as u64;
    check.finish(&[
        ("read_word", 7, 252 * symbols),
        ("read_word", 8, 2 * symbols),
        ("read_word", 9, symbols),
    ]);
}

/// The same to the message, from a frame whose word is a legal message and one whose isn't.
#[test]
fn no_message_is_read_from_a_frame_with_one_changed_symbol() {
    let mut check = Check::new(8);
    for number in [0, 6] {
        let frame = symbols_refused_by(&mut check.rng, number);
        assert_eq!(check.read_message(&frame).refusal, number, "{frame:?}");
        for place in 0..FRAME_LEN {
            for symbol in (0..=255).filter(|&symbol| symbol != frame[place]) {
                let mut changed = frame.clone();
                changed[place] = symbol;
                check.read_message(&changed);
            }
        }
    }
    let symbols = 2 * FRAME_LEN as u64;
    check.finish(&[
        ("read_message", 0, 1),
        ("read_message", 6, 1),
        ("read_message", 7, 252 * symbols),
        ("read_message", 8, 2 * symbols),
        ("read_message", 9, symbols),
    ]);
}

/// Before the place are symbols 0 to 3 with right and wrong sync bits, after it any bytes.
#[test]
fn the_first_symbol_above_3_is_refused() {
    let mut check = Check::new(9);
    for place in 0..FRAME_LEN {
        for turn in 0..40 {
            let mut frame = random_frame(&mut check.rng);
            if turn >= 10 {
                frame[..place].fill_with(|| check.rng.below(4) as u8);
            }
            if turn >= 20 {
                frame[place + 1..].fill_with(|| check.rng.byte());
            }
            for symbol in [4, 255, bad_symbol(&mut check.rng)] {
                frame[place] = symbol;
                let place = place as u32;
                assert_eq!(check.read_word(&frame), refused_word(7, place), "{frame:?}");
                assert_eq!(check.read_message(&frame), refused_message(7, place), "{frame:?}");
            }
        }
    }
    let count = 162 * 40 * 3;
    check.finish(&[("read_word", 7, count), ("read_message", 7, count)]);
}

/// Before the place are right sync bits with any data bits, after it any symbols 0 to 3.
#[test]
fn the_first_wrong_sync_bit_is_refused() {
    let mut check = Check::new(10);
    for place in 0..FRAME_LEN {
        for turn in 0..60 {
            let mut frame = random_frame(&mut check.rng);
            if turn >= 20 {
                for symbol in &mut frame[..place] {
                    *symbol = reroll_data(&mut check.rng, *symbol);
                }
            }
            if turn >= 40 {
                frame[place + 1..].fill_with(|| check.rng.below(4) as u8);
            }
            frame[place] ^= 1;
            let place = place as u32;
            assert_eq!(check.read_word(&frame), refused_word(8, place), "{frame:?}");
            assert_eq!(check.read_message(&frame), refused_message(8, place), "{frame:?}");
        }
    }
    check.finish(&[("read_word", 8, 162 * 60), ("read_message", 8, 162 * 60)]);
}

#[test]
fn a_frame_with_one_or_two_flipped_data_bits_is_refused() {
    let mut check = Check::new(11);
    for word in [0, random_word(&mut check.rng)] {
        let frame = reference::frame_of(word);
        for first in 0..FRAME_LEN {
            let mut one = frame;
            one[first] ^= 2;
            assert_eq!(check.read_word(&one), refused_word(9, 0), "{word:#x}: {first}");
            for second in first + 1..FRAME_LEN {
                let mut two = one;
                two[second] ^= 2;
                let found = check.read_word(&two);
                assert_eq!(found, refused_word(9, 0), "{word:#x}: {first} {second}");
            }
        }
    }
    check.finish(&[("read_word", 9, 2 * (162 + 162 * 161 / 2))]);
}

/// Frames of different words differ in 28 data bits or more, so up to 27 flips can't give the frame
/// of another word. That more of them do is too rare to be met here.
#[test]
fn frames_with_flipped_data_bits_are_refused() {
    let mut check = Check::new(12);
    for count in 1..=FRAME_LEN {
        for _ in 0..200 {
            let mut frame = random_frame(&mut check.rng);
            for place in random_places(&mut check.rng, count) {
                frame[place] ^= 2;
            }
            let found = check.read_word(&frame);
            if count < LEAST_DISTANCE as usize {
                assert_eq!(found, refused_word(9, 0), "{count} flips to {frame:?}");
            }
        }
    }
    check.finish(&[("read_word", 9, 162 * 200)]);
}

/// All the flips that lead from a frame to that of a word which differs in a few bits.
#[test]
fn flips_from_one_frame_to_another_are_read() {
    let mut check = Check::new(13);
    for _ in 0..20_000 {
        let word = random_word(&mut check.rng);
        let difference = check.rng.between(1, 15) << check.rng.below(47);
        let mut frame = reference::frame_of(word);
        for (symbol, flip) in frame.iter_mut().zip(reference::frame_of(difference)) {
            *symbol ^= flip & 2;
        }
        let other = word ^ difference;
        assert_eq!(check.read_word(&frame), read(other), "{word:#x} {difference:#x}");
    }
    check.finish(&[("read_word", 0, 20_000)]);
}

/// The 31 bits clocked after the word have to be zeros. Others have a frame too, but not one
/// of any word.
#[test]
fn frames_with_other_bits_after_the_word_are_refused() {
    let mut check = Check::new(14);
    let after = CLOCKED - 50;
    for turn in 0..20_000 {
        let clocked = u128::from(random_word(&mut check.rng)) << after;
        let tail = match turn % 3 {
            0 => 1 << (turn / 3 % after),
            1 => check.rng.between(1, (1 << after) - 1),
            _ => check.rng.between(1, 7),
        };
        let frame = reference::frame_of_clocked(clocked + u128::from(tail));
        assert_eq!(check.read_word(&frame), refused_word(9, 0), "{clocked:#x} + {tail:#x}");
        assert_eq!(check.read_message(&frame), refused_message(9, 0), "{clocked:#x} + {tail:#x}");
    }
    check.finish(&[("read_word", 9, 20_000), ("read_message", 9, 20_000)]);
}

/// The first register's bits from the frame of one word, the second's from that of another.
#[test]
fn frames_of_two_words_are_refused() {
    let mut check = Check::new(15);
    for turn in 0..20_000 {
        let word = random_word(&mut check.rng);
        let difference =
            if turn % 2 == 0 { 1 << check.rng.below(50) } else { check.rng.between(1, WORDS - 1) };
        let mut frame = reference::frame_of(word);
        let other = reference::frame_of(word ^ difference);
        for place in reference::places().skip(1).step_by(2) {
            frame[place] = other[place];
        }
        assert_eq!(check.read_word(&frame), refused_word(9, 0), "{word:#x} {difference:#x}");
    }
    check.finish(&[("read_word", 9, 20_000)]);
}

/// Ways of damaging a symbol. Each may leave it as it was, so some damaged frames are read.
const DAMAGES: [fn(&mut Rng, u8) -> u8; 4] = [reroll_data, reroll_symbol, reroll_byte, add_high];

fn reroll_data(rng: &mut Rng, symbol: u8) -> u8 {
    symbol % 2 + 2 * rng.below(2) as u8
}

fn reroll_symbol(rng: &mut Rng, _: u8) -> u8 {
    rng.below(4) as u8
}

fn reroll_byte(rng: &mut Rng, _: u8) -> u8 {
    rng.byte()
}

/// The symbol stays in the two lowest bits.
fn add_high(rng: &mut Rng, symbol: u8) -> u8 {
    symbol + 4 * rng.below(64) as u8
}

#[test]
fn damaged_frames_are_read_or_refused() {
    let mut check = Check::new(16);
    for damage in DAMAGES {
        for count in 1..=FRAME_LEN {
            for _ in 0..60 {
                let mut frame = reference::frame_of(random_legal_word(&mut check.rng));
                for place in random_places(&mut check.rng, count) {
                    frame[place] = damage(&mut check.rng, frame[place]);
                }
                check.read_word(&frame);
                check.read_message(&frame);
            }
        }
    }
    let mut at_least = Vec::new();
    for call in ["read_word", "read_message"] {
        at_least.extend([(call, 0, 50), (call, 7, 15_000), (call, 8, 9_000), (call, 9, 9_000)]);
    }
    check.finish(&at_least);
}

#[test]
fn frames_of_one_symbol_are_refused() {
    let mut check = Check::new(17);
    for symbol in 0..=255 {
        let (refusal, place) = match symbol {
            0 | 2 => (8, 0),
            1 | 3 => (8, 2),
            _ => (7, 0),
        };
        let frame = [symbol; FRAME_LEN];
        assert_eq!(check.read_word(&frame), refused_word(refusal, place), "{symbol}");
        assert_eq!(check.read_message(&frame), refused_message(refusal, place), "{symbol}");
    }
    check.finish(&[
        ("read_word", 7, 252),
        ("read_word", 8, 4),
        ("read_message", 7, 252),
        ("read_message", 8, 4),
    ]);
}

/// The sync vector with no data bit, with all of them, and without a single sync bit right.
/// Word 0 is refused as a message for its power.
#[test]
fn frames_of_the_sync_vector_are_read_or_refused() {
    let mut check = Check::new(18);
    let sync = reference::sync();
    assert_eq!(check.read_word(&sync), read(0));
    assert_eq!(check.read_message(&sync), refused_message(6, 0));
    let full = sync.map(|bit| bit + 2);
    assert_eq!(check.read_word(&full), refused_word(9, 0));
    assert_eq!(check.read_message(&full), refused_message(9, 0));
    let inverted = sync.map(|bit| 1 - bit);
    assert_eq!(check.read_word(&inverted), refused_word(8, 0));
    assert_eq!(check.read_message(&inverted), refused_message(8, 0));
    check.finish(&[
        ("read_word", 0, 1),
        ("read_word", 8, 1),
        ("read_word", 9, 1),
        ("read_message", 6, 1),
        ("read_message", 8, 1),
        ("read_message", 9, 1),
    ]);
}

#[test]
fn arbitrary_symbols_are_refused() {
    let mut check = Check::new(19);
    for damage in DAMAGES {
        for _ in 0..5_000 {
            let frame = reference::sync().map(|bit| damage(&mut check.rng, bit));
            check.read_word(&frame);
        }
    }
    check.finish(&[("read_word", 7, 10_000), ("read_word", 8, 5_000), ("read_word", 9, 5_000)]);
}

#[test]
fn wrong_lengths_are_refused_before_all_else_in_reading() {
    let mut check = Check::new(20);
    for len in wrong_lengths() {
        for number in [0, 4, 5, 6, 7, 8, 9] {
            let symbols = symbols_refused_by(&mut check.rng, number);
            let symbols = resized(&mut check.rng, &symbols, len);
            assert_eq!(check.read_word(&symbols), refused_word(1, 0), "{len} symbols");
            assert_eq!(check.read_message(&symbols), refused_message(1, 0), "{len} symbols");
        }
        let bytes = check.rng.bytes(len);
        assert_eq!(check.read_word(&bytes), refused_word(1, 0), "{len} bytes");
        assert_eq!(check.read_message(&bytes), refused_message(1, 0), "{len} bytes");
    }
    check.finish(&[("read_word", 1, 335 * 8), ("read_message", 1, 335 * 8)]);
}

// Reading messages

#[test]
fn messages_are_read_from_frames() {
    let mut check = Check::new(21);
    for _ in 0..60_000 {
        let frame = reference::frame_of(random_legal_word(&mut check.rng));
        assert_eq!(check.read_message(&frame).refusal, 0, "{frame:?}");
    }
    check.finish(&[("read_message", 0, 60_000)]);
}

/// Frames of words that are no messages: the word is read all the same.
#[test]
fn frames_of_other_words_are_read_to_the_word_only() {
    let mut check = Check::new(22);
    for number in [4, 5, 6] {
        for _ in 0..20_000 {
            let word = bad_word(&mut check.rng, number);
            assert_eq!(check.write_word(word), WRITTEN, "{word:#x}");
            let frame = reference::frame_of(word);
            assert_eq!(check.read_word(&frame), read(word), "{word:#x}");
            assert_eq!(check.read_message(&frame), refused_message(number, 0), "{word:#x}");
        }
    }
    check.finish(&[
        ("write_word", 0, 60_000),
        ("read_word", 0, 60_000),
        ("read_message", 4, 20_000),
        ("read_message", 5, 20_000),
        ("read_message", 6, 20_000),
    ]);
}

#[test]
fn words_near_every_boundary_are_read_to_the_message_or_refused() {
    let mut check = Check::new(23);
    let ns = [0, 1, CALLSIGNS - 1, CALLSIGNS, (1 << 28) - 1];
    let m1s = [0, 1, LOCATORS - 1, LOCATORS, (1 << 15) - 1];
    for n in ns {
        for m1 in m1s {
            for low in 0..128 {
                let frame = reference::frame_of(message::word_of(n, m1, low));
                check.read_message(&frame);
            }
        }
    }
    check.finish(&[
        ("read_message", 0, 3 * 3 * 19),
        ("read_message", 4, 2 * 5 * 128),
        ("read_message", 5, 3 * 2 * 128),
        ("read_message", 6, 3 * 3 * 109),
    ]);
}

/// The frame's own refusals come first, then the lent lengths, then those of its word.
#[test]
fn refusals_come_in_their_order_in_reading_messages() {
    let mut check = Check::new(24);
    for callsign_len in field_lengths() {
        for locator_len in field_lengths() {
            for number in [0, 1, 4, 5, 6, 7, 8, 9] {
                for _ in 0..10 {
                    let symbols = symbols_refused_by(&mut check.rng, number);
                    let found = check.read_message_into(&symbols, callsign_len, locator_len);
                    let fits = (callsign_len, locator_len) == (6, 4);
                    let of_frame = [1, 7, 8, 9].contains(&number);
                    let first = if fits || of_frame { number } else { 1 };
                    assert_eq!(found.refusal, first, "{number} {callsign_len} {locator_len}");
                }
            }
        }
    }
    let mut at_least = vec![("read_message", 1, 195 * 50 + 10)];
    at_least.extend([0, 4, 5, 6].map(|number| ("read_message", number, 10)));
    at_least.extend([7, 8, 9].map(|number| ("read_message", number, 196 * 10)));
    check.finish(&at_least);
}

// Writing messages

#[test]
fn random_messages_are_written_and_read_back() {
    let mut check = Check::new(25);
    for _ in 0..60_000 {
        let message = random_message(&mut check.rng);
        assert_eq!(check.write_message(&message), WRITTEN, "{message:?}");
        let frame = frame_of_message(&message);
        let power = check.read_message(&frame).power;
        assert_eq!(power, message.power, "{message:?}");
    }
    check.finish(&[("write_message", 0, 60_000), ("read_message", 0, 60_000)]);
}

#[test]
fn every_byte_at_every_place_is_written_or_refused() {
    let mut check = Check::new(26);
    for place in 0..10 {
        for byte in 0..=255 {
            for turn in 0..6 {
                let mut characters = random_characters(&mut check.rng);
                if turn % 2 == 1 {
                    recase(&mut check.rng, &mut characters);
                }
                characters[place] = byte;
                let power =
                    if turn % 3 == 2 { bad_power(&mut check.rng) } else { check.rng.pick(&POWERS) };
                let found = check.write_characters(&characters, power);
                assert_written_as_capitals(&characters, power);
                if !is_legal(place, byte) {
                    assert_eq!(found, refused(2, place as u32), "{characters:?}");
                }
            }
        }
    }
    check.finish(&[
        ("write_message", 0, LEGAL_BYTES * 4),
        ("write_message", 2, (2560 - LEGAL_BYTES) * 6),
        ("write_message", 3, LEGAL_BYTES * 2),
    ]);
}

/// By the library alone: the answer to ten characters and the frame are those of the capital form.
fn assert_written_as_capitals(characters: &[u8; 10], power: u32) {
    let capitals = capital_form(*characters);
    let [found, expected] = [characters, &capitals].map(|characters| {
        let mut frame = [255; FRAME_LEN];
        let written = card::write_message(&characters[..6], &characters[6..], power, &mut frame);
        (written, frame)
    });
    assert_eq!(found, expected, "{} {power}", characters.escape_ascii());
}

#[test]
fn messages_in_any_case_are_written_as_their_capital_form() {
    let mut check = Check::new(40);
    for _ in 0..40_000 {
        let message = random_message(&mut check.rng);
        let in_any_case = message_in_any_case(&mut check.rng, &message);
        for typed in [in_any_case, message_in_small_letters(&message)] {
            assert_eq!(check.write_message(&typed), WRITTEN, "{typed:?}");
            let frame = frame_of_message(&typed);
            assert_eq!(frame, frame_of_message(&message), "{typed:?}");
            assert_eq!(message_in(&frame), message, "{typed:?}");
        }
    }
    check.finish(&[("write_message", 0, 2 * 40_000)]);
}

/// Bad characters and powers and both, the letters in any case.
#[test]
fn refusals_of_messages_in_any_case_are_those_of_their_capital_form() {
    let mut check = Check::new(41);
    for turn in 0..40_000 {
        let mut characters = random_characters(&mut check.rng);
        if turn & 1 != 0 {
            spoil(&mut check.rng, &mut characters, 0);
        }
        if turn & 2 != 0 {
            spoil(&mut check.rng, &mut characters, 0);
        }
        let power = if turn & 4 != 0 { bad_power(&mut check.rng) } else { check.rng.pick(&POWERS) };
        recase(&mut check.rng, &mut characters);
        check.write_characters(&characters, power);
        assert_written_as_capitals(&characters, power);
    }
    check.finish(&[
        ("write_message", 0, 5_000),
        ("write_message", 2, 30_000),
        ("write_message", 3, 5_000),
    ]);
}

/// Every set of places with bad characters, with a legal power and with others.
#[test]
fn the_first_of_several_bad_characters_is_refused() {
    let mut check = Check::new(27);
    for places in 1u32..1024 {
        for turn in 0..10 {
            let mut characters = random_characters(&mut check.rng);
            for (place, character) in characters.iter_mut().enumerate() {
                if places >> place & 1 == 1 {
                    *character = bad_character(&mut check.rng, place);
                }
            }
            let power =
                if turn % 2 == 0 { check.rng.pick(&POWERS) } else { bad_power(&mut check.rng) };
            let found = check.write_characters(&characters, power);
            assert_eq!(found, refused(2, places.trailing_zeros()), "{characters:?} {power}");
        }
    }
    check.finish(&[("write_message", 2, 1023 * 10)]);
}

#[test]
fn every_power_is_written_or_refused() {
    let mut check = Check::new(28);
    let mut powers: Vec<u32> = (0..=1023).collect();
    powers.extend(u32::MAX - 255..=u32::MAX);
    powers.extend(POWERS.iter().flat_map(|power| (6..32).map(move |bit| power ^ 1 << bit)));
    powers.extend((0..10_000).map(|_| check.rng.number() as u32));
    for power in powers {
        let characters = random_characters(&mut check.rng);
        let found = check.write_characters(&characters, power);
        let expected = if POWERS.contains(&power) { WRITTEN } else { refused(3, 0) };
        assert_eq!(found, expected, "{characters:?} {power}");
    }
    check.finish(&[("write_message", 0, 19), ("write_message", 3, 11_000)]);
}

/// Every set of faults: the three lengths, a bad character in either field, a bad power.
#[test]
fn refusals_come_in_their_order_in_writing_messages() {
    let mut check = Check::new(29);
    for faults in 0u32..64 {
        let has = |fault: u32| faults >> fault & 1 == 1;
        for _ in 0..400 {
            let rng = &mut check.rng;
            let callsign_len = if has(0) { rng.pick(&[0, 1, 4, 5, 7, 10]) } else { CALLSIGN_LEN };
            let locator_len = if has(1) { rng.pick(&[0, 1, 3, 5, 6, 10]) } else { LOCATOR_LEN };
            let frame_len = if has(2) { rng.pick(&[0, 1, 161, 163, 418]) } else { FRAME_LEN };
            let mut callsign = legal_bytes(rng, 0, callsign_len);
            let mut locator = legal_bytes(rng, 6, locator_len);
            if has(3) {
                spoil(rng, &mut callsign, 0);
            }
            if has(4) {
                spoil(rng, &mut locator, 6);
            }
            let power = if has(5) { bad_power(rng) } else { rng.pick(&POWERS) };
            let found = check.write_message_into(&callsign, &locator, power, frame_len);
            let first = match faults {
                _ if has(0) || has(1) || has(2) => 1,
                _ if has(3) || has(4) => 2,
                _ if has(5) => 3,
                _ => 0,
            };
            assert_eq!(found.refusal, first, "faults {faults:b}");
        }
    }
    check.finish(&[
        ("write_message", 0, 400),
        ("write_message", 1, 56 * 400),
        ("write_message", 2, 6 * 400),
        ("write_message", 3, 400),
    ]);
}

#[test]
fn frames_of_other_lengths_are_refused_in_writing_messages() {
    let mut check = Check::new(30);
    for len in wrong_lengths() {
        for _ in 0..4 {
            let Message { callsign, locator, power } = random_message(&mut check.rng);
            let found = check.write_message_into(&callsign, &locator, power, len);
            assert_eq!(found, refused(1, 0), "{len} symbols");
        }
    }
    check.finish(&[("write_message", 1, 335 * 4)]);
}

// Buffers

/// Filled with a pattern and then with its complement, no byte can be right by chance.
#[test]
fn every_byte_of_a_frame_or_a_message_is_written() {
    let mut check = Check::new(31);
    for _ in 0..15_000 {
        let word = random_legal_word(&mut check.rng);
        let symbols = reference::frame_of(word);
        let message = message_in(&symbols);
        let pattern = check.rng.bytes(FRAME_LEN);
        let complement: Vec<u8> = pattern.iter().map(|byte| !byte).collect();
        for filling in [pattern, complement] {
            let frame = Lent::holding(&mut check.rng, &filling);
            assert_eq!(check.write_word_lent(word, frame), WRITTEN, "{word:#x}");
            let callsign = Lent::holding(&mut check.rng, &message.callsign);
            let locator = Lent::holding(&mut check.rng, &message.locator);
            let frame = Lent::holding(&mut check.rng, &filling);
            let found = check.write_message_lent(callsign, locator, message.power, frame);
            assert_eq!(found, WRITTEN, "{message:?}");
            let frame = Lent::holding(&mut check.rng, &symbols);
            let callsign = Lent::holding(&mut check.rng, &filling[..6]);
            let locator = Lent::holding(&mut check.rng, &filling[6..10]);
            assert_eq!(check.read_message_lent(frame, callsign, locator).refusal, 0, "{word:#x}");
        }
    }
    check.finish(&[
        ("write_word", 0, 30_000),
        ("write_message", 0, 30_000),
        ("read_message", 0, 30_000),
    ]);
}

#[test]
fn null_with_length_0_is_an_empty_frame() {
    let mut check = Check::new(32);
    for turn in 0..1_000 {
        let word = if turn % 2 == 0 { random_word(&mut check.rng) } else { check.rng.number() };
        assert_eq!(check.write_word_lent(word, Lent::null()), refused(1, 0), "{word:#x}");
        assert_eq!(check.read_word_lent(Lent::null()), refused_word(1, 0));
    }
    check.finish(&[("write_word", 1, 1_000), ("read_word", 1, 1_000)]);
}

/// NULL for every set of the three buffers, with characters and powers good and bad.
#[test]
fn null_with_length_0_is_refused_in_writing_messages() {
    let mut check = Check::new(33);
    for turn in 0..1_000 {
        for nulls in 1..8 {
            let mut characters = random_characters(&mut check.rng);
            let mut power = check.rng.pick(&POWERS);
            if turn % 2 == 1 {
                spoil(&mut check.rng, &mut characters, 0);
                power = bad_power(&mut check.rng);
            }
            let rng = &mut check.rng;
            let callsign = Lent::null_or_holding(rng, nulls & 1 != 0, &characters[..6]);
            let locator = Lent::null_or_holding(rng, nulls & 2 != 0, &characters[6..]);
            let frame = Lent::null_or_holding(rng, nulls & 4 != 0, &[255; FRAME_LEN]);
            let found = check.write_message_lent(callsign, locator, power, frame);
            assert_eq!(found, refused(1, 0), "NULLs {nulls:b}");
        }
    }
    check.finish(&[("write_message", 1, 7 * 1_000)]);
}

/// NULL for every set of the three buffers. A frame that is there and gives no word is refused
/// before the other two.
#[test]
fn null_with_length_0_is_refused_in_reading_messages() {
    let mut check = Check::new(34);
    for _ in 0..300 {
        for nulls in 1..8 {
            for number in [0, 4, 5, 6, 7, 8, 9] {
                let symbols = symbols_refused_by(&mut check.rng, number);
                let rng = &mut check.rng;
                let frame = Lent::null_or_holding(rng, nulls & 1 != 0, &symbols);
                let callsign = Lent::null_or_holding(rng, nulls & 2 != 0, b"??????");
                let locator = Lent::null_or_holding(rng, nulls & 4 != 0, b"????");
                let found = check.read_message_lent(frame, callsign, locator);
                let first = if nulls & 1 == 0 && number >= 7 { number } else { 1 };
                assert_eq!(found.refusal, first, "{number}, NULLs {nulls:b}");
            }
        }
    }
    let mut at_least = vec![("read_message", 1, 300 * (4 * 7 + 3 * 4))];
    at_least.extend([7, 8, 9].map(|number| ("read_message", number, 300 * 3)));
    check.finish(&at_least);
}

/// A frame whose length has the right lowest 32 bits. The memory past its first symbols is
/// only asked for, never used, since the library has to refuse by the length alone.
#[test]
fn frames_of_four_gibibytes_are_refused() {
    let symbols = frame_of(random_legal_word(&mut Rng::new(35)));
    let mut long = vec![0; (1 << 32) + FRAME_LEN];
    long[..FRAME_LEN].copy_from_slice(&symbols);
    assert_eq!(card::read_word(&long), refused_word(1, 0));
    let (mut callsign, mut locator) = (*b"??????", *b"????");
    let found = card::read_message(&long, &mut callsign, &mut locator);
    assert_eq!(found, refused_message(1, 0));
    assert_eq!((&callsign, &locator), (b"??????", b"????"));
    assert_eq!(card::write_word(0, &mut long), refused(1, 0));
    assert_eq!(card::write_message(b" K1ABC", b"FN20", 37, &mut long), refused(1, 0));
    assert_eq!(long[..FRAME_LEN], symbols);
}

/// The same of callsigns and locators, read from and written to.
#[test]
fn callsigns_and_locators_of_four_gibibytes_are_refused() {
    let symbols = frame_of(random_legal_word(&mut Rng::new(36)));
    let mut long = vec![0; (1 << 32) + CALLSIGN_LEN];
    long[..CALLSIGN_LEN].copy_from_slice(b" K1ABC");
    let mut frame = [255; FRAME_LEN];
    assert_eq!(card::write_message(&long, b"FN20", 37, &mut frame), refused(1, 0));
    let mut locator = *b"????";
    assert_eq!(card::read_message(&symbols, &mut long, &mut locator), refused_message(1, 0));
    assert_eq!((&long[..CALLSIGN_LEN], &locator), (&b" K1ABC"[..], b"????"));
    long.truncate((1 << 32) + LOCATOR_LEN);
    long[..LOCATOR_LEN].copy_from_slice(b"FN20");
    assert_eq!(card::write_message(b" K1ABC", &long, 37, &mut frame), refused(1, 0));
    let mut callsign = *b"??????";
    assert_eq!(card::read_message(&symbols, &mut callsign, &mut long), refused_message(1, 0));
    assert_eq!((&long[..LOCATOR_LEN], &callsign), (&b"FN20"[..], b"??????"));
    assert_eq!(frame, [255; FRAME_LEN]);
}

// There and back, by the library alone

#[test]
fn a_written_word_is_read_back() {
    let mut rng = Rng::new(37);
    for _ in 0..200_000 {
        let word = random_word(&mut rng);
        assert_eq!(card::read_word(&frame_of(word)), read(word), "{word:#x}");
    }
}

#[test]
fn a_written_message_is_read_back() {
    let mut rng = Rng::new(38);
    for _ in 0..100_000 {
        let message = random_message(&mut rng);
        let frame = frame_of_message(&message);
        assert_eq!(message_in(&frame), message, "{frame:?}");
        let packed = card::pack(&message.callsign, &message.locator, message.power);
        assert_eq!(frame, frame_of(packed.word), "{message:?}");
    }
}

/// Frames with any data bits at a few places: those that are read are just the frames that
/// writing makes.
#[test]
fn a_frame_that_is_read_is_written_again() {
    let mut rng = Rng::new(39);
    let (mut accepted, mut rejected) = (0, 0);
    for turn in 0..60_000 {
        let mut frame = frame_of(random_word(&mut rng));
        for place in random_places(&mut rng, 1 + turn % 3) {
            frame[place] = reroll_data(&mut rng, frame[place]);
        }
        let found = card::read_word(&frame);
        if found.refusal == 0 {
            assert_eq!(frame_of(found.word), frame, "{:#x}", found.word);
            accepted += 1;
        } else {
            assert_eq!(found, refused_word(9, 0), "{frame:?}");
            rejected += 1;
        }
    }
    assert!(accepted >= 10_000 && rejected >= 10_000, "{accepted} read, {rejected} refused");
}
