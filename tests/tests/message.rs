// Packing a message into the word and reading it back: the library against the independent
// implementation, on legal, damaged and arbitrary inputs.

use wsprcard_tests::answers::{message_answer, refused_message, refused_word, word_answer};
use wsprcard_tests::card;
use wsprcard_tests::inputs::{
    bad_character, bad_low, bad_power, capital_form, characters_of, field_lengths, good_low,
    is_legal, legal_bytes, message_in_any_case, message_in_small_letters, random_characters,
    random_legal_word, random_message, recase, spoil,
};
use wsprcard_tests::lent::Lent;
use wsprcard_tests::reference::message::{
    self as reference, Message, CALLSIGNS, CALLSIGN_LEN, CHARACTERS, LOCATORS, LOCATOR_LEN, POWERS,
    WORDS,
};
use wsprcard_tests::rng::Rng;
use wsprcard_tests::vectors::{self, Vector};

/// Compares the library with the reference, call by call, and counts the calls.
struct Check {
    rng: Rng,
    compared: u64,
}

impl Check {
    fn new(seed: u64) -> Check {
        Check { rng: Rng::new(seed), compared: 0 }
    }

    fn pack(&mut self, callsign: &[u8], locator: &[u8], power: u32) -> card::Word {
        let callsign = Lent::holding(&mut self.rng, callsign);
        let locator = Lent::holding(&mut self.rng, locator);
        self.pack_lent(callsign, locator, power)
    }

    fn pack_message(&mut self, message: &Message) -> card::Word {
        self.pack(&message.callsign, &message.locator, message.power)
    }

    /// Ten characters, of which the first six are the callsign.
    fn pack_characters(&mut self, characters: &[u8; 10], power: u32) -> card::Word {
        self.pack(&characters[..6], &characters[6..], power)
    }

    /// The same, and holds the answer to that of the capital form.
    fn pack_as_capitals(&mut self, characters: &[u8; 10], power: u32) -> card::Word {
        let found = self.pack_characters(characters, power);
        let capitals = capital_form(*characters);
        let expected = card::pack(&capitals[..6], &capitals[6..], power);
        assert_eq!(found, expected, "{} {power}", text(characters));
        found
    }

    fn pack_lent(&mut self, mut callsign: Lent, mut locator: Lent, power: u32) -> card::Word {
        let found = card::pack_lent(&mut callsign, &mut locator, power);
        let expected = word_answer(reference::pack(callsign.lent(), locator.lent(), power));
        let input = || format!("pack {} {} {}", callsign.shown(), locator.shown(), power);
        assert_eq!(found, expected, "{}", input());
        assert!(callsign.is_unchanged(), "{} wrote at the callsign", input());
        assert!(locator.is_unchanged(), "{} wrote at the locator", input());
        self.compared += 1;
        found
    }

    fn unpack(&mut self, word: u64) -> card::Message {
        self.unpack_into(word, CALLSIGN_LEN, LOCATOR_LEN)
    }

    fn unpack_into(&mut self, word: u64, callsign_len: usize, locator_len: usize) -> card::Message {
        let callsign = Lent::random(&mut self.rng, callsign_len);
        let locator = Lent::random(&mut self.rng, locator_len);
        self.unpack_lent(word, callsign, locator)
    }

    fn unpack_lent(&mut self, word: u64, mut callsign: Lent, mut locator: Lent) -> card::Message {
        let found = card::unpack_lent(word, &mut callsign, &mut locator);
        let answer = reference::unpack(word, callsign.len(), locator.len());
        let input = || format!("unpack {word:#x} into {} {}", callsign.shown(), locator.shown());
        assert_eq!(found, message_answer(answer), "{}", input());
        let message = answer.ok();
        callsign.assert_holds(message.as_ref().map(|message| &message.callsign), input);
        locator.assert_holds(message.as_ref().map(|message| &message.locator), input);
        self.compared += 1;
        found
    }

    /// Holds the test to the number of inputs it is meant to try.
    fn finish(self, at_least: u64) {
        println!("{} inputs compared", self.compared);
        assert!(self.compared >= at_least, "only {} inputs compared", self.compared);
    }
}

/// The message that the library reads from a word it must accept.
fn read_message(word: u64) -> Message {
    let (mut callsign, mut locator) = ([0; CALLSIGN_LEN], [0; LOCATOR_LEN]);
    let found = card::unpack(word, &mut callsign, &mut locator);
    assert_eq!((found.refusal, found.place), (0, 0), "unpack {word:#x}");
    Message { callsign, locator, power: found.power }
}

fn text(bytes: &[u8]) -> String {
    bytes.escape_ascii().to_string()
}

// The published values

#[test]
fn the_bench_sheet_holds() {
    let mut check = Check::new(1);
    assert_eq!(reference::callsign_number(b" K1ABC"), 259_047_992);
    assert_eq!(reference::callsign_number(b" Z9   "), 262_177_559);
    assert_eq!(reference::callsign_number(b"000AAA"), 0);
    for (locator, m1) in
        [(b"FN20", 22_990), (b"AR09", 32_399), (b"RA90", 0), (b"AA00", 32_220), (b"RR99", 179)]
    {
        assert_eq!(reference::locator_number(locator), m1, "{}", text(locator));
        let word = 259_047_992 * 4_194_304 + m1 * 128 + 37 + 64;
        let found = check.pack(b" K1ABC", locator, 37);
        assert_eq!(found, card::Word { refusal: 0, place: 0, word }, "{}", text(locator));
        let message = Message { callsign: *b" K1ABC", locator: *locator, power: 37 };
        assert_eq!(read_message(word), message, "{word:#x}");
    }
    let word = 259_047_992 * 4_194_304 + 2_942_821;
    assert_eq!(card::pack(b" K1ABC", b"FN20", 37).word, word);
    let largest = 262_177_559 * 4_194_304 + 4_147_196;
    assert_eq!(card::pack(b" Z9   ", b"AR09", 60).word, largest);
    assert_eq!(check.pack(b" k1abc", b"fn20", 37), card::Word { refusal: 0, place: 0, word });
    assert_eq!(check.pack(b" z9   ", b"ar09", 60).word, largest);
    assert_eq!(check.pack(b" k1abc", b"sn20", 37), refused_word(2, 6));
    assert_eq!(check.pack(b" K1ABC", b"FN20", 36), refused_word(3, 0));
    assert_eq!(check.unpack(largest), card::Message { refusal: 0, place: 0, power: 60 });
    assert_eq!(check.unpack(1 << 50), refused_message(4, 0));
    assert_eq!(check.unpack(262_177_560 << 22), refused_message(4, 0));
    assert_eq!(check.unpack(32_400 * 128 + 64), refused_message(5, 0));
    assert_eq!(check.unpack(32_399 * 128 + 65), refused_message(6, 0));
    check.finish(14);
}

#[test]
fn words_are_those_of_wsjtx() {
    let mut check = Check::new(2);
    for Vector { message, word, .. } in vectors::wsjtx() {
        let expected = card::Word { refusal: 0, place: 0, word };
        assert_eq!(check.pack_message(&message), expected, "{message:?}");
        let small = message_in_small_letters(&message);
        assert_eq!(check.pack_message(&small), expected, "{small:?}");
        check.unpack(word);
        assert_eq!(read_message(word), message, "{word:#x}");
    }
    check.finish(3 * 39);
}

// Packing

#[test]
fn random_messages_are_packed() {
    let mut check = Check::new(3);
    for _ in 0..200_000 {
        let message = random_message(&mut check.rng);
        assert_eq!(check.pack_message(&message).refusal, 0, "{message:?}");
    }
    check.finish(200_000);
}

#[test]
fn every_character_at_every_place_with_every_power_is_packed() {
    let mut check = Check::new(4);
    for (place, legal) in CHARACTERS.iter().enumerate() {
        for &character in *legal {
            for power in POWERS {
                for _ in 0..20 {
                    let mut characters = random_characters(&mut check.rng);
                    characters[place] = character;
                    let found = check.pack_characters(&characters, power);
                    assert_eq!(found.refusal, 0, "{} {power}", text(&characters));
                }
            }
        }
    }
    check.finish((37 + 36 + 10 + 3 * 27 + 2 * 18 + 2 * 10) * 19 * 20);
}

#[test]
fn every_locator_is_packed_and_read() {
    let mut check = Check::new(5);
    for first in b'A'..=b'R' {
        for second in b'A'..=b'R' {
            for third in b'0'..=b'9' {
                for fourth in b'0'..=b'9' {
                    let mut message = random_message(&mut check.rng);
                    message.locator = [first, second, third, fourth];
                    let found = check.pack_message(&message);
                    assert_eq!(check.unpack(found.word).refusal, 0, "{message:?}");
                }
            }
        }
    }
    check.finish(2 * 32_400);
}

#[test]
fn every_byte_at_every_place_is_packed_or_refused() {
    let mut check = Check::new(6);
    for place in 0..10 {
        for byte in 0..=255 {
            for turn in 0..24 {
                let mut characters = random_characters(&mut check.rng);
                if turn % 2 == 1 {
                    recase(&mut check.rng, &mut characters);
                }
                characters[place] = byte;
                let power =
                    if turn % 3 == 2 { bad_power(&mut check.rng) } else { check.rng.pick(&POWERS) };
                let found = check.pack_as_capitals(&characters, power);
                if !is_legal(place, byte) {
                    assert_eq!(found, refused_word(2, place as u32), "{}", text(&characters));
                }
            }
        }
    }
    check.finish(10 * 256 * 24);
}

/// Every set of places with bad characters, with a legal power and with others.
#[test]
fn the_first_of_several_bad_characters_is_refused() {
    let mut check = Check::new(7);
    for places in 1u32..1024 {
        for turn in 0..60 {
            let mut characters = random_characters(&mut check.rng);
            for (place, character) in characters.iter_mut().enumerate() {
                if places >> place & 1 == 1 {
                    *character = bad_character(&mut check.rng, place);
                }
            }
            let power =
                if turn % 2 == 0 { check.rng.pick(&POWERS) } else { bad_power(&mut check.rng) };
            let found = check.pack_characters(&characters, power);
            let first = places.trailing_zeros();
            assert_eq!(found, refused_word(2, first), "{} {power}", text(&characters));
        }
    }
    check.finish(1023 * 60);
}

#[test]
fn every_power_is_packed_or_refused() {
    let mut check = Check::new(8);
    let half = 1u32 << 31;
    let mut powers: Vec<u32> = (0..=1023).collect();
    powers.extend(half - 512..=half + 512);
    powers.extend(u32::MAX - 1023..=u32::MAX);
    for power in POWERS {
        powers.extend((6..32).map(|bit| power ^ 1 << bit));
        powers.push(power.wrapping_neg());
        powers.push(power.wrapping_sub(64));
    }
    powers.extend((0..20_000).map(|_| check.rng.number() as u32));
    for &power in &powers {
        for _ in 0..4 {
            let characters = random_characters(&mut check.rng);
            let found = check.pack_characters(&characters, power);
            if !POWERS.contains(&power) {
                assert_eq!(found, refused_word(3, 0), "{} {power}", text(&characters));
            }
        }
        let place = check.rng.below(10) as usize;
        let mut characters = random_characters(&mut check.rng);
        characters[place] = bad_character(&mut check.rng, place);
        let found = check.pack_characters(&characters, power);
        assert_eq!(found, refused_word(2, place as u32), "{} {power}", text(&characters));
    }
    check.finish(23_000 * 5);
}

/// Lengths 0 to 12 and 255 of either buffer, with contents that would be packed or refused.
#[test]
fn wrong_lengths_are_refused_before_all_else_in_packing() {
    let mut check = Check::new(9);
    for callsign_len in field_lengths() {
        for locator_len in field_lengths() {
            for turn in 0..120 {
                let mut callsign = legal_bytes(&mut check.rng, 0, callsign_len);
                let mut locator = legal_bytes(&mut check.rng, 6, locator_len);
                let mut power = check.rng.pick(&POWERS);
                if turn & 1 != 0 {
                    spoil(&mut check.rng, &mut callsign, 0);
                }
                if turn & 2 != 0 {
                    spoil(&mut check.rng, &mut locator, 6);
                }
                if turn & 4 != 0 {
                    power = bad_power(&mut check.rng);
                }
                let found = check.pack(&callsign, &locator, power);
                if (callsign_len, locator_len) != (6, 4) {
                    assert_eq!(found, refused_word(1, 0), "{callsign_len} {locator_len} {power}");
                }
            }
        }
    }
    check.finish(14 * 14 * 120);
}

#[test]
fn arbitrary_bytes_are_packed_or_refused() {
    let mut check = Check::new(10);
    for turn in 0..200_000 {
        let (mut callsign_len, mut locator_len) = (CALLSIGN_LEN, LOCATOR_LEN);
        if turn % 4 == 0 {
            callsign_len = check.rng.below(13) as usize;
            locator_len = check.rng.below(13) as usize;
        }
        let callsign = any_bytes(&mut check.rng, callsign_len);
        let locator = any_bytes(&mut check.rng, locator_len);
        let power = check.rng.below(70) as u32;
        check.pack(&callsign, &locator, power);
    }
    check.finish(200_000);
}

/// Any bytes at all, or only those of the callsign's characters, their letters in any case.
fn any_bytes(rng: &mut Rng, len: usize) -> Vec<u8> {
    if rng.coin() {
        rng.bytes(len)
    } else {
        let mut bytes: Vec<u8> = (0..len).map(|_| rng.pick(CHARACTERS[0])).collect();
        recase(rng, &mut bytes);
        bytes
    }
}

// Small letters

/// Every small letter, and the two bytes beside them, at every place: a to z count as their
/// capitals where those are legal, and are refused with their place where they aren't.
#[test]
fn small_letters_count_as_their_capitals() {
    let mut check = Check::new(23);
    for place in 0..10 {
        for byte in b'`'..=b'{' {
            for _ in 0..40 {
                let mut characters = random_characters(&mut check.rng);
                characters[place] = byte;
                let power = check.rng.pick(&POWERS);
                let found = check.pack_characters(&characters, power);
                let counts = match place {
                    0 | 1 | 3..=5 => (b'a'..=b'z').contains(&byte),
                    6 | 7 => (b'a'..=b'r').contains(&byte),
                    _ => false,
                };
                if counts {
                    characters[place] = byte - 32;
                    let expected = card::pack(&characters[..6], &characters[6..], power);
                    assert_eq!(found, expected, "{byte} at {place} of {}", text(&characters));
                    assert_eq!(characters_of(&read_message(found.word)), characters);
                } else {
                    assert_eq!(found, refused_word(2, place as u32), "{}", text(&characters));
                }
            }
        }
    }
    check.finish(10 * 28 * 40);
}

#[test]
fn messages_in_any_case_are_packed_as_their_capital_form() {
    let mut check = Check::new(24);
    for _ in 0..200_000 {
        let message = random_message(&mut check.rng);
        let in_any_case = message_in_any_case(&mut check.rng, &message);
        for typed in [in_any_case, message_in_small_letters(&message)] {
            let found = check.pack_message(&typed);
            let expected = card::pack(&message.callsign, &message.locator, message.power);
            assert_eq!(found, expected, "{typed:?}");
            assert_eq!(read_message(found.word), message, "{typed:?}");
        }
    }
    check.finish(2 * 200_000);
}

/// Bad lengths, characters and powers in every combination, the letters in any case.
#[test]
fn refusals_of_messages_in_any_case_are_those_of_their_capital_form() {
    let mut check = Check::new(25);
    let mut seen = [0; 4];
    for turn in 0..160_000 {
        let rng = &mut check.rng;
        let any_len = rng.between(5, 7) as usize;
        let callsign_len = if turn & 1 != 0 { any_len } else { CALLSIGN_LEN };
        let mut callsign = legal_bytes(rng, 0, callsign_len);
        let mut locator = legal_bytes(rng, 6, LOCATOR_LEN);
        if turn & 2 != 0 {
            spoil(rng, &mut callsign, 0);
        }
        if turn & 4 != 0 {
            spoil(rng, &mut locator, 6);
        }
        let power = if turn & 8 != 0 { bad_power(rng) } else { rng.pick(&POWERS) };
        recase(rng, &mut callsign);
        recase(rng, &mut locator);
        let found = check.pack(&callsign, &locator, power);
        let capitals = [callsign.to_ascii_uppercase(), locator.to_ascii_uppercase()];
        let expected = card::pack(&capitals[0], &capitals[1], power);
        assert_eq!(found, expected, "{} {} {power}", text(&callsign), text(&locator));
        seen[found.refusal as usize] += 1;
    }
    assert!(seen.iter().all(|&count| count >= 10_000), "{seen:?}");
    check.finish(160_000);
}

// Reading words

#[test]
fn words_near_every_boundary_are_read_or_refused() {
    let mut check = Check::new(11);
    let ns = [0, 1, CALLSIGNS - 2, CALLSIGNS - 1, CALLSIGNS, CALLSIGNS + 1, (1 << 28) - 1, 1 << 28];
    let m1s = [0, 1, 179, 180, 32_219, 32_220, LOCATORS - 1, LOCATORS, LOCATORS + 1, (1 << 15) - 1];
    for n in ns {
        for m1 in m1s {
            for low in 0..128 {
                check.unpack(reference::word_of(n, m1, low));
            }
        }
    }
    let largest = reference::word_of(CALLSIGNS - 1, LOCATORS - 1, 124);
    let mut centres = vec![0, u64::MAX, WORDS, largest, CALLSIGNS << 22, LOCATORS << 7, 1 << 22];
    centres.extend((0..64).map(|bit| 1 << bit));
    for centre in centres {
        for distance in 0..300 {
            check.unpack(centre.wrapping_add(distance));
            check.unpack(centre.wrapping_sub(distance));
        }
    }
    check.finish(8 * 10 * 128 + 71 * 600);
}

/// A legal word with any higher bit set as well is 2^50 or more.
#[test]
fn words_above_fifty_bits_are_refused() {
    let mut check = Check::new(12);
    for turn in 0..50_000 {
        let high = if turn % 2 == 0 {
            1 << check.rng.between(50, 63)
        } else {
            check.rng.between(1, (1 << 14) - 1) << 50
        };
        let word = random_legal_word(&mut check.rng) + high;
        assert_eq!(check.unpack(word), refused_message(4, 0), "{word:#x}");
    }
    check.finish(50_000);
}

#[test]
fn every_m1_and_every_low_seven_bits_are_read_or_refused() {
    let mut check = Check::new(13);
    for m1 in 0..1 << 15 {
        let n = check.rng.below(CALLSIGNS);
        let low = good_low(&mut check.rng);
        let found = check.unpack(reference::word_of(n, m1, low));
        assert_eq!(found.refusal == 0, m1 < 32_400, "N {n} M1 {m1} low bits {low}");
    }
    for low in 0..128 {
        for _ in 0..200 {
            let n = check.rng.below(CALLSIGNS);
            let m1 = check.rng.below(LOCATORS);
            check.unpack(reference::word_of(n, m1, low));
        }
    }
    check.finish((1 << 15) + 128 * 200);
}

#[test]
fn callsign_numbers_over_the_whole_range_are_read_or_refused() {
    let mut check = Check::new(14);
    let mut n = 0;
    while n < 1 << 28 {
        let m1 = check.rng.below(LOCATORS);
        let low = good_low(&mut check.rng);
        let found = check.unpack(reference::word_of(n, m1, low));
        assert_eq!(found.refusal == 0, n < 262_177_560, "N {n} M1 {m1} low bits {low}");
        n += check.rng.between(1, 2_000);
    }
    check.finish(260_000);
}

#[test]
fn arbitrary_words_are_read_or_refused() {
    let mut check = Check::new(15);
    for _ in 0..200_000 {
        let word = check.rng.number();
        check.unpack(word);
        check.unpack(word % WORDS);
        check.unpack(word >> (word % 64));
    }
    check.finish(3 * 200_000);
}

/// Words with every set of bad fields: the first bad field is the one refused.
#[test]
fn the_first_of_several_bad_fields_is_refused() {
    let mut check = Check::new(16);
    for turn in 0..240_000 {
        let (bad_n, bad_m1, bad_power) = (turn & 1 != 0, turn & 2 != 0, turn & 4 != 0);
        let rng = &mut check.rng;
        let n = if bad_n { rng.between(CALLSIGNS, (1 << 28) - 1) } else { rng.below(CALLSIGNS) };
        let m1 = if bad_m1 { rng.between(LOCATORS, (1 << 15) - 1) } else { rng.below(LOCATORS) };
        let low = if bad_power { bad_low(rng) } else { good_low(rng) };
        let first = match (bad_n, bad_m1, bad_power) {
            (true, _, _) => 4,
            (false, true, _) => 5,
            (false, false, true) => 6,
            (false, false, false) => 0,
        };
        let found = check.unpack(reference::word_of(n, m1, low));
        assert_eq!(found.refusal, first, "N {n} M1 {m1} low bits {low}");
    }
    check.finish(240_000);
}

#[test]
fn wrong_lengths_are_refused_before_all_else_in_reading() {
    let mut check = Check::new(17);
    for callsign_len in field_lengths() {
        for locator_len in field_lengths() {
            for turn in 0..120 {
                let rng = &mut check.rng;
                let word = match turn % 6 {
                    0 | 1 => random_legal_word(rng),
                    2 => rng.number(),
                    3 => reference::word_of(rng.between(CALLSIGNS, 1 << 28), 0, 64),
                    4 => reference::word_of(rng.below(CALLSIGNS), LOCATORS, 64),
                    _ => reference::word_of(rng.below(CALLSIGNS), 0, bad_low(rng)),
                };
                let found = check.unpack_into(word, callsign_len, locator_len);
                if (callsign_len, locator_len) != (6, 4) {
                    assert_eq!(found, refused_message(1, 0), "{callsign_len} {locator_len}");
                }
            }
        }
    }
    check.finish(14 * 14 * 120);
}

/// Filled with a pattern and then with its complement, no byte can be right by chance.
#[test]
fn every_byte_of_a_read_message_is_written() {
    let mut check = Check::new(18);
    for _ in 0..50_000 {
        let word = random_legal_word(&mut check.rng);
        let pattern = check.rng.bytes(10);
        let complement: Vec<u8> = pattern.iter().map(|byte| !byte).collect();
        for filling in [pattern, complement] {
            let callsign = Lent::holding(&mut check.rng, &filling[..6]);
            let locator = Lent::holding(&mut check.rng, &filling[6..]);
            assert_eq!(check.unpack_lent(word, callsign, locator).refusal, 0, "{word:#x}");
        }
    }
    check.finish(2 * 50_000);
}

// Odd buffers

#[test]
fn null_with_length_0_is_refused() {
    let mut check = Check::new(19);
    for turn in 0..5_000 {
        let mut characters = random_characters(&mut check.rng);
        let mut power = check.rng.pick(&POWERS);
        let mut word = random_legal_word(&mut check.rng);
        if turn % 2 == 1 {
            let place = check.rng.below(10) as usize;
            characters[place] = bad_character(&mut check.rng, place);
            power = bad_power(&mut check.rng);
            word = check.rng.number();
        }
        for (null_callsign, null_locator) in [(true, false), (false, true), (true, true)] {
            let callsign = Lent::null_or_holding(&mut check.rng, null_callsign, &characters[..6]);
            let locator = Lent::null_or_holding(&mut check.rng, null_locator, &characters[6..]);
            let found = check.pack_lent(callsign, locator, power);
            assert_eq!(found, refused_word(1, 0), "{null_callsign} {null_locator} {power}");
            let callsign = Lent::null_or_holding(&mut check.rng, null_callsign, &characters[..6]);
            let locator = Lent::null_or_holding(&mut check.rng, null_locator, &characters[6..]);
            let found = check.unpack_lent(word, callsign, locator);
            assert_eq!(found, refused_message(1, 0), "{null_callsign} {null_locator} {word:#x}");
        }
        let len = check.rng.below(13) as usize;
        let other = Lent::random(&mut check.rng, len);
        let found = check.pack_lent(Lent::null(), other, power);
        assert_eq!(found, refused_word(1, 0), "NULL, {len} bytes, {power}");
        let other = Lent::random(&mut check.rng, len);
        let found = check.unpack_lent(word, other, Lent::null());
        assert_eq!(found, refused_message(1, 0), "{word:#x}, {len} bytes, NULL");
    }
    check.finish(5_000 * 8);
}

/// Lengths whose lowest 8 or 16 bits are those of a right length.
#[test]
fn long_buffers_are_refused() {
    let mut check = Check::new(20);
    for extra in [0, 256, 512, 65_536, 131_072] {
        for other in [0, 256, 65_536] {
            for _ in 0..4 {
                let callsign = legal_bytes(&mut check.rng, 0, 6 + extra);
                let locator = legal_bytes(&mut check.rng, 6, 4 + other);
                let power = check.rng.pick(&POWERS);
                let found = check.pack(&callsign, &locator, power);
                let refusal = u32::from(extra + other != 0);
                assert_eq!(found.refusal, refusal, "lengths {} {}", 6 + extra, 4 + other);
                let word = random_legal_word(&mut check.rng);
                let found = check.unpack_into(word, 6 + extra, 4 + other);
                assert_eq!(found.refusal, refusal, "lengths {} {}", 6 + extra, 4 + other);
            }
        }
    }
    check.finish(5 * 3 * 4 * 2);
}

/// Lengths whose lowest 32 bits are those of a right length. The memory is only asked for,
/// never used, since the library has to refuse by the length alone.
#[test]
fn buffers_of_four_gibibytes_are_refused() {
    let len = (1 << 32) + 6;
    let mut long = vec![0; len];
    long[..6].copy_from_slice(b" K1ABC");
    assert_eq!(card::pack(&long, b"FN20", 37), refused_word(1, 0));
    let word = card::pack(b" K1ABC", b"FN20", 37).word;
    let mut locator = *b"????";
    assert_eq!(card::unpack(word, &mut long, &mut locator), refused_message(1, 0));
    assert_eq!((&long[..6], &locator), (&b" K1ABC"[..], b"????"));
    long[..4].copy_from_slice(b"FN20");
    assert_eq!(card::pack(b" K1ABC", &long[..len - 2], 37), refused_word(1, 0));
    let mut callsign = *b"??????";
    assert_eq!(card::unpack(word, &mut callsign, &mut long[..len - 2]), refused_message(1, 0));
    assert_eq!((&long[..4], &callsign), (&b"FN20"[..], b"??????"));
}

// There and back, by the library alone

#[test]
fn a_packed_message_is_read_back() {
    let mut rng = Rng::new(21);
    for _ in 0..300_000 {
        let message = random_message(&mut rng);
        let packed = card::pack(&message.callsign, &message.locator, message.power);
        assert_eq!((packed.refusal, packed.place), (0, 0), "{message:?}");
        assert_eq!(read_message(packed.word), message, "{:#x}", packed.word);
    }
}

#[test]
fn a_read_word_is_packed_again() {
    let mut rng = Rng::new(22);
    for _ in 0..300_000 {
        let word = random_legal_word(&mut rng);
        let message = read_message(word);
        let packed = card::pack(&message.callsign, &message.locator, message.power);
        assert_eq!(packed, card::Word { refusal: 0, place: 0, word }, "{message:?}");
    }
}

/// All 2^22 words of one callsign are read, and those accepted are just the 32,400·19 that
/// packing makes of it.
#[test]
fn reading_accepts_exactly_what_packing_makes() {
    let n = 259_047_992;
    let mut made = vec![false; 1 << 22];
    for m1 in 0..LOCATORS {
        let message = read_message(reference::word_of(n, m1, 64));
        for power in POWERS {
            let packed = card::pack(b" K1ABC", &message.locator, power);
            assert_eq!((packed.refusal, packed.word >> 22), (0, n), "{message:?} {power}");
            made[(packed.word % (1 << 22)) as usize] = true;
        }
    }
    assert_eq!(made.iter().filter(|&&is_made| is_made).count(), 32_400 * 19);
    for (m, &is_made) in made.iter().enumerate() {
        let word = (n << 22) + m as u64;
        let (mut callsign, mut locator) = ([0; CALLSIGN_LEN], [0; LOCATOR_LEN]);
        let found = card::unpack(word, &mut callsign, &mut locator);
        assert_eq!(found.refusal == 0, is_made, "{word:#x}");
    }
}

/// The last block of callsign numbers: those accepted end with the last callsign.
#[test]
fn reading_ends_with_the_last_callsign() {
    let count = 27 * 27 * 27;
    let first = card::pack(b" Z9AAA", b"FN20", 37).word;
    let last = card::pack(b" Z9   ", b"FN20", 37).word;
    assert_eq!(last - first, (count - 1) << 22);
    for step in 0..2 * count {
        let word = first + (step << 22);
        let (mut callsign, mut locator) = (*b"??????", *b"????");
        let found = card::unpack(word, &mut callsign, &mut locator);
        if step < count {
            assert_eq!(found, card::Message { refusal: 0, place: 0, power: 37 }, "{word:#x}");
            assert_eq!(card::pack(&callsign, &locator, 37).word, word, "{}", text(&callsign));
        } else {
            assert_eq!(found, refused_message(4, 0), "{word:#x}");
            assert_eq!((&callsign, &locator), (b"??????", b"????"), "{word:#x}");
        }
    }
}
