// Repair: the library against the independent implementation, on clean, damaged and arbitrary
// frames. The implementation itself is held to the definitions in repair.rs.
//
// Refusal 18, several words that share the fewest disagreements, can't be had here: words are 28
// data bits apart or more, so no two of them are within a limit of 12. For the same reason no test
// tells the nearest word from the first one found, but by the live count; and every margin is what
// the disagreements leave to limit + 1.
use std::collections::BTreeSet;

use wsprcard_tests::answers::{refused_repair as refused, repaired_answer};
use wsprcard_tests::card;
use wsprcard_tests::counts::Counts;
use wsprcard_tests::facts::{margin, CLEAN, LEAST_DISTANCE, LIGHTEST};
use wsprcard_tests::inputs::{
    asked_with_faults, bad_symbol, bad_word, differing_places, edge_words, flipped, noise,
    random_frame, random_legal_word, random_places, random_word, resized, spoil_sync,
    wrong_lengths,
};
use wsprcard_tests::lent::Lent;
use wsprcard_tests::reference::frame::{frame_of, places, sync, FRAME_LEN};
use wsprcard_tests::reference::message::WORDS;
use wsprcard_tests::reference::repair::{live_count, repair, LARGEST_BUDGET};
use wsprcard_tests::rng::Rng;
use wsprcard_tests::vectors;

type Frame = [u8; FRAME_LEN];

/// Compares the library with the reference, call by call, and counts the answers.
struct Check {
    rng: Rng,
    counts: Counts,
}

impl Check {
    fn new(seed: u64) -> Check {
        Check { rng: Rng::new(seed), counts: Counts::new() }
    }

    fn repair(&mut self, frame: &[u8], limit: u32, budget: u32) -> card::Repaired {
        let frame = Lent::holding(&mut self.rng, frame);
        self.repair_lent(frame, limit, budget)
    }

    fn repair_lent(&mut self, mut frame: Lent, limit: u32, budget: u32) -> card::Repaired {
        let found = card::repair_lent(&mut frame, limit, budget);
        let answer = repair(frame.lent(), limit, budget);
        let input = || format!("repair {} limit {limit} budget {budget}", frame.shown());
        assert_eq!(found, repaired_answer(answer), "{}", input());
        assert!(frame.is_unchanged(), "{} wrote at the frame", input());
        self.counts.count("repair", found.refusal);
        found
    }

    /// The frame with any number of its sync bits turned over, and how many they are.
    fn with_spoiled_sync(&mut self, mut frame: Frame) -> (Frame, u32) {
        let sync_wrong = self.rng.below(FRAME_LEN as u64 + 1) as usize;
        spoil_sync(&mut self.rng, &mut frame, sync_wrong);
        (frame, sync_wrong as u32)
    }

    /// Flips these data bits of the word's frame and any number of its sync bits; limit 2 and a
    /// budget of 16,000 have to give the word back.
    fn give_back(&mut self, word: u64, flips: &[usize]) {
        let (frame, sync_wrong) = self.with_spoiled_sync(flipped(frame_of(word), flips));
        let found = self.repair(&frame, 2, 16_000);
        let expected = repaired(word, flips.len() as u32, found.live, 2);
        assert_eq!(found, card::Repaired { sync_wrong, ..expected }, "{word:#x} {flips:?}");
        assert!((81..=CLEAN[4]).contains(&u64::from(found.live)), "{word:#x} {flips:?}");
    }

    /// Flips these three data bits of a word's frame and any number of its sync bits; limit 2 has
    /// to give no word, whatever the budget. No frame has more live prefixes at limit 2 than a clean
    /// one at limit 4, so that a budget of that count is never passed.
    fn give_none(&mut self, frame: &Frame, flips: &[usize; 3]) {
        let (frame, _) = self.with_spoiled_sync(flipped(*frame, flips));
        let few = self.rng.between(1, 200) as u32;
        let budget = self.rng.pick(&[few, 16_000, LARGEST_BUDGET]);
        let found = self.repair(&frame, 2, budget);
        let passed = found == refused(16, 0) && u64::from(budget) < CLEAN[4];
        assert!(passed || found == refused(17, 0), "{flips:?} {budget} {found:?}");
    }

    fn finish(self, at_least: &[(&'static str, u32, u64)]) {
        self.counts.finish(at_least);
    }
}

/// The answer where so many flips, within the limit, make this the nearest word. The sync bits are
/// right.
fn repaired(word: u64, flips: u32, live: u32, limit: u32) -> card::Repaired {
    card::Repaired {
        refusal: 0,
        place: 0,
        word,
        disagreements: flips,
        live,
        sync_wrong: 0,
        margin: margin(limit, flips),
    }
}

/// What repair is to answer where so many flips make this the nearest word.
fn answer_by_live(live: u64, budget: u32, limit: u32, (word, flips): (u64, u32)) -> card::Repaired {
    match live {
        _ if live > u64::from(budget) => refused(16, 0),
        _ if flips > limit => refused(17, 0),
        _ => repaired(word, flips, live as u32, limit),
    }
}

/// The words of the vectors, those at the ends, and so many random ones.
fn sent_words(rng: &mut Rng, random: usize) -> Vec<u64> {
    let mut words: Vec<u64> = vectors::wsjtx().iter().map(|vector| vector.word).collect();
    words.extend([0, WORDS - 1]);
    words.extend((0..random).map(|_| random_word(rng)));
    words
}

// The bench sheet

#[test]
fn the_bench_sheet_holds() {
    let mut check = Check::new(1);
    for word in [259_047_992 * 4_194_304 + 2_942_821, 0, WORDS - 1] {
        let frame = frame_of(word);
        for (limit, live) in [(0, 81), (1, 81), (2, 131)] {
            let expected = repaired(word, 0, live, limit);
            assert_eq!(check.repair(&frame, limit, live), expected, "{word:#x}");
            assert_eq!(check.repair(&frame, limit, LARGEST_BUDGET), expected, "{word:#x}");
            assert_eq!(check.repair(&frame, limit, live - 1), refused(16, 0), "{word:#x}");
        }
        for len in [0, 161, 163] {
            let symbols = resized(&mut check.rng, &frame, len);
            assert_eq!(check.repair(&symbols, 2, 16_000), refused(1, 0), "{len} symbols");
        }
        assert_eq!(check.repair(&frame, 2, 130), refused(16, 0));
        assert_eq!(check.repair(&frame, 2, 131), repaired(word, 0, 131, 2));
        assert_eq!(check.repair(&frame, 13, 16_000), refused(15, 0));
        assert_eq!(check.repair(&frame, 2, 0), refused(15, 1));
        assert_eq!(check.repair(&frame, 2, 65_537), refused(15, 1));
    }
    check.finish(&[("repair", 0, 21), ("repair", 1, 9), ("repair", 15, 9), ("repair", 16, 12)]);
}

/// Each symbol as WSJT-X prints it, and words with a single bit or without one.
#[test]
fn clean_frames_give_their_words() {
    let mut check = Check::new(2);
    let mut sent: Vec<(u64, Frame)> =
        vectors::wsjtx().iter().map(|vector| (vector.word, vector.frame)).collect();
    sent.extend(edge_words().into_iter().map(|word| (word, frame_of(word))));
    for (word, frame) in sent {
        for (limit, live) in [(0, 81), (1, 81), (2, 131), (3, 279), (4, 569)] {
            let expected = repaired(word, 0, live, limit);
            assert_eq!(check.repair(&frame, limit, live), expected, "{word:#x}");
            assert_eq!(check.repair(&frame, limit, live - 1), refused(16, 0), "{word:#x}");
        }
    }
    check.finish(&[("repair", 0, 141 * 5), ("repair", 16, 141 * 5)]);
}

/// Up to limit 9 a clean frame is within the largest budget; from 10 on it isn't.
#[test]
fn clean_frames_have_their_live_counts_at_every_limit() {
    let mut check = Check::new(3);
    for (limit, live) in (0..).zip(CLEAN) {
        for word in [0, WORDS - 1, random_word(&mut check.rng), random_legal_word(&mut check.rng)] {
            let frame = frame_of(word);
            let found = check.repair(&frame, limit, LARGEST_BUDGET);
            let expected = answer_by_live(live, LARGEST_BUDGET, limit, (word, 0));
            assert_eq!(found, expected, "{word:#x}, limit {limit}");
            if found.refusal == 0 {
                assert_eq!(check.repair(&frame, limit, live as u32), expected, "limit {limit}");
                let below = check.repair(&frame, limit, live as u32 - 1);
                assert_eq!(below, refused(16, 0), "limit {limit}");
            }
        }
    }
    check.finish(&[("repair", 0, 10 * 4 * 2), ("repair", 16, (3 + 10) * 4)]);
}

// Two flips or fewer, with any damage to the sync bits

#[test]
fn every_single_flip_is_repaired_at_limit_2() {
    let mut check = Check::new(4);
    for word in sent_words(&mut check.rng, 20) {
        (0..FRAME_LEN).for_each(|place| check.give_back(word, &[place]));
    }
    check.finish(&[("repair", 0, 61 * 162)]);
}

#[test]
fn every_pair_of_flips_is_repaired_at_limit_2() {
    let mut check = Check::new(5);
    for word in [0, WORDS - 1, random_word(&mut check.rng), random_legal_word(&mut check.rng)] {
        for one in 0..FRAME_LEN {
            (0..one).for_each(|other| check.give_back(word, &[one, other]));
        }
    }
    check.finish(&[("repair", 0, 4 * (162 * 161 / 2))]);
}

#[test]
fn two_flips_of_any_word_are_repaired_at_limit_2() {
    let mut check = Check::new(6);
    let mut words = sent_words(&mut check.rng, 200);
    words.extend(edge_words());
    for turn in 0..20_000 {
        let flips = random_places(&mut check.rng, turn % 3);
        check.give_back(words[turn % words.len()], &flips);
    }
    check.finish(&[("repair", 0, 20_000)]);
}

// How long a repair may take: live counts without a flip and with one, with any damage to the sync
// bits

/// The least budgets that give a clean frame's word back are its live counts, for every word. They
/// are promised up to limit 10, at which no budget is enough; of one word in ten all are tried.
#[test]
fn clean_frames_are_given_back_with_budgets_of_their_live_counts() {
    let mut check = Check::new(26);
    let mut words = sent_words(&mut check.rng, 500);
    words.extend(edge_words());
    for (turn, &word) in words.iter().enumerate() {
        let (frame, sync_wrong) = check.with_spoiled_sync(frame_of(word));
        let last = if turn % 10 == 0 { 9 } else { 5 };
        for (limit, live) in (0..=last).zip(CLEAN.map(|live| live as u32)) {
            let expected = card::Repaired { sync_wrong, ..repaired(word, 0, live, limit) };
            let more = check.rng.between(u64::from(live) + 1, 65_536) as u32;
            let fewer = check.rng.between(1, u64::from(live) - 2) as u32;
            for budget in [live, live + 1, more, LARGEST_BUDGET] {
                assert_eq!(check.repair(&frame, limit, budget), expected, "{word:#x} {budget}");
            }
            for budget in [live - 1, fewer] {
                let found = check.repair(&frame, limit, budget);
                assert_eq!(found, refused(16, 0), "{word:#x} {budget}");
            }
        }
        if last == 9 {
            assert_eq!(check.repair(&frame, 10, LARGEST_BUDGET), refused(16, 0), "{word:#x}");
        }
    }
    let limits: u64 = (0..words.len()).map(|turn| if turn % 10 == 0 { 10 } else { 6 }).sum();
    check.finish(&[("repair", 0, limits * 4), ("repair", 16, limits * 2)]);
}

/// The place of the first coded bit of the 49th clocked bit: 96 coded bits come before it, and 150,
/// the 97th address whose reversal is below 162, is 105 reversed.
const WORST_PLACE: usize = 105;

/// All 162 single flips of many words' frames: counted by the library they are what the reference
/// counts for the zero word, 135 at most, and 135 at one place only.
#[test]
fn one_flip_has_at_most_135_live_prefixes_at_limit_2() {
    assert_eq!(places().nth(2 * 48), Some(WORST_PLACE));
    let of_zero: Vec<u32> =
        (0..FRAME_LEN).map(|place| live_count(&flipped(frame_of(0), &[place]), 2) as u32).collect();
    assert_eq!((of_zero.iter().min(), of_zero.iter().max()), (Some(&85), Some(&135)));
    let mut check = Check::new(27);
    let mut words = sent_words(&mut check.rng, 300);
    words.extend(edge_words());
    for &word in &words {
        for (place, &live) in of_zero.iter().enumerate() {
            let (frame, sync_wrong) = check.with_spoiled_sync(flipped(frame_of(word), &[place]));
            let expected = card::Repaired { sync_wrong, ..repaired(word, 1, live, 2) };
            assert_eq!(check.repair(&frame, 2, 135), expected, "{word:#x} {place}");
            assert_eq!(check.repair(&frame, 2, live), expected, "{word:#x} {place}");
            assert_eq!(check.repair(&frame, 2, live - 1), refused(16, 0), "{word:#x} {place}");
            let found = check.repair(&frame, 2, 134);
            assert_eq!(found.refusal == 16, place == WORST_PLACE, "{word:#x} {place}");
        }
    }
    let frames = words.len() as u64 * 162;
    check.finish(&[("repair", 0, 2 * frames), ("repair", 16, frames)]);
}

/// A repaired word need not be a message's: to read it as one is a call of its own.
#[test]
fn words_that_are_no_messages_are_repaired() {
    let mut check = Check::new(7);
    for turn in 0..8_000 {
        let number = [0, 4, 5, 6][turn % 4];
        let word = match number {
            0 => random_legal_word(&mut check.rng),
            _ => bad_word(&mut check.rng, number),
        };
        let flips = random_places(&mut check.rng, turn / 4 % 3);
        check.give_back(word, &flips);
        let found = card::repair(&flipped(frame_of(word), &flips), 2, 16_000);
        let unpacked = card::unpack(found.word, &mut [0; 6], &mut [0; 4]);
        assert_eq!(unpacked.refusal, number, "{word:#x}");
    }
    check.finish(&[("repair", 0, 8_000)]);
}

// Sync bits

/// Each sync bit alone, then any number of them: nothing changes but their count.
#[test]
fn sync_bits_are_counted_and_never_refuse() {
    let mut check = Check::new(8);
    for place in 0..FRAME_LEN {
        let word = random_word(&mut check.rng);
        let mut frame = frame_of(word);
        frame[place] ^= 1;
        let expected = card::Repaired { sync_wrong: 1, ..repaired(word, 0, 131, 2) };
        assert_eq!(check.repair(&frame, 2, 131), expected, "{word:#x} {place}");
    }
    for count in 0..=FRAME_LEN {
        let word = random_word(&mut check.rng);
        let mut frame = frame_of(word);
        spoil_sync(&mut check.rng, &mut frame, count);
        for (limit, live) in [(0, 81), (1, 81), (2, 131)] {
            let expected = repaired(word, 0, live, limit);
            let expected = card::Repaired { sync_wrong: count as u32, ..expected };
            assert_eq!(check.repair(&frame, limit, live), expected, "{word:#x} {count}");
        }
        frame[0] ^= 2;
        assert_eq!(check.repair(&frame, 0, 1), refused(17, 0), "{word:#x} {count}");
        assert_eq!(check.repair(&frame, 8, 1), refused(16, 0), "{word:#x} {count}");
    }
    let inverted = sync().map(|bit| 1 - bit);
    let expected = card::Repaired { sync_wrong: 162, ..repaired(0, 0, 81, 0) };
    assert_eq!(check.repair(&inverted, 0, 81), expected);
    check.finish(&[("repair", 0, 162 + 3 * 163 + 1), ("repair", 16, 163), ("repair", 17, 163)]);
}

// More flips

/// Every way of flipping three data bits of some words' frames.
#[test]
fn every_three_flips_give_no_word_at_limit_2() {
    let mut check = Check::new(25);
    for word in [0, WORDS - 1, random_word(&mut check.rng), random_legal_word(&mut check.rng)] {
        let frame = frame_of(word);
        for first in 0..FRAME_LEN {
            for second in 0..first {
                for third in 0..second {
                    check.give_none(&frame, &[first, second, third]);
                }
            }
        }
    }
    check.finish(&[("repair", 16, 300_000), ("repair", 17, 2_000_000)]);
}

/// The same of many words, with the live count and so 16 or 17 told beforehand.
#[test]
fn three_flips_of_any_word_give_no_word_at_limit_2() {
    let mut check = Check::new(9);
    let mut words = sent_words(&mut check.rng, 1_000);
    words.extend(edge_words());
    for turn in 0..40_000 {
        let word = words[turn % words.len()];
        let places = random_places(&mut check.rng, 3);
        let (frame, _) = check.with_spoiled_sync(flipped(frame_of(word), &places));
        let live = live_count(&frame, 2) as u32;
        assert!(u64::from(live) <= CLEAN[5], "{word:#x} {places:?}: {live}");
        for budget in [1, live.max(2) - 1, live.max(1), 16_000, LARGEST_BUDGET] {
            let expected = answer_by_live(u64::from(live), budget, 2, (word, 3));
            assert_eq!(check.repair(&frame, 2, budget), expected, "{word:#x} {places:?} {budget}");
        }
    }
    check.finish(&[("repair", 16, 60_000), ("repair", 17, 120_000)]);
}

/// Flips within the limit are repaired and more are refused, unless the live count is above
/// the budget. There are too few of them to bring another word within the limit.
#[test]
fn up_to_twelve_flips_at_every_limit() {
    let mut check = Check::new(10);
    for limit in 0..=12 {
        for flips in 0..=12 {
            for _ in 0..if limit <= 8 { 30 } else { 6 } {
                let word = random_word(&mut check.rng);
                let places = random_places(&mut check.rng, flips as usize);
                let frame = flipped(frame_of(word), &places);
                let live = live_count(&frame, limit);
                let budget = check.rng.pick(&[LARGEST_BUDGET, LARGEST_BUDGET, 16_000, 200]);
                let found = check.repair(&frame, limit, budget);
                let expected = answer_by_live(live, budget, limit, (word, flips));
                assert_eq!(found, expected, "{word:#x} {places:?} {limit} {budget}");
            }
        }
    }
    check.finish(&[("repair", 0, 1_000), ("repair", 16, 500), ("repair", 17, 1_000)]);
}

/// Flips among the first coded bits leave fewer prefixes live, so that as many as eleven are
/// repaired at their own limit. Twelve aren't: no frame was found whose live count at limit 12
/// is within the largest budget.
#[test]
fn early_flips_are_repaired_at_the_highest_limits() {
    let mut check = Check::new(11);
    for limit in 9..=12 {
        for flips in 1..=limit {
            for _ in 0..3 {
                let word = random_word(&mut check.rng);
                let early: Vec<usize> = places().take(flips as usize).collect();
                let frame = flipped(frame_of(word), &early);
                let live = live_count(&frame, limit);
                let found = check.repair(&frame, limit, LARGEST_BUDGET);
                let expected = answer_by_live(live, LARGEST_BUDGET, limit, (word, flips));
                assert_eq!(found, expected, "{word:#x} {flips} {limit}");
                assert!(flips < 4 || (found.refusal == 0) == (limit <= 11), "{flips} {limit}");
            }
        }
    }
    check.finish(&[("repair", 0, 3 * (6 + 7 + 8)), ("repair", 16, 3 * 12)]);
}

/// From one frame to the nearest other one, flip by flip: the nearer word is the answer,
/// whichever was sent. Halfway both are as near, but both are too far.
#[test]
fn the_nearer_of_two_words_is_the_answer() {
    let mut check = Check::new(12);
    for turn in 0..39 {
        let limit = turn % 13;
        let word = random_word(&mut check.rng);
        let other = word ^ LIGHTEST << check.rng.below(32);
        let mut places = differing_places(&frame_of(word), &frame_of(other));
        let mut frame = frame_of(word);
        for flips in 0..=LEAST_DISTANCE {
            let nearer = [(word, flips), (other, LEAST_DISTANCE - flips)];
            let nearer = nearer.into_iter().min_by_key(|&(_, flips)| flips).unwrap();
            let expected = answer_by_live(live_count(&frame, limit), LARGEST_BUDGET, limit, nearer);
            let found = check.repair(&frame, limit, LARGEST_BUDGET);
            assert_eq!(found, expected, "{word:#x} {other:#x} {flips} {limit}");
            if !places.is_empty() {
                let next = places.swap_remove(check.rng.below(places.len() as u64) as usize);
                frame[next] ^= 2;
            }
        }
    }
    check.finish(&[("repair", 0, 200), ("repair", 16, 100), ("repair", 17, 200)]);
}

/// Every number of flips within every limit, at random places and among the first coded bits. Four
/// or more of those leave the live count within the budget at limits 10 and 11, too.
#[test]
fn the_margin_is_what_the_flips_leave_of_the_limit() {
    let mut check = Check::new(24);
    let mut told = BTreeSet::new();
    for limit in 0..=12 {
        for flips in 0..=limit {
            for turn in 0..6 {
                let word = random_word(&mut check.rng);
                let flipped_places = match turn % 2 {
                    0 => random_places(&mut check.rng, flips as usize),
                    _ => places().take(flips as usize).collect(),
                };
                let frame = flipped(frame_of(word), &flipped_places);
                let found = check.repair(&frame, limit, LARGEST_BUDGET);
                if found.refusal == 0 {
                    assert_eq!(found.margin, limit + 1 - flips, "{word:#x} {flips} {limit}");
                    told.insert((limit, found.margin));
                }
            }
        }
    }
    for limit in 0..=11 {
        let largest = if limit <= 9 { limit + 1 } else { limit + 1 - 4 };
        assert!((1..=largest).all(|margin| told.contains(&(limit, margin))), "limit {limit}");
    }
    check.finish(&[("repair", 0, 400), ("repair", 16, 100)]);
}

/// Any symbols 0 to 3: nothing is near them.
#[test]
fn no_word_is_made_out_of_noise() {
    let mut check = Check::new(13);
    for turn in 0..4_000 {
        let frame = noise(&mut check.rng);
        let limit = turn % 13;
        if limit < 10 || turn < 600 {
            let found = check.repair(&frame, limit, LARGEST_BUDGET);
            assert!([16, 17].contains(&found.refusal), "{frame:?}, limit {limit}");
        }
        let budget = check.rng.between(1, 2_000) as u32;
        check.repair(&frame, limit, budget);
    }
    check.finish(&[("repair", 16, 1_000), ("repair", 17, 4_000)]);
}

// Budgets

/// The live count of frames with few flips, with many, and of noise, and budgets next to it:
/// below it the answer is 16, and from it on always the same.
#[test]
fn the_budget_is_held_to_the_live_count() {
    let mut check = Check::new(14);
    for turn in 0..780 {
        let limit = turn % 13;
        let flips = check.rng.pick(&[0, 1, 2, 3, limit as usize, 20]);
        let places = random_places(&mut check.rng, flips);
        let mut frame = flipped(random_frame(&mut check.rng), &places);
        if turn % 5 == 0 {
            frame = noise(&mut check.rng);
        }
        let live = live_count(&frame, limit).min(u64::from(LARGEST_BUDGET) + 1) as u32;
        if live > 1 {
            assert_eq!(check.repair(&frame, limit, live - 1), refused(16, 0), "{frame:?}, {limit}");
            assert_eq!(check.repair(&frame, limit, 1), refused(16, 0), "{frame:?}, {limit}");
        }
        if live <= LARGEST_BUDGET {
            let found = check.repair(&frame, limit, live.max(1));
            assert_ne!(found.refusal, 16, "{frame:?}, {limit}");
            assert!(found.refusal != 0 || found.live == live, "{found:?}: {live}");
            for budget in [live + 1, LARGEST_BUDGET].map(|budget| budget.min(LARGEST_BUDGET)) {
                assert_eq!(check.repair(&frame, limit, budget), found, "{frame:?}, {limit}");
            }
        }
    }
    check.finish(&[("repair", 0, 500), ("repair", 16, 500), ("repair", 17, 500)]);
}

/// Where neither of the first two coded bits can be met, nothing is live at limit 0.
#[test]
fn a_live_count_of_0_is_within_every_budget() {
    let mut check = Check::new(15);
    for word in edge_words() {
        for place in [0, 128] {
            let frame = flipped(frame_of(word), &[place]);
            assert_eq!(check.repair(&frame, 0, 1), refused(17, 0), "{word:#x}");
        }
    }
    check.finish(&[("repair", 17, 204)]);
}

// What is refused before the search

#[test]
fn limits_and_budgets_out_of_range_are_refused() {
    let mut check = Check::new(16);
    let mut limits = vec![13, 14, 255, 256, 256 + 2, 65_536 + 2, 1 << 31, u32::MAX];
    limits.extend((0..200).map(|_| check.rng.between(13, u64::from(u32::MAX)) as u32));
    let mut budgets = vec![0, LARGEST_BUDGET + 1, LARGEST_BUDGET + 16_000, 1 << 17, u32::MAX];
    budgets.extend((0..200).map(|_| check.rng.between(65_537, u64::from(u32::MAX)) as u32));
    for &limit in &limits {
        let frame = random_frame(&mut check.rng);
        for budget in [1, 16_000, LARGEST_BUDGET, check.rng.pick(&budgets)] {
            assert_eq!(check.repair(&frame, limit, budget), refused(15, 0), "{limit} {budget}");
        }
    }
    for &budget in &budgets {
        let frame = random_frame(&mut check.rng);
        for limit in 0..=12 {
            assert_eq!(check.repair(&frame, limit, budget), refused(15, 1), "{limit} {budget}");
        }
    }
    check.finish(&[("repair", 15, 208 * 4 + 205 * 13)]);
}

#[test]
fn frames_of_other_lengths_are_refused() {
    let mut check = Check::new(17);
    for len in wrong_lengths() {
        let frame = random_frame(&mut check.rng);
        let symbols = resized(&mut check.rng, &frame, len);
        assert_eq!(check.repair(&symbols, 2, 16_000), refused(1, 0), "{len} symbols");
        let bytes = check.rng.bytes(len);
        assert_eq!(check.repair(&bytes, 13, 0), refused(1, 0), "{len} bytes");
    }
    check.finish(&[("repair", 1, 335 * 2)]);
}

#[test]
fn null_with_length_0_is_an_empty_frame() {
    let mut check = Check::new(18);
    for limit in [0, 2, 12, 13, u32::MAX] {
        for budget in [0, 1, 16_000, LARGEST_BUDGET, u32::MAX] {
            let found = check.repair_lent(Lent::null(), limit, budget);
            assert_eq!(found, refused(1, 0), "{limit} {budget}");
        }
    }
    check.finish(&[("repair", 1, 25)]);
}

/// A frame whose length has the right lowest 32 bits. The memory past its first symbols is
/// only asked for, never used, since the library has to refuse by the length alone.
#[test]
fn a_frame_of_four_gibibytes_is_refused() {
    let symbols = random_frame(&mut Rng::new(19));
    let mut long = vec![0; (1 << 32) + FRAME_LEN];
    long[..FRAME_LEN].copy_from_slice(&symbols);
    assert_eq!(card::repair(&long, 2, 16_000), refused(1, 0));
    assert_eq!(long[..FRAME_LEN], symbols);
}

/// Every value of a symbol at every place of a frame.
#[test]
fn every_symbol_above_3_is_refused() {
    let mut check = Check::new(20);
    let frame = random_frame(&mut check.rng);
    for place in 0..FRAME_LEN {
        for symbol in 4..=255 {
            let mut changed = frame;
            changed[place] = symbol;
            let found = check.repair(&changed, 2, 16_000);
            assert_eq!(found, refused(7, place as u32), "{symbol} at {place}");
        }
    }
    check.finish(&[("repair", 7, 162 * 252)]);
}

/// Before the place are symbols 0 to 3, after it any bytes.
#[test]
fn the_first_symbol_above_3_is_refused() {
    let mut check = Check::new(21);
    for place in 0..FRAME_LEN {
        for turn in 0..20 {
            let mut frame = random_frame(&mut check.rng);
            if turn >= 5 {
                frame[..place].fill_with(|| check.rng.below(4) as u8);
            }
            if turn >= 10 {
                frame[place + 1..].fill_with(|| check.rng.byte());
            }
            for symbol in [4, 255, bad_symbol(&mut check.rng)] {
                frame[place] = symbol;
                let found = check.repair(&frame, turn % 13, 16_000);
                assert_eq!(found, refused(7, place as u32), "{frame:?}");
            }
        }
    }
    check.finish(&[("repair", 7, 162 * 20 * 3)]);
}

/// Every set of faults: length, limit, budget, a symbol above 3, a live count above the
/// budget, no word within the limit.
#[test]
fn refusals_come_in_their_order() {
    let mut check = Check::new(22);
    for faults in 0..64 {
        for _ in 0..200 {
            let asked = asked_with_faults(&mut check.rng, faults);
            let found = check.repair(&asked.symbols, asked.limit, asked.budget);
            let first =
                asked.refusal.as_ref().map_or((0, 0), |refusal| (refusal.number, refusal.place));
            assert_eq!((found.refusal, found.place), first, "faults {faults:b}: {asked:?}");
        }
    }
    check.finish(&[
        ("repair", 0, 200),
        ("repair", 1, 32 * 200),
        ("repair", 7, 4 * 200),
        ("repair", 15, 24 * 200),
        ("repair", 16, 2 * 200),
        ("repair", 17, 200),
    ]);
}

// Any calls in any order

/// Answers depend on nothing that came before: what was asked once is asked again later.
#[test]
fn the_same_question_gets_the_same_answer_at_any_time() {
    let mut check = Check::new(23);
    let mut asked = Vec::new();
    for turn in 0..400 {
        let flips = random_places(&mut check.rng, turn % 8);
        let mut frame = flipped(random_frame(&mut check.rng), &flips);
        if turn % 10 == 0 {
            frame[check.rng.below(FRAME_LEN as u64) as usize] = check.rng.byte();
        }
        let limit = check.rng.below(8) as u32;
        let budget = check.rng.pick(&[0, 150, 4_000, LARGEST_BUDGET]);
        asked.push((frame, limit, budget, check.repair(&frame, limit, budget)));
    }
    for _ in 0..4_000 {
        let (frame, limit, budget, answer) = check.rng.pick(&asked);
        assert_eq!(card::repair(&frame, limit, budget), answer, "{frame:?} {limit} {budget}");
    }
    let numbers = [(0, 40), (7, 10), (15, 40), (16, 40), (17, 40)];
    check.finish(&numbers.map(|(number, count)| ("repair", number, count)));
}
