// Repair in the independent implementation: its search is held to the definitions on codes
// small enough to count everything, and the papers' facts about live counts, distances and
// flipped bits are counted anew on frames. No two words of the code itself are within a limit of
// 12: words that share the fewest disagreements, and margins to a word within the limit, are tested
// on small codes, and on the code itself with limits that the card doesn't take.
use wsprcard_tests::counts::Counts;
use wsprcard_tests::facts::{margin, CLEAN, LEAST_DISTANCE, LIGHTEST};
use wsprcard_tests::inputs::{
    asked_with_faults, bad_symbol, differing_places, edge_words, flipped, noise, random_frame,
    random_places, random_word, resized, spoil_sync, wrong_lengths,
};
use wsprcard_tests::reference::frame::{frame_of, frame_of_clocked, sync, CLOCKED, FRAME_LEN};
use wsprcard_tests::reference::message::WORDS;
use wsprcard_tests::reference::repair::{
    data_bits, live_count, repair, Code, Nearest, Prefix, Repaired, LARGEST_BUDGET, WSPR,
};
use wsprcard_tests::reference::Refusal;
use wsprcard_tests::rng::Rng;
use wsprcard_tests::vectors::{self, Vector};

type Frame = [u8; FRAME_LEN];

/// A code of three bits, so that all of its 1,024 received patterns can be tried.
const TINY: Code = Code { word_bits: 3, register_bits: 3, masks: [0b111, 0b101], tail: 2 };

/// Codes whose prefixes can all be counted. In the last two no mask takes the newest bit, so
/// either bit costs the same; the last one ends before a word's last bit shows.
const SMALL: [Code; 4] = [
    Code { word_bits: 10, register_bits: 5, masks: [0o23, 0o35], tail: 4 },
    Code { word_bits: 11, register_bits: 6, masks: [0o53, 0o75], tail: 5 },
    Code { word_bits: 10, register_bits: 4, masks: [0b1010, 0b1100], tail: 2 },
    Code { word_bits: 10, register_bits: 3, masks: [0b100, 0b110], tail: 0 },
];

/// The two cases of the margin: another word is within the limit, or none is.
const NEXT_WITHIN: &str = "next within the limit";
const NONE_WITHIN: &str = "no other within the limit";

/// The case where the next nearest word has so many disagreements.
fn case_of(next: u32, limit: u32) -> &'static str {
    if next <= limit {
        NEXT_WITHIN
    } else {
        NONE_WITHIN
    }
}

/// Counts the answers, and on small codes compares search and definition.
struct Check {
    rng: Rng,
    counts: Counts,
}

impl Check {
    fn new(seed: u64) -> Check {
        Check { rng: Rng::new(seed), counts: Counts::new() }
    }

    fn repair(&mut self, frame: &[u8], limit: u32, budget: u32) -> Result<Repaired, Refusal> {
        let answer = repair(frame, limit, budget);
        self.counts.count("repair", number_of(&answer));
        answer
    }

    fn nearest(
        &mut self,
        code: &Code,
        received: &[u8],
        limit: u32,
        budget: u32,
    ) -> Result<Nearest, Refusal> {
        let answer = code.nearest(received, limit, budget);
        let defined = code.nearest_by_definition(received, limit, budget);
        assert_eq!(answer, defined, "{code:?}, {received:?}, limit {limit}, budget {budget}");
        self.counts.count("nearest", number_of(&answer));
        if let Ok(Nearest { disagreements, margin, .. }) = answer {
            self.counts.count(case_of(disagreements + margin, limit), 0);
        }
        answer
    }

    fn finish(self, at_least: &[(&'static str, u32, u64)]) {
        self.counts.finish(at_least);
    }
}

/// The refusal's number, or 0.
fn number_of<Answer>(answer: &Result<Answer, Refusal>) -> u32 {
    answer.as_ref().err().map_or(0, |refusal| refusal.number)
}

fn refused<Answer>(number: u32, place: u32) -> Result<Answer, Refusal> {
    Err(Refusal { number, place })
}

/// The answer where so many flips, within the limit, make this the nearest word.
fn repaired(word: u64, flips: u32, live: u32, limit: u32) -> Repaired {
    Repaired { word, disagreements: flips, live, sync_wrong: 0, margin: margin(limit, flips) }
}

fn random_bits(rng: &mut Rng, count: usize) -> Vec<u8> {
    (0..count).map(|_| rng.below(2) as u8).collect()
}

/// Any masks, and a tail that clears the registers or a shorter one.
fn random_code(rng: &mut Rng) -> Code {
    let register_bits = rng.between(3, 6);
    let masks = 1 << register_bits;
    Code {
        word_bits: rng.between(8, 12) as usize,
        register_bits: register_bits as u32,
        masks: [rng.below(masks) as u32, rng.below(masks) as u32],
        tail: rng.below(register_bits) as usize,
    }
}

/// One of the small codes, or in every third turn a random one.
fn small_code(rng: &mut Rng, turn: usize) -> Code {
    if turn % 3 == 0 {
        random_code(rng)
    } else {
        SMALL[turn / 3 % 4]
    }
}

/// All patterns that may be received of the tiny code.
fn tiny_patterns() -> impl Iterator<Item = Vec<u8>> {
    (0..1 << 10).map(|pattern| (0..10).map(|bit| (pattern >> bit & 1) as u8).collect())
}

/// The disagreements of every word of a code.
fn all_disagreements(code: &Code, received: &[u8]) -> Vec<u32> {
    (0..1 << code.word_bits).map(|word| code.disagreements(&code.clocked(word), received)).collect()
}

/// Any bits, or a word's coded bits with a few flips, or what lies halfway between two words.
fn random_received(rng: &mut Rng, code: &Code) -> Vec<u8> {
    let mut received = random_coded(rng, code);
    let other = random_coded(rng, code);
    let len = received.len();
    match rng.below(3) {
        0 => received = random_bits(rng, len),
        1 => (0..rng.below(5)).for_each(|_| received[rng.below(len as u64) as usize] ^= 1),
        _ => {
            let apart: Vec<usize> = (0..len).filter(|&i| received[i] != other[i]).collect();
            apart[..apart.len() / 2].iter().for_each(|&i| received[i] = other[i]);
        }
    }
    received
}

fn random_coded(rng: &mut Rng, code: &Code) -> Vec<u8> {
    code.coded_bits(&code.clocked(rng.below(1 << code.word_bits)))
}

// The code

/// Two ways of coding: registers here, sums of shifted copies in the frames.
#[test]
fn registers_code_words_as_frames_hold_them() {
    let mut rng = Rng::new(1);
    let mut words = edge_words();
    words.extend((0..20_000).map(|_| random_word(&mut rng)));
    let mut sent: Vec<(u64, Frame)> = words.iter().map(|&word| (word, frame_of(word))).collect();
    sent.extend(vectors::wsjtx().iter().map(|Vector { word, frame, .. }| (*word, *frame)));
    for (word, frame) in sent {
        let clocked = WSPR.clocked(word);
        assert_eq!(clocked.len(), CLOCKED);
        assert_eq!(WSPR.coded_bits(&clocked), data_bits(&frame), "{word:#x}");
        assert_eq!(WSPR.disagreements(&clocked, &data_bits(&frame)), 0, "{word:#x}");
    }
}

/// What allows the search to leave out all that follows a prefix which isn't live. Here each
/// length is coded as a frame of its own, by sums of shifted copies, with zeros after it; the
/// registers must agree with that at every length.
#[test]
fn disagreements_never_fall_along_a_prefix() {
    let mut rng = Rng::new(2);
    for _ in 0..500 {
        let clocked = WSPR.clocked(random_word(&mut rng));
        let received = random_bits(&mut rng, FRAME_LEN);
        let mut before = 0;
        for len in 1..=CLOCKED {
            let bits = clocked[..len].iter().fold(0, |bits, &bit| bits << 1 | u128::from(bit));
            let coded = data_bits(&frame_of_clocked(bits << (CLOCKED - len)));
            let differing = (0..2 * len).filter(|&i| coded[i] != received[i]).count() as u32;
            assert_eq!(WSPR.disagreements(&clocked[..len], &received), differing, "{clocked:?}");
            assert!(before <= differing && differing <= before + 2, "{clocked:?}, length {len}");
            before = differing;
        }
    }
}

/// The search adds disagreements up bit by bit; the definition codes the whole prefix. No
/// prefix is listed twice.
#[test]
fn the_search_keeps_the_disagreements_of_the_definition() {
    let mut rng = Rng::new(3);
    let mut compared = 0;
    for turn in 0..300 {
        let limit = rng.below(7) as u32;
        let flips = random_places(&mut rng, turn % 15);
        let received = data_bits(&flipped(random_frame(&mut rng), &flips));
        for (live, len) in WSPR.live_prefixes(&received, limit).zip(1..) {
            for prefix in &live {
                let bits: Vec<u8> =
                    (0..len).rev().map(|bit| (prefix.clocked >> bit & 1) as u8).collect();
                assert_eq!(prefix.len, len);
                assert_eq!(prefix.disagreements, WSPR.disagreements(&bits, &received), "{bits:?}");
                compared += 1;
            }
            assert!(live.windows(2).all(|pair| pair[0].clocked < pair[1].clocked));
        }
    }
    assert!(compared >= 100_000, "{compared} prefixes");
}

/// Flips from the sent frame, and the differences from the frame of any other word.
#[test]
fn flips_count_the_same_in_frame_order_and_in_coded_order() {
    let mut rng = Rng::new(4);
    for turn in 0..20_000 {
        let word = random_word(&mut rng);
        let count = turn % (FRAME_LEN + 1);
        let frame = flipped(frame_of(word), &random_places(&mut rng, count));
        let received = data_bits(&frame);
        assert_eq!(WSPR.disagreements(&WSPR.clocked(word), &received), count as u32, "{word:#x}");
        let other = random_word(&mut rng);
        let differing = differing_places(&frame, &frame_of(other)).len() as u32;
        assert_eq!(WSPR.disagreements(&WSPR.clocked(other), &received), differing, "{other:#x}");
    }
}

/// Words that differ anywhere, or in bits that stand close together: those come nearest.
#[test]
fn frames_of_different_words_differ_in_at_least_28_data_bits() {
    let mut rng = Rng::new(5);
    let mut least = u32::MAX;
    for turn in 0..200_000 {
        let word = random_word(&mut rng);
        let difference = match turn % 2 {
            0 => rng.between(1, WORDS - 1),
            _ => rng.between(1, (1 << 19) - 1) << rng.below(32),
        };
        let distance = differing_places(&frame_of(word), &frame_of(word ^ difference)).len() as u32;
        assert!(distance >= LEAST_DISTANCE, "{word:#x} {difference:#x}: {distance}");
        assert_eq!(distance, weight(difference), "{word:#x} {difference:#x}");
        least = least.min(distance);
    }
    println!("least distance seen: {least}");
}

/// How many data bits are ones in a word's frame: its distance from the zero word's.
fn weight(word: u64) -> u32 {
    WSPR.disagreements(&WSPR.clocked(word), &[0; FRAME_LEN])
}

/// All words with frames of at most 28 ones, found by a search that leaves none out: there is
/// one, with its shifted copies. Shifting a word only shifts its coded bits, so those whose
/// first bit is a one stand for all others.
#[test]
fn the_least_distance_is_28_and_32_words_have_that_weight() {
    let least = least_weights_after();
    let mut prefixes = one_alone(&WSPR, LEAST_DISTANCE);
    for _ in 1..CLOCKED {
        prefixes = WSPR.extended(&prefixes, &[0; FRAME_LEN], LEAST_DISTANCE);
        prefixes.retain(|prefix| {
            let zeros = prefix.clocked.trailing_zeros().min(31) as usize;
            prefix.disagreements + least[31 - zeros] <= LEAST_DISTANCE
        });
    }
    let found: Vec<(u64, u32)> = prefixes
        .iter()
        .map(|prefix| ((prefix.clocked >> WSPR.tail) as u64, prefix.disagreements))
        .collect();
    assert_eq!(found, [(LIGHTEST << 31, LEAST_DISTANCE)]);
    assert_eq!(LIGHTEST % 2, 1);
    for shift in 0..=31 {
        assert_eq!(weight(LIGHTEST << shift), LEAST_DISTANCE, "shifted by {shift}");
    }
}

/// The prefix of one bit which is a one, if its coded bits have no more ones than the limit.
fn one_alone(code: &Code, limit: u32) -> Vec<Prefix> {
    let mut prefixes = code.extended(&[Prefix::EMPTY], &[0; FRAME_LEN], limit);
    prefixes.retain(|prefix| prefix.clocked == 1);
    prefixes
}

/// How many ones at least are among the coded bits still to come while the latest one clocked
/// in has so many steps to go, 0 to 31, until it leaves the registers.
///
/// Read backwards, a word's coded bits are those of the word read backwards under mirrored
/// masks, and its last one is clocked in first. It is the latest one or comes later, so what is
/// still to come is, read backwards, so many steps or more from a one on. The lightest such
/// beginnings are found here, by raising the limit until there are some of every length.
fn least_weights_after() -> Vec<u32> {
    let mirrored = Code { masks: WSPR.masks.map(u32::reverse_bits), ..WSPR };
    let mut least = vec![0];
    for limit in 0.. {
        let mut lightest = one_alone(&mirrored, limit);
        while let Some(&Prefix { len, .. }) = lightest.first().filter(|prefix| prefix.len <= 31) {
            if len == least.len() {
                least.push(limit);
            }
            lightest = mirrored.extended(&lightest, &[0; FRAME_LEN], limit);
        }
        if least.len() == 32 {
            break;
        }
    }
    least
}

// Live counts

/// The code is linear: adding a word to frame and prefixes leaves all disagreements as they
/// are, so each length has as many live prefixes in any word's frame as in the zero word's.
#[test]
fn clean_frames_of_all_words_have_the_same_live_counts() {
    let mut rng = Rng::new(6);
    let mut frames: Vec<Frame> = vectors::wsjtx().iter().map(|vector| vector.frame).collect();
    frames.extend([WORDS - 1, 1, 1 << 49].map(frame_of));
    frames.extend((0..6).map(|_| random_frame(&mut rng)));
    for (limit, count) in (0..).zip(CLEAN) {
        let of_zero = WSPR.live_counts(&[0; FRAME_LEN], limit);
        assert_eq!(of_zero.iter().sum::<u64>(), count, "limit {limit}");
        for frame in &frames {
            assert_eq!(WSPR.live_counts(&data_bits(frame), limit), of_zero, "{frame:?}, {limit}");
        }
    }
}

/// The same with flips. By the triangle inequality, what is live then is within limit and
/// flips together of the sent word: that bounds the count by a clean frame's.
#[test]
fn flips_leave_the_same_live_counts_around_all_words() {
    let mut rng = Rng::new(7);
    for turn in 0..6_000 {
        let (flips, limit) = (turn % 13, turn / 13 % 8);
        let places = random_places(&mut rng, flips);
        let of_zero = WSPR.live_counts(&data_bits(&flipped(frame_of(0), &places)), limit as u32);
        let word = random_word(&mut rng);
        let of_word = WSPR.live_counts(&data_bits(&flipped(frame_of(word), &places)), limit as u32);
        assert_eq!(of_word, of_zero, "{word:#x}, limit {limit}, flips {places:?}");
        if limit + flips < CLEAN.len() {
            let total: u64 = of_word.iter().sum();
            assert!(total <= CLEAN[limit + flips], "{total}: limit {limit}, flips {places:?}");
        }
    }
}

/// A flip at every place, in coded order.
#[test]
fn one_flip_leaves_at_most_135_live_prefixes_at_limit_2() {
    let mut rng = Rng::new(8);
    let mut words = vec![0, WORDS - 1];
    words.extend((0..20).map(|_| random_word(&mut rng)));
    for word in words {
        let clean = data_bits(&frame_of(word));
        let counts: Vec<u64> = (0..FRAME_LEN)
            .map(|index| {
                let mut received = clean.clone();
                received[index] ^= 1;
                WSPR.live_counts(&received, 2).iter().sum()
            })
            .collect();
        assert!(counts.iter().all(|&count| count <= 135), "{word:#x}: {counts:?}");
        // The first coded bit of the 49th clocked one comes after those of 48.
        let reached: Vec<usize> = (0..FRAME_LEN).filter(|&index| counts[index] == 135).collect();
        assert_eq!(reached, [2 * 48], "{word:#x}");
    }
}

/// Every pair of flips of the zero word's frame: the counts are those of every word with these flips.
/// No proof goes that far: docs/PERFORMANCE.md names the number as counted here.
#[test]
fn two_flips_leave_at_most_137_live_prefixes_at_limit_2() {
    let mut received = vec![0; FRAME_LEN];
    let mut most = 0;
    for first in 0..FRAME_LEN {
        received[first] = 1;
        for second in 0..first {
            received[second] = 1;
            most = most.max(WSPR.live_counts(&received, 2).iter().sum());
            received[second] = 0;
        }
        received[first] = 0;
    }
    assert_eq!(most, 137);
}

#[test]
fn pruning_loses_no_live_prefix() {
    let mut rng = Rng::new(9);
    for turn in 0..400 {
        let code = if turn % 2 == 0 { SMALL[turn / 2 % 4] } else { random_code(&mut rng) };
        let received = random_received(&mut rng, &code);
        let limit = rng.below(14) as u32;
        let defined = code.live_counts_by_definition(&received, limit);
        assert_eq!(code.live_counts(&received, limit), defined, "{code:?} {received:?} {limit}");
    }
}

/// How many live prefixes begin with this one and are longer. Each is coded anew, from its first
/// bit, by the definition; nothing is carried along, as the search does.
fn longer_live(prefix: &mut Vec<u8>, received: &[u8], limit: u32) -> u64 {
    if prefix.len() == CLOCKED {
        return 0;
    }
    let mut live = 0;
    for bit in 0..if prefix.len() < WSPR.word_bits { 2 } else { 1 } {
        prefix.push(bit);
        if WSPR.disagreements(prefix, received) <= limit {
            live += 1 + longer_live(prefix, received, limit);
        }
        prefix.pop();
    }
    live
}

/// Damaged frames and noise, where the zero word's counts don't tell what to expect.
#[test]
fn damaged_frames_have_the_live_counts_of_the_definition() {
    let mut rng = Rng::new(28);
    let mut dead = 0;
    for turn in 0..600 {
        let limit = turn as u32 % 6;
        let frame = if turn % 7 == 0 {
            noise(&mut rng)
        } else {
            let flips = random_places(&mut rng, turn % 9);
            flipped(random_frame(&mut rng), &flips)
        };
        let live = longer_live(&mut Vec::new(), &data_bits(&frame), limit);
        assert_eq!(live_count(&frame, limit), live, "{frame:?} limit {limit}");
        dead += u32::from(live < CLOCKED as u64);
    }
    assert!(dead >= 50, "{dead} frames without a word within the limit");
}

// Flips

/// Demand 3: every way of flipping up to two data bits, with any damage to the sync bits.
#[test]
fn two_flips_or_fewer_are_repaired_at_limit_2() {
    let mut check = Check::new(10);
    let mut most = 0;
    for word in [0, WORDS - 1, random_word(&mut check.rng), random_word(&mut check.rng)] {
        let mut flips = vec![vec![]];
        flips.extend((0..FRAME_LEN).map(|place| vec![place]));
        flips.extend((0..FRAME_LEN).flat_map(|one| (0..one).map(move |other| vec![one, other])));
        for places in flips {
            let mut frame = flipped(frame_of(word), &places);
            let sync_wrong = check.rng.below(FRAME_LEN as u64 + 1) as u32;
            spoil_sync(&mut check.rng, &mut frame, sync_wrong as usize);
            let live = live_count(&frame, 2) as u32;
            let flips = places.len() as u32;
            let expected = Repaired { sync_wrong, ..repaired(word, flips, live, 2) };
            assert_eq!(check.repair(&frame, 2, 16_000), Ok(expected), "{word:#x} {places:?}");
            assert!(live <= CLEAN[4] as u32, "{live}: {places:?}");
            most = most.max(live);
        }
    }
    println!("largest live count: {most}");
    check.finish(&[("repair", 0, 4 * (1 + 162 + 162 * 161 / 2))]);
}

/// The same for the words of the vectors and for random ones.
#[test]
fn two_flips_of_any_word_are_repaired_at_limit_2() {
    let mut check = Check::new(11);
    let mut sent: Vec<(u64, Frame)> =
        vectors::wsjtx().iter().map(|Vector { word, frame, .. }| (*word, *frame)).collect();
    sent.extend((0..161).map(|_| random_word(&mut check.rng)).map(|word| (word, frame_of(word))));
    for turn in 0..20_000 {
        let (word, mut frame) = sent[turn % sent.len()];
        let flips = turn % 3;
        frame = flipped(frame, &random_places(&mut check.rng, flips));
        let damaged = check.rng.below(FRAME_LEN as u64 + 1) as usize;
        spoil_sync(&mut check.rng, &mut frame, damaged);
        let found = check.repair(&frame, 2, 16_000).expect("two flips are repaired");
        assert_eq!((found.word, found.disagreements), (word, flips as u32));
        assert_eq!(found.sync_wrong, damaged as u32, "{word:#x}");
        assert_eq!(found.margin, margin(2, flips as u32), "{word:#x}");
    }
    check.finish(&[("repair", 0, 20_000)]);
}

/// Every way of flipping three data bits of a frame. No frame has more live prefixes at limit 2
/// than a clean one at limit 4, so a budget of that count is never passed.
#[test]
fn three_flips_are_refused_at_limit_2() {
    let mut check = Check::new(12);
    let frame = random_frame(&mut check.rng);
    for first in 0..FRAME_LEN {
        for second in 0..first {
            for third in 0..second {
                let places = [first, second, third];
                let found = check.repair(&flipped(frame, &places), 2, CLEAN[4] as u32);
                assert_eq!(found, refused(17, 0), "{places:?}");
            }
        }
    }
    for _ in 0..20_000 {
        let mut frame = random_frame(&mut check.rng);
        for place in random_places(&mut check.rng, 3) {
            frame[place] ^= 2 + check.rng.below(2) as u8;
        }
        assert_eq!(check.repair(&frame, 2, 16_000), refused(17, 0), "{frame:?}");
    }
    check.finish(&[("repair", 17, 162 * 161 * 160 / 6 + 20_000)]);
}

/// At every limit, flips within it are repaired and more are refused, unless the live count is
/// above the budget. There are too few of them to bring another word within the limit.
#[test]
fn flips_within_the_limit_are_repaired() {
    let mut check = Check::new(13);
    for limit in 0..=12 {
        for flips in 0..LEAST_DISTANCE - limit {
            let turns = if limit <= 8 { 20 } else { 2 };
            for _ in 0..turns {
                let word = random_word(&mut check.rng);
                let places = random_places(&mut check.rng, flips as usize);
                let frame = flipped(frame_of(word), &places);
                let live = live_count(&frame, limit);
                let budget = check.rng.pick(&[LARGEST_BUDGET, 16_000, 2_000, 200]);
                let expected = match live {
                    _ if live > u64::from(budget) => refused(16, 0),
                    _ if flips > limit => refused(17, 0),
                    _ => Ok(repaired(word, flips, live as u32, limit)),
                };
                let found = check.repair(&frame, limit, budget);
                assert_eq!(found, expected, "{word:#x} {places:?} {limit} {budget}");
            }
        }
    }
    check.finish(&[("repair", 0, 500), ("repair", 16, 500), ("repair", 17, 500)]);
}

/// From one frame to another, flip by flip: the nearer word is the answer, whichever was sent.
/// Halfway both are as near, but both are too far.
#[test]
fn the_nearer_of_two_words_is_the_answer() {
    let mut check = Check::new(14);
    for turn in 0..39 {
        let limit = turn % 13;
        let word = random_word(&mut check.rng);
        let other = word ^ LIGHTEST << check.rng.below(32);
        let mut places = differing_places(&frame_of(word), &frame_of(other));
        let mut frame = frame_of(word);
        for flips in 0..=LEAST_DISTANCE {
            let live = live_count(&frame, limit);
            let back = LEAST_DISTANCE - flips;
            let expected = match live {
                _ if live > u64::from(LARGEST_BUDGET) => refused(16, 0),
                _ if flips <= limit => Ok(repaired(word, flips, live as u32, limit)),
                _ if back <= limit => Ok(repaired(other, back, live as u32, limit)),
                _ => refused(17, 0),
            };
            let found = check.repair(&frame, limit, LARGEST_BUDGET);
            assert_eq!(found, expected, "{word:#x} {other:#x} {flips} {limit}");
            if !places.is_empty() {
                let next = places.swap_remove(check.rng.below(places.len() as u64) as usize);
                frame[next] ^= 2;
            }
        }
    }
    check.finish(&[("repair", 0, 200), ("repair", 16, 100), ("repair", 17, 200)]);
}

/// The same around halfway, with a limit that both words are within. A third word is as far from
/// either as they are from each other, or farther, so it is no nearer than the farther of the two.
#[test]
fn above_limit_12_the_margin_is_to_the_farther_of_two_words() {
    let mut rng = Rng::new(32);
    let mut counts = Counts::new();
    for turn in 0..9 {
        let word = random_word(&mut rng);
        let other = word ^ LIGHTEST << rng.below(32);
        let places = differing_places(&frame_of(word), &frame_of(other));
        let flips = 13 + turn % 3;
        let received = data_bits(&flipped(frame_of(word), &places[..flips as usize]));
        let mut words = [(flips, word), (LEAST_DISTANCE - flips, other)];
        words.sort();
        let [(fewest, nearest), (next, _)] = words;
        for limit in [13, 15] {
            let found = WSPR.nearest(&received, limit, u32::MAX);
            let told = found.map(|found| (found.word, found.disagreements, found.margin));
            let expected = match fewest {
                _ if fewest > limit => refused(17, 0),
                _ if fewest == next => refused(18, 0),
                _ => Ok((nearest, fewest, next.min(limit + 1) - fewest)),
            };
            assert_eq!(told, expected, "{word:#x} {other:#x} {flips} {limit}");
            counts.count(case_of(next, limit), number_of(&told));
        }
    }
    counts.finish(&[
        (NONE_WITHIN, 0, 6),
        (NONE_WITHIN, 17, 3),
        (NEXT_WITHIN, 0, 6),
        (NEXT_WITHIN, 18, 3),
    ]);
}

// Budgets and refusals

#[test]
fn the_bench_sheet_holds() {
    let mut check = Check::new(15);
    for word in [259_047_992 * 4_194_304 + 2_942_821, 0, WORDS - 1] {
        let frame = frame_of(word);
        for (limit, live) in [(0, 81), (1, 81), (2, 131)] {
            let expected = repaired(word, 0, live, limit);
            assert_eq!(check.repair(&frame, limit, live), Ok(expected), "{word:#x}");
            assert_eq!(check.repair(&frame, limit, LARGEST_BUDGET), Ok(expected), "{word:#x}");
            assert_eq!(check.repair(&frame, limit, live - 1), refused(16, 0), "{word:#x}");
        }
        for len in [0, 161, 163] {
            let symbols = resized(&mut check.rng, &frame, len);
            assert_eq!(check.repair(&symbols, 2, 16_000), refused(1, 0), "{len} symbols");
        }
        assert_eq!(check.repair(&frame, 2, 130), refused(16, 0));
        assert_eq!(check.repair(&frame, 13, 16_000), refused(15, 0));
        assert_eq!(check.repair(&frame, 2, 0), refused(15, 1));
        assert_eq!(check.repair(&frame, 2, 65_537), refused(15, 1));
    }
    check.finish(&[("repair", 0, 18), ("repair", 1, 9), ("repair", 15, 9), ("repair", 16, 12)]);
}

/// The live count of frames with few flips, with many, and of arbitrary symbols, and budgets
/// next to it: below it the answer is 16, and from it on always the same.
#[test]
fn the_budget_is_held_to_the_live_count() {
    let mut check = Check::new(16);
    for turn in 0..780 {
        let limit = turn % 13;
        let flips = check.rng.pick(&[0, 1, 2, 3, limit as usize, 20]);
        let places = random_places(&mut check.rng, flips);
        let mut frame = flipped(random_frame(&mut check.rng), &places);
        if turn % 5 == 0 {
            frame.fill_with(|| check.rng.below(4) as u8);
        }
        let live = live_count(&frame, limit).min(u64::from(LARGEST_BUDGET) + 1) as u32;
        if live > 1 {
            assert_eq!(check.repair(&frame, limit, live - 1), refused(16, 0), "{frame:?}, {limit}");
            assert_eq!(check.repair(&frame, limit, 1), refused(16, 0), "{frame:?}, {limit}");
        }
        if live <= LARGEST_BUDGET {
            let found = check.repair(&frame, limit, live.max(1));
            assert_ne!(found, refused(16, 0), "{frame:?}, {limit}");
            assert!(found.map_or(true, |repaired| repaired.live == live), "{found:?}: {live}");
            for budget in [live + 1, LARGEST_BUDGET].map(|budget| budget.min(LARGEST_BUDGET)) {
                assert_eq!(check.repair(&frame, limit, budget), found, "{frame:?}, {limit}");
            }
        }
    }
    check.finish(&[("repair", 0, 500), ("repair", 16, 500), ("repair", 17, 500)]);
}

/// Where neither of the first two coded bits can be met, nothing is live at limit 0.
#[test]
fn a_live_count_of_0_is_within_every_budget() {
    let mut check = Check::new(17);
    for word in edge_words() {
        for place in [0, 128] {
            let frame = flipped(frame_of(word), &[place]);
            assert_eq!(live_count(&frame, 0), 0, "{word:#x}");
            assert_eq!(check.repair(&frame, 0, 1), refused(17, 0), "{word:#x}");
        }
    }
    check.finish(&[("repair", 17, 204)]);
}

/// Sync bits alone, right or wrong, change nothing but their own count.
#[test]
fn sync_bits_are_counted_and_never_refuse() {
    let mut check = Check::new(18);
    for count in 0..=FRAME_LEN {
        let word = random_word(&mut check.rng);
        let mut frame = frame_of(word);
        spoil_sync(&mut check.rng, &mut frame, count);
        let sync_wrong = count as u32;
        for (limit, live) in [(0, 81), (1, 81), (2, 131)] {
            let expected = Repaired { sync_wrong, ..repaired(word, 0, live, limit) };
            assert_eq!(check.repair(&frame, limit, live), Ok(expected), "{word:#x}, {count}");
        }
        frame[0] ^= 2;
        assert_eq!(check.repair(&frame, 0, 1), refused(17, 0), "{word:#x}, {count}");
        assert_eq!(check.repair(&frame, 8, 1), refused(16, 0), "{word:#x}, {count}");
    }
    let inverted = sync().map(|bit| 1 - bit);
    let expected = Repaired { sync_wrong: 162, ..repaired(0, 0, 81, 0) };
    assert_eq!(check.repair(&inverted, 0, 81), Ok(expected));
    check.finish(&[("repair", 0, 3 * 163 + 1), ("repair", 16, 163), ("repair", 17, 163)]);
}

#[test]
fn limits_and_budgets_out_of_range_are_refused() {
    let mut check = Check::new(19);
    let mut limits = vec![13, 14, 255, 256, 256 + 2, 65_536 + 2, u32::MAX];
    limits.extend((0..200).map(|_| check.rng.between(13, u64::from(u32::MAX)) as u32));
    let mut budgets = vec![0, LARGEST_BUDGET + 1, LARGEST_BUDGET + 16_000, 1 << 17, u32::MAX];
    budgets.extend((0..200).map(|_| check.rng.between(65_537, u64::from(u32::MAX)) as u32));
    for &limit in &limits {
        let frame = random_frame(&mut check.rng);
        for budget in [1, 16_000, LARGEST_BUDGET, check.rng.pick(&budgets)] {
            assert_eq!(check.repair(&frame, limit, budget), refused(15, 0), "{limit} {budget}");
        }
    }
    for &budget in &budgets {
        let frame = random_frame(&mut check.rng);
        for limit in 0..=12 {
            assert_eq!(check.repair(&frame, limit, budget), refused(15, 1), "{limit} {budget}");
        }
    }
    for limit in 0..=12 {
        let frame = random_frame(&mut check.rng);
        assert_eq!(check.repair(&frame, limit, 1), refused(16, 0), "{limit}");
        let found = check.repair(&frame, limit, LARGEST_BUDGET);
        let within = CLEAN[limit as usize] <= u64::from(LARGEST_BUDGET);
        assert_eq!(found.is_ok(), within, "{limit}: {found:?}");
    }
    check.finish(&[("repair", 0, 10), ("repair", 15, 207 * 4 + 205 * 13), ("repair", 16, 16)]);
}

#[test]
fn frames_of_other_lengths_are_refused() {
    let mut check = Check::new(20);
    for len in wrong_lengths() {
        let frame = random_frame(&mut check.rng);
        let symbols = resized(&mut check.rng, &frame, len);
        assert_eq!(check.repair(&symbols, 2, 16_000), refused(1, 0), "{len} symbols");
        let bytes = check.rng.bytes(len);
        assert_eq!(check.repair(&bytes, 13, 0), refused(1, 0), "{len} bytes");
    }
    check.finish(&[("repair", 1, 335 * 2)]);
}

/// Before the place are symbols 0 to 3, after it any bytes.
#[test]
fn the_first_symbol_above_3_is_refused() {
    let mut check = Check::new(21);
    for place in 0..FRAME_LEN {
        for turn in 0..20 {
            let mut frame = random_frame(&mut check.rng);
            if turn >= 5 {
                frame[..place].fill_with(|| check.rng.below(4) as u8);
            }
            if turn >= 10 {
                frame[place + 1..].fill_with(|| check.rng.byte());
            }
            for symbol in [4, 255, bad_symbol(&mut check.rng)] {
                frame[place] = symbol;
                let found = check.repair(&frame, turn % 13, 16_000);
                assert_eq!(found, refused(7, place as u32), "{frame:?}");
            }
        }
    }
    check.finish(&[("repair", 7, 162 * 20 * 3)]);
}

/// Every set of faults: length, limit, budget, a symbol above 3, a live count above the
/// budget, no word within the limit.
#[test]
fn refusals_come_in_their_order() {
    let mut check = Check::new(22);
    for faults in 0..64 {
        for _ in 0..200 {
            let asked = asked_with_faults(&mut check.rng, faults);
            let found = check.repair(&asked.symbols, asked.limit, asked.budget);
            assert_eq!(found.err(), asked.refusal, "faults {faults:b}: {asked:?}");
        }
    }
    check.finish(&[
        ("repair", 0, 200),
        ("repair", 1, 32 * 200),
        ("repair", 7, 4 * 200),
        ("repair", 15, 24 * 200),
        ("repair", 16, 2 * 200),
        ("repair", 17, 200),
    ]);
}

// Small codes

/// Every received pattern, every limit and every budget up to the number of all prefixes.
#[test]
fn every_pattern_of_a_tiny_code_gets_the_defined_answer() {
    let mut check = Check::new(23);
    let prefixes = 2 + 4 + 8 + 8 + 8;
    for received in tiny_patterns() {
        assert_eq!(TINY.live_counts(&received, 10), [2, 4, 8, 8, 8]);
        for limit in 0..=10 {
            for budget in 1..=prefixes {
                let _ = check.nearest(&TINY, &received, limit, budget);
            }
        }
    }
    check.finish(&[
        ("nearest", 0, 10_000),
        (NONE_WITHIN, 0, 10_000),
        (NEXT_WITHIN, 0, 10_000),
        ("nearest", 16, 10_000),
        ("nearest", 17, 1_000),
        ("nearest", 18, 1_000),
    ]);
}

/// Words 0 and 3 of the tiny code differ in six coded bits. With three of them flipped both
/// have three disagreements, and no other word has so few.
#[test]
fn words_that_share_the_fewest_are_refused_if_within_the_limit() {
    let mut check = Check::new(24);
    let [none, three] = [0, 3].map(|word| TINY.coded_bits(&TINY.clocked(word)));
    assert_eq!(none, [0; 10]);
    assert_eq!(three, [0, 0, 1, 1, 0, 1, 0, 1, 1, 1]);
    let shared = [0, 0, 1, 1, 0, 1, 0, 0, 0, 0];
    assert_eq!(all_disagreements(&TINY, &shared), [3, 6, 4, 3, 4, 7, 5, 8]);
    for limit in 0..=10 {
        let expected = if limit < 3 { 17 } else { 18 };
        assert_eq!(check.nearest(&TINY, &shared, limit, 30), refused(expected, 0), "{limit}");
        let live: u64 = TINY.live_counts(&shared, limit).iter().sum();
        let found = check.nearest(&TINY, &shared, limit, live as u32 - 1);
        assert_eq!(found, refused(16, 0), "{limit}");
    }
    // One flip fewer, and word 3 alone is the nearest. Word 2 has one disagreement more.
    let nearer = [0, 0, 1, 1, 0, 1, 0, 1, 0, 0];
    assert_eq!(all_disagreements(&TINY, &nearer), [4, 7, 3, 2, 5, 8, 4, 7]);
    assert_eq!(check.nearest(&TINY, &nearer, 1, 30), refused(17, 0));
    for limit in 2..=10 {
        let found = check.nearest(&TINY, &nearer, limit, 30).expect("one word is nearest");
        assert_eq!((found.word, found.disagreements, found.margin), (3, 2, 1), "{limit}");
    }
    check.finish(&[
        ("nearest", 0, 9),
        (NONE_WITHIN, 0, 1),
        (NEXT_WITHIN, 0, 8),
        ("nearest", 16, 11),
        ("nearest", 17, 4),
        ("nearest", 18, 8),
    ]);
}

/// Words whose coded bits are all the same share the fewest disagreements even where these
/// are none.
#[test]
fn words_with_the_same_coded_bits_are_refused() {
    let mut check = Check::new(25);
    let code = SMALL[3];
    for word in 0..1 << code.word_bits {
        let coded = code.coded_bits(&code.clocked(word));
        assert_eq!(code.coded_bits(&code.clocked(word ^ 1)), coded, "{word:#x}");
        assert_eq!(check.nearest(&code, &coded, 0, LARGEST_BUDGET), refused(18, 0), "{word:#x}");
    }
    check.finish(&[("nearest", 18, 1_024)]);
}

/// Budgets next to the live count and above it, limits up to the table's largest.
#[test]
fn random_patterns_of_small_codes_get_the_defined_answer() {
    let mut check = Check::new(26);
    for turn in 0..3_000 {
        let code = small_code(&mut check.rng, turn);
        let received = random_received(&mut check.rng, &code);
        let limit = check.rng.below(13) as u32;
        let live = code.live_counts(&received, limit).iter().sum::<u64>() as u32;
        let budget = match check.rng.below(4) {
            0 => live.max(2) - 1,
            1 => live.max(1),
            _ => LARGEST_BUDGET,
        };
        let _ = check.nearest(&code, &received, limit, budget);
    }
    check.finish(&[
        ("nearest", 0, 100),
        (NONE_WITHIN, 0, 100),
        (NEXT_WITHIN, 0, 100),
        ("nearest", 16, 100),
        ("nearest", 17, 100),
        ("nearest", 18, 100),
    ]);
}

// Margins on small codes

/// Worked out by hand. Words 1, 2 and 4 of the tiny code have five ones among their coded bits, and
/// the others, but for word 0, have more. The fifth coded bit is a one of all three: with that
/// received as a one, word 0 has one disagreement, and they have four each.
#[test]
fn the_margins_of_a_tiny_code_are_as_worked_out() {
    let mut check = Check::new(29);
    let flipped = [0, 0, 0, 0, 1, 0, 0, 0, 0, 0];
    for (received, disagreements, margins) in [
        ([0; 10], 0, &[1, 2, 3, 4, 5, 5, 5, 5, 5, 5, 5][..]),
        (flipped, 1, &[1, 2, 3, 3, 3, 3, 3, 3, 3, 3]),
    ] {
        for (limit, &margin) in (disagreements..=10).zip(margins) {
            let found = check.nearest(&TINY, &received, limit, 30).expect("word 0 is nearest");
            let told = (found.word, found.disagreements, found.margin);
            assert_eq!(told, (0, disagreements, margin), "limit {limit}");
        }
    }
    check.finish(&[("nearest", 0, 11 + 10), (NONE_WITHIN, 0, 5 + 3), (NEXT_WITHIN, 0, 6 + 7)]);
}

/// What the margin promises, with the disagreements of all words: every other word has at least as
/// many more; and either one of them has just as many more and is within the limit, or none is
/// within the limit, and disagreements and margin are limit + 1 together.
fn hold_margin(counts: &mut Counts, all: &[u32], limit: u32, found: &Nearest) {
    let Nearest { word, disagreements, margin, .. } = *found;
    let mut others = all.to_vec();
    assert_eq!(others.remove(word as usize), disagreements, "{found:?}");
    let next = disagreements + margin;
    assert!(margin >= 1, "{found:?}");
    assert!(others.iter().all(|&other| other >= next), "{found:?}: {all:?}, limit {limit}");
    if others.iter().any(|&other| other <= limit) {
        assert!(next <= limit && others.contains(&next), "{found:?}: {all:?}, limit {limit}");
        counts.count(NEXT_WITHIN, 0);
    } else {
        assert_eq!(next, limit + 1, "{found:?}: {all:?}, limit {limit}");
        counts.count(NONE_WITHIN, 0);
    }
}

#[test]
fn no_word_is_nearer_than_the_margin_says() {
    let mut counts = Counts::new();
    for received in tiny_patterns() {
        let all = all_disagreements(&TINY, &received);
        for limit in 0..=10 {
            if let Ok(found) = TINY.nearest(&received, limit, LARGEST_BUDGET) {
                hold_margin(&mut counts, &all, limit, &found);
            }
        }
    }
    let mut rng = Rng::new(30);
    for turn in 0..6_000 {
        let code = small_code(&mut rng, turn);
        let received = random_received(&mut rng, &code);
        let limit = rng.below(13) as u32;
        if let Ok(found) = code.nearest(&received, limit, LARGEST_BUDGET) {
            hold_margin(&mut counts, &all_disagreements(&code, &received), limit, &found);
        }
    }
    counts.finish(&[(NONE_WITHIN, 0, 1_500), (NEXT_WITHIN, 0, 5_000)]);
}

/// With every higher limit the margin grows by one, until the second nearest word is within the
/// limit; from there on it is what that word has more, whatever the limit.
#[test]
fn the_margin_grows_with_the_limit_as_far_as_the_second_nearest_word() {
    let mut counts = Counts::new();
    let mut rng = Rng::new(31);
    let mut patterns: Vec<(Code, Vec<u8>)> = tiny_patterns().map(|bits| (TINY, bits)).collect();
    for turn in 0..1_000 {
        let code = small_code(&mut rng, turn);
        let received = random_received(&mut rng, &code);
        patterns.push((code, received));
    }
    for (code, received) in patterns {
        let mut all = all_disagreements(&code, &received);
        all.sort();
        let (nearest, second) = (all[0], all[1]);
        for limit in nearest..=second + 2 {
            let found = code.nearest(&received, limit, LARGEST_BUDGET);
            let margin = found.map(|found| found.margin);
            let expected = match second {
                _ if second == nearest => refused(18, 0),
                _ if second > limit => Ok(limit + 1 - nearest),
                _ => Ok(second - nearest),
            };
            assert_eq!(margin, expected, "{code:?}, {received:?}, limit {limit}");
            counts.count(case_of(second, limit), number_of(&margin));
        }
    }
    counts.finish(&[(NONE_WITHIN, 0, 2_000), (NEXT_WITHIN, 0, 3_000), (NEXT_WITHIN, 18, 2_000)]);
}

// Flips on small codes

/// How a flipped word fares: more flips than the limit, and with it fewer than the least distance;
/// or another word is the answer, with flips and disagreements together as many as the least
/// distance, or more.
const NO_WORD: &str = "no word";
const JUST_ENOUGH: &str = "another word, by just enough flips";
const MORE: &str = "another word, by more flips";

/// In how many coded bits two words differ at least: a code is linear, so that it is the least
/// number of ones of a word that isn't 0.
fn least_distance(code: &Code) -> u32 {
    let ones = all_disagreements(code, &vec![0; 2 * code.clocked_len()]);
    ones[1..].iter().copied().min().expect("a code has words")
}

/// Every pattern of the tiny code, and random ones of others, with any word taken for the sent one.
#[test]
fn flips_and_limit_below_the_least_distance_give_no_word() {
    let mut counts = Counts::new();
    let mut rng = Rng::new(33);
    let mut patterns: Vec<(Code, Vec<u8>)> = tiny_patterns().map(|bits| (TINY, bits)).collect();
    for turn in 0..1_000 {
        let code = small_code(&mut rng, turn);
        let received = random_received(&mut rng, &code);
        patterns.push((code, received));
    }
    assert_eq!(least_distance(&TINY), 5);
    for (code, received) in patterns {
        let least = least_distance(&code);
        let flips = all_disagreements(&code, &received);
        for limit in 0..=12 {
            let found = code.nearest(&received, limit, LARGEST_BUDGET);
            if flips.iter().any(|&flips| limit < flips && flips + limit < least) {
                assert_eq!(found, refused(17, 0), "{code:?}, {received:?}, limit {limit}");
                counts.count(NO_WORD, 17);
            }
            let Ok(Nearest { word, disagreements, .. }) = found else { continue };
            for other in (0..flips.len()).filter(|&other| other as u64 != word) {
                let together = flips[other] + disagreements;
                assert!(together >= least, "{code:?}, {received:?}, limit {limit}, word {other}");
                counts.count(if together == least { JUST_ENOUGH } else { MORE }, 0);
            }
        }
    }
    counts.finish(&[(NO_WORD, 17, 500), (JUST_ENOUGH, 0, 5_000), (MORE, 0, 1_000_000)]);
}
