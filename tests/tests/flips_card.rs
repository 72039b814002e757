// Flipped data bits through the C interface: up to how many of them repair gives the sent word
// back, in which band above the limit it gives no word at all, from how many on it may give
// another, and how many prefixes they leave live. All this is proved for every frame; here a
// million of them are held to it, frames between two words at the least distance, and four flips
// at limit 4.
use std::collections::BTreeSet;
use std::iter;
use std::ops::RangeInclusive;

use wsprcard_tests::answers::refused_repair as refused;
use wsprcard_tests::card;
use wsprcard_tests::counts::Counts;
use wsprcard_tests::facts::{margin, CLEAN, LEAST_DISTANCE, LIGHTEST};
use wsprcard_tests::inputs::{differing_places, flipped, random_places, random_word, spoil_sync};
use wsprcard_tests::reference::frame::{frame_of, places, FRAME_LEN};
use wsprcard_tests::reference::message::WORDS;
use wsprcard_tests::reference::repair::{live_count, LARGEST_BUDGET};
use wsprcard_tests::rng::Rng;

type Frame = [u8; FRAME_LEN];

/// From this budget on limit 4 gives every word with at most four flips back: a clean frame's live
/// count at limit 8.
const ENOUGH_AT_LIMIT_4: u32 = CLEAN[8] as u32;

/// In so many ways the lightest word can be shifted and stays within 50 bits.
const SHIFTS: u64 = 32;

/// A frame as it comes in: the sent word's, with some of its data bits and sync bits turned over.
#[derive(Debug)]
struct Received {
    sent: u64,
    flips: u32,
    /// The word at the least distance towards which the flips were made, if they were.
    towards: Option<u64>,
    sync_wrong: u32,
    frame: Frame,
}

impl Received {
    /// With the data bits flipped at these places. In one frame of four the sync bits are garbage.
    fn with_flips_at(rng: &mut Rng, sent: u64, places: &[usize]) -> Received {
        let mut frame = flipped(frame_of(sent), places);
        let sync_wrong = if rng.below(4) == 0 { rng.below(FRAME_LEN as u64 + 1) } else { 0 };
        spoil_sync(rng, &mut frame, sync_wrong as usize);
        let (flips, sync_wrong) = (places.len() as u32, sync_wrong as u32);
        Received { sent, flips, towards: None, sync_wrong, frame }
    }

    /// With so many flips among the data bits in which the frame of another word differs; once they
    /// are all flipped, others are.
    fn with_flips_towards(rng: &mut Rng, sent: u64, other: u64, flips: u32) -> Received {
        let differing = differing_places(&frame_of(sent), &frame_of(other));
        assert_eq!(differing.len() as u32, LEAST_DISTANCE, "{sent:#x} {other:#x}");
        let all = random_places(rng, FRAME_LEN).into_iter();
        let (first, others): (Vec<_>, Vec<_>) = all.partition(|place| differing.contains(place));
        let places = [first, others].concat();
        let received = Received::with_flips_at(rng, sent, &places[..flips as usize]);
        Received { towards: Some(other), ..received }
    }

    /// The answer that gives this word, with this live count.
    fn given(&self, word: u64, live: u32, limit: u32) -> card::Repaired {
        let disagreements = differing_places(&self.frame, &frame_of(word)).len() as u32;
        let margin = margin(limit, disagreements);
        let sync_wrong = self.sync_wrong;
        card::Repaired { refusal: 0, place: 0, word, disagreements, live, sync_wrong, margin }
    }

    /// The largest live count that is promised: a clean frame's at the limit and the flips
    /// together, or at twice the limit, whatever the flips.
    fn most_live(&self, limit: u32) -> u64 {
        let clean_limit = limit + limit.min(self.flips);
        CLEAN.get(clean_limit as usize).copied().unwrap_or(u64::MAX)
    }

    /// Where the number of flips lies. The band is what is above the limit and, together with the
    /// limit, below the least distance. After its last number towards another word, that word is
    /// one flip away from being within the limit.
    fn kind(&self, limit: u32) -> &'static str {
        let last = LEAST_DISTANCE - 1 - limit;
        match self.flips {
            flips if flips <= limit => "within the limit",
            flips if flips == limit + 1 => "first of the band",
            flips if flips < last => "in the band",
            flips if flips == last && self.towards.is_some() => "last of the band, towards a word",
            flips if flips == last => "last of the band",
            flips if flips == last + 1 => "first beyond",
            _ => "beyond",
        }
    }

    /// Holds an answer to what is promised whatever the live count is. The sent word comes only
    /// from flips within the limit, or `margin` panics. Another word takes more flips than it has
    /// disagreements, and 28 of both together: within the limit and in the band they are fewer. 17
    /// takes more flips than the limit, and 16 a budget below the largest live count that is
    /// promised. There is no other refusal: 18 never.
    fn hold(&self, limit: u32, budget: u32, found: card::Repaired) {
        let is_right = match found.refusal {
            0 => {
                let is_sent = found.word == self.sent && found.disagreements == self.flips;
                let is_other = found.word != self.sent
                    && found.disagreements < self.flips
                    && found.disagreements + self.flips >= LEAST_DISTANCE;
                let live = CLEAN[0]..=self.most_live(limit).min(budget.into());
                found == self.given(found.word, found.live, limit)
                    && (is_sent || is_other)
                    && live.contains(&found.live.into())
            }
            16 => found == refused(16, 0) && self.most_live(limit) > budget.into(),
            17 => found == refused(17, 0) && self.flips > limit,
            _ => false,
        };
        assert!(is_right, "limit {limit}, budget {budget}: {found:?} of {self:?}");
    }
}

// A million frames

const FRAMES_WITHIN: u64 = 400_000;
const FRAMES_IN_BAND: u64 = 400_000;
const FRAMES_BEYOND: u64 = 200_000;
const _: () = assert!(FRAMES_WITHIN + FRAMES_IN_BAND + FRAMES_BEYOND == 1_000_000);

/// Of a thousand frames, how many are repaired at each limit from 0 to 12. The time grows with the
/// live count, more than twofold from one limit to the next, so high limits are drawn less often.
const DRAWN: [u64; 13] = [156, 156, 156, 156, 156, 100, 60, 30, 16, 8, 3, 2, 1];

/// Up to this limit the answer is held to that with the largest budget, too.
const CHEAP_LIMIT: u32 = 8;

/// Holds the answers to what is promised, and counts what was seen.
struct Check {
    rng: Rng,
    counts: Counts,
    frames_at: [u64; 13],
    frames_with_wrong_sync: u64,
    /// The limits, each with the numbers of flips of its frames.
    flips_at: BTreeSet<(u32, u32)>,
    /// The limits, each with the refusal numbers that were answered at it, 0 for a word.
    refusals_at: BTreeSet<(u32, u32)>,
}

impl Check {
    fn new(seed: u64) -> Check {
        let (flips_at, refusals_at) = (BTreeSet::new(), BTreeSet::new());
        Check {
            rng: Rng::new(seed),
            counts: Counts::new(),
            frames_at: [0; 13],
            frames_with_wrong_sync: 0,
            flips_at,
            refusals_at,
        }
    }

    /// One frame of the million. The live count of one in four is taken from the independent
    /// implementation.
    fn hold_a_frame(&mut self, limit: u32, flips: u32) {
        let received = random_received(&mut self.rng, flips);
        self.frames_at[limit as usize] += 1;
        self.frames_with_wrong_sync += u64::from(received.sync_wrong > 0);
        self.flips_at.insert((limit, flips));
        if self.rng.below(4) == 0 {
            self.hold_around_the_live_count(&received, limit);
        } else {
            self.hold_at_some_budget(&received, limit);
        }
    }

    fn repair(&mut self, received: &Received, limit: u32, budget: u32) -> card::Repaired {
        let found = card::repair(&received.frame, limit, budget);
        received.hold(limit, budget, found);
        self.counts.count(received.kind(limit), found.refusal);
        self.refusals_at.insert((limit, found.refusal));
        found
    }

    /// With a budget of the live count and with one less: 16 exactly where the budget is below it.
    fn hold_around_the_live_count(&mut self, received: &Received, limit: u32) {
        let live = live_count(&received.frame, limit);
        for budget in [live, live.saturating_sub(1)] {
            let budget = budget.clamp(1, LARGEST_BUDGET.into()) as u32;
            let found = self.repair(received, limit, budget);
            let is_above = live > budget.into();
            assert_eq!(found.refusal == 16, is_above, "{live} {limit} {budget} {received:?}");
            let is_counted = live == found.live.into();
            assert!(found.refusal != 0 || is_counted, "{live} {found:?} {limit} {received:?}");
        }
    }

    /// With the largest budget, with that which is enough at limit 4, or with any up to a clean
    /// frame's live count. Unless it is 16 the answer is the same as with the largest, and where it
    /// is 16 and the largest gives a word, the live count is above the budget.
    fn hold_at_some_budget(&mut self, received: &Received, limit: u32) {
        let small = self.rng.between(1, CLEAN[limit as usize].min(LARGEST_BUDGET.into())) as u32;
        let budget = self.rng.pick(&[LARGEST_BUDGET, ENOUGH_AT_LIMIT_4, small]);
        let found = self.repair(received, limit, budget);
        if budget < LARGEST_BUDGET && limit <= CHEAP_LIMIT {
            let largest = self.repair(received, limit, LARGEST_BUDGET);
            let is_above = largest.refusal != 0 || largest.live > budget;
            let is_right = if found.refusal == 16 { is_above } else { found == largest };
            assert!(is_right, "{found:?} {largest:?} {limit} {budget} {received:?}");
        }
    }

    /// Holds the test to no fewer frames at any limit than half of what is to be drawn; to wrong
    /// sync bits in a fifth of them; to so many numbers of flips, at all limits together; to these
    /// refusal numbers, 0 for a word, at each of these limits; and to the kinds of answers that it
    /// is meant to get.
    fn finish(
        self,
        flips_at: usize,
        at_limits: &[(u32, RangeInclusive<u32>)],
        at_least: &[(&'static str, u32, u64)],
    ) {
        println!("{:?} {}", self.frames_at, self.frames_with_wrong_sync);
        println!("{} {:?}", self.flips_at.len(), self.refusals_at);
        let frames: u64 = self.frames_at.iter().sum();
        for (limit, (seen, drawn)) in iter::zip(self.frames_at, DRAWN).enumerate() {
            assert!(seen >= frames * drawn / 1_000 / 2, "{seen} frames at limit {limit}");
        }
        assert!(5 * self.frames_with_wrong_sync >= frames, "{}", self.frames_with_wrong_sync);
        assert!(self.flips_at.len() >= flips_at, "{:?}", self.flips_at);
        for (refusal, limits) in at_limits {
            let is_seen = |limit: u32| self.refusals_at.contains(&(limit, *refusal));
            assert!(limits.clone().all(is_seen), "{refusal} wasn't seen at each of {limits:?}");
        }
        self.counts.finish(at_least);
    }
}

/// A limit, each as often as is to be drawn.
fn random_limit(rng: &mut Rng) -> u32 {
    let mut left = rng.below(DRAWN.iter().sum());
    let mut limit = 0;
    while left >= DRAWN[limit] {
        left -= DRAWN[limit];
        limit += 1;
    }
    limit as u32
}

/// A random word's frame with so many flips: in two frames of three anywhere, in one towards
/// another word at the least distance, as no other is within the limit after fewer flips.
fn random_received(rng: &mut Rng, flips: u32) -> Received {
    let sent = random_word(rng);
    if rng.below(3) == 0 {
        let other = sent ^ LIGHTEST << rng.below(SHIFTS);
        Received::with_flips_towards(rng, sent, other, flips)
    } else {
        let places = random_places(rng, flips as usize);
        Received::with_flips_at(rng, sent, &places)
    }
}

/// As many flips as the limit or fewer: the sent word with the flips as its disagreements and what
/// they leave to limit + 1 as its margin, exactly where the live count is within the budget, and 16
/// where it isn't. Every number of flips within every limit is drawn. At limit 12 all are refused,
/// as no frame was found whose live count there is within the largest budget.
#[test]
fn flips_within_the_limit_give_the_sent_word() {
    let mut check = Check::new(1);
    for _ in 0..FRAMES_WITHIN {
        let limit = random_limit(&mut check.rng);
        let flips = check.rng.between(0, limit.into()) as u32;
        check.hold_a_frame(limit, flips);
    }
    let at_limits = [(0, 0..=11), (16, 0..=12)];
    let kinds = [("within the limit", 0, 400_000), ("within the limit", 16, 150_000)];
    let numbers_of_flips = (0..=12).map(|limit| limit + 1).sum();
    check.finish(numbers_of_flips, &at_limits, &kinds);
}

/// More flips than the limit, and fewer than 28 together with it: no word ever, but 17, or 16 where
/// the live count is above the budget. Every such number of flips is drawn. Two thirds of the
/// frames are at the ends of this band, where a limit or a least distance that is off by one shows:
/// one flip more than the limit, from which the sent word would come, and 27 flips less the limit,
/// from which another would.
#[test]
fn flips_in_the_band_above_the_limit_give_no_word() {
    let mut check = Check::new(2);
    for _ in 0..FRAMES_IN_BAND {
        let limit = random_limit(&mut check.rng);
        let (first, last) = (limit + 1, LEAST_DISTANCE - 1 - limit);
        let between = check.rng.between(first.into(), last.into()) as u32;
        let flips = check.rng.pick(&[first, between, last]);
        check.hold_a_frame(limit, flips);
    }
    let at_limits = [(17, 0..=11), (16, 0..=12)];
    let kinds = [
        ("first of the band", 16, 40_000),
        ("first of the band", 17, 150_000),
        ("in the band", 16, 30_000),
        ("in the band", 17, 150_000),
        ("last of the band", 16, 20_000),
        ("last of the band", 17, 100_000),
        ("last of the band, towards a word", 16, 10_000),
        ("last of the band, towards a word", 17, 50_000),
    ];
    let numbers_of_flips = (0..=12).map(|limit| 27 - 2 * limit).sum();
    check.finish(numbers_of_flips, &at_limits, &kinds);
}

/// 28 flips less the limit, a few more, and now and then any number up to all 162: another word may
/// come, but only such as has fewer disagreements than there are flips, and 28 or more together
/// with them. It does come where the flips were made towards it.
#[test]
fn flips_beyond_the_band_give_only_words_that_far_away() {
    let mut check = Check::new(3);
    for _ in 0..FRAMES_BEYOND {
        let limit = random_limit(&mut check.rng);
        let first = LEAST_DISTANCE - limit;
        let above = first + check.rng.between(1, 12) as u32;
        let any = check.rng.between(first.into(), FRAME_LEN as u64) as u32;
        let flips = check.rng.pick(&[first, first, above, above, any]);
        check.hold_a_frame(limit, flips);
    }
    let at_limits = [(0, 0..=11), (17, 0..=11), (16, 0..=12)];
    let kinds = [
        ("first beyond", 0, 20_000),
        ("first beyond", 16, 20_000),
        ("first beyond", 17, 60_000),
        ("beyond", 0, 10_000),
        ("beyond", 16, 25_000),
        ("beyond", 17, 120_000),
    ];
    check.finish(1_500, &at_limits, &kinds);
}

// Between two words at the least distance

/// The words that are found by shifting the lightest one, and whose frames have as few ones.
fn lightest_words() -> Vec<u64> {
    let shifted = (0..).map(|shift| LIGHTEST << shift).take_while(|&word| word < WORDS);
    let ones = |word: u64| differing_places(&frame_of(0), &frame_of(word)).len() as u32;
    shifted.filter(|&word| ones(word) == LEAST_DISTANCE).collect()
}

/// From a random word's frame to that of another at the least distance, by all numbers of flips
/// among the 28 data bits in which they differ, at limits 0 to 9. Up to the limit the sent word
/// comes back, from 28 flips less the limit on the other one comes, and between them none does. So
/// the band is as wide as is promised and no wider: at each of these limits its last number of
/// flips gives no word, and one flip more gives the wrong one.
#[test]
fn between_words_at_the_least_distance_the_band_ends_where_it_is_promised() {
    let mut rng = Rng::new(4);
    let words = lightest_words();
    assert_eq!(words.len() as u64, SHIFTS);
    let (mut no_word, mut wrong_word) = ([0; 10], [0; 10]);
    for lightest in words.repeat(2) {
        let sent = random_word(&mut rng);
        let other = sent ^ lightest;
        for flips in 0..=LEAST_DISTANCE {
            let received = Received::with_flips_towards(&mut rng, sent, other, flips);
            for limit in 0..=9 {
                let found = repaired_between(&received, other, limit);
                let is_last = flips == LEAST_DISTANCE - 1 - limit;
                let is_next = flips == LEAST_DISTANCE - limit;
                no_word[limit as usize] += u32::from(is_last && found.refusal == 17);
                wrong_word[limit as usize] += u32::from(is_next && found.word == other);
            }
        }
    }
    assert_eq!((no_word, wrong_word), ([64; 10], [64; 10]));
}

/// Repairs a frame whose flips are all towards another word at the least distance, with the largest
/// budget, and holds the answer to the nearer of the two words and to the live count of the
/// independent implementation.
fn repaired_between(received: &Received, other: u64, limit: u32) -> card::Repaired {
    let live = live_count(&received.frame, limit);
    let found = card::repair(&received.frame, limit, LARGEST_BUDGET);
    let expected = match received.flips {
        _ if live > LARGEST_BUDGET.into() => refused(16, 0),
        flips if flips <= limit => received.given(received.sent, live as u32, limit),
        flips if LEAST_DISTANCE - flips <= limit => received.given(other, live as u32, limit),
        _ => refused(17, 0),
    };
    assert_eq!(found, expected, "limit {limit}: {received:?}");
    found
}

// Four flips at limit 4

/// The largest live count at limit 4 that four flips leave. All the 27,646,920 sets of four data
/// bits were tried once, by the library and by the independent implementation; the word makes no
/// difference.
const MOST_LIVE_AFTER_FOUR: u32 = 598;

/// Flips these four data bits of a random word's frame; limit 4 and this budget have to give the
/// word back. Its live count.
fn live_after_four(rng: &mut Rng, four: &[usize], budget: u32) -> u32 {
    let sent = random_word(rng);
    let received = Received::with_flips_at(rng, sent, four);
    let found = card::repair(&received.frame, 4, budget);
    received.hold(4, budget, found);
    let answer = (found.refusal, found.word, found.disagreements, found.margin);
    assert_eq!(answer, (0, sent, 4, 1), "{four:?}, budget {budget}: {received:?}");
    assert!(found.live <= MOST_LIVE_AFTER_FOUR, "{four:?}: {found:?}");
    found.live
}

/// The places where one flip leaves the most prefixes live at limit 4, so many of them, by the
/// independent implementation. Those where it leaves as many as in a clean frame are left out: they
/// are 55 of the last coded bits.
fn worst_places(count: usize) -> Vec<usize> {
    let live = |place: usize| live_count(&flipped(frame_of(0), &[place]), 4);
    let mut worst: Vec<_> = (0..FRAME_LEN).map(|place| (live(place), place)).collect();
    worst.retain(|&(live, _)| live != CLEAN[4]);
    assert_eq!(worst.len(), FRAME_LEN - 55);
    worst.sort();
    worst.into_iter().rev().take(count).map(|(_, place)| place).collect()
}

fn sets_of_four(places: &[usize]) -> Vec<[usize; 4]> {
    let mut sets = vec![];
    for (before, &first) in places.iter().enumerate() {
        for (before, &second) in places[..before].iter().enumerate() {
            for (before, &third) in places[..before].iter().enumerate() {
                sets.extend(places[..before].iter().map(|&fourth| [first, second, third, fourth]));
            }
        }
    }
    sets
}

/// Every set of four among the 36 worst places, each in another random word's frame. The set that
/// leaves the most prefixes live leaves as many as the independent implementation counts; just so
/// large a budget gives the word, and one less is refused 16. The places are those of the middle
/// coded bits, from 71 to 106: earlier flips leave fewer prefixes live, and later ones change
/// little.
#[test]
fn every_four_flips_at_the_worst_places_are_repaired_at_limit_4() {
    let mut rng = Rng::new(5);
    let worst = worst_places(36);
    let middle: BTreeSet<usize> = places().skip(71).take(36).collect();
    assert_eq!(worst.iter().copied().collect::<BTreeSet<_>>(), middle);
    let sets = sets_of_four(&worst);
    assert_eq!(sets.len(), 58_905);
    let live = sets.iter().map(|four| (live_after_four(&mut rng, four, LARGEST_BUDGET), four));
    let (most, four) = live.max().expect("there are sets");
    println!("{most} at {four:?}");
    assert_eq!(most, MOST_LIVE_AFTER_FOUR);
    let frame = flipped(frame_of(random_word(&mut rng)), four);
    assert_eq!(live_count(&frame, 4), most.into());
    assert_eq!(live_after_four(&mut rng, four, most), most);
    assert_eq!(card::repair(&frame, 4, most - 1), refused(16, 0));
}

/// Every four data bits in a row, each row in 20 random words' frames: in the order in which they
/// are coded, where the search meets them one after the other, and in the order in which they are
/// sent, where a fade would hit them.
#[test]
fn four_flips_in_a_row_are_repaired_at_limit_4() {
    let mut rng = Rng::new(6);
    let orders: [Vec<usize>; 2] = [places().collect(), (0..FRAME_LEN).collect()];
    let rows: Vec<_> = orders.iter().flat_map(|order| order.windows(4)).collect();
    assert_eq!(rows.len(), 2 * 159);
    for four in rows.repeat(20) {
        live_after_four(&mut rng, four, ENOUGH_AT_LIMIT_4);
    }
}

/// A hundred thousand sets of four anywhere in a frame, with budgets from the least that is
/// promised to be enough to the largest.
#[test]
fn any_four_flips_are_repaired_at_limit_4() {
    let mut rng = Rng::new(7);
    for _ in 0..100_000 {
        let four = random_places(&mut rng, 4);
        let any = rng.between(ENOUGH_AT_LIMIT_4.into(), LARGEST_BUDGET.into()) as u32;
        let budget = rng.pick(&[ENOUGH_AT_LIMIT_4, any, LARGEST_BUDGET]);
        live_after_four(&mut rng, &four, budget);
    }
}
