// The chance that random symbols are accepted: the counts behind the tables of docs/GUARANTEES.md,
// the rule on codes small enough to try every pattern, and noise through the library.
use std::fs;
use std::path::Path;

use wsprcard_tests::card;
use wsprcard_tests::facts::{CLEAN, LEAST_DISTANCE};
use wsprcard_tests::inputs::{flipped, noise, random_places, random_word};
use wsprcard_tests::reference::frame::frame_of;
use wsprcard_tests::reference::message::{CALLSIGNS, LOCATORS, POWERS};
use wsprcard_tests::reference::repair::{Code, LARGEST_BUDGET};
use wsprcard_tests::reference::telemetry::{AS, BS};
use wsprcard_tests::rng::Rng;

const FRAME_LEN: u128 = 162;
const WORD_BITS: u32 = 50;

/// Of so many things, how many choices there are of `chosen`.
fn choices(things: u128, chosen: u128) -> u128 {
    (0..chosen).fold(1, |count, i| count * (things - i) / (i + 1))
}

/// In how many ways at most `limit` of these bits are flipped.
fn flips(bits: u128, limit: u32) -> u128 {
    (0..=u128::from(limit)).map(|count| choices(bits, count)).sum()
}

/// The cells of the document's table rows that begin with these.
fn rows(first_cells: &[&str]) -> Vec<Vec<String>> {
    let path = Path::new(env!("CARGO_MANIFEST_DIR")).join("../docs/GUARANTEES.md");
    let document = fs::read_to_string(&path).expect("the document is there");
    let cells = |line: &str| -> Vec<String> {
        line.trim_matches('|').split('|').map(|cell| cell.trim().to_string()).collect()
    };
    let table = document.lines().filter(|line| line.starts_with('|')).map(cells);
    table.filter(|row| row.iter().zip(first_cells).all(|(cell, first)| cell == first)).collect()
}

/// With commas between the thousands, as the documents print numbers.
fn printed(number: u128) -> String {
    let digits = number.to_string();
    let groups: Vec<&[u8]> = digits.as_bytes().rchunks(3).rev().collect();
    groups.iter().map(|group| String::from_utf8_lossy(group)).collect::<Vec<_>>().join(",")
}

/// Frames differ in 28 data bits or more, so no pattern is within the limit of two words, and each
/// pattern within it of a word is that word and one choice of flips.
#[test]
fn the_table_of_limits_holds_the_counts_of_flips() {
    let data_patterns = FRAME_LEN as i32;
    for limit in 0..=12 {
        assert!(2 * limit < LEAST_DISTANCE);
        let count = flips(FRAME_LEN, limit);
        let chance = count as f64 * 2f64.powi(WORD_BITS as i32 - data_patterns);
        let row = vec![
            limit.to_string(),
            printed(count),
            format!("{} / 2^112", printed(count)),
            format!("{chance:.1e}"),
        ];
        assert_eq!(rows(&[&row[0], &row[1]]), [row], "limit {limit}");
    }
}

/// A frame within the limit of a word has at most the live count of a clean frame at the limit and
/// the flips together.
#[test]
fn up_to_limit_4_every_pattern_within_the_limit_is_within_the_largest_budget() {
    let most = |limit: u32| CLEAN[2 * limit as usize];
    let mut rng = Rng::new(0x0004_f11b);
    for limit in 0..=4 {
        assert!(most(limit) <= u64::from(LARGEST_BUDGET));
        for _ in 0..2_000 {
            let word = random_word(&mut rng);
            let flips = rng.between(0, u64::from(limit)) as usize;
            let frame = flipped(frame_of(word), &random_places(&mut rng, flips));
            let answer = card::repair(&frame, limit, LARGEST_BUDGET);
            assert_eq!((answer.refusal, answer.word), (0, word), "{frame:?} at limit {limit}");
            assert!(u64::from(answer.live) <= most(limit), "{frame:?}: {answer:?}");
        }
    }
    assert!(most(5) > u64::from(LARGEST_BUDGET));
    assert!(CLEAN[9] <= u64::from(LARGEST_BUDGET) && CLEAN[10] > u64::from(LARGEST_BUDGET));
}

#[test]
fn the_table_of_words_holds_the_counts_of_messages() {
    let channels = 3 * 10;
    let messages = u128::from(CALLSIGNS) * u128::from(LOCATORS) * POWERS.len() as u128;
    let basic = u128::from(AS) * u128::from(BS) / 2;
    let share = |count: u128| count as f64 / 2f64.powi(WORD_BITS as i32);
    for (what, count) in [
        ("a word", 1 << WORD_BITS),
        ("a message", messages),
        ("basic telemetry", channels * basic),
        ("basic telemetry of one channel", basic),
    ] {
        let row = vec![
            what.to_string(),
            printed(count),
            format!("{:.2e}", share(count)),
            format!("{:.1e}", count as f64 * 4f64.powi(-162)),
        ];
        assert_eq!(rows(&[what, &row[1]]), [row]);
    }
}

/// Every pattern of a code's coded bits that some word has alone as its nearest within the limit.
fn accepted(code: &Code, limit: u32) -> u128 {
    let bits = 2 * code.clocked_len();
    let pattern = |number: u32| -> Vec<u8> { (0..bits).map(|i| (number >> i & 1) as u8).collect() };
    (0..1 << bits).filter(|&number| code.nearest(&pattern(number), limit, u32::MAX).is_ok()).count()
        as u128
}

/// How many coded bits differ at least between two words.
fn least_distance(code: &Code) -> u32 {
    let zeros = vec![0; 2 * code.clocked_len()];
    let weight = |word| code.disagreements(&code.clocked(word), &zeros);
    (1..1 << code.word_bits).map(weight).min().expect("a code has two words")
}

/// The rule of the table, where every pattern can be tried: exact below half of the least distance,
/// and no more than that above.
#[test]
fn on_small_codes_the_accepted_patterns_are_words_times_flips() {
    let codes = [
        Code { word_bits: 3, register_bits: 3, masks: [0b111, 0b101], tail: 2 },
        Code { word_bits: 4, register_bits: 5, masks: [0o23, 0o35], tail: 4 },
        Code { word_bits: 6, register_bits: 3, masks: [0b111, 0b101], tail: 2 },
    ];
    let (mut exact, mut above) = (0, 0);
    for code in codes {
        let least = least_distance(&code);
        for limit in 0..=5 {
            let ways = flips(2 * code.clocked_len() as u128, limit) << code.word_bits;
            if 2 * limit < least {
                assert_eq!(accepted(&code, limit), ways, "{code:?} at limit {limit}");
                exact += 1;
            } else {
                assert!(accepted(&code, limit) < ways, "{code:?} at limit {limit}");
                above += 1;
            }
        }
    }
    assert!(exact >= 9 && above >= 6, "{exact} exact, {above} above");
}

/// What the table says in a run: of so many frames none is expected. At limits up to 4 the live
/// count of a clean frame at twice the limit is budget enough for noise, too.
#[test]
fn noise_is_refused() {
    let mut rng = Rng::new(0x0001_5e5e);
    for round in 0..300_000 {
        let frame = noise(&mut rng);
        assert_ne!(card::read_word(&frame).refusal, 0, "frame {round}: {frame:?}");
        let limit = rng.below(if round % 1_000 == 0 { 13 } else { 5 }) as u32;
        let (budget, expected) = match limit {
            0..=4 => (CLEAN[2 * limit as usize] as u32, &[17][..]),
            _ => (LARGEST_BUDGET, &[16, 17][..]),
        };
        let answer = card::repair(&frame, limit, budget);
        assert!(expected.contains(&answer.refusal), "frame {round}, limit {limit}: {answer:?}");
    }
}
