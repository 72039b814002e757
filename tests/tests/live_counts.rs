// The table of live counts by limit in README.md, the manual page, the help of `wsprcard repair`
// and the header, and what is said to follow from it and of one flipped data bit, held to counts of
// the independent implementation.
use std::fs;

use wsprcard_tests::child::{in_repository, Program};
use wsprcard_tests::facts::LEAST_DISTANCE;
use wsprcard_tests::inputs::flipped;
use wsprcard_tests::reference::frame::{frame_of, FRAME_LEN};
use wsprcard_tests::reference::repair::{live_count, LARGEST_BUDGET};
use wsprcard_tests::rng::Rng;

const LIMITS: std::ops::RangeInclusive<u64> = 0..=12;

/// The places that have the table, and their text.
fn texts() -> Vec<(&'static str, String)> {
    let mut texts = ["README.md", "host/wsprcard.1", "include/wsprcard.h"]
        .map(|path| (path, fs::read_to_string(in_repository(path)).unwrap()))
        .to_vec();
    let help = Program::new("build/wsprcard", "make", &["repair", "--help"]).run(b"").stdout;
    texts.push(("wsprcard repair --help", String::from_utf8(help).unwrap()));
    texts
}

/// The live counts of a clean frame, the same for any word's.
fn clean_counts() -> Vec<u64> {
    let word = Rng::new(1).below(1 << 50);
    let [of_zero, of_word] = [0, word]
        .map(|word| LIMITS.map(|limit| live_count(&frame_of(word), limit as u32)).collect());
    assert_eq!(of_zero, of_word, "{word:#x}");
    of_zero
}

/// The numbers of a line, with commas between their thousands or without.
fn numbers_in(line: &str) -> Vec<u64> {
    line.replace(',', "").split(|c: char| !c.is_ascii_digit()).flat_map(str::parse).collect()
}

/// Each text has one table: a row of the limits, and in the next row with numbers the counts.
#[test]
fn the_tables_hold_the_counts_of_clean_frames() {
    let limits: Vec<u64> = LIMITS.collect();
    let counts = clean_counts();
    for (name, text) in texts() {
        let rows: Vec<_> = text.lines().map(numbers_in).filter(|row| !row.is_empty()).collect();
        let tables = rows.windows(2).filter(|pair| pair[0] == limits).map(|pair| &pair[1]);
        assert_eq!(tables.collect::<Vec<_>>(), [&counts], "{name}");
    }
}

/// The text in one line, without the asterisks of a comment and without commas in numbers.
fn in_one_line(text: &str) -> String {
    let words = text.split_whitespace().filter(|&word| word != "*");
    words.collect::<Vec<_>>().join(" ").replace("65,536", "65536").replace("17,851", "17851")
}

/// How far the largest budget reaches, and what two limits take.
#[test]
fn the_texts_say_what_follows_from_the_counts() {
    let counts = clean_counts();
    let last = counts.iter().rposition(|&count| count <= u64::from(LARGEST_BUDGET)).unwrap();
    let said = format!(
        "A budget below the live count refuses even a clean frame (16): with a budget of \
         {LARGEST_BUDGET}, the largest, a clean frame is answered at limits up to {last}, and at \
         limits {} to 12 with none. So use limits up to {last}. No frame, whatever was received, \
         has a live count above that of a clean frame at twice the limit: so a budget of {} is \
         enough for every frame at limit 2, and one of {} at limit 4. This is proved; at limits \
         from 5 on no budget is proved to be enough for every frame.",
        last + 1,
        counts[2 * 2],
        counts[2 * 4]
    );
    for (name, text) in texts() {
        assert!(in_one_line(&text).contains(&said), "{name} doesn't say: {said}");
    }
}

/// What is said at the desk of the usual limit.
#[test]
fn the_texts_say_how_many_flips_a_wrong_word_takes() {
    let (least, limit) = (LEAST_DISTANCE, 4);
    let said = format!(
        "The frames of two words differ in at least {least} data bits. So at limit {limit} and \
         budget {LARGEST_BUDGET}, as they are unless given, a word comes back where at most \
         {limit} data bits of its frame were flipped, and no word is given where {} to {} were \
         (17). A word that isn't the one that was sent takes at least {least} flipped data bits \
         less the limit: {} at limit {limit}, and {} at limit 2. This is proved for every word.",
        limit + 1,
        least - limit - 1,
        least - limit,
        least - 2
    );
    let saying = texts().into_iter().filter(|(_, text)| in_one_line(text).contains(&said));
    let names: Vec<_> = saying.map(|(name, _)| name).collect();
    assert_eq!(names, ["host/wsprcard.1", "wsprcard repair --help"], "{said}");
}

/// The one place where a flipped data bit leaves the most prefixes live at limit 2 is named, too.
#[test]
fn the_texts_say_which_budgets_are_enough_at_limit_2() {
    let clean = clean_counts()[2];
    let counts: Vec<u64> =
        (0..FRAME_LEN).map(|place| live_count(&flipped(frame_of(0), &[place]), 2)).collect();
    let most = *counts.iter().max().unwrap();
    let there: Vec<usize> = (0..FRAME_LEN).filter(|&place| counts[place] == most).collect();
    let [place] = there[..] else { panic!("{most} at {there:?}") };
    let said = format!(
        "At limit 2 the live count of a clean frame is {clean}, and that of a frame with one \
         flipped data bit at most {most}, reached exactly where the data bit of symbol {place}, \
         counted from 0, is the flipped one. So a budget of {clean} always gives the word of a \
         clean frame back, and one of {most} that of a frame with one flipped data bit, too. This \
         is proved for every word."
    );
    for (name, text) in texts() {
        assert!(in_one_line(&text).contains(&said), "{name} doesn't say: {said}");
    }
}
