// The program telemetry_lines, run as a child process: its whole output against that of the
// independent implementation, on legal, damaged and arbitrary lines.
use std::fs::File;
use std::io::Write;
use std::os::fd::OwnedFd;
use std::os::unix::net::UnixStream;
use std::time::{Duration, Instant};

use wsprcard_tests::child::{self, Ended, Program};
use wsprcard_tests::inputs::{random_message, recase};
use wsprcard_tests::lines::{damaged_message_line, joined, message_line, telemetry_line};
use wsprcard_tests::reference::lines as reference;
use wsprcard_tests::reference::message::Message;
use wsprcard_tests::reference::telemetry::{self, AS, BS};
use wsprcard_tests::rng::Rng;

/// The bench sheet's line, and its answer.
const LINE: &[u8] = b"QQ2XFT GP99 60";
const ANSWER: &str = "Q2 SK 12340 -15 4100 30 1\n";
const HEADER: &str = "CH GR ALT TEMP MV KT GPS\n";

fn program() -> Program {
    Program::new("target/bin/telemetry_lines", "make program", &[])
}

/// The program's whole output for this input.
fn run(input: &[u8]) -> Vec<u8> {
    output_of(program().run(input))
}

fn output_of(ended: Ended) -> Vec<u8> {
    assert!(ended.status.success(), "telemetry_lines ended with {}", ended.status);
    ended.stdout
}

/// The program's output as text, for outputs that are spelled out.
fn text_of(input: &[u8]) -> String {
    String::from_utf8_lossy(&run(input)).into_owned()
}

/// Holds the program's output to the reference's.
fn check(input: &[u8]) {
    assert_output(input, &run(input));
}

fn assert_output(input: &[u8], found: &[u8]) {
    child::assert_output(input, found, &reference::output(input), 1);
}

/// So many lines of random telemetry.
fn random_lines(rng: &mut Rng, count: usize) -> Vec<u8> {
    joined((0..count).map(|_| telemetry_line(rng)))
}

// The published values

const PUBLISHED: &str = "\
CH GR ALT TEMP MV KT GPS
Q2 SK 12340 -15 4100 30 1
refused 12 0
refused 11 0
";

#[test]
fn the_published_lines_are_answered() {
    let input = b"QQ2XFT GP99 60\n0Z0AAI RM31 33\n000AAA AA00 00\n";
    assert_eq!(text_of(input), PUBLISHED);
    assert_eq!(text_of(&input[..input.len() - 1]), PUBLISHED);
}

#[test]
fn the_published_lines_in_small_letters_are_answered() {
    let input = b"qq2xft gp99 60\n0z0aai rm31 33\n000aaa aa00 00\n";
    assert_eq!(text_of(input), PUBLISHED);
    assert_eq!(text_of(&input[..input.len() - 1]), PUBLISHED);
}

/// The answers are worked out by hand.
#[test]
fn lines_with_every_refusal_are_answered() {
    let answers = [
        ("000AAA AA00 03", "00 AA 0 -50 4000 0 0"),
        ("0Z0AAH RM31 33", "00 XX 21340 39 3950 82 1"),
        ("000aaa aa00 03", "00 AA 0 -50 4000 0 0"),
        ("0z0aah rm31 33", "00 XX 21340 39 3950 82 1"),
        ("qQ2xFt Gp99 60", "Q2 SK 12340 -15 4100 30 1"),
        ("QQ2XFT GP99 6", "refused 1 0"),
        ("QQ2XFT GP99 060", "refused 1 0"),
        ("QQ2XFT GP99 60 ", "refused 1 0"),
        (" QQ2XFT GP99 60", "refused 1 0"),
        ("QQ2XFT-GP99 60", "refused 1 0"),
        ("QQ2XFT GP99-60", "refused 1 0"),
        ("QQ2XFT GP99 6x", "refused 1 0"),
        ("qQ2XFT GP99 x0", "refused 1 0"),
        ("QQ2XFT\tGP99 60", "refused 1 0"),
        ("QQ2XFT GP99\t60", "refused 1 0"),
        ("qq2xft\tgp99\t60", "refused 1 0"),
        ("QQ2XFT GP99  3", "refused 1 0"),
        ("QQ2XFT GP99 +3", "refused 1 0"),
        ("", "refused 1 0"),
        ("{Q2XFT GP99 60", "refused 2 0"),
        ("\tQ2XFT GP99 60", "refused 2 0"),
        ("q`2xft gp99 60", "refused 2 1"),
        ("Q 2XFT GP99 60", "refused 2 1"),
        ("QQAXFT GP99 60", "refused 2 2"),
        ("qqaxft gp99 60", "refused 2 2"),
        ("QQ29FT GP99 60", "refused 2 3"),
        ("qq2x\tt gp99 60", "refused 2 4"),
        ("QQ2X9T GP99 60", "refused 2 4"),
        ("QQ2XF9 GP99 60", "refused 2 5"),
        ("QQ2XFT SP99 60", "refused 2 6"),
        ("QQ2XFT sp99 60", "refused 2 6"),
        ("QQ2XFT GS99 60", "refused 2 7"),
        ("qq2xft gz99 60", "refused 2 7"),
        ("QQ2XFT GPA9 60", "refused 2 8"),
        ("qq2xft gp9\t 60", "refused 2 9"),
        ("QQ2XFT GP9A 61", "refused 2 9"),
        ("QQ2XFT GP99 61", "refused 3 0"),
        ("2Q2XFT GP99 99", "refused 3 0"),
        ("2Q2 FT GP99 60", "refused 10 0"),
        ("QQ2 F  GP99 60", "refused 10 3"),
        ("k12xft gp99 60", "refused 10 0"),
        ("QQ2X   GP99 60", "refused 10 4"),
        ("qq2x   gp99 60", "refused 10 4"),
        ("QQ2XF  GP99 57", "refused 10 5"),
        ("0Z0AAI GP99 57", "refused 11 0"),
        ("0Z0AAH RM31 37", "refused 11 0"),
        ("0Z0AAI RM31 40", "refused 12 0"),
        ("0Z0AAH RM31 40", "refused 13 0"),
        ("0z0aah rm31 37", "refused 11 0"),
        ("0z0aai rm31 40", "refused 12 0"),
        ("0z0aah rm31 40", "refused 13 0"),
    ];
    let mut output = String::from(HEADER);
    for (line, answer) in answers {
        let whole = format!("{HEADER}{answer}\n");
        assert_eq!(text_of(&joined([line])), whole, "{line}");
        output += &format!("{answer}\n");
    }
    assert_eq!(text_of(&joined(answers.map(|(line, _)| line))), output);
}

// Where lines end

#[test]
fn no_input_gives_the_header_alone() {
    assert_eq!(text_of(b""), HEADER);
}

#[test]
fn empty_lines_are_refused() {
    for count in [1, 2, 3, 14, 15, 28, 4_095, 4_096, 4_097, 65_536, 100_000] {
        let expected = format!("{HEADER}{}", "refused 1 0\n".repeat(count));
        assert!(text_of(&vec![b'\n'; count]) == expected, "{count} newlines");
    }
}

#[test]
fn the_last_line_may_lack_its_newline() {
    for count in 1..=20 {
        let input = joined(vec![LINE; count]);
        let expected = format!("{HEADER}{}", ANSWER.repeat(count));
        assert_eq!(text_of(&input), expected, "{count} lines");
        assert_eq!(text_of(&input[..input.len() - 1]), expected, "{count} lines");
    }
}

/// Every arrangement of up to five parts: newlines, lines, and bytes too few for a line.
#[test]
fn every_arrangement_of_newlines_and_lines_is_answered() {
    let parts = [b"\n".as_slice(), LINE, b"QQ2XFT "];
    for count in 1..=5 {
        for arrangement in 0..3_usize.pow(count) {
            let part = |index| parts[arrangement / 3_usize.pow(index) % 3];
            check(&(0..count).map(part).collect::<Vec<_>>().concat());
        }
    }
}

/// Lines of every length 0 to 40, cut off or too long, between right ones and as the last.
#[test]
fn lines_of_every_length_are_answered() {
    for filling in [LINE, b" ", b"0", b"QQ2XFT GP99 60 "] {
        for len in 0..=40 {
            let line: Vec<u8> = filling.iter().copied().cycle().take(len).collect();
            let input = joined([LINE, &line, LINE, &line, &line]);
            check(&input);
            check(&input[..input.len() - 1]);
        }
    }
}

/// Among them lengths whose lowest 8 or 16 bits are those of a right line, which they start with.
#[test]
fn long_lines_are_refused_and_the_next_is_answered() {
    for len in [100, 270, 526, 4_096, 65_536, 65_550, 100_000, 131_086, 1_000_000] {
        for filling in [LINE, b"\0", b" "] {
            let long: Vec<u8> =
                LINE.iter().chain(filling.iter().cycle()).copied().take(len).collect();
            let alone = format!("{HEADER}refused 1 0\n");
            assert_eq!(text_of(&long), alone, "{len} bytes");
            let input = joined([LINE, &long, LINE]);
            let among = format!("{HEADER}{ANSWER}refused 1 0\n{ANSWER}");
            assert_eq!(text_of(&input), among, "{len} bytes");
        }
    }
}

/// A carriage return belongs to its line, and ends none.
#[test]
fn carriage_returns_belong_to_the_line() {
    let refused = |count| format!("{HEADER}{}", "refused 1 0\n".repeat(count));
    assert_eq!(text_of(b"QQ2XFT GP99 60\r\nQQ2XFT GP99 60\r\n"), refused(2));
    assert_eq!(text_of(b"QQ2XFT GP99 60\rQQ2XFT GP99 60\r"), refused(1));
    assert_eq!(text_of(b"\r\n\r\n\r\n"), refused(3));
    assert_eq!(text_of(b"\r"), refused(1));
    check(b"QQ2XFT GP99 6\r\nQQ2XFT\rGP99 60\n\rQ2XFT GP99 60\n\nQQ2XFT GP99 60\n\r");
}

/// Newlines and the bytes before them at every place around these multiples of powers of two,
/// where a program that reads by blocks begins the next one. The bytes before are right lines
/// or one long line, and right lines follow.
#[test]
fn newlines_around_powers_of_two_end_lines() {
    for boundary in [512, 1_024, 4_096, 8_192, 16_384, 32_768, 65_536, 131_072] {
        for newline in boundary - 16..=boundary + 16 {
            let lines = lines_up_to(newline);
            let long = joined([vec![b'Q'; newline]]);
            for start in [lines, long] {
                assert_eq!(start.iter().rposition(|&byte| byte == b'\n'), Some(newline));
                check(&[start, joined([LINE, LINE]), LINE.to_vec()].concat());
            }
        }
    }
}

/// A shorter line and then right ones, so that the last newline stands at this place.
fn lines_up_to(newline: usize) -> Vec<u8> {
    let len = newline + 1;
    let first = &LINE[..(len - 1) % 15];
    [joined([first]), joined(vec![LINE; (len - 1) / 15])].concat()
}

/// The input in pieces that end anywhere in a line.
#[test]
fn lines_are_answered_however_they_arrive() {
    let mut rng = Rng::new(1);
    let pause = Duration::from_micros(300);
    for (piece_len, count) in [
        (1, 40),
        (2, 40),
        (7, 200),
        (13, 300),
        (14, 300),
        (15, 300),
        (16, 300),
        (4_095, 30_000),
        (4_096, 30_000),
        (4_097, 30_000),
        (65_535, 70_000),
        (65_537, 70_000),
    ] {
        let mut input = joined((0..count).map(|turn| match turn % 4 {
            0 => damaged_message_line(&mut rng),
            _ => telemetry_line(&mut rng),
        }));
        input.extend_from_slice(LINE);
        let ended = program().run_in_pieces(&input, piece_len, pause);
        assert_output(&input, &output_of(ended));
    }
}

// What stands in a line

#[test]
fn every_byte_at_every_place_is_answered() {
    let mut rng = Rng::new(2);
    let mut lines = Vec::new();
    for place in 0..14 {
        for byte in 0..=255 {
            for turn in 0..6 {
                let mut line = if turn == 0 { LINE.to_vec() } else { telemetry_line(&mut rng) };
                if turn >= 3 {
                    recase(&mut rng, &mut line);
                }
                line[place] = byte;
                lines.push(line);
            }
        }
    }
    let input = joined(lines);
    check(&input);
    assert_answered_as_capitals(&input);
}

/// By the program alone: small letters are answered as their capitals are. No byte that isn't a
/// letter has another capital.
fn assert_answered_as_capitals(input: &[u8]) {
    child::assert_output(input, &run(input), &run(&input.to_ascii_uppercase()), 1);
}

/// Right lines, messages that aren't telemetry, and damaged lines, with tabs among them.
#[test]
fn lines_in_any_case_are_answered_as_in_capitals() {
    let mut rng = Rng::new(6);
    let lines: Vec<_> = (0..60_000)
        .map(|turn| {
            let mut line = match turn % 3 {
                0 => telemetry_line(&mut rng),
                1 => message_line(&random_message(&mut rng)),
                _ => damaged_message_line(&mut rng),
            };
            recase(&mut rng, &mut line);
            line
        })
        .collect();
    let input = joined(lines);
    check(&input);
    assert_answered_as_capitals(&input);
}

/// Every pair of bytes for the power, with telemetry before it that differs in parity.
#[test]
fn every_power_is_answered() {
    for start in [b"QQ2XFT GP99 ", b"QQ2XFT GP98 ", b"0Z0AAH RM31 "] {
        check(&joined(pairs().map(|pair| [start.as_slice(), &pair].concat())));
    }
}

/// Every pair of bytes for the separators.
#[test]
fn every_separator_is_answered() {
    check(&joined(pairs().map(|[first, second]| {
        let mut line = LINE.to_vec();
        line[6] = first;
        line[11] = second;
        line
    })));
}

fn pairs() -> impl Iterator<Item = [u8; 2]> {
    (0..=u16::MAX).map(u16::to_be_bytes)
}

#[test]
fn nul_bytes_are_refused() {
    let lines: Vec<Vec<u8>> = (0..=40).map(|len| vec![0; len]).collect();
    let mut input = joined(lines);
    for place in 0..14 {
        let mut line = LINE.to_vec();
        line[place] = 0;
        input.extend(joined([&line[..], LINE]));
    }
    input.extend_from_slice(b"QQ2XFT GP99 60\0");
    check(&input);
}

/// Every A, and with it every odd B at least twice: each number that can be printed is.
#[test]
fn every_reading_is_printed() {
    let lines = (0..AS).map(|a| {
        let callsign = telemetry::callsign_of(b"01Q"[a as usize % 3], b'0' + (a % 10) as u8, a);
        let (locator, power) = telemetry::locator_and_power_of((2 * a + 1) % BS);
        message_line(&Message { callsign, locator, power })
    });
    check(&joined(lines));
}

// Random and long inputs

/// Short inputs of any bytes, with few newlines or many.
#[test]
fn arbitrary_bytes_are_answered() {
    let mut rng = Rng::new(3);
    for turn in 0..400 {
        let len = rng.below(200) as usize;
        let mut input = rng.bytes(len);
        put_newlines(&mut rng, &mut input, 2 + turn % 30);
        check(&input);
    }
}

#[test]
fn many_arbitrary_bytes_are_answered() {
    let mut rng = Rng::new(4);
    for one_in in [2, 15, 100, 5_000, 200_000] {
        let mut input = rng.bytes(1 << 20);
        put_newlines(&mut rng, &mut input, one_in);
        check(&input);
    }
}

/// Puts a newline in the place of one byte in so many.
fn put_newlines(rng: &mut Rng, input: &mut [u8], one_in: u64) {
    for byte in input {
        if rng.below(one_in) == 0 {
            *byte = b'\n';
        }
    }
}

#[test]
fn long_inputs_are_answered() {
    let mut rng = Rng::new(5);
    check(&random_lines(&mut rng, 70_000));
    check(&joined((0..70_000).map(|_| damaged_message_line(&mut rng))));
    check(&joined((0..70_000).map(|_| message_line(&random_message(&mut rng)))));
}

/// 01's three lines over and over. The best of three runs counts, as other tests run beside
/// this one.
#[test]
#[cfg_attr(debug_assertions, ignore = "times the release build")]
fn a_mebibyte_takes_under_a_second() {
    let lines = [LINE, b"0Z0AAI RM31 33", b"000AAA AA00 00"];
    let input = joined(lines.into_iter().cycle().take((1 << 20) / 15 + 1));
    let times = (0..3).map(|_| {
        let start = Instant::now();
        let found = run(&input);
        let time = start.elapsed();
        assert_output(&input, &found);
        time
    });
    let best = times.min().unwrap();
    println!("{} bytes in {best:?}", input.len());
    assert!(best < Duration::from_secs(1), "{} bytes took {best:?}", input.len());
}

// Streams that fail

/// The program's whole output where its input comes from this stream.
fn text_from(stdin: OwnedFd) -> String {
    String::from_utf8_lossy(&output_of(program().run_from(stdin))).into_owned()
}

/// A read that fails is no end of a line: the rest of it may be to come.
#[test]
fn a_line_that_is_not_read_to_its_end_gets_no_answer() {
    for begun in [&b""[..], b"x", LINE] {
        let (mut sender, receiver) = UnixStream::pair().unwrap();
        receiver.set_nonblocking(true).unwrap();
        sender.write_all(&[LINE, b"\n", begun].concat()).unwrap();
        let output = text_from(receiver.into());
        assert_eq!(output, [HEADER, ANSWER].concat(), "begun: {}", begun.escape_ascii());
    }
}

/// At the end of the same stream the line is a line.
#[test]
fn a_line_at_the_end_of_a_stream_is_answered() {
    let (mut sender, receiver) = UnixStream::pair().unwrap();
    sender.write_all(LINE).unwrap();
    drop(sender);
    assert_eq!(text_from(receiver.into()), [HEADER, ANSWER].concat());
}

#[test]
fn an_input_that_can_not_be_read_gives_the_header_alone() {
    let directory = File::open(env!("CARGO_MANIFEST_DIR")).unwrap();
    assert_eq!(text_from(directory.into()), HEADER);
}

/// The input is one endless line: only what can't be written can end the program.
#[test]
fn the_program_ends_where_its_output_can_not_be_written() {
    let endless = File::open("/dev/zero").unwrap();
    let full = File::options().write(true).open("/dev/full").unwrap();
    child::end_of(program().start(endless, full));
}
