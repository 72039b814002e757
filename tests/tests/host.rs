// The host program, run as a child process: its output, summary and exit status against those of
// the independent implementation, on legal, damaged and arbitrary lines; its calls and streams;
// and the sample of frames that the repository carries for it.
use std::fs::{self, File};
use std::io::{self, BufRead, BufReader, Read, Write};
use std::os::unix::net::UnixStream;
use std::os::unix::process::ExitStatusExt;
use std::path::Path;
use std::process::{self, ChildStdout, Stdio};
use std::sync::mpsc::{self, Receiver};
use std::thread;
use std::time::Duration;

use wsprcard_tests::child::{assert_output, end_of, in_repository, Ended, Program};
use wsprcard_tests::counts::Counts;
use wsprcard_tests::facts::{margin, CLEAN};
use wsprcard_tests::inputs::{
    bad_word, flipped, noise, random_legal_word, random_message, random_places, random_telemetry,
    recase, resized, spoil_sync, spoil_telemetry,
};
use wsprcard_tests::json::{self, Value};
use wsprcard_tests::lines::{
    damaged, damaged_message_line, frame_line, joined, message_line, report_line, spaced,
    telemetry_line, typed_message, typed_report,
};
use wsprcard_tests::reference::frame::{frame_of, FRAME_LEN};
use wsprcard_tests::reference::host::{self as reference, Answer, Call, Command, Refused, Told};
use wsprcard_tests::reference::message::{self, Message, CALLSIGNS, LOCATORS};
use wsprcard_tests::reference::repair::live_count;
use wsprcard_tests::reference::telemetry::{self, Telemetry, ROOM_A, ROOM_B};
use wsprcard_tests::reference::Refusal;
use wsprcard_tests::rng::Rng;
use wsprcard_tests::vectors;

/// The calls of every command, with their defaults.
const COMMANDS: [&[&str]; 5] =
    [&["encode"], &["read"], &["repair"], &["telemetry"], &["telemetry", "--write"]];

/// The manual page's message, telemetry message and report.
const MESSAGE: &[u8] = b"K1ABC FN20 37";
const TELEMETRY: &[u8] = b"QQ2XFT GP99 60";
const REPORT: &[u8] = b"Q2 SK 12340 -15 4100 30 1";

/// The same message and telemetry message in small letters.
const SMALL_MESSAGE: &[u8] = b"k1abc fn20 37";
const SMALL_TELEMETRY: &[u8] = b"qq2xft gp99 60";

/// How long an answer may take while the input stays open.
const AT_ONCE: Duration = Duration::from_secs(10);

/// Answers that a test is meant to get: the command, the refusal's number or 0, and how often at
/// least.
type Seen = (&'static str, u32, u64);

fn wsprcard(arguments: &[&str]) -> Program {
    Program::new("build/wsprcard", "make", arguments)
}

fn call(arguments: &[&str]) -> Call {
    reference::call(arguments).unwrap_or_else(|| panic!("{arguments:?} is a wrong call"))
}

/// A line that the command answers.
fn right_line(arguments: &[&str]) -> Vec<u8> {
    match call(arguments).command {
        Command::Encode => MESSAGE.to_vec(),
        Command::Read | Command::Repair { .. } => frame_line(&frame_of(word_of_line(TELEMETRY))),
        Command::Telemetry => TELEMETRY.to_vec(),
        Command::WriteTelemetry => REPORT.to_vec(),
    }
}

/// Whether the command's lines are frames.
fn takes_frames(arguments: &[&str]) -> bool {
    matches!(call(arguments).command, Command::Read | Command::Repair { .. })
}

/// Whether the command's lines are messages.
fn takes_messages(arguments: &[&str]) -> bool {
    matches!(call(arguments).command, Command::Encode | Command::Telemetry)
}

/// The word of a message that is shown in 14 characters.
fn word_of_line(line: &[u8]) -> u64 {
    let power = str::from_utf8(&line[12..]).unwrap().parse().unwrap();
    message::pack(&line[..6], &line[7..11], power).unwrap()
}

// Holding the program to the reference

/// Holds the program to the reference, in plain text and in JSON.
fn check(arguments: &[&str], input: &[u8]) {
    check_counting(&mut Counts::new(), arguments, input);
}

/// The same, and counts the answers.
fn check_counting(counts: &mut Counts, arguments: &[&str], input: &[u8]) {
    assert_ended(arguments, input, &wsprcard(arguments).run(input));
    let with_json = [arguments, &["--json"]].concat();
    let ended = wsprcard(&with_json).run(input);
    assert_ended(&with_json, input, &ended);
    assert_json(counts, &call(&with_json), input, &ended.stdout);
}

fn assert_ended(arguments: &[&str], input: &[u8], ended: &Ended) {
    let expected = reference::run(&call(arguments), input);
    assert_output(input, &ended.stdout, &expected.stdout, 0);
    let summary = format!("{}\n", expected.summary);
    assert_eq!(String::from_utf8_lossy(&ended.stderr), summary, "{arguments:?}");
    assert_eq!(ended.status.code(), Some(expected.status), "{arguments:?}");
}

/// Holds the values in the program's JSON to the reference's answers, and counts the answers by
/// what the program says. A line like the one before it isn't read again.
fn assert_json(counts: &mut Counts, call: &Call, input: &[u8], stdout: &[u8]) {
    let mut previous: &[u8] = b"";
    let mut found = Value::Number(0);
    let lines = stdout.split_inclusive(|&byte| byte == b'\n');
    for (line, answer) in lines.zip(reference::answers(call, input)) {
        if line != previous {
            let text = line.strip_suffix(b"\n").expect("an answer ends in a newline");
            found = json::parse(text).unwrap_or_else(|left| {
                panic!("{left} bytes before the end: {}", text.escape_ascii())
            });
            assert_eq!(found, value_of(&answer));
            previous = line;
        }
        count(counts, call, &found);
    }
}

fn count(counts: &mut Counts, call: &Call, answer: &Value) {
    let name = match call.command {
        Command::Encode => "encode",
        Command::Read => "read",
        Command::Repair { .. } => "repair",
        Command::Telemetry => "telemetry",
        Command::WriteTelemetry => "telemetry --write",
    };
    counts.count(name, refusal_in(answer));
    for (key, name) in [("message", "repair: message"), ("telemetry", "repair: telemetry")] {
        if let Some(part) = answer.get(key) {
            counts.count(name, refusal_in(part));
        }
    }
}

/// The refusal's number, or 0.
fn refusal_in(answer: &Value) -> u32 {
    match answer.get("refusal") {
        Some(&Value::Number(number)) => number as u32,
        _ => 0,
    }
}

fn value_of(answer: &Result<Answer, Refused>) -> Value {
    match *answer {
        Err(refused) => refusal_value(refused),
        Ok(Answer::Message(message)) => object(message_members(&message)),
        Ok(Answer::Report(report)) => report_value(&report),
        Ok(Answer::Encoded(message, word, frame)) => {
            let mut members = message_members(&message);
            members.push(("word", text(format!("{word:013x}").as_bytes())));
            members.push(("frame", text(&frame_line(&frame))));
            object(members)
        }
        Ok(Answer::Repaired(repaired, told)) => {
            let mut members = vec![("word", text(format!("{:013x}", repaired.word).as_bytes()))];
            members.extend(told_members(told));
            members.push(("disagreements", number(repaired.disagreements)));
            members.push(("live", number(repaired.live)));
            members.push(("sync_wrong", number(repaired.sync_wrong)));
            members.push(("margin", number(repaired.margin)));
            object(members)
        }
    }
}

/// The message of a repaired word and the report in it, as far as there are any.
fn told_members(told: Told) -> Vec<(&'static str, Value)> {
    match told {
        Err(refused) => vec![("message", refusal_value(refused))],
        Ok((message, report)) => {
            let report = report.map(|report| report_value(&report));
            let report = report.unwrap_or_else(refusal_value);
            vec![("message", object(message_members(&message))), ("telemetry", report)]
        }
    }
}

fn message_members(message: &Message) -> Vec<(&'static str, Value)> {
    vec![
        ("callsign", text(&message.callsign)),
        ("locator", text(&message.locator)),
        ("power", number(message.power)),
    ]
}

fn report_value(report: &Telemetry) -> Value {
    object(vec![
        ("channel", text(&[report.first, report.third])),
        ("subsquare", text(&[report.grid5, report.grid6])),
        ("altitude", number(report.altitude)),
        ("temperature", number(report.temperature)),
        ("voltage", number(report.voltage)),
        ("speed", number(report.speed)),
        ("gps", number(report.gps)),
    ])
}

fn refusal_value(Refused { refusal, reason }: Refused) -> Value {
    object(vec![
        ("refusal", number(refusal.number)),
        ("place", number(refusal.place)),
        ("reason", text(reason.as_bytes())),
    ])
}

fn object(members: Vec<(&str, Value)>) -> Value {
    Value::Object(members.into_iter().map(|(key, value)| (key.to_string(), value)).collect())
}

fn text(characters: &[u8]) -> Value {
    Value::Text(String::from_utf8(characters.to_vec()).unwrap())
}

fn number(number: impl Into<i64>) -> Value {
    Value::Number(number.into())
}

/// The JSON reader would be of no use if it took anything.
#[test]
fn the_json_reader_is_strict() {
    let nested = br#"{"a":{"b":-1,"c":""},"d":"x y"}"#;
    let inner = object(vec![("b", number(-1)), ("c", text(b""))]);
    assert_eq!(json::parse(nested), Ok(object(vec![("a", inner), ("d", text(b"x y"))])));
    for len in 0..nested.len() {
        assert!(json::parse(&nested[..len]).is_err(), "{}", nested[..len].escape_ascii());
    }
    for wrong in [
        r#"{"a":1}}"#,
        r#"{"a":1} "#,
        r#" {"a":1}"#,
        r#"{"a": 1}"#,
        r#"{"a":1,}"#,
        r#"{"a":01}"#,
        r#"{"a":+1}"#,
        r#"{"a":-}"#,
        r#"{"a":1.0}"#,
        r#"{"a":1,"a":2}"#,
        r#"{a:1}"#,
        r#"{"a"}"#,
        r#"{"a":"\n"}"#,
        r#"{"a":null}"#,
        r#"{"a":[1]}"#,
        r#"{"a":1}{"a":1}"#,
        "{\"a\":\"\n\"}",
        r#"{"a":'1'}"#,
        r#"{"a" :1}"#,
        r#"{,"a":1}"#,
    ] {
        assert!(json::parse(wrong.as_bytes()).is_err(), "{wrong}");
    }
}

// The manual page

/// Its commands, each with the lines that it prints.
fn examples_of_the_manual_page() -> Vec<(String, String)> {
    let page = fs::read_to_string(in_repository("host/wsprcard.1")).unwrap().replace("\\-", "-");
    let (_, examples) = page.split_once(".SH EXAMPLES\n.nf\n$ ").unwrap();
    let (examples, _) = examples.split_once(".fi\n").unwrap();
    let example = |text: &str| {
        let (command, printed) = text.split_once('\n').unwrap();
        (command.to_string(), printed.trim_end_matches('\n').to_string() + "\n")
    };
    examples.split("\n$ ").map(example).collect()
}

#[test]
fn the_commands_of_the_manual_page_print_what_it_shows() {
    let examples = examples_of_the_manual_page();
    assert!(examples.len() >= 5, "{examples:?}");
    for (command, shown) in examples {
        let output = process::Command::new("sh")
            .args(["-c", &command])
            .env("PATH", format!("{}:/usr/bin:/bin", in_repository("build").display()))
            .output()
            .unwrap();
        assert_eq!(String::from_utf8(output.stdout).unwrap(), shown, "{command}");
    }
}

#[test]
fn the_examples_of_the_manual_page_hold() {
    for (arguments, line, answer) in [
        (COMMANDS[4], "Q2 SK 12340 -15 4100 30 1", "QQ2XFT GP99 60"),
        (COMMANDS[3], "QQ2XFT GP99 60", "Q2 SK 12340 -15 4100 30 1"),
        (COMMANDS[4], "Q2 SK 12340 -14.7 4149 31.9 1", "QQ2XFT GP99 60"),
        (
            &["telemetry", "--json"],
            "QQ2XFT GP99 60",
            r#"{"channel":"Q2","subsquare":"SK","altitude":12340,"temperature":-15,"voltage":4100,"speed":30,"gps":1}"#,
        ),
    ] {
        assert_answer(arguments, line.as_bytes(), answer);
    }
    let ended = wsprcard(&["encode", "--json"]).run(b"K1ABC FN20 37\n");
    let start =
        r#"{"callsign":" K1ABC","locator":"FN20","power":37,"word":"3dc308e2ce765","frame":"3302"#;
    assert!(ended.stdout.starts_with(start.as_bytes()), "{}", ended.stdout.escape_ascii());
}

/// Its JSON objects, in which three points stand for what is left out, and the lines that are
/// answered by them. The reference gives the answers; others hold the program to it.
#[test]
fn the_objects_of_the_manual_page_are_answers() {
    let page = fs::read_to_string(in_repository("host/wsprcard.1")).unwrap().replace("\\-", "-");
    let (_, section) = page.split_once(".SH JSON\n").unwrap();
    let objects = section.split(".nf\n").nth(1).and_then(|text| text.split(".fi").next()).unwrap();
    let frame = frame_of(word_of_line(b" K1ABC FN20 37"));
    let mut sync_wrong = frame;
    sync_wrong[5] ^= 1;
    let answered: [(&[&str], Vec<u8>); 5] = [
        (&["read", "--json"], frame_line(&frame)),
        (&["encode", "--json"], MESSAGE.to_vec()),
        (&["telemetry", "--json"], TELEMETRY.to_vec()),
        (&["repair", "--json"], frame_line(&flipped(frame, &[0, 1]))),
        (&["read", "--json"], frame_line(&sync_wrong)),
    ];
    assert_eq!(objects.lines().count(), answered.len(), "{objects}");
    for (object, (arguments, line)) in objects.lines().zip(answered) {
        let answer = reference::run(&call(arguments), &joined([line])).stdout;
        let answer = String::from_utf8(answer).unwrap();
        assert!(is_abridged(object, answer.trim_end()), "{object} isn't {answer}");
    }
}

/// Whether the text is this one, with one character or more in place of each three points.
fn is_abridged(shown: &str, text: &str) -> bool {
    let Some((start, rest)) = shown.split_once("...") else { return shown == text };
    text.strip_prefix(start)
        .is_some_and(|left| (1..=left.len()).any(|len| is_abridged(rest, &left[len..])))
}

/// What the second command prints of what the first one prints.
fn pipe(first: &[&str], second: &[&str], input: &[u8]) -> Vec<u8> {
    wsprcard(second).run(&wsprcard(first).run(input).stdout).stdout
}

/// Holds the answer to one line to this text.
fn assert_answer(arguments: &[&str], line: &[u8], answer: &str) {
    let ended = wsprcard(arguments).run(&joined([line]));
    let found = String::from_utf8_lossy(&ended.stdout);
    assert_eq!(found, format!("{answer}\n"), "{arguments:?} of {}", line.escape_ascii());
}

#[test]
fn the_summaries_of_the_manual_page_hold() {
    let telemetry = frame_of(word_of_line(TELEMETRY));
    let message = frame_of(word_of_line(b" K1ABC FN20 37"));
    let no_message = frame_of(0);
    let mut sync_wrong = message;
    sync_wrong[5] ^= 1;
    let no_word = flipped(message, &[9]);
    let far = flipped(message, &[9, 50, 77, 100, 150]);
    for (arguments, frames, summary, status) in [
        (COMMANDS[1], vec![], "wsprcard read: 0 lines, 0 answered, 0 refused", 0),
        (COMMANDS[1], vec![message; 2], "wsprcard read: 2 lines, 2 answered, 0 refused", 0),
        (
            COMMANDS[1],
            vec![message, no_word, telemetry, sync_wrong, message],
            "wsprcard read: 5 lines, 3 answered, 2 refused (8: 1, 9: 1)",
            1,
        ),
        (
            COMMANDS[2],
            vec![message, far, telemetry, no_message, no_word],
            "wsprcard repair: 5 lines, 4 answered, 1 refused (17: 1); 3 messages, 1 telemetry",
            1,
        ),
        (
            COMMANDS[2],
            vec![no_message, no_message],
            "wsprcard repair: 2 lines, 2 answered, 0 refused; 0 messages, 0 telemetry",
            0,
        ),
    ] {
        let ended = wsprcard(arguments).run(&joined(frames.iter().map(|frame| frame_line(frame))));
        assert_eq!(String::from_utf8_lossy(&ended.stderr), format!("{summary}\n"));
        assert_eq!(ended.status.code(), Some(status), "{summary}");
    }
}

/// The reference's reasons are those of the manual page's table: a number, a place where it tells
/// reasons apart, and at column 7 the reason. None has what separates the parts of a repair or
/// what would need an escape in JSON.
#[test]
fn the_reasons_are_those_of_the_manual_page() {
    let page = fs::read_to_string(in_repository("host/wsprcard.1")).unwrap().replace("\\-", "-");
    let section = page.split(".SH REFUSALS").nth(1).expect("the page has refusals");
    let table = section.split(".nf\n").nth(1).and_then(|table| table.split(".fi").next()).unwrap();
    let (wrong_forms, rows): (Vec<_>, Vec<_>) =
        table.lines().partition(|row| row.starts_with("1 ") || row.starts_with("  "));
    let [frame, message, report] = [COMMANDS[1], COMMANDS[0], COMMANDS[4]].map(|arguments| {
        reference::reason(call(arguments).command, &Refusal { number: 1, place: 0 })
    });
    let forms = [frame, message, report, reference::CUT_OFF];
    assert_eq!(wrong_forms.iter().map(|row| &row[7..]).collect::<Vec<_>>(), forms);
    assert_eq!(rows.len(), 32);
    assert!(!table.contains([';', '"', '\\']), "{table}");
    for row in rows {
        let number = row[..2].trim().parse().unwrap();
        let (reason, same_for) = row[7..].split_once(" (the same for ").unwrap_or((&row[7..], ""));
        let mut places = vec![row[3..6].trim().parse().unwrap_or(0)];
        places.extend(same_for.split([' ', ')']).filter_map(|place| place.parse::<u32>().ok()));
        for place in places {
            let told = reference::reason(Command::Read, &Refusal { number, place });
            assert_eq!(told, reason, "refused {number} {place}");
        }
    }
}

// Refused lines and their refusals, worked out by hand. They are all but 18, which no frame gets
// at a limit of 12 or less: two words would have to be within 24 data bits of each other.

const FORM: &str =
    "1 0: the line isn't a callsign of up to 6 characters, a locator of 4 and a power";

const REPORT_FORM: &str = "1 0: the line isn't a report of 7 fields";

const REFUSED_MESSAGES: &[(&str, &str)] = &[
    ("K1ABC FN20", FORM),
    ("K1ABCDE FN20 37", FORM),
    ("K1ABC FN2 37", FORM),
    ("K1ABC FN200 37", FORM),
    ("", FORM),
    ("!A1ABC FN20 37", "2 0: the callsign's character isn't 0 to 9, A to Z or a space"),
    ("A!1ABC FN20 37", "2 1: the callsign's character isn't 0 to 9 or A to Z"),
    ("k{ fn20 37", "2 1: the callsign's character isn't 0 to 9 or A to Z"),
    ("AA!ABC FN20 37", "2 2: the callsign's character isn't 0 to 9"),
    ("AA1!BC FN20 37", "2 3: the callsign's character isn't A to Z or a space"),
    ("AA1A!C FN20 37", "2 4: the callsign's character isn't A to Z or a space"),
    ("AA1AB! FN20 37", "2 5: the callsign's character isn't A to Z or a space"),
    ("k1ab` fn20 37", "2 5: the callsign's character isn't A to Z or a space"),
    ("AA1ABC SN20 37", "2 6: the locator's character isn't A to R"),
    ("aa1abc sn20 37", "2 6: the locator's character isn't A to R"),
    ("AA1ABC Fs20 37", "2 7: the locator's character isn't A to R"),
    ("aa1abc fna0 37", "2 8: the locator's character isn't 0 to 9"),
    ("AA1ABC FNA0 37", "2 8: the locator's character isn't 0 to 9"),
    ("AA1ABC FN2: 99", "2 9: the locator's character isn't 0 to 9"),
    ("AA1ABC FN20 38", "3 0: the power isn't one of the 19"),
    ("AA1ABC FN20 x", "3 0: the power isn't one of the 19"),
];

const REFUSED_TELEMETRY: &[(&str, &str)] = &[
    ("QQ2XFT GP99", FORM),
    ("!Q2XFT GP99 60", "2 0: the callsign's character isn't 0 to 9, A to Z or a space"),
    ("QQ2XFT GP99 61", "3 0: the power isn't one of the 19"),
    ("K1ABC FN20 37", "10 0: the first character isn't 0, 1 or Q"),
    ("k1abc fn20 37", "10 0: the first character isn't 0, 1 or Q"),
    ("QQ2 FT GP99 60", "10 3: a space stands where telemetry has a letter"),
    ("QQ2X T GP99 60", "10 4: a space stands where telemetry has a letter"),
    ("QQ2XF GP99 60", "10 5: a space stands where telemetry has a letter"),
    ("qq2xf gp99 60", "10 5: a space stands where telemetry has a letter"),
    ("000AAA AA00 00", "11 0: extended telemetry"),
    ("000aaa aa00 00", "11 0: extended telemetry"),
    ("0Z0AAI RM31 33", "12 0: the number of sub-square and altitude is 615168 or more"),
    ("0z0aai rm31 33", "12 0: the number of sub-square and altitude is 615168 or more"),
    ("0Z0AAH RM31 40", "13 0: the number of temperature, voltage, speed and GPS is 604800 or more"),
    ("0z0aah rm31 40", "13 0: the number of temperature, voltage, speed and GPS is 604800 or more"),
];

const REFUSED_REPORTS: &[(&str, &str)] = &[
    ("Q2 SK 12340 -15 4100 30", REPORT_FORM),
    ("Q2 SK 12340 -15 4100 30 1 1", REPORT_FORM),
    ("", REPORT_FORM),
    ("22 SK 0 0 3000 0 0", "14 0: the channel's first character isn't 0, 1 or Q"),
    ("Q SK 0 0 3000 0 0", "14 0: the channel's first character isn't 0, 1 or Q"),
    ("Q22 SK 0 0 3000 0 0", "14 0: the channel's first character isn't 0, 1 or Q"),
    ("q2 SK 0 0 3000 0 0", "14 0: the channel's first character isn't 0, 1 or Q"),
    ("QQ SK 0 0 3000 0 0", "14 1: the channel's third character isn't 0 to 9"),
    ("Q2 YK 0 0 3000 0 0", "14 2: the sub-square's first letter isn't A to X"),
    ("Q2 S 0 0 3000 0 0", "14 2: the sub-square's first letter isn't A to X"),
    ("Q2 SKX 0 0 3000 0 0", "14 2: the sub-square's first letter isn't A to X"),
    ("Q2 sk 0 0 3000 0 0", "14 2: the sub-square's first letter isn't A to X"),
    ("Q2 Sk 0 0 3000 0 0", "14 3: the sub-square's second letter isn't A to X"),
    ("Q2 SK 21360 0 3000 0 0", "14 4: the altitude isn't 0 to 21359 metres"),
    ("Q2 SK 0.0 0 3000 0 0", "14 4: the altitude isn't 0 to 21359 metres"),
    ("Q2 SK 0 40 3000 0 0", "14 5: the temperature isn't -50.0 to 39.9 degrees"),
    ("Q2 SK 0 -50.1 3000 0 0", "14 5: the temperature isn't -50.0 to 39.9 degrees"),
    ("Q2 SK 0 0 2999 0 0", "14 6: the voltage isn't 3000 to 4999 millivolts"),
    ("Q2 SK 0 0 3000 84 0", "14 7: the speed isn't 0 to 83.9 knots"),
    ("Q2 SK 0 0 3000 0 2", "14 8: GPS isn't 0 or 1"),
];

#[test]
fn every_reason_is_told() {
    for (arguments, refused) in [
        (COMMANDS[0], REFUSED_MESSAGES),
        (COMMANDS[3], REFUSED_TELEMETRY),
        (COMMANDS[4], REFUSED_REPORTS),
    ] {
        for (line, refused) in refused {
            assert_answer(arguments, line.as_bytes(), &format!("refused {refused}"));
        }
    }
}

const OVER_BUDGET: &str =
    "16 0: the live count is above the budget: try a larger one, up to 65536, or a smaller limit";

#[test]
fn every_reason_is_told_of_frames() {
    let frame = frame_of(word_of_line(TELEMETRY));
    let mut sync_wrong = frame;
    sync_wrong[161] ^= 1;
    let mut no_symbol = frame_line(&frame);
    no_symbol[77] = b'4';
    let right = frame_line(&frame);
    let far = frame_line(&flipped(frame, &[0, 50, 77, 100, 150]));
    for (arguments, line, refused) in [
        (&["read"][..], &right[..161], "1 0: a frame has 162 symbols"),
        (&["read"], &no_symbol, "7 77: the symbol isn't 0 to 3"),
        (&["read"], &frame_line(&sync_wrong), "8 161: the symbol's sync bit is wrong"),
        (&["read"], &far, "9 0: no word has this frame"),
        (&["repair"], b"", "1 0: a frame has 162 symbols"),
        (&["repair"], &no_symbol, "7 77: the symbol isn't 0 to 3"),
        (&["repair", "--limit", "13"], &right, "15 0: the limit isn't 0 to 12"),
        (&["repair", "--budget", "0"], &right, "15 1: the budget isn't 1 to 65536"),
        (&["repair", "--limit", "13", "--budget", "0"], &right, "15 0: the limit isn't 0 to 12"),
        (&["repair", "--limit", "13"], &no_symbol, "15 0: the limit isn't 0 to 12"),
        (&["repair", "--limit", "13"], &right[1..], "1 0: a frame has 162 symbols"),
        (&["repair", "--limit", "12"], &right, OVER_BUDGET),
        (&["repair", "--budget", "568"], &right, OVER_BUDGET),
        (&["repair"], &far, "17 0: no word is within the limit"),
    ] {
        assert_answer(arguments, line, &format!("refused {refused}"));
    }
}

/// Strict reading refuses them; a repair gives the word and tells why it is no message.
#[test]
fn words_that_are_no_messages_are_told() {
    for (word, reason) in [
        (CALLSIGNS << 22, "4 0: the callsign's number in the word is 262177560 or more"),
        (LOCATORS << 7, "5 0: the locator's number in the word is 32400 or more"),
        (0, "6 0: the power in the word isn't one of the 19: most often a type 2 or 3 message"),
    ] {
        let line = frame_line(&frame_of(word));
        assert_answer(&["read"], &line, &format!("refused {reason}"));
        let answer = format!(
            "word {word:013x}; message refused {reason}; disagreements 0; live 81; sync wrong 0; \
             margin 1"
        );
        assert_answer(&["repair", "--limit", "0"], &line, &answer);
    }
}

/// The live count of a clean frame at limit 0 is that of its own 81 prefixes, and its margin is 1:
/// no other word is within the limit.
#[test]
fn a_repair_tells_its_seven_parts() {
    let mut frame = frame_of(word_of_line(TELEMETRY));
    let at_zero = ["repair", "--limit", "0"];
    let word = word_of_line(TELEMETRY);
    let start = format!("word {word:013x}; message QQ2XFT GP99 60; telemetry ");
    let end = "disagreements 0; live 81; sync wrong 0; margin 1";
    let whole = format!("{start}Q2 SK 12340 -15 4100 30 1; {end}");
    assert_answer(&at_zero, &frame_line(&frame), &whole);
    for place in [1, 100, 161] {
        frame[place] ^= 1;
    }
    assert_answer(&at_zero, &frame_line(&frame), &whole.replace("wrong 0", "wrong 3"));
    let message = frame_line(&frame_of(word_of_line(b" K1ABC FN20 37")));
    let start = "word 3dc308e2ce765; message  K1ABC FN20 37; telemetry refused 10 0: the first \
                 character isn't 0, 1 or Q; ";
    assert_answer(&at_zero, &message, &format!("{start}{end}"));
    let object = r#"{"word":"3dc308e2ce765","message":{"callsign":" K1ABC","locator":"FN20","power":37},"telemetry":{"refusal":10,"place":0,"reason":"the first character isn't 0, 1 or Q"},"disagreements":0,"live":81,"sync_wrong":0,"margin":1}"#;
    assert_answer(&["repair", "--limit", "0", "--json"], &message, object);
}

// Where lines end

#[test]
fn no_input_is_no_line() {
    for arguments in COMMANDS {
        let ended = wsprcard(arguments).run(b"");
        assert!(ended.stdout.is_empty());
        assert_eq!(ended.status.code(), Some(0));
        check(arguments, b"");
    }
}

const SEEN_AT_ENDS: &[Seen] = &[
    ("encode", 0, 50),
    ("encode", 1, 50),
    ("encode", 2, 1),
    ("encode", 3, 5),
    ("read", 0, 50),
    ("read", 1, 50),
    ("repair", 0, 50),
    ("repair", 1, 50),
    ("repair: message", 0, 50),
    ("repair: telemetry", 0, 50),
    ("telemetry", 0, 50),
    ("telemetry", 1, 50),
    ("telemetry", 3, 5),
    ("telemetry --write", 0, 50),
    ("telemetry --write", 1, 50),
    ("telemetry --write", 14, 5),
];

/// What a message or a report is answered by where its newline is missing.
const CUT_OFF: &str = "refused 1 0: the line is cut off before its newline\n";

/// One carriage return goes with the end of its line; any other belongs to the line.
#[test]
fn lines_end_where_the_manual_page_says() {
    let mut counts = Counts::new();
    for arguments in COMMANDS {
        let right = right_line(arguments);
        let (start, rest) = right.split_at(right.len() / 2);
        let answers = |input: &[u8]| {
            let stdout = wsprcard(arguments).run(input).stdout;
            stdout.split_inclusive(|&byte| byte == b'\n').map(<[u8]>::to_vec).collect::<Vec<_>>()
        };
        let answer = answers(&joined([&right])).concat();
        assert!(!answer.starts_with(b"refused"), "{arguments:?}");
        let cut_off = if takes_frames(arguments) { &answer[..] } else { CUT_OFF.as_bytes() };
        assert_eq!(answers(&right), [cut_off]);
        let both = answers(&[&right, &b"\r\n"[..], &right, b"\r"].concat());
        assert_eq!(both, [&answer[..], cut_off]);
        for refused in [b"\r\r\n".as_slice(), b"\r\r", b"\0", b"\0\n", b"\r \n", b"\n\r"] {
            let input = [&right, refused].concat();
            let last = answers(&input).pop().unwrap();
            assert!(last.starts_with(b"refused"), "{arguments:?} {}", input.escape_ascii());
        }
        for between in ["\n", "\r\n", "\r", "\r\r\n", "\0", "\n\n", "\n\r\n", " \n ", "\t\n\x0b"] {
            for end in ["", "\n", "\r", "\r\n", " ", "\0"] {
                let parts: [&[u8]; 5] = [&right, between.as_bytes(), start, rest, end.as_bytes()];
                check_counting(&mut counts, arguments, &parts.concat());
                let split = [start, between.as_bytes(), rest, b"\n", &right, end.as_bytes()];
                check_counting(&mut counts, arguments, &split.concat());
            }
        }
    }
    counts.finish(SEEN_AT_ENDS);
}

/// A line that the command answers, in the forms in which people type it, with its end.
fn ended_line(rng: &mut Rng, arguments: &[&str]) -> Vec<u8> {
    let mut line = match call(arguments).command {
        Command::WriteTelemetry => {
            let report = random_telemetry(rng);
            let mut line = typed_report(rng, &report);
            line.insert(line.trim_ascii_end().len() - 1, b'0');
            line
        }
        Command::Encode if rng.coin() => {
            let message = random_message(rng);
            typed_message(rng, &message)
        }
        _ => telemetry_line(rng),
    };
    line.extend_from_slice(if rng.coin() { b"\n" } else { b"\r\n" });
    line
}

/// Every cut of a last line, behind a line that isn't cut. Those that would get another line's
/// answer if a newline stood there are counted: without any the test would show little.
#[test]
fn a_message_or_report_that_is_cut_off_is_never_answered() {
    let mut rng = Rng::new(14);
    for arguments in [COMMANDS[0], COMMANDS[3], COMMANDS[4]] {
        let mut would_mislead = 0;
        for _ in 0..80 {
            let line = ended_line(&mut rng, arguments);
            let whole = wsprcard(arguments).run(&line);
            assert_eq!(whole.status.code(), Some(0), "{}", line.escape_ascii());
            for len in 1..line.len() {
                let input = [&line, &line[..len]].concat();
                let ended = wsprcard(arguments).run(&input);
                let expected = [&whole.stdout, CUT_OFF.as_bytes()].concat();
                assert_output(&input, &ended.stdout, &expected, 0);
                assert_eq!(ended.status.code(), Some(1), "{}", input.escape_ascii());
                let told = reference::run(&call(arguments), &joined([&line[..len]]));
                would_mislead += u32::from(told.status == 0 && told.stdout != whole.stdout);
            }
        }
        assert!(would_mislead >= 10, "{arguments:?}: {would_mislead} cuts only");
    }
}

/// The same in JSON, and whatever the line holds, down to a single carriage return.
#[test]
fn a_line_that_is_cut_off_is_refused_whatever_it_holds() {
    let in_json = r#"{"refusal":1,"place":0,"reason":"the line is cut off before its newline"}"#;
    for arguments in [COMMANDS[0], COMMANDS[3], COMMANDS[4]] {
        let right = right_line(arguments);
        let long = [&right, &b" ".repeat(300)[..]].concat();
        for line in
            [&right[..], &long, b"0K0AAU AM36 3", b" ", b"\t", b"\r", b"x", b"\0", b"k!abc FN20 37"]
        {
            let ended = wsprcard(arguments).run(line);
            assert_eq!(String::from_utf8_lossy(&ended.stdout), CUT_OFF, "{arguments:?}");
            assert_eq!(ended.status.code(), Some(1), "{arguments:?}");
            let ended = wsprcard(&[arguments, &["--json"]].concat()).run(line);
            let found = String::from_utf8_lossy(&ended.stdout).into_owned();
            assert_eq!(found, format!("{in_json}\n"), "{arguments:?}");
        }
    }
}

/// Of a frame the length tells, and where only the newline is missing it is whole.
#[test]
fn a_frame_that_is_cut_off_is_refused_for_its_length() {
    for arguments in [COMMANDS[1], COMMANDS[2]] {
        let line = [&right_line(arguments), &b"\r\n"[..]].concat();
        let whole = wsprcard(arguments).run(&line);
        assert_eq!(whole.status.code(), Some(0), "{arguments:?}");
        for len in 1..line.len() {
            let ended = wsprcard(arguments).run(&line[..len]);
            let too_short: &[u8] = b"refused 1 0: a frame has 162 symbols\n";
            let expected = if len < FRAME_LEN { too_short } else { &whole.stdout };
            assert_output(&line, &ended.stdout, expected, 0);
        }
    }
}

/// Lines of these lengths that start like a right one, between right ones and as the last. Among
/// them are such whose lowest 8 or 16 bits are a frame's length or a message's.
#[test]
fn lines_of_all_lengths_are_answered() {
    let lengths = [
        0, 1, 13, 14, 15, 161, 162, 163, 255, 256, 257, 269, 418, 674, 1_000, 4_096, 65_549,
        65_698, 100_000,
    ];
    for arguments in COMMANDS {
        let right = right_line(arguments);
        let mut input = Vec::new();
        for len in lengths {
            for filling in [right.as_slice(), b" ", b"\0", b"0", b"3", b"\r"] {
                let start = right.iter().chain(filling.iter().cycle());
                let line: Vec<u8> = start.copied().take(len).collect();
                let filled: Vec<u8> = filling.iter().copied().cycle().take(len).collect();
                input.extend(joined([&right, &line, &filled, &right]));
            }
        }
        check(arguments, &input);
        check(arguments, &input[..input.len() - 1]);
        for len in lengths {
            check(arguments, &input[input.len() - 1 - len..input.len() - 1]);
        }
    }
}

/// Right lines that end around these multiples of powers of two, where a program that reads by
/// blocks begins the next one: the newline stands three places before, and so on to one behind.
#[test]
fn newlines_around_powers_of_two_end_lines() {
    for arguments in COMMANDS {
        let right = [&right_line(arguments), &b"\r\n"[..]].concat();
        for boundary in [256, 1_024, 4_096, 8_192, 16_384, 65_536] {
            let mut input = Vec::new();
            for turn in 0..5 {
                let newline = (turn + 1) * boundary + turn - 3;
                let filling = newline - input.len() - right.len();
                input.extend(joined([vec![b'x'; filling]]));
                input.extend_from_slice(&right);
                assert_eq!(input.len(), newline + 1);
            }
            assert_ended(arguments, &input, &wsprcard(arguments).run(&input));
        }
    }
}

/// The input in pieces that end anywhere in a line.
#[test]
fn lines_are_answered_however_they_arrive() {
    let mut rng = Rng::new(1);
    for arguments in COMMANDS {
        for (piece_len, count) in [(1, 3), (7, 20), (163, 40), (4_095, 200), (4_097, 200)] {
            let lines: Vec<_> = (0..count).map(|_| any_line(&mut rng, arguments)).collect();
            let mut input = joined(lines.iter().map(|line| [line.as_slice(), b"\r"].concat()));
            input.extend(right_line(arguments));
            let pause = Duration::from_micros(100);
            let ended = wsprcard(arguments).run_in_pieces(&input, piece_len, pause);
            assert_ended(arguments, &input, &ended);
        }
    }
}

// What stands in a line

const SEEN_OF_BYTES: &[Seen] = &[
    ("encode", 0, 100),
    ("encode", 1, 100),
    ("encode", 2, 1_000),
    ("encode", 3, 100),
    ("read", 0, 1),
    ("read", 1, 10),
    ("read", 7, 10_000),
    ("read", 8, 100),
    ("read", 9, 100),
    ("repair", 0, 500),
    ("repair", 1, 10),
    ("repair", 7, 10_000),
    ("repair: message", 0, 500),
    ("repair: telemetry", 0, 500),
    ("telemetry", 0, 50),
    ("telemetry", 1, 10),
    ("telemetry", 2, 1_000),
    ("telemetry", 3, 100),
    ("telemetry", 10, 10),
    ("telemetry", 11, 1),
    ("telemetry", 12, 1),
    ("telemetry", 13, 1),
    ("telemetry --write", 0, 50),
    ("telemetry --write", 1, 10),
    ("telemetry --write", 14, 1_000),
];

#[test]
fn every_byte_at_every_place_is_answered() {
    let mut counts = Counts::new();
    for arguments in COMMANDS {
        let frame = frame_line(&frame_of(word_of_line(TELEMETRY)));
        let lines: Vec<&[u8]> = match arguments {
            ["encode"] => {
                vec![MESSAGE, b" K1ABC FN20 37", TELEMETRY, SMALL_MESSAGE, SMALL_TELEMETRY]
            }
            ["telemetry"] => vec![TELEMETRY, SMALL_TELEMETRY, b"qq2xft\tgp99\t60"],
            ["telemetry", "--write"] => {
                vec![REPORT, b"02 AX 0 +0.9 3000 0.0 0", b"\tQ2\tSK 12340 \t-15 4100\t 30\t1\t"]
            }
            _ => vec![&frame],
        };
        let mut input = Vec::new();
        for line in lines {
            for place in 0..line.len() {
                for byte in 0..=255 {
                    let mut line = line.to_vec();
                    line[place] = byte;
                    input.extend(joined([line]));
                }
            }
        }
        check_counting(&mut counts, arguments, &input);
    }
    counts.finish(SEEN_OF_BYTES);
}

#[test]
fn the_vectors_of_wsjtx_are_answered() {
    let mut messages = Vec::new();
    let mut frames = Vec::new();
    for vector in vectors::wsjtx() {
        messages.extend(joined([message_line(&vector.message)]));
        frames.extend(joined([frame_line(&vector.frame)]));
    }
    assert_eq!(wsprcard(&["encode"]).run(&messages).stdout, frames);
    assert_eq!(wsprcard(&["read"]).run(&frames).stdout, messages);
    let words = vectors::wsjtx().into_iter().map(|vector| format!("word {:013x}; ", vector.word));
    let repaired = wsprcard(&["repair"]).run(&frames);
    assert_eq!(repaired.status.code(), Some(0));
    let lines = messages.split(|&byte| byte == b'\n').map(String::from_utf8_lossy);
    let starts = words.zip(lines).map(|(word, line)| format!("{word}message {line}; telemetry "));
    let repaired = String::from_utf8(repaired.stdout).unwrap();
    assert_eq!(repaired.lines().count(), 39);
    for (answer, start) in repaired.lines().zip(starts) {
        assert!(answer.starts_with(&start), "{answer}");
        assert!(answer.ends_with("; sync wrong 0; margin 5"), "{answer}");
    }
    for (arguments, input) in [("encode", &messages), ("telemetry", &messages), ("read", &frames)] {
        check(&[arguments], input);
    }
    check(&["repair"], &frames);
}

const SEEN_OF_CALLSIGNS: &[Seen] = &[
    ("encode", 0, 100),
    ("encode", 1, 1_000),
    ("encode", 2, 1_000),
    ("telemetry", 0, 3),
    ("telemetry", 1, 1_000),
    ("telemetry", 2, 1_000),
    ("telemetry", 10, 100),
];

/// Every callsign of one to seven characters, each a letter, a digit, a space, a small letter or a
/// tab, as far as the first and the last aren't spaces or tabs: those would be between fields.
#[test]
fn callsigns_of_every_shape_are_answered() {
    let mut rng = Rng::new(2);
    let mut lines = Vec::new();
    for len in 1..=7 {
        for shape in 0..5_usize.pow(len) {
            let character = |place| b"Q1 q\t"[shape / 5_usize.pow(place) % 5];
            let callsign: Vec<u8> = (0..len).map(character).collect();
            lines.push([&callsign, &b" GP99 60"[..]].concat());
            lines.push(spaced(&mut rng, &[&callsign, b"AA00", b"3"]));
        }
    }
    let mut counts = Counts::new();
    check_counting(&mut counts, &["encode"], &joined(&lines));
    check_counting(&mut counts, &["telemetry"], &joined(&lines));
    counts.finish(SEEN_OF_CALLSIGNS);
}

/// The shapes are worked out by hand.
#[test]
fn callsigns_are_put_into_their_field() {
    for (typed, field) in [
        ("K1ABC FN20 37", " K1ABC"),
        ("K1AB FN20 37", " K1AB "),
        ("K1A FN20 37", " K1A  "),
        ("K1 FN20 37", " K1   "),
        ("91 FN20 37", " 91   "),
        ("91A FN20 37", " 91A  "),
        ("K1 B FN20 37", " K1 B "),
        ("K1 BC FN20 37", " K1 BC"),
        ("K1  C FN20 37", " K1  C"),
        ("KA1 FN20 37", "KA1   "),
        ("K12 FN20 37", "K12   "),
        ("K12BC FN20 37", "K12BC "),
        ("KA1BC FN20 37", "KA1BC "),
        ("KA1 C FN20 37", "KA1 C "),
        ("KA1BCD FN20 37", "KA1BCD"),
        ("KA1  D FN20 37", "KA1  D"),
        ("   KA1     FN20    037   ", "KA1   "),
        ("  K1ABC   FN20 37  ", " K1ABC"),
        (" K1ABC FN20 37", " K1ABC"),
        (" K1    FN20 37", " K1   "),
        ("k1abc fn20 37", " K1ABC"),
        ("K1aBc Fn20 37", " K1ABC"),
        ("k1 b fn20 37", " K1 B "),
        ("ka1b fn20 37", "KA1B  "),
        (" \tK1ABC \t FN20\t37\t", " K1ABC"),
        ("\t\tka1bcd\tfn20\t\t037", "KA1BCD"),
        ("KA1\t FN20 37", "KA1   "),
    ] {
        let ended = wsprcard(&["encode", "--json"]).run(&joined([typed]));
        let found = String::from_utf8_lossy(&ended.stdout);
        let start = format!(r#"{{"callsign":"{field}","locator":"FN20","power":37,"#);
        assert!(found.starts_with(&start), "{typed}: {found}");
    }
    for typed in [
        "K1A  BC FN20 37",
        "KA1ABCD FN20 37",
        "K   1AB FN20 37",
        "FN20 37",
        "K1ABCFN20 37",
        "\tFN20\t37",
    ] {
        let stdout = wsprcard(&["encode"]).run(&joined([typed])).stdout;
        assert!(stdout.starts_with(b"refused 1 0: the line"), "{typed}");
    }
}

// Small letters and tabs

/// What WSJT-X prints for the manual page's message: its frame.
fn frame_of_wsjtx() -> String {
    let message = Message { callsign: *b" K1ABC", locator: *b"FN20", power: 37 };
    let vector = vectors::wsjtx().into_iter().find(|vector| vector.message == message).unwrap();
    String::from_utf8(frame_line(&vector.frame)).unwrap()
}

/// Lines that are the manual page's message, telemetry message and report, but for small letters
/// and tabs. The answers are those that the page shows, and the frame is that of WSJT-X.
#[test]
fn small_letters_and_tabs_between_fields_are_taken() {
    let frame = frame_of_wsjtx();
    let in_json = format!(
        r#"{{"callsign":" K1ABC","locator":"FN20","power":37,"word":"3dc308e2ce765","frame":"{frame}"}}"#
    );
    for line in [
        "k1abc fn20 37",
        "k1abc FN20 37",
        "K1ABC fn20 37",
        "K1aBc fN20 37",
        "K1ABC\tFN20\t37",
        " \tK1ABC \t FN20\t37\t",
        "\t\tk1abc\t\tfn20\t\t37\t\t",
        "\tk1abc fn20 037 \t\r",
    ] {
        assert_answer(&["encode"], line.as_bytes(), &frame);
        assert_answer(&["encode", "--json"], line.as_bytes(), &in_json);
    }
    let in_json = r#"{"channel":"Q2","subsquare":"SK","altitude":12340,"temperature":-15,"voltage":4100,"speed":30,"gps":1}"#;
    for line in [
        "qq2xft gp99 60",
        "qQ2XFT GP99 60",
        "QQ2xFt gP99 60",
        "qq2xft\tgp99\t60",
        "\t QQ2XFT\t \tGP99 60 \t",
    ] {
        assert_answer(&["telemetry"], line.as_bytes(), "Q2 SK 12340 -15 4100 30 1");
        assert_answer(&["telemetry", "--json"], line.as_bytes(), in_json);
    }
    let in_json = r#"{"callsign":"QQ2XFT","locator":"GP99","power":60}"#;
    for line in ["Q2\tSK\t12340\t-15\t4100\t30\t1", "\t Q2 \tSK\t 12340 -15.0\t\t4100 30 1 \t"] {
        assert_answer(&["telemetry", "--write"], line.as_bytes(), "QQ2XFT GP99 60");
        assert_answer(&["telemetry", "--write", "--json"], line.as_bytes(), in_json);
    }
}

/// Tabs that aren't between fields, worked out by hand. The callsign is all before the locator, and
/// a tab in it is no space; its place is that in the field of six. In a report a tab ends a field.
#[test]
fn tabs_that_are_not_between_fields_are_refused() {
    for (arguments, line, refused) in [
        (COMMANDS[0], "K\t1ABC FN20 37", "2 1: the callsign's character isn't 0 to 9 or A to Z"),
        (COMMANDS[0], "K1\tABC FN20 37", "2 2: the callsign's character isn't 0 to 9"),
        (COMMANDS[0], "KA1\tBC FN20 37", "2 3: the callsign's character isn't A to Z or a space"),
        (COMMANDS[0], "k1a\tc fn20 37", "2 4: the callsign's character isn't A to Z or a space"),
        (COMMANDS[0], "KA1B\tC\tFN20\t37", "2 4: the callsign's character isn't A to Z or a space"),
        (COMMANDS[0], "K1ABC\tD FN20 37", FORM),
        (COMMANDS[0], "K1ABC FN\t20 37", FORM),
        (COMMANDS[0], "K1ABC FN20 3\t7", FORM),
        (COMMANDS[0], "\t", FORM),
        (COMMANDS[3], "q\t2xft gp99 60", "2 1: the callsign's character isn't 0 to 9 or A to Z"),
        (COMMANDS[3], "QQ2X\tT GP99 60", "2 4: the callsign's character isn't A to Z or a space"),
        (COMMANDS[4], "Q\t2 SK 12340 -15 4100 30 1", REPORT_FORM),
        (COMMANDS[4], "Q2 SK 123\t40 -15 4100 30 1", REPORT_FORM),
        (COMMANDS[4], "Q2\tSK\t12340\t-15\t4100\t30", REPORT_FORM),
        (COMMANDS[4], "\t", REPORT_FORM),
    ] {
        assert_answer(arguments, line.as_bytes(), &format!("refused {refused}"));
    }
}

/// A vertical tab, a form feed, a no-break space and a zero byte separate nothing.
#[test]
fn other_blanks_are_no_separators() {
    for blank in ["\u{b}", "\u{c}", "\u{a0}", "\0"] {
        for arguments in [COMMANDS[0], COMMANDS[3]] {
            let line = format!("KA1ABC{blank}FN20 37");
            assert_answer(arguments, line.as_bytes(), &format!("refused {FORM}"));
        }
        let line = format!("Q2{blank}SK 12340 -15 4100 30 1");
        assert_answer(COMMANDS[4], line.as_bytes(), &format!("refused {REPORT_FORM}"));
    }
}

#[test]
fn tabs_and_spaces_in_frames_are_no_symbols() {
    let right = frame_line(&frame_of(word_of_line(TELEMETRY)));
    for arguments in [COMMANDS[1], COMMANDS[2]] {
        for blank in [b' ', b'\t'] {
            for place in [0, 77, 161] {
                let mut line = right.clone();
                line[place] = blank;
                let refused = format!("refused 7 {place}: the symbol isn't 0 to 3");
                assert_answer(arguments, &line, &refused);
            }
            for line in [[&[blank], &right[..]].concat(), [&right[..], &[blank]].concat()] {
                assert_answer(arguments, &line, "refused 1 0: a frame has 162 symbols");
            }
        }
    }
}

/// Holds the program's answers to those that it gives to another input, in plain text and in JSON.
fn assert_answered_as(arguments: &[&str], input: &[u8], other: &[u8]) {
    for arguments in [arguments.to_vec(), [arguments, &["--json"]].concat()] {
        let [found, expected] = [input, other].map(|input| wsprcard(&arguments).run(input));
        assert_output(input, &found.stdout, &expected.stdout, 0);
        assert_eq!(found.stderr, expected.stderr, "{arguments:?}");
        assert_eq!(found.status.code(), expected.status.code(), "{arguments:?}");
    }
}

/// Right and refused lines, by the program alone.
#[test]
fn lines_in_any_case_are_answered_as_in_capitals() {
    let mut rng = Rng::new(15);
    for arguments in [COMMANDS[0], COMMANDS[3]] {
        let mut lines: Vec<_> = (0..6_000).map(|_| any_line(&mut rng, arguments)).collect();
        lines.iter_mut().for_each(|line| recase(&mut rng, line));
        let input = joined(lines);
        assert_answered_as(arguments, &input, &input.to_ascii_uppercase());
    }
}

/// Messages and reports as people type them, by the program alone. In none a tab stands in a
/// callsign: all are answered.
#[test]
fn tabs_between_fields_count_as_spaces() {
    let mut rng = Rng::new(16);
    for arguments in [COMMANDS[0], COMMANDS[3], COMMANDS[4]] {
        let typed = (0..4_000).map(|_| {
            let report = random_telemetry(&mut rng);
            let message = match arguments {
                ["encode"] => random_message(&mut rng),
                _ => telemetry::write(&report, 6, 4).unwrap(),
            };
            match arguments {
                ["telemetry", "--write"] => typed_report(&mut rng, &report),
                _ => typed_message(&mut rng, &message),
            }
        });
        let input = joined(typed);
        let spaces: Vec<u8> =
            input.iter().map(|&byte| if byte == b'\t' { b' ' } else { byte }).collect();
        assert!(input != spaces, "there are tabs");
        assert_answered_as(arguments, &input, &spaces);
        assert_eq!(wsprcard(arguments).run(&input).status.code(), Some(0), "{arguments:?}");
    }
}

const SEEN_OF_NUMBERS: &[Seen] = &[
    ("encode", 0, 20),
    ("encode", 1, 1),
    ("encode", 3, 1_000),
    ("telemetry --write", 0, 300),
    ("telemetry --write", 1, 1),
    ("telemetry --write", 14, 5_000),
];

/// Numbers as they stand in powers, reports and options. Every text of up to four of these
/// characters is among them, in every field.
#[test]
fn numbers_of_every_form_are_answered() {
    let mut texts: Vec<String> = vec![String::new()];
    for start in 0.. {
        if texts[start].len() == 4 {
            break;
        }
        let longer = ["0", "1", "3", "9", ".", "-", "+"].map(|end| texts[start].clone() + end);
        texts.extend(longer);
    }
    texts.extend(odd_numbers());
    let fields = [2, 3, 4, 5, 6];
    let mut reports = Vec::new();
    for text in &texts {
        for field in fields {
            let mut line: Vec<&str> = "Q2 SK 12340 -15 4100 30 1".split(' ').collect();
            line[field] = text;
            reports.extend(joined([line.join(" ")]));
        }
    }
    let mut counts = Counts::new();
    check_counting(&mut counts, &["telemetry", "--write"], &reports);
    let messages = joined(texts.iter().map(|text| format!("K1ABC FN20 {text}")));
    check_counting(&mut counts, &["encode"], &messages);
    counts.finish(SEEN_OF_NUMBERS);
}

const ODD_NUMBERS: &str = "
    -0.5 -0.9 -9.9 1.25 15. -50.0 -50.1 -50 -51 39.9 40.0 83.9 84.0 83.90 21359 21360 12340.0 3000
    2999 4999 5000 4100.0 0x1 1e1 1e0 0b1 1,5 1_0 +-1 --1 -+1 nan inf -inf 1.-5 1.+5 1.x -.5 +.5
    -5. 1f 1L 99999999999999999999 -99999999999999999999 99999999999999999999.9
    340282366920938463463374607431768211457";

/// Ends of ranges, numbers that wrap to good ones in 8, 16, 32 or 64 bits, forms that other readers
/// of numbers take, and tabs, which separate.
fn odd_numbers() -> Vec<String> {
    let mut numbers: Vec<String> = ODD_NUMBERS.split_whitespace().map(String::from).collect();
    let odd = ["30\t", "\t30", "3\t0", "30\u{b}", "\u{c}30", "3\0", "\u{661}"];
    numbers.extend(odd.map(String::from));
    for power in [8, 16, 31, 32, 63, 64_u32] {
        for good in [0, 1, 30, 37, 4_100] {
            let wrapped = (1_u128 << power) + good;
            numbers.push(wrapped.to_string());
            numbers.push(format!("-{wrapped}"));
            // Tenths that wrap: the number itself is a tenth of what it was.
            numbers.push(format!("{}.{}", wrapped / 10, wrapped % 10));
            numbers.push(format!("-{}.{}", wrapped / 10, wrapped % 10));
        }
    }
    for number in ["0", "1", "30", "37", "4100", "-15.3"] {
        let digits = number.trim_start_matches('-');
        let sign = &number[..number.len() - digits.len()];
        numbers.extend([1, 9, 20, 300].map(|count| format!("{sign}{}{digits}", "0".repeat(count))));
    }
    numbers
}

/// The readings are worked out by hand.
#[test]
fn readings_are_rounded_as_the_manual_page_says() {
    for (report, back) in [
        ("Q2 SK 12359 -14.1 4149 31.9 1", "Q2 SK 12340 -15 4100 30 1"),
        ("Q2 SK 12359 -15.1 4149 31.9 1", "Q2 SK 12340 -16 4100 30 1"),
        ("Q2 SK 00012340 -0015.0 04100 030 01", "Q2 SK 12340 -15 4100 30 1"),
        ("  Q2   SK  12340 -15 4100 30   1  ", "Q2 SK 12340 -15 4100 30 1"),
        ("00 AA 19 -0.5 3049 1.9 0", "00 AA 0 -1 3000 0 0"),
        ("00 AA 19 0.5 3049 1.9 0", "00 AA 0 0 3000 0 0"),
        ("00 AA 20 +3 3050 2.0 0", "00 AA 20 3 3050 2 0"),
        ("19 XX 21359 39.9 4999 83.9 1", "19 XX 21340 39 4950 82 1"),
        ("19 XX 0 -50.0 3000 0.0 0", "19 XX 0 -50 3000 0 0"),
        ("19 XX 0 -49.1 3000 0.0 0", "19 XX 0 -50 3000 0 0"),
        ("19 XX 0 -49.0 3000 0.0 0", "19 XX 0 -49 3000 0 0"),
        ("19 XX 0 +0.9 3000 0 0", "19 XX 0 0 3000 0 0"),
        ("19 XX 0 -0 3000 0 0", "19 XX 0 0 3000 0 0"),
    ] {
        let found = pipe(&["telemetry", "--write"], &["telemetry"], &joined([report]));
        assert_eq!(String::from_utf8_lossy(&found), format!("{back}\n"), "{report}");
    }
}

// Random lines

/// A line for this command: right, damaged, or of another kind.
fn any_line(rng: &mut Rng, arguments: &[&str]) -> Vec<u8> {
    let mut line = match call(arguments).command {
        Command::Encode => random_message_line(rng),
        Command::Telemetry if rng.coin() => random_message_line(rng),
        Command::Telemetry => random_u4b_line(rng),
        Command::Read | Command::Repair { .. } => random_frame_line(rng),
        Command::WriteTelemetry => random_report_line(rng),
    };
    if takes_messages(arguments) && rng.coin() {
        recase(rng, &mut line);
    }
    match rng.below(20) {
        0..=2 if !line.is_empty() => damaged(rng, line),
        3 => {
            let len = rng.below(200) as usize;
            rng.bytes(len)
        }
        _ => line,
    }
}

fn random_message_line(rng: &mut Rng) -> Vec<u8> {
    let message = random_message(rng);
    match rng.below(4) {
        0 => message_line(&message),
        1 => damaged_message_line(rng),
        2 => telemetry_line(rng),
        _ => typed_message(rng, &message),
    }
}

/// A message with a channel and any two numbers, basic telemetry or not.
fn random_u4b_line(rng: &mut Rng) -> Vec<u8> {
    let high = rng.below(4) == 0;
    let a = if high { rng.between(615_000, u64::from(ROOM_A) - 1) } else { rng.below(615_000) };
    let least = if rng.below(4) == 0 { 604_000 } else { 0 };
    let b = rng.between(least, u64::from(ROOM_B) - 1);
    let channel = [rng.pick(b"01Q"), rng.between(b'0'.into(), b'9'.into()) as u8];
    let callsign = telemetry::callsign_of(channel[0], channel[1], a as u32);
    let (locator, power) = telemetry::locator_and_power_of(b as u32);
    message_line(&Message { callsign, locator, power })
}

fn random_frame_line(rng: &mut Rng) -> Vec<u8> {
    let word = match rng.below(6) {
        0 => bad_word(rng, 4),
        1 => bad_word(rng, 5),
        2 => bad_word(rng, 6),
        3 => random_legal_word(rng),
        _ => word_of_line(&random_u4b_line(rng)),
    };
    let mut frame = frame_of(word);
    match rng.below(8) {
        0 | 1 => spoil_sync(rng, &mut frame, 3),
        2 | 3 => {
            let flips = rng.between(1, 3) as usize;
            let places = random_places(rng, flips);
            frame = flipped(frame, &places);
        }
        4 => frame = noise(rng),
        5 => frame[rng.below(FRAME_LEN as u64) as usize] = rng.between(4, 9) as u8,
        _ => (),
    }
    let len = if rng.below(20) == 0 { rng.below(330) as usize } else { FRAME_LEN };
    frame_line(&resized(rng, &frame, len))
}

fn random_report_line(rng: &mut Rng) -> Vec<u8> {
    let mut report = random_telemetry(rng);
    if rng.below(3) == 0 {
        let place = rng.between(4, 8) as usize;
        spoil_telemetry(rng, &mut report, place);
    }
    typed_report(rng, &report)
}

const SEEN_OF_RANDOM_LINES: &[Seen] = &[
    ("encode", 0, 2_000),
    ("encode", 1, 300),
    ("encode", 2, 300),
    ("encode", 3, 50),
    ("read", 0, 500),
    ("read", 1, 300),
    ("read", 4, 100),
    ("read", 5, 100),
    ("read", 6, 100),
    ("read", 7, 100),
    ("read", 8, 500),
    ("read", 9, 500),
    ("repair", 0, 2_000),
    ("repair", 1, 300),
    ("repair", 7, 100),
    ("repair", 17, 300),
    ("repair: message", 0, 1_000),
    ("repair: message", 4, 100),
    ("repair: message", 5, 100),
    ("repair: message", 6, 100),
    ("repair: telemetry", 0, 200),
    ("repair: telemetry", 10, 100),
    ("repair: telemetry", 11, 100),
    ("repair: telemetry", 12, 20),
    ("repair: telemetry", 13, 5),
    ("telemetry", 0, 1_000),
    ("telemetry", 1, 100),
    ("telemetry", 2, 100),
    ("telemetry", 3, 20),
    ("telemetry", 10, 300),
    ("telemetry", 11, 500),
    ("telemetry", 12, 50),
    ("telemetry", 13, 20),
    ("telemetry --write", 0, 2_000),
    ("telemetry --write", 1, 100),
    ("telemetry --write", 14, 1_000),
];

#[test]
fn random_lines_are_answered() {
    let mut rng = Rng::new(3);
    let mut counts = Counts::new();
    for arguments in COMMANDS {
        let lines: Vec<_> = (0..6_000).map(|_| any_line(&mut rng, arguments)).collect();
        check_counting(&mut counts, arguments, &joined(lines));
    }
    counts.finish(SEEN_OF_RANDOM_LINES);
}

/// Each command on the lines of the others.
#[test]
fn lines_of_other_commands_are_answered() {
    let mut rng = Rng::new(4);
    for arguments in COMMANDS {
        let lines = (0..500).map(|turn| any_line(&mut rng, COMMANDS[turn % 5]));
        check(arguments, &joined(lines));
    }
}

const MEGABYTE: usize = 1_000_000;

#[test]
fn a_megabyte_of_any_bytes_is_answered() {
    let mut rng = Rng::new(5);
    for arguments in COMMANDS {
        let input = rng.bytes(MEGABYTE);
        check(arguments, &input);
        let likely = b"0123 0123 0123 0123 0123 ABFNQ19abfnq.-\t\r\n\n";
        let input: Vec<u8> = (0..MEGABYTE).map(|_| rng.pick(likely)).collect();
        check(arguments, &input);
    }
}

#[test]
fn a_megabyte_without_a_newline_is_one_line() {
    let mut rng = Rng::new(6);
    for arguments in COMMANDS {
        let input: Vec<u8> = (0..MEGABYTE).map(|_| rng.byte().max(b'\n' + 1)).collect();
        check(arguments, &input);
        for byte in [b' ', b'0'] {
            check(arguments, &vec![byte; MEGABYTE]);
        }
    }
}

/// Through files, as a pipe would have to be emptied a million times.
#[test]
fn a_megabyte_of_newlines_is_a_million_lines() {
    let folder = Path::new(env!("CARGO_TARGET_TMPDIR"));
    let [given, printed] = ["newlines", "answers"].map(|name| folder.join(name));
    let input = vec![b'\n'; MEGABYTE];
    fs::write(&given, &input).unwrap();
    let run = |arguments: &[&str]| {
        let stdout = File::create(&printed).unwrap();
        let mut ended = end_of(wsprcard(arguments).start(File::open(&given).unwrap(), stdout));
        ended.stdout = fs::read(&printed).unwrap();
        assert_ended(arguments, &input, &ended);
        ended.stdout
    };
    let mut counts = Counts::new();
    for arguments in COMMANDS {
        run(arguments);
        let with_json = [arguments, &["--json"]].concat();
        assert_json(&mut counts, &call(&with_json), &input, &run(&with_json));
    }
    let names = ["encode", "read", "repair", "telemetry", "telemetry --write"];
    counts.finish(&names.map(|name| (name, 1, MEGABYTE as u64)));
}

// Round trips

#[test]
fn what_encode_writes_read_reads() {
    let mut rng = Rng::new(7);
    let messages = joined((0..5_000).map(|_| message_line(&random_message(&mut rng))));
    assert_output(&messages, &pipe(&["encode"], &["read"], &messages), &messages, 0);
    let frames = joined((0..5_000).map(|_| frame_line(&frame_of(random_legal_word(&mut rng)))));
    assert_output(&frames, &pipe(&["read"], &["encode"], &frames), &frames, 0);
}

#[test]
fn what_telemetry_writes_it_reads() {
    let mut rng = Rng::new(8);
    let messages = joined((0..5_000).map(|_| telemetry_line(&mut rng)));
    let reports = joined((0..5_000).map(|_| {
        let message = telemetry::write(&random_telemetry(&mut rng), 6, 4).unwrap();
        let report = telemetry::read(&message.callsign, &message.locator, message.power);
        report_line(&report.unwrap())
    }));
    let (write, read) = (&["telemetry", "--write"], &["telemetry"]);
    assert_output(&messages, &pipe(read, write, &messages), &messages, 0);
    assert_output(&reports, &pipe(write, read, &reports), &reports, 0);
}

/// Whichever four data bits of a message's frame are flipped, or fewer, the message comes back.
#[test]
fn four_flips_are_repaired() {
    let mut rng = Rng::new(9);
    let messages: Vec<Vec<u8>> = (0..1_000).map(|_| telemetry_line(&mut rng)).collect();
    let frames = joined(messages.iter().zip(0..).map(|(line, turn)| {
        let places = random_places(&mut rng, flips_of(turn));
        frame_line(&flipped(frame_of(word_of_line(line)), &places))
    }));
    let ended = wsprcard(&["repair"]).run(&frames);
    assert_eq!(ended.status.code(), Some(0));
    let stdout = String::from_utf8(ended.stdout).unwrap();
    assert_eq!(stdout.lines().count(), messages.len());
    for (turn, (answer, message)) in stdout.lines().zip(&messages).enumerate() {
        let part = format!("; message {}; telemetry ", String::from_utf8_lossy(message));
        assert!(answer.contains(&part), "{answer}");
        let flips = flips_of(turn);
        assert!(answer.contains(&format!("; disagreements {flips}; live ")), "{answer}");
        assert!(answer.ends_with(&format!("; sync wrong 0; margin {}", 5 - flips)), "{answer}");
    }
}

/// Every other frame has four flips, and the others one to three.
fn flips_of(turn: usize) -> usize {
    if turn % 2 == 0 {
        4
    } else {
        1 + turn / 2 % 3
    }
}

// Limits and budgets

/// Numbers around and far outside the ranges, with what some would be in 32 bits in the ranges.
const LIMITS: &str = "0 1 2 3 4 5 6 7 8 9 10 11 12 13 003 258 4294967295 4294967296 4294967298 \
                      99999999999999999999";
const BUDGETS: &str = "0 1 81 279 016000 65536 65537 131072 4294967295 4294967296 4294983296 \
                       18446744073709567616";

const SEEN_OF_LIMITS: &[Seen] = &[
    ("repair", 0, 100),
    ("repair", 1, 100),
    ("repair", 7, 50),
    ("repair", 15, 100),
    ("repair", 16, 100),
    ("repair", 17, 50),
    ("repair: message", 0, 50),
    ("repair: message", 4, 1),
    ("repair: message", 5, 1),
    ("repair: message", 6, 10),
    ("repair: telemetry", 0, 50),
];

#[test]
fn every_limit_and_budget_is_answered() {
    let mut rng = Rng::new(10);
    let mut counts = Counts::new();
    for limit in LIMITS.split(' ') {
        let input = frames_around(&mut rng, limit.parse().unwrap_or(20).min(20));
        for budget in BUDGETS.split(' ') {
            check_counting(&mut counts, &["repair", "--limit", limit, "--budget", budget], &input);
        }
        check_counting(&mut counts, &["repair", &format!("--limit={limit}")], &input);
    }
    for budget in BUDGETS.split(' ') {
        let input = frames_around(&mut rng, 4);
        check_counting(&mut counts, &["repair", &format!("--budget={budget}")], &input);
    }
    counts.finish(SEEN_OF_LIMITS);
}

/// Frames with no flips, a message's and another word's; with as many as the limit and with one more; noise; sync bits that are
/// wrong; a symbol that is none; and a line that is too short.
fn frames_around(rng: &mut Rng, limit: usize) -> Vec<u8> {
    let telemetry = frame_of(word_of_line(&telemetry_line(rng)));
    let number = rng.pick(&[4, 5, 6]);
    let mut frames = vec![telemetry, frame_of(bad_word(rng, number)), noise(rng)];
    for flips in [limit, limit + 1] {
        let places = random_places(rng, flips);
        frames.push(flipped(telemetry, &places));
    }
    let mut sync_wrong = telemetry;
    spoil_sync(rng, &mut sync_wrong, 40);
    frames.push(sync_wrong);
    let mut no_symbol = telemetry;
    no_symbol[100] = 4;
    frames.push(no_symbol);
    let mut input = joined(frames.iter().map(|frame| frame_line(frame)));
    input.extend_from_slice(&frame_line(&telemetry[1..]));
    input
}

/// Flips, found by search, with which a frame has a live count of just a budget and of one more:
/// of the largest, which holds unless one is given, and of 16,000.
#[test]
fn a_budget_is_gone_through_to_its_end() {
    let frame = frame_of(word_of_line(TELEMETRY));
    for (flips, limit, live, options) in [
        (&[68, 109][..], 10, 65_536, &["--limit", "10"][..]),
        (&[53, 68], 10, 65_537, &["--limit=10"]),
        (&[32, 57, 73, 76], 9, 16_000, &["--limit=9", "--budget=16000"]),
        (&[1, 33, 145, 154], 8, 16_001, &["--budget", "16000", "--limit", "8"]),
    ] {
        let frame = flipped(frame, flips);
        assert_eq!(live_count(&frame, limit), live);
        let arguments = [&["repair"], options].concat();
        let ended = wsprcard(&arguments).run(&frame_line(&frame));
        let answer = String::from_utf8_lossy(&ended.stdout);
        let disagreements = flips.len() as u32;
        let margin = margin(limit, disagreements);
        let expected = match live {
            16_000 | 65_536 => format!(
                "; disagreements {disagreements}; live {live}; sync wrong 0; margin {margin}\n"
            ),
            _ => format!("refused {OVER_BUDGET}\n"),
        };
        assert!(answer.ends_with(&expected), "{arguments:?}: {answer}");
    }
}

/// Up to limit 9 a clean frame is repaired without a budget, and from limit 10 on it is refused.
#[test]
fn every_limit_alone_repairs_what_the_largest_budget_can() {
    let line = frame_line(&frame_of(word_of_line(TELEMETRY)));
    for (limit, live) in (0..).zip(CLEAN) {
        let margin = margin(limit, 0);
        let limit = limit.to_string();
        let ended = wsprcard(&["repair", "--limit", &limit]).run(&line);
        let answer = String::from_utf8_lossy(&ended.stdout);
        let expected = match live {
            0..=65_536 => {
                format!("; disagreements 0; live {live}; sync wrong 0; margin {margin}\n")
            }
            _ => format!("refused {OVER_BUDGET}\n"),
        };
        assert!(answer.ends_with(&expected), "limit {limit}: {answer}");
    }
}

/// Unless given, the limit is 4: four flips are repaired, and five are not. That the budget is the
/// largest unless given shows at limits 9 and 10 above.
#[test]
fn the_usual_limit_is_4() {
    let frame = frame_of(word_of_line(TELEMETRY));
    for (flips, expected) in [
        (&[3, 40, 77, 117][..], "; disagreements 4; "),
        (&[3, 40, 77, 117, 161], "refused 17 0: no word is within the limit\n"),
    ] {
        let ended = wsprcard(&["repair"]).run(&frame_line(&flipped(frame, flips)));
        let answer = String::from_utf8_lossy(&ended.stdout);
        assert!(answer.contains(expected), "{flips:?}: {answer}");
    }
}

/// Options in any order and in both forms; of one that is given twice the last counts.
#[test]
fn options_stand_in_any_order() {
    let mut rng = Rng::new(11);
    let input = frames_around(&mut rng, 3);
    for arguments in [
        &["repair", "--limit=3", "--budget=300"][..],
        &["repair", "--budget", "300", "--limit", "3"],
        &["repair", "--limit", "3", "--budget=300"],
        &["repair", "--limit", "13", "--limit", "3"],
        &["repair", "--limit=3", "--limit", "0"],
        &["repair", "--budget=1", "--budget=16000"],
        &["repair", "--budget=16000", "--limit=3", "--budget=1"],
    ] {
        check(arguments, &input);
        let (command, options) = arguments.split_first().unwrap();
        let first_json = [&[command, "--json"], options].concat();
        assert_ended(&first_json, &input, &wsprcard(&first_json).run(&input));
        let twice_json = [&first_json[..], &["--json"]].concat();
        assert_ended(&twice_json, &input, &wsprcard(&twice_json).run(&input));
    }
    let report = joined([REPORT]);
    check(&["telemetry", "--write", "--write"], &report);
    let json_first = ["telemetry", "--json", "--write"];
    assert_ended(&json_first, &report, &wsprcard(&json_first).run(&report));
}

// Calls

/// Runs the program on an input that stays open, of which it is to read nothing.
fn run_unread(arguments: &[&str]) -> Ended {
    let input = joined([MESSAGE, TELEMETRY, REPORT]);
    let (mut reader, mut writer) = io::pipe().unwrap();
    writer.write_all(&input).unwrap();
    let ended = wsprcard(arguments).run_from(reader.try_clone().unwrap());
    drop(writer);
    let mut left = Vec::new();
    reader.read_to_end(&mut left).unwrap();
    assert_eq!(left, input, "{arguments:?} read of the input");
    ended
}

/// A line each; the first is empty.
const WRONG_CALLS: &str = "
decode
Read
rea
reads
--json
--limit 3
--write
-h
--unknown
--json read
read encode
read frames.txt
read -
repair 3
telemetry write
read x --json
read --unknown
read -j
read --JSON
read json
read --js
read --jsons
read --json=1
read --json=
encode --write
read --write
repair --write
encode --limit 3
read --limit=3
read --budget 3
telemetry --limit 3
telemetry --write --budget=3
telemetry --write=1
repair --limit
repair --budget
repair --json --limit
repair --limit=
repair --budget=
repair --limit x
repair --limit=x
repair --limit 3x
repair --limit x3
repair --limit --json
repair --budget --limit 3
repair --budget=two
repair --lim 3
repair --limits=3
repair --limit3";

#[test]
fn wrong_calls_are_told_and_read_nothing() {
    let mut wrong: Vec<Vec<&str>> =
        WRONG_CALLS.lines().map(|line| line.split_whitespace().collect()).collect();
    wrong.extend([vec![""], vec!["read", ""], vec!["repair", "--limit", ""]]);
    wrong.extend([vec!["encode", "K1ABC FN20 37"], vec!["repair", "--budget", "1 2"]]);
    assert_eq!(wrong[0], [""; 0], "the first is a call without a command");
    for arguments in &wrong {
        assert_eq!(reference::call(arguments), None, "{arguments:?}");
        let ended = run_unread(arguments);
        assert_eq!(ended.status.code(), Some(2), "{arguments:?}");
        assert_eq!(String::from_utf8_lossy(&ended.stdout), "", "{arguments:?}");
        assert!(!ended.stderr.is_empty(), "{arguments:?}");
    }
}

#[test]
fn help_and_version_are_printed_and_nothing_is_read() {
    for (arguments, names) in [
        (&["--help"][..], &["encode", "read", "repair", "telemetry", "--help", "--version"][..]),
        (&["encode", "--help"], &["encode", "--json"]),
        (&["read", "--help"], &["read", "--json"]),
        (&["repair", "--help"], &["repair", "--limit", "--budget", "--json"]),
        (&["telemetry", "--help"], &["telemetry", "--write", "--json"]),
        (&["--version"], &["wsprcard", "1.0"]),
    ] {
        let ended = run_unread(arguments);
        let stdout = String::from_utf8(ended.stdout).unwrap();
        assert_eq!(ended.status.code(), Some(0), "{arguments:?}");
        assert!(stdout.ends_with('\n'), "{arguments:?}: {stdout}");
        for name in names {
            assert!(stdout.contains(name), "{arguments:?} doesn't name {name}: {stdout}");
        }
    }
}

// Streams

/// The lines that come from a stream, each as soon as it is there.
fn lines_from(stdout: ChildStdout) -> Receiver<Vec<u8>> {
    let (sender, receiver) = mpsc::channel();
    thread::spawn(move || {
        for line in BufReader::new(stdout).split(b'\n') {
            // Where nobody waits any more, the test is over.
            let _ = sender.send(line.unwrap());
        }
    });
    receiver
}

/// Answers to one line, and to two lines and the start of a third, while the input stays open.
#[test]
fn answers_come_at_once() {
    for arguments in COMMANDS {
        for ending in ["\n", "\r\n"] {
            let right = [&right_line(arguments), ending.as_bytes()].concat();
            let expected = reference::run(&call(arguments), &right).stdout;
            let mut child = wsprcard(arguments).start(Stdio::piped(), Stdio::piped());
            let mut stdin = child.stdin.take().unwrap();
            let answers = lines_from(child.stdout.take().unwrap());
            let (start, rest) = right.split_at(8);
            for (piece, count) in [
                (right.as_slice(), 1),
                (&right, 1),
                (start, 0),
                (rest, 1),
                (&[&right, &right, start].concat(), 2),
                (&[rest, &right].concat(), 2),
            ] {
                stdin.write_all(piece).unwrap();
                for _ in 0..count {
                    let answer = answers.recv_timeout(AT_ONCE).unwrap_or_else(|_| {
                        child.kill().unwrap();
                        panic!("{arguments:?} doesn't answer while its input is open");
                    });
                    assert_eq!([&answer[..], b"\n"].concat(), expected);
                }
            }
            drop(stdin);
            let ended = end_of(child);
            let summary = reference::run(&call(arguments), &right.repeat(7)).summary;
            assert_eq!(String::from_utf8_lossy(&ended.stderr), format!("{summary}\n"));
        }
    }
}

fn full() -> File {
    File::options().write(true).open("/dev/full").unwrap()
}

#[test]
fn output_that_can_not_be_written_gives_status_3() {
    for arguments in COMMANDS {
        let (reader, mut writer) = io::pipe().unwrap();
        writer.write_all(&joined([right_line(arguments)])).unwrap();
        drop(writer);
        let ended = end_of(wsprcard(arguments).start(reader, full()));
        assert_eq!(ended.status.code(), Some(3), "{arguments:?}");
    }
    for arguments in [&["--help"][..], &["--version"], &["repair", "--help"]] {
        let ended = end_of(wsprcard(arguments).start(Stdio::null(), full()));
        assert_eq!(ended.status.code(), Some(3), "{arguments:?}");
    }
}

/// The input never ends: only what can't be written can end the program. Where nobody reads its
/// output, the system may end it by a signal (13, broken pipe).
#[test]
fn a_program_that_can_not_write_reads_no_further() {
    for arguments in COMMANDS {
        let line = joined([right_line(arguments)]);
        let (reader, writer) = io::pipe().unwrap();
        drop(reader);
        for stdout in [Stdio::from(full()), Stdio::from(writer)] {
            let mut child = wsprcard(arguments).start(Stdio::piped(), stdout);
            let mut stdin = child.stdin.take().unwrap();
            let line = line.clone();
            let feeder = thread::spawn(move || while stdin.write_all(&line).is_ok() {});
            let status = end_of(child).status;
            feeder.join().unwrap();
            let is_right = status.code() == Some(3) || status.signal() == Some(13);
            assert!(is_right, "{arguments:?} ended with {status}");
        }
    }
}

#[test]
fn input_that_can_not_be_read_gives_status_3() {
    for arguments in COMMANDS {
        let directory = File::open(env!("CARGO_MANIFEST_DIR")).unwrap();
        let ended = wsprcard(arguments).run_from(directory);
        assert_eq!(ended.status.code(), Some(3), "{arguments:?}");
        assert_eq!(String::from_utf8_lossy(&ended.stdout), "", "{arguments:?}");
    }
}

/// A read that fails is no end of the input: the rest of a line that was begun may be to come.
#[test]
fn what_was_read_before_a_failed_read_is_answered() {
    for arguments in COMMANDS {
        let right = joined([right_line(arguments)]);
        for begun in [&b""[..], b"x", &right[..right.len() - 1]] {
            let (mut sender, receiver) = UnixStream::pair().unwrap();
            receiver.set_nonblocking(true).unwrap();
            sender.write_all(&[&right, begun].concat()).unwrap();
            let ended = wsprcard(arguments).run_from(std::os::fd::OwnedFd::from(receiver));
            let expected = reference::run(&call(arguments), &right);
            assert_output(&right, &ended.stdout, &expected.stdout, 0);
            assert_eq!(ended.status.code(), Some(3), "{arguments:?}");
        }
    }
}

// The sample

/// The files of host/sample in the order in which host/show_sample takes them.
const SAMPLE: [&str; 6] =
    ["clean", "four-flips", "sync-damage", "noise", "another-kind", "extended"];

/// What `wsprcode "PJ4/K1ABC 37"` of WSJT-X 2.6.1 prints as channel symbols: a type 2 message.
/// `wsprsim -c` of the same version prints the same.
const PREFIXED: &str = "\
    310220001022131020100123131220\
    220230030322022010130031010003\
    323222013010301210032032112203\
    323030223022021023001310310031\
    230021332000010120112222222132\
    323102011022";

/// The frame in each file of the sample.
fn sample(name: &str) -> [u8; FRAME_LEN] {
    let telemetry = frame_of(word_of_line(TELEMETRY));
    match name {
        "clean" => frame_of(word_of_line(b" K1ABC FN20 37")),
        "four-flips" => flipped(telemetry, &[12, 40, 77, 117]),
        "sync-damage" => {
            let mut frame = telemetry;
            spoil_sync(&mut Rng::new(12), &mut frame, 7);
            frame
        }
        "noise" => noise(&mut Rng::new(13)),
        "another-kind" => PREFIXED
            .as_bytes()
            .try_into()
            .map(|digits: [u8; FRAME_LEN]| digits.map(|digit| digit - b'0'))
            .unwrap(),
        "extended" => {
            // One less than the B of basic telemetry, which is odd.
            let b = telemetry::b_in(&TELEMETRY[7..11], 60) - 1;
            let (locator, power) = telemetry::locator_and_power_of(b);
            frame_of(message::pack(&TELEMETRY[..6], &locator, power).unwrap())
        }
        _ => panic!("no file of the sample is {name}"),
    }
}

/// What host/show_sample is to print.
fn shown_sample() -> Vec<u8> {
    let mut lines = Vec::new();
    for name in SAMPLE {
        let frame = joined([frame_line(&sample(name))]);
        lines.push(format!("{name}\n").into_bytes());
        for (start, command) in [("  read:   ", "read"), ("  repair: ", "repair")] {
            lines.push(start.into());
            lines.push(reference::run(&call(&[command]), &frame).stdout);
        }
    }
    lines.concat()
}

#[test]
fn the_sample_is_as_it_should_be() {
    for name in SAMPLE {
        let found = fs::read(in_repository(&format!("host/sample/{name}.txt"))).unwrap();
        let expected = joined([frame_line(&sample(name))]);
        assert_eq!(found.escape_ascii().to_string(), expected.escape_ascii().to_string(), "{name}");
    }
    let printed = fs::read(in_repository("host/sample.stdout")).unwrap();
    assert_output(b"", &printed, &shown_sample(), 0);
}

/// What the reference says of each file is what the file is there for.
#[test]
fn the_sample_shows_what_it_is_for() {
    let told = String::from_utf8(shown_sample()).unwrap();
    let lines: Vec<&str> = told.lines().collect();
    let expected = [
        ("clean", "  K1ABC FN20 37", "telemetry refused 10 0: "),
        ("four-flips", " refused 9 0: ", "telemetry Q2 SK 12340 -15 4100 30 1; disagreements 4; "),
        ("sync-damage", " refused 8 ", "disagreements 0; live "),
        ("noise", " refused 8 ", "refused 17 0: "),
        ("another-kind", " refused 6 0: ", "message refused 6 0: "),
        ("extended", " QQ2XFT ", "telemetry refused 11 0: "),
    ];
    assert_eq!(lines.len(), 3 * expected.len());
    for (lines, (name, read, repair)) in lines.chunks(3).zip(expected) {
        assert_eq!(lines[0], name);
        assert!(lines[1].starts_with(&format!("  read:  {read}")), "{}", lines[1]);
        assert!(lines[2].starts_with("  repair: ") && lines[2].contains(repair), "{}", lines[2]);
    }
    assert!(lines[8].ends_with("; sync wrong 7; margin 5"));
}

#[test]
fn the_sample_is_shown_as_the_reference_says() {
    let program = in_repository("build/wsprcard");
    let script = Program::new("host/show_sample", "git checkout", &[program.to_str().unwrap()]);
    let ended = script.run(b"");
    assert_output(b"", &ended.stdout, &shown_sample(), 0);
    assert_eq!(ended.status.code(), Some(0));
}

/// A program that can't be run is told by the script's status.
#[test]
fn showing_the_sample_fails_where_the_program_does() {
    for program in ["/bin/false/none", "/dev/null"] {
        let ended = Program::new("host/show_sample", "git checkout", &[program]).run(b"");
        assert_ne!(ended.status.code(), Some(0), "{program}");
    }
}

/// Writes the sample anew: cargo test --release --offline --test host -- --ignored
#[test]
#[ignore = "writes host/sample and host/sample.stdout"]
fn the_sample_is_written() {
    for name in SAMPLE {
        let path = in_repository(&format!("host/sample/{name}.txt"));
        fs::write(path, joined([frame_line(&sample(name))])).unwrap();
    }
    fs::write(in_repository("host/sample.stdout"), shown_sample()).unwrap();
}
