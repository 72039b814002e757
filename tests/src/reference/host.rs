// The host program, written from its manual page: for each line of its input one line with the
// answer or the refusal, in plain text or in JSON, then a summary and the exit status.
use super::frame::{self, FRAME_LEN};
use super::message::{self, Message, CALLSIGN_LEN, LOCATOR_LEN};
use super::repair::{self, Repaired};
use super::telemetry::{self, Telemetry};
use super::Refusal;
use std::collections::BTreeMap;

/// A line with more bytes is refused, whatever it holds.
const LONGEST_LINE: usize = 256;

/// What has no form at all is refused so.
const WRONG_FORM: Refusal = Refusal { number: 1, place: 0 };

#[derive(Clone, Copy, Debug, PartialEq, Eq)]
pub enum Command {
    Encode,
    Read,
    Repair { limit: u32, budget: u32 },
    Telemetry,
    WriteTelemetry,
}

/// What the program is asked by its arguments.
#[derive(Clone, Copy, Debug, PartialEq, Eq)]
pub struct Call {
    pub command: Command,
    pub json: bool,
}

/// What a line is answered by, where it isn't refused.
#[derive(Clone, Copy, Debug, PartialEq, Eq)]
pub enum Answer {
    Encoded(Message, u64, [u8; FRAME_LEN]),
    Message(Message),
    Report(Telemetry),
    Repaired(Repaired, Told),
}

/// A repaired word's message, and the report in that: there is one to be told only of a message.
pub type Told = Result<(Message, Result<Telemetry, Refused>), Refused>;

/// A refusal and the reason that is told.
#[derive(Clone, Copy, Debug, PartialEq, Eq)]
pub struct Refused {
    pub refusal: Refusal,
    pub reason: &'static str,
}

/// What the program prints, and its exit status.
pub struct Ended {
    pub stdout: Vec<u8>,
    pub summary: String,
    pub status: i32,
}

/// What the program does, if it isn't called wrongly.
pub fn run(call: &Call, input: &[u8]) -> Ended {
    let mut stdout = String::new();
    let mut counts = Counts::default();
    for answer in answers(call, input) {
        counts.count(&answer);
        stdout += &if call.json { json(&answer) } else { plain(&answer) };
        stdout.push('\n');
    }
    let status = i32::from(!counts.refused.is_empty());
    Ended { stdout: stdout.into_bytes(), summary: counts.summary(call), status }
}

// The call

/// A command and its options, of which the last one counts if it is repeated. Nothing is given
/// for a wrong call.
pub fn call(arguments: &[&str]) -> Option<Call> {
    let (name, mut options) = arguments.split_first()?;
    let mut json = false;
    let mut write = false;
    let mut limit = 4;
    let mut budget = None;
    while let Some((option, rest)) = options.split_first() {
        options = rest;
        match (*name, *option) {
            (_, "--json") => json = true,
            ("telemetry", "--write") => write = true,
            ("repair", _) if option.starts_with("--limit") => {
                limit = option_number(option, "--limit", &mut options)?;
            }
            ("repair", _) => budget = Some(option_number(option, "--budget", &mut options)?),
            _ => return None,
        }
    }
    let budget = budget.unwrap_or(65_536);
    let command = match *name {
        "encode" => Command::Encode,
        "read" => Command::Read,
        "repair" => Command::Repair { limit, budget },
        "telemetry" if write => Command::WriteTelemetry,
        "telemetry" => Command::Telemetry,
        _ => return None,
    };
    Some(Call { command, json })
}

/// The number behind an equals sign, or else the next argument.
fn option_number(option: &str, name: &str, options: &mut &[&str]) -> Option<u32> {
    let given = match option.strip_prefix(name)? {
        "" => {
            let (given, rest) = options.split_first()?;
            *options = rest;
            given
        }
        given => given.strip_prefix('=')?,
    };
    number(given.as_bytes())
}

// The lines

/// The answers to all lines of the input.
pub fn answers<'a>(
    call: &'a Call,
    input: &'a [u8],
) -> impl Iterator<Item = Result<Answer, Refused>> + 'a {
    input.split_inclusive(|&byte| byte == b'\n').map(|line| {
        let Some(line) = line.strip_suffix(b"\n").or_else(|| uncut(call.command, line)) else {
            return Err(Refused { refusal: WRONG_FORM, reason: CUT_OFF });
        };
        let line = line.strip_suffix(b"\r").unwrap_or(line);
        answer(call.command, line).map_err(|refusal| refused(call.command, refusal))
    })
}

/// A last line without a newline, where the command takes it: only a frame's length tells whether
/// some of it is missing.
fn uncut(command: Command, line: &[u8]) -> Option<&[u8]> {
    matches!(command, Command::Read | Command::Repair { .. }).then_some(line)
}

fn refused(command: Command, refusal: Refusal) -> Refused {
    Refused { refusal, reason: reason(command, &refusal) }
}

fn answer(command: Command, line: &[u8]) -> Result<Answer, Refusal> {
    if line.len() > LONGEST_LINE {
        return Err(WRONG_FORM);
    }
    match command {
        Command::Encode => encoded(line),
        Command::Read => {
            frame::read_message(&symbols(line), CALLSIGN_LEN, LOCATOR_LEN).map(Answer::Message)
        }
        Command::Repair { limit, budget } => repaired(command, line, limit, budget),
        Command::Telemetry => {
            let (callsign, locator, power) = message_in(line)?;
            telemetry::read(&callsign, locator, power).map(Answer::Report)
        }
        Command::WriteTelemetry => {
            telemetry::write(&report_in(line)?, CALLSIGN_LEN, LOCATOR_LEN).map(Answer::Message)
        }
    }
}

fn encoded(line: &[u8]) -> Result<Answer, Refusal> {
    let (callsign, locator, power) = message_in(line)?;
    let word = message::pack(&callsign, locator, power)?;
    let message = message::unpack(word, CALLSIGN_LEN, LOCATOR_LEN)?;
    Ok(Answer::Encoded(message, word, frame::write_word(word, FRAME_LEN)?))
}

fn repaired(command: Command, line: &[u8], limit: u32, budget: u32) -> Result<Answer, Refusal> {
    let repaired = repair::repair(&symbols(line), limit, budget)?;
    let message = message::unpack(repaired.word, CALLSIGN_LEN, LOCATOR_LEN);
    let with_report = message.map(|message| {
        let report = telemetry::read(&message.callsign, &message.locator, message.power);
        (message, report.map_err(|refusal| refused(command, refusal)))
    });
    Ok(Answer::Repaired(repaired, with_report.map_err(|refusal| refused(command, refusal))))
}

/// What isn't a digit 0 to 3 is a symbol above 3.
fn symbols(line: &[u8]) -> Vec<u8> {
    line.iter().map(|byte| byte.wrapping_sub(b'0')).collect()
}

/// The callsign's field of six, the locator and the power. The callsign is all before the locator:
/// a space or a tab in it is its own.
fn message_in(line: &[u8]) -> Result<(Vec<u8>, &[u8], u32), Refusal> {
    let (rest, power) = last_field(line);
    let (callsign, locator) = last_field(rest);
    if callsign.is_empty() || callsign.len() > CALLSIGN_LEN || locator.len() != LOCATOR_LEN {
        return Err(WRONG_FORM);
    }
    Ok((callsign_field(callsign), locator, number(power).unwrap_or(u32::MAX)))
}

/// Tabs between fields count as spaces.
fn is_between_fields(byte: &u8) -> bool {
    b" \t".contains(byte)
}

/// What stands before the last field, and the last field.
fn last_field(line: &[u8]) -> (&[u8], &[u8]) {
    let line = without_ends(line);
    let start = line.iter().rposition(is_between_fields).map_or(0, |space| space + 1);
    (without_ends(&line[..start]), &line[start..])
}

/// The text without the spaces and tabs around it.
fn without_ends(text: &[u8]) -> &[u8] {
    let start = text.iter().take_while(|byte| is_between_fields(byte)).count();
    let behind = text[start..].iter().rev().take_while(|byte| is_between_fields(byte)).count();
    &text[start..text.len() - behind]
}

/// A callsign of two characters has no third, so that its third is no digit.
fn callsign_field(callsign: &[u8]) -> Vec<u8> {
    let is_digit = |place: usize| callsign.get(place).is_some_and(u8::is_ascii_digit);
    let is_moved = callsign.len() < CALLSIGN_LEN && is_digit(1) && !is_digit(2);
    let mut field = vec![b' '; usize::from(is_moved)];
    field.extend_from_slice(callsign);
    field.resize(CALLSIGN_LEN, b' ');
    field
}

/// A report in the units in which it is written. What isn't two characters or a number is given
/// as one that is out of its range.
fn report_in(line: &[u8]) -> Result<Telemetry, Refusal> {
    let fields = line.split(is_between_fields).filter(|field| !field.is_empty());
    let fields: Vec<&[u8]> = fields.take(8).collect();
    let [channel, subsquare, altitude, temperature, voltage, speed, gps] = fields[..] else {
        return Err(WRONG_FORM);
    };
    let [first, third] = channel.try_into().unwrap_or_default();
    let [grid5, grid6] = subsquare.try_into().unwrap_or_default();
    Ok(Telemetry {
        first,
        third,
        grid5,
        grid6,
        altitude: number(altitude).unwrap_or(u32::MAX),
        temperature: signed_tenths(temperature).unwrap_or(i32::MAX),
        voltage: number(voltage).unwrap_or(u32::MAX),
        speed: tenths(speed).unwrap_or(u32::MAX),
        gps: number(gps).unwrap_or(u32::MAX),
    })
}

/// A number is digits. One that has no room is given as the largest, which no range holds.
fn number(field: &[u8]) -> Option<u32> {
    let value = |byte: &u8| u32::from(byte - b'0');
    let is_number = !field.is_empty() && field.iter().all(u8::is_ascii_digit);
    is_number.then(|| {
        field.iter().fold(0_u32, |sum, byte| sum.saturating_mul(10).saturating_add(value(byte)))
    })
}

/// A number, and then a point and one digit or nothing.
fn tenths(field: &[u8]) -> Option<u32> {
    let (whole, tenth) = match field {
        [whole @ .., b'.', tenth] => (whole, *tenth),
        whole => (whole, b'0'),
    };
    Some(number(whole)?.saturating_mul(10).saturating_add(number(&[tenth])?))
}

fn signed_tenths(field: &[u8]) -> Option<i32> {
    let (sign, unsigned) = match field {
        [b'-', rest @ ..] => (-1, rest),
        [b'+', rest @ ..] => (1, rest),
        _ => (1, field),
    };
    Some(sign * i32::try_from(tenths(unsigned)?).unwrap_or(i32::MAX))
}

// Plain text

fn plain(answer: &Result<Answer, Refused>) -> String {
    match answer {
        Err(refused) => plain_refusal(refused),
        Ok(Answer::Encoded(_, _, frame)) => digits(frame),
        Ok(Answer::Message(message)) => plain_message(message),
        Ok(Answer::Report(report)) => plain_report(report),
        Ok(Answer::Repaired(repaired, told)) => plain_repair(repaired, told),
    }
}

fn plain_repair(repaired: &Repaired, told: &Told) -> String {
    let Repaired { word, disagreements, live, sync_wrong, margin } = repaired;
    let told = match told {
        Err(refused) => plain_refusal(refused),
        Ok((message, Ok(report))) => {
            format!("{}; telemetry {}", plain_message(message), plain_report(report))
        }
        Ok((message, Err(refused))) => {
            format!("{}; telemetry {}", plain_message(message), plain_refusal(refused))
        }
    };
    format!(
        "word {word:013x}; message {told}; disagreements {disagreements}; live {live}; \
         sync wrong {sync_wrong}; margin {margin}"
    )
}

fn plain_message(message: &Message) -> String {
    format!("{} {} {:02}", text(&message.callsign), text(&message.locator), message.power)
}

fn plain_report(report: &Telemetry) -> String {
    let Telemetry { first, third, grid5, grid6, .. } = *report;
    let Telemetry { altitude, temperature, voltage, speed, gps, .. } = report;
    let [channel, subsquare] = [text(&[first, third]), text(&[grid5, grid6])];
    format!("{channel} {subsquare} {altitude} {temperature} {voltage} {speed} {gps}")
}

fn plain_refusal(refused: &Refused) -> String {
    let Refused { refusal: Refusal { number, place }, reason } = refused;
    format!("refused {number} {place}: {reason}")
}

fn digits(frame: &[u8]) -> String {
    frame.iter().map(|symbol| char::from(b'0' + symbol)).collect()
}

fn text(characters: &[u8]) -> String {
    characters.iter().copied().map(char::from).collect()
}

// JSON

fn json(answer: &Result<Answer, Refused>) -> String {
    match answer {
        Err(refused) => json_refusal(refused),
        Ok(Answer::Encoded(message, word, frame)) => {
            let members = message_members(message);
            format!(r#"{{{members},"word":"{word:013x}","frame":"{}"}}"#, digits(frame))
        }
        Ok(Answer::Message(message)) => format!("{{{}}}", message_members(message)),
        Ok(Answer::Report(report)) => json_report(report),
        Ok(Answer::Repaired(repaired, told)) => json_repair(repaired, told),
    }
}

fn json_repair(repaired: &Repaired, told: &Told) -> String {
    let Repaired { word, disagreements, live, sync_wrong, margin } = repaired;
    let told = match told {
        Err(refused) => json_refusal(refused),
        Ok((message, report)) => {
            let report = match report {
                Ok(report) => json_report(report),
                Err(refused) => json_refusal(refused),
            };
            format!(r#"{{{}}},"telemetry":{report}"#, message_members(message))
        }
    };
    format!(
        r#"{{"word":"{word:013x}","message":{told},"disagreements":{disagreements},"live":{live},"sync_wrong":{sync_wrong},"margin":{margin}}}"#
    )
}

fn message_members(message: &Message) -> String {
    let [callsign, locator] = [text(&message.callsign), text(&message.locator)];
    format!(r#""callsign":"{callsign}","locator":"{locator}","power":{}"#, message.power)
}

fn json_report(report: &Telemetry) -> String {
    let channel = text(&[report.first, report.third]);
    let subsquare = text(&[report.grid5, report.grid6]);
    let Telemetry { altitude, temperature, voltage, speed, gps, .. } = report;
    format!(
        r#"{{"channel":"{channel}","subsquare":"{subsquare}","altitude":{altitude},"temperature":{temperature},"voltage":{voltage},"speed":{speed},"gps":{gps}}}"#
    )
}

fn json_refusal(refused: &Refused) -> String {
    let Refused { refusal: Refusal { number, place }, reason } = refused;
    format!(r#"{{"refusal":{number},"place":{place},"reason":"{reason}"}}"#)
}

// Reasons

/// Why a last line without a newline is refused, where it is for that.
pub const CUT_OFF: &str = "the line is cut off before its newline";

/// Why any other line of this command is refused so. Refusal 1 depends on what its lines are.
pub fn reason(command: Command, refusal: &Refusal) -> &'static str {
    match (refusal.number, refusal.place) {
        (1, _) => wrong_form(command),
        (2, place) => wrong_character(place),
        (3, _) => "the power isn't one of the 19",
        (4, _) => "the callsign's number in the word is 262177560 or more",
        (5, _) => "the locator's number in the word is 32400 or more",
        (6, _) => "the power in the word isn't one of the 19: most often a type 2 or 3 message",
        (7, _) => "the symbol isn't 0 to 3",
        (8, _) => "the symbol's sync bit is wrong",
        (9, _) => "no word has this frame",
        (10, 0) => "the first character isn't 0, 1 or Q",
        (10, _) => "a space stands where telemetry has a letter",
        (11, _) => "extended telemetry",
        (12, _) => "the number of sub-square and altitude is 615168 or more",
        (13, _) => "the number of temperature, voltage, speed and GPS is 604800 or more",
        (14, place) => wrong_reading(place),
        (15, 0) => "the limit isn't 0 to 12",
        (15, _) => "the budget isn't 1 to 65536",
        (16, _) => {
            "the live count is above the budget: try a larger one, up to 65536, or a smaller limit"
        }
        (17, _) => "no word is within the limit",
        (18, _) => "two or more words share the fewest disagreements",
        _ => panic!("no refusal is {refusal:?}"),
    }
}

fn wrong_form(command: Command) -> &'static str {
    match command {
        Command::Read | Command::Repair { .. } => "a frame has 162 symbols",
        Command::Encode | Command::Telemetry => {
            "the line isn't a callsign of up to 6 characters, a locator of 4 and a power"
        }
        Command::WriteTelemetry => "the line isn't a report of 7 fields",
    }
}

fn wrong_character(place: u32) -> &'static str {
    match place {
        0 => "the callsign's character isn't 0 to 9, A to Z or a space",
        1 => "the callsign's character isn't 0 to 9 or A to Z",
        2 => "the callsign's character isn't 0 to 9",
        3..=5 => "the callsign's character isn't A to Z or a space",
        6 | 7 => "the locator's character isn't A to R",
        _ => "the locator's character isn't 0 to 9",
    }
}

fn wrong_reading(place: u32) -> &'static str {
    match place {
        0 => "the channel's first character isn't 0, 1 or Q",
        1 => "the channel's third character isn't 0 to 9",
        2 => "the sub-square's first letter isn't A to X",
        3 => "the sub-square's second letter isn't A to X",
        4 => "the altitude isn't 0 to 21359 metres",
        5 => "the temperature isn't -50.0 to 39.9 degrees",
        6 => "the voltage isn't 3000 to 4999 millivolts",
        7 => "the speed isn't 0 to 83.9 knots",
        _ => "GPS isn't 0 or 1",
    }
}

// The summary

#[derive(Default)]
struct Counts {
    answered: u64,
    refused: BTreeMap<u32, u64>,
    messages: u64,
    telemetry: u64,
}

impl Counts {
    fn count(&mut self, answer: &Result<Answer, Refused>) {
        match answer {
            Err(refused) => *self.refused.entry(refused.refusal.number).or_default() += 1,
            Ok(answer) => {
                self.answered += 1;
                let Answer::Repaired(_, told) = answer else { return };
                self.messages += u64::from(told.is_ok());
                self.telemetry += u64::from(matches!(told, Ok((_, Ok(_)))));
            }
        }
    }

    fn summary(&self, call: &Call) -> String {
        let (name, more) = match call.command {
            Command::Encode => ("encode", String::new()),
            Command::Read => ("read", String::new()),
            Command::Telemetry | Command::WriteTelemetry => ("telemetry", String::new()),
            Command::Repair { .. } => {
                ("repair", format!("; {} messages, {} telemetry", self.messages, self.telemetry))
            }
        };
        let refused: u64 = self.refused.values().sum();
        let numbers: Vec<_> =
            self.refused.iter().map(|(number, count)| format!("{number}: {count}")).collect();
        let numbers =
            if numbers.is_empty() { String::new() } else { format!(" ({})", numbers.join(", ")) };
        let Counts { answered, .. } = self;
        let lines = answered + refused;
        format!(
            "wsprcard {name}: {lines} lines, {answered} answered, {refused} refused{numbers}{more}"
        )
    }
}
