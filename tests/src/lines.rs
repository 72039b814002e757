// Lines as the programs take them: messages as they are shown and as people type them, frames,
// reports, and what damage makes of them.
use crate::inputs::{message_in_any_case, random_message, random_telemetry, recase};
use crate::reference::message::{Message, CALLSIGN_LEN, LOCATOR_LEN};
use crate::reference::telemetry::{self, Telemetry};
use crate::rng::Rng;

/// Each line with its newline.
pub fn joined<Line: AsRef<[u8]>>(lines: impl IntoIterator<Item = Line>) -> Vec<u8> {
    let mut input = Vec::new();
    for line in lines {
        input.extend_from_slice(line.as_ref());
        input.push(b'\n');
    }
    input
}

/// A message as it is shown.
pub fn message_line(message: &Message) -> Vec<u8> {
    let mut line = message.callsign.to_vec();
    line.push(b' ');
    line.extend(message.locator);
    line.extend(format!(" {:02}", message.power).bytes());
    line
}

/// A message of random telemetry.
pub fn telemetry_line(rng: &mut Rng) -> Vec<u8> {
    let telemetry = random_telemetry(rng);
    message_line(&telemetry::write(&telemetry, CALLSIGN_LEN, LOCATOR_LEN).unwrap())
}

/// A message with a byte or two changed, its letters capitals or in any case; now and then it is as
/// it was.
pub fn damaged_message_line(rng: &mut Rng) -> Vec<u8> {
    let mut line =
        if rng.coin() { telemetry_line(rng) } else { message_line(&random_message(rng)) };
    if rng.coin() {
        recase(rng, &mut line);
    }
    damaged(rng, line)
}

/// A line with a byte or two changed, left out, put in or swapped.
pub fn damaged(rng: &mut Rng, mut line: Vec<u8>) -> Vec<u8> {
    for _ in 0..rng.between(1, 2) {
        let place = rng.below(line.len() as u64) as usize;
        let other = rng.below(line.len() as u64) as usize;
        match rng.below(5) {
            0 => line[place] = rng.byte(),
            1 => line[place] = rng.pick(b" 0123456789AQRSXYZaqrsxz`{\t\r\0"),
            2 => line.insert(place, rng.pick(b" \t0Aa")),
            3 => drop(line.remove(place)),
            _ => line.swap(place, other),
        }
    }
    line
}

/// The fields with one separator or more between them, spaces and some tabs, and with separators
/// around them or none.
pub fn spaced(rng: &mut Rng, fields: &[&[u8]]) -> Vec<u8> {
    let mut line = separators(rng, 0);
    for field in fields {
        line.extend_from_slice(field);
        line.extend(separators(rng, 1));
    }
    if rng.coin() {
        line.truncate(line.trim_ascii_end().len());
    }
    line
}

/// So many spaces and tabs at least, and up to two more.
fn separators(rng: &mut Rng, at_least: u64) -> Vec<u8> {
    let count = rng.between(at_least, at_least + 2);
    (0..count).map(|_| rng.pick(b"   \t")).collect()
}

/// A message as people type it: only the callsign's own characters, letters in any case or as
/// capitals, the power without a zero in front or with some.
pub fn typed_message(rng: &mut Rng, message: &Message) -> Vec<u8> {
    let zeros = "0".repeat(rng.below(3) as usize);
    let power = format!("{zeros}{}", message.power);
    let Message { callsign, locator, .. } =
        if rng.coin() { message_in_any_case(rng, message) } else { *message };
    spaced(rng, &[callsign.trim_ascii(), &locator, power.as_bytes()])
}

/// The digits of a frame's symbols.
pub fn frame_line(frame: &[u8]) -> Vec<u8> {
    frame.iter().map(|symbol| b'0' + symbol).collect()
}

/// A report, in the units in which it is written, as people type it.
pub fn typed_report(rng: &mut Rng, report: &Telemetry) -> Vec<u8> {
    let sign = match report.temperature {
        ..0 => "-",
        _ if rng.coin() => "+",
        _ => "",
    };
    let temperature = format!("{sign}{}", typed_tenths(rng, report.temperature.unsigned_abs()));
    let speed = typed_tenths(rng, report.speed);
    let fields = [
        String::from_iter([report.first, report.third].map(char::from)),
        String::from_iter([report.grid5, report.grid6].map(char::from)),
        report.altitude.to_string(),
        temperature,
        report.voltage.to_string(),
        speed,
        report.gps.to_string(),
    ];
    spaced(rng, &fields.each_ref().map(String::as_bytes))
}

/// Whole numbers may lack their point and zero.
fn typed_tenths(rng: &mut Rng, tenths: u32) -> String {
    if tenths.is_multiple_of(10) && rng.coin() {
        format!("{}", tenths / 10)
    } else {
        format!("{}.{}", tenths / 10, tenths % 10)
    }
}

/// A report as it is read: whole degrees and knots.
pub fn report_line(report: &Telemetry) -> Vec<u8> {
    let Telemetry { altitude, temperature, voltage, speed, gps, .. } = report;
    let [first, third, grid5, grid6] =
        [report.first, report.third, report.grid5, report.grid6].map(char::from);
    format!("{first}{third} {grid5}{grid6} {altitude} {temperature} {voltage} {speed} {gps}")
        .into_bytes()
}
