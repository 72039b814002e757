// The line program: a header, then for each line of its input one line with the telemetry that
// it holds or with its refusal.
use super::telemetry::{self, Telemetry};
use super::Refusal;

const HEADER: &str = "CH GR ALT TEMP MV KT GPS\n";

/// The whole output. A newline ends a line; the last may lack it.
pub fn output(input: &[u8]) -> Vec<u8> {
    let mut output = String::from(HEADER);
    for line in input.split_inclusive(|&byte| byte == b'\n') {
        output.push_str(&answer(line.strip_suffix(b"\n").unwrap_or(line)));
    }
    output.into_bytes()
}

fn answer(line: &[u8]) -> String {
    match read(line) {
        Ok(telemetry) => shown(&telemetry),
        Err(Refusal { number, place }) => format!("refused {number} {place}\n"),
    }
}

/// A line is a callsign of six bytes, a space, a locator of four, a space, two power digits. A tab
/// is no space here.
fn read(line: &[u8]) -> Result<Telemetry, Refusal> {
    let fits = line.len() == 14
        && [line[6], line[11]] == *b"  "
        && line[12..].iter().all(|byte| byte.is_ascii_digit());
    if !fits {
        return Err(Refusal { number: 1, place: 0 });
    }
    let power = u32::from(line[12] - b'0') * 10 + u32::from(line[13] - b'0');
    telemetry::read(&line[..6], &line[7..11], power)
}

fn shown(telemetry: &Telemetry) -> String {
    let [first, third, grid5, grid6] =
        [telemetry.first, telemetry.third, telemetry.grid5, telemetry.grid6].map(char::from);
    let Telemetry { altitude, temperature, voltage, speed, gps, .. } = telemetry;
    format!("{first}{third} {grid5}{grid6} {altitude} {temperature} {voltage} {speed} {gps}\n")
}
