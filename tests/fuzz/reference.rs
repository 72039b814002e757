// The independent implementation behind the C interface of the card, declared in reference.h: the
// same structs, the same arguments, and names that begin with `reference_`.
#[path = "../src/reference/mod.rs"]
pub mod reference;

use reference::message::Message;
use reference::telemetry::Telemetry;
use reference::{frame, message, repair, telemetry, Refusal};
use std::slice;

#[repr(C)]
#[derive(Default)]
pub struct WrittenAnswer {
    refusal: u32,
    place: u32,
}

#[repr(C)]
#[derive(Default)]
pub struct WordAnswer {
    refusal: u32,
    place: u32,
    word: u64,
}

#[repr(C)]
#[derive(Default)]
pub struct MessageAnswer {
    refusal: u32,
    place: u32,
    power: u32,
}

#[repr(C)]
#[derive(Default)]
pub struct RepairedAnswer {
    refusal: u32,
    place: u32,
    word: u64,
    disagreements: u32,
    live: u32,
    sync_wrong: u32,
    margin: u32,
}

#[repr(C)]
#[derive(Default)]
pub struct ReadingAnswer {
    refusal: u32,
    place: u32,
    first: u8,
    third: u8,
    grid5: u8,
    grid6: u8,
    altitude: u32,
    temperature: i32,
    voltage: u32,
    speed: u32,
    gps: u32,
}

/// The bytes of a buffer. NULL with length 0 is an empty one.
unsafe fn lent<'a>(pointer: *const u8, len: usize) -> &'a [u8] {
    if len == 0 {
        &[]
    } else {
        slice::from_raw_parts(pointer, len)
    }
}

/// Writes a buffer of just so many bytes.
unsafe fn fill(pointer: *mut u8, bytes: &[u8]) {
    slice::from_raw_parts_mut(pointer, bytes.len()).copy_from_slice(bytes);
}

fn word_answer(answer: Result<u64, Refusal>) -> WordAnswer {
    match answer {
        Ok(word) => WordAnswer { word, ..Default::default() },
        Err(Refusal { number, place }) => {
            WordAnswer { refusal: number, place, ..Default::default() }
        }
    }
}

unsafe fn frame_answer(
    answer: Result<[u8; frame::FRAME_LEN], Refusal>,
    frame: *mut u8,
) -> WrittenAnswer {
    match answer {
        Ok(symbols) => {
            fill(frame, &symbols);
            WrittenAnswer::default()
        }
        Err(Refusal { number, place }) => WrittenAnswer { refusal: number, place },
    }
}

unsafe fn message_answer(
    answer: Result<Message, Refusal>,
    callsign: *mut u8,
    locator: *mut u8,
) -> MessageAnswer {
    match answer {
        Ok(message) => {
            fill(callsign, &message.callsign);
            fill(locator, &message.locator);
            MessageAnswer { power: message.power, ..Default::default() }
        }
        Err(Refusal { number, place }) => {
            MessageAnswer { refusal: number, place, ..Default::default() }
        }
    }
}

fn reading_answer(report: Telemetry) -> ReadingAnswer {
    ReadingAnswer {
        refusal: 0,
        place: 0,
        first: report.first,
        third: report.third,
        grid5: report.grid5,
        grid6: report.grid6,
        altitude: report.altitude,
        temperature: report.temperature,
        voltage: report.voltage,
        speed: report.speed,
        gps: report.gps,
    }
}

/// # Safety
///
/// Here and below: each buffer is as long as it is said to be.
#[no_mangle]
pub unsafe extern "C" fn reference_pack(
    callsign: *const u8,
    callsign_len: usize,
    locator: *const u8,
    locator_len: usize,
    power: u32,
) -> WordAnswer {
    word_answer(message::pack(lent(callsign, callsign_len), lent(locator, locator_len), power))
}

/// # Safety
#[no_mangle]
pub unsafe extern "C" fn reference_unpack(
    word: u64,
    callsign: *mut u8,
    callsign_len: usize,
    locator: *mut u8,
    locator_len: usize,
) -> MessageAnswer {
    message_answer(message::unpack(word, callsign_len, locator_len), callsign, locator)
}

/// # Safety
#[no_mangle]
pub unsafe extern "C" fn reference_write_word(
    word: u64,
    frame: *mut u8,
    frame_len: usize,
) -> WrittenAnswer {
    frame_answer(frame::write_word(word, frame_len), frame)
}

/// # Safety
#[no_mangle]
pub unsafe extern "C" fn reference_write_message(
    callsign: *const u8,
    callsign_len: usize,
    locator: *const u8,
    locator_len: usize,
    power: u32,
    frame: *mut u8,
    frame_len: usize,
) -> WrittenAnswer {
    let (callsign, locator) = (lent(callsign, callsign_len), lent(locator, locator_len));
    frame_answer(frame::write_message(callsign, locator, power, frame_len), frame)
}

/// # Safety
#[no_mangle]
pub unsafe extern "C" fn reference_read_word(frame: *const u8, frame_len: usize) -> WordAnswer {
    word_answer(frame::read_word(lent(frame, frame_len)))
}

/// # Safety
#[no_mangle]
pub unsafe extern "C" fn reference_read_message(
    frame: *const u8,
    frame_len: usize,
    callsign: *mut u8,
    callsign_len: usize,
    locator: *mut u8,
    locator_len: usize,
) -> MessageAnswer {
    let answer = frame::read_message(lent(frame, frame_len), callsign_len, locator_len);
    message_answer(answer, callsign, locator)
}

/// # Safety
#[no_mangle]
pub unsafe extern "C" fn reference_repair(
    frame: *const u8,
    frame_len: usize,
    limit: u32,
    budget: u32,
) -> RepairedAnswer {
    match repair::repair(lent(frame, frame_len), limit, budget) {
        Ok(repair::Repaired { word, disagreements, live, sync_wrong, margin }) => {
            RepairedAnswer { refusal: 0, place: 0, word, disagreements, live, sync_wrong, margin }
        }
        Err(Refusal { number, place }) => {
            RepairedAnswer { refusal: number, place, ..Default::default() }
        }
    }
}

/// The live count of a frame of 162 symbols 0 to 3, for budgets just at it. It is counted through
/// to the end, so the limit has to be low.
///
/// # Safety
#[no_mangle]
pub unsafe extern "C" fn reference_live_count(frame: *const u8, limit: u32) -> u64 {
    repair::live_count(lent(frame, frame::FRAME_LEN), limit)
}

/// # Safety
#[no_mangle]
pub unsafe extern "C" fn reference_u4b_write(
    first: u8,
    third: u8,
    grid5: u8,
    grid6: u8,
    altitude: u32,
    temperature: i32,
    voltage: u32,
    speed: u32,
    gps: u32,
    callsign: *mut u8,
    callsign_len: usize,
    locator: *mut u8,
    locator_len: usize,
) -> MessageAnswer {
    let report =
        Telemetry { first, third, grid5, grid6, altitude, temperature, voltage, speed, gps };
    message_answer(telemetry::write(&report, callsign_len, locator_len), callsign, locator)
}

/// # Safety
#[no_mangle]
pub unsafe extern "C" fn reference_u4b_read(
    callsign: *const u8,
    callsign_len: usize,
    locator: *const u8,
    locator_len: usize,
    power: u32,
) -> ReadingAnswer {
    let read = telemetry::read(lent(callsign, callsign_len), lent(locator, locator_len), power);
    match read {
        Ok(report) => reading_answer(report),
        Err(Refusal { number, place }) => {
            ReadingAnswer { refusal: number, place, ..Default::default() }
        }
    }
}
