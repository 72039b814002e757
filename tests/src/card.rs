// The C interface of the library under test, declared by hand, with safe functions over it.
use crate::lent::Lent;
use crate::reference::telemetry::Telemetry;

#[repr(C)]
#[derive(Clone, Copy, Debug, PartialEq, Eq)]
pub struct Word {
    pub refusal: u32,
    pub place: u32,
    pub word: u64,
}

#[repr(C)]
#[derive(Clone, Copy, Debug, PartialEq, Eq)]
pub struct Message {
    pub refusal: u32,
    pub place: u32,
    pub power: u32,
}

#[repr(C)]
#[derive(Clone, Copy, Debug, PartialEq, Eq)]
pub struct Written {
    pub refusal: u32,
    pub place: u32,
}

#[repr(C)]
#[derive(Clone, Copy, Debug, PartialEq, Eq)]
pub struct Repaired {
    pub refusal: u32,
    pub place: u32,
    pub word: u64,
    pub disagreements: u32,
    pub live: u32,
    pub sync_wrong: u32,
    pub margin: u32,
}

#[repr(C)]
#[derive(Clone, Copy, Debug, PartialEq, Eq)]
pub struct Reading {
    pub refusal: u32,
    pub place: u32,
    pub first: u8,
    pub third: u8,
    pub grid5: u8,
    pub grid6: u8,
    pub altitude: u32,
    pub temperature: i32,
    pub voltage: u32,
    pub speed: u32,
    pub gps: u32,
}

extern "C" {
    fn wspr_pack(
        callsign: *const u8,
        callsign_len: usize,
        locator: *const u8,
        locator_len: usize,
        power: u32,
    ) -> Word;

    fn wspr_unpack(
        word: u64,
        callsign: *mut u8,
        callsign_len: usize,
        locator: *mut u8,
        locator_len: usize,
    ) -> Message;

    fn wspr_write_word(word: u64, frame: *mut u8, frame_len: usize) -> Written;

    fn wspr_write_message(
        callsign: *const u8,
        callsign_len: usize,
        locator: *const u8,
        locator_len: usize,
        power: u32,
        frame: *mut u8,
        frame_len: usize,
    ) -> Written;

    fn wspr_read_word(frame: *const u8, frame_len: usize) -> Word;

    fn wspr_read_message(
        frame: *const u8,
        frame_len: usize,
        callsign: *mut u8,
        callsign_len: usize,
        locator: *mut u8,
        locator_len: usize,
    ) -> Message;

    fn wspr_repair(frame: *const u8, frame_len: usize, limit: u32, budget: u32) -> Repaired;

    fn u4b_write(
        first: u8,
        third: u8,
        grid5: u8,
        grid6: u8,
        altitude: u32,
        temperature: i32,
        voltage: u32,
        speed: u32,
        gps: u32,
        callsign: *mut u8,
        callsign_len: usize,
        locator: *mut u8,
        locator_len: usize,
    ) -> Message;

    fn u4b_read(
        callsign: *const u8,
        callsign_len: usize,
        locator: *const u8,
        locator_len: usize,
        power: u32,
    ) -> Reading;
}

pub fn pack(callsign: &[u8], locator: &[u8], power: u32) -> Word {
    unsafe { wspr_pack(callsign.as_ptr(), callsign.len(), locator.as_ptr(), locator.len(), power) }
}

pub fn unpack(word: u64, callsign: &mut [u8], locator: &mut [u8]) -> Message {
    unsafe {
        wspr_unpack(
            word,
            callsign.as_mut_ptr(),
            callsign.len(),
            locator.as_mut_ptr(),
            locator.len(),
        )
    }
}

pub fn write_word(word: u64, frame: &mut [u8]) -> Written {
    unsafe { wspr_write_word(word, frame.as_mut_ptr(), frame.len()) }
}

pub fn write_message(callsign: &[u8], locator: &[u8], power: u32, frame: &mut [u8]) -> Written {
    unsafe {
        wspr_write_message(
            callsign.as_ptr(),
            callsign.len(),
            locator.as_ptr(),
            locator.len(),
            power,
            frame.as_mut_ptr(),
            frame.len(),
        )
    }
}

pub fn read_word(frame: &[u8]) -> Word {
    unsafe { wspr_read_word(frame.as_ptr(), frame.len()) }
}

pub fn read_message(frame: &[u8], callsign: &mut [u8], locator: &mut [u8]) -> Message {
    unsafe {
        wspr_read_message(
            frame.as_ptr(),
            frame.len(),
            callsign.as_mut_ptr(),
            callsign.len(),
            locator.as_mut_ptr(),
            locator.len(),
        )
    }
}

pub fn repair(frame: &[u8], limit: u32, budget: u32) -> Repaired {
    unsafe { wspr_repair(frame.as_ptr(), frame.len(), limit, budget) }
}

pub fn write_telemetry(telemetry: &Telemetry, callsign: &mut [u8], locator: &mut [u8]) -> Message {
    unsafe {
        write_telemetry_at(
            telemetry,
            (callsign.as_mut_ptr(), callsign.len()),
            (locator.as_mut_ptr(), locator.len()),
        )
    }
}

/// The callsign and the locator are a pointer and a length each.
unsafe fn write_telemetry_at(
    telemetry: &Telemetry,
    callsign: (*mut u8, usize),
    locator: (*mut u8, usize),
) -> Message {
    u4b_write(
        telemetry.first,
        telemetry.third,
        telemetry.grid5,
        telemetry.grid6,
        telemetry.altitude,
        telemetry.temperature,
        telemetry.voltage,
        telemetry.speed,
        telemetry.gps,
        callsign.0,
        callsign.1,
        locator.0,
        locator.1,
    )
}

pub fn read_telemetry(callsign: &[u8], locator: &[u8], power: u32) -> Reading {
    unsafe { u4b_read(callsign.as_ptr(), callsign.len(), locator.as_ptr(), locator.len(), power) }
}

/// `pack` from buffers that show whether anything was written.
pub fn pack_lent(callsign: &mut Lent, locator: &mut Lent, power: u32) -> Word {
    unsafe {
        wspr_pack(callsign.pointer(), callsign.len(), locator.pointer(), locator.len(), power)
    }
}

/// `unpack` into buffers that show what was written.
pub fn unpack_lent(word: u64, callsign: &mut Lent, locator: &mut Lent) -> Message {
    unsafe {
        wspr_unpack(word, callsign.pointer(), callsign.len(), locator.pointer(), locator.len())
    }
}

/// `write_word` into a buffer that shows what was written.
pub fn write_word_lent(word: u64, frame: &mut Lent) -> Written {
    unsafe { wspr_write_word(word, frame.pointer(), frame.len()) }
}

/// `write_message` from and into buffers that show what was written.
pub fn write_message_lent(
    callsign: &mut Lent,
    locator: &mut Lent,
    power: u32,
    frame: &mut Lent,
) -> Written {
    unsafe {
        wspr_write_message(
            callsign.pointer(),
            callsign.len(),
            locator.pointer(),
            locator.len(),
            power,
            frame.pointer(),
            frame.len(),
        )
    }
}

/// `read_word` from a buffer that shows whether anything was written.
pub fn read_word_lent(frame: &mut Lent) -> Word {
    unsafe { wspr_read_word(frame.pointer(), frame.len()) }
}

/// `read_message` from and into buffers that show what was written.
pub fn read_message_lent(frame: &mut Lent, callsign: &mut Lent, locator: &mut Lent) -> Message {
    unsafe {
        wspr_read_message(
            frame.pointer(),
            frame.len(),
            callsign.pointer(),
            callsign.len(),
            locator.pointer(),
            locator.len(),
        )
    }
}

/// `repair` from a buffer that shows whether anything was written.
pub fn repair_lent(frame: &mut Lent, limit: u32, budget: u32) -> Repaired {
    unsafe { wspr_repair(frame.pointer(), frame.len(), limit, budget) }
}

/// `write_telemetry` into buffers that show what was written.
pub fn write_telemetry_lent(
    telemetry: &Telemetry,
    callsign: &mut Lent,
    locator: &mut Lent,
) -> Message {
    unsafe {
        write_telemetry_at(
            telemetry,
            (callsign.pointer(), callsign.len()),
            (locator.pointer(), locator.len()),
        )
    }
}

/// `read_telemetry` from buffers that show whether anything was written.
pub fn read_telemetry_lent(callsign: &mut Lent, locator: &mut Lent, power: u32) -> Reading {
    unsafe { u4b_read(callsign.pointer(), callsign.len(), locator.pointer(), locator.len(), power) }
}
