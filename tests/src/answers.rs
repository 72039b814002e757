// What the C interface is to return for the answers of the independent implementation.
use crate::card;
use crate::reference::message::Message;
use crate::reference::repair::Repaired;
use crate::reference::telemetry::Telemetry;
use crate::reference::Refusal;

pub fn word_answer(answer: Result<u64, Refusal>) -> card::Word {
    match answer {
        Ok(word) => card::Word { refusal: 0, place: 0, word },
        Err(refusal) => refused_word(refusal.number, refusal.place),
    }
}

pub fn message_answer(answer: Result<Message, Refusal>) -> card::Message {
    match answer {
        Ok(message) => card::Message { refusal: 0, place: 0, power: message.power },
        Err(refusal) => refused_message(refusal.number, refusal.place),
    }
}

pub fn repaired_answer(answer: Result<Repaired, Refusal>) -> card::Repaired {
    match answer {
        Ok(Repaired { word, disagreements, live, sync_wrong, margin }) => {
            card::Repaired { refusal: 0, place: 0, word, disagreements, live, sync_wrong, margin }
        }
        Err(refusal) => refused_repair(refusal.number, refusal.place),
    }
}

pub fn reading_answer(answer: Result<Telemetry, Refusal>) -> card::Reading {
    match answer {
        Ok(telemetry) => card::Reading {
            refusal: 0,
            place: 0,
            first: telemetry.first,
            third: telemetry.third,
            grid5: telemetry.grid5,
            grid6: telemetry.grid6,
            altitude: telemetry.altitude,
            temperature: telemetry.temperature,
            voltage: telemetry.voltage,
            speed: telemetry.speed,
            gps: telemetry.gps,
        },
        Err(refusal) => refused_reading(refusal.number, refusal.place),
    }
}

/// For the calls that return nothing else; what they write is compared apart.
pub fn written_answer<Frame>(answer: Result<Frame, Refusal>) -> card::Written {
    match answer {
        Ok(_) => card::Written { refusal: 0, place: 0 },
        Err(refusal) => card::Written { refusal: refusal.number, place: refusal.place },
    }
}

pub fn refused_word(refusal: u32, place: u32) -> card::Word {
    card::Word { refusal, place, word: 0 }
}

pub fn refused_message(refusal: u32, place: u32) -> card::Message {
    card::Message { refusal, place, power: 0 }
}

pub fn refused_repair(refusal: u32, place: u32) -> card::Repaired {
    card::Repaired { refusal, place, word: 0, disagreements: 0, live: 0, sync_wrong: 0, margin: 0 }
}

pub fn refused_reading(refusal: u32, place: u32) -> card::Reading {
    card::Reading {
        refusal,
        place,
        first: 0,
        third: 0,
        grid5: 0,
        grid6: 0,
        altitude: 0,
        temperature: 0,
        voltage: 0,
        speed: 0,
        gps: 0,
    }
}
