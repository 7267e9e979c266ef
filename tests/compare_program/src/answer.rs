//! Answers in the form of the C interface: one number of 64 bits.

use second::refusal::Refusal;
use second::scheme::Signing;
use second::vectors::Answer;

fn joined(answer: Answer) -> u64 {
    let Answer { number, place, index, tries } = answer;
    u64::from(number) + (u64::from(place) << 8) + (u64::from(index) << 16) + (u64::from(tries) << 32)
}

pub fn of(result: Result<(), Refusal>) -> u64 {
    joined(Answer::of(result.err(), 0))
}

pub fn of_signing(signing: Signing) -> u64 {
    joined(Answer::of(signing.refusal, signing.tries))
}

pub fn parts(answer: u64) -> Answer {
    Answer {
        number: (answer & 0xff) as u32,
        place: (answer >> 8 & 0xff) as u32,
        index: (answer >> 16 & 0xffff) as u32,
        tries: (answer >> 32) as u32,
    }
}

pub fn number(answer: u64) -> u64 {
    u64::from(parts(answer).number)
}

pub fn tries(answer: u64) -> u64 {
    u64::from(parts(answer).tries)
}

/// An answer taken apart, for a reader.
pub fn shown(answer: u64) -> String {
    let Answer { number, place, index, tries } = parts(answer);
    format!("number {number} place {place} index {index} tries {tries}")
}
