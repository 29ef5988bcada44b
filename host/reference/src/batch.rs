//! Many requests, judged once.

use crate::pool::{alloc_sound, free_sound};
use crate::refusal::Refusal;
use crate::validate::validate;
use crate::view::Call;

/// Serves request words in order and puts a word for each into `answers`.
///
/// Answers beyond the requests stay; a refused batch changes nothing at all.
pub fn batch(bytes: &mut [u8], requests: &[u64], answers: &mut [u64]) -> Result<(), Refusal> {
    if answers.len() < requests.len() {
        return Err(Refusal::AnswersTooShort);
    }
    if !validate(bytes) {
        return Err(Refusal::NotSound);
    }
    for (&request, answer) in requests.iter().zip(answers) {
        *answer = answer_word(serve(bytes, request));
    }
    Ok(())
}

fn serve(bytes: &mut [u8], request: u64) -> Result<u32, Refusal> {
    match read_request(request) {
        Some(Call::Alloc(size)) => alloc_sound(bytes, size),
        Some(Call::Free(offset)) => free_sound(bytes, offset),
        None => Err(Refusal::Unreadable),
    }
}

/// The call that a word asks for: top bit 0 to take or 1 to give, 31 zero bits,
/// the size or offset.
pub fn read_request(word: u64) -> Option<Call> {
    let gives = word >> 63 == 1;
    let zeros = word << 1 >> 33;
    let number = word as u32;
    match (zeros, gives) {
        (0, false) => Some(Call::Alloc(number)),
        (0, true) => Some(Call::Free(number)),
        _ => None,
    }
}

/// An answer as a word: the refusal in 8 bits, 24 zero bits, the value.
pub fn answer_word(answer: Result<u32, Refusal>) -> u64 {
    match answer {
        Ok(value) => u64::from(value),
        Err(refusal) => u64::from(refusal.number()) << 56,
    }
}
