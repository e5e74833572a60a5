//! Requests of the writer as the program `test_writer` answers them; words have four bytes, the
//! lowest first.
//!
//! A request: the length of the trace, the length of the lent text, and places for a trace. An
//! answer: 0 and the number of bytes written, or 1 and the refusal; then the places for a lent
//! text as they are after the call. Before it, place i of these holds i modulo `PATTERN`.

use row_tracker_model::trace::read_line;
use row_tracker_model::writer::write_trace;

const TRACE_PLACES: usize = 2_048;
const TEXT_PLACES: usize = 4_096;
const PATTERN: usize = 251;

pub const REQUEST: usize = 8 + TRACE_PLACES;

/// None if a length is larger than its places.
pub fn answer(request: &[u8; REQUEST]) -> Option<Vec<u8>> {
    let trace = request[8..].get(..word(request, 0))?;
    let mut places: Vec<u8> = (0..TEXT_PLACES).map(|i| (i % PATTERN) as u8).collect();
    let text = places.get_mut(..word(request, 4))?;

    let mut answers = Vec::new();
    let mut place = 0;
    while place < trace.len() {
        let (answer, behind) = read_line(trace, place);
        answers.push(answer);
        place = behind;
    }
    let (refused, number) = match write_trace(&answers, text) {
        Ok(written) => (0, written as u32),
        Err(refusal) => (1, refusal.number() as u32),
    };
    let mut answer = [u32::to_le_bytes(refused), number.to_le_bytes()].concat();
    answer.append(&mut places);
    Some(answer)
}

fn word(bytes: &[u8], place: usize) -> usize {
    let word = [0, 1, 2, 3].map(|offset| bytes[place + offset]);
    u32::from_le_bytes(word) as usize
}
