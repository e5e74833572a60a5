//! The reader of trace lines.

use crate::refusal::Refusal;
use crate::remap::Remap;
use crate::settings::Settings;

const COLUMNS: usize = 6;
const END_OF_LINE: u8 = 10;

#[derive(Clone, Copy, Debug, PartialEq, Eq)]
pub enum Record {
    Settings(Settings),
    /// `A` or `H`; the hold of `A` is 1, and that of `H` is untested.
    Activation {
        logical_row: u32,
        hold: u32,
    },
    Refresh,
    /// The numbers of an `F` line, untested.
    Remap(Remap),
    Blank,
}

/// Reads the line at a place of the text: a record or refusal 11, and the place behind the line.
pub fn read_line(text: &[u8], place: usize) -> (Result<Record, Refusal>, usize) {
    if place >= text.len() {
        return (Err(Refusal::Line), place);
    }
    let rest = &text[place..];
    match rest.iter().position(|byte| *byte == END_OF_LINE) {
        None => (Err(Refusal::Line), text.len()),
        Some(length) => {
            let record = record(&rest[..length]).ok_or(Refusal::Line);
            (record, place + length + 1)
        }
    }
}

/// The record of a line without its byte 10; None if it has another form.
fn record(line: &[u8]) -> Option<Record> {
    let Some((letter, fields)) = line.split_first() else {
        return Some(Record::Blank);
    };
    match letter {
        b'S' => {
            let [rows, blast_diameter, volume, counters, interval, window, block] =
                numbers(fields)?;
            Some(Record::Settings(Settings {
                rows,
                blast_diameter,
                volume,
                counters,
                interval,
                window,
                block,
            }))
        }
        b'A' => {
            let [logical_row] = numbers(fields)?;
            Some(Record::Activation {
                logical_row,
                hold: 1,
            })
        }
        b'H' => {
            let [logical_row, hold] = numbers(fields)?;
            Some(Record::Activation { logical_row, hold })
        }
        b'F' => Some(Record::Remap(numbers(fields)?)),
        b'R' if fields.is_empty() => Some(Record::Refresh),
        _ => None,
    }
}

/// Exactly `COUNT` fields of six columns.
fn numbers<const COUNT: usize>(fields: &[u8]) -> Option<[u32; COUNT]> {
    if fields.len() != COUNT * COLUMNS {
        return None;
    }
    let mut result = [0; COUNT];
    for (place, field) in fields.chunks(COLUMNS).enumerate() {
        result[place] = number(field)?;
    }
    Some(result)
}

/// Blanks, then at least one digit.
fn number(field: &[u8]) -> Option<u32> {
    let first_digit = field.iter().position(|byte| *byte != b' ')?;
    let mut value = 0;
    for byte in &field[first_digit..] {
        if !byte.is_ascii_digit() {
            return None;
        }
        value = 10 * value + u32::from(byte - b'0');
    }
    Some(value)
}
