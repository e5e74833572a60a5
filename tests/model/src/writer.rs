//! The writer of traces (document 02, C-11, C-15 and C-16): from records to text, one spelling for
//! each trace.

use crate::hold::check_hold;
use crate::refusal::Refusal;
use crate::remap::check_remap;
use crate::settings::Settings;
use crate::trace::{read_line, Record};

/// The one spelling of a record, its byte 10 included: blanks before each number, no leading
/// zeros. A blank record is passed over.
pub fn spelling(record: &Record) -> String {
    match record {
        Record::Settings(settings) => {
            let Settings {
                rows,
                blast_diameter,
                volume,
                counters,
                interval,
                window,
                block,
            } = settings;
            format!(
                "S{rows:6}{blast_diameter:6}{volume:6}{counters:6}{interval:6}{window:6}{block:6}\n"
            )
        }
        Record::Activation {
            logical_row,
            hold: 1,
        } => format!("A{logical_row:6}\n"),
        Record::Activation { logical_row, hold } => format!("H{logical_row:6}{hold:6}\n"),
        Record::Refresh => "R\n".to_string(),
        Record::Remap(remap) => {
            let numbers: String = remap.iter().map(|number| format!("{number:6}")).collect();
            format!("F{numbers}\n")
        }
        Record::Blank => String::new(),
    }
}

/// Writes the spellings of the reader's answers at the front of a lent text; the answer is the
/// number of bytes written. A refusal writes nothing.
pub fn write_trace(answers: &[Result<Record, Refusal>], text: &mut [u8]) -> Result<usize, Refusal> {
    let mut settings = None;
    let mut spelled = String::new();
    for answer in answers {
        spelled += &spelling(&tested(*answer, &mut settings)?);
    }
    let length = spelled.len();
    if length > text.len() {
        return Err(Refusal::TextLength);
    }
    text[..length].copy_from_slice(spelled.as_bytes());
    Ok(length)
}

/// A trace as the program `tracefmt` rewrites it.
pub struct Rewritten {
    /// The spelling of the lines before the first faulty one.
    pub text: String,
    /// The number of the first faulty line, from 1, and its refusal.
    pub fault: Option<(u64, Refusal)>,
}

/// Rewrites a whole trace, up to its first faulty line.
pub fn rewrite(text: &[u8]) -> Rewritten {
    let mut rewritten = Rewritten {
        text: String::new(),
        fault: None,
    };
    let mut settings = None;
    let mut place = 0;
    let mut line_number = 0;
    while place < text.len() {
        let (answer, behind) = read_line(text, place);
        place = behind;
        line_number += 1;
        match tested(answer, &mut settings) {
            Ok(record) => rewritten.text += &spelling(&record),
            Err(refusal) => {
                rewritten.fault = Some((line_number, refusal));
                break;
            }
        }
    }
    rewritten
}

/// The record of an answer, or the refusal that it earns behind `settings`, the settings last
/// before it; these are then those last before the next answer. No tracker is looked at.
fn tested(
    answer: Result<Record, Refusal>,
    settings: &mut Option<Settings>,
) -> Result<Record, Refusal> {
    let record = answer.map_err(|_| Refusal::Line)?;
    match record {
        Record::Settings(given) => {
            given.check()?;
            *settings = Some(given);
        }
        Record::Activation { logical_row, hold } => {
            let last = settings.ok_or(Refusal::Line)?;
            if logical_row >= last.rows {
                return Err(Refusal::LogicalRow);
            }
            check_hold(hold)?;
        }
        Record::Refresh => {
            settings.ok_or(Refusal::Line)?;
        }
        Record::Remap(remap) => check_remap(&remap)?,
        Record::Blank => {}
    }
    Ok(record)
}
