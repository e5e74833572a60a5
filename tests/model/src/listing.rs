//! The listing of a trace, as the program `rowlist` prints it.

use crate::bound::bound;
use crate::refusal::Refusal;
use crate::remap::{check_remap, Remap, OUR_REMAP};
use crate::settings::Settings;
use crate::trace::{read_line, Record};
use crate::tracker::{activate, refresh, set_up, Position};

/// Line numbers are printed modulo this.
const LINE_NUMBERS: u64 = 10_000_000_000;

/// A tracker with its own memory, and the remap that was loaded when it was set up.
struct Tracker {
    settings: Settings,
    remap: Remap,
    rows: Vec<u32>,
    counts: Vec<u32>,
    position: Position,
}

/// The whole output for a whole input.
pub fn listing(text: &[u8]) -> String {
    let mut output = String::new();
    let mut tracker = None;
    let mut loaded = OUR_REMAP;
    let mut place = 0;
    let mut line_number = 0;
    while place < text.len() {
        let (read, behind) = read_line(text, place);
        place = behind;
        line_number += 1;
        match read.and_then(|record| take(record, &mut tracker, &mut loaded)) {
            Ok(printed) => output += &printed,
            Err(refusal) => output += &refused_line(line_number, refusal),
        }
    }
    output
}

/// Does what a record says; the answer is what it prints. `loaded` is the remap for every later
/// set up.
fn take(
    record: Record,
    tracker: &mut Option<Tracker>,
    loaded: &mut Remap,
) -> Result<String, Refusal> {
    match record {
        Record::Blank => Ok(String::new()),
        Record::Settings(settings) => {
            *tracker = None;
            let (accepted, printed) = begin(settings, *loaded)?;
            *tracker = Some(accepted);
            Ok(printed)
        }
        Record::Remap(remap) => {
            check_remap(&remap)?;
            *loaded = remap;
            Ok(String::new())
        }
        Record::Activation { logical_row, hold } => {
            let tracker = tracker.as_mut().ok_or(Refusal::Line)?;
            tracker.position = activate(
                &tracker.settings,
                &mut tracker.rows,
                &mut tracker.counts,
                tracker.position,
                logical_row,
                hold,
                &tracker.remap,
            )?;
            Ok(String::new())
        }
        Record::Refresh => {
            let tracker = tracker.as_mut().ok_or(Refusal::Line)?;
            let event = tracker.position.events;
            let mut picks = vec![0; tracker.settings.volume as usize];
            let (position, picked) = refresh(
                &tracker.settings,
                &mut tracker.rows,
                &mut tracker.counts,
                tracker.position,
                &mut picks,
            )?;
            tracker.position = position;
            Ok(event_line(event, &picks[..picked]))
        }
    }
}

fn begin(settings: Settings, remap: Remap) -> Result<(Tracker, String), Refusal> {
    let bound = bound(&settings)?;
    let mut rows = vec![0; settings.counters as usize];
    let mut counts = vec![0; settings.counters as usize];
    let position = set_up(&settings, &mut rows, &mut counts, &remap)?;
    let tracker = Tracker {
        settings,
        remap,
        rows,
        counts,
        position,
    };
    Ok((tracker, format!("B{:10}{:10}\n", bound, 2 * bound)))
}

fn event_line(event: u32, picked: &[u32]) -> String {
    let mut line = format!("R{:6}{:6}", event, picked.len());
    for row in picked {
        line += &format!("{row:6}");
    }
    line + "\n"
}

/// The line printed for a refused line.
pub fn refused_line(line_number: u64, refusal: Refusal) -> String {
    format!("X{:10}{:6}\n", line_number % LINE_NUMBERS, refusal.number())
}
