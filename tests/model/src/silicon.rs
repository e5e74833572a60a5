//! The silicon behind a listing (document 02, C-18): the exact disturbance of its rows, from the two
//! texts alone, 'if it took the accepted activations and no others and refreshed the rows it listed
//! and the regular blocks, all in the trace's order'.
//!
//! Which lines of a trace are accepted follows from the trace. No tracker is kept here: the rows that
//! an event refreshed besides its block are read from the columns of the listing.

use std::cell::Cell;

use crate::bound::bound_at;
use crate::check::lines;
use crate::disturbance::Disturbance;
use crate::figure::{own_event, Figures};
use crate::hold::check_hold;
use crate::remap::{check_remap, Remap, OUR_REMAP};
use crate::settings::Settings;
use crate::trace::{read_line, Record};

/// Columns of the numbers in a listing's lines.
const EVENT_COLUMNS: usize = 6;
const LINE_NUMBER_COLUMNS: usize = 10;
/// Line numbers are printed modulo this.
const LINE_NUMBERS: u64 = 10_000_000_000;

/// The largest bank of which every row is looked at after every line, and after every event.
const ROWS_AT_EACH_LINE: u32 = 128;
const ROWS_AT_EACH_EVENT: u32 = 4_096;

/// The bank since the last accepted `S`; a refused one leaves it as it is.
pub struct Bank {
    pub settings: Settings,
    remap: Remap,
    /// Units since the last event.
    activations: u32,
    /// 'e': events so far in this window.
    pub events: u32,
    pub disturbance: Disturbance,
}

/// What the silicon did with a line of the trace.
#[derive(Clone, Copy, Debug, PartialEq, Eq)]
pub enum Step {
    SetUp,
    Activation,
    Event,
    /// A blank line or a remap.
    Nothing,
    Refused,
}

pub struct Silicon<'a> {
    trace: &'a [u8],
    place: usize,
    /// Lines of the trace so far.
    pub line_number: u64,
    listing: Vec<&'a [u8]>,
    /// Lines of the listing so far.
    pub listed: usize,
    loaded: Remap,
    pub bank: Option<Bank>,
    /// Whether the bank takes activations and events: not behind a refused `S`.
    is_set_up: bool,
}

impl<'a> Silicon<'a> {
    pub fn new(trace: &'a [u8], listing: &'a [u8]) -> Silicon<'a> {
        Silicon {
            trace,
            place: 0,
            line_number: 0,
            listing: lines(listing),
            listed: 0,
            loaded: OUR_REMAP,
            bank: None,
            is_set_up: false,
        }
    }

    /// Takes the next line of the trace, and of the listing if it has a line for it; None where no
    /// byte of the trace is left. An error says why the listing cannot be read.
    pub fn step(&mut self) -> Option<Result<Step, String>> {
        if self.place >= self.trace.len() {
            return None;
        }
        let (read, behind) = read_line(self.trace, self.place);
        self.place = behind;
        self.line_number += 1;
        Some(match read {
            Err(_) => self.refused(),
            Ok(record) => self.take(record),
        })
    }

    fn take(&mut self, record: Record) -> Result<Step, String> {
        match record {
            Record::Blank => Ok(Step::Nothing),
            Record::Settings(settings) => {
                self.is_set_up = false;
                if settings.check().is_err() {
                    return self.refused();
                }
                self.listed_line(b'B')?;
                self.is_set_up = true;
                self.bank = Some(Bank {
                    settings,
                    remap: self.loaded,
                    activations: 0,
                    events: 0,
                    disturbance: Disturbance::set_up(&settings),
                });
                Ok(Step::SetUp)
            }
            Record::Remap(remap) => {
                if check_remap(&remap).is_err() {
                    return self.refused();
                }
                self.loaded = remap;
                Ok(Step::Nothing)
            }
            Record::Activation { logical_row, hold } => {
                let accepting = self.bank.as_mut().filter(|bank| {
                    self.is_set_up
                        && logical_row < bank.settings.rows
                        && check_hold(hold).is_ok()
                        && bank.activations + hold <= bank.settings.interval
                });
                let Some(bank) = accepting else {
                    return self.refused();
                };
                bank.activations += hold;
                bank.disturbance.activate(logical_row, hold, &bank.remap);
                Ok(Step::Activation)
            }
            Record::Refresh => {
                if !self.is_set_up {
                    return self.refused();
                }
                let line = self.listed_line(b'R')?;
                let about = |what: &str| format!("{what}: {:?}", String::from_utf8_lossy(line));
                let [event, picked, rows @ ..] = &columns(line, EVENT_COLUMNS)[..] else {
                    return Err(about("no line of an event"));
                };
                let Some(bank) = self.bank.as_mut() else {
                    return Err(about("no bank"));
                };
                let rows: Vec<u32> = rows.iter().map(|row| *row as u32).collect();
                if *event != u64::from(bank.events)
                    || *picked != rows.len() as u64
                    || rows.iter().any(|row| *row >= bank.settings.rows)
                {
                    return Err(about("not this event's line"));
                }
                bank.disturbance.refresh(&rows);
                bank.activations = 0;
                bank.events = (bank.events + 1) % bank.settings.window;
                Ok(Step::Event)
            }
        }
    }

    /// The listing tells which line was refused.
    fn refused(&mut self) -> Result<Step, String> {
        let line = self.listed_line(b'X')?;
        let line_number = line.get(1..1 + LINE_NUMBER_COLUMNS).and_then(number);
        if line_number == Some(self.line_number % LINE_NUMBERS) {
            Ok(Step::Refused)
        } else {
            Err(format!(
                "line {} of the trace is refused, and the listing has {:?}",
                self.line_number,
                String::from_utf8_lossy(line)
            ))
        }
    }

    /// The next line of the listing, which has to begin with this letter, without its byte 10.
    fn listed_line(&mut self, letter: u8) -> Result<&'a [u8], String> {
        let line = self.listing.get(self.listed).copied();
        self.listed += 1;
        match line.and_then(|line| line.strip_suffix(b"\n")) {
            Some(line) if line.first() == Some(&letter) => Ok(line),
            _ => Err(format!(
                "line {} of the listing does not begin with {}",
                self.listed,
                char::from(letter)
            )),
        }
    }

    pub fn counts(&self) -> &[u64] {
        self.bank
            .as_ref()
            .map_or(&[], |bank| bank.disturbance.counts())
    }
}

/// The numbers behind a line's letter; none if one of them cannot be read.
fn columns(line: &[u8], width: usize) -> Vec<u64> {
    let fields = line[1..].chunks(width);
    let numbers: Option<Vec<u64>> = fields.map(number).collect();
    numbers.unwrap_or_default()
}

/// A number right-justified with blanks.
fn number(field: &[u8]) -> Option<u64> {
    std::str::from_utf8(field).ok()?.trim_start().parse().ok()
}

/// What was looked at.
#[derive(Clone, Copy, Debug, Default)]
pub struct Report {
    pub lines: u64,
    pub set_ups: u64,
    pub activations: u64,
    pub events: u64,
    pub refused: u64,
    /// Rows held against their limits, each time that they were.
    pub rows: u64,
    /// The highest disturbance, in percent of H in the first window and of 2 x H later, and of a row's
    /// closer figure.
    pub first_window_percent: f64,
    pub later_percent: f64,
    pub figure_percent: f64,
}

impl Report {
    pub fn add(&mut self, other: &Report) {
        self.lines += other.lines;
        self.set_ups += other.set_ups;
        self.activations += other.activations;
        self.events += other.events;
        self.refused += other.refused;
        self.rows += other.rows;
        let highest = [
            (&mut self.first_window_percent, other.first_window_percent),
            (&mut self.later_percent, other.later_percent),
            (&mut self.figure_percent, other.figure_percent),
        ];
        for (mine, others) in highest {
            *mine = mine.max(others);
        }
    }
}

/// Whether, after each line of the trace, each row's exact disturbance since the last accepted `S` is
/// at most 2 x H, at most H in the first window, and at most the row's closer figure (C-17).
pub fn limits_hold(trace: &[u8], listing: &[u8]) -> Result<Report, String> {
    let mut silicon = Silicon::new(trace, listing);
    let mut report = Report::default();
    let mut bounds = Vec::new();
    while let Some(step) = silicon.step() {
        let step = step?;
        report.lines += 1;
        match step {
            Step::SetUp => report.set_ups += 1,
            Step::Activation => report.activations += 1,
            Step::Event => report.events += 1,
            Step::Refused => report.refused += 1,
            Step::Nothing => {}
        }
        if let Some(bank) = &silicon.bank {
            if step == Step::SetUp {
                bounds = vec![Cell::new(None); bank.settings.window as usize + 1];
            }
            let checked = check_bank(bank, step, &bounds, &mut report);
            checked.map_err(|what| format!("line {}: {what}", silicon.line_number))?;
        }
    }
    if silicon.listed < silicon.listing.len() {
        return Err("the listing has lines that the trace has none for".to_string());
    }
    Ok(report)
}

/// Looks at every row of a small bank after every line. Of a larger one it looks at those that an
/// activation disturbed, since no other has risen, and at all after an event or, in the largest
/// banks, when a window begins: within it a row's figure falls only when its block is refreshed.
fn check_bank(
    bank: &Bank,
    step: Step,
    bounds: &[Cell<Option<u64>>],
    report: &mut Report,
) -> Result<(), String> {
    let settings = &bank.settings;
    let looks_at_all = settings.rows <= ROWS_AT_EACH_LINE
        || step == Step::SetUp
        || step == Step::Event && (settings.rows <= ROWS_AT_EACH_EVENT || bank.events == 0);
    if looks_at_all {
        (0..settings.rows).try_for_each(|row| check_row(bank, row, bounds, report))
    } else {
        let disturbed = bank.disturbance.disturbed().iter();
        disturbed
            .copied()
            .try_for_each(|row| check_row(bank, row, bounds, report))
    }
}

/// `bounds` keeps H(i), at place i, once it was needed.
fn check_row(
    bank: &Bank,
    row: u32,
    bounds: &[Cell<Option<u64>>],
    report: &mut Report,
) -> Result<(), String> {
    let settings = &bank.settings;
    let bound_at = |events| {
        let kept = &bounds[events as usize];
        kept.get().unwrap_or_else(|| {
            let bound = bound_at(settings, events);
            kept.set(Some(bound));
            bound
        })
    };
    let figures = Figures { settings, bound_at };
    let count = bank.disturbance.counts()[row as usize];
    let is_first = bank.disturbance.in_first_window();

    let bound = (figures.bound_at)(settings.window);
    let (limit, percent) = if is_first {
        (bound, &mut report.first_window_percent)
    } else {
        (2 * bound, &mut report.later_percent)
    };
    *percent = percent.max(100.0 * count as f64 / limit as f64);

    let has_passed = bank.events > own_event(settings, row);
    let mut figure = figures.present(bank.events);
    if !is_first && !has_passed {
        figure += figures.carried(row);
    }
    report.figure_percent = report
        .figure_percent
        .max(100.0 * count as f64 / figure as f64);

    report.rows += 1;
    if count <= limit && count <= figure && count <= figures.figure(bank.events, row) {
        Ok(())
    } else {
        Err(format!(
            "row {row}, {} events into a window of {settings:?}: disturbance {count} is above the \
             limit {limit} or the row's figure {figure}",
            bank.events
        ))
    }
}

#[cfg(test)]
mod tests {
    use super::*;
    use crate::check::departure;
    use crate::listing::listing;

    const TRACE: &[u8] = b"S    16     2     1     2     4     4     4\n\
        A     5\nA     5\nA     2\nR\nA    16\n";
    const LISTING: &[u8] = b"B        30        60\nR     0     1     4\nX         6     9\n";

    /// The counts after each line, each with its row, without those of 0.
    fn counts(trace: &[u8], listing: &[u8]) -> Vec<Vec<(usize, u64)>> {
        let mut silicon = Silicon::new(trace, listing);
        let mut after_lines = Vec::new();
        while let Some(step) = silicon.step() {
            step.unwrap();
            let counts = silicon.counts().iter().copied().enumerate();
            after_lines.push(counts.filter(|(_, count)| *count > 0).collect());
        }
        after_lines
    }

    #[test]
    fn the_example_by_hand() {
        let after_lines = counts(TRACE, LISTING);
        assert_eq!(after_lines[0], []);
        assert_eq!(after_lines[1], [(4, 1), (6, 1)]);
        assert_eq!(after_lines[2], [(4, 2), (6, 2)]);
        // Logical row 2 is physical row 3.
        assert_eq!(after_lines[3], [(2, 1), (4, 3), (6, 2)]);
        // Row 4 is listed, and rows 0 to 3 are the block.
        let event = [(0, 1), (1, 2), (2, 2), (3, 2), (4, 1), (5, 1), (6, 2)];
        assert_eq!(after_lines[4], event);
        assert_eq!(after_lines[5], event);
    }

    #[test]
    fn another_row_in_the_listing_is_another_row_refreshed() {
        let altered = b"B        30        60\nR     0     1     6\nX         6     9\n";
        assert_eq!(departure(TRACE, altered), Some(2));
        let event = [(0, 1), (1, 2), (2, 2), (3, 1), (4, 4), (5, 1), (7, 1)];
        assert_eq!(counts(TRACE, altered)[4], event);
    }

    #[test]
    fn a_row_of_the_block_may_be_listed_and_counts_once() {
        let altered = b"B        30        60\nR     0     1     2\nX         6     9\n";
        let event = [(0, 1), (1, 2), (2, 2), (3, 1), (4, 4), (6, 2)];
        assert_eq!(counts(TRACE, altered)[4], event);
    }

    /// A hold counts its units, `F` holds from the next accepted `S` on, an activation that would
    /// pass T is refused whole, and behind a refused `S` nothing is accepted.
    #[test]
    fn holds_remaps_and_refused_lines() {
        let identity: String = (0..16).map(|number| format!("{number:6}")).collect();
        let trace = format!(
            "S    16     2     1     2     4     4     4\nF{identity}\nH     2     3\nH     2     2\n\
             S    16     2     1     2     4     4     4\nH     2     3\nA     9\nA     9\n\
             S    16     2     1     2     4     4     3\nA     2\n"
        );
        let listing = "B        30        60\nX         4    22\nB        30        60\n\
                       X         8    22\nX         9     7\nX        10    11\n";
        assert_eq!(departure(trace.as_bytes(), listing.as_bytes()), None);
        let after_lines = counts(trace.as_bytes(), listing.as_bytes());
        assert_eq!(after_lines[2], [(2, 3), (4, 3)]);
        assert_eq!(after_lines[3], [(2, 3), (4, 3)]);
        assert_eq!(after_lines[4], []);
        assert_eq!(after_lines[5], [(1, 3), (3, 3)]);
        assert_eq!(after_lines[6], [(1, 3), (3, 3), (8, 1), (10, 1)]);
        assert_eq!(after_lines[7], after_lines[6]);
        assert_eq!(after_lines[8], after_lines[6]);
        assert_eq!(after_lines[9], after_lines[6]);
    }

    #[test]
    fn the_example_is_within_its_limits() {
        let report = limits_hold(TRACE, LISTING).unwrap();
        assert_eq!((report.lines, report.set_ups, report.refused), (6, 1, 1));
        assert_eq!((report.activations, report.events), (3, 1));
        assert_eq!(report.rows, 6 * 16);
    }

    /// One row activated without end: its neighbours are picked again and again, and silicon that
    /// lists other rows, so that its listing departs, passes every limit.
    #[test]
    fn silicon_that_refreshes_other_rows_exceeds_its_limits() {
        let hammered = ["A    40\n".repeat(64), "R\n".to_string()].concat();
        let settings = "S    64     2     2    16    64    64     1\n";
        let trace = [settings, &hammered.repeat(63)].concat();
        let required = listing(trace.as_bytes());
        assert!(limits_hold(trace.as_bytes(), required.as_bytes()).is_ok());

        let altered: String = required
            .lines()
            .map(|line| match line.starts_with('R') {
                true => format!("{}     0     1\n", &line[..13]),
                false => format!("{line}\n"),
            })
            .collect();
        assert_eq!(departure(trace.as_bytes(), altered.as_bytes()), Some(2));
        let exceeded = limits_hold(trace.as_bytes(), altered.as_bytes()).unwrap_err();
        assert!(exceeded.contains("disturbance"), "{exceeded}");
    }

    #[test]
    fn a_listing_that_belongs_to_another_trace_is_no_record_of_the_silicon() {
        for listing in [
            &b""[..],
            b"B        30        60\n",
            b"B        30        60\nR     1     1     4\nX         6     9\n",
            b"B        30        60\nR     0     2     4\nX         6     9\n",
            b"B        30        60\nR     0     1    16\nX         6     9\n",
            b"B        30        60\nR     0     1     4\nX         5     9\n",
            b"B        30        60\nR     0     1     4\nX         6     9",
            b"B        30        60\nR     0     1     4\nX         6     9\n\n",
        ] {
            assert!(limits_hold(TRACE, listing).is_err());
            assert!(departure(TRACE, listing).is_some());
        }
    }
}
