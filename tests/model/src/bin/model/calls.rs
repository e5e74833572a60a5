//! Calls of the library with the memory that they are lent; refusal k is -k.
//!
//! A list is its length and its numbers, STATE is the seven settings and the lists of rows,
//! counts and position (events, activations, tracked, spillover). Queries:
//! `set_up STATE [remap REMAP]`, `activate STATE ROW HOLD [remap REMAP]`, `refresh STATE PICKS`,
//! `agree STATE STATE [remap REMAP REMAP]`, `estimates_agree STATE STATE`, and `row_limit` with the
//! settings, the list of the position, `ROW` and `[remap REMAP]`. REMAP is 16 numbers, and where it
//! is left out it is our own; of an agreement both are given, the first state's before the second's.
//! The answer is the call's number and then every lent list as it is afterwards; `row_limit` is
//! lent none.

use row_tracker_model::figure::row_limit;
use row_tracker_model::refusal::Refusal;
use row_tracker_model::remap::{Remap, OUR_REMAP};
use row_tracker_model::settings::Settings;
use row_tracker_model::tracker::{
    activate, agree, estimates_agree, refresh, set_up, Lent, Position,
};

use crate::numbers::Words;

/// None if the line is no query.
pub fn answer(line: &str) -> Option<String> {
    let mut words = Words::new(line);
    let call = words.word()?;
    if call == "row_limit" {
        let settings = words.settings()?;
        let position = read_position(&mut words)?;
        let logical_row = words.number()?;
        let remap = read_remap(&mut words)?;
        let figure = row_limit(&settings, &remap, logical_row, position);
        return words.last(signed(figure.map(|figure| figure as i64)).to_string());
    }
    let mut state = State::read(&mut words)?;
    let State {
        settings,
        rows,
        counts,
        position,
    } = &mut state;
    let answer = match call {
        "set_up" => {
            let result = set_up(settings, rows, counts, &read_remap(&mut words)?);
            let number = signed(result.map(|_| 0));
            *position = result.unwrap_or(*position);
            format!("{number}{}", state.lists())
        }
        "activate" => {
            let logical_row = words.number()?;
            let hold = words.number()?;
            let remap = read_remap(&mut words)?;
            let result = activate(settings, rows, counts, *position, logical_row, hold, &remap);
            let number = signed(result.map(|_| 0));
            *position = result.unwrap_or(*position);
            format!("{number}{}", state.lists())
        }
        "refresh" => {
            let mut picks = words.list()?;
            let result = refresh(settings, rows, counts, *position, &mut picks);
            let number = signed(result.map(|(_, picked)| picked as i64));
            *position = result.map_or(*position, |(position, _)| position);
            format!("{number}{}{}", state.lists(), list(&picks))
        }
        "agree" => {
            let other = State::read(&mut words)?;
            let (remap, other_remap) = read_remaps(&mut words)?;
            let result = agree(state.lent(), &remap, other.lent(), &other_remap);
            let number = signed(result.map(i64::from));
            format!("{number}{}{}", state.lists(), other.lists())
        }
        "estimates_agree" => {
            let other = State::read(&mut words)?;
            let result = estimates_agree(state.lent(), other.lent());
            let number = signed(result.map(i64::from));
            format!("{number}{}{}", state.lists(), other.lists())
        }
        _ => return None,
    };
    words.last(answer)
}

/// The remap at the end of a query, or our own.
fn read_remap(words: &mut Words) -> Option<Remap> {
    match words.word() {
        None => Some(OUR_REMAP),
        Some("remap") => words.remap(),
        Some(_) => None,
    }
}

/// Both remaps at the end of a query, or our own twice.
fn read_remaps(words: &mut Words) -> Option<(Remap, Remap)> {
    match words.word() {
        None => Some((OUR_REMAP, OUR_REMAP)),
        Some("remap") => Some((words.remap()?, words.remap()?)),
        Some(_) => None,
    }
}

fn read_position(words: &mut Words) -> Option<Position> {
    let [events, activations, tracked, spillover] = words.list()?.try_into().ok()?;
    Some(Position {
        events,
        activations,
        tracked,
        spillover,
    })
}

struct State {
    settings: Settings,
    rows: Vec<u32>,
    counts: Vec<u32>,
    position: Position,
}

impl State {
    fn read(words: &mut Words) -> Option<State> {
        let settings = words.settings()?;
        let rows = words.list()?;
        let counts = words.list()?;
        let position = read_position(words)?;
        Some(State {
            settings,
            rows,
            counts,
            position,
        })
    }

    fn lent(&self) -> Lent<'_> {
        Lent {
            settings: &self.settings,
            rows: &self.rows,
            counts: &self.counts,
            position: self.position,
        }
    }

    fn lists(&self) -> String {
        let Position {
            events,
            activations,
            tracked,
            spillover,
        } = self.position;
        let position = [events, activations, tracked, spillover];
        list(&self.rows) + &list(&self.counts) + &list(&position)
    }
}

/// The length and the numbers, each behind a blank.
fn list(numbers: &[u32]) -> String {
    let mut text = format!(" {}", numbers.len());
    for number in numbers {
        text += &format!(" {number}");
    }
    text
}

fn signed(result: Result<i64, Refusal>) -> i64 {
    match result {
        Ok(value) => value,
        Err(refusal) => -refusal.number(),
    }
}
