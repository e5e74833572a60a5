//! What the plain counter holds: after calls that it is told, and of the silicon behind a listing.
//!
//! Queries: `counter`, the seven settings, calls and `[rows FROM MANY]`; and with the names of two
//! files `departure TRACE LISTING` and `silicon TRACE LISTING LINES`. Calls are `activate ROW HOLD`,
//! under our remap or the one that `remap` with 16 numbers gave last, and `refresh` with the list of
//! the rows that the event named, its length and its numbers; `refused` before a call says that it was.
//! The answer is f and the number of every row, or the numbers of so many rows from one on; of a
//! departure what `rowcheck` prints; of the silicon what its counter holds behind so many lines of the
//! trace, or `nothing` before any accepted `S`.

use std::fs;

use row_tracker_model::check::{answer as printed, departure};
use row_tracker_model::disturbance::Disturbance;
use row_tracker_model::remap::OUR_REMAP;
use row_tracker_model::silicon::Silicon;

use crate::numbers::Words;

/// None if the line is no query.
pub fn answer(line: &str) -> Option<String> {
    let mut words = Words::new(line);
    match words.word()? {
        "counter" => counter(&mut words),
        "departure" => {
            let (trace, listing) = (text(&mut words)?, text(&mut words)?);
            words.last(printed(departure(&trace, &listing)))
        }
        "silicon" => {
            let (trace, listing) = (text(&mut words)?, text(&mut words)?);
            let lines = words.number()?;
            words.last(())?;
            behind(&trace, &listing, lines)
        }
        _ => None,
    }
}

fn counter(words: &mut Words) -> Option<String> {
    let settings = words.settings()?;
    let mut counter = Disturbance::set_up(&settings);
    let mut remap = OUR_REMAP;
    while let Some(mut word) = words.word() {
        // A refused call changes nothing, and the counter is not told of it.
        let is_refused = word == "refused";
        if is_refused {
            word = words.word()?;
        }
        match word {
            "activate" => {
                let (logical_row, hold) = (words.number()?, words.number()?);
                if !is_refused {
                    counter.activate(logical_row, hold, &remap);
                }
            }
            "refresh" => {
                let named = words.list()?;
                if !is_refused {
                    counter.refresh(&named);
                }
            }
            "remap" if !is_refused => remap = words.remap()?,
            "rows" if !is_refused => {
                let (from, many): (usize, usize) = (words.number()?, words.number()?);
                let counts = counter.counts().get(from..from + many)?;
                return words.last(numbers(counts));
            }
            _ => return None,
        }
    }
    Some(held(&counter))
}

fn behind(trace: &[u8], listing: &[u8], lines: u64) -> Option<String> {
    let mut silicon = Silicon::new(trace, listing);
    for _ in 0..lines {
        silicon.step()?.ok()?;
    }
    Some(match &silicon.bank {
        None => "nothing".to_string(),
        Some(bank) => held(&bank.disturbance),
    })
}

fn held(counter: &Disturbance) -> String {
    format!("{} {}", counter.events(), numbers(counter.counts()))
}

fn numbers(counts: &[u64]) -> String {
    let words: Vec<String> = counts.iter().map(u64::to_string).collect();
    words.join(" ")
}

fn text(words: &mut Words) -> Option<Vec<u8>> {
    fs::read(words.word()?).ok()
}
