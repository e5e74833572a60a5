//! Queries with one number as answer; refusal k is -k:
//! `bound N B V C T n P`, `least N B V T n P THRESHOLD`, `physical ROW` (by our remap).

use row_tracker_model::bound::{bound, least_counters};
use row_tracker_model::refusal::Refusal;
use row_tracker_model::remap::{physical_row, OUR_REMAP};
use row_tracker_model::settings::Settings;

use crate::numbers::Words;

/// None if the line is no query.
pub fn answer(line: &str) -> Option<String> {
    let mut words = Words::new(line);
    let number = match words.word()? {
        "bound" => signed(bound(&words.settings()?)),
        "least" => {
            let settings = Settings {
                rows: words.number()?,
                blast_diameter: words.number()?,
                volume: words.number()?,
                counters: 0,
                interval: words.number()?,
                window: words.number()?,
                block: words.number()?,
            };
            signed(least_counters(&settings, words.number()?).map(u64::from))
        }
        "physical" => i64::from(physical_row(&OUR_REMAP, words.number()?)),
        _ => return None,
    };
    words.last(number.to_string())
}

fn signed(result: Result<u64, Refusal>) -> i64 {
    match result {
        Ok(value) => value as i64,
        Err(refusal) => -refusal.number(),
    }
}
