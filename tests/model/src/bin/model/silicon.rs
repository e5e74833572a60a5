//! Plays random traces and prints how close the silicon behind their listings came to its limits.

use std::fs;

use row_tracker_model::listing::listing;
use row_tracker_model::random::Random;
use row_tracker_model::silicon::{limits_hold, Report};
use row_tracker_model::supplier::{play, Altered};

use crate::numbers::Words;

/// The exit status: 0 if all held on every trace.
pub fn check(seed: u64, runs: u64) -> i32 {
    let mut seeds = Random::new(seed);
    let mut total = Report::default();
    let mut altered = Altered::default();
    let mut failed = 0;
    for _ in 0..runs {
        match play(seeds.next()) {
            Ok((report, found)) => {
                total.add(&report);
                altered.listings += found.listings;
                altered.changed += found.changed;
                altered.exceeding += found.exceeding;
            }
            Err(what) => {
                failed += 1;
                println!("  FAILED {what}");
            }
        }
    }
    println!(
        "seed {seed}: {} lines, {} banks, {} activations, {} events, {} lines refused; {} times a row \
         was held against its limits; the highest disturbance is {:.2} % of H in the first window, \
         {:.2} % of 2 x H later and {:.2} % of the row's figure",
        total.lines,
        total.set_ups,
        total.activations,
        total.events,
        total.refused,
        total.rows,
        total.first_window_percent,
        total.later_percent,
        total.figure_percent
    );
    println!(
        "with one row altered in a listing: {} listings, the disturbance another one in {}, above a \
         limit in {}",
        altered.listings, altered.changed, altered.exceeding
    );
    println!("silicon: {} passed, {failed} failed", runs - failed);
    i32::from(failed > 0)
}

/// The answer to a line with the name of a trace: `holds`, or what does not hold of the silicon
/// behind the listing that the trace requires.
pub fn answer_trace(line: &str) -> Option<String> {
    let mut words = Words::new(line);
    let name = words.word()?;
    words.last(())?;
    let trace = fs::read(name).ok()?;
    Some(match limits_hold(&trace, listing(&trace).as_bytes()) {
        Ok(_) => "holds".to_string(),
        Err(what) => what,
    })
}
