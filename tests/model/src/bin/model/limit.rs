//! Plays random runs and prints how close they came to the limit on disturbance.

use row_tracker_model::limit::{play, Report};
use row_tracker_model::random::Random;

/// The exit status: 0 if the limit held on every run.
pub fn check(seed: u64, runs: u64) -> i32 {
    let mut seeds = Random::new(seed);
    let mut total = Report::default();
    let mut failed = 0;
    for _ in 0..runs {
        match play(seeds.next()) {
            Ok(report) => {
                total.calls += report.calls;
                total.refused += report.refused;
                total.held += report.held;
                total.first_window_percent =
                    total.first_window_percent.max(report.first_window_percent);
                total.later_percent = total.later_percent.max(report.later_percent);
                total.present_percent = total.present_percent.max(report.present_percent);
                total.carried_percent = total.carried_percent.max(report.carried_percent);
            }
            Err(what) => {
                failed += 1;
                println!("  FAILED {what}");
            }
        }
    }
    println!(
        "seed {seed}: {} calls, {} refused, {} of more than one unit; the highest disturbance is \
         {:.2} % of H in the first window and {:.2} % of 2 x H later; the nearest to a row's figure \
         is {:.2} % of H(e + 1) and {:.2} % with what it may have carried over",
        total.calls,
        total.refused,
        total.held,
        total.first_window_percent,
        total.later_percent,
        total.present_percent,
        total.carried_percent
    );
    println!("limit: {} passed, {failed} failed", runs - failed);
    i32::from(failed > 0)
}
