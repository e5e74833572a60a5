//! The bound H on a row's disturbance, and the least counter count for a threshold.

use crate::refusal::Refusal;
use crate::settings::{Settings, MAX_COUNTERS};

/// 'H', or the refusal of the settings.
pub fn bound(settings: &Settings) -> Result<u64, Refusal> {
    settings.check()?;
    Ok(bound_at(settings, settings.window))
}

/// The smallest counter count with 2 x H below the threshold; `settings.counters` is not read.
pub fn least_counters(settings: &Settings, threshold: u64) -> Result<u32, Refusal> {
    settings.check_without_counters()?;
    for counters in settings.volume..=MAX_COUNTERS {
        let candidate = Settings {
            counters,
            ..*settings
        };
        if 2 * bound_at(&candidate, candidate.window) < threshold {
            return Ok(counters);
        }
    }
    Err(Refusal::Threshold)
}

/// 'H(i)': the bound of accepted settings with `events` in place of n; P x n is not tested again.
pub fn bound_at(settings: &Settings, events: u32) -> u64 {
    let blast_diameter = u64::from(settings.blast_diameter);
    let mut total = 0;
    for j in (1..u64::from(events)).rev() {
        total += blast_diameter * disturbers(settings);
        total = total * size(settings, j - 1) / size(settings, j);
    }
    total + disturbers(settings)
}

/// "T'": the most rows that disturb their neighbours from one event to the next.
pub fn disturbers(settings: &Settings) -> u64 {
    u64::from(settings.interval) + u64::from(settings.volume) + u64::from(settings.block)
}

/// 'D(j)'.
fn size(settings: &Settings, j: u64) -> u64 {
    let picked = j * u64::from(settings.volume) + 1;
    let slots = u64::from(settings.counters) + 1;
    picked.min(slots)
}
