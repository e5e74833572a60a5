//! The physical rows that a row disturbs when it is activated or refreshed.

use crate::settings::Settings;

/// 'A maker's die is cut every 512 rows': so many rows of the die, 'counted from row 0'.
pub const SUBARRAY_ROWS: u32 = 512;

/// The '512-row part' that a row is in; the last of a bank may be shorter.
fn subarray(row: u32) -> u32 {
    row / SUBARRAY_ROWS
}

/// 'Neighbours': the existing rows at distance 1 to half the blast diameter that are in the row's
/// own subarray, ascending.
pub fn victims(settings: &Settings, row: u32) -> Vec<u32> {
    let reach = settings.blast_diameter / 2;
    let first = row.saturating_sub(reach);
    let last = row + reach;
    (first..=last)
        .filter(|victim| *victim != row && *victim < settings.rows)
        .filter(|victim| subarray(*victim) == subarray(row))
        .collect()
}

/// 'Regular block': the rows regularly refreshed at the given event of a window, cut at the end
/// of the bank.
pub fn regular_block(settings: &Settings, event: u32) -> Vec<u32> {
    let first = event * settings.block;
    (first..first + settings.block)
        .filter(|row| *row < settings.rows)
        .collect()
}
