//! The calls of the library on lent tables: set up, activation, refresh event, and both agreements.
//! A refused call leaves the tables, the position and the picks as they came.

use crate::hold::check_hold;
use crate::refusal::Refusal;
use crate::remap::{check_remap, physical_row, Remap};
use crate::settings::Settings;
use crate::summary::{Entry, Summary};
use crate::victims::{regular_block, victims};

/// The most that a count or the spillover may be when a call begins.
pub const MAX_COUNT: u32 = 2_000_000_000;

#[derive(Clone, Copy, Debug, Default, PartialEq, Eq)]
pub struct Position {
    /// 'e': refresh events so far in this window.
    pub events: u32,
    /// 'a': activations since the last event, each unit of a hold counted.
    pub activations: u32,
    /// The number of tracked rows.
    pub tracked: u32,
    /// 'Spill'.
    pub spillover: u32,
}

/// Writes 0 everywhere; what the tables held does not matter.
pub fn set_up(
    settings: &Settings,
    rows: &mut [u32],
    counts: &mut [u32],
    remap: &Remap,
) -> Result<Position, Refusal> {
    settings.check()?;
    check_lengths(settings, rows, counts)?;
    check_remap(remap)?;
    rows.fill(0);
    counts.fill(0);
    Ok(Position::default())
}

/// An activation of `hold` units, each of which does what an activation of the row does.
pub fn activate(
    settings: &Settings,
    rows: &mut [u32],
    counts: &mut [u32],
    position: Position,
    logical_row: u32,
    hold: u32,
    remap: &Remap,
) -> Result<Position, Refusal> {
    settings.check()?;
    check_lengths(settings, rows, counts)?;
    if logical_row >= settings.rows {
        return Err(Refusal::LogicalRow);
    }
    check_hold(hold)?;
    check_remap(remap)?;
    check_state(settings, rows, counts, position)?;
    if position.activations + hold > settings.interval {
        return Err(Refusal::IntervalFull);
    }

    let mut summary = read(rows, counts, position);
    let row = physical_row(remap, logical_row);
    let mut activations = position.activations;
    for _ in 0..hold {
        summary.drop_row(row);
        disturb_victims(settings, &mut summary, row);
        activations += 1;
    }
    Ok(write(&summary, rows, counts, position.events, activations))
}

/// 'Event': the answer has the number picked, and the picked rows are at the front of `picks`.
pub fn refresh(
    settings: &Settings,
    rows: &mut [u32],
    counts: &mut [u32],
    position: Position,
    picks: &mut [u32],
) -> Result<(Position, usize), Refusal> {
    settings.check()?;
    check_lengths(settings, rows, counts)?;
    if picks.len() < settings.volume as usize {
        return Err(Refusal::PicksLength);
    }
    check_state(settings, rows, counts, position)?;

    let mut summary = read(rows, counts, position);
    let picked = summary.pick(settings.volume as usize);
    let mut refreshed = picked.clone();
    for row in regular_block(settings, position.events) {
        if !picked.contains(&row) {
            refreshed.push(row);
        }
    }
    for row in &refreshed {
        summary.drop_row(*row);
    }
    let mut events = position.events + 1;
    if events == settings.window {
        summary.clear();
        events = 0;
    }
    for row in &refreshed {
        disturb_victims(settings, &mut summary, *row);
    }
    picks[..picked.len()].copy_from_slice(&picked);
    let position = write(&summary, rows, counts, events, 0);
    Ok((position, picked.len()))
}

/// What an agreement is told of one tracker besides its remap.
#[derive(Clone, Copy, Debug)]
pub struct Lent<'a> {
    pub settings: &'a Settings,
    pub rows: &'a [u32],
    pub counts: &'a [u32],
    pub position: Position,
}

/// 'Exactly at equal settings, fold and position and the same tracked rows with the same counts'.
pub fn agree(first: Lent, remap1: &Remap, second: Lent, remap2: &Remap) -> Result<bool, Refusal> {
    first.settings.check()?;
    second.settings.check()?;
    first.check_lengths()?;
    second.check_lengths()?;
    check_remap(remap1)?;
    check_remap(remap2)?;
    first.check_state()?;
    second.check_state()?;

    let same_settings = first.settings == second.settings;
    let same_remap = remap1 == remap2;
    let same_position = first.position == second.position;
    let same_tracked = first.summary().entries == second.summary().entries;
    Ok(same_settings && same_remap && same_position && same_tracked)
}

/// 'The older yes': both banks have the same rows and every row has the same estimate in both
/// summaries.
pub fn estimates_agree(first: Lent, second: Lent) -> Result<bool, Refusal> {
    first.settings.check()?;
    second.settings.check()?;
    first.check_lengths()?;
    second.check_lengths()?;
    first.check_state()?;
    second.check_state()?;

    if first.settings.rows != second.settings.rows {
        return Ok(false);
    }
    let summary1 = first.summary();
    let summary2 = second.summary();
    Ok((0..first.settings.rows).all(|row| summary1.estimate(row) == summary2.estimate(row)))
}

impl Lent<'_> {
    fn check_lengths(&self) -> Result<(), Refusal> {
        check_lengths(self.settings, self.rows, self.counts)
    }

    fn check_state(&self) -> Result<(), Refusal> {
        check_state(self.settings, self.rows, self.counts, self.position)
    }

    fn summary(&self) -> Summary {
        read(self.rows, self.counts, self.position)
    }
}

/// A row that is activated or refreshed disturbs each of its victims.
pub fn disturb_victims(settings: &Settings, summary: &mut Summary, row: u32) {
    for victim in victims(settings, row) {
        summary.disturb(victim);
    }
}

fn check_lengths(settings: &Settings, rows: &[u32], counts: &[u32]) -> Result<(), Refusal> {
    let counters = settings.counters as usize;
    if rows.len() != counters || counts.len() != counters {
        return Err(Refusal::TableLength);
    }
    Ok(())
}

/// Refuses a state that breaks a rule; the tables have the right length.
fn check_state(
    settings: &Settings,
    rows: &[u32],
    counts: &[u32],
    position: Position,
) -> Result<(), Refusal> {
    check_position(settings, position)?;
    let (tracked_rows, unused_rows) = rows.split_at(position.tracked as usize);
    let (tracked_counts, unused_counts) = counts.split_at(position.tracked as usize);
    let rows_good = tracked_rows.iter().all(|row| *row < settings.rows);
    let ascending = tracked_rows.windows(2).all(|pair| pair[0] < pair[1]);
    let counts_good = tracked_counts
        .iter()
        .all(|count| *count > 0 && *count >= position.spillover && *count <= MAX_COUNT);
    let unused_good = unused_rows.iter().chain(unused_counts).all(|n| *n == 0);
    if rows_good && ascending && counts_good && unused_good {
        Ok(())
    } else {
        Err(Refusal::State)
    }
}

/// Refuses a position that breaks a rule by itself.
pub fn check_position(settings: &Settings, position: Position) -> Result<(), Refusal> {
    if position.events >= settings.window
        || position.activations > settings.interval
        || position.tracked > settings.counters
        || position.spillover > MAX_COUNT
    {
        return Err(Refusal::State);
    }
    Ok(())
}

/// The summary that accepted tables and their position stand for.
pub fn read(rows: &[u32], counts: &[u32], position: Position) -> Summary {
    let entries = rows.iter().zip(counts).take(position.tracked as usize);
    Summary {
        counters: rows.len(),
        entries: entries
            .map(|(row, count)| Entry {
                row: *row,
                count: *count,
            })
            .collect(),
        spillover: position.spillover,
    }
}

/// Lays a summary out in the tables and gives the position that goes with it.
fn write(
    summary: &Summary,
    rows: &mut [u32],
    counts: &mut [u32],
    events: u32,
    activations: u32,
) -> Position {
    rows.fill(0);
    counts.fill(0);
    for (slot, entry) in summary.entries.iter().enumerate() {
        rows[slot] = entry.row;
        counts[slot] = entry.count;
    }
    Position {
        events,
        activations,
        tracked: summary.entries.len() as u32,
        spillover: summary.spillover,
    }
}
