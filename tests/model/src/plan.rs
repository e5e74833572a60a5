//! The settings of random runs, and how a run chooses the rows that it activates.

use std::cmp::Reverse;

use crate::device::Device;
use crate::figure::own_event;
use crate::hold::LONGEST_HOLD;
use crate::random::Random;
use crate::settings::{Settings, MAX_ROWS};
use crate::tracker::disturb_victims;
use crate::victims::{victims, SUBARRAY_ROWS};

/// How a run chooses the physical rows that it activates.
pub enum Plan {
    Uniform,
    /// Some rows, in random order.
    Few(Vec<u32>),
    /// Keeps that many of the most disturbed rows equally high.
    Unison(usize),
    /// The same, with just more rows than the events before this one of the window can refresh.
    Feinting(u32),
    /// The same past a window's last event and then, once that has cleared the summary, up to this
    /// one, with rows of its block alone: so they take the most with them from window to window.
    FeintingOver(u32),
    /// Disturbs one row from the event of its block over the window's end to the next such event,
    /// and keeps it from being picked.
    Carried(u32),
    /// Holds the first row and lets the others have more activations, of one unit each.
    Held(Vec<u32>),
}

impl Plan {
    /// Whether the run goes on to the next event without activations.
    pub fn skips_interval(&self, device: &Device) -> bool {
        match self {
            Plan::Carried(row) => {
                device.disturbance.in_first_window()
                    && device.position.events < own_event(&device.settings, *row)
            }
            _ => false,
        }
    }

    /// The next physical row, and its hold.
    pub fn next(&self, device: &Device, longest_hold: u32, random: &mut Random) -> (u32, u32) {
        let settings = &device.settings;
        let events = device.position.events;
        let hold = random.between(1, longest_hold);
        let row = match self {
            Plan::Held(rows) if random.once_in(8) => return (rows[0], LONGEST_HOLD),
            Plan::Held(rows) => return (random.choose(&rows[1..]), 1),
            Plan::Uniform => random.between(0, settings.rows - 1),
            Plan::Few(rows) => random.choose(rows),
            Plan::Unison(size) => row_beside_rank(device, *size),
            Plan::Feinting(last_event) => {
                let events_left = (settings.window + last_event - events) % settings.window;
                row_beside_rank(device, decoys(settings, events_left))
            }
            Plan::FeintingOver(own) => {
                let carrying = !device.disturbance.in_first_window() && events <= *own;
                let behind = if carrying { *own } else { settings.window };
                row_between_targets(device, decoys(settings, behind - events), *own)
            }
            Plan::Carried(row) => {
                let room = settings.interval - device.position.activations;
                let hold = hold.min(room).max(1);
                return (row_beside_unpicked(device, *row, hold), hold);
            }
        };
        (row, hold)
    }
}

/// Just more rows than so many events can pick, at most one more than are tracked.
fn decoys(settings: &Settings, events: u32) -> usize {
    (events * settings.volume + 1).min(settings.counters + 1) as usize
}

/// The least disturbed victim of the row that is the `rank`th in disturbance: to activate it costs
/// the least.
fn row_beside_rank(device: &Device, rank: usize) -> u32 {
    let settings = &device.settings;
    let counts = device.disturbance.counts();
    let mut order: Vec<u32> = (0..settings.rows).collect();
    order.sort_by_key(|row| Reverse(counts[*row as usize]));
    let target = order[rank.min(order.len()) - 1];
    let beside = victims(settings, target)
        .into_iter()
        .min_by_key(|row| counts[*row as usize]);
    beside.unwrap_or(target)
}

/// The row that raises most of the lowest of so many targets: the most disturbed rows of event
/// `own`'s block, without those that only disturb. Of equal ones the higher, which is picked later.
fn row_between_targets(device: &Device, size: usize, own: u32) -> u32 {
    let settings = &device.settings;
    let counts = device.disturbance.counts();
    // Each victim of such a row is a target.
    let only_disturbs = |row: &u32| row % (settings.blast_diameter / 2 + 1) == 0;
    let mut targets: Vec<u32> = (0..settings.rows)
        .filter(|row| own_event(settings, *row) == own && !only_disturbs(row))
        .collect();
    targets.sort_by_key(|row| Reverse((counts[*row as usize], *row)));
    targets.truncate(size);
    let Some(lowest) = targets.last() else {
        return own * settings.block;
    };
    let raised = |row: &u32| {
        let victims = victims(settings, *row);
        let hit = targets.iter().filter(|target| victims.contains(target));
        let lowest_hit = hit
            .clone()
            .filter(|row| counts[**row as usize] == counts[*lowest as usize]);
        (lowest_hit.count(), hit.count())
    };
    let beside = victims(settings, *lowest);
    let sources = beside.into_iter().filter(only_disturbs);
    sources.max_by_key(raised).unwrap_or(*lowest)
}

/// A row that disturbs the target and, held so long, leaves it out of the picks of the next event,
/// unless that refreshes it anyway; best is one that leaves rows to be picked that are not in the
/// block and disturb the target in turn. If there is none, the row that lifts the picks highest.
fn row_beside_unpicked(device: &Device, target: u32, hold: u32) -> u32 {
    let settings = &device.settings;
    let summary = device.summary();
    let beside = victims(settings, target);
    let event = device.position.events;
    let refreshed_next = event == own_event(settings, target);
    // Whether the target is left out, how many picks help, and the sum of the picks but the target.
    let outlook = |row: u32| {
        let mut after = summary.clone();
        for _ in 0..hold {
            after.drop_row(row);
            disturb_victims(settings, &mut after, row);
        }
        let picks = after.pick(settings.volume as usize);
        let lasts = refreshed_next || !picks.contains(&target);
        let helps = |row: &u32| beside.contains(row) && own_event(settings, *row) != event;
        let helpful = picks.iter().filter(|row| helps(row)).count();
        let others = picks.iter().filter(|row| **row != target);
        let height: u32 = others.map(|row| after.estimate(*row)).sum();
        (lasts, helpful, height)
    };
    let best = beside.iter().copied().max_by_key(|row| outlook(*row));
    match best {
        Some(row) if outlook(row).0 => row,
        _ => (0..settings.rows)
            .filter(|row| *row != target && !beside.contains(row))
            .max_by_key(|row| {
                let (lasts, _, height) = outlook(*row);
                (lasts, height)
            })
            .unwrap_or(target),
    }
}

/// A bank of 16 or 32 rows, on which the figures by row are nearly reached.
pub fn tiny_bank(random: &mut Random) -> Settings {
    let rows = random.choose(&[16, 16, 16, 32]);
    let block = random.choose(&[1, 1, 2, 2, 3, 3, 4, 5, 8, 17]);
    let volume = random.choose(&[1, 1, 1, 2, 3]);
    Settings {
        rows,
        blast_diameter: random.choose(&[2, 4, 4]),
        volume,
        counters: volume + random.between(0, 15),
        interval: random.choose(&[1, 2, 3, 4, 5, 9, 20, 200]),
        window: u32::div_ceil(rows, block) + random.choose(&[0, 0, 0, 1, 2, 5]),
        block,
    }
}

/// Mostly with rows whose block comes late in the window.
pub fn tiny_plan(random: &mut Random, settings: &Settings) -> Plan {
    let latest = own_event(settings, settings.rows - 1);
    let own = latest.saturating_sub(random.choose(&[0, 1, 1, 1, 2, 2, 3, 15]));
    match random.between(1, 5) {
        1 => Plan::Feinting(random.between(0, settings.window - 1)),
        2 => Plan::FeintingOver(own),
        _ => {
            let first = own * settings.block;
            let last = (first + settings.block).min(settings.rows) - 1;
            Plan::Carried(random.between(first, last))
        }
    }
}

pub fn random_settings(random: &mut Random) -> Settings {
    let several_subarrays = random.once_in(10);
    let large = several_subarrays || random.once_in(40);
    let (rows, block) = if several_subarrays {
        let subarrays = random.between(1, 2) * SUBARRAY_ROWS;
        // Blocks of 33, 48 and 63 rows straddle an edge.
        let rows = subarrays + 16 * random.choose(&[1, 2, 31, 32]);
        (rows, random.choose(&[33, 48, 63, 64]))
    } else {
        let rows = 16 * random.between(1, if large { 32 } else { 3 });
        (rows, random.choose(&[1, 2, 3, 4, 8, 9, 16, 17, 33, 64]))
    };
    let volume = random.choose(&[1, 1, 1, 2, 2, 3, 4, 16]);
    let shortest_window = rows.div_ceil(block);
    Settings {
        rows,
        blast_diameter: random.choose(&[2, 4]),
        volume,
        counters: volume + random.between(0, if large { 200 } else { 10 }),
        interval: random.choose(&[1, 2, 3, 4, 6, 9, 12, 40, 150]),
        window: shortest_window + random.choose(&[0, 0, 1, 2, 5, 16]),
        block,
    }
}

/// More than 65,536 rows: too many to look at each of them after each call.
pub fn is_large(settings: &Settings) -> bool {
    settings.rows > 65_536
}

/// With so many counters and so long an interval, a row that is hammered and never refreshed
/// passes the limit.
pub fn large_bank(random: &mut Random) -> Settings {
    let rows = random.choose(&[65_552, 65_600, 131_072, 262_128, MAX_ROWS]);
    let block = random.choose(&[63, 64]);
    let volume = random.choose(&[1, 2, 4]);
    Settings {
        rows,
        blast_diameter: random.choose(&[2, 4]),
        volume,
        counters: volume + random.between(20, 40),
        interval: random.between(30, 40),
        window: rows.div_ceil(block) + random.choose(&[0, 1]),
        block,
    }
}

pub fn random_plan(random: &mut Random, settings: &Settings) -> Plan {
    // Those behind the sixth sort all rows.
    let plans = if is_large(settings) { 6 } else { 10 };
    match random.between(1, plans) {
        1 => Plan::Uniform,
        2..=4 => {
            let spread = random.choose(&[1, 2, 4, 8]);
            let edges = (settings.rows - 1) / SUBARRAY_ROWS;
            let first = if edges > 0 && !random.once_in(3) {
                SUBARRAY_ROWS * random.between(1, edges) - random.between(0, spread)
            } else {
                random.between(0, settings.rows - 1)
            };
            let few = random.between(1, 5);
            let row = |_| (first + random.between(0, spread)) % settings.rows;
            Plan::Few((0..few).map(row).collect())
        }
        5..=6 => {
            // No row of these disturbs one that another disturbs.
            let apart = settings.blast_diameter + 1;
            let first = random.between(0, settings.rows - 1);
            let row = |place| (first + place * apart) % settings.rows;
            Plan::Held((0..=random.between(1, 2)).map(row).collect())
        }
        7 => Plan::Unison(random.between(1, 12) as usize),
        8 => Plan::Feinting(random.between(0, settings.window - 1)),
        _ => Plan::Feinting(settings.window - 1),
    }
}
