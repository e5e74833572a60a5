//! Random traces, and on each what document 02 says of the silicon behind a passed listing (C-18).

use crate::check::{departure, lines};
use crate::device::Device;
use crate::hold::LONGEST_HOLD;
use crate::limit::{logical_row, random_remap, spoil};
use crate::listing::listing;
use crate::plan::{is_large, large_bank, random_plan, random_settings, tiny_bank, tiny_plan};
use crate::random::Random;
use crate::remap::{Remap, OUR_REMAP};
use crate::settings::Settings;
use crate::silicon::{limits_hold, Report, Silicon, Step};
use crate::victims::regular_block;

/// Once in so many lines.
const HARDLY_EVER: u32 = 1_000_000;
/// Units of a bank's activations and events, at most.
const MOST_STEPS: u32 = 20_000;

/// What was found of altered listings.
#[derive(Clone, Copy, Debug, Default)]
pub struct Altered {
    pub listings: u64,
    /// Those whose disturbance is another one right behind the altered line.
    pub changed: u64,
    /// Those with which some row passes its limit or its closer figure.
    pub exceeding: u64,
}

/// Plays the trace of this seed; an error says what did not hold.
pub fn play(seed: u64) -> Result<(Report, Altered), String> {
    let mut random = Random::new(seed);
    let trace = random_trace(&mut random);
    let describe = |what: String| format!("seed {seed}: {what}");
    let required = listing(&trace.text).into_bytes();
    if let Some(line_number) = departure(&trace.text, &required) {
        return Err(describe(format!("departs at line {line_number}")));
    }
    let report = limits_hold(&trace.text, &required).map_err(describe)?;
    same_as_devices(&trace, &required).map_err(describe)?;
    let mut altered = Altered::default();
    for _ in 0..3 {
        alter(&mut random, &trace.text, &required, &mut altered).map_err(describe)?;
    }
    Ok((report, altered))
}

struct Trace {
    text: Vec<u8>,
    lines: u64,
    /// The exact disturbance in each bank, as it was told of the calls, and the lines before it ends.
    ends: Vec<(u64, Vec<u64>)>,
}

impl Trace {
    fn push(&mut self, letter: char, numbers: &[u32]) {
        let mut line = letter.to_string();
        for number in numbers {
            line += &format!("{number:6}");
        }
        self.push_line(&line);
    }

    fn push_line(&mut self, line: &str) {
        self.text.extend_from_slice(line.as_bytes());
        self.text.push(10);
        self.lines += 1;
    }

    fn push_settings(&mut self, settings: &Settings) {
        let numbers = [
            settings.rows,
            settings.blast_diameter,
            settings.volume,
            settings.counters,
            settings.interval,
            settings.window,
            settings.block,
        ];
        self.push('S', &numbers);
    }

    fn push_activation(&mut self, logical_row: u32, hold: u32, random: &mut Random) {
        if hold == 1 && !random.once_in(4) {
            self.push('A', &[logical_row]);
        } else {
            self.push('H', &[logical_row, hold]);
        }
    }
}

/// One to three banks one after another, at times with lines between them that are refused.
fn random_trace(random: &mut Random) -> Trace {
    let mut trace = Trace {
        text: Vec::new(),
        lines: 0,
        ends: Vec::new(),
    };
    let mut loaded = OUR_REMAP;
    for _ in 0..random.choose(&[1, 1, 2, 3]) {
        if random.once_in(2) {
            load_remap(&mut trace, &mut loaded, random);
        }
        add_bank(&mut trace, &mut loaded, random);
        if random.once_in(4) {
            // No bank stands behind it.
            trace.push('S', &[16, 3, 1, 2, 4, 4, 4]);
            trace.push('A', &[5]);
            trace.push('H', &[5, 2]);
            trace.push('R', &[]);
        }
    }
    if random.once_in(4) {
        trace.text.extend_from_slice(b"A     5");
    }
    trace
}

fn load_remap(trace: &mut Trace, loaded: &mut Remap, random: &mut Random) {
    let mut remap = random_remap(random);
    if random.once_in(4) {
        spoil(&mut remap, random);
        trace.push('F', &remap.map(|number| number.min(999_999)));
    } else {
        trace.push('F', &remap);
        *loaded = remap;
    }
}

/// The lines of one bank, with rows chosen as in the runs of `limit.rs`.
fn add_bank(trace: &mut Trace, loaded: &mut Remap, random: &mut Random) {
    let is_tiny = !random.once_in(3);
    let settings = if is_tiny {
        tiny_bank(random)
    } else if random.once_in(200) {
        large_bank(random)
    } else {
        random_settings(random)
    };
    let plan = if is_tiny {
        tiny_plan(random, &settings)
    } else {
        random_plan(random, &settings)
    };
    let early = random.choose(&[HARDLY_EVER, HARDLY_EVER, 20, 3]);
    let faults = random.choose(&[HARDLY_EVER, 20]);
    let longest_hold = random.choose(&[1, 1, 3, LONGEST_HOLD]);
    let windows = random.choose(if is_large(&settings) {
        &[1]
    } else {
        &[1, 2, 3]
    });

    let remap = *loaded;
    trace.push_settings(&settings);
    let mut device = Device::set_up(settings, &remap, 0).expect("accepted settings");
    let steps = windows * settings.window * (settings.interval + 1);
    let most = if is_large(&settings) {
        u32::MAX
    } else {
        MOST_STEPS
    };
    let mut steps_left = steps.min(most);
    while steps_left > 0 {
        steps_left -= 1;
        let room = settings.interval - device.position.activations;
        if random.once_in(faults) {
            add_fault(trace, &settings, loaded, room, random);
        } else if plan.skips_interval(&device) || random.once_in(early) || room == 0 {
            trace.push('R', &[]);
            device.refresh(settings.volume).expect("an event");
        } else {
            let (row, hold) = plan.next(&device, longest_hold, random);
            let hold = hold.min(room);
            let row = logical_row(&remap, row);
            trace.push_activation(row, hold, random);
            device.activate(row, hold, &remap).expect("an activation");
            steps_left = steps_left.saturating_sub(hold - 1);
        }
    }
    trace
        .ends
        .push((trace.lines, device.disturbance.counts().to_vec()));
}

/// A line that does nothing to the bank, refused but for a remap and a blank line.
fn add_fault(
    trace: &mut Trace,
    settings: &Settings,
    loaded: &mut Remap,
    room: u32,
    random: &mut Random,
) {
    let row = random.between(0, settings.rows - 1);
    match random.between(1, 7) {
        1 => trace.push_line(""),
        2 => load_remap(trace, loaded, random),
        3 => trace.push('A', &[random.choose(&[settings.rows, 999_999])]),
        4 => trace.push('H', &[row, random.choose(&[0, 17, 999_999])]),
        5 if room < LONGEST_HOLD => trace.push('H', &[row, random.between(room + 1, LONGEST_HOLD)]),
        6 => trace.push_line(random.choose(&["R ", "A5", "r", "R     0     1     4", "?"])),
        _ => trace.push('H', &[settings.rows, 17]),
    }
}

/// The disturbance told by the two texts is that of the devices, which were told of each call.
fn same_as_devices(trace: &Trace, listing: &[u8]) -> Result<(), String> {
    let mut silicon = Silicon::new(&trace.text, listing);
    for (lines, counts) in &trace.ends {
        while silicon.line_number < *lines {
            silicon.step().ok_or("the trace ends")??;
        }
        if silicon.counts() != counts {
            return Err(format!("line {lines}: not the device's disturbance"));
        }
    }
    Ok(())
}

/// Names another row in one event's line: the listing departs there. The event then refreshes that
/// row and not the other, whose disturbance shows it unless it had none.
fn alter(
    random: &mut Random,
    trace: &[u8],
    required: &[u8],
    found: &mut Altered,
) -> Result<(), String> {
    let listed = lines(required);
    let naming =
        (0..listed.len()).filter(|place| listed[*place][0] == b'R' && listed[*place].len() > 14);
    let naming: Vec<usize> = naming.collect();
    if naming.is_empty() {
        return Ok(());
    }
    let place = random.choose(&naming);
    let line = std::str::from_utf8(listed[place]).map_err(|what| what.to_string())?;
    let named: Vec<u32> = (13..line.len() - 1)
        .step_by(6)
        .map(|column| line[column..column + 6].trim().parse().expect("a row"))
        .collect();
    let which = random.between(0, named.len() as u32 - 1) as usize;

    // Both are at the event's line, one of them behind it.
    let mut before = Silicon::new(trace, required);
    let mut after = Silicon::new(trace, required);
    while after.listed <= place {
        while before.line_number < after.line_number {
            before.step().ok_or("the trace ends")??;
        }
        after.step().ok_or("the trace ends")??;
    }
    let bank = before.bank.as_ref().ok_or("no bank")?;
    let block = regular_block(&bank.settings, bank.events);
    let other = random.between(0, bank.settings.rows - 1);
    if named.contains(&other) || block.contains(&other) || block.contains(&named[which]) {
        return Ok(());
    }
    let column = 13 + 6 * which;
    let altered_line = format!("{}{other:6}{}", &line[..column], &line[column + 6..]);
    let altered = [
        listed[..place].concat(),
        altered_line.into_bytes(),
        listed[place + 1..].concat(),
    ]
    .concat();

    found.listings += 1;
    let at = departure(trace, &altered);
    if at != Some(place as u64 + 1) {
        return Err(format!("row altered in line {}: {at:?}", place + 1));
    }
    let mut silicon = Silicon::new(trace, &altered);
    while silicon.line_number < before.line_number {
        silicon.step().ok_or("the trace ends")??;
    }
    if silicon.counts() != before.counts() {
        return Err("another disturbance before the altered line".to_string());
    }
    if silicon.step() != Some(Ok(Step::Event)) {
        return Err("the altered line cannot be read".to_string());
    }
    let changed = silicon.counts() != after.counts();
    found.changed += u64::from(changed);
    if !changed && before.counts()[named[which] as usize] > 0 {
        return Err(format!(
            "row altered in line {}: no row shows it",
            place + 1
        ));
    }
    found.exceeding += u64::from(limits_hold(trace, &altered).is_err());
    Ok(())
}
