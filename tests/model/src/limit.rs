//! Random runs of calls on which the limit on disturbance (demand 3) and each row's closer figure
//! (document 02, C-17) have to hold.

use crate::bound::{bound, bound_at};
use crate::device::Device;
use crate::figure::{own_event, Figures};
use crate::hold::LONGEST_HOLD;
use crate::plan::{is_large, large_bank, random_plan, random_settings, tiny_bank, tiny_plan};
use crate::random::Random;
use crate::refusal::Refusal;
use crate::remap::{check_remap, Remap, OUR_REMAP};
use crate::settings::Settings;

/// Once in so many calls.
const HARDLY_EVER: u32 = 1_000_000;

/// What a run did.
#[derive(Clone, Copy, Debug, Default)]
pub struct Report {
    pub calls: u64,
    pub refused: u64,
    /// Accepted activations of more than one unit.
    pub held: u64,
    /// The highest disturbance, in percent of H during the first window and of 2 x H later.
    pub first_window_percent: f64,
    pub later_percent: f64,
    /// The nearest that a row came to its closer figure, in percent: to H(e + 1), and to the figure
    /// with what the row may have carried over a window's end.
    pub present_percent: f64,
    pub carried_percent: f64,
}

/// Plays the run of this seed from its set up; an error says what did not hold.
pub fn play(seed: u64) -> Result<Report, String> {
    let mut random = Random::new(seed);
    let is_tiny = !random.once_in(3);
    let settings = if is_tiny {
        tiny_bank(&mut random)
    } else if random.once_in(200) {
        large_bank(&mut random)
    } else {
        random_settings(&mut random)
    };
    let plan = if is_tiny {
        tiny_plan(&mut random, &settings)
    } else {
        random_plan(&mut random, &settings)
    };
    let early = random.choose(if is_tiny {
        &[HARDLY_EVER, HARDLY_EVER, HARDLY_EVER, 20]
    } else {
        &[HARDLY_EVER, HARDLY_EVER, 20, 3]
    });
    let faults = random.choose(&[HARDLY_EVER, 20]);
    let longest_hold = random.choose(&[1, 1, 3, LONGEST_HOLD]);
    // Either every call brings the same remap or each a new one.
    let same = random.once_in(2).then(|| random_remap(&mut random));
    let windows: &[u32] = if is_large(&settings) {
        &[1, 2]
    } else if is_tiny {
        &[2, 3]
    } else {
        &[1, 1, 2, 3, 5]
    };
    let windows = random.choose(windows);
    let describe = |what: &str| format!("seed {seed}, {settings:?}: {what}");

    let remap = same.unwrap_or_else(|| random_remap(&mut random));
    let mut run = Run::set_up(settings, &remap, &mut random).map_err(|what| describe(&what))?;
    let mut steps_left = windows * settings.window * (settings.interval + 1);
    while steps_left > 0 {
        let mut remap = same.unwrap_or_else(|| random_remap(&mut random));
        if random.once_in(faults) {
            spoil(&mut remap, &mut random);
        }
        let room = settings.interval - run.device.position.activations;
        let mut units = 1;
        let step = if random.once_in(faults) {
            let logical_row = random.choose(&[settings.rows, settings.rows + 1, u32::MAX]);
            let hold = random.choose(&[0, 1, LONGEST_HOLD, u32::MAX]);
            run.activate(logical_row, hold, &remap)
        } else if random.once_in(faults) {
            let hold = random.choose(&[0, LONGEST_HOLD + 1, 32, 1 << 16 | 1, u32::MAX]);
            run.activate(random.between(0, settings.rows - 1), hold, &remap)
        } else if random.once_in(faults) {
            run.refresh(settings.volume - 1)
        } else if plan.skips_interval(&run.device)
            || random.once_in(early)
            || room == 0 && !random.once_in(faults)
        {
            run.refresh(settings.volume + random.between(0, 2))
        } else {
            let (row, mut hold) = plan.next(&run.device, longest_hold, &mut random);
            // More units than there is room for are refused.
            if hold > room && !random.once_in(faults) {
                hold = room.max(1);
            }
            units = hold;
            run.activate(logical_row(&remap, row), hold, &remap)
        };
        step.map_err(|what| describe(&what))?;
        steps_left = steps_left.saturating_sub(units);
    }
    Ok(run.report)
}

struct Run {
    settings: Settings,
    bound: u64,
    /// H(i), from i = 1 to n.
    bounds: Vec<u64>,
    device: Device,
    /// Is given the accepted calls alone, an activation for each unit.
    by_units: Device,
    /// That of the last call that was accepted with one.
    remap: Remap,
    report: Report,
}

impl Run {
    fn set_up(settings: Settings, remap: &Remap, random: &mut Random) -> Result<Run, String> {
        let device = Device::set_up(settings, remap, random.next() as u32)
            .map_err(|refusal| format!("set up refused: {refusal:?}"))?;
        let mut run = Run {
            settings,
            bound: bound(&settings).map_err(|refusal| format!("no bound: {refusal:?}"))?,
            bounds: (1..=settings.window)
                .map(|events| bound_at(&settings, events))
                .collect(),
            by_units: device.clone(),
            device,
            remap: *remap,
            report: Report::default(),
        };
        run.check()?;
        Ok(run)
    }

    fn activate(&mut self, logical_row: u32, hold: u32, remap: &Remap) -> Result<(), String> {
        let room = self.settings.interval - self.device.position.activations;
        let expected = if logical_row >= self.settings.rows {
            Err(Refusal::LogicalRow)
        } else if !(1..=16).contains(&hold) {
            Err(Refusal::Hold)
        } else if check_remap(remap).is_err() {
            Err(Refusal::Remap)
        } else if hold > room {
            Err(Refusal::IntervalFull)
        } else {
            Ok(())
        };
        let answer = self.device.activate(logical_row, hold, remap);
        self.check_answer("activation", answer, expected)?;
        if answer.is_ok() {
            self.report.held += u64::from(hold > 1);
            self.remap = *remap;
            for _ in 0..hold {
                let unit = self.by_units.activate(logical_row, 1, remap);
                unit.map_err(|refusal| format!("a unit refused: {refusal:?}"))?;
            }
        }
        self.check()
    }

    fn refresh(&mut self, length: u32) -> Result<(), String> {
        let expected = if length < self.settings.volume {
            Err(Refusal::PicksLength)
        } else {
            Ok(())
        };
        let answer = self.device.refresh(length);
        self.check_answer("refresh event", answer, expected)?;
        if answer.is_ok() {
            let event = self.by_units.refresh(length);
            event.map_err(|refusal| format!("an event refused between units: {refusal:?}"))?;
        }
        self.check()
    }

    /// The only refusals on a run are those of the row, the hold, the remap, the list of picks and
    /// a full interval.
    fn check_answer(
        &mut self,
        call: &str,
        answer: Result<(), Refusal>,
        expected: Result<(), Refusal>,
    ) -> Result<(), String> {
        self.report.calls += 1;
        self.report.refused += u64::from(answer.is_err());
        if answer == expected {
            Ok(())
        } else {
            Err(format!(
                "{call} at {:?}: {answer:?} in place of {expected:?}",
                self.device.position
            ))
        }
    }

    /// Looks at every row right after an event, and else at those that the last call disturbed,
    /// since the others stand no higher than before and have the same figures. In a large bank every
    /// row has its turn when a window begins: within it a figure falls only at the event whose block
    /// has the row, which refreshes it.
    fn check(&mut self) -> Result<(), String> {
        self.check_units()?;
        let position = self.device.position;
        let is_turn = position.events == 0 || !is_large(&self.settings);
        if position.activations == 0 && is_turn {
            (0..self.settings.rows).try_for_each(|row| self.check_row(row))
        } else {
            let disturbed = self.device.disturbance.disturbed().to_vec();
            disturbed.iter().try_for_each(|row| self.check_row(*row))
        }
    }

    /// Holds a physical row's disturbance against the limit, against its closer figure and against
    /// what the call gives for it at the position that the run left.
    fn check_row(&mut self, row: u32) -> Result<(), String> {
        let figures = Figures {
            settings: &self.settings,
            bound_at: |events| self.bounds[events as usize - 1],
        };
        let report = &mut self.report;
        let position = self.device.position;
        let is_first = self.device.disturbance.in_first_window();
        let count = self.device.disturbance.counts()[row as usize];

        let (limit, percent) = if is_first {
            (self.bound, &mut report.first_window_percent)
        } else {
            (2 * self.bound, &mut report.later_percent)
        };
        *percent = percent.max(100.0 * count as f64 / limit as f64);

        let present = figures.present(position.events);
        let has_passed = position.events > own_event(&self.settings, row);
        let carried = if is_first || has_passed {
            0
        } else {
            figures.carried(row)
        };
        let percent = if carried == 0 {
            &mut report.present_percent
        } else {
            &mut report.carried_percent
        };
        *percent = percent.max(100.0 * count as f64 / (present + carried) as f64);

        let given = figures.row_limit(&self.remap, logical_row(&self.remap, row), position);
        let at = || format!("call {}, row {row} at {position:?}", report.calls);
        let given = given.map_err(|refusal| format!("{}: no figure: {refusal:?}", at()))?;
        if count <= limit && count <= present + carried && count <= given {
            Ok(())
        } else {
            Err(format!(
                "{}: disturbance {count} is above the limit {limit}, the row's figure {} or the \
                 {given} that the call gives",
                at(),
                present + carried
            ))
        }
    }

    /// A hold does what its units do one by one: the tables and the position are the same, and so
    /// is the disturbance of each row that the last call disturbed.
    fn check_units(&self) -> Result<(), String> {
        let (one, other) = (&self.device, &self.by_units);
        let same_tracker =
            (&one.rows, &one.counts, one.position) == (&other.rows, &other.counts, other.position);
        let same_disturbance = one.disturbance.disturbed().iter().all(|row| {
            one.disturbance.counts()[*row as usize] == other.disturbance.counts()[*row as usize]
        });
        if same_tracker && same_disturbance {
            Ok(())
        } else {
            Err(format!("call {}: not what its units do", self.report.calls))
        }
    }
}

/// The logical row of a physical one; a refused remap may have none, and then it is any row.
pub fn logical_row(remap: &Remap, row: u32) -> u32 {
    match remap.iter().position(|number| *number == row % 16) {
        Some(remainder) => row / 16 * 16 + remainder as u32,
        None => row,
    }
}

pub fn random_remap(random: &mut Random) -> Remap {
    let mut remap = OUR_REMAP;
    if random.once_in(8) {
        return remap;
    }
    for last in (1..16).rev() {
        remap.swap(last as usize, random.between(0, last) as usize);
    }
    remap
}

/// Replaces a number by one above 15 or by another of the 16, so that the remap is refused.
pub fn spoil(remap: &mut Remap, random: &mut Random) {
    let place = random.between(0, 15) as usize;
    let other = remap[(place + random.between(1, 15) as usize) % 16];
    remap[place] = random.choose(&[other, other, 16, 16 + remap[place], u32::MAX]);
}
