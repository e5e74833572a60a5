//! A straightforward `rowlist`, as the baseline for the product's speed: buffered input and
//! output, and an ordered map as the summary. `tests/listing/compare.py --program
//! target/plain/release/plain_rowlist` compares it with the model, once `bench/run` has built it.

mod tracker;

use std::io::{self, BufRead, BufReader, BufWriter, Write};

use tracker::{is_permutation, Settings, Tracker, OUR_REMAP};

const MALFORMED: u32 = 11;

fn main() -> io::Result<()> {
    let mut input = BufReader::new(io::stdin().lock());
    let mut output = BufWriter::new(io::stdout().lock());
    let mut tracker = None;
    let mut remap = OUR_REMAP;
    let mut line = Vec::new();
    let mut line_number: u64 = 0;
    while input.read_until(b'\n', &mut line)? > 0 {
        line_number += 1;
        if let Err(refusal) = take(&line, &mut tracker, &mut remap, &mut output)? {
            let printed = line_number % 10_000_000_000;
            writeln!(output, "X{printed:10}{refusal:6}")?;
        }
        line.clear();
    }
    output.flush()
}

/// Does what a line says; `remap` is the one for every later `S`. The inner error is the number of
/// the line's refusal.
fn take(
    line: &[u8],
    tracker: &mut Option<Tracker>,
    remap: &mut [u32; 16],
    output: &mut impl Write,
) -> io::Result<Result<(), u32>> {
    match line {
        [b'\n'] => {}
        [b'R', b'\n'] => {
            let Some(tracker) = tracker else {
                return Ok(Err(MALFORMED));
            };
            write!(output, "R{:6}", tracker.events)?;
            let picked = tracker.refresh();
            write!(output, "{:6}", picked.len())?;
            for row in picked {
                write!(output, "{row:6}")?;
            }
            writeln!(output)?;
        }
        [b'A', fields @ .., b'\n'] => {
            let (Some([row]), Some(tracker)) = (numbers(fields), tracker) else {
                return Ok(Err(MALFORMED));
            };
            return Ok(tracker.activate(row, 1));
        }
        [b'H', fields @ .., b'\n'] => {
            let (Some([row, hold]), Some(tracker)) = (numbers(fields), tracker) else {
                return Ok(Err(MALFORMED));
            };
            return Ok(tracker.activate(row, hold));
        }
        [b'S', fields @ .., b'\n'] => {
            let Some(fields) = numbers(fields) else {
                return Ok(Err(MALFORMED));
            };
            let settings = Settings::new(fields);
            if let Err(refusal) = settings.check() {
                *tracker = None;
                return Ok(Err(refusal));
            }
            let bound = settings.bound();
            writeln!(output, "B{:10}{:10}", bound, 2 * bound)?;
            *tracker = Some(Tracker::new(settings, *remap));
        }
        [b'F', fields @ .., b'\n'] => {
            let Some(numbers) = numbers(fields) else {
                return Ok(Err(MALFORMED));
            };
            if !is_permutation(&numbers) {
                return Ok(Err(14));
            }
            *remap = numbers;
        }
        _ => return Ok(Err(MALFORMED)),
    }
    Ok(Ok(()))
}

/// Exactly `COUNT` numbers, each right-justified in six columns.
fn numbers<const COUNT: usize>(fields: &[u8]) -> Option<[u32; COUNT]> {
    if fields.len() != 6 * COUNT {
        return None;
    }
    let mut result = [0; COUNT];
    for (number, field) in result.iter_mut().zip(fields.chunks_exact(6)) {
        let blanks = field.iter().take_while(|byte| **byte == b' ').count();
        if blanks == field.len() {
            return None;
        }
        for digit in &field[blanks..] {
            if !digit.is_ascii_digit() {
                return None;
            }
            *number = 10 * *number + u32::from(digit - b'0');
        }
    }
    Some(result)
}
