//! A straightforward `tracefmt`, as the baseline for the product's speed: lines through buffered
//! input and output. `tests/writer/compare.py --program target/plain/release/plain_tracefmt`
//! compares it with the model, once `bench/run` has built it.

use std::io::{self, BufRead, BufReader, BufWriter, Read, Write};

const MALFORMED: u32 = 11;

/// An `F` line with its byte 10. Of a longer line, which is refused, no more is read.
const LONGEST_LINE: u64 = 98;

fn main() {
    // Where input or output fails it just ends, as tracefmt does.
    let _ = rewrite();
}

fn rewrite() -> io::Result<()> {
    let mut input = BufReader::new(io::stdin().lock());
    let mut output = BufWriter::new(io::stdout().lock());
    let mut rows = None;
    let mut line = Vec::new();
    let mut line_number: u64 = 0;
    while input
        .by_ref()
        .take(LONGEST_LINE)
        .read_until(b'\n', &mut line)?
        > 0
    {
        line_number += 1;
        if let Err(refusal) = take(&line, &mut rows, &mut output)? {
            output.flush()?;
            let printed = line_number % 10_000_000_000;
            return writeln!(io::stderr(), "X{printed:10}{refusal:6}");
        }
        line.clear();
    }
    output.flush()
}

/// Writes a line's spelling; `rows` is that of the settings last before it. The inner error is
/// the number of its refusal.
fn take(
    line: &[u8],
    rows: &mut Option<u32>,
    output: &mut impl Write,
) -> io::Result<Result<(), u32>> {
    match line {
        [b'\n'] => {}
        [b'R', b'\n'] => {
            if rows.is_none() {
                return Ok(Err(MALFORMED));
            }
            output.write_all(b"R\n")?;
        }
        [b'A', fields @ .., b'\n'] => {
            let (Some([row]), Some(rows)) = (numbers(fields), *rows) else {
                return Ok(Err(MALFORMED));
            };
            return write_activation(output, row, 1, rows);
        }
        [b'H', fields @ .., b'\n'] => {
            let (Some([row, hold]), Some(rows)) = (numbers(fields), *rows) else {
                return Ok(Err(MALFORMED));
            };
            return write_activation(output, row, hold, rows);
        }
        [b'S', fields @ .., b'\n'] => {
            let Some(settings) = numbers(fields) else {
                return Ok(Err(MALFORMED));
            };
            if let Err(refusal) = check(settings) {
                return Ok(Err(refusal));
            }
            *rows = Some(settings[0]);
            write_numbers(output, b'S', &settings)?;
        }
        [b'F', fields @ .., b'\n'] => {
            let Some(remap) = numbers::<16>(fields) else {
                return Ok(Err(MALFORMED));
            };
            let mut sorted = remap;
            sorted.sort_unstable();
            if !sorted.into_iter().eq(0..16) {
                return Ok(Err(14));
            }
            write_numbers(output, b'F', &remap)?;
        }
        _ => return Ok(Err(MALFORMED)),
    }
    Ok(Ok(()))
}

/// The inner error is the number of the refusal; `rows` is how many the bank has.
fn write_activation(
    output: &mut impl Write,
    row: u32,
    hold: u32,
    rows: u32,
) -> io::Result<Result<(), u32>> {
    if row >= rows {
        return Ok(Err(9));
    }
    if !(1..=16).contains(&hold) {
        return Ok(Err(15));
    }
    if hold == 1 {
        writeln!(output, "A{row:6}")?;
    } else {
        writeln!(output, "H{row:6}{hold:6}")?;
    }
    Ok(Ok(()))
}

fn write_numbers(output: &mut impl Write, letter: u8, numbers: &[u32]) -> io::Result<()> {
    output.write_all(&[letter])?;
    for number in numbers {
        write!(output, "{number:6}")?;
    }
    writeln!(output)
}

/// The error is the number of the first refusal.
fn check(settings: [u32; 7]) -> Result<(), u32> {
    let [rows, blast_diameter, volume, counters, interval, window, block] = settings;
    let tests = [
        rows % 16 == 0 && (16..=262_144).contains(&rows),
        blast_diameter == 2 || blast_diameter == 4,
        (1..=16).contains(&volume),
        (volume..=2_048).contains(&counters),
        (1..=4_096).contains(&interval),
        (1..=8_192).contains(&window),
        (1..=64).contains(&block) && u64::from(block) * u64::from(window) >= u64::from(rows),
    ];
    match tests.iter().position(|good| !good) {
        None => Ok(()),
        Some(failed) => Err(failed as u32 + 1),
    }
}

/// Exactly `COUNT` numbers, each right-justified in six columns.
fn numbers<const COUNT: usize>(fields: &[u8]) -> Option<[u32; COUNT]> {
    if fields.len() != 6 * COUNT {
        return None;
    }
    let mut result = [0; COUNT];
    for (number, field) in result.iter_mut().zip(fields.chunks_exact(6)) {
        let blanks = field.iter().take_while(|byte| **byte == b' ').count();
        if blanks == field.len() {
            return None;
        }
        for digit in &field[blanks..] {
            if !digit.is_ascii_digit() {
                return None;
            }
            *number = 10 * *number + u32::from(digit - b'0');
        }
    }
    Some(result)
}
