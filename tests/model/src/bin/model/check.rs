//! The check of a supplier's listing, as the program `rowcheck` does it, and of many at once.

use std::fs::File;
use std::io::{self, Read, Write};

use row_tracker_model::check::{answer, departure};

use crate::numbers::Words;

const USAGE: &str = "usage: rowcheck TRACE LISTING";

/// The exit status: 0 the listing passes; 1 it departs; 2 a file or the output is wrong.
pub fn check_files(names: &[&str]) -> i32 {
    let departure = match files_departure(names) {
        Ok(departure) => departure,
        Err(wrong) => return say(&wrong),
    };
    let mut output = io::stdout();
    let line = answer(departure) + "\n";
    if output.write_all(line.as_bytes()).is_err() || output.flush().is_err() {
        return say("cannot write the answer");
    }
    i32::from(departure.is_some())
}

fn say(wrong: &str) -> i32 {
    // There may be no standard error.
    let _ = writeln!(io::stderr(), "rowcheck: {wrong}");
    2
}

fn files_departure(names: &[&str]) -> Result<Option<u64>, String> {
    let &[trace, listing] = names else {
        return Err(USAGE.to_string());
    };
    let trace = open(trace, "trace")?;
    let listing = open(listing, "listing")?;
    let trace = read(trace, "trace")?;
    let listing = read(listing, "listing")?;
    Ok(departure(&trace, &listing))
}

fn open(name: &str, which: &str) -> Result<File, String> {
    File::open(name).map_err(|_| format!("cannot open the {which}"))
}

fn read(mut file: File, which: &str) -> Result<Vec<u8>, String> {
    let mut text = Vec::new();
    let read = file.read_to_end(&mut text);
    read.map_err(|_| format!("cannot read the {which}"))?;
    Ok(text)
}

/// The answer to a line with the names of a trace and of a listing.
pub fn answer_pair(line: &str) -> Option<String> {
    let mut words = Words::new(line);
    let names = [words.word()?, words.word()?];
    words.last(())?;
    files_departure(&names).ok().map(answer)
}
