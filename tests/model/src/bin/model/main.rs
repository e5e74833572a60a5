//! The model as a program:
//!
//! - `model queries`: one number for each query about bound, least count and remap
//! - `model calls`: the answer and the lent memory for each call of the library
//! - `model listing`: the listing of the trace on standard input
//! - `model rewrite`: the trace on standard input in its one spelling, as the program `tracefmt`
//! - `model writer`: the answer to each request of the writer, as the program `test_writer`
//! - `model check TRACE LISTING`: whether a supplier's listing passes, as the program `rowcheck`
//! - `model checks`: the same for the files that each line of standard input names
//! - `model limit SEED RUNS`: random runs on which the limit on disturbance and each row's closer
//!   figure have to hold
//! - `model disturbance`: what the plain counter holds after the calls, or behind the trace and the
//!   listing, that each line of standard input gives
//! - `model silicon SEED RUNS`: the same of the silicon behind the listings of random traces, from the
//!   two texts alone
//! - `model silicons`: the same for the traces that the lines of standard input name

mod calls;
mod check;
mod disturbance;
mod limit;
mod numbers;
mod queries;
mod silicon;
mod writer;

use std::io::{self, BufRead, Read, Write};
use std::process::exit;

use row_tracker_model::listing::{listing, refused_line};
use row_tracker_model::writer::rewrite;

fn main() -> io::Result<()> {
    let arguments: Vec<String> = std::env::args().skip(1).collect();
    let arguments: Vec<&str> = arguments.iter().map(String::as_str).collect();
    match arguments.as_slice() {
        ["queries"] => answer_lines(queries::answer),
        ["calls"] => answer_lines(calls::answer),
        ["listing"] => print_listing(),
        ["rewrite"] => print_rewritten(),
        ["writer"] => answer_requests(),
        ["check", names @ ..] => exit(check::check_files(names)),
        ["checks"] => answer_lines(check::answer_pair),
        ["disturbance"] => answer_lines(disturbance::answer),
        ["silicons"] => answer_lines(silicon::answer_trace),
        ["limit" | "silicon", seed, runs] => match (seed.parse(), runs.parse()) {
            (Ok(seed), Ok(runs)) if arguments[0] == "limit" => exit(limit::check(seed, runs)),
            (Ok(seed), Ok(runs)) => exit(silicon::check(seed, runs)),
            _ => exit(usage()),
        },
        _ => exit(usage()),
    }
}

fn usage() -> i32 {
    eprintln!(
        "usage: model queries | calls | listing | rewrite | writer | check TRACE LISTING | checks | \
         limit SEED RUNS | disturbance | silicon SEED RUNS | silicons"
    );
    2
}

/// Answers every line of standard input with one line, at once, so that another program can
/// wait for it.
fn answer_lines(answer: fn(&str) -> Option<String>) -> io::Result<()> {
    let mut output = io::stdout().lock();
    for (index, line) in io::stdin().lock().lines().enumerate() {
        let line = line?;
        let Some(answer) = answer(&line) else {
            eprintln!("model: line {}: no query: {line}", index + 1);
            exit(2);
        };
        output.write_all((answer + "\n").as_bytes())?;
        output.flush()?;
    }
    Ok(())
}

fn print_listing() -> io::Result<()> {
    io::stdout().write_all(listing(&whole_input()?).as_bytes())
}

fn print_rewritten() -> io::Result<()> {
    let rewritten = rewrite(&whole_input()?);
    io::stdout().write_all(rewritten.text.as_bytes())?;
    if let Some((line_number, refusal)) = rewritten.fault {
        io::stderr().write_all(refused_line(line_number, refusal).as_bytes())?;
    }
    Ok(())
}

fn whole_input() -> io::Result<Vec<u8>> {
    let mut text = Vec::new();
    io::stdin().lock().read_to_end(&mut text)?;
    Ok(text)
}

/// Answers every whole request of standard input.
fn answer_requests() -> io::Result<()> {
    let mut input = io::stdin().lock();
    let mut output = io::stdout().lock();
    let mut request = [0; writer::REQUEST];
    while input.read_exact(&mut request).is_ok() {
        let Some(answer) = writer::answer(&request) else {
            eprintln!("model: a length is larger than its places");
            exit(2);
        };
        output.write_all(&answer)?;
    }
    Ok(())
}
