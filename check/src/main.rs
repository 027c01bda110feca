//! A second opinion on the library: see README.md.

mod calls;
mod case;
mod expected;
mod generate;
#[cfg(feature = "library")]
mod library;
mod oracle;
mod random;
mod run;
mod shrink;
mod streams;
mod vectors;

use std::process::ExitCode;

const USAGE: &str = "usage:
  check run [OPTIONS]                           compare the library with the oracle
  check self [OPTIONS]                          compare the oracle's two readings
  check vectors VALUES TABLES                   compare the oracle with lists of known rows
  check boards RUNS                             compare the oracle and the library with a list of runs on boards
  check streams RUNS                            the same with a list of streams
  check expected-prepare < codes                what preparing gives for each line
  check expected-show < requests                what the program gives for each three lines, and the section
  check expected-why < requests                 why each is shown so, in the room that a fourth line gives
options:
  --count N, --seed S                           so many requests, drawn by this seed
  --streams                                     draw nothing but streams
  --trace                                       tell each case before it is run";

fn main() -> ExitCode {
    let arguments: Vec<String> = std::env::args().skip(1).collect();
    let words: Vec<&str> = arguments.iter().map(String::as_str).collect();
    match words.as_slice() {
        ["run", options @ ..] => with_options(options, run_library),
        ["self", options @ ..] => with_options(options, |o| run::run(&calls::Oracle, o)),
        ["vectors", values, tables] => vectors::run(values, tables),
        ["boards", runs] => vectors::run_boards(runs, ALL),
        ["streams", runs] => streams::run(runs, ALL),
        ["expected-prepare"] => expected::prepare(),
        ["expected-show"] => expected::show(),
        ["expected-why"] => expected::why(),
        _ => misused(USAGE),
    }
}

fn misused(message: &str) -> ExitCode {
    eprintln!("{message}");
    ExitCode::from(2)
}

fn with_options(words: &[&str], run: impl Fn(&run::Options) -> ExitCode) -> ExitCode {
    match run::Options::from_words(words) {
        Ok(options) => run(&options),
        Err(message) => misused(&format!("{message}\n{USAGE}")),
    }
}

#[cfg(feature = "library")]
fn run_library(options: &run::Options) -> ExitCode {
    run::run(&library::Linked, options)
}

#[cfg(not(feature = "library"))]
fn run_library(_: &run::Options) -> ExitCode {
    misused("built without the library (see README.md)")
}

/// The oracle, and the library where it is linked.
#[cfg(feature = "library")]
const ALL: &[&dyn calls::Calls] = &[&calls::Oracle, &library::Linked];

#[cfg(not(feature = "library"))]
const ALL: &[&dyn calls::Calls] = &[&calls::Oracle];
