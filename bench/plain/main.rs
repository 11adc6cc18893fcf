//! Checks and measures the library from outside, against the definitions in `docs/`, in plain Rust:
//!
//! - `plain compare [PAIRS]` compares the reports of so many pairs of files, and whole tables;
//! - `plain measure` tells what growing takes, beside the same method in plain Rust and the definition;
//! - `plain count WAY KIND N M GROWINGS` grows one task once and prints a checksum of its table, so that the
//!   instructions of the run can be counted. WAY is `library`, `method` or `definition`; KIND is `random`, `dense` or
//!   `chain`.
//!
//! The status is 1 if there is a difference, and 2 if the arguments are others.

mod compare;
mod damage;
mod domains;
mod files;
mod generate;
mod layers;
mod library;
mod measure;
mod method;
mod model;
mod plans;
mod random;
mod report;

use std::process::ExitCode;

use compare::Difference;
use measure::{Kind, Way};
use model::{MOST_FACTS, MOST_JOBS};

/// What is asked for.
enum Request {
    Compare {
        pairs: u64,
    },
    Measure,
    Count {
        way: Way,
        kind: Kind,
        facts: usize,
        jobs: usize,
        growings: u16,
    },
}

impl Request {
    fn of(arguments: &[&str]) -> Option<Request> {
        match arguments {
            ["compare"] => Some(Request::Compare {
                pairs: compare::PAIRS,
            }),
            ["compare", pairs] => Some(Request::Compare {
                pairs: pairs.parse().ok()?,
            }),
            ["measure"] => Some(Request::Measure),
            ["count", way, kind, facts, jobs, growings] => Some(Request::Count {
                way: Way::named(way)?,
                kind: Kind::named(kind)?,
                facts: facts
                    .parse()
                    .ok()
                    .filter(|facts| (2..=MOST_FACTS).contains(facts))?,
                jobs: jobs.parse().ok().filter(|&jobs| jobs <= MOST_JOBS)?,
                growings: growings.parse().ok()?,
            }),
            _ => None,
        }
    }

    fn answer(&self) -> Result<(), Difference> {
        match *self {
            Request::Compare { pairs } => compare::compare(pairs),
            Request::Measure => measure::measure(),
            Request::Count {
                way,
                kind,
                facts,
                jobs,
                growings,
            } => {
                println!("{:016x}", measure::count(way, kind, facts, jobs, growings));
                Ok(())
            }
        }
    }
}

fn main() -> ExitCode {
    let arguments: Vec<String> = std::env::args().skip(1).collect();
    let arguments: Vec<&str> = arguments.iter().map(String::as_str).collect();
    let Some(request) = Request::of(&arguments) else {
        eprintln!("plain compare [PAIRS] | plain measure | plain count WAY KIND N M GROWINGS");
        return ExitCode::from(2);
    };
    match request.answer() {
        Ok(()) => ExitCode::SUCCESS,
        Err(difference) => {
            println!("{difference}");
            ExitCode::FAILURE
        }
    }
}
