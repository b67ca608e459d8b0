//! Compares the linked static library with the second implementation.
//!
//! compare [CASE FILE …] [--seed N] [--seconds S] [--part NAME] [--trace]

#[path = "../archive.rs"]
mod archive;

use harness::cases;
use harness::gate::{is_part, run, Plan};
use std::process::ExitCode;
use std::time::Duration;

/// The seed of the gate.
const GATE_SEED: u64 = 1;

fn main() -> ExitCode {
    match plan(std::env::args().skip(1)) {
        Ok(plan) if run(&archive::Archive, &plan) => ExitCode::SUCCESS,
        Ok(_) => ExitCode::FAILURE,
        Err(message) => {
            eprintln!("compare: {message}");
            ExitCode::from(2)
        }
    }
}

fn plan(mut arguments: impl Iterator<Item = String>) -> Result<Plan, String> {
    let mut plan = Plan { seed: GATE_SEED, cases: Vec::new(), part: None, duration: None, trace: false };
    while let Some(argument) = arguments.next() {
        let mut number = |name: &str| -> Result<u64, String> {
            let value = arguments.next().ok_or(format!("{name} needs a number"))?;
            value.parse().map_err(|_| format!("{name} needs a number"))
        };
        match argument.as_str() {
            "--seed" => plan.seed = number("--seed")?,
            "--seconds" => plan.duration = Some(Duration::from_secs(number("--seconds")?)),
            "--part" => {
                plan.part = Some(arguments.next().filter(|name| is_part(name)).ok_or("--part needs a part's name")?)
            }
            "--trace" => plan.trace = true,
            file => {
                let text = std::fs::read_to_string(file).map_err(|error| format!("{file}: {error}"))?;
                plan.cases.extend(cases::parse(&text).map_err(|error| format!("{file}: {error}"))?);
            }
        }
    }
    Ok(plan)
}
