//! Cross-check of the proved Hobbit: a plain interpreter beside the proved static library, on random machines.
//!   crosscheck [STEPS] [SEED]   compares, 1,000,000 steps by default; exit status 1 on any difference
//!   crosscheck alone [STEPS] [SEED]   our interpreter alone: what the generator reaches
//!   crosscheck board            reads frames and prints lines with our interpreter, as the board program does
//!   crosscheck texts            reads parcels and prints what they decode to, as the program test_decoder does
//!   crosscheck parcels          prints the list of the one-parcel instructions, as the program parcels does
//!   crosscheck frames [SEED]    prints a random conversation for a board program
mod board;
mod compare;
mod guard;
mod link;
mod machine;
mod random;
mod texts;

use std::process::ExitCode;

fn number(argument: Option<&String>, default: u64) -> Option<u64> {
    match argument {
        None => Some(default),
        Some(digits) => digits.replace([',', '_'], "").parse().ok(),
    }
}

fn check(arguments: &[String]) -> ExitCode {
    let steps = number(arguments.first(), 1_000_000);
    let seed = number(arguments.get(1), 1);
    let (Some(steps), Some(seed)) = (steps, seed) else {
        eprintln!("usage: crosscheck [STEPS] [SEED] | alone [STEPS] [SEED] | board | texts | parcels | frames [SEED]");
        return ExitCode::from(2);
    };
    if !link::Proved::LINKED {
        eprintln!("built without libhobbit.a: set HOBBIT_LIB to its folder and build again");
        return ExitCode::from(2);
    }
    if link::interface() != link::INTERFACE {
        eprintln!("libhobbit.a has interface {}, this check {}", link::interface(), link::INTERFACE);
        return ExitCode::from(2);
    }
    let summary = compare::compare(steps, seed);
    summary.tally.print();
    let missed = summary.tally.missed();
    println!("rows not met: {}", if missed.is_empty() { "none".into() } else { missed.join("; ") });
    println!("{} cases from seed {seed}", summary.cases);
    println!("{} single steps, {} runs of kind 03, {} of kind 04", summary.calls, summary.runs[0], summary.runs[1]);
    println!("{} registers set or read, {} stores and loads", summary.settings, summary.transfers);
    let (texts, encoded) = (summary.texts, summary.encoded);
    println!(
        "{texts} texts decoded, {encoded} encoded back, {} blocks, {} of them coded",
        summary.blocks, summary.coded
    );
    println!("{} steps compared, {} differences", summary.tally.steps, summary.differences);
    ExitCode::from((summary.differences > 0) as u8)
}

fn ended(mode: &str, result: std::io::Result<()>) -> ExitCode {
    match result {
        Ok(()) => ExitCode::SUCCESS,
        Err(error) => {
            eprintln!("{mode}: {error}");
            ExitCode::FAILURE
        }
    }
}

fn main() -> ExitCode {
    let arguments: Vec<String> = std::env::args().skip(1).collect();
    match arguments.first().map(String::as_str) {
        Some("board") => ended("board", board::serve()),
        Some("texts") => ended("texts", texts::tell()),
        Some("parcels") => ended("parcels", texts::list()),
        Some("alone") => {
            let (steps, seed) = (number(arguments.get(1), 1_000_000), number(arguments.get(2), 1));
            compare::alone(steps.unwrap_or(0), seed.unwrap_or(1)).tally.print();
            ExitCode::SUCCESS
        }
        Some("frames") => {
            compare::print_frames(number(arguments.get(1), 1).unwrap_or(1));
            ExitCode::SUCCESS
        }
        _ => check(&arguments),
    }
}
