//! The Rust crate usb-device 0.3.2 beside ours, on the same events.

mod bench;
mod bus;
mod compare;
mod domain;
mod drive;
mod event;
mod exhaustive;
mod host;
mod limits;
mod mutant;
mod original;
mod ours;
mod outside;
mod record;
mod requests;
mod rng;
mod sample;
mod shrink;
mod tally;

use std::process::ExitCode;

fn main() -> ExitCode {
    let words: Vec<String> = std::env::args().skip(1).collect();
    let number =
        |at: usize, otherwise: u64| words.get(at).map_or(Some(otherwise), |word| word.replace([',', '_'], "").parse().ok());
    // a panic of the Rust is caught and told as an outcome
    std::panic::set_hook(Box::new(|_| ()));
    match (words.first().map(String::as_str), number(1, 10_000_000), number(2, 1)) {
        (Some("compare"), Some(events), Some(seed)) => compare::main(events, seed),
        (Some("outside"), ..) => outside::main(),
        (Some("bench"), ..) => bench::main(),
        (Some("sample"), ..) => sample::main(),
        (Some("mutants"), ..) => {
            mutant::NAMES.iter().for_each(|name| println!("{name}"));
            ExitCode::SUCCESS
        }
        _ => {
            eprintln!("oracle: compare [EVENTS [SEED]] | outside | bench | sample");
            ExitCode::from(2)
        }
    }
}
