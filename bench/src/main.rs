//! Times the proved reader and the second one on the same bytes, in turn, and
//! prints the time of one read by each, and their ratio.

mod proved;
mod timing;
mod units;

use std::process::ExitCode;

/// The number of the second reader's refusal, and 0 where the bytes are read.
fn second_read(bytes: &[u8]) -> u32 {
    match second::unit::read(bytes) {
        Ok(_) => 0,
        Err(refusal) => refusal.refusal,
    }
}

fn main() -> ExitCode {
    println!(
        "{:<24}{:>7}{:>9}{:>13}{:>13}{:>8}",
        "unit", "bytes", "refusal", "proved, ns", "second, ns", "ratio"
    );
    let mut agreed = true;
    for unit in units::all() {
        let bytes = &unit.bytes;
        let answers = (proved::read(bytes), second_read(bytes));
        if answers != (unit.refusal, unit.refusal) {
            eprintln!("{}: expected {}, the answers are {answers:?}", unit.name, unit.refusal);
            agreed = false;
            continue;
        }
        let (proved, second) = timing::compare(bytes, proved::read, second_read);
        println!(
            "{:<24}{:>7}{:>9}{proved:>13.1}{second:>13.1}{:>8.2}",
            unit.name,
            bytes.len(),
            unit.refusal,
            proved / second
        );
    }
    if agreed {
        ExitCode::SUCCESS
    } else {
        ExitCode::FAILURE
    }
}
