//! `second corpus UNITS VERDICTS` writes the corpus and its verdict lines,
//! `second verdicts UNITS` prints the verdict lines of a corpus file,
//! `second read FILE` prints the verdict line of one unit file,
//! `second states STATES LINES` writes the corpus of states and its lines,
//! `second lines STATES` prints the lines of a states file.

use std::error::Error;
use std::fs;
use std::io::{self, Write};
use std::process::ExitCode;

use second::corpus;
use second::lines::lines;
use second::queries::{pack_blocks, unpack_blocks};
use second::states;
use second::verdict::verdict;

const USAGE: &str = "usage: second corpus UNITS VERDICTS
       second verdicts UNITS
       second read FILE
       second states STATES LINES
       second lines STATES";

fn main() -> ExitCode {
    let arguments: Vec<String> = std::env::args().skip(1).collect();
    let arguments: Vec<&str> = arguments.iter().map(String::as_str).collect();
    let result = match arguments[..] {
        ["corpus", units, verdicts] => write_corpus(units, verdicts),
        ["verdicts", units] => print_verdicts(units),
        ["read", file] => print_verdict(file),
        ["states", states, lines] => write_states(states, lines),
        ["lines", states] => print_lines(states),
        _ => Err(USAGE.into()),
    };
    match result {
        Ok(()) => ExitCode::SUCCESS,
        Err(error) => {
            eprintln!("{error}");
            ExitCode::FAILURE
        }
    }
}

fn write_corpus(units_file: &str, verdicts_file: &str) -> Result<(), Box<dyn Error>> {
    let cases = corpus::generate();
    let units: Vec<&[u8]> = cases.iter().map(|case| case.bytes.as_slice()).collect();
    write_file(units_file, &corpus::pack(&units))?;
    write_file(verdicts_file, verdict_lines(&units).as_bytes())
}

fn print_verdicts(units_file: &str) -> Result<(), Box<dyn Error>> {
    let packed = read_file(units_file)?;
    let units = corpus::unpack(&packed)
        .ok_or_else(|| format!("{units_file}: not a whole number of units"))?;
    print(&verdict_lines(&units))
}

fn print_verdict(file: &str) -> Result<(), Box<dyn Error>> {
    print(&verdict_lines(&[&read_file(file)?]))
}

fn write_states(states_file: &str, lines_file: &str) -> Result<(), Box<dyn Error>> {
    let packed = pack_blocks(&states::generate());
    write_file(states_file, &packed)?;
    write_file(lines_file, state_lines(states_file, &packed)?.as_bytes())
}

fn print_lines(states_file: &str) -> Result<(), Box<dyn Error>> {
    print(&state_lines(states_file, &read_file(states_file)?)?)
}

/// The lines of a states file with these contents.
fn state_lines(name: &str, packed: &[u8]) -> Result<String, Box<dyn Error>> {
    let blocks = unpack_blocks(packed).map_err(|error| format!("{name}: {error}"))?;
    Ok(lines(&blocks))
}

/// The verdict lines of the units, numbered from 0.
fn verdict_lines(units: &[&[u8]]) -> String {
    let mut lines = String::new();
    for (number, bytes) in units.iter().enumerate() {
        lines += &verdict(number, bytes);
        lines.push('\n');
    }
    lines
}

fn print(text: &str) -> Result<(), Box<dyn Error>> {
    Ok(io::stdout().lock().write_all(text.as_bytes())?)
}

fn read_file(name: &str) -> Result<Vec<u8>, Box<dyn Error>> {
    fs::read(name).map_err(|error| format!("{name}: {error}").into())
}

fn write_file(name: &str, contents: &[u8]) -> Result<(), Box<dyn Error>> {
    fs::write(name, contents).map_err(|error| format!("{name}: {error}").into())
}
