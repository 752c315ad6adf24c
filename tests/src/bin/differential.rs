//! Runs random calls of the library and holds each to the model: the answer, and every lent byte
//! afterwards.
//!
//! `cargo run --release --bin differential -- SEED COUNT [--from K] [--write FILE]`, from the folder
//! tests/, takes COUNT cases of the seed, from number K on, else from 0. A case rests on the seed and
//! its number alone, so that `SEED 1 --from K` runs case K again. At the first difference the case
//! is printed, of a long slice its beginning, and the status is 1. With `--write` the cases and what
//! the model makes of them are written to a file for tests/c/driver.c, and none is run.

use ringlog_tests::cases;
use std::fs::File;
use std::io::{self, BufWriter, Write};
use std::ops::Range;
use std::process::ExitCode;
use std::time::Instant;

const USAGE: &str = "differential SEED COUNT [--from K] [--write FILE]";

struct Arguments {
    seed: u64,
    numbers: Range<u64>,
    file: Option<String>,
}

impl Arguments {
    fn read(mut words: impl Iterator<Item = String>) -> Option<Arguments> {
        let seed = words.next()?.parse().ok()?;
        let count: u64 = words.next()?.parse().ok()?;
        let (mut from, mut file) = (0_u64, None);
        while let Some(word) = words.next() {
            match word.as_str() {
                "--from" => from = words.next()?.parse().ok()?,
                "--write" => file = Some(words.next()?),
                _ => return None,
            }
        }
        Some(Arguments {
            seed,
            numbers: from..from.checked_add(count)?,
            file,
        })
    }
}

fn main() -> ExitCode {
    let Arguments {
        seed,
        numbers,
        file,
    } = match Arguments::read(std::env::args().skip(1)) {
        Some(arguments) => arguments,
        None => {
            eprintln!("{USAGE}");
            return ExitCode::from(2);
        }
    };
    let done = match file {
        Some(name) => write(seed, numbers, &name).map_err(|error| format!("{name}: {error}")),
        None => run(seed, numbers),
    };
    match done {
        Ok(()) => ExitCode::SUCCESS,
        Err(why) => {
            println!("{why}");
            ExitCode::FAILURE
        }
    }
}

fn run(seed: u64, numbers: Range<u64>) -> Result<(), String> {
    let start = Instant::now();
    let count = numbers.end - numbers.start;
    let met = cases::run(seed, numbers).map_err(|difference| difference.to_string())?;
    print!("{met}");
    println!("{count} cases of seed {seed}, no difference");
    println!("{:.1} seconds", start.elapsed().as_secs_f64());
    Ok(())
}

fn write(seed: u64, numbers: Range<u64>, name: &str) -> io::Result<()> {
    let mut file = BufWriter::new(File::create(name)?);
    let count = numbers.end - numbers.start;
    cases::write(seed, numbers, &mut file)?;
    file.flush()?;
    println!("{count} cases of seed {seed} are in {name}");
    Ok(())
}
