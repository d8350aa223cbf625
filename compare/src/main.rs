//! Compares the proved library with a reader and a writer in plain Rust.

use compare::check::Comparison;
use compare::random::Random;
use compare::{hex, reading, show, writing};
use std::env;
use std::io::{self, Read, Write};
use std::path::PathBuf;
use std::process::ExitCode;

const USAGE: &str = "compare [--seed N] [CAPTURE.hex ...]   compare the library with plain Rust
compare [--seed N] --emit N            print N random accepted frames
compare --fields                       print the fields of the frames on standard input";

const SEED: u64 = 62_439;

struct Arguments {
    seed: u64,
    emit: Option<usize>,
    fields: bool,
    captures: Vec<PathBuf>,
}

fn main() -> ExitCode {
    let done = match arguments() {
        Ok(Arguments { fields: true, .. }) => print_fields(),
        Ok(Arguments { seed, emit: Some(count), .. }) => print(&show::emit(seed, count)),
        Ok(given) => compare(&given),
        Err(error) => Err(format!("{error}\n{USAGE}")),
    };
    match done {
        Ok(()) => ExitCode::SUCCESS,
        Err(error) => {
            eprintln!("compare: {error}");
            ExitCode::FAILURE
        }
    }
}

fn arguments() -> Result<Arguments, String> {
    let mut found = Arguments { seed: SEED, emit: None, fields: false, captures: Vec::new() };
    let mut rest = env::args().skip(1);
    while let Some(argument) = rest.next() {
        match argument.as_str() {
            "--seed" => found.seed = number(&argument, rest.next())?,
            "--emit" => found.emit = Some(number(&argument, rest.next())? as usize),
            "--fields" => found.fields = true,
            other if other.starts_with('-') => return Err(format!("{other} is no option")),
            _ => found.captures.push(PathBuf::from(argument)),
        }
    }
    Ok(found)
}

fn number(option: &str, text: Option<String>) -> Result<u64, String> {
    let text = text.ok_or(format!("{option} needs a number"))?;
    text.parse().map_err(|_| format!("{option} needs a number, not {text}"))
}

fn compare(given: &Arguments) -> Result<(), String> {
    let captures = hex::captures(&given.captures)?;
    println!("seed {}, {} captured frames", given.seed, captures.len());
    let mut random = Random::new(given.seed);
    let mut comparison = Comparison::default();
    let done =
        reading::all(&mut comparison, &mut random, &captures).and_then(|()| writing::all(&mut comparison, &mut random));
    done.map_err(|difference| format!("the library and plain Rust differ\n{}", difference.0))?;
    println!("{comparison}");
    let unmet = comparison.unmet();
    match unmet.is_empty() {
        true => Ok(()),
        false => Err(unmet.join("\n")),
    }
}

fn print_fields() -> Result<(), String> {
    let mut text = String::new();
    io::stdin().read_to_string(&mut text).map_err(|error| format!("standard input: {error}"))?;
    print(&show::fields(&hex::frames(&text)?))
}

fn print(text: &str) -> Result<(), String> {
    io::stdout().write_all(text.as_bytes()).map_err(|error| format!("standard output: {error}"))
}
