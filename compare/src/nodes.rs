//! Compares the program `bench` with a client, a manager and a player in plain Rust.

use compare::command::Role;
use compare::differ::{self, Executable};
use compare::events::play_events;
use compare::met::Met;
use compare::player;
use compare::random::Random;
use compare::scripts::Script;
use std::env;
use std::fs;
use std::io::{self, Read, Write};
use std::path::{Path, PathBuf};
use std::process::ExitCode;
use std::time::Instant;

const USAGE: &str = "nodes [--seed N] [--events N] [--counts] [--program PATH]   compare the program with plain Rust
nodes [--seed N] --emit N                                   print script N
nodes --play                                                play the lines on standard input
nodes [--seed N] --measure N                                tell the time of N events in plain Rust";

const SEED: u64 = 62_439;

/// Events that are told to a node, at least.
const EVENTS: u64 = 1_500_000;

/// Events in a script of short lives, and in one life that is long.
const SHORT: u64 = 20_000;
const LONG: u64 = 250_000;

struct Arguments {
    seed: u64,
    events: u64,
    counts: bool,
    program: PathBuf,
    emit: Option<u64>,
    play: bool,
    measure: Option<u64>,
}

fn main() -> ExitCode {
    let done = match arguments() {
        Ok(Arguments { play: true, .. }) => play(),
        Ok(Arguments { emit: Some(number), seed, .. }) => emit(seed, number),
        Ok(Arguments { measure: Some(events), seed, .. }) => measure(seed, events),
        Ok(given) => compare(&given),
        Err(error) => Err(format!("{error}\n{USAGE}")),
    };
    match done {
        Ok(()) => ExitCode::SUCCESS,
        Err(error) => {
            eprintln!("nodes: {error}");
            ExitCode::FAILURE
        }
    }
}

fn arguments() -> Result<Arguments, String> {
    let program = Path::new(env!("CARGO_MANIFEST_DIR")).join("../target/bin/bench");
    let mut found =
        Arguments { seed: SEED, events: EVENTS, counts: false, program, emit: None, play: false, measure: None };
    let mut rest = env::args().skip(1);
    while let Some(argument) = rest.next() {
        match argument.as_str() {
            "--seed" => found.seed = number(&argument, rest.next())?,
            "--events" => found.events = number(&argument, rest.next())?,
            "--counts" => found.counts = true,
            "--program" => found.program = PathBuf::from(rest.next().ok_or("--program needs a path")?),
            "--emit" => found.emit = Some(number(&argument, rest.next())?),
            "--play" => found.play = true,
            "--measure" => found.measure = Some(number(&argument, rest.next())?),
            other => return Err(format!("{other} is no option")),
        }
    }
    Ok(found)
}

fn number(option: &str, text: Option<String>) -> Result<u64, String> {
    let text = text.ok_or(format!("{option} needs a number"))?;
    text.parse().map_err(|_| format!("{option} needs a number, not {text}"))
}

/// Each script by its number, made of the seed and that number alone.
fn script(seed: u64, number: u64) -> Script {
    let mut random = Random::new(seed);
    let random = Random::new(random.number() ^ number.wrapping_mul(0x9E37_79B9));
    match number {
        0 => Script::of_transitions_round(random),
        1 => Script::of_sequence_round(random),
        2 => Script::of_one_life(random, Role::Manager, LONG),
        3 => Script::of_one_life(random, Role::Client, LONG),
        4 => Script::of_long_lines(random),
        _ => Script::of_short_lives(random, SHORT),
    }
}

fn compare(given: &Arguments) -> Result<(), String> {
    println!("seed {}, program {}", given.seed, given.program.display());
    let program = Executable(given.program.clone());
    let mut met = Met::default();
    let mut number = 0;
    while met.events < given.events {
        let script = script(given.seed, number);
        met.add(&script.player.met);
        differ::compare(&program, &script.text, &script.answers).map_err(|difference| {
            let kept = keep(&difference.script);
            format!("the program and plain Rust differ in script {number}, cut down and kept in {kept}\n{difference}")
        })?;
        number += 1;
    }
    println!("{number} scripts alike: {met}");
    if given.counts {
        met.all().iter().for_each(|(name, count)| println!("{count:>10} {name}"));
    }
    let unmet = met.unmet();
    match unmet.is_empty() {
        true => Ok(()),
        false => Err(unmet.join("\n")),
    }
}

/// Keeps the script for another try, and says where.
fn keep(script: &[u8]) -> String {
    let path = Path::new(env!("CARGO_MANIFEST_DIR")).join("target/nodes-difference.txt");
    match fs::write(&path, script) {
        Ok(()) => path.display().to_string(),
        Err(error) => format!("nothing ({}: {error})", path.display()),
    }
}

fn emit(seed: u64, number: u64) -> Result<(), String> {
    print(&script(seed, number).text)
}

fn play() -> Result<(), String> {
    let mut text = Vec::new();
    io::stdin().read_to_end(&mut text).map_err(|error| format!("standard input: {error}"))?;
    print(&player::play(&text))
}

fn measure(seed: u64, events: u64) -> Result<(), String> {
    for (name, role) in [("client", Role::Client), ("manager", Role::Manager)] {
        let start = Instant::now();
        let sum = play_events(role, seed, events).map_err(|refusal| format!("refused as {}", refusal as u32))?;
        let speed = events as f64 / start.elapsed().as_secs_f64() / 1e6;
        println!("{name}: checksum {sum:016x} of {events} events, {speed:.2} million in a second");
    }
    Ok(())
}

fn print(text: &[u8]) -> Result<(), String> {
    io::stdout().write_all(text).map_err(|error| format!("standard output: {error}"))
}
