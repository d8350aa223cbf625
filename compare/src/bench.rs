//! Frames read and written in a second: by the proved library, and by plain Rust on the same inputs.

use compare::frames::{accepted, Octets, Sample, LONGEST};
use compare::random::Random;
use compare::speed::{median, print_heading, print_speeds, runs, RUNS};
use compare::{hex, library, plain, reading, tuned, typed};
use std::hint::black_box;
use std::process::ExitCode;

const SEED: u64 = 62_439;
/// The number of the field in `mrp_field`.
const SEQUENCE: u32 = 0;

/// Different frames in a set, and frames measured in a run.
const FRAMES: usize = 4_096;
const MEASURED: usize = 4_000_000;

type Reader = fn(&[u8]) -> u64;
type Writer = fn(&plain::Fields, &mut [u8]) -> u32;

/// The kind of a frame or its refusal, and nothing else.
const KINDS: [(&str, Reader); 2] =
    [("library", |octets| u64::from(library::read(octets))), ("tuned", |octets| u64::from(tuned::read_kind(octets)))];
/// A whole frame, of which the sequence number is answered.
const FRAMES_READ: [(&str, Reader); 2] =
    [("library", |octets| library::field(octets, SEQUENCE)), ("typed", typed::read_sequence)];
const WRITERS: [(&str, Writer); 2] = [("library", library::write), ("plain", plain::write)];

fn main() -> ExitCode {
    match measure() {
        Ok(()) => ExitCode::SUCCESS,
        Err(error) => {
            eprintln!("bench: {error}");
            ExitCode::FAILURE
        }
    }
}

fn measure() -> Result<(), String> {
    print_heading();
    let mut random = Random::new(SEED);
    let captured = captured_frames()?;
    let valid: Vec<Octets> = (0..FRAMES).map(|_| accepted(&mut random)).collect();
    let damaged: Vec<Octets> = (0..FRAMES).map(|_| reading::damaged_frame(&mut random)).collect();
    for (name, frames) in [("captured", captured), ("valid", valid), ("damaged", damaged)] {
        for (work, readers) in [("read", FRAMES_READ), ("kind", KINDS)] {
            same_answers(&frames, readers)?;
            measure_reads(&format!("{work}, {name}"), &frames, readers);
        }
    }
    let samples: Vec<Sample> = (0..FRAMES).map(|number| Sample::random(&mut random, number % 4)).collect();
    measure_writes("write, valid", &samples);
    measure_call();
    Ok(())
}

fn captured_frames() -> Result<Vec<Octets>, String> {
    let captures = hex::captures(&[])?;
    let fitting = captures.iter().filter(|octets| octets.len() <= LONGEST);
    Ok(fitting
        .map(|octets| {
            let mut buffer = [0; LONGEST];
            buffer[..octets.len()].copy_from_slice(octets);
            Octets { buffer, length: octets.len() }
        })
        .collect())
}

/// What is measured has to do the same work.
fn same_answers(frames: &[Octets], readers: [(&str, Reader); 2]) -> Result<(), String> {
    for frame in frames {
        let answers = readers.map(|(_, read)| read(frame.as_slice()));
        if answers.iter().any(|answer| *answer != answers[0]) {
            return Err(format!("frame {} is read as {answers:?}", hex::to_hex(frame.as_slice())));
        }
    }
    Ok(())
}

fn measure_reads(title: &str, frames: &[Octets], readers: [(&str, Reader); 2]) -> [[f64; RUNS]; 2] {
    let speeds = runs(
        MEASURED,
        readers.map(|(_, read)| {
            move || {
                for frame in frames.iter().cycle().take(MEASURED) {
                    black_box(read(black_box(frame.as_slice())));
                }
            }
        }),
    );
    print_speeds(title, &readers.map(|(name, _)| name), &speeds);
    speeds
}

fn measure_writes(title: &str, samples: &[Sample]) {
    let speeds = runs(
        MEASURED,
        WRITERS.map(|(_, write)| {
            move || {
                let mut out = [0; 60];
                for sample in samples.iter().cycle().take(MEASURED) {
                    black_box(write(black_box(&sample.fields()), &mut out));
                    black_box(&out);
                }
            }
        }),
    );
    print_speeds(title, &WRITERS.map(|(name, _)| name), &speeds);
}

/// Both answer no octets at once, so that this is the time of a call.
fn measure_call() {
    let empty = [Octets { buffer: [0; LONGEST], length: 0 }];
    let speeds = measure_reads("kind, no octets", &empty, KINDS);
    for ((name, _), speeds) in KINDS.iter().zip(&speeds) {
        println!("one call with no octets, {name}: {:.2} ns", 1_000.0 / median(speeds));
    }
}
