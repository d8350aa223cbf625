//! The frames that both implementations read.

use crate::check::{Comparison, Difference};
use crate::frames::{accepted, Octets, Sample, LONGEST};
use crate::plain::{self, Change, Content, TOPOLOGY_CHANGE};
use crate::random::Random;

/// Octets that stand somewhere in a frame, or next to one that does.
const TELLING: [u8; 20] = [0, 1, 2, 3, 4, 5, 6, 9, 10, 11, 12, 13, 17, 18, 19, 0x0F, 0x10, 0x80, 0x88, 0xFF];

const HEAD: [u8; 16] = [0x01, 0x15, 0x4E, 0, 0, 1, 2, 0, 0, 0, 0, 0, 0x88, 0xE3, 0, 1];

/// Type and length of the four first elements.
const FIRST: [[u8; 2]; 4] = [[2, 18], [3, 10], [4, 12], [5, 12]];

pub fn all(comparison: &mut Comparison, random: &mut Random, captures: &[Vec<u8>]) -> Result<(), Difference> {
    for capture in captures {
        comparison.read(capture)?;
    }
    worked_frame(comparison)?;
    random_fields(comparison, random, 1_000_000)?;
    for _ in 0..4 {
        for base in base_frames(random) {
            each_octet_each_value(comparison, base)?;
        }
    }
    each_field_each_value(comparison, random)?;
    each_length(comparison, random)?;
    plausible(comparison, random, 500_000)?;
    damaged(comparison, random, 1_500_000)
}

/// The worked frame of docs/FRAMES.md and the seven answers given there.
fn worked_frame(comparison: &mut Comparison) -> Result<(), Difference> {
    let sample = Sample {
        source: [2, 0, 0, 0, 0, 0],
        sender: [2, 0, 0, 0, 0, 0],
        content: Content::TopologyChange(Change { priority: 0x8000, interval: 30 }),
        sequence: 0,
        domain: [0xFF; 16],
    };
    let frame = sample.frame(0).buffer;
    let with = |at: usize, octet: u8| {
        let mut changed = frame;
        changed[at] = octet;
        changed
    };
    comparison.read_expecting(&frame[..50], TOPOLOGY_CHANGE)?;
    comparison.read_expecting(&frame[..49], 1)?;
    comparison.read_expecting(&frame[..60], TOPOLOGY_CHANGE)?;
    comparison.read_expecting(&frame[..61], 1)?;
    comparison.read_expecting(&with(50, 1)[..51], 11)?;
    comparison.read_expecting(&with(5, 1)[..50], 7)?;
    comparison.read_expecting(&with(19, 1)[..50], 8)
}

/// Frames of random fields with random padding, which is not zero in one frame of eight.
fn random_fields(comparison: &mut Comparison, random: &mut Random, times: usize) -> Result<(), Difference> {
    for time in 0..times {
        let sample = Sample::random(random, time % 4);
        let mut frame = sample.frame(random.below(sample.room() + 1));
        let padded = frame.length > sample.content.total();
        if padded && random.once_in(8) {
            let at = sample.content.total() + random.below(frame.length - sample.content.total());
            frame.buffer[at] = random.octet();
        } else {
            reads_back(&sample, &frame)?;
        }
        comparison.read(frame.as_slice())?;
    }
    Ok(())
}

/// The plain reader has to find in a frame what the plain writer put there.
fn reads_back(sample: &Sample, frame: &Octets) -> Result<(), Difference> {
    let octets = frame.as_slice();
    let same = plain::read(octets).is_ok_and(|read| {
        read.content == sample.content
            && read.sequence == sample.sequence
            && octets[read.source_at..].starts_with(&sample.source)
            && octets[read.sender_at..].starts_with(&sample.sender)
            && octets[read.domain_at..].starts_with(&sample.domain)
    });
    match same {
        true => Ok(()),
        false => Err(Difference(format!("the plain reader does not read back {sample:?}"))),
    }
}

/// A frame of each kind, without padding and with as much as there may be.
fn base_frames(random: &mut Random) -> Vec<Octets> {
    let mut frames = Vec::new();
    for kind in 0..4 {
        let sample = Sample::random(random, kind);
        frames.extend([sample.frame(0), sample.frame(sample.room())]);
    }
    frames
}

fn each_octet_each_value(comparison: &mut Comparison, mut frame: Octets) -> Result<(), Difference> {
    for at in 0..frame.length {
        let before = frame.buffer[at];
        for octet in 0..=255 {
            frame.buffer[at] = octet;
            comparison.read(frame.as_slice())?;
        }
        frame.buffer[at] = before;
    }
    Ok(())
}

/// Each number of 16 bits in each field that is limited.
fn each_field_each_value(comparison: &mut Comparison, random: &mut Random) -> Result<(), Difference> {
    let places: [&[usize]; 4] = [&[18, 26, 28], &[18], &[24, 28], &[24, 28]];
    for (kind, places) in places.iter().enumerate() {
        for &at in *places {
            let mut frame = Sample::random(random, kind).frame(0);
            for value in 0..=u16::MAX {
                frame.buffer[at..at + 2].copy_from_slice(&value.to_be_bytes());
                comparison.read(frame.as_slice())?;
            }
        }
    }
    Ok(())
}

/// Frames cut off or lengthened to 0 to 80 octets, and as many random octets.
fn each_length(comparison: &mut Comparison, random: &mut Random) -> Result<(), Difference> {
    for length in 0..=LONGEST {
        for mut frame in base_frames(random) {
            frame.length = length;
            comparison.read(frame.as_slice())?;
        }
        for _ in 0..200 {
            let octets: [u8; LONGEST] = random.octets();
            comparison.read(&octets[..length])?;
        }
    }
    Ok(())
}

/// A head that may be right, the first two octets of an element, and then random octets.
fn plausible(comparison: &mut Comparison, random: &mut Random, times: usize) -> Result<(), Difference> {
    for _ in 0..times {
        let mut octets: [u8; LONGEST] = random.octets();
        octets[..16].copy_from_slice(&HEAD);
        octets[5] = 1 + random.below(2) as u8;
        octets[16..18].copy_from_slice(&FIRST[random.below(4)]);
        for octet in &mut octets[18..] {
            if !random.once_in(3) {
                *octet = random.below(2) as u8;
            }
        }
        if random.once_in(4) {
            octets[random.below(18)] = TELLING[random.below(TELLING.len())];
        }
        let length = 46 + random.below(18);
        comparison.read(&octets[..length])?;
    }
    Ok(())
}

/// Accepted frames after one to four damages.
fn damaged(comparison: &mut Comparison, random: &mut Random, times: usize) -> Result<(), Difference> {
    for _ in 0..times {
        let frame = damaged_frame(random);
        comparison.read(frame.as_slice())?;
    }
    Ok(())
}

pub fn damaged_frame(random: &mut Random) -> Octets {
    let mut frame = accepted(random);
    for _ in 0..=random.below(4) {
        damage(random, &mut frame);
    }
    frame
}

fn damage(random: &mut Random, frame: &mut Octets) {
    let first = match frame.buffer[16] {
        2 => 20,
        3 => 12,
        _ => 14,
    };
    let common = 16 + first;
    let tail = common + 20;
    match random.below(8) {
        0 => frame.length = 46 + random.below(18),
        1 => frame.buffer[5] = 1 + random.below(4) as u8,
        2 => frame.buffer[16..18].copy_from_slice(&FIRST[random.below(4)]),
        3 => frame.buffer[random.below(18)] = TELLING[random.below(TELLING.len())],
        4 => frame.buffer[18 + random.below(first)] = TELLING[random.below(TELLING.len())],
        5 => frame.buffer[common + random.below(2)] = TELLING[random.below(TELLING.len())],
        6 => frame.buffer[tail + random.below(10)] = TELLING[random.below(TELLING.len())],
        _ => frame.buffer[random.below(60)] = random.octet(),
    }
}
