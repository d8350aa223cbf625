//! The fields that both implementations write.

use crate::check::{Comparison, Difference, LONGEST_OUT};
use crate::frames::Sample;
use crate::plain::{Content, Fields};
use crate::random::Random;

/// The longest part (source, sender or domain) that is given to a writer.
const LONGEST_PART: usize = 20;

pub fn all(comparison: &mut Comparison, random: &mut Random) -> Result<(), Difference> {
    for kind in 0..4 {
        each_room(comparison, random, kind)?;
        each_part_length(comparison, random, kind)?;
        each_value(comparison, random, kind)?;
    }
    mixed(comparison, random, 1_000_000)
}

/// Random fields to buffers of 0 to 64 octets.
fn each_room(comparison: &mut Comparison, random: &mut Random, kind: usize) -> Result<(), Difference> {
    for _ in 0..200 {
        let sample = Sample::random(random, kind);
        for length in 0..=LONGEST_OUT {
            comparison.write(random, &sample.fields(), length)?;
        }
    }
    Ok(())
}

/// All lengths of source, sender and domain together.
fn each_part_length(comparison: &mut Comparison, random: &mut Random, kind: usize) -> Result<(), Difference> {
    let parts: [[u8; LONGEST_PART]; 3] = [random.octets(), random.octets(), random.octets()];
    let sample = Sample::random(random, kind);
    for source in 0..=LONGEST_PART {
        for sender in 0..=LONGEST_PART {
            for domain in 0..=LONGEST_PART {
                let fields = Fields {
                    source: &parts[0][..source],
                    sender: &parts[1][..sender],
                    domain: &parts[2][..domain],
                    ..sample.fields()
                };
                comparison.write(random, &fields, LONGEST_OUT)?;
            }
        }
    }
    Ok(())
}

/// Each number of 16 bits in each field that is limited.
fn each_value(comparison: &mut Comparison, random: &mut Random, kind: usize) -> Result<(), Difference> {
    let mut sample = Sample::random(random, kind);
    let before = sample.content;
    for field in 0..limited(&before) {
        for value in 0..=u16::MAX {
            set_limited(&mut sample.content, field, value);
            comparison.write(random, &sample.fields(), LONGEST_OUT)?;
        }
        sample.content = before;
    }
    Ok(())
}

/// Random fields, some outside their values, parts of some other length and buffers of any length.
fn mixed(comparison: &mut Comparison, random: &mut Random, times: usize) -> Result<(), Difference> {
    for time in 0..times {
        let mut sample = Sample::random(random, time % 4);
        if random.once_in(4) {
            let field = random.below(limited(&sample.content));
            set_limited(&mut sample.content, field, random.word());
        }
        let parts: [[u8; LONGEST_PART]; 3] = [random.octets(), random.octets(), random.octets()];
        let fields = Fields {
            source: &parts[0][..part_length(random, 6)],
            sender: &parts[1][..part_length(random, 6)],
            domain: &parts[2][..part_length(random, 16)],
            ..sample.fields()
        };
        let room = random_room(random);
        comparison.write(random, &fields, room)?;
    }
    Ok(())
}

fn part_length(random: &mut Random, right: usize) -> usize {
    match random.once_in(12) {
        true => random.below(LONGEST_PART + 1),
        false => right,
    }
}

fn random_room(random: &mut Random) -> usize {
    match random.once_in(3) {
        true => random.below(LONGEST_OUT + 1),
        false => 48 + random.below(LONGEST_OUT - 47),
    }
}

/// How many fields of this kind are limited in their values.
fn limited(content: &Content) -> usize {
    match content {
        Content::Test(_) => 3,
        Content::TopologyChange(_) => 1,
        Content::LinkDown(_) | Content::LinkUp(_) => 2,
    }
}

/// Sets one of the fields that are limited in their values.
fn set_limited(content: &mut Content, field: usize, value: u16) {
    match content {
        Content::Test(test) => match field {
            0 => test.priority = value,
            1 => test.port_role = value,
            _ => test.ring_state = value,
        },
        Content::TopologyChange(change) => change.priority = value,
        Content::LinkDown(link) | Content::LinkUp(link) => match field {
            0 => link.port_role = value,
            _ => link.blocked = value,
        },
    }
}
