//! Random fields, and the frames made of them by the plain writer.

use crate::plain::{self, Change, Content, Fields, Link, Test};
use crate::random::Random;

/// The longest run of octets that is read.
pub const LONGEST: usize = 80;

/// Some octets of a frame, without an allocation.
#[derive(Clone, Copy)]
pub struct Octets {
    pub buffer: [u8; LONGEST],
    pub length: usize,
}

impl Octets {
    pub fn as_slice(&self) -> &[u8] {
        &self.buffer[..self.length]
    }

    pub fn as_mut_slice(&mut self) -> &mut [u8] {
        &mut self.buffer[..self.length]
    }
}

/// Fields that own their parts.
#[derive(Clone, Copy, Debug)]
pub struct Sample {
    pub source: [u8; 6],
    pub sender: [u8; 6],
    pub content: Content,
    pub sequence: u16,
    pub domain: [u8; 16],
}

impl Sample {
    /// Random fields of kind 0 (Test) to 3 (LinkUp), all within their values.
    pub fn random(random: &mut Random, kind: usize) -> Sample {
        Sample {
            source: random.octets(),
            sender: random.octets(),
            content: random_content(random, kind),
            sequence: random.word(),
            domain: if random.once_in(4) { [0xFF; 16] } else { random.octets() },
        }
    }

    pub fn fields(&self) -> Fields<'_> {
        Fields {
            source: &self.source,
            sender: &self.sender,
            content: self.content,
            sequence: self.sequence,
            domain: &self.domain,
        }
    }

    /// The frame of these fields with so many zero octets after it. All else in the buffer is zero too.
    pub fn frame(&self, padding: usize) -> Octets {
        let mut buffer = [0; LONGEST];
        let total = plain::write(&self.fields(), &mut buffer);
        Octets { buffer, length: total as usize + padding }
    }

    /// How many octets of padding this kind of frame may have.
    pub fn room(&self) -> usize {
        60 - self.content.total()
    }
}

/// A random accepted frame.
pub fn accepted(random: &mut Random) -> Octets {
    let kind = random.below(4);
    let sample = Sample::random(random, kind);
    let padding = random.below(sample.room() + 1);
    sample.frame(padding)
}

fn random_content(random: &mut Random, kind: usize) -> Content {
    match kind {
        0 => Content::Test(Test {
            priority: random_priority(random),
            port_role: random.below(2) as u16,
            ring_state: random.below(2) as u16,
            transitions: random.word(),
            time_stamp: u32::from(random.word()) << 16 | u32::from(random.word()),
        }),
        1 => Content::TopologyChange(Change { priority: random_priority(random), interval: random.word() }),
        2 => Content::LinkDown(random_link(random)),
        _ => Content::LinkUp(random_link(random)),
    }
}

fn random_priority(random: &mut Random) -> u16 {
    random.below(16) as u16 * 0x1000
}

fn random_link(random: &mut Random) -> Link {
    Link { port_role: random.below(2) as u16, interval: random.word(), blocked: random.below(2) as u16 }
}
