//! One frame read, or one frame written, by both implementations; and the counts of what was met.

use crate::hex::to_hex;
use crate::library;
use crate::plain::{self, Fields, Frame};
use crate::random::Random;
use std::fmt;

/// All numbers of fields, the two after them, and some far above them.
const FIELDS: [u32; 16] = [0, 1, 2, 3, 4, 5, 6, 7, 8, 9, 10, 11, 12, 256, 65_536, u32::MAX];

/// Octets before and after the buffer that is written to. They must stay as they are.
const GUARD: usize = 16;

/// The longest buffer that is written to.
pub const LONGEST_OUT: usize = 64;

const KINDS: [&str; 4] = ["Test", "TopologyChange", "LinkDown", "LinkUp"];

/// Where the two implementations differ, in words.
pub struct Difference(pub String);

/// What was compared so far.
#[derive(Default)]
pub struct Comparison {
    frames: u64,
    accepted: [u64; 4],
    refused: [u64; 12],
    writes: u64,
    written: [u64; 4],
    refused_writes: [u64; 13],
}

impl Comparison {
    /// Reads these octets with both, and compares the answer and all fields.
    pub fn read(&mut self, octets: &[u8]) -> Result<(), Difference> {
        let plain = plain::read(octets);
        let library = library::read(octets);
        self.count_read(&plain);
        if library != plain_answer(&plain) {
            return Err(read_difference(octets, &plain, "mrp_read", u64::from(library)));
        }
        for number in FIELDS {
            let value = library::field(octets, number);
            if value != plain::field(&plain, number) {
                return Err(read_difference(octets, &plain, &format!("mrp_field {number}"), value));
            }
        }
        Ok(())
    }

    /// Reads these octets with both, and compares with what is expected of them.
    pub fn read_expecting(&mut self, octets: &[u8], expected: u32) -> Result<(), Difference> {
        self.read(octets)?;
        let answer = plain_answer(&plain::read(octets));
        if answer != expected {
            return Err(Difference(format!("frame {}\nexpected {expected}, read as {answer}", to_hex(octets))));
        }
        Ok(())
    }

    /// Writes these fields with both, to a buffer of that length within random octets, and compares all octets.
    pub fn write(&mut self, random: &mut Random, fields: &Fields, length: usize) -> Result<(), Difference> {
        let mut by_plain: [u8; LONGEST_OUT + 2 * GUARD] = random.octets();
        let mut by_library = by_plain;
        let plain = plain::write(fields, &mut by_plain[GUARD..GUARD + length]);
        let library = library::write(fields, &mut by_library[GUARD..GUARD + length]);
        self.count_write(fields, plain);
        if library == plain && by_library == by_plain {
            return Ok(());
        }
        Err(Difference(format!(
            "write {}\nto {length} octets, shown with {GUARD} octets before and after\n\
             plain   answers {plain:2} {}\nlibrary answers {library:2} {}",
            fields_text(fields),
            to_hex(&by_plain[..length + 2 * GUARD]),
            to_hex(&by_library[..length + 2 * GUARD])
        )))
    }

    fn count_read(&mut self, answer: &Result<Frame, u32>) {
        self.frames += 1;
        match answer {
            Ok(frame) => self.accepted[kind_index(frame.content.kind())] += 1,
            Err(refusal) => self.refused[*refusal as usize] += 1,
        }
    }

    fn count_write(&mut self, fields: &Fields, answer: u32) {
        self.writes += 1;
        if answer as usize == fields.content.total() {
            self.written[kind_index(fields.content.kind())] += 1;
        } else {
            self.refused_writes[answer as usize] += 1;
        }
    }

    /// What was never met, though a comparison without it says little.
    pub fn unmet(&self) -> Vec<String> {
        let mut unmet = Vec::new();
        for (kind, name) in KINDS.iter().enumerate() {
            if self.accepted[kind] == 0 {
                unmet.push(format!("no {name} was accepted"));
            }
            if self.written[kind] == 0 {
                unmet.push(format!("no {name} was written"));
            }
        }
        let reads = (1..=11).filter(|&refusal| self.refused[refusal] == 0);
        unmet.extend(reads.map(|refusal| format!("no frame was refused as {refusal}")));
        let writes = [8, 12].into_iter().filter(|&refusal| self.refused_writes[refusal] == 0);
        unmet.extend(writes.map(|refusal| format!("no write was refused as {refusal}")));
        if self.frames < 1_000_000 {
            unmet.push(format!("only {} frames were read", self.frames));
        }
        unmet
    }
}

impl fmt::Display for Comparison {
    fn fmt(&self, out: &mut fmt::Formatter) -> fmt::Result {
        let accepted: u64 = self.accepted.iter().sum();
        write!(out, "{} frames: {accepted} accepted ({})", self.frames, by_kind(&self.accepted))?;
        for refusal in 1..=11 {
            write!(out, ", {} refused as {refusal}", self.refused[refusal])?;
        }
        let written: u64 = self.written.iter().sum();
        write!(out, "; {} writes: {written} written ({})", self.writes, by_kind(&self.written))?;
        for refusal in [8, 12] {
            write!(out, ", {} refused as {refusal}", self.refused_writes[refusal])?;
        }
        Ok(())
    }
}

fn by_kind(counts: &[u64; 4]) -> String {
    let each: Vec<String> = KINDS.iter().zip(counts).map(|(name, count)| format!("{name} {count}")).collect();
    each.join(", ")
}

fn kind_index(kind: u32) -> usize {
    (kind - plain::TEST) as usize
}

fn plain_answer(answer: &Result<Frame, u32>) -> u32 {
    match answer {
        Ok(frame) => frame.content.kind(),
        Err(refusal) => *refusal,
    }
}

fn fields_text(fields: &Fields) -> String {
    format!(
        "{:?} source {} sender {} sequence {} domain {}",
        fields.content,
        to_hex(fields.source),
        to_hex(fields.sender),
        fields.sequence,
        to_hex(fields.domain)
    )
}

fn read_difference(octets: &[u8], plain: &Result<Frame, u32>, call: &str, library: u64) -> Difference {
    Difference(format!(
        "frame {} ({} octets)\nplain   {plain:?}\nlibrary {call} answers {library} ({library:#x})",
        to_hex(octets),
        octets.len()
    ))
}
