//! Frames as lines of text.

use crate::frames::accepted;
use crate::hex::to_hex;
use crate::plain::{self, Content, Frame};
use crate::random::Random;

/// Random accepted frames, one a line.
pub fn emit(seed: u64, count: usize) -> String {
    let mut random = Random::new(seed);
    (0..count).map(|_| to_hex(accepted(&mut random).as_slice()) + "\n").collect()
}

/// What the plain reader finds, one line a frame, with tabs between: first the octets, then the number of the refusal,
/// or 0 and the fields. A field that the kind does not have is a dash.
pub fn fields(frames: &[Vec<u8>]) -> String {
    frames.iter().map(|octets| format!("{}\t{}\n", to_hex(octets), answer(octets))).collect()
}

fn answer(octets: &[u8]) -> String {
    match plain::read(octets) {
        Ok(frame) => format!("0\t{}", columns(octets, &frame).join("\t")),
        Err(refusal) => refusal.to_string(),
    }
}

fn columns(octets: &[u8], frame: &Frame) -> Vec<String> {
    let part = |at: usize, length: usize| to_hex(&octets[at..at + length]);
    let answer = Ok(*frame);
    let number = |field: u32| match plain::field(&answer, field) {
        plain::NO_VALUE => "-".to_string(),
        value => value.to_string(),
    };
    let mut columns = vec![kind(&frame.content), part(frame.source_at, 6), part(frame.sender_at, 6)];
    columns.extend((0..=7).map(number));
    columns.push(part(frame.domain_at, 16));
    columns
}

fn kind(content: &Content) -> String {
    (content.kind() - 0x100).to_string()
}
