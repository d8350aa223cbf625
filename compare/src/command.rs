//! The commands of docs/BENCH.md, read from a line, or what is wrong with the line.

use crate::node::{Port, Settings};

/// As many octets of a frame as a node is told.
pub const LONGEST_TOLD: usize = 61;

#[derive(Clone, Copy, Debug, PartialEq, Eq)]
pub enum BadLine {
    NoSuchCommand,
    WrongNumberOfWords,
    NoSuchKind,
    NotANumber,
    NoSuchPort,
    NotOctets,
    NoNodeYet,
}

impl BadLine {
    pub const ALL: [BadLine; 7] = [
        BadLine::NoSuchCommand,
        BadLine::WrongNumberOfWords,
        BadLine::NoSuchKind,
        BadLine::NotANumber,
        BadLine::NoSuchPort,
        BadLine::NotOctets,
        BadLine::NoNodeYet,
    ];

    pub fn message(self) -> &'static str {
        match self {
            BadLine::NoSuchCommand => "no such command",
            BadLine::WrongNumberOfWords => "wrong number of words",
            BadLine::NoSuchKind => "no such kind of switch",
            BadLine::NotANumber => "not a number",
            BadLine::NoSuchPort => "a port is 1 or 2",
            BadLine::NotOctets => "not hexadecimal octets",
            BadLine::NoNodeYet => "no node yet",
        }
    }
}

#[derive(Clone, Copy, Debug, PartialEq, Eq)]
pub enum Role {
    Client,
    Manager,
}

/// The words for the kinds of switch.
pub const KINDS: [&str; 4] = ["table", "chip", "turned-table", "turned-chip"];

/// The octets of a frame that the node is told: all, or the first 61.
#[derive(Clone, Copy, Debug, PartialEq, Eq)]
pub struct Told {
    octets: [u8; LONGEST_TOLD],
    length: usize,
}

impl Told {
    pub fn as_slice(&self) -> &[u8] {
        &self.octets[..self.length]
    }
}

#[derive(Clone, Copy, Debug, PartialEq, Eq)]
pub enum Command {
    /// The kind is its place in `KINDS`.
    Make(Role, usize, Settings),
    Up(Port),
    Down(Port),
    Frame(Port, Told),
    /// A timer number above 65,535 is told as 65,535: both are no timer.
    Timer(u16),
}

impl Command {
    /// The command in a line, which is given without its line feed; `None` if it has no words.
    pub fn read(line: &[u8]) -> Result<Option<Command>, BadLine> {
        let end = line.iter().position(|&octet| octet == b'#').unwrap_or(line.len());
        let mut words = Words { rest: &line[..end] };
        let Some(first) = words.next() else { return Ok(None) };
        let command = match first {
            b"client" => making(Role::Client, words)?,
            b"manager" => making(Role::Manager, words)?,
            b"up" => Command::Up(port(exactly::<1>(words)?[0])?),
            b"down" => Command::Down(port(exactly::<1>(words)?[0])?),
            b"frame" => frame(words)?,
            b"timer" => Command::Timer(number(exactly::<1>(words)?[0])?),
            _ => return Err(BadLine::NoSuchCommand),
        };
        Ok(Some(command))
    }
}

struct Words<'a> {
    rest: &'a [u8],
}

impl<'a> Iterator for Words<'a> {
    type Item = &'a [u8];

    fn next(&mut self) -> Option<&'a [u8]> {
        let start = self.rest.iter().position(|octet| !separates_words(octet))?;
        let from_start = &self.rest[start..];
        let end = from_start.iter().position(separates_words).unwrap_or(from_start.len());
        let (word, rest) = from_start.split_at(end);
        self.rest = rest;
        Some(word)
    }
}

fn separates_words(octet: &u8) -> bool {
    matches!(octet, b' ' | b'\t' | b'\r')
}

fn exactly<const N: usize>(words: Words<'_>) -> Result<[&[u8]; N], BadLine> {
    let mut found: [&[u8]; N] = [&[]; N];
    let mut count = 0;
    for word in words {
        *found.get_mut(count).ok_or(BadLine::WrongNumberOfWords)? = word;
        count += 1;
    }
    if count == N {
        Ok(found)
    } else {
        Err(BadLine::WrongNumberOfWords)
    }
}

fn making(role: Role, words: Words) -> Result<Command, BadLine> {
    let [kind, numbers @ ..] = exactly::<9>(words)?;
    let kind = KINDS.iter().position(|name| name.as_bytes() == kind).ok_or(BadLine::NoSuchKind)?;
    let mut values = [0; 8];
    for (value, word) in values.iter_mut().zip(numbers) {
        *value = number(word)?;
    }
    let [short_test, default_test, topology, link_up, link_down, test_count, topology_count, link_count] = values;
    let settings = Settings {
        short_test,
        default_test,
        topology,
        link_up,
        link_down,
        test_count,
        topology_count,
        link_count,
        priority: 0x8000,
        domain: [0xFF; 16],
        address: [2, 0, 0, 0, 0, if role == Role::Manager { 0 } else { 1 }],
    };
    Ok(Command::Make(role, kind, settings))
}

fn frame(mut words: Words) -> Result<Command, BadLine> {
    let by = words.next().ok_or(BadLine::WrongNumberOfWords)?;
    let octets = words.rest;
    words.next().ok_or(BadLine::WrongNumberOfWords)?;
    Ok(Command::Frame(port(by)?, told(octets)?))
}

fn port(word: &[u8]) -> Result<Port, BadLine> {
    match word {
        b"1" => Ok(Port::One),
        b"2" => Ok(Port::Two),
        _ => Err(BadLine::NoSuchPort),
    }
}

/// A decimal number; one above 65,535 is taken for 65,535, which is outside every limit too.
fn number(word: &[u8]) -> Result<u16, BadLine> {
    let mut value: u16 = 0;
    for octet in word {
        let digit = octet.is_ascii_digit().then(|| u16::from(octet - b'0')).ok_or(BadLine::NotANumber)?;
        value = value.saturating_mul(10).saturating_add(digit);
    }
    Ok(value)
}

fn told(text: &[u8]) -> Result<Told, BadLine> {
    let mut told = Told { octets: [0; LONGEST_TOLD], length: 0 };
    let mut rest = text;
    loop {
        rest = match rest {
            [] => break,
            [b' ' | b'\t' | b'\r' | b':' | b'-', after @ ..] => after,
            [high, low, after @ ..] => {
                let octet = digit(*high)? << 4 | digit(*low)?;
                if let Some(place) = told.octets.get_mut(told.length) {
                    *place = octet;
                    told.length += 1;
                }
                after
            }
            [_] => return Err(BadLine::NotOctets),
        };
    }
    if told.length == 0 {
        return Err(BadLine::NotOctets);
    }
    Ok(told)
}

fn digit(octet: u8) -> Result<u8, BadLine> {
    match octet {
        b'0'..=b'9' => Ok(octet - b'0'),
        b'a'..=b'f' => Ok(octet - b'a' + 10),
        b'A'..=b'F' => Ok(octet - b'A' + 10),
        _ => Err(BadLine::NotOctets),
    }
}
