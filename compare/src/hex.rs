//! Octets as hexadecimal text, and captures with one frame a line.

use std::fs;
use std::path::{Path, PathBuf};

pub fn to_hex(octets: &[u8]) -> String {
    octets.iter().map(|octet| format!("{octet:02x}")).collect()
}

/// The octets of a line; a `#` begins a comment, and spaces, `:` and `-` may stand between digits.
pub fn from_hex(line: &str) -> Result<Vec<u8>, String> {
    let text = line.split('#').next().unwrap_or("");
    let digits: Vec<u32> = text
        .chars()
        .filter(|c| !c.is_whitespace() && *c != ':' && *c != '-')
        .map(|c| c.to_digit(16).ok_or(format!("{c:?} is no hexadecimal digit")))
        .collect::<Result<_, _>>()?;
    if !digits.len().is_multiple_of(2) {
        return Err("half an octet".to_string());
    }
    Ok(digits.chunks(2).map(|pair| (pair[0] * 16 + pair[1]) as u8).collect())
}

/// The frames of some text, without its blank lines.
pub fn frames(text: &str) -> Result<Vec<Vec<u8>>, String> {
    let mut found = Vec::new();
    for (line, number) in text.lines().zip(1..) {
        let octets = from_hex(line).map_err(|error| format!("line {number}: {error}"))?;
        if !octets.is_empty() {
            found.push(octets);
        }
    }
    Ok(found)
}

/// The frames of all these files, or of captures/*.hex in the repository where none is given.
pub fn captures(given: &[PathBuf]) -> Result<Vec<Vec<u8>>, String> {
    let files = if given.is_empty() { default_captures()? } else { given.to_vec() };
    let mut found = Vec::new();
    for file in &files {
        let text = fs::read_to_string(file).map_err(|error| format!("{}: {error}", file.display()))?;
        found.extend(frames(&text).map_err(|error| format!("{}: {error}", file.display()))?);
    }
    if found.is_empty() {
        return Err("no captures were found".to_string());
    }
    Ok(found)
}

fn default_captures() -> Result<Vec<PathBuf>, String> {
    let directory = Path::new(env!("CARGO_MANIFEST_DIR")).join("../captures");
    let entries = fs::read_dir(&directory).map_err(|error| format!("{}: {error}", directory.display()))?;
    let mut files: Vec<PathBuf> = entries
        .filter_map(|entry| entry.ok())
        .map(|entry| entry.path())
        .filter(|path| path.extension().is_some_and(|extension| extension == "hex"))
        .collect();
    files.sort();
    Ok(files)
}
