//! A program under test beside the plain player: run on a script, compared line by line, and the script cut down.

use crate::player::{self, lines, Player};
use std::fmt;
use std::io::{Read, Write};
use std::path::{Path, PathBuf};
use std::process::{Command, Stdio};
use std::thread;
use std::time::{Duration, Instant};

/// How long a script is cut down, at most.
const CUTTING: Duration = Duration::from_secs(60);

/// What a script is played by.
pub trait Program {
    /// What the program writes for these lines, or how it failed.
    fn run(&self, script: &[u8]) -> Result<Vec<u8>, String>;
}

/// A program that reads lines from its standard input and has to end with status 0.
pub struct Executable(pub PathBuf);

impl Program for Executable {
    fn run(&self, script: &[u8]) -> Result<Vec<u8>, String> {
        run(&self.0, script).map_err(|error| format!("{}: {error}", self.0.display()))
    }
}

fn run(path: &Path, script: &[u8]) -> Result<Vec<u8>, String> {
    let mut child =
        Command::new(path).stdin(Stdio::piped()).stdout(Stdio::piped()).spawn().map_err(|error| error.to_string())?;
    let (mut to, mut from) = (child.stdin.take().expect("it is piped"), child.stdout.take().expect("it is piped"));
    let mut answers = Vec::new();
    // The script is written beside the reading, for neither side has room for all of it. A program that ends early
    // breaks the pipe; its answers and its status tell of that.
    let read = thread::scope(|scope| {
        scope.spawn(move || to.write_all(script));
        from.read_to_end(&mut answers)
    });
    let status = child.wait().map_err(|error| error.to_string())?;
    read.map_err(|error| error.to_string())?;
    match status.success() {
        true => Ok(answers),
        false => Err(format!("ended with {status}")),
    }
}

/// The place of the first line in which they differ.
fn first_difference(expected: &[u8], found: &[u8]) -> Option<usize> {
    if expected == found {
        return None;
    }
    let alike = expected.iter().zip(found).take_while(|(one, other)| one == other).count();
    Some(expected[..alike].iter().filter(|&&octet| octet == b'\n').count())
}

/// A script on which the program and the plain player differ, as short as it was found, and what each answered.
pub struct Difference {
    pub script: Vec<u8>,
    pub plain: Vec<u8>,
    pub program: Result<Vec<u8>, String>,
}

/// Runs the program on the script, for which the plain player has the answers.
pub fn compare(program: &impl Program, script: &[u8], answers: &[u8]) -> Result<(), Difference> {
    let lines = match program.run(script) {
        Ok(found) => match first_difference(answers, &found) {
            None => return Ok(()),
            Some(line) => lines_up_to(script, line),
        },
        Err(_) => pieces(script).collect(),
    };
    let script = cut_down(program, lines, Instant::now() + CUTTING);
    Err(Difference { plain: player::play(&script), program: program.run(&script), script })
}

/// The lines of a text with their line feeds.
fn pieces(text: &[u8]) -> impl Iterator<Item = &[u8]> {
    text.split_inclusive(|&octet| octet == b'\n')
}

/// The lines of a script up to the one that is answered by this line.
fn lines_up_to(script: &[u8], answer: usize) -> Vec<&[u8]> {
    let mut player = Player::default();
    let mut answers = Vec::new();
    let mut answered = 0;
    let mut taken = Vec::new();
    for (line, piece) in lines(script).zip(pieces(script)) {
        player.line(line, &mut answers);
        taken.push(piece);
        answered += usize::from(!answers.is_empty());
        answers.clear();
        if answered > answer {
            break;
        }
    }
    taken
}

/// Leaves out lines as long as a difference stays: halves, then quarters, down to single ones.
fn cut_down(program: &impl Program, mut lines: Vec<&[u8]>, until: Instant) -> Vec<u8> {
    let mut length = lines.len().div_ceil(2);
    while Instant::now() < until {
        let before = lines.len();
        let mut end = lines.len();
        while end > 0 && Instant::now() < until {
            let start = end.saturating_sub(length);
            let shorter = [&lines[..start], &lines[end..]].concat();
            if differs(program, &shorter.concat()) {
                lines = shorter;
            }
            end = start;
        }
        if length == 1 && lines.len() == before {
            break;
        }
        length = length.min(lines.len()).div_ceil(2).max(1);
    }
    lines.concat()
}

fn differs(program: &impl Program, script: &[u8]) -> bool {
    program.run(script).as_deref() != Ok(&player::play(script))
}

impl fmt::Display for Difference {
    fn fmt(&self, out: &mut fmt::Formatter) -> fmt::Result {
        writeln!(out, "the script, of {} lines:", lines(&self.script).count())?;
        show(out, &self.script)?;
        writeln!(out, "plain:")?;
        show(out, &self.plain)?;
        writeln!(out, "program:")?;
        match &self.program {
            Ok(found) => show(out, found),
            Err(error) => writeln!(out, "    {error}"),
        }
    }
}

/// The lines with whatever is not printable escaped; of many lines the last ones.
fn show(out: &mut fmt::Formatter, text: &[u8]) -> fmt::Result {
    const SHOWN: usize = 40;
    let left_out = lines(text).count().saturating_sub(SHOWN);
    if left_out > 0 {
        writeln!(out, "    ... {left_out} lines")?;
    }
    for line in lines(text).skip(left_out) {
        writeln!(out, "    {}", line.escape_ascii())?;
    }
    Ok(())
}

#[cfg(test)]
mod tests {
    use super::*;
    use crate::manager::{Manager, State};
    use crate::node::Node;
    use crate::random::Random;
    use crate::scripts::Script;

    /// The plain player with a fault, which comes after each line.
    struct Planted(fn(&mut Manager));

    impl Program for Planted {
        fn run(&self, script: &[u8]) -> Result<Vec<u8>, String> {
            let mut player = Player::default();
            let mut answers = Vec::new();
            for line in lines(script) {
                player.line(line, &mut answers);
                if let Some(Node::Manager(manager)) = player.node_mut() {
                    self.0(manager);
                }
            }
            Ok(answers)
        }
    }

    #[test]
    fn finds_nothing_between_the_player_and_itself() {
        let script = Script::of_short_lives(Random::new(5), 5_000);
        assert!(compare(&Planted(|_| ()), &script.text, &script.answers).is_ok());
    }

    #[test]
    fn cuts_a_script_down_to_the_events_of_a_fault() {
        let forgets: fn(&mut Manager) = |manager| {
            if manager.state() == State::PrmUp {
                manager.forget_short_test();
            }
        };
        let script = Script::of_short_lives(Random::new(5), 5_000);
        let difference = compare(&Planted(forgets), &script.text, &script.answers).unwrap_err();
        // A making, two links up, a link frame, the second link down and up, and another link frame.
        assert_eq!(lines(&difference.script).count(), 7, "{difference}");
        assert_ne!(difference.program, Ok(difference.plain));
    }

    #[test]
    fn tells_a_program_that_is_missing_or_fails() {
        for path in ["/no/such/program", "/bin/false"] {
            let difference = compare(&Executable(path.into()), b"up 1\n", b"! line 1: no node yet\n").unwrap_err();
            assert!(difference.program.is_err(), "{difference}");
        }
    }

    #[test]
    fn finds_a_line_too_many_and_a_missing_line_feed() {
        assert_eq!(first_difference(b"a\nb\n", b"a\nb\nc\n"), Some(2));
        assert_eq!(first_difference(b"a\nb\n", b"a\nb"), Some(1));
        assert_eq!(first_difference(b"a\nb\n", b"a\nb\n"), None);
    }
}
