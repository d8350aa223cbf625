//! Plays one node from the lines of docs/BENCH.md, and writes the lines that answer them.

use crate::client::Client;
use crate::command::{BadLine, Command, Role};
use crate::manager::Manager;
use crate::met::Met;
use crate::node::{Event, Node, Outbox, Place, Port, Row, Settings, Step, Timer};
use crate::plain::{self, Content, Link};

/// A node with what it was told so far.
struct Playing {
    node: Node,
    /// How many timers ran out.
    stamp: u32,
}

#[derive(Default)]
pub struct Player {
    playing: Option<Playing>,
    outbox: Outbox,
    lines: u64,
    pub met: Met,
}

/// What a script, all lines of it, has to be answered with.
pub fn play(script: &[u8]) -> Vec<u8> {
    let mut player = Player::default();
    let mut answers = Vec::new();
    for line in lines(script) {
        player.line(line, &mut answers);
    }
    answers
}

/// The lines of a text without their line feeds.
pub fn lines(text: &[u8]) -> impl Iterator<Item = &[u8]> {
    text.split_inclusive(|&octet| octet == b'\n').map(|line| line.strip_suffix(b"\n").unwrap_or(line))
}

impl Player {
    pub fn node(&self) -> Option<&Node> {
        self.playing.as_ref().map(|playing| &playing.node)
    }

    /// A way to alter the node, for the tests of the comparison.
    #[cfg(test)]
    pub fn node_mut(&mut self) -> Option<&mut Node> {
        self.playing.as_mut().map(|playing| &mut playing.node)
    }

    /// Plays one line, given without its line feed, and appends its answer if it has words.
    pub fn line(&mut self, line: &[u8], answers: &mut Vec<u8>) {
        self.lines += 1;
        let done = match Command::read(line) {
            Ok(None) => return self.met.skipped += 1,
            Ok(Some(command)) => self.command(command, answers),
            Err(bad) => Err(bad),
        };
        if let Err(bad) = done {
            self.met.bad_lines[bad as usize] += 1;
            put_all(answers, ["! line ", &self.lines.to_string(), ": ", bad.message()]);
        }
        answers.push(b'\n');
    }

    fn command(&mut self, command: Command, answers: &mut Vec<u8>) -> Result<(), BadLine> {
        match command {
            Command::Make(role, kind, settings) => {
                self.make(role, kind, settings, answers);
                Ok(())
            }
            Command::Up(port) => self.event(Event::Up(port), answers),
            Command::Down(port) => self.event(Event::Down(port), answers),
            Command::Frame(port, told) => self.event(Event::Frame(port, told.as_slice()), answers),
            Command::Timer(number) => self.event(Event::RanOut(number.into()), answers),
        }
    }

    fn make(&mut self, role: Role, kind: usize, settings: Settings, answers: &mut Vec<u8>) {
        let made = match role {
            Role::Client => Client::start(settings).map(Node::Client),
            Role::Manager => Manager::start(settings).map(Node::Manager),
        };
        match made {
            Ok(node) => {
                self.met.made[role as usize][kind] += 1;
                if role == Role::Client {
                    self.met.row(Row::C1, &node);
                }
                put(answers, "0");
                put_node(answers, &node);
                self.playing = Some(Playing { node, stamp: 0 });
            }
            Err(refusal) => {
                self.met.refused(refusal, self.playing.is_some());
                put_number(answers, refusal as u64);
                if let Some(playing) = &self.playing {
                    put_node(answers, &playing.node);
                }
            }
        }
    }

    fn event(&mut self, event: Event, answers: &mut Vec<u8>) -> Result<(), BadLine> {
        let Playing { node, stamp } = self.playing.as_mut().ok_or(BadLine::NoNodeYet)?;
        let before = self.met.before(event, node);
        match node.step(event, *stamp, &mut self.outbox) {
            Ok(Step { row, passed }) => {
                self.met.accepted(before, row, passed, self.outbox.sent().len(), node);
                if let Event::RanOut(_) = event {
                    *stamp = stamp.wrapping_add(1);
                }
                put(answers, "0");
                put_node(answers, node);
                self.outbox.sent().iter().for_each(|place| put_place(answers, place));
                if let Some(port) = passed {
                    put(answers, "; passed ");
                    put_port(answers, port);
                }
            }
            Err(refusal) => {
                self.met.refused(refusal, true);
                put_number(answers, refusal as u64);
                put_node(answers, node);
            }
        }
        Ok(())
    }
}

fn put(answers: &mut Vec<u8>, text: &str) {
    answers.extend_from_slice(text.as_bytes());
}

fn put_all<const N: usize>(answers: &mut Vec<u8>, texts: [&str; N]) {
    texts.into_iter().for_each(|text| put(answers, text));
}

fn put_number(answers: &mut Vec<u8>, number: u64) {
    let mut digits = [0; 20];
    let mut start = digits.len();
    let mut rest = number;
    loop {
        start -= 1;
        digits[start] = b'0' + (rest % 10) as u8;
        rest /= 10;
        if rest == 0 {
            break;
        }
    }
    answers.extend_from_slice(&digits[start..]);
}

fn put_port(answers: &mut Vec<u8>, port: Port) {
    put_number(answers, port.number().into());
}

fn put_node(answers: &mut Vec<u8>, node: &Node) {
    put_all(answers, [" ", node.state_name()]);
    for port in Port::BOTH {
        put_all(answers, [" ", node.base().port(port).name()]);
    }
    for timer in Timer::ALL {
        if let Some(interval) = node.base().timer(timer) {
            put_all(answers, [" ", timer.name(), "="]);
            put_number(answers, interval.into());
        }
    }
}

fn put_place(answers: &mut Vec<u8>, place: &Place) {
    put(answers, "; ");
    put_port(answers, place.port);
    put(answers, " ");
    put_frame(answers, place.frame());
}

/// A frame as mrpdump prints it. Whatever a node sends is readable.
fn put_frame(answers: &mut Vec<u8>, octets: &[u8]) {
    let frame = plain::read(octets).expect("a node sends readable frames");
    let sender = &octets[frame.sender_at..][..6];
    let source = &octets[frame.source_at..][..6];
    match frame.content {
        Content::Test(test) => {
            put_octets(answers, "Test source=", source);
            put_field(answers, " priority=", test.priority);
            put_octets(answers, " sender=", sender);
            put_field(answers, " role=", test.port_role);
            put_field(answers, " state=", test.ring_state);
            put_field(answers, " transitions=", test.transitions);
            put_field(answers, " stamp=", test.time_stamp);
        }
        Content::TopologyChange(change) => {
            put_octets(answers, "TopologyChange source=", source);
            put_field(answers, " priority=", change.priority);
            put_octets(answers, " sender=", sender);
            put_field(answers, " interval=", change.interval);
        }
        Content::LinkDown(link) => put_link(answers, "LinkDown source=", source, sender, link),
        Content::LinkUp(link) => put_link(answers, "LinkUp source=", source, sender, link),
    }
    put_field(answers, " sequence=", frame.sequence);
    put_octets(answers, " domain=", &octets[frame.domain_at..][..16]);
}

fn put_link(answers: &mut Vec<u8>, title: &str, source: &[u8], sender: &[u8], link: Link) {
    put_octets(answers, title, source);
    put_octets(answers, " sender=", sender);
    put_field(answers, " role=", link.port_role);
    put_field(answers, " interval=", link.interval);
    put_field(answers, " blocked=", link.blocked);
}

fn put_field(answers: &mut Vec<u8>, title: &str, value: impl Into<u64>) {
    put(answers, title);
    put_number(answers, value.into());
}

fn put_octets(answers: &mut Vec<u8>, title: &str, octets: &[u8]) {
    const DIGITS: &[u8; 16] = b"0123456789ABCDEF";
    put(answers, title);
    for (place, octet) in octets.iter().enumerate() {
        if place > 0 {
            answers.push(b'-');
        }
        answers.extend_from_slice(&[DIGITS[usize::from(octet >> 4)], DIGITS[usize::from(octet & 15)]]);
    }
}

#[cfg(test)]
mod tests {
    use super::*;

    /// A block of docs/BENCH.md, by what it begins with.
    fn block(beginning: &str) -> &'static str {
        let blocks = include_str!("../../docs/BENCH.md").split("```\n").skip(1).step_by(2);
        blocks.into_iter().find(|block| block.starts_with(beginning)).expect("the page has this block")
    }

    fn answers(script: &str) -> String {
        String::from_utf8(play(script.as_bytes())).expect("answers are characters")
    }

    /// The intervals of the first frame of each answer.
    fn intervals(script: &str) -> Vec<Option<u32>> {
        let interval = |line: &str| line.split("interval=").nth(1)?.split(' ').next()?.parse().ok();
        answers(script).lines().map(interval).collect()
    }

    #[test]
    fn plays_the_client_of_the_page() {
        assert_eq!(answers(block("up 1 ")), block("! line 1: no node yet"));
    }

    /// The last answer is broken after each semicolon on the page.
    #[test]
    fn plays_the_manager_of_the_page() {
        let last = block("0 CHK_RO").replace(";\n  ", "; ");
        assert_eq!(answers(block("manager chip")).lines().last(), last.lines().last());
    }

    #[test]
    fn a_client_announces_to_the_end() {
        let script = "client chip 10 20 10 20 20 3 3 3\nup 1\nup 2\n".to_string() + &"timer 2\n".repeat(4);
        assert_eq!(intervals(&script)[2..], [Some(60), Some(40), Some(20), Some(0), None]);
        assert!(answers(&script).ends_with("0 PT_IDLE FORWARDING FORWARDING\n"));
    }

    #[test]
    fn a_manager_announces_to_the_end() {
        let script = "manager chip 10 20 10 20 20 2 3 3\nup 1\nup 2\ntimer 0\ntimer 0\n".to_string();
        let script = script + &"timer 1\n".repeat(4);
        assert_eq!(intervals(&script)[4..], [Some(30), Some(20), Some(10), Some(0), None]);
        assert!(answers(&script).ends_with("21 CHK_RO FORWARDING FORWARDING test=20\n"));
    }

    #[test]
    fn the_first_fault_of_a_line_is_told() {
        let script = "timer x\ntimer 300\n\nclient chip 0 y 1 1 1 2 1 1\nclient chips 0 y\nframe 3 x\nframe 1\nup 01\n";
        let expected = "! line 1: not a number\n! line 2: no node yet\n! line 4: not a number\n\
                        ! line 5: wrong number of words\n! line 6: a port is 1 or 2\n! line 7: wrong number of words\n\
                        ! line 8: a port is 1 or 2\n";
        assert_eq!(answers(script), expected);
    }
}
