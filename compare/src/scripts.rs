//! Random scripts for the bench, made while the plain player plays them, so that each line can follow from the state.

use crate::command::{Role, KINDS};
use crate::frames::{Octets, Sample};
use crate::node::{Node, Timer};
use crate::plain::Content;
use crate::player::Player;
use crate::random::Random;
use crate::{client, manager};
use std::io::Write;

/// Lines, and what the plain player answered.
pub struct Script {
    pub text: Vec<u8>,
    pub answers: Vec<u8>,
    pub player: Player,
    random: Random,
}

/// How long a node lives before another one is made: so many lines on an average.
const SHORT_LIFE: usize = 150;

/// How many transitions a manager, and how many sendings a client has in the scripts that go round.
const ROUND: usize = 65_536;

impl Script {
    fn new(random: Random) -> Script {
        Script { text: Vec::new(), answers: Vec::new(), player: Player::default(), random }
    }

    /// Many nodes, one after the other. At first there is none.
    pub fn of_short_lives(random: Random, events: u64) -> Script {
        let mut script = Script::new(random);
        for _ in 0..script.random.below(30) {
            match script.random.below(8) {
                0 => script.refused_making(),
                _ => script.random_line(0),
            }
        }
        script.make(Role::Client);
        while script.player.met.events < events {
            script.random_line(SHORT_LIFE);
        }
        script.end()
    }

    /// One node through all the lines; a making in between is refused.
    pub fn of_one_life(random: Random, role: Role, events: u64) -> Script {
        let mut script = Script::new(random);
        script.make(role);
        while script.player.met.events < events {
            script.random_line(0);
        }
        script.end()
    }

    /// A manager whose transitions come round to 0, then anything.
    pub fn of_transitions_round(random: Random) -> Script {
        let mut script = Script::new(random);
        script.line("manager table 10 20 10 20 20 2 3 4");
        script.line("up 1");
        script.line("up 2");
        for transition in 0..ROUND + 10 {
            if transition % 2 == 0 {
                script.line("timer 0");
                script.line("timer 0");
            } else {
                script.own_test();
            }
        }
        script.random_lines(1_000);
        script.end()
    }

    /// A client whose sequence numbers come round to 0, then anything.
    pub fn of_sequence_round(random: Random) -> Script {
        let mut script = Script::new(random);
        script.line("client turned-chip 10 20 10 20 30 2 3 4");
        script.line("up 2");
        for _ in 0..ROUND / 2 + 10 {
            script.line("up 1");
            script.line("down 1");
        }
        script.random_lines(1_000);
        script.end()
    }

    /// Lines of many thousand characters.
    pub fn of_long_lines(random: Random) -> Script {
        const LENGTH: usize = 200_000;
        let mut script = Script::new(random);
        let [zeros, spaces, octets] = ["0", " \t", "00:"].map(|text| text.repeat(LENGTH));
        script.line(&format!("client {spaces} table {zeros}10 20 10 20 20 3 3 2 {spaces}# {zeros}"));
        script.line(&format!("{spaces}up 2"));
        script.line(&format!("up {spaces} 1{spaces}"));
        script.line(&format!("timer {zeros}2"));
        script.line(&format!("timer 2{zeros}"));
        script.line(&format!("frame 2 {spaces}01154E000001{octets}"));
        script.line(&format!("frame 1 01154E000002{octets}x"));
        script.line(&format!("{zeros} {spaces}"));
        script.line(&format!("down 1 {}", "1 ".repeat(LENGTH)));
        script.line(&spaces);
        script.line("down 1");
        script.end()
    }

    /// The last line need not have a line feed.
    fn end(mut self) -> Script {
        if self.random.once_in(2) {
            self.text.pop();
        }
        self
    }

    fn random_lines(&mut self, count: usize) {
        for _ in 0..count {
            self.random_line(0);
        }
    }

    fn line(&mut self, line: &str) {
        self.push(line.as_bytes());
    }

    /// Appends a line as it is.
    fn push(&mut self, line: &[u8]) {
        self.text.extend_from_slice(line);
        self.text.push(b'\n');
        self.player.line(line, &mut self.answers);
    }

    fn node(&self) -> Option<&Node> {
        self.player.node()
    }

    /// A line of any sort. A new node is made once in `life` lines, or never where that is 0.
    fn random_line(&mut self, life: usize) {
        if life > 0 && self.random.once_in(life) {
            let role = if self.random.once_in(2) { Role::Client } else { Role::Manager };
            return self.make(role);
        }
        match self.random.below(100) {
            0 => self.refused_making(),
            1..=3 => self.bad_line(),
            4 => self.skipped_line(),
            5..=39 => self.likely_event(),
            40..=54 => self.link(),
            55..=72 => self.running_timer(),
            73..=76 => self.any_timer(),
            _ => self.frame(),
        }
    }

    /// What brings the node through its longest rows: announcements to their end, misses up to the count, closings.
    fn likely_event(&mut self) {
        match self.node() {
            Some(Node::Manager(manager)) if manager.state() == manager::State::ChkRo => match self.random.below(3) {
                0 => self.own_test(),
                1 => self.timer("1"),
                _ => self.running_timer(),
            },
            Some(Node::Manager(manager)) if manager.state() == manager::State::ChkRc => self.timer("0"),
            Some(Node::Client(client)) if client.state() == client::State::Pt => self.timer("2"),
            Some(Node::Client(client)) if client.state() == client::State::De => self.timer("3"),
            Some(Node::Client(client)) if client.state() == client::State::PtIdle => {
                self.link_at_any_port(&["up", "down"])
            }
            _ => self.link_at_any_port(&["up"]),
        }
    }

    fn link(&mut self) {
        self.link_at_any_port(&["up", "down", "up", "down", "up"]);
    }

    fn link_at_any_port(&mut self, changes: &[&'static str]) {
        let change = self.choose(changes);
        let port = self.choose(&["1", "2"]);
        self.words(&[change, port]);
    }

    fn timer(&mut self, number: &str) {
        self.words(&["timer", number]);
    }

    fn running_timer(&mut self) {
        let Some(node) = self.node() else { return self.any_timer() };
        let running: Vec<usize> = Timer::ALL
            .into_iter()
            .filter(|&timer| node.base().timer(timer).is_some())
            .map(|timer| timer as usize)
            .collect();
        if running.is_empty() {
            return self.any_timer();
        }
        let number = running[self.random.below(running.len())];
        let number = with_zeros(&mut self.random, &number.to_string());
        self.timer(&number);
    }

    /// Any number, running or not; some would be 0 to 4 if they were cut to 8, 16, 32 or 64 bits.
    fn any_timer(&mut self) {
        let low = self.random.below(5) as u128;
        let number = match self.random.below(10) {
            0..=3 => low,
            4..=6 => self.random.below(301) as u128,
            7 => 5,
            8 => 256 + low,
            _ => [1 << 16, 1 << 32, 1 << 64, 255, 65_535][self.random.below(5)] + low,
        };
        let number = with_zeros(&mut self.random, &number.to_string());
        self.timer(&number);
    }

    fn make(&mut self, role: Role) {
        let settings = settings(&mut self.random);
        self.making(role, &settings.map(|number| number.to_string()));
    }

    /// One to three settings outside their limits.
    fn refused_making(&mut self) {
        let mut settings = settings(&mut self.random).map(u128::from);
        if self.random.once_in(4) {
            // A short interval above the default one, both within 1 to 1000.
            let default = 1 + self.random.below(999);
            settings[0] = (default + 1 + self.random.below(1_000 - default)) as u128;
            settings[1] = default as u128;
        } else {
            for _ in 0..=self.random.below(3) {
                let place = self.random.below(8);
                settings[place] = self.outside(place, settings[place]);
            }
        }
        let role = if self.random.once_in(2) { Role::Client } else { Role::Manager };
        self.making(role, &settings.map(|number| number.to_string()));
    }

    fn outside(&mut self, place: usize, within: u128) -> u128 {
        let (least, most) = match place {
            0..=4 => (1, 1_000),
            5 => (2, 10),
            _ => (1, 10),
        };
        match self.random.below(6) {
            0 => least - 1,
            1 => most + 1,
            // Within the limits again if it is cut to 8, 16, 32 or 64 bits.
            2 => within + [1 << 10, 1 << 16, 1 << 32, 1 << 64][self.random.below(4)],
            3 => 65_535,
            4 => 0,
            _ => most + 1 + self.random.number() as u128,
        }
    }

    fn making(&mut self, role: Role, numbers: &[String; 8]) {
        let role = if role == Role::Client { "client" } else { "manager" };
        let kind = KINDS[self.random.below(4)];
        let numbers = numbers.each_ref().map(|number| with_zeros(&mut self.random, number));
        let mut words = vec![role, kind];
        words.extend(numbers.iter().map(String::as_str));
        self.words(&words);
    }

    /// A Test of this node, in its own domain.
    fn own_test(&mut self) {
        let address = self.address();
        let mut sample = Sample::random(&mut self.random, 0);
        sample.sender = address;
        sample.domain = [0xFF; 16];
        let frame = padded(&mut self.random, &sample);
        self.frame_line(frame.as_slice());
    }

    fn address(&self) -> [u8; 6] {
        self.node().map_or([2, 0, 0, 0, 0, 0], |node| node.base().settings.address)
    }

    fn frame(&mut self) {
        if self.random.once_in(50) {
            return self.damaged_line();
        }
        match self.random.below(16) {
            0..=2 => self.own_test(),
            3 => {
                let frame = self.damaged();
                self.frame_line(&frame);
            }
            4 => {
                let junk = self.junk();
                self.frame_line(&junk);
            }
            5 => {
                let long = self.long();
                self.frame_line(&long);
            }
            _ => {
                let sample = self.sample();
                let frame = padded(&mut self.random, &sample);
                self.frame_line(frame.as_slice());
            }
        }
    }

    /// Fields of any kind: domain and sender are often the node's own, or differ from them in one octet.
    fn sample(&mut self) -> Sample {
        let kind = self.random.below(4);
        let mut sample = Sample::random(&mut self.random, kind);
        sample.domain = near(&mut self.random, [0xFF; 16]);
        let address = self.address();
        sample.sender = near(&mut self.random, address);
        if let Content::TopologyChange(change) = &mut sample.content {
            if self.random.once_in(2) {
                change.interval = self.random.below(40) as u16;
            }
        }
        sample
    }

    fn damaged(&mut self) -> Vec<u8> {
        let sample = self.sample();
        let mut octets = padded(&mut self.random, &sample).as_slice().to_vec();
        for _ in 0..=self.random.below(3) {
            match self.random.below(8) {
                0 => octets.truncate(1 + self.random.below(60)),
                // From one MRP address to the other.
                6 if octets.len() > 5 => octets[5] ^= 3,
                1 => octets.push(self.random.octet()),
                // The head and the first element have the most checks.
                2 | 3 => change_octet(&mut self.random, &mut octets, 30),
                _ => change_octet(&mut self.random, &mut octets, 60),
            }
        }
        octets
    }

    /// Octets that are no frame, most of them to an MRP address, or to its first octets.
    fn junk(&mut self) -> Vec<u8> {
        let length = if self.random.once_in(2) { self.random.below(10) } else { self.random.below(90) };
        let mut octets = vec![0; length + 1];
        self.random.fill(&mut octets);
        let address = [0x01, 0x15, 0x4E, 0x00, 0x00, 1 + self.random.below(2) as u8];
        let address = near(&mut self.random, address);
        octets.iter_mut().zip(address).for_each(|(octet, given)| *octet = given);
        octets
    }

    /// A readable frame with so many zero octets that it is none.
    fn long(&mut self) -> Vec<u8> {
        let sample = self.sample();
        let mut octets = padded(&mut self.random, &sample).as_slice().to_vec();
        let length = match self.random.below(20) {
            0 => 61 + self.random.below(4_000),
            1..=9 => 61 + self.random.below(40),
            _ => 61,
        };
        octets.resize(length, 0);
        octets
    }

    fn frame_line(&mut self, octets: &[u8]) {
        let text = hexadecimal(&mut self.random, octets);
        let port = self.choose(&["1", "2"]);
        self.words(&["frame", port, &text]);
    }

    /// A frame, readable or too long, with a fault in its text.
    fn damaged_line(&mut self) {
        let octets = if self.random.once_in(2) {
            self.long()
        } else {
            let sample = self.sample();
            padded(&mut self.random, &sample).as_slice().to_vec()
        };
        let text = hexadecimal(&mut self.random, &octets);
        let text = damaged_text(&mut self.random, text);
        self.words(&["frame", "1", &text]);
    }

    fn skipped_line(&mut self) {
        let line = ["", " ", "\r", "\t \r", "#", "# up 1", "  # timer 0", "\t#\r", "#\x0c\u{e9}"][self.random.below(9)];
        self.line(line);
    }

    /// A line with a fault, most often only one.
    fn bad_line(&mut self) {
        match self.random.below(6) {
            0 => self.unknown_command(),
            1 => self.wrong_count(),
            2 => self.bad_making(),
            3 => {
                let word = not_a_number(&mut self.random);
                self.timer(&word);
            }
            4 => self.bad_port(),
            _ => self.bad_octets(),
        }
    }

    fn unknown_command(&mut self) {
        const LINES: [&str; 14] = [
            "Up 1",
            "UP 1",
            "ups 1",
            "u 1",
            "stop",
            "0",
            "client1 table 10 20 10 20 20 3 3 2",
            "timers 0",
            "frames 1 01",
            "up\x0b1",
            "\x0cup 1",
            "up:1",
            "down-1",
            "\u{a0}up 1",
        ];
        match self.random.below(LINES.len() + 3) {
            0 => {
                let mut line: [u8; 9] = self.random.octets();
                line.iter_mut().filter(|octet| **octet == b'\n').for_each(|octet| *octet = 0);
                self.push(&line);
            }
            1 => self.push(b"\xff\xfe\x00"),
            2 => self.push(b"up\x001"),
            line => self.line(LINES[line - 3]),
        }
    }

    fn wrong_count(&mut self) {
        let full: Vec<&str> = match self.random.below(6) {
            0 => vec!["up", "1"],
            1 => vec!["down", "2"],
            2 => vec!["timer", "0"],
            3 => vec!["frame", "1"],
            4 => "client chip 10 20 10 20 20 3 3 2".split(' ').collect(),
            _ => "manager table 10 20 10 20 20 3 3 2".split(' ').collect(),
        };
        let mut words = full.clone();
        if self.random.once_in(2) && full[0] != "frame" {
            words.extend((0..=self.random.below(3)).map(|_| "3"));
        } else if full[0] != "frame" || self.random.once_in(2) {
            words.truncate(1 + self.random.below(full.len() - 1));
        }
        self.words(&words);
    }

    /// A making with a kind that is none, or a word that is no number, or both, or with numbers outside their limits.
    fn bad_making(&mut self) {
        const NO_KINDS: [&str; 9] =
            ["Table", "CHIP", "chips", "turned", "turned_chip", "turned-", "-", "0", "turned-turned-chip"];
        let role = if self.random.once_in(2) { "client" } else { "manager" };
        let mut words: Vec<String> = vec![role.to_string(), KINDS[self.random.below(4)].to_string()];
        words.extend(settings(&mut self.random).map(|number| number.to_string()));
        let fault = self.random.below(4);
        if fault <= 1 {
            words[1] = NO_KINDS[self.random.below(NO_KINDS.len())].to_string();
        }
        if fault >= 1 {
            words[2 + self.random.below(8)] = not_a_number(&mut self.random);
        }
        if self.random.once_in(3) {
            words[2 + self.random.below(8)] = "70000".to_string();
        }
        let words: Vec<&str> = words.iter().map(String::as_str).collect();
        self.words(&words);
    }

    fn bad_port(&mut self) {
        const NO_PORTS: [&str; 13] = ["0", "3", "01", "12", "11", "p1", "+1", "-1", "1:", "one", "1.", "\u{b9}", "001"];
        let port = NO_PORTS[self.random.below(NO_PORTS.len())];
        match self.random.below(4) {
            0 => self.words(&["up", port]),
            1 => self.words(&["down", port]),
            2 => self.words(&["frame", port, "01154E000001"]),
            _ => self.words(&["frame", port, "x"]),
        }
    }

    fn bad_octets(&mut self) {
        const NO_OCTETS: [&str; 16] = [
            ":",
            "-",
            ":: - :",
            "0",
            "011",
            "0x01",
            "01 1",
            "0 1",
            "01,15",
            "g0",
            "0g",
            "01 15 4E 00 00 01 .",
            "01\x0b15",
            "\u{661}\u{661}",
            "01154E00000",
            "zz",
        ];
        let text = NO_OCTETS[self.random.below(NO_OCTETS.len())].to_string();
        let port = self.choose(&["1", "2"]);
        self.words(&["frame", port, &text]);
    }

    /// Appends a line of these words; one in eight is laid out in another way.
    fn words(&mut self, words: &[&str]) {
        if !self.random.once_in(8) {
            let line = words.join(" ");
            return self.line(&line);
        }
        const BEFORE: [&str; 5] = ["", " ", "\t", "\r", "  \t "];
        const BETWEEN: [&str; 5] = [" ", "\t", "  ", "\r", " \t\r "];
        const AFTER: [&str; 8] = ["", "\r", " ", "\t\r", " # up 2", "#timer 0", "#", " \t # \u{fc}ber # 1\r"];
        let mut line = self.choose(&BEFORE).to_string();
        for (place, word) in words.iter().enumerate() {
            if place > 0 {
                line += self.choose(&BETWEEN);
            }
            line += word;
        }
        line += self.choose(&AFTER);
        self.line(&line);
    }

    fn choose(&mut self, texts: &[&'static str]) -> &'static str {
        texts[self.random.below(texts.len())]
    }
}

/// Settings within their limits. Small counts are frequent, and so are the limits themselves.
fn settings(random: &mut Random) -> [u16; 8] {
    let mut interval = |most: usize| match random.below(8) {
        0 => 1,
        1 => most as u16,
        _ => 1 + random.below(most) as u16,
    };
    let default = interval(1_000);
    let short = interval(default.into());
    let [topology, link_up, link_down] = [interval(1_000), interval(1_000), interval(1_000)];
    let mut count = |least: usize| match random.below(8) {
        0 => 10,
        1 => (least + random.below(11 - least)) as u16,
        _ => (least + random.below(3)) as u16,
    };
    [short, default, topology, link_up, link_down, count(2), count(1), count(1)]
}

/// The same, or one octet of it changed, or something else altogether.
fn near<const N: usize>(random: &mut Random, mut octets: [u8; N]) -> [u8; N] {
    match random.below(8) {
        0 => random.octets(),
        1 => {
            octets[random.below(N)] ^= 1 << random.below(8);
            octets
        }
        _ => octets,
    }
}

fn padded(random: &mut Random, sample: &Sample) -> Octets {
    let padding = if random.once_in(2) { 0 } else { random.below(sample.room() + 1) };
    sample.frame(padding)
}

fn change_octet(random: &mut Random, octets: &mut [u8], among: usize) {
    let place = random.below(among.min(octets.len()));
    octets[place] = match random.below(3) {
        0 => random.octet(),
        1 => octets[place] ^ 1 << random.below(8),
        _ => random.below(6) as u8,
    };
}

/// The same number with zeros before it, now and then.
fn with_zeros(random: &mut Random, number: &str) -> String {
    let zeros = match random.below(40) {
        0 => 1 + random.below(30),
        1 => 1,
        _ => 0,
    };
    "0".repeat(zeros) + number
}

fn not_a_number(random: &mut Random) -> String {
    const WORDS: [&str; 14] =
        ["x", "-1", "+1", "1.0", "0x10", "1e3", "12a", "a12", "1,000", "1_0", "\u{661}", "\u{ff11}", "1:", "--"];
    WORDS[random.below(WORDS.len())].to_string()
}

/// Octets as text in one of several layouts.
fn hexadecimal(random: &mut Random, octets: &[u8]) -> String {
    const BETWEEN: [&str; 8] = ["", "", " ", ":", "-", "\t", " : ", "\r"];
    let lower = random.once_in(4);
    let between = BETWEEN[random.below(BETWEEN.len())];
    let mut text = Vec::with_capacity(octets.len() * 3);
    for (place, octet) in octets.iter().enumerate() {
        if place > 0 {
            text.extend_from_slice(between.as_bytes());
        }
        let written = if lower { write!(text, "{octet:02x}") } else { write!(text, "{octet:02X}") };
        written.expect("memory can be written to");
    }
    if random.once_in(16) {
        text.extend_from_slice(b" -:");
        text.insert(0, b':');
    }
    String::from_utf8(text).expect("hexadecimal digits are characters")
}

/// The text with a character put in, changed or taken away. It may still be octets.
fn damaged_text(random: &mut Random, text: String) -> String {
    const PUT: [char; 10] = [' ', ':', '0', 'F', 'g', '.', '\u{b}', '\u{e9}', '-', '\t'];
    let mut text: Vec<char> = text.chars().collect();
    let place = random.below(text.len());
    match random.below(3) {
        0 => text.insert(place, PUT[random.below(PUT.len())]),
        1 => text[place] = PUT[random.below(PUT.len())],
        _ => {
            text.remove(place);
        }
    }
    text.into_iter().collect()
}
