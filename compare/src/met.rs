//! Counts of what was met while lines were played.

use crate::client;
use crate::command::{BadLine, KINDS};
use crate::manager;
use crate::node::{Event, Node, Port, Refusal, Row};
use crate::plain;
use std::fmt;

const STATES: usize = 5;
const ROWS: usize = Row::MNone as usize + 1;

/// Each row with the states in which it acts, as they are numbered in its table.
#[rustfmt::skip]
const ACTS_IN: [(Row, &[usize]); ROWS] = [
    (Row::C1, &[0]), (Row::C2, &[0]), (Row::C3, &[0]), (Row::C4, &[0]), (Row::C5, &[0]),
    (Row::C6, &[1]), (Row::C7, &[1]), (Row::C8, &[1]), (Row::C9, &[1]), (Row::C10, &[1]),
    (Row::C11, &[3]), (Row::C12, &[3]), (Row::C13, &[3]), (Row::C14, &[3]), (Row::C15, &[3]), (Row::C16, &[3]),
    (Row::C17, &[3]),
    (Row::C18, &[2]), (Row::C19, &[2]), (Row::C20, &[2]), (Row::C21, &[2]), (Row::C22, &[2]), (Row::C23, &[2]),
    (Row::C24, &[2]),
    (Row::C25, &[4]), (Row::C26, &[4]), (Row::C27, &[4]), (Row::C28, &[4]), (Row::C29, &[4]),
    (Row::C30, &[0, 1, 2, 3, 4]), (Row::CNone, &[0, 1, 2, 3, 4]),
    (Row::M1, &[0]), (Row::M2, &[1]), (Row::M3, &[1]), (Row::M4, &[2, 3]), (Row::M5, &[2, 3]), (Row::M6, &[1, 3]),
    (Row::M7a, &[2]), (Row::M7b, &[2]), (Row::M8a, &[2]), (Row::M8b, &[3]), (Row::M9, &[2, 3]),
    (Row::M10a, &[0, 1, 2, 3]), (Row::M10b, &[0, 1, 2, 3]), (Row::MNone, &[0, 1, 2, 3]),
];

/// What is noted of a node before a step, for the counts after it.
#[derive(Clone, Copy)]
pub struct Before {
    state: usize,
    primary: Port,
    sequence: u16,
    transitions: u16,
}

#[derive(Default)]
pub struct Met {
    /// Events that were told to a node.
    pub events: u64,
    pub skipped: u64,
    pub bad_lines: [u64; BadLine::ALL.len()],
    /// Nodes by role and kind of switch.
    pub made: [[u64; KINDS.len()]; 2],
    /// By row, state before it, and primary port before it.
    rows: Vec<[[u64; 2]; STATES]>,
    setting_without_node: u64,
    setting_with_node: u64,
    no_such_timer: u64,
    timer_not_running: u64,
    /// Frames that were told, by their refusal; those that were read at 0.
    frames: [u64; 12],
    passed: [u64; 2],
    /// Steps by the number of frames sent.
    sent: [u64; 5],
    /// How often the sequence numbers of a client, those of a manager, and its transitions came round to 0.
    rounds: [u64; 3],
}

impl Met {
    pub fn row(&mut self, row: Row, node: &Node) {
        self.count_row(row, node.state_number(), node.base().primary());
    }

    fn count_row(&mut self, row: Row, state: usize, primary: Port) {
        self.rows.resize(ROWS, [[0; 2]; STATES]);
        self.rows[row as usize][state][primary as usize - 1] += 1;
    }

    pub fn refused(&mut self, refusal: Refusal, node: bool) {
        let count = match refusal {
            Refusal::Setting if node => &mut self.setting_with_node,
            Refusal::Setting => &mut self.setting_without_node,
            Refusal::NoSuchTimer => &mut self.no_such_timer,
            Refusal::TimerNotRunning => &mut self.timer_not_running,
        };
        *count += 1;
    }

    pub fn before(&mut self, event: Event, node: &Node) -> Before {
        self.events += 1;
        if let Event::Frame(_, octets) = event {
            self.frames[plain::read(octets).err().unwrap_or(0) as usize] += 1;
        }
        Before {
            state: node.state_number(),
            primary: node.base().primary(),
            sequence: node.base().sequence(),
            transitions: transitions(node),
        }
    }

    pub fn accepted(&mut self, before: Before, row: Row, passed: Option<Port>, sent: usize, node: &Node) {
        self.count_row(row, before.state, before.primary);
        self.sent[sent] += 1;
        if let Some(port) = passed {
            self.passed[port as usize - 1] += 1;
        }
        if node.base().sequence() < before.sequence {
            self.rounds[usize::from(matches!(node, Node::Manager(_)))] += 1;
        }
        if transitions(node) < before.transitions {
            self.rounds[2] += 1;
        }
    }

    /// Adds the counts of other lines.
    pub fn add(&mut self, other: &Met) {
        self.rows.resize(ROWS, [[0; 2]; STATES]);
        let rows = self.rows.as_flattened_mut().as_flattened_mut();
        add_each(rows, other.rows.as_flattened().as_flattened());
        add_each(&mut self.bad_lines, &other.bad_lines);
        add_each(self.made.as_flattened_mut(), other.made.as_flattened());
        add_each(&mut self.frames, &other.frames);
        add_each(&mut self.passed, &other.passed);
        add_each(&mut self.sent, &other.sent);
        add_each(&mut self.rounds, &other.rounds);
        self.events += other.events;
        self.skipped += other.skipped;
        self.setting_without_node += other.setting_without_node;
        self.setting_with_node += other.setting_with_node;
        self.no_such_timer += other.no_such_timer;
        self.timer_not_running += other.timer_not_running;
    }

    /// What was never met, though a comparison without it says little.
    pub fn unmet(&self) -> Vec<String> {
        self.all().into_iter().filter(|(_, count)| *count == 0).map(|(name, _)| format!("never met: {name}")).collect()
    }

    /// Everything that has to be met, by its name.
    pub fn all(&self) -> Vec<(String, u64)> {
        let mut all = vec![
            ("a skipped line".to_string(), self.skipped),
            ("refused as 13, no node yet".to_string(), self.setting_without_node),
            ("refused as 13, beside a node".to_string(), self.setting_with_node),
            ("refused as 18".to_string(), self.no_such_timer),
            ("refused as 21".to_string(), self.timer_not_running),
            ("passed by 1".to_string(), self.passed[0]),
            ("passed by 2".to_string(), self.passed[1]),
            ("a client's sequence numbers round to 0".to_string(), self.rounds[0]),
            ("a manager's sequence numbers round to 0".to_string(), self.rounds[1]),
            ("transitions round to 0".to_string(), self.rounds[2]),
        ];
        all.extend(BadLine::ALL.map(|bad| (bad.message().to_string(), self.bad_lines[bad as usize])));
        all.extend([0, 1, 2, 4].map(|sent| (format!("a step that sends {sent} frames"), self.sent[sent])));
        all.extend(
            self.frames.iter().enumerate().map(|(refusal, &count)| (format!("a frame read as {refusal}"), count)),
        );
        for (role, counts) in ["client", "manager"].iter().zip(&self.made) {
            all.extend(KINDS.iter().zip(counts).map(|(kind, &count)| (format!("{role} {kind}"), count)));
        }
        for (row, states) in ACTS_IN {
            for &state in states {
                all.extend(self.by_port(row, state));
            }
        }
        all
    }

    fn by_port(&self, row: Row, state: usize) -> Vec<(String, u64)> {
        let name = format!("{row:?} in {}", state_name(row, state));
        let counts = self.rows.get(row as usize).map_or([0; 2], |counts| counts[state]);
        match row {
            Row::C1 => vec![(name, counts[0])],
            _ => vec![(format!("{name}, P is 1"), counts[0]), (format!("{name}, P is 2"), counts[1])],
        }
    }
}

impl fmt::Display for Met {
    fn fmt(&self, out: &mut fmt::Formatter) -> fmt::Result {
        let bad: u64 = self.bad_lines.iter().sum();
        let made: u64 = self.made.as_flattened().iter().sum();
        write!(out, "{} events, {made} nodes made, {bad} bad lines, {} skipped", self.events, self.skipped)
    }
}

fn add_each(counts: &mut [u64], others: &[u64]) {
    counts.iter_mut().zip(others).for_each(|(count, other)| *count += other);
}

fn state_name(row: Row, state: usize) -> &'static str {
    if (row as usize) <= Row::CNone as usize {
        client::State::ALL[state].name()
    } else {
        manager::State::ALL[state].name()
    }
}

fn transitions(node: &Node) -> u16 {
    match node {
        Node::Client(_) => 0,
        Node::Manager(manager) => manager.transitions(),
    }
}
