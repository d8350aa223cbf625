//! What a client and a manager have in common, as docs/NODES.md says it. A switch is only its two port states here.

use crate::client::Client;
use crate::manager::Manager;
use crate::plain::{self, Content, Fields};

#[derive(Clone, Copy, Debug, PartialEq, Eq)]
pub enum Port {
    One = 1,
    Two = 2,
}

impl Port {
    pub const BOTH: [Port; 2] = [Port::One, Port::Two];

    pub fn other(self) -> Port {
        match self {
            Port::One => Port::Two,
            Port::Two => Port::One,
        }
    }

    pub fn number(self) -> u8 {
        self as u8
    }

    fn index(self) -> usize {
        self as usize - 1
    }
}

/// A node blocks both of its ports when it starts and never disables one.
#[derive(Clone, Copy, Debug, PartialEq, Eq)]
pub enum PortState {
    Blocked = 1,
    Forwarding = 2,
}

impl PortState {
    pub fn name(self) -> &'static str {
        match self {
            PortState::Blocked => "BLOCKED",
            PortState::Forwarding => "FORWARDING",
        }
    }
}

/// A ring port by what the node calls it.
#[derive(Clone, Copy, Debug, PartialEq, Eq)]
pub enum End {
    Primary,
    Secondary,
}

#[derive(Clone, Copy, Debug, PartialEq, Eq)]
pub enum Refusal {
    Setting = 13,
    NoSuchTimer = 18,
    TimerNotRunning = 21,
}

#[derive(Clone, Copy, Debug, PartialEq, Eq)]
pub enum Timer {
    Test,
    Topology,
    LinkUp,
    LinkDown,
    Clear,
}

impl Timer {
    /// All timers in the order of their numbers.
    pub const ALL: [Timer; 5] = [Timer::Test, Timer::Topology, Timer::LinkUp, Timer::LinkDown, Timer::Clear];

    pub fn name(self) -> &'static str {
        match self {
            Timer::Test => "test",
            Timer::Topology => "topology",
            Timer::LinkUp => "link-up",
            Timer::LinkDown => "link-down",
            Timer::Clear => "clear",
        }
    }
}

/// Intervals are in ms.
#[derive(Clone, Copy, Debug, PartialEq, Eq)]
pub struct Settings {
    pub short_test: u16,
    pub default_test: u16,
    pub topology: u16,
    pub link_up: u16,
    pub link_down: u16,
    pub test_count: u16,
    pub topology_count: u16,
    pub link_count: u16,
    pub priority: u16,
    pub domain: [u8; 16],
    pub address: [u8; 6],
}

impl Settings {
    fn check(&self) -> Result<(), Refusal> {
        let intervals = [self.short_test, self.default_test, self.topology, self.link_up, self.link_down];
        let within = intervals.iter().all(|interval| (1..=1000).contains(interval))
            && self.short_test <= self.default_test
            && (2..=10).contains(&self.test_count)
            && (1..=10).contains(&self.topology_count)
            && (1..=10).contains(&self.link_count)
            && self.priority.is_multiple_of(0x1000);
        within.then_some(()).ok_or(Refusal::Setting)
    }
}

/// What a node is told.
#[derive(Clone, Copy, Debug)]
pub enum Event<'a> {
    Up(Port),
    Down(Port),
    Frame(Port, &'a [u8]),
    RanOut(u32),
}

/// What an event means to the node that is told it.
#[derive(Clone, Copy, Debug, PartialEq, Eq)]
pub enum Meaning {
    Up(End),
    Down(End),
    RanOut(Timer),
    OwnTest,
    LinkFrame,
    Change(u16),
    Nothing,
}

/// One frame that a node sends.
#[derive(Clone, Copy, Debug)]
pub struct Place {
    pub octets: [u8; 60],
    pub port: Port,
    pub total: usize,
}

impl Place {
    pub fn frame(&self) -> &[u8] {
        &self.octets[..self.total]
    }
}

/// The four places, of which the first `count` are used.
#[derive(Clone, Debug)]
pub struct Outbox {
    places: [Place; 4],
    count: usize,
}

impl Outbox {
    pub fn new() -> Outbox {
        Outbox { places: [Place { octets: [0; 60], port: Port::One, total: 0 }; 4], count: 0 }
    }

    pub fn sent(&self) -> &[Place] {
        &self.places[..self.count]
    }

    pub fn empty(&mut self) {
        self.count = 0;
    }
}

impl Default for Outbox {
    fn default() -> Outbox {
        Outbox::new()
    }
}

/// The rows of both tables; `CNone` and `MNone` stand for an event that no row names.
#[derive(Clone, Copy, Debug, PartialEq, Eq)]
#[rustfmt::skip]
pub enum Row {
    C1, C2, C3, C4, C5, C6, C7, C8, C9, C10, C11, C12, C13, C14, C15, C16, C17, C18, C19, C20, C21, C22, C23, C24, C25,
    C26, C27, C28, C29, C30, CNone,
    M1, M2, M3, M4, M5, M6, M7a, M7b, M8a, M8b, M9, M10a, M10b, MNone,
}

/// An accepted step: the row that acted, and the port by which the frame is passed on.
#[derive(Clone, Copy, Debug, PartialEq, Eq)]
pub struct Step {
    pub row: Row,
    pub passed: Option<Port>,
}

/// The part of a node that does not depend on its role.
#[derive(Clone, Debug)]
pub struct Base {
    pub settings: Settings,
    ports: [PortState; 2],
    primary: Port,
    timers: [Option<u16>; 5],
    sequence: u16,
}

impl Base {
    pub fn start(settings: Settings) -> Result<Base, Refusal> {
        settings.check()?;
        Ok(Base { settings, ports: [PortState::Blocked; 2], primary: Port::One, timers: [None; 5], sequence: 0 })
    }

    pub fn port(&self, port: Port) -> PortState {
        self.ports[port.index()]
    }

    /// The interval of a timer that runs.
    pub fn timer(&self, timer: Timer) -> Option<u16> {
        self.timers[timer as usize]
    }

    /// The number of the next sending.
    pub fn sequence(&self) -> u16 {
        self.sequence
    }

    pub fn primary(&self) -> Port {
        self.primary
    }

    pub fn end(&self, port: Port) -> End {
        if port == self.primary {
            End::Primary
        } else {
            End::Secondary
        }
    }

    pub fn change_names(&mut self) {
        self.primary = self.primary.other();
    }

    pub fn set(&mut self, end: End, state: PortState) {
        let port = match end {
            End::Primary => self.primary,
            End::Secondary => self.primary.other(),
        };
        self.ports[port.index()] = state;
    }

    /// This switch knows no pairs of address and port.
    pub fn clear_pairs(&mut self) {}

    pub fn start_timer(&mut self, timer: Timer, interval: u16) {
        self.timers[timer as usize] = Some(interval);
    }

    pub fn stop_timer(&mut self, timer: Timer) {
        self.timers[timer as usize] = None;
    }

    /// What the event means here. A timer that ran out is stopped by this.
    pub fn understand(&mut self, event: Event) -> Result<Meaning, Refusal> {
        match event {
            Event::Up(port) => Ok(Meaning::Up(self.end(port))),
            Event::Down(port) => Ok(Meaning::Down(self.end(port))),
            Event::Frame(_, octets) => Ok(self.hear(octets)),
            Event::RanOut(number) => {
                let timer = *Timer::ALL.get(number as usize).ok_or(Refusal::NoSuchTimer)?;
                self.timers[timer as usize].take().ok_or(Refusal::TimerNotRunning)?;
                Ok(Meaning::RanOut(timer))
            }
        }
    }

    fn hear(&self, octets: &[u8]) -> Meaning {
        let Ok(frame) = plain::read(octets) else { return Meaning::Nothing };
        if octets[frame.domain_at..][..16] != self.settings.domain {
            return Meaning::Nothing;
        }
        match frame.content {
            Content::Test(_) if octets[frame.sender_at..][..6] == self.settings.address => Meaning::OwnTest,
            Content::Test(_) => Meaning::Nothing,
            Content::TopologyChange(change) => Meaning::Change(change.interval),
            Content::LinkDown(_) | Content::LinkUp(_) => Meaning::LinkFrame,
        }
    }

    /// One sending by these ports: what each frame holds may depend on its port, the sequence number does not.
    pub fn send(&mut self, ports: &[Port], outbox: &mut Outbox, content: impl Fn(&Base, Port) -> Content) {
        for &port in ports {
            let content = content(self, port);
            let Settings { address, domain, .. } = &self.settings;
            let fields = Fields { source: address, sender: address, content, sequence: self.sequence, domain };
            let place = &mut outbox.places[outbox.count];
            let written = plain::write(&fields, &mut place.octets);
            debug_assert_eq!(written as usize, content.total());
            place.port = port;
            place.total = content.total();
            outbox.count += 1;
        }
        self.sequence = self.sequence.wrapping_add(1);
    }
}

/// Where a frame that came by this port leaves, if it is to be passed on: readable or not, it goes to an MRP address.
pub fn passing(event: Event) -> Option<Port> {
    match event {
        Event::Frame(port, octets) if plain::goes_to_mrp(octets) => Some(port.other()),
        _ => None,
    }
}

/// A running node of either role.
#[derive(Clone, Debug)]
pub enum Node {
    Client(Client),
    Manager(Manager),
}

impl Node {
    pub fn base(&self) -> &Base {
        match self {
            Node::Client(client) => client.base(),
            Node::Manager(manager) => manager.base(),
        }
    }

    pub fn state_name(&self) -> &'static str {
        match self {
            Node::Client(client) => client.state().name(),
            Node::Manager(manager) => manager.state().name(),
        }
    }

    /// The place of the state in its table.
    pub fn state_number(&self) -> usize {
        match self {
            Node::Client(client) => client.state() as usize,
            Node::Manager(manager) => manager.state() as usize,
        }
    }

    pub fn step(&mut self, event: Event, stamp: u32, outbox: &mut Outbox) -> Result<Step, Refusal> {
        match self {
            Node::Client(client) => client.step(event, outbox),
            Node::Manager(manager) => manager.step(event, stamp, outbox),
        }
    }
}
