//! Many events for one node, and a checksum over all that follows from them, to measure a node beside another one.
//!
//! All numbers have 64 bits and wrap around. The node has the settings 10 20 10 20 20 2 3 2 of docs/BENCH.md with the
//! fixed ones there, and is started. `x` begins with the seed, which is not 0, and `sum` with 0. For each event:
//!
//!     x = x ^ (x >> 12);  x = x ^ (x << 25);  x = x ^ (x >> 27);  drawn = (x * 0x2545F4914F6CDD1D) >> 32
//!     port = 1 + drawn % 2;  choice = (drawn / 2) % 16
//!
//! The choice gives the event; frames come by the port; the time stamp is the number of events before this one.
//!
//!     choice   0 1 2 3 4 5 6 7 8 9 a b c d e f      u up at port, d down at port, 0 to 4 timer of this number,
//!     client   u u u d d 2 2 2 3 3 4 C C T T L      T own Test, F foreign Test, L LinkDown, C TopologyChange
//!     manager  u u d 0 0 0 0 1 1 T T T L C F F
//!
//! The frames are those of docs/FRAMES.md, 58, 52 or 50 octets, with sequence number 0 and the node's domain. Source and
//! sender are the node's address in T, 02-00-00-00-00-02 in F and L, and 02-00-00-00-00-00 in C. A Test has priority
//! 0x8000, port role 0, ring state 1, transitions 0 and time stamp 0; a LinkDown port role 1, interval 20 and blocked 1;
//! a TopologyChange priority 0x8000 and interval 30.
//!
//! After the event these numbers are taken into the sum, each by `sum = (sum ^ number) * 0x100000001B3`:
//!
//!     answer + 2^8 state + 2^16 port 1 + 2^24 port 2 + 2^32 frames sent + 2^40 port by which the frame is passed, or 0
//!     timer 0 + 2^32 timer 1;  timer 2 + 2^32 timer 3;  timer 4          (0 where it is off, else interval + 1)
//!     for each frame sent: port + 2^8 total + 2^16 (1 octet 0 + 2 octet 1 + 3 octet 2 + ... up to the total)
//!
//! The answer is 0, 18 or 21, and a refused event sends and passes nothing. States are numbered from 0 in the order of the
//! tables under "What holds between steps" in docs/NODES.md; BLOCKED is 1, FORWARDING is 2.

use crate::client::Client;
use crate::command::Role;
use crate::manager::Manager;
use crate::node::{Event, Node, Outbox, Place, Port, Refusal, Settings, Timer};
use crate::plain::{self, Change, Content, Fields, Link, Test};

/// The checksum after so many events.
pub fn play_events(role: Role, seed: u64, events: u64) -> Result<u64, Refusal> {
    let mut node = match role {
        Role::Client => Node::Client(Client::start(settings(1))?),
        Role::Manager => Node::Manager(Manager::start(settings(0))?),
    };
    let frames = Frames::for_node(node.base().settings.address);
    let mut outbox = Outbox::new();
    let mut x = seed;
    let mut sum = 0;
    for stamp in 0..events {
        let event = frames.event(role, draw(&mut x));
        let (answer, passed) = match node.step(event, stamp as u32, &mut outbox) {
            Ok(step) => (0, step.passed),
            Err(refusal) => {
                outbox.empty();
                (refusal as u64, None)
            }
        };
        sum = taken(sum, answer, &node, outbox.sent(), passed);
    }
    Ok(sum)
}

fn settings(last_octet: u8) -> Settings {
    Settings {
        short_test: 10,
        default_test: 20,
        topology: 10,
        link_up: 20,
        link_down: 20,
        test_count: 2,
        topology_count: 3,
        link_count: 2,
        priority: 0x8000,
        domain: [0xFF; 16],
        address: address(last_octet),
    }
}

fn address(last_octet: u8) -> [u8; 6] {
    [2, 0, 0, 0, 0, last_octet]
}

fn draw(x: &mut u64) -> u64 {
    *x ^= *x >> 12;
    *x ^= *x << 25;
    *x ^= *x >> 27;
    x.wrapping_mul(0x2545_F491_4F6C_DD1D) >> 32
}

/// The frames that a node is told of.
struct Frames {
    own_test: [u8; 58],
    foreign_test: [u8; 58],
    link_down: [u8; 52],
    change: [u8; 50],
}

impl Frames {
    fn for_node(own: [u8; 6]) -> Frames {
        let test = Content::Test(Test { priority: 0x8000, port_role: 0, ring_state: 1, transitions: 0, time_stamp: 0 });
        Frames {
            own_test: frame(own, test),
            foreign_test: frame(address(2), test),
            link_down: frame(address(2), Content::LinkDown(Link { port_role: 1, interval: 20, blocked: 1 })),
            change: frame(address(0), Content::TopologyChange(Change { priority: 0x8000, interval: 30 })),
        }
    }

    fn event(&self, role: Role, drawn: u64) -> Event<'_> {
        let port = Port::BOTH[(drawn % 2) as usize];
        let choices: &[u8; 16] = match role {
            Role::Client => b"uuudd222334CCTTL",
            Role::Manager => b"uud000011TTTLCFF",
        };
        match choices[(drawn / 2 % 16) as usize] {
            b'u' => Event::Up(port),
            b'd' => Event::Down(port),
            b'T' => Event::Frame(port, &self.own_test),
            b'F' => Event::Frame(port, &self.foreign_test),
            b'L' => Event::Frame(port, &self.link_down),
            b'C' => Event::Frame(port, &self.change),
            timer => Event::RanOut(u32::from(timer - b'0')),
        }
    }
}

fn frame<const TOTAL: usize>(sender: [u8; 6], content: Content) -> [u8; TOTAL] {
    let mut octets = [0; TOTAL];
    let fields = Fields { source: &sender, sender: &sender, content, sequence: 0, domain: &[0xFF; 16] };
    plain::write(&fields, &mut octets);
    octets
}

/// The sum after a step that left this node, these frames and this port.
fn taken(sum: u64, answer: u64, node: &Node, sent: &[Place], passed: Option<Port>) -> u64 {
    let base = node.base();
    let port = |port| base.port(port) as u64;
    let timer = |timer| base.timer(timer).map_or(0, |interval| u64::from(interval) + 1);
    let state = node.state_number() as u64;
    let passed = passed.map_or(0, |port| u64::from(port.number()));
    let whole =
        answer | state << 8 | port(Port::One) << 16 | port(Port::Two) << 24 | (sent.len() as u64) << 32 | passed << 40;
    let timers = [
        timer(Timer::Test) | timer(Timer::Topology) << 32,
        timer(Timer::LinkUp) | timer(Timer::LinkDown) << 32,
        timer(Timer::Clear),
    ];
    let frames = sent.iter().map(|place| {
        let octets: u64 = place.frame().iter().zip(1..).map(|(&octet, weight)| weight * u64::from(octet)).sum();
        u64::from(place.port.number()) | (place.total as u64) << 8 | octets << 16
    });
    [whole].into_iter().chain(timers).chain(frames).fold(sum, take)
}

fn take(sum: u64, number: u64) -> u64 {
    (sum ^ number).wrapping_mul(0x100_0000_01B3)
}

#[cfg(test)]
mod tests {
    use super::*;

    /// These checksums were also formed by another program, from the description above and the bench's output.
    #[test]
    fn sums_are_as_described() {
        assert_eq!(play_events(Role::Client, 1, 10), Ok(0x4B4E_879F_2DBC_3330));
        assert_eq!(play_events(Role::Client, 1, 100_000), Ok(0x9355_101F_7DD2_AF6C));
        assert_eq!(play_events(Role::Manager, 1, 10), Ok(0x20B0_29B8_CEA1_F1FB));
        assert_eq!(play_events(Role::Manager, 1, 100_000), Ok(0xFAB1_715F_1D3A_6F62));
    }
}
