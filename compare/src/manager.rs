//! A manager in plain Rust, from the manager's table in docs/NODES.md.

use crate::node::{Base, End, Event, Meaning, Outbox, Port, PortState, Refusal, Row, Settings, Step, Timer};
use crate::plain::{Change, Content, Test};

#[derive(Clone, Copy, Debug, PartialEq, Eq)]
pub enum State {
    AcStat1,
    PrmUp,
    ChkRc,
    ChkRo,
}

impl State {
    pub const ALL: [State; 4] = [State::AcStat1, State::PrmUp, State::ChkRc, State::ChkRo];

    pub fn name(self) -> &'static str {
        match self {
            State::AcStat1 => "AC_STAT1",
            State::PrmUp => "PRM_UP",
            State::ChkRc => "CHK_RC",
            State::ChkRo => "CHK_RO",
        }
    }

    /// Whether both links are up, so that the ring is checked.
    fn checks(self) -> bool {
        matches!(self, State::ChkRc | State::ChkRo)
    }
}

#[derive(Clone, Debug)]
pub struct Manager {
    base: Base,
    state: State,
    /// Test timers that ran out in a row without an own Test.
    misses: u16,
    transitions: u16,
    short_test_pending: bool,
    /// TopologyChanges that an announcement still has to send before its last one.
    repeats: u16,
}

impl Manager {
    pub fn start(settings: Settings) -> Result<Manager, Refusal> {
        Ok(Manager {
            base: Base::start(settings)?,
            state: State::AcStat1,
            misses: 0,
            transitions: 0,
            short_test_pending: false,
            repeats: settings.topology_count - 1,
        })
    }

    pub fn base(&self) -> &Base {
        &self.base
    }

    pub fn state(&self) -> State {
        self.state
    }

    pub fn transitions(&self) -> u16 {
        self.transitions
    }

    /// A fault for the tests of the comparison.
    #[cfg(test)]
    pub fn forget_short_test(&mut self) {
        self.short_test_pending = false;
    }

    pub fn step(&mut self, event: Event, stamp: u32, outbox: &mut Outbox) -> Result<Step, Refusal> {
        let meaning = self.base.understand(event)?;
        outbox.empty();
        let row = match meaning {
            Meaning::Up(end) => self.link_came_up(end, stamp, outbox),
            Meaning::Down(end) => self.link_went_down(end, stamp, outbox),
            Meaning::RanOut(Timer::Test) => self.test_timer_ran_out(stamp, outbox),
            Meaning::RanOut(Timer::Topology) => self.topology_timer_ran_out(outbox),
            Meaning::OwnTest => self.test_came_home(stamp, outbox),
            Meaning::LinkFrame => self.client_tells(stamp, outbox),
            Meaning::RanOut(_) | Meaning::Change(_) | Meaning::Nothing => Row::MNone,
        };
        Ok(Step { row, passed: None })
    }

    fn link_came_up(&mut self, end: End, stamp: u32, outbox: &mut Outbox) -> Row {
        match (self.state, end) {
            (State::AcStat1, end) => {
                if end == End::Secondary {
                    self.base.change_names();
                }
                self.base.set(End::Primary, PortState::Forwarding);
                self.state = State::PrmUp;
                self.test(stamp, outbox);
                Row::M1
            }
            (State::PrmUp, End::Secondary) => {
                self.misses = 0;
                self.state = State::ChkRc;
                self.test(stamp, outbox);
                Row::M3
            }
            _ => Row::MNone,
        }
    }

    fn link_went_down(&mut self, end: End, stamp: u32, outbox: &mut Outbox) -> Row {
        match (self.state, end) {
            (State::PrmUp, End::Primary) => {
                self.base.set(End::Primary, PortState::Blocked);
                self.base.stop_timer(Timer::Test);
                self.short_test_pending = false;
                self.state = State::AcStat1;
                Row::M2
            }
            (State::ChkRc | State::ChkRo, End::Secondary) => {
                self.base.set(End::Secondary, PortState::Blocked);
                self.state = State::PrmUp;
                Row::M4
            }
            (State::ChkRc | State::ChkRo, End::Primary) => {
                self.base.change_names();
                self.base.set(End::Primary, PortState::Forwarding);
                self.base.set(End::Secondary, PortState::Blocked);
                self.state = State::PrmUp;
                self.announce(outbox);
                self.test(stamp, outbox);
                Row::M5
            }
            _ => Row::MNone,
        }
    }

    fn test_timer_ran_out(&mut self, stamp: u32, outbox: &mut Outbox) -> Row {
        self.short_test_pending = false;
        match self.state {
            State::AcStat1 => Row::MNone,
            State::PrmUp | State::ChkRo => {
                self.test(stamp, outbox);
                Row::M6
            }
            State::ChkRc if self.misses + 1 < self.base.settings.test_count => {
                self.misses += 1;
                self.test(stamp, outbox);
                Row::M7a
            }
            State::ChkRc => {
                self.turn(State::ChkRo, PortState::Forwarding, stamp, outbox);
                Row::M7b
            }
        }
    }

    fn test_came_home(&mut self, stamp: u32, outbox: &mut Outbox) -> Row {
        match self.state {
            State::AcStat1 | State::PrmUp => Row::MNone,
            State::ChkRc => {
                self.misses = 0;
                Row::M8a
            }
            State::ChkRo => {
                self.misses = 0;
                self.turn(State::ChkRc, PortState::Blocked, stamp, outbox);
                Row::M8b
            }
        }
    }

    /// A client tells of a link: the ring may have changed, so the next Test is sent early.
    fn client_tells(&mut self, stamp: u32, outbox: &mut Outbox) -> Row {
        if !self.state.checks() || self.short_test_pending {
            return Row::MNone;
        }
        self.short_test_pending = true;
        self.test(stamp, outbox);
        self.base.start_timer(Timer::Test, self.base.settings.short_test);
        Row::M9
    }

    fn topology_timer_ran_out(&mut self, outbox: &mut Outbox) -> Row {
        self.send_change(self.repeats, outbox);
        if self.repeats > 0 {
            self.repeats -= 1;
            self.base.start_timer(Timer::Topology, self.base.settings.topology);
            Row::M10a
        } else {
            self.base.clear_pairs();
            self.repeats = self.base.settings.topology_count - 1;
            Row::M10b
        }
    }

    /// The ring is found open, or closed again. The Tests still tell the transitions before this one.
    fn turn(&mut self, state: State, secondary: PortState, stamp: u32, outbox: &mut Outbox) {
        self.state = state;
        self.base.set(End::Secondary, secondary);
        self.announce(outbox);
        self.test(stamp, outbox);
        self.transitions = self.transitions.wrapping_add(1);
    }

    fn announce(&mut self, outbox: &mut Outbox) {
        self.send_change(self.base.settings.topology_count, outbox);
        self.base.start_timer(Timer::Topology, self.base.settings.topology);
    }

    fn send_change(&mut self, times: u16, outbox: &mut Outbox) {
        let Settings { priority, topology, .. } = self.base.settings;
        let change = Change { priority, interval: times * topology };
        self.base.send(&Port::BOTH, outbox, |_, _| Content::TopologyChange(change));
    }

    /// The state has to be the one after the row: the Test tells it.
    fn test(&mut self, stamp: u32, outbox: &mut Outbox) {
        let ring_state = u16::from(self.state == State::ChkRc);
        let transitions = self.transitions;
        self.base.send(&Port::BOTH, outbox, |base, port| {
            Content::Test(Test {
                priority: base.settings.priority,
                port_role: u16::from(base.end(port) == End::Secondary),
                ring_state,
                transitions,
                time_stamp: stamp,
            })
        });
        self.base.start_timer(Timer::Test, self.base.settings.default_test);
    }
}
