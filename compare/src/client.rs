//! A client in plain Rust, from the client's table in docs/NODES.md.

use crate::node::{passing, Base, End, Event, Meaning, Outbox, PortState, Refusal, Row, Settings, Step, Timer};
use crate::plain::{Content, Link};

#[derive(Clone, Copy, Debug, PartialEq, Eq)]
pub enum State {
    AcStat1,
    DeIdle,
    De,
    Pt,
    PtIdle,
}

impl State {
    pub const ALL: [State; 5] = [State::AcStat1, State::DeIdle, State::De, State::Pt, State::PtIdle];

    pub fn name(self) -> &'static str {
        match self {
            State::AcStat1 => "AC_STAT1",
            State::DeIdle => "DE_IDLE",
            State::De => "DE",
            State::Pt => "PT",
            State::PtIdle => "PT_IDLE",
        }
    }
}

#[derive(Clone, Debug)]
pub struct Client {
    base: Base,
    state: State,
    /// How many more link frames are to be sent, as the next one tells it.
    remaining: u16,
}

impl Client {
    pub fn start(settings: Settings) -> Result<Client, Refusal> {
        Ok(Client { base: Base::start(settings)?, state: State::AcStat1, remaining: settings.link_count })
    }

    pub fn base(&self) -> &Base {
        &self.base
    }

    pub fn state(&self) -> State {
        self.state
    }

    pub fn step(&mut self, event: Event, outbox: &mut Outbox) -> Result<Step, Refusal> {
        let meaning = self.base.understand(event)?;
        outbox.empty();
        let row = match meaning {
            Meaning::Up(end) => self.link_came_up(end, outbox),
            Meaning::Down(end) => self.link_went_down(end, outbox),
            Meaning::RanOut(timer) => self.timer_ran_out(timer, outbox),
            Meaning::Change(interval) => self.ring_changes(interval),
            Meaning::OwnTest | Meaning::LinkFrame | Meaning::Nothing => Row::CNone,
        };
        Ok(Step { row, passed: passing(event) })
    }

    fn link_came_up(&mut self, end: End, outbox: &mut Outbox) -> Row {
        match (self.state, end) {
            (State::AcStat1, End::Primary) => {
                self.join();
                Row::C2
            }
            (State::AcStat1, End::Secondary) => {
                self.base.change_names();
                self.join();
                Row::C4
            }
            (State::DeIdle, End::Secondary) => {
                self.announce_up(outbox);
                Row::C6
            }
            (State::De, End::Secondary) => {
                self.announce_up(outbox);
                Row::C20
            }
            (State::DeIdle, End::Primary) => Row::C9,
            (State::De, End::Primary) => Row::C23,
            (State::Pt, End::Primary) => Row::C16,
            (State::Pt, End::Secondary) => Row::C13,
            (State::PtIdle, End::Primary) => Row::C28,
            (State::PtIdle, End::Secondary) => Row::C25,
        }
    }

    fn link_went_down(&mut self, end: End, outbox: &mut Outbox) -> Row {
        match (self.state, end) {
            (State::AcStat1, _) => Row::C3,
            (State::DeIdle, End::Secondary) => Row::C7,
            (State::De, End::Secondary) => Row::C21,
            (State::DeIdle, End::Primary) => {
                self.leave();
                Row::C8
            }
            (State::De, End::Primary) => {
                self.leave();
                Row::C22
            }
            (State::Pt, end) => {
                self.announce_down(end, outbox);
                if end == End::Secondary {
                    Row::C14
                } else {
                    Row::C15
                }
            }
            (State::PtIdle, end) => {
                self.announce_down(end, outbox);
                if end == End::Secondary {
                    Row::C26
                } else {
                    Row::C27
                }
            }
        }
    }

    fn timer_ran_out(&mut self, timer: Timer, outbox: &mut Outbox) -> Row {
        match (timer, self.state, self.remaining) {
            (Timer::Clear, _, _) => {
                self.base.clear_pairs();
                Row::C30
            }
            (Timer::LinkUp, State::Pt, 0) => {
                self.pass_through();
                Row::C11
            }
            (Timer::LinkUp, State::Pt, _) => {
                self.remaining -= 1;
                self.tell_up(outbox);
                Row::C12
            }
            (Timer::LinkDown, State::De, 0) => {
                self.settle(State::DeIdle);
                Row::C18
            }
            (Timer::LinkDown, State::De, _) => {
                self.remaining -= 1;
                self.tell_down(outbox);
                Row::C19
            }
            _ => Row::CNone,
        }
    }

    /// A TopologyChange ends an announcement: its sender knows of the link.
    fn ring_changes(&mut self, interval: u16) -> Row {
        let row = match self.state {
            State::AcStat1 => return Row::C5,
            State::DeIdle => Row::C10,
            State::PtIdle => Row::C29,
            State::Pt => {
                self.pass_through();
                Row::C17
            }
            State::De => {
                self.settle(State::DeIdle);
                Row::C24
            }
        };
        self.base.start_timer(Timer::Clear, interval);
        row
    }

    /// Into a state in which nothing is announced.
    fn settle(&mut self, state: State) {
        self.state = state;
        self.remaining = self.base.settings.link_count;
        self.base.stop_timer(Timer::LinkUp);
        self.base.stop_timer(Timer::LinkDown);
    }

    fn join(&mut self) {
        self.settle(State::DeIdle);
        self.base.set(End::Primary, PortState::Forwarding);
    }

    fn leave(&mut self) {
        self.settle(State::AcStat1);
        self.base.set(End::Primary, PortState::Blocked);
    }

    fn pass_through(&mut self) {
        self.settle(State::PtIdle);
        self.base.set(End::Secondary, PortState::Forwarding);
    }

    fn announce_up(&mut self, outbox: &mut Outbox) {
        self.settle(State::Pt);
        self.tell_up(outbox);
    }

    /// The link at this end is lost: the other one becomes the primary port, if it is not.
    fn announce_down(&mut self, lost: End, outbox: &mut Outbox) {
        if lost == End::Primary {
            self.base.change_names();
        }
        self.settle(State::De);
        self.base.set(End::Primary, PortState::Forwarding);
        self.base.set(End::Secondary, PortState::Blocked);
        self.tell_down(outbox);
    }

    fn tell_up(&mut self, outbox: &mut Outbox) {
        let interval = self.base.settings.link_up;
        self.base.start_timer(Timer::LinkUp, interval);
        self.send_link(Content::LinkUp, interval, outbox);
    }

    fn tell_down(&mut self, outbox: &mut Outbox) {
        let interval = self.base.settings.link_down;
        self.base.start_timer(Timer::LinkDown, interval);
        self.send_link(Content::LinkDown, interval, outbox);
    }

    fn send_link(&mut self, kind: fn(Link) -> Content, interval: u16, outbox: &mut Outbox) {
        let link = Link { port_role: 1, interval: self.remaining * interval, blocked: 1 };
        self.base.send(&[self.base.primary()], outbox, |_, _| kind(link));
    }
}
