//! A table of 64 addresses in ordinary Rust, with the layout of the proved one.

const SIZE: usize = 64;

#[derive(Clone, Copy)]
pub enum Port {
    One = 1,
    Two = 2,
}

#[derive(Clone, Copy)]
#[allow(dead_code)]
enum PortState {
    Disabled,
    Blocked,
    Forwarding,
}

#[derive(Clone, Copy)]
pub enum Refusal {
    GroupAddress = 24,
    TableFull = 25,
}

#[derive(Clone, Copy)]
struct Entry {
    address: [u8; 6],
    port: Port,
}

/// The first `len` entries are in use.
#[derive(Clone, Copy)]
pub struct Table {
    _first: PortState,
    _second: PortState,
    entries: [Entry; SIZE],
    len: usize,
}

impl Default for Table {
    fn default() -> Table {
        let unused = Entry { address: [0; 6], port: Port::One };
        Table { _first: PortState::Blocked, _second: PortState::Blocked, entries: [unused; SIZE], len: 0 }
    }
}

impl Table {
    pub fn learn(&mut self, address: [u8; 6], port: Port) -> Result<(), Refusal> {
        if address[0] % 2 == 1 {
            return Err(Refusal::GroupAddress);
        }
        if let Some(entry) = self.entries[..self.len].iter_mut().find(|entry| entry.address == address) {
            entry.port = port;
            return Ok(());
        }
        if self.len == SIZE {
            return Err(Refusal::TableFull);
        }
        self.entries[self.len] = Entry { address, port };
        self.len += 1;
        Ok(())
    }

    pub fn port_of(&self, address: [u8; 6]) -> Option<Port> {
        self.entries[..self.len].iter().find(|entry| entry.address == address).map(|entry| entry.port)
    }
}
