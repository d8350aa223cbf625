//! A reader and a writer in plain Rust: every field at its fixed place, as docs/FRAMES.md and docs/REFUSALS.md say.

pub const TEST: u32 = 0x102;
pub const TOPOLOGY_CHANGE: u32 = 0x103;
pub const LINK_DOWN: u32 = 0x104;
pub const LINK_UP: u32 = 0x105;

/// What `field` answers where there is no value; the number of the refusal is added to it.
pub const NO_VALUE: u64 = 0x1_0000_0000;

const MC_TEST: [u8; 6] = [0x01, 0x15, 0x4E, 0x00, 0x00, 0x01];
const MC_CONTROL: [u8; 6] = [0x01, 0x15, 0x4E, 0x00, 0x00, 0x02];

#[derive(Clone, Copy, Debug, PartialEq, Eq)]
pub struct Test {
    pub priority: u16,
    pub port_role: u16,
    pub ring_state: u16,
    pub transitions: u16,
    pub time_stamp: u32,
}

#[derive(Clone, Copy, Debug, PartialEq, Eq)]
pub struct Change {
    pub priority: u16,
    pub interval: u16,
}

#[derive(Clone, Copy, Debug, PartialEq, Eq)]
pub struct Link {
    pub port_role: u16,
    pub interval: u16,
    pub blocked: u16,
}

#[derive(Clone, Copy, Debug, PartialEq, Eq)]
pub enum Content {
    Test(Test),
    TopologyChange(Change),
    LinkDown(Link),
    LinkUp(Link),
}

/// A frame that was read: its numbers, and the places of its addresses and its domain.
#[derive(Clone, Copy, Debug, PartialEq, Eq)]
pub struct Frame {
    pub content: Content,
    pub sequence: u16,
    pub source_at: usize,
    pub sender_at: usize,
    pub domain_at: usize,
}

/// What a frame is written from. The numbers may be outside their values, the parts of any length.
#[derive(Clone, Copy)]
pub struct Fields<'a> {
    pub source: &'a [u8],
    pub sender: &'a [u8],
    pub content: Content,
    pub sequence: u16,
    pub domain: &'a [u8],
}

impl Content {
    pub fn kind(&self) -> u32 {
        match self {
            Content::Test(_) => TEST,
            Content::TopologyChange(_) => TOPOLOGY_CHANGE,
            Content::LinkDown(_) => LINK_DOWN,
            Content::LinkUp(_) => LINK_UP,
        }
    }

    pub fn total(&self) -> usize {
        match self {
            Content::Test(_) => 58,
            Content::TopologyChange(_) => 50,
            Content::LinkDown(_) | Content::LinkUp(_) => 52,
        }
    }

    fn is_within_values(&self) -> bool {
        match *self {
            Content::Test(test) => test.priority % 0x1000 == 0 && test.port_role <= 1 && test.ring_state <= 1,
            Content::TopologyChange(change) => change.priority % 0x1000 == 0,
            Content::LinkDown(link) | Content::LinkUp(link) => link.port_role <= 1 && link.blocked <= 1,
        }
    }
}

/// Whether the octets begin with one of the two MRP addresses, readable or not.
pub fn goes_to_mrp(octets: &[u8]) -> bool {
    octets.starts_with(&MC_TEST) || octets.starts_with(&MC_CONTROL)
}

/// The frame in these octets, or the number of its refusal.
pub fn read(octets: &[u8]) -> Result<Frame, u32> {
    if octets.len() < 50 || octets.len() > 60 {
        return Err(1);
    }
    if octets[0..6] != MC_TEST && octets[0..6] != MC_CONTROL {
        return Err(2);
    }
    if octets[12..14] != [0x88, 0xE3] {
        return Err(3);
    }
    if octets[14..16] != [0x00, 0x01] {
        return Err(4);
    }
    match octets[16..18] {
        [2, 18] => read_test(octets),
        [3, 10] => read_topology_change(octets),
        [4, 12] => read_link(octets, Content::LinkDown),
        [5, 12] => read_link(octets, Content::LinkUp),
        _ => Err(5),
    }
}

fn read_test(octets: &[u8]) -> Result<Frame, u32> {
    if octets.len() < 58 {
        return Err(6);
    }
    if octets[0..6] != MC_TEST {
        return Err(7);
    }
    let content = Content::Test(Test {
        priority: word(octets, 18),
        port_role: word(octets, 26),
        ring_state: word(octets, 28),
        transitions: word(octets, 30),
        time_stamp: u32::from_be_bytes([octets[32], octets[33], octets[34], octets[35]]),
    });
    if !content.is_within_values() {
        return Err(8);
    }
    check_rest(&octets[36..38], &octets[56..58], &octets[58..])?;
    Ok(Frame { content, sequence: word(octets, 38), source_at: 6, sender_at: 20, domain_at: 40 })
}

fn read_topology_change(octets: &[u8]) -> Result<Frame, u32> {
    if octets[0..6] != MC_CONTROL {
        return Err(7);
    }
    let content = Content::TopologyChange(Change { priority: word(octets, 18), interval: word(octets, 26) });
    if !content.is_within_values() {
        return Err(8);
    }
    check_rest(&octets[28..30], &octets[48..50], &octets[50..])?;
    Ok(Frame { content, sequence: word(octets, 30), source_at: 6, sender_at: 20, domain_at: 32 })
}

fn read_link(octets: &[u8], kind: fn(Link) -> Content) -> Result<Frame, u32> {
    if octets.len() < 52 {
        return Err(6);
    }
    if octets[0..6] != MC_TEST {
        return Err(7);
    }
    let content = kind(Link { port_role: word(octets, 24), interval: word(octets, 26), blocked: word(octets, 28) });
    if !content.is_within_values() {
        return Err(8);
    }
    check_rest(&octets[30..32], &octets[50..52], &octets[52..])?;
    Ok(Frame { content, sequence: word(octets, 32), source_at: 6, sender_at: 18, domain_at: 34 })
}

fn check_rest(common: &[u8], end: &[u8], padding: &[u8]) -> Result<(), u32> {
    if common != [1, 18] {
        return Err(9);
    }
    if end != [0, 0] {
        return Err(10);
    }
    if padding.iter().any(|&octet| octet != 0) {
        return Err(11);
    }
    Ok(())
}

fn word(octets: &[u8], at: usize) -> u16 {
    u16::from_be_bytes([octets[at], octets[at + 1]])
}

/// What `mrp_field` has to answer for a frame that was read so.
pub fn field(answer: &Result<Frame, u32>, number: u32) -> u64 {
    match answer {
        Ok(frame) => value(frame, number).unwrap_or(NO_VALUE),
        Err(refusal) => NO_VALUE + u64::from(*refusal),
    }
}

fn value(frame: &Frame, number: u32) -> Option<u64> {
    match number {
        0 => Some(u64::from(frame.sequence)),
        8 => Some(frame.source_at as u64),
        9 => Some(frame.sender_at as u64),
        10 => Some(frame.domain_at as u64),
        _ => value_of_content(&frame.content, number),
    }
}

fn value_of_content(content: &Content, number: u32) -> Option<u64> {
    match (*content, number) {
        (Content::Test(test), 1) => Some(test.priority.into()),
        (Content::Test(test), 2) => Some(test.port_role.into()),
        (Content::Test(test), 3) => Some(test.ring_state.into()),
        (Content::Test(test), 4) => Some(test.transitions.into()),
        (Content::Test(test), 5) => Some(test.time_stamp.into()),
        (Content::TopologyChange(change), 1) => Some(change.priority.into()),
        (Content::TopologyChange(change), 6) => Some(change.interval.into()),
        (Content::LinkDown(link) | Content::LinkUp(link), 2) => Some(link.port_role.into()),
        (Content::LinkDown(link) | Content::LinkUp(link), 6) => Some(link.interval.into()),
        (Content::LinkDown(link) | Content::LinkUp(link), 7) => Some(link.blocked.into()),
        _ => None,
    }
}

/// Writes the frame to the front of `out` and answers its total, or answers a refusal and writes nothing.
pub fn write(fields: &Fields, out: &mut [u8]) -> u32 {
    let parts_fit = fields.source.len() == 6 && fields.sender.len() == 6 && fields.domain.len() == 16;
    if !parts_fit || !fields.content.is_within_values() {
        return 8;
    }
    if out.len() < fields.content.total() {
        return 12;
    }
    match fields.content {
        Content::Test(test) => write_test(fields, test, out),
        Content::TopologyChange(change) => write_topology_change(fields, change, out),
        Content::LinkDown(link) => write_link(fields, [4, 12], link, out),
        Content::LinkUp(link) => write_link(fields, [5, 12], link, out),
    }
    fields.content.total() as u32
}

fn write_test(fields: &Fields, test: Test, out: &mut [u8]) {
    write_head(MC_TEST, fields.source, [2, 18], out);
    out[18..20].copy_from_slice(&test.priority.to_be_bytes());
    out[20..26].copy_from_slice(fields.sender);
    out[26..28].copy_from_slice(&test.port_role.to_be_bytes());
    out[28..30].copy_from_slice(&test.ring_state.to_be_bytes());
    out[30..32].copy_from_slice(&test.transitions.to_be_bytes());
    out[32..36].copy_from_slice(&test.time_stamp.to_be_bytes());
    write_rest(fields, &mut out[36..58]);
}

fn write_topology_change(fields: &Fields, change: Change, out: &mut [u8]) {
    write_head(MC_CONTROL, fields.source, [3, 10], out);
    out[18..20].copy_from_slice(&change.priority.to_be_bytes());
    out[20..26].copy_from_slice(fields.sender);
    out[26..28].copy_from_slice(&change.interval.to_be_bytes());
    write_rest(fields, &mut out[28..50]);
}

fn write_link(fields: &Fields, element: [u8; 2], link: Link, out: &mut [u8]) {
    write_head(MC_TEST, fields.source, element, out);
    out[18..24].copy_from_slice(fields.sender);
    out[24..26].copy_from_slice(&link.port_role.to_be_bytes());
    out[26..28].copy_from_slice(&link.interval.to_be_bytes());
    out[28..30].copy_from_slice(&link.blocked.to_be_bytes());
    write_rest(fields, &mut out[30..52]);
}

fn write_head(destination: [u8; 6], source: &[u8], element: [u8; 2], out: &mut [u8]) {
    out[0..6].copy_from_slice(&destination);
    out[6..12].copy_from_slice(source);
    out[12..16].copy_from_slice(&[0x88, 0xE3, 0x00, 0x01]);
    out[16..18].copy_from_slice(&element);
}

fn write_rest(fields: &Fields, out: &mut [u8]) {
    out[0..2].copy_from_slice(&[1, 18]);
    out[2..4].copy_from_slice(&fields.sequence.to_be_bytes());
    out[4..20].copy_from_slice(fields.domain);
    out[20..22].copy_from_slice(&[0, 0]);
}
