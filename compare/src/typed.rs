//! A reader in ordinary Rust with the types of the proved one: a walk over elements, and a chain of checks.

use crate::plain::NO_VALUE;

const MC_TEST: [u8; 6] = [0x01, 0x15, 0x4E, 0x00, 0x00, 0x01];
const MC_CONTROL: [u8; 6] = [0x01, 0x15, 0x4E, 0x00, 0x00, 0x02];

#[derive(Clone, Copy, Debug)]
#[repr(u32)]
pub enum Refusal {
    FrameSize = 1,
    UnknownDestination,
    EtherType,
    Version,
    FirstElement,
    TooShort,
    WrongDestination,
    FieldValue,
    NoCommon,
    NoEnd,
    Padding,
}

/// Some octets of the frame, with their place in it.
#[derive(Clone, Copy, Debug)]
pub struct Part<'a> {
    pub at: usize,
    pub octets: &'a [u8],
}

#[derive(Clone, Copy, Debug)]
pub struct LinkElement<'a> {
    pub sender: Part<'a>,
    pub port_role: u16,
    pub interval: u16,
    pub blocked: u16,
}

#[derive(Clone, Copy, Debug)]
pub enum Element<'a> {
    Test { priority: u16, sender: Part<'a>, port_role: u16, ring_state: u16, transitions: u16, time_stamp: u32 },
    TopologyChange { priority: u16, sender: Part<'a>, interval: u16 },
    LinkDown(LinkElement<'a>),
    LinkUp(LinkElement<'a>),
    Common { sequence: u16, domain: Part<'a> },
    End,
}

#[derive(Clone, Copy, Debug)]
pub enum PortRole {
    Primary,
    Secondary,
}

#[derive(Clone, Copy, Debug)]
pub enum RingState {
    Open,
    Closed,
}

#[derive(Clone, Copy, Debug)]
pub struct Link {
    pub port_role: PortRole,
    pub interval: u16,
    pub blocked: bool,
}

#[derive(Clone, Copy, Debug)]
pub enum Content {
    Test { priority: u16, port_role: PortRole, ring_state: RingState, transitions: u16, time_stamp: u32 },
    TopologyChange { priority: u16, interval: u16 },
    LinkDown(Link),
    LinkUp(Link),
}

#[derive(Clone, Copy, Debug)]
pub struct Frame<'a> {
    pub source: Part<'a>,
    pub sender: Part<'a>,
    pub content: Content,
    pub sequence: u16,
    pub domain: Part<'a>,
}

/// A cursor over the elements of a frame.
pub struct Elements<'a> {
    octets: &'a [u8],
    at: usize,
}

impl<'a> Elements<'a> {
    /// The element at the cursor, which then stands behind it; none where there is no known type and length.
    pub fn next_element(&mut self) -> Option<Element<'a>> {
        let start = self.at;
        let kind = *self.octets.get(start)?;
        let length = usize::from(*self.octets.get(start + 1)?);
        let content = self.octets.get(start + 2..start + 2 + length)?;
        let part = |from: usize, to: usize| Part { at: start + 2 + from, octets: &content[from..to] };
        let element = match (kind, length) {
            (0, 0) => Element::End,
            (1, 18) => Element::Common { sequence: word(content, 0), domain: part(2, 18) },
            (2, 18) => Element::Test {
                priority: word(content, 0),
                sender: part(2, 8),
                port_role: word(content, 8),
                ring_state: word(content, 10),
                transitions: word(content, 12),
                time_stamp: u32::from(word(content, 14)) << 16 | u32::from(word(content, 16)),
            },
            (3, 10) => {
                Element::TopologyChange { priority: word(content, 0), sender: part(2, 8), interval: word(content, 8) }
            }
            (4, 12) => Element::LinkDown(link_element(part(0, 6), content)),
            (5, 12) => Element::LinkUp(link_element(part(0, 6), content)),
            _ => return None,
        };
        self.at = start + 2 + length;
        Some(element)
    }
}

impl<'a> Element<'a> {
    /// The octets that a frame with this first element has at least, its destination and its sender.
    fn row(&self) -> Option<(usize, [u8; 6], Part<'a>)> {
        match self {
            Element::Test { sender, .. } => Some((58, MC_TEST, *sender)),
            Element::TopologyChange { sender, .. } => Some((50, MC_CONTROL, *sender)),
            Element::LinkDown(link) | Element::LinkUp(link) => Some((52, MC_TEST, link.sender)),
            Element::Common { .. } | Element::End => None,
        }
    }
}

impl PortRole {
    fn of(number: u16) -> Option<PortRole> {
        match number {
            0 => Some(PortRole::Primary),
            1 => Some(PortRole::Secondary),
            _ => None,
        }
    }
}

impl RingState {
    fn of(number: u16) -> Option<RingState> {
        match number {
            0 => Some(RingState::Open),
            1 => Some(RingState::Closed),
            _ => None,
        }
    }
}

impl Link {
    fn of(element: &LinkElement) -> Option<Link> {
        let port_role = PortRole::of(element.port_role)?;
        let blocked = match element.blocked {
            0 => false,
            1 => true,
            _ => return None,
        };
        Some(Link { port_role, interval: element.interval, blocked })
    }
}

impl Content {
    fn of(element: &Element) -> Option<Content> {
        match *element {
            Element::Test { priority, port_role, ring_state, transitions, time_stamp, .. } => Some(Content::Test {
                priority: priority_of(priority)?,
                port_role: PortRole::of(port_role)?,
                ring_state: RingState::of(ring_state)?,
                transitions,
                time_stamp,
            }),
            Element::TopologyChange { priority, interval, .. } => {
                Some(Content::TopologyChange { priority: priority_of(priority)?, interval })
            }
            Element::LinkDown(ref link) => Some(Content::LinkDown(Link::of(link)?)),
            Element::LinkUp(ref link) => Some(Content::LinkUp(Link::of(link)?)),
            Element::Common { .. } | Element::End => None,
        }
    }
}

/// The frame in these octets: the checks in the order of their numbers.
pub fn read(octets: &[u8]) -> Result<Frame<'_>, Refusal> {
    if !(50..=60).contains(&octets.len()) {
        return Err(Refusal::FrameSize);
    };
    let destination = &octets[0..6];
    if destination != MC_TEST && destination != MC_CONTROL {
        return Err(Refusal::UnknownDestination);
    };
    if word(octets, 12) != 0x88E3 {
        return Err(Refusal::EtherType);
    };
    if word(octets, 14) != 1 {
        return Err(Refusal::Version);
    };
    let mut elements = Elements { octets, at: 16 };
    let Some(first) = elements.next_element() else {
        return Err(Refusal::FirstElement);
    };
    let Some((total, required, sender)) = first.row() else {
        return Err(Refusal::FirstElement);
    };
    if octets.len() < total {
        return Err(Refusal::TooShort);
    }
    if destination != required {
        return Err(Refusal::WrongDestination);
    }
    let Some(content) = Content::of(&first) else {
        return Err(Refusal::FieldValue);
    };
    let (sequence, domain) = rest(&mut elements)?;
    Ok(Frame { source: Part { at: 6, octets: &octets[6..12] }, sender, content, sequence, domain })
}

fn rest<'a>(elements: &mut Elements<'a>) -> Result<(u16, Part<'a>), Refusal> {
    let Some(Element::Common { sequence, domain }) = elements.next_element() else {
        return Err(Refusal::NoCommon);
    };
    let Some(Element::End) = elements.next_element() else {
        return Err(Refusal::NoEnd);
    };
    if elements.octets[elements.at..].iter().any(|&octet| octet != 0) {
        return Err(Refusal::Padding);
    }
    Ok((sequence, domain))
}

/// The sequence number of the frame, or 2^32 and the number of its refusal, as `mrp_field` answers.
#[inline(never)]
pub fn read_sequence(octets: &[u8]) -> u64 {
    match read(octets) {
        Ok(frame) => u64::from(frame.sequence),
        Err(refusal) => NO_VALUE + refusal as u64,
    }
}

fn link_element<'a>(sender: Part<'a>, content: &[u8]) -> LinkElement<'a> {
    LinkElement { sender, port_role: word(content, 6), interval: word(content, 8), blocked: word(content, 10) }
}

fn priority_of(number: u16) -> Option<u16> {
    number.is_multiple_of(0x1000).then_some(number)
}

fn word(octets: &[u8], at: usize) -> u16 {
    u16::from_be_bytes([octets[at], octets[at + 1]])
}
