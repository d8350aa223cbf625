//! The calls of include/mrp.h, behind slices.

use crate::plain::{Change, Content, Fields, Link, Test};

type LinkWriter = unsafe extern "C" fn(
    *const u8,
    usize,
    *const u8,
    usize,
    u16,
    u16,
    u16,
    u16,
    *const u8,
    usize,
    *mut u8,
    usize,
) -> u32;

extern "C" {
    fn mrp_read(octets: *const u8, length: usize) -> u32;
    fn mrp_field(octets: *const u8, length: usize, field: u32) -> u64;
    fn mrp_write_test(
        source: *const u8,
        source_length: usize,
        priority: u16,
        sender: *const u8,
        sender_length: usize,
        port_role: u16,
        ring_state: u16,
        transitions: u16,
        time_stamp: u32,
        sequence: u16,
        domain: *const u8,
        domain_length: usize,
        out: *mut u8,
        out_length: usize,
    ) -> u32;
    fn mrp_write_topology_change(
        source: *const u8,
        source_length: usize,
        priority: u16,
        sender: *const u8,
        sender_length: usize,
        interval: u16,
        sequence: u16,
        domain: *const u8,
        domain_length: usize,
        out: *mut u8,
        out_length: usize,
    ) -> u32;
    fn mrp_write_link_down(
        source: *const u8,
        source_length: usize,
        sender: *const u8,
        sender_length: usize,
        port_role: u16,
        interval: u16,
        blocked: u16,
        sequence: u16,
        domain: *const u8,
        domain_length: usize,
        out: *mut u8,
        out_length: usize,
    ) -> u32;
    fn mrp_write_link_up(
        source: *const u8,
        source_length: usize,
        sender: *const u8,
        sender_length: usize,
        port_role: u16,
        interval: u16,
        blocked: u16,
        sequence: u16,
        domain: *const u8,
        domain_length: usize,
        out: *mut u8,
        out_length: usize,
    ) -> u32;
}

pub fn read(octets: &[u8]) -> u32 {
    // SAFETY: the pointer and the length are those of one slice, which outlives the call.
    unsafe { mrp_read(octets.as_ptr(), octets.len()) }
}

pub fn field(octets: &[u8], number: u32) -> u64 {
    // SAFETY: as in `read`.
    unsafe { mrp_field(octets.as_ptr(), octets.len(), number) }
}

/// Writes the frame with the writer of its kind.
pub fn write(fields: &Fields, out: &mut [u8]) -> u32 {
    match fields.content {
        Content::Test(test) => write_test(fields, test, out),
        Content::TopologyChange(change) => write_topology_change(fields, change, out),
        Content::LinkDown(link) => write_link(mrp_write_link_down, fields, link, out),
        Content::LinkUp(link) => write_link(mrp_write_link_up, fields, link, out),
    }
}

fn write_test(fields: &Fields, test: Test, out: &mut [u8]) -> u32 {
    // SAFETY: each pointer and its length are those of one slice that outlives the call; `out` overlaps no other.
    unsafe {
        mrp_write_test(
            fields.source.as_ptr(),
            fields.source.len(),
            test.priority,
            fields.sender.as_ptr(),
            fields.sender.len(),
            test.port_role,
            test.ring_state,
            test.transitions,
            test.time_stamp,
            fields.sequence,
            fields.domain.as_ptr(),
            fields.domain.len(),
            out.as_mut_ptr(),
            out.len(),
        )
    }
}

fn write_topology_change(fields: &Fields, change: Change, out: &mut [u8]) -> u32 {
    // SAFETY: as in `write_test`.
    unsafe {
        mrp_write_topology_change(
            fields.source.as_ptr(),
            fields.source.len(),
            change.priority,
            fields.sender.as_ptr(),
            fields.sender.len(),
            change.interval,
            fields.sequence,
            fields.domain.as_ptr(),
            fields.domain.len(),
            out.as_mut_ptr(),
            out.len(),
        )
    }
}

fn write_link(writer: LinkWriter, fields: &Fields, link: Link, out: &mut [u8]) -> u32 {
    // SAFETY: as in `write_test`; both link writers are declared with this type.
    unsafe {
        writer(
            fields.source.as_ptr(),
            fields.source.len(),
            fields.sender.as_ptr(),
            fields.sender.len(),
            link.port_role,
            link.interval,
            link.blocked,
            fields.sequence,
            fields.domain.as_ptr(),
            fields.domain.len(),
            out.as_mut_ptr(),
            out.len(),
        )
    }
}
