//! A checker tuned by hand: it finds the kind or the refusal of a frame, and nothing else.

const MC_TEST: u64 = 0x0115_4E00_0001;
const MC_CONTROL: u64 = 0x0115_4E00_0002;

/// The kind of the frame or the number of its refusal, as `mrp_read` answers.
#[inline(never)]
pub fn read_kind(octets: &[u8]) -> u32 {
    let Some(front) = octets.first_chunk::<50>() else {
        return 1;
    };
    if octets.len() > 60 {
        return 1;
    }
    let destination = long(front, 0) >> 16;
    if destination != MC_TEST && destination != MC_CONTROL {
        return 2;
    }
    // Type, version, and type and length of the first element.
    let head = long(front, 10);
    if head >> 32 & 0xFFFF != 0x88E3 {
        return 3;
    }
    if head >> 16 & 0xFFFF != 1 {
        return 4;
    }
    let is_test = destination == MC_TEST;
    match head & 0xFFFF {
        0x0212 => rest::<0x102, 58>(octets, is_test, test_fits(front)),
        0x030A => rest::<0x103, 50>(octets, !is_test, priority_fits(front)),
        0x040C => rest::<0x104, 52>(octets, is_test, link_fits(front)),
        0x050C => rest::<0x105, 52>(octets, is_test, link_fits(front)),
        _ => 5,
    }
}

#[inline(always)]
fn rest<const KIND: u32, const TOTAL: usize>(octets: &[u8], right_destination: bool, fits: bool) -> u32 {
    let Some((frame, padding)) = octets.split_first_chunk::<TOTAL>() else {
        return 6;
    };
    if !right_destination {
        return 7;
    }
    if !fits {
        return 8;
    }
    if frame[TOTAL - 22] != 1 || frame[TOTAL - 21] != 18 {
        return 9;
    }
    if frame[TOTAL - 2] | frame[TOTAL - 1] != 0 {
        return 10;
    }
    if padding.iter().fold(0, |all, octet| all | octet) != 0 {
        return 11;
    }
    KIND
}

#[inline(always)]
fn priority_fits(front: &[u8; 50]) -> bool {
    (front[18] & 0x0F) | front[19] == 0
}

/// Port role and ring state are the first four octets from 26 on.
#[inline(always)]
fn test_fits(front: &[u8; 50]) -> bool {
    priority_fits(front) && long(front, 26) & 0xFFFE_FFFE_0000_0000 == 0
}

/// Port role, interval and blocked are the first six octets from 24 on.
#[inline(always)]
fn link_fits(front: &[u8; 50]) -> bool {
    long(front, 24) & 0xFFFE_0000_FFFE_0000 == 0
}

#[inline(always)]
fn long(front: &[u8; 50], at: usize) -> u64 {
    let mut octets = [0; 8];
    octets.copy_from_slice(&front[at..at + 8]);
    u64::from_be_bytes(octets)
}
