// Requests of document 01 as 02 adds to them: kinds, body lengths, frames.

#[derive(Clone, Copy, PartialEq, Eq, Debug)]
pub enum Request {
    Enrol { u: u8, new: u8, sort: u8, level: u8, c: u16, admin: u8 },
    Establish { u: u8, room: u8 },
    JoinStaff { u: u8, w: u8, room: u8 },
    LeaveStaff { u: u8, w: u8, room: u8 },
    JoinOutsider { u: u8, w: u8, room: u8, level: u8, c: u16 },
    LeaveOutsider { u: u8, w: u8, room: u8 },
    Add { u: u8, script: u8, v: u32, room: u8 },
    Remove { u: u8, script: u8, v: u32, room: u8 },
    Import { u: u8, script1: u8, v: u32, script2: u8, room: u8 },
    Merge { u: u8, script: u8, v: u32, room: u8 },
    Disband { u: u8, room: u8 },
    MakeLead { u: u8, w: u8, room: u8 },
    EndLead { u: u8, w: u8, room: u8 },
    OpenRoom { u: u8, s: u8, room: u8, level: u8, c: u16 },
    OpenHouse { u: u8, s: u8, level: u8, c: u16 },
    OpenRo { u: u8, s: u8, level: u8, c: u16 },
    Read { s: u8, script: u8, v: u32 },
    Update { s: u8, script: u8, v: u32 },
    Create { s: u8, script: u8 },
    Kill { u: u8, s: u8 },
    TakeBack { u: u8 },
}

use Request::*;

/// Every known kind, in order.
pub const KINDS: [u8; 21] = [
    0x01, 0x02, 0x03, 0x04, 0x05, 0x06, 0x07, 0x08, 0x09, 0x0A, 0x0B, 0x0C, 0x0D, 0x10, 0x11, 0x12,
    0x13, 0x14, 0x15, 0x16, 0x20,
];

/// The Length column; None for an unknown kind.
pub fn body_length(kind: u8) -> Option<usize> {
    Some(match kind {
        0x01 => 7,
        0x02 => 2,
        0x03 | 0x04 => 3,
        0x05 => 6,
        0x06 => 3,
        0x07 | 0x08 => 7,
        0x09 => 8,
        0x0A => 7,
        0x0B => 2,
        0x0C | 0x0D => 3,
        0x10 => 6,
        0x11 | 0x12 => 5,
        0x13 | 0x14 => 6,
        0x15 | 0x16 => 2,
        0x20 => 1,
        _ => return None,
    })
}

pub enum Frame {
    /// No bytes left.
    End,
    /// Refusal 1.
    Unknown(u8),
    /// Refusal 2.
    Cut(u8),
    /// The request and the bytes it takes.
    Whole(Request, usize),
}

/// What stands at the front of the bytes left.
pub fn frame(left: &[u8]) -> Frame {
    let Some(&kind) = left.first() else { return Frame::End };
    let Some(length) = body_length(kind) else { return Frame::Unknown(kind) };
    if left.len() - 1 < length {
        return Frame::Cut(kind);
    }
    Frame::Whole(parse(kind, &left[1..1 + length]), 1 + length)
}

fn parse(kind: u8, b: &[u8]) -> Request {
    let two = |i: usize| u16::from_be_bytes([b[i], b[i + 1]]);
    let four = |i: usize| u32::from_be_bytes([b[i], b[i + 1], b[i + 2], b[i + 3]]);
    match kind {
        0x01 => Enrol { u: b[0], new: b[1], sort: b[2], level: b[3], c: two(4), admin: b[6] },
        0x02 => Establish { u: b[0], room: b[1] },
        0x03 => JoinStaff { u: b[0], w: b[1], room: b[2] },
        0x04 => LeaveStaff { u: b[0], w: b[1], room: b[2] },
        0x05 => JoinOutsider { u: b[0], w: b[1], room: b[2], level: b[3], c: two(4) },
        0x06 => LeaveOutsider { u: b[0], w: b[1], room: b[2] },
        0x07 => Add { u: b[0], script: b[1], v: four(2), room: b[6] },
        0x08 => Remove { u: b[0], script: b[1], v: four(2), room: b[6] },
        0x09 => Import { u: b[0], script1: b[1], v: four(2), script2: b[6], room: b[7] },
        0x0A => Merge { u: b[0], script: b[1], v: four(2), room: b[6] },
        0x0B => Disband { u: b[0], room: b[1] },
        0x0C => MakeLead { u: b[0], w: b[1], room: b[2] },
        0x0D => EndLead { u: b[0], w: b[1], room: b[2] },
        0x10 => OpenRoom { u: b[0], s: b[1], room: b[2], level: b[3], c: two(4) },
        0x11 => OpenHouse { u: b[0], s: b[1], level: b[2], c: two(3) },
        0x12 => OpenRo { u: b[0], s: b[1], level: b[2], c: two(3) },
        0x13 => Read { s: b[0], script: b[1], v: four(2) },
        0x14 => Update { s: b[0], script: b[1], v: four(2) },
        0x15 => Create { s: b[0], script: b[1] },
        0x16 => Kill { u: b[0], s: b[1] },
        0x20 => TakeBack { u: b[0] },
        _ => unreachable!("body_length knows the kind"),
    }
}

impl Request {
    pub fn kind(&self) -> u8 {
        match self {
            Enrol { .. } => 0x01,
            Establish { .. } => 0x02,
            JoinStaff { .. } => 0x03,
            LeaveStaff { .. } => 0x04,
            JoinOutsider { .. } => 0x05,
            LeaveOutsider { .. } => 0x06,
            Add { .. } => 0x07,
            Remove { .. } => 0x08,
            Import { .. } => 0x09,
            Merge { .. } => 0x0A,
            Disband { .. } => 0x0B,
            MakeLead { .. } => 0x0C,
            EndLead { .. } => 0x0D,
            OpenRoom { .. } => 0x10,
            OpenHouse { .. } => 0x11,
            OpenRo { .. } => 0x12,
            Read { .. } => 0x13,
            Update { .. } => 0x14,
            Create { .. } => 0x15,
            Kill { .. } => 0x16,
            TakeBack { .. } => 0x20,
        }
    }

    /// The request as bytes, kind first.
    pub fn bytes(&self) -> Vec<u8> {
        let mut out = vec![self.kind()];
        match *self {
            Enrol { u, new, sort, level, c, admin } => {
                out.extend([u, new, sort, level]);
                out.extend(c.to_be_bytes());
                out.push(admin);
            }
            Establish { u, room } | Disband { u, room } => out.extend([u, room]),
            JoinStaff { u, w, room }
            | LeaveStaff { u, w, room }
            | LeaveOutsider { u, w, room }
            | MakeLead { u, w, room }
            | EndLead { u, w, room } => out.extend([u, w, room]),
            JoinOutsider { u, w: second, room, level, c }
            | OpenRoom { u, s: second, room, level, c } => {
                out.extend([u, second, room, level]);
                out.extend(c.to_be_bytes());
            }
            Add { u, script, v, room } | Remove { u, script, v, room } | Merge { u, script, v, room } => {
                out.extend([u, script]);
                out.extend(v.to_be_bytes());
                out.push(room);
            }
            Import { u, script1, v, script2, room } => {
                out.extend([u, script1]);
                out.extend(v.to_be_bytes());
                out.extend([script2, room]);
            }
            OpenHouse { u, s, level, c } | OpenRo { u, s, level, c } => {
                out.extend([u, s, level]);
                out.extend(c.to_be_bytes());
            }
            Read { s, script, v } | Update { s, script, v } => {
                out.extend([s, script]);
                out.extend(v.to_be_bytes());
            }
            Create { s, script } => out.extend([s, script]),
            Kill { u, s } => out.extend([u, s]),
            TakeBack { u } => out.push(u),
        }
        out
    }
}
