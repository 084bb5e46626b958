// A room's leads: what a granted 0C or 0D may change, who established a room, and who led it before.

use crate::desk::{Change, House};
use crate::places::Places;
use crate::request::Request::*;

/// Whether nothing differs but that w leads the room where w did not, or the other way round: nobody joins or parts, and no session ends.
pub fn only_lead_moved(before: &House, after: &House, w: u8, room: u8) -> bool {
    let mut moved = before.clone();
    let user = moved.users.get_mut(&w).expect("granted");
    user.led = Places::from(u32::from(user.led) ^ u32::from(Places::only(room)));
    moved == *after
}

/// Who established the room, the last time that it was.
pub fn founder(changes: &[Change], room: u8) -> Option<u8> {
    changes.iter().rev().find_map(|change| match change.request {
        Establish { u, room: r } if r == room => Some(u),
        _ => None,
    })
}

/// Whether u's lead of the room has ended since it was established: who was made a lead again is asked nothing.
pub fn led_before(changes: &[Change], u: u8, room: u8) -> bool {
    let last = changes.iter().rev().find_map(|change| match change.request {
        Establish { room: r, .. } if r == room => Some(false),
        MakeLead { w, room: r, .. } if (w, r) == (u, room) => Some(false),
        EndLead { w, room: r, .. } if (w, r) == (u, room) => Some(true),
        _ => None,
    });
    last.unwrap_or(false)
}
