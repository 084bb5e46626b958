// The conditions of the reasons' table: for each the refusal, the record, the values and the kinds of request that ask it.

use crate::desk::Rule;
use crate::reasons::Failed;

/// The wanted value of a reason, where the condition alone fixes it.
#[derive(Clone, Copy)]
pub enum Wanted {
    Is(u32),
    /// The value held, as at 5.
    Held,
    /// Another for each request.
    Open,
}
use Wanted::*;

pub struct Condition {
    pub n: u8,
    pub clause: &'static str,
    /// The kind of the record that decides.
    pub record: u8,
    pub wanted: Wanted,
    pub kinds: &'static [u8],
    /// The rule under which it is asked, where it is not asked under both.
    pub rule: Option<Rule>,
}

impl Condition {
    pub fn asked_under(&self, rule: Rule) -> bool {
        self.rule.map_or(true, |own| own == rule)
    }

    /// Whether a request of the kind, refused with n, was refused by this condition with its reason.
    pub fn met(&self, kind: u8, n: u8, failed: &Failed) -> bool {
        let wanted = match self.wanted {
            Is(value) => failed.wanted == value,
            Held => failed.wanted == failed.held && failed.held == failed.record.id(),
            Open => true,
        };
        wanted && (self.n, self.clause, self.record) == (n, failed.clause, failed.record.kind()) && self.kinds.contains(&kind)
    }
}

const fn of(n: u8, clause: &'static str, record: u8, wanted: Wanted, kinds: &'static [u8]) -> Condition {
    Condition { n, clause, record, wanted, kinds, rule: None }
}

/// Of Import, under one rule alone.
const fn import(rule: Rule, n: u8, clause: &'static str) -> Condition {
    Condition { n, clause, record: 0x43, wanted: Open, kinds: &[9], rule: Some(rule) }
}

const USERS: &[u8] = &[1, 2, 3, 4, 5, 6, 7, 8, 9, 0x0A, 0x0B, 0x0C, 0x0D, 0x10, 0x11, 0x12, 0x16, 0x20];
const PAIRS: &[u8] = &[3, 4, 5, 6, 0x0C, 0x0D];
const ROOMS: &[u8] = &[3, 4, 5, 6, 7, 8, 9, 0x0A, 0x0B, 0x0C, 0x0D, 0x10];
/// Establish too, whose room is not there yet.
const ROOM_NUMBERS: &[u8] = &[2, 3, 4, 5, 6, 7, 8, 9, 0x0A, 0x0B, 0x0C, 0x0D, 0x10];
const DRAFTS: &[u8] = &[7, 8, 9, 0x0A, 0x13, 0x14];
const ISSUING: &[u8] = &[9, 0x14, 0x15];

pub const CONDITIONS: [Condition; 67] = [
    of(3, "u over 63", 0, Is(63), USERS),
    of(3, "new over 63", 0, Is(63), &[1]),
    of(3, "w over 63", 0, Is(63), PAIRS),
    of(3, "script over 63", 0, Is(63), &[7, 8, 9, 0x0A, 0x13, 0x14, 0x15]),
    of(3, "script2 over 63", 0, Is(63), &[9]),
    of(3, "session over 63", 0, Is(63), &[0x10, 0x11, 0x12, 0x13, 0x14, 0x15, 0x16]),
    of(3, "room over 16", 0, Is(16), ROOM_NUMBERS),
    of(3, "room 0", 0, Is(1), ROOM_NUMBERS),
    of(3, "level over 7", 0, Is(7), &[1, 5, 0x10, 0x11, 0x12]),
    of(3, "sort not 0 or 2", 0, Is(0), &[1]),
    of(3, "admin not 0 or 1", 0, Is(1), &[1]),
    of(3, "sort 2 with level", 0, Is(0), &[1]),
    of(3, "sort 2 with categories", 0, Is(0), &[1]),
    of(3, "sort 2 with admin", 0, Is(0), &[1]),
    of(4, "no such u", 0, Is(0), USERS),
    of(4, "no such w", 0, Is(0), PAIRS),
    of(4, "no such room", 0, Is(0), ROOMS),
    of(4, "no such script", 0, Is(0), DRAFTS),
    of(4, "no such script2", 0, Is(0), &[9]),
    of(4, "no such session", 0, Is(0), &[0x13, 0x14, 0x15, 0x16]),
    of(4, "no such draft", 0, Is(0), DRAFTS),
    of(4, "draft of another script", 0, Is(0), DRAFTS),
    of(5, "user exists", 0x41, Held, &[1]),
    of(5, "room exists", 0x42, Held, &[2]),
    of(5, "session exists", 0x44, Held, &[0x10, 0x11, 0x12]),
    of(5, "script exists", 0x43, Held, &[0x15]),
    of(6, "empty desk: u not new", 0, Open, &[1]),
    of(6, "empty desk: not staff", 0, Is(0), &[1]),
    of(6, "empty desk: not administrator", 0, Is(1), &[1]),
    of(6, "no house administrator", 0x41, Is(1), &[1, 2, 0x20]),
    of(6, "u doesn't lead the room", 0x41, Open, &[3, 4, 5, 6, 7, 8, 9, 0x0A, 0x0B, 0x0C, 0x0D]),
    of(6, "neither owns; RO has no room", 0x44, Open, &[0x16]),
    of(6, "neither owns; house has no lead", 0x44, Open, &[0x16]),
    of(6, "neither owns nor leads its room", 0x44, Open, &[0x16]),
    of(7, "w not staff", 0x41, Is(0), &[3, 4, 0x0C, 0x0D]),
    of(7, "w staff", 0x41, Is(2), &[5]),
    of(7, "w no freelancer", 0x41, Is(1), &[6]),
    of(7, "u not staff", 0x41, Is(0), &[0x11]),
    of(7, "RO session", 0x44, Is(1), &[0x14, 0x15]),
    of(8, "already in", 0x41, Open, &[3, 5]),
    of(8, "not in", 0x41, Open, &[4, 6]),
    of(8, "house not among the places", 0x45, Is(1), &[7]),
    of(8, "room among the places", 0x45, Open, &[7]),
    of(8, "room not among the places", 0x45, Open, &[8, 0x0A]),
    of(8, "origin not house", 0x43, Is(0), &[0x0A]),
    of(8, "origin of script1 not the room", 0x43, Open, &[9]),
    of(8, "origin of script2 not the house", 0x43, Is(0), &[9]),
    of(8, "u not in the room", 0x41, Open, &[0x10]),
    of(8, "RO: no place shared", 0x45, Open, &[0x13]),
    of(8, "RO of staff: no place shared", 0x45, Open, &[0x13]),
    of(8, "session's place not among them", 0x45, Open, &[0x13, 0x14]),
    of(8, "already leads", 0x41, Open, &[0x0C]),
    of(8, "w doesn't lead the room", 0x41, Open, &[0x0D]),
    of(8, "the only lead", 0x42, Is(2), &[0x0D]),
    of(9, "level not covered", 0x41, Open, &[0x10, 0x11, 0x12]),
    of(9, "level not covered", 0x44, Open, &[0x13]),
    of(9, "levels differ", 0x44, Open, &[0x14]),
    import(Rule::One, 9, "levels differ"),
    import(Rule::Two, 9, "level not covered"),
    of(16, "categories not covered", 0x41, Open, &[0x10, 0x11, 0x12]),
    of(16, "categories not covered", 0x44, Open, &[0x13]),
    of(16, "categories differ", 0x44, Open, &[0x14]),
    import(Rule::One, 16, "categories differ"),
    import(Rule::Two, 16, "categories not covered"),
    of(10, "256 live drafts", 0, Is(256), ISSUING),
    of(11, "last number issued", 0, Is(4_294_967_295), ISSUING),
    of(12, "kept count 0", 0, Is(0), &[0x20]),
];
