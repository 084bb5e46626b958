// The reason of an answer: the refusal's number, the record that decided it and the two values that were compared.

use std::fmt;

/// The record that decided.
#[derive(Clone, Copy, PartialEq, Eq, Debug)]
pub enum Record {
    None,
    User(u8),
    Room(u8),
    Script(u8),
    Session(u8),
    Draft(u32),
}

impl Record {
    /// The kind under which the image writes such a record.
    pub fn kind(&self) -> u8 {
        match self {
            Record::None => 0,
            Record::User(_) => 0x41,
            Record::Room(_) => 0x42,
            Record::Script(_) => 0x43,
            Record::Session(_) => 0x44,
            Record::Draft(_) => 0x45,
        }
    }

    pub fn id(&self) -> u32 {
        match *self {
            Record::None => 0,
            Record::User(id) | Record::Room(id) | Record::Script(id) | Record::Session(id) => id.into(),
            Record::Draft(v) => v,
        }
    }
}

/// A condition that doesn't hold: its words, the record, what that holds, and what was wanted.
#[derive(Clone, Copy, PartialEq, Eq, Debug)]
pub struct Failed {
    pub clause: &'static str,
    pub record: Record,
    pub held: u32,
    pub wanted: u32,
}

/// A grant's has number 0.
#[derive(Clone, Copy, PartialEq, Eq, Debug)]
pub struct Reason {
    number: u8,
    record: Record,
    held: u32,
    wanted: u32,
}

impl Reason {
    /// The number and zeros: of a grant, of an unknown kind, of a cut body.
    pub fn bare(number: u8) -> Reason {
        Reason { number, record: Record::None, held: 0, wanted: 0 }
    }

    pub fn refusal(number: u8, failed: &Failed) -> Reason {
        Reason { number, record: failed.record, held: failed.held, wanted: failed.wanted }
    }
}

/// The five parts of a line with `--why`.
impl fmt::Display for Reason {
    fn fmt(&self, out: &mut fmt::Formatter) -> fmt::Result {
        let Reason { number, record, held, wanted } = self;
        write!(out, "{number} {:02X} {} {held} {wanted}", record.kind(), record.id())
    }
}
