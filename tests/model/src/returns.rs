// Join outsider by a freelancer who comes back: how the label that is set stands to each open session, and what the documents say becomes of that session.

use crate::desk::{House, Label, Session};

/// What a label is to a session.
#[derive(Clone, Copy, PartialEq, Eq, Debug)]
pub enum Standing {
    Same,
    /// It covers the session's, and is another.
    Covers,
    /// The session's level is higher.
    Lower,
    /// The level is covered, and a category is missing.
    Lacks,
}
use Standing::*;

pub fn standing(label: Label, session: Label) -> Standing {
    match label {
        _ if label == session => Same,
        (level, _) if level < session.0 => Lower,
        (_, c) if session.1 & !c != 0 => Lacks,
        _ => Covers,
    }
}

/// Whether Join outsider sets the label of w: who is in a room already keeps the old one.
pub fn sets(before: &House, w: u8) -> bool {
    before.users[&w].joined.is_empty()
}

/// Whether a session that was open ends where w joins with that label.
pub fn ends(before: &House, session: &Session, w: u8, label: Label) -> bool {
    sets(before, w) && session.owner == w && matches!(standing(label, session.label()), Lower | Lacks)
}
