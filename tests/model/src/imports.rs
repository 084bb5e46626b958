// Import under both rules: the ways in which the house script's label can stand to the room script's, and what the documents answer to each.

use crate::desk::{Label, Rule};
use std::cmp::Ordering::{self, Equal, Greater, Less};

/// The house script's categories beside the room script's.
#[derive(Clone, Copy, PartialEq, Eq, PartialOrd, Ord, Debug)]
pub enum Categories {
    Same,
    More,
    Fewer,
    /// Each has one that the other lacks.
    Other,
}
use Categories::*;

/// How the house script's level and categories stand to the room script's.
pub type Standing = (Ordering, Categories);

pub const STANDINGS: [Standing; 12] = [
    (Equal, Same), (Equal, More), (Equal, Fewer), (Equal, Other),
    (Greater, Same), (Greater, More), (Greater, Fewer), (Greater, Other),
    (Less, Same), (Less, More), (Less, Fewer), (Less, Other),
];

pub fn standing(house: Label, room: Label) -> Standing {
    let categories = match (house.1 & !room.1 != 0, room.1 & !house.1 != 0) {
        (false, false) => Same,
        (true, false) => More,
        (false, true) => Fewer,
        (true, true) => Other,
    };
    (house.0.cmp(&room.0), categories)
}

/// The answer byte to an Import that no refusal before 9 applies to; `full` with 256 live drafts.
pub fn answer(rule: Rule, standing: Standing, full: bool) -> u8 {
    match (rule, standing) {
        (Rule::One, (Less | Greater, _)) | (Rule::Two, (Less, _)) => 0xC9,
        (Rule::One, (_, More | Fewer | Other)) | (Rule::Two, (_, Fewer | Other)) => 0xD0,
        _ if full => 0xCA,
        _ => 0x81,
    }
}

pub fn words((level, categories): Standing) -> String {
    let level = match level {
        Equal => "equal",
        Greater => "higher",
        Less => "lower",
    };
    format!("level {level}, {} categories", format!("{categories:?}").to_lowercase())
}
