// The batch of document 01, and its cases as text: a case a line in, a line of what the batch left out.

use crate::desk::Desk;
use crate::request::{frame, Frame};
use crate::rules::Checked;
use std::io::{self, Write};

/// The longest answer, for which there must be room before each request.
const LONGEST: u64 = 5;
const MOST_ROOM: usize = 4096;
/// What the answer buffer holds before, so that a byte written outside shows.
const FILL: u8 = 0xEE;

pub const NO_BYTES: u8 = 0;
pub const UNKNOWN: u8 = 1;
pub const CUT: u8 = 2;
pub const NO_ROOM: u8 = 13;

/// What a batch returns.
pub struct Done {
    pub stop: u8,
    pub used: usize,
    pub written: usize,
}

/// Answers the requests one after another, from the place onward, to the first of the four stops.
pub fn batch(desk: &mut Checked, requests: &[u8], answers: &mut [u8], place: u64) -> Result<Done, String> {
    let (mut used, mut written) = (0, 0);
    let stop = loop {
        let next = frame(&requests[used..]);
        if let Frame::End = next {
            break NO_BYTES;
        }
        // A place beyond the buffer has no room either.
        let room = (answers.len() as u64).saturating_sub(place).saturating_sub(written as u64);
        if room < LONGEST {
            break NO_ROOM;
        }
        let (answer, length, stop) = match next {
            Frame::End => unreachable!("asked before the room"),
            Frame::Unknown(_) => (vec![0xC1], 0, Some(UNKNOWN)),
            Frame::Cut(_) => (vec![0xC2], 0, Some(CUT)),
            Frame::Whole(request, length) => (desk.answer(&request)?.bytes(), length, None),
        };
        let from = place as usize + written;
        answers[from..from + answer.len()].copy_from_slice(&answer);
        written += answer.len();
        used += length;
        if let Some(stop) = stop {
            break stop;
        }
    };
    Ok(Done { stop, used, written })
}

/// A line of the input.
pub struct Case {
    pub name: String,
    /// The last number and the rule's number of a desk opened anew; None where the desk goes on.
    pub opening: Option<(u32, u32)>,
    pub room: usize,
    pub place: u64,
    pub requests: Vec<u8>,
}

impl Case {
    pub fn read(line: &str) -> Result<Case, String> {
        let words: Vec<&str> = line.split(' ').collect();
        let (name, last, room, place, hex) = match words[..] {
            [name, last, room, place] => (name, last, room, place, ""),
            [name, last, room, place, hex] => (name, last, room, place, hex),
            _ => return Err("not four or five words".into()),
        };
        if name.is_empty() {
            return Err("no name".into());
        }
        let opening = if last == "+" { None } else { Some(opening(last)?) };
        let room = room.parse().ok().filter(|room| *room <= MOST_ROOM).ok_or("ROOM is not 0..4096")?;
        let place = place.parse().map_err(|_| "PLACE is no number")?;
        Ok(Case { name: name.into(), opening, room, place, requests: bytes(hex)? })
    }

    /// Plays the case on the desk that the case before left, and leaves its own there.
    pub fn play(&self, desk: &mut Option<Checked>) -> Result<(Done, Vec<u8>), String> {
        if let Some((last, rule)) = self.opening {
            if let Some(earlier) = desk.replace(Checked::of(Desk::open_under(last, rule))) {
                earlier.replay_all()?;
            }
        }
        let desk = desk.as_mut().ok_or("no desk to go on with")?;
        let mut answers = vec![FILL; self.room];
        let done = batch(desk, &self.requests, &mut answers, self.place)?;
        Ok((done, answers))
    }
}

/// `N` is rule 1, `N/R` the rule with that number.
fn opening(word: &str) -> Result<(u32, u32), String> {
    let (last, rule) = word.split_once('/').unwrap_or((word, "1"));
    Ok((last.parse().map_err(|_| "LAST is no number")?, rule.parse().map_err(|_| "the rule in LAST is no number")?))
}

pub fn bytes(hex: &str) -> Result<Vec<u8>, String> {
    let digits: Option<Vec<u8>> =
        hex.chars().filter(|c| *c != '_').map(|c| c.to_digit(16).map(|d| d as u8)).collect();
    let digits = digits.ok_or("REQUESTS has a letter that is no hex digit")?;
    if digits.len() % 2 == 1 {
        return Err("REQUESTS has half a byte".into());
    }
    Ok(digits.chunks(2).map(|pair| 16 * pair[0] + pair[1]).collect())
}

pub fn hex(bytes: &[u8]) -> String {
    bytes.iter().map(|byte| format!("{byte:02x}")).collect()
}

/// Prints a line for each case; a broken rule or a line that is no case ends it.
pub fn lines(text: &str, out: &mut impl Write) -> io::Result<()> {
    let mut desk = None;
    for (at, line) in text.lines().enumerate() {
        if line.is_empty() || line.starts_with('#') {
            continue;
        }
        let wrong = |what: String| io::Error::other(format!("line {}: {what}", at + 1));
        let case = Case::read(line).map_err(wrong)?;
        let (done, answers) = case.play(&mut desk).map_err(wrong)?;
        let last = desk.as_ref().map_or(0, |desk| desk.desk.last);
        let answers = if answers.is_empty() { "-".into() } else { hex(&answers) };
        writeln!(out, "{} {} {} {} {last} {answers}", case.name, done.stop, done.used, done.written)?;
    }
    desk.map_or(Ok(()), |desk| desk.replay_all()).map_err(io::Error::other)
}
