// The generator of cases for the batch: generated runs cut into pieces, with rooms and places at and around their bounds.

use crate::batch::{hex, Case, Done, CUT, UNKNOWN};
use crate::desk::{Desk, STAFF};
use crate::generate::{going_on, unknown_kind, Chance};
use crate::request::Request::*;
use crate::request::{frame, Frame};
use crate::rules::Checked;

/// The program compared with reads at most 65,536 bytes.
const MOST_TEXT: usize = 60_000;

struct Writer {
    chance: Chance,
    /// Percent of unknown kinds after which a desk is opened anew.
    anew: usize,
    desk: Option<Checked>,
    text: String,
    cases: usize,
}

/// Cases from runs of `count` requests in all; fewer where the text grows too long.
pub fn batches(seed: u64, count: usize) -> Result<String, String> {
    let mut chance = Chance::new(seed);
    // A third of the files are one run, since a full desk takes many requests.
    let single = chance.below(3) == 0;
    let anew = if single { 0 } else { 25 };
    let mut writer = Writer { chance, anew, desk: None, text: format!("# seed {seed}\n"), cases: 0 };
    // First of all each opening once with Imports that show its rule.
    for rule in [1, 2, writer.no_rule()] {
        writer.rule_shows(rule)?;
    }
    let mut left = count;
    while left > 0 {
        let most = if single { left } else { left.min(20 + writer.chance.below(300)) };
        let opening = (writer.last(), writer.rule());
        let run = going_on(writer.chance.next(), most, Desk::open_under(opening.0, opening.1), false);
        if !writer.cut(run, opening)? {
            break;
        }
        // A run that ends in an unknown kind or a cut body has one that no desk counts.
        let answered = writer.desk.as_ref().map_or(0, |desk| desk.requests);
        left -= left.min(answered + 1);
    }
    Ok(writer.text)
}

impl Writer {
    fn last(&mut self) -> u32 {
        match self.chance.below(10) {
            0..=4 => 0,
            5..=6 => self.chance.next() as u32,
            _ => u32::MAX - self.chance.below(6) as u32,
        }
    }

    /// The number of a rule; some are no rule's, and the desk is then the empty one.
    fn rule(&mut self) -> u32 {
        match self.chance.below(100) {
            0..=42 => 1,
            43..=92 => 2,
            _ => self.no_rule(),
        }
    }

    fn no_rule(&mut self) -> u32 {
        [0, 3, 7, u32::MAX][self.chance.below(4)]
    }

    /// A case on a desk opened under that number: a draft of a room goes into house scripts that are equal, higher, have more categories, fewer, and are lower.
    fn rule_shows(&mut self, rule: u32) -> Result<(), String> {
        let last = self.chance.below(1000) as u32;
        let v = Desk::open_under(last, rule).last + 1;
        let mut requests = vec![
            Enrol { u: 0, new: 0, sort: STAFF, level: 7, c: 0xFFFF, admin: 1 },
            Establish { u: 0, room: 1 },
            JoinStaff { u: 0, w: 0, room: 1 },
            OpenRoom { u: 0, s: 0, room: 1, level: 3, c: 0x0003 },
            Create { s: 0, script: 0 },
        ];
        let labels = [(3, 0x0003), (4, 0x0003), (3, 0x0007), (4, 0x0001), (2, 0x0007)];
        for (id, (level, c)) in (1..).zip(labels) {
            requests.extend([OpenHouse { u: 0, s: id, level, c }, Create { s: id, script: id }]);
            requests.push(Import { u: 0, script1: 0, v, script2: id, room: 1 });
        }
        let bytes: Vec<u8> = requests.iter().flat_map(|request| request.bytes()).collect();
        self.case_at(Some((last, rule)), &bytes, 5 * requests.len(), 0)?;
        Ok(())
    }

    /// Cases that give the run to a desk opened anew; false once the text is long enough.
    fn cut(&mut self, mut run: Vec<u8>, opening: (u32, u32)) -> Result<bool, String> {
        let mut opening = Some(opening);
        let mut at = 0;
        while at < run.len() {
            if self.chance.percent(8) {
                let frames = self.chance.below(4);
                let end = at + frames_end(&run[at..], frames);
                run.insert(end, unknown_kind(&mut self.chance));
            }
            let length = self.piece(&run[at..]);
            let Some(done) = self.case(opening.take(), &run[at..at + length])? else { return Ok(false) };
            // What was not used comes again, at the front of the next case.
            at += done.used;
            match done.stop {
                UNKNOWN if self.chance.percent(self.anew) => return Ok(true),
                UNKNOWN => at += 1,
                // The run's own end is cut: nothing follows that would make it whole.
                CUT if at + length - done.used == run.len() => return Ok(true),
                _ => {}
            }
        }
        Ok(true)
    }

    /// How many of the bytes left a case takes: none, up to a frame's end, or any number.
    fn piece(&mut self, left: &[u8]) -> usize {
        match self.chance.below(100) {
            0..=3 => 0,
            4..=63 => {
                let frames = 1 + self.chance.below(7);
                frames_end(left, frames)
            }
            _ => (1 + self.chance.below(40)).min(left.len()),
        }
    }

    fn room(&mut self) -> usize {
        match self.chance.below(100) {
            0..=9 => self.chance.below(5),
            10..=19 => 5 + self.chance.below(6),
            20..=91 => 5 + self.chance.below(60),
            92..=98 => 65 + self.chance.below(200),
            _ => 4096,
        }
    }

    fn place(&mut self, room: usize) -> u64 {
        let room = room as u64;
        match self.chance.below(100) {
            0..=54 => 0,
            55..=74 => self.chance.below(8) as u64,
            75..=86 => room.saturating_sub(3 + self.chance.below(5) as u64),
            87..=91 => room,
            92..=95 => room + 1 + self.chance.below(9) as u64,
            _ => [4096, 65_536, u32::MAX as u64, u64::MAX - self.chance.below(8) as u64][self.chance.below(4)],
        }
    }

    /// Writes a case and plays it; None where the text would grow too long.
    fn case(&mut self, opening: Option<(u32, u32)>, requests: &[u8]) -> Result<Option<Done>, String> {
        let room = self.room();
        let place = self.place(room);
        self.case_at(opening, requests, room, place)
    }

    fn case_at(&mut self, opening: Option<(u32, u32)>, requests: &[u8], room: usize, place: u64) -> Result<Option<Done>, String> {
        let name = format!("c{}", self.cases + 1);
        let line = self.line(&name, opening, room, place, requests);
        if self.text.len() + line.len() > MOST_TEXT {
            return Ok(None);
        }
        self.text += &line;
        self.cases += 1;
        let case = Case { name, opening, room, place, requests: requests.to_vec() };
        Ok(Some(case.play(&mut self.desk)?.0))
    }

    /// The case as text, in one of the ways that the form allows.
    fn line(&mut self, name: &str, opening: Option<(u32, u32)>, room: usize, place: u64, requests: &[u8]) -> String {
        let last = match opening {
            None => "+".into(),
            Some((last, 1)) if self.chance.percent(70) => last.to_string(),
            Some((last, rule)) => format!("{last}/{rule}"),
        };
        let mut digits = hex(requests);
        if self.chance.below(4) == 0 {
            digits = digits.to_uppercase();
        }
        if self.chance.below(6) == 0 {
            digits.insert(self.chance.below(digits.len() + 1), '_');
        }
        let space = if digits.is_empty() && self.chance.percent(50) { "" } else { " " };
        format!("{name} {last} {room} {place}{space}{digits}\n")
    }
}

/// Where that many frames end; a kind that is unknown counts as one.
fn frames_end(bytes: &[u8], frames: usize) -> usize {
    let mut at = 0;
    for _ in 0..frames {
        at += match frame(&bytes[at..]) {
            Frame::Whole(_, length) => length,
            Frame::Unknown(_) => 1,
            Frame::Cut(_) | Frame::End => bytes.len() - at,
        };
    }
    at
}
