// The record rules of document 01 as 02 amends them, clause by clause, and the model's checks of itself.

use crate::desk::*;
use crate::request::Request::{self, *};
use std::collections::VecDeque;

/// A rule's words, and whether the records keep it.
type RecordRule = (&'static str, bool);

/// The bounds, of which the reader of images tests more.
fn bounds(h: &House) -> [RecordRule; 5] {
    [
        ("bounds of users", h.users.iter().all(|(n, u)| *n <= 63 && u.sort <= 2 && u.level <= 7)),
        ("bounds of rooms", h.rooms.iter().all(|r| (1..=16).contains(&r))),
        ("bounds of scripts", h.scripts.iter().all(|(n, s)| *n <= 63 && s.level <= 7)),
        ("bounds of sessions", h.sessions.iter().all(|(n, s)| *n <= 63 && s.level <= 7)),
        ("at most 256 live drafts", h.drafts.len() <= MOST_DRAFTS),
    ]
}

/// The record rules. One that asks a record which is not there is kept: that it is missing breaks another.
pub fn rules(h: &House, last: u32) -> [RecordRule; 18] {
    let drafted = h.drafted();
    let place = |p: u8| p == HOUSE || h.rooms.contains(p);
    let owner = |s: &Session, fits: &dyn Fn(&User) -> bool| h.users.get(&s.owner).map_or(true, fits);
    let origin = |d: &Draft, fits: &dyn Fn(u8) -> bool| h.scripts.get(&d.script).map_or(true, |s| fits(s.origin));
    [
        ("rooms joined are there", h.users.values().all(|u| u.joined.is_subset(&h.rooms))),
        ("rooms led are there", h.users.values().all(|u| u.led.is_subset(&h.rooms))),
        ("origins are there", h.scripts.values().all(|s| place(s.origin))),
        ("owners are there", h.sessions.values().all(|s| h.users.contains_key(&s.owner))),
        ("places of sessions are there", h.sessions.values().all(|s| s.place.iter().all(|p| place(*p)))),
        ("scripts of drafts are there", h.drafts.values().all(|d| h.scripts.contains_key(&d.script))),
        ("places of drafts are there", h.drafts.values().all(|d| d.places.iter().all(place))),
        (
            "a house administrator if there is any user",
            h.users.is_empty() || h.users.values().any(|u| u.administrator),
        ),
        (
            "only staff are administrators or leads",
            h.users.values().all(|u| u.sort == STAFF || !u.administrator && u.led.is_empty()),
        ),
        ("a lead for each room", h.rooms.iter().all(|r| h.users.values().any(|u| u.led.contains(r)))),
        (
            "outsiders with zero labels, in no room",
            h.users
                .values()
                .all(|u| u.sort != OUTSIDER || u.level == 0 && u.c == 0 && u.joined.is_empty()),
        ),
        (
            "RW sessions owned by staff (house) or members of their room",
            h.sessions.values().all(|s| match s.place {
                None => true,
                Some(HOUSE) => owner(s, &|u| u.sort == STAFF),
                Some(room) => owner(s, &|u| u.joined.contains(room)),
            }),
        ),
        (
            "sessions within the owner's label",
            h.sessions.values().all(|s| owner(s, &|u| within(s.label(), u.label()))),
        ),
        (
            "a room script's drafts in that room only",
            h.drafts
                .values()
                .all(|d| origin(d, &|o| o == HOUSE || d.places.len() == 1 && d.places.contains(o))),
        ),
        (
            "a house script's drafts with the house, or with exactly one room",
            h.drafts
                .values()
                .all(|d| origin(d, &|o| o != HOUSE || d.places.contains(HOUSE) || d.places.len() == 1)),
        ),
        ("a place for each draft", h.drafts.values().all(|d| !d.places.is_empty())),
        ("a draft for each script", h.scripts.keys().all(|n| drafted[*n as usize])),
        // No two alike: the number is the key, and issuing one that is there stops the model.
        ("draft numbers from 1 to the counter", h.drafts.keys().all(|v| (1..=last).contains(v))),
    ]
}

/// Whether the second label covers the first.
fn within((level, c): Label, (most, all): Label) -> bool {
    level <= most && c & !all == 0
}

/// The words of those that are broken.
pub fn broken(rules: impl IntoIterator<Item = RecordRule>) -> impl Iterator<Item = &'static str> {
    rules.into_iter().filter(|(_, kept)| !kept).map(|(words, _)| words)
}

/// A desk that checks its every step. What is checked when:
/// - each request: the counter, the kept count and the number of changes move as the answer says, and the rule stays;
/// - after a refusal or a Read: the records are those of before, which met the rules;
/// - a granted Read: the script is within the label that the session's owner has now;
/// - after a kept change: the record rules, and the records are the base with the kept changes replayed;
/// - after a Take back: the record rules, and the records are those that stood before the change, kept as a copy;
/// - each 100 requests, after the first thousand each time a tenth more are done, and at the end: base and records are
///   those got by starting as opened and applying every change not taken back.
pub struct Checked {
    pub desk: Desk,
    /// The records at the opening.
    start: House,
    /// The records before each kept change, oldest first.
    before: VecDeque<House>,
    /// How many were answered.
    pub requests: usize,
    /// The request after which all changes are next replayed.
    due: usize,
}

/// The counter, the kept count and the number of changes.
type Counts = (u32, usize, usize);

fn hold(fact: bool, rule: &str) -> Result<(), String> {
    if fact { Ok(()) } else { Err(rule.into()) }
}

impl Checked {
    pub fn open(last: u32, rule: Rule) -> Checked {
        Checked::of(Desk::open(last, rule))
    }

    /// From a desk just opened.
    pub fn of(desk: Desk) -> Checked {
        Checked { start: desk.house.clone(), desk, before: VecDeque::new(), requests: 0, due: 100 }
    }

    /// Answers the request and checks the step; a broken rule is named.
    pub fn answer(&mut self, request: &Request) -> Result<Answer, String> {
        let before = self.desk.house.clone();
        let (counts, rule) = (self.counts(), self.desk.rule);
        let answer = self.desk.answer(request);
        hold(self.desk.rule == rule, "the rule changed")?;
        hold(moved(counts, request, &answer) == Some(self.counts()), "the counts did not move as answered")?;
        match request {
            _ if !answer.granted() => hold(self.desk.house == before, "a refusal changed the records")?,
            Read { s, script, .. } => {
                hold(self.desk.house == before, "a Read changed the records")?;
                hold(reads_within(&before, *s, *script), "a Read above the label of the session's owner")?;
            }
            TakeBack { .. } => self.taken_back()?,
            _ => self.changed(before)?,
        }
        self.requests += 1;
        if self.requests == self.due {
            self.replay_all()?;
            self.due += 100.max(self.requests / 10);
        }
        Ok(answer)
    }

    fn counts(&self) -> Counts {
        (self.desk.last, self.desk.kept, self.desk.changes.len())
    }

    fn changed(&mut self, before: House) -> Result<(), String> {
        self.rules()?;
        hold(self.desk.house == self.desk.replay(), "the records are not the replay of the kept changes")?;
        self.before.push_back(before);
        if self.before.len() > MOST_KEPT {
            self.before.pop_front();
        }
        Ok(())
    }

    fn taken_back(&mut self) -> Result<(), String> {
        self.rules()?;
        let before = self.before.pop_back().ok_or("a Take back without a kept change")?;
        hold(self.desk.house == before, "a Take back did not restore the records")
    }

    fn rules(&self) -> Result<(), String> {
        let Desk { house, last, .. } = &self.desk;
        let first = broken(bounds(house).into_iter().chain(rules(house, *last))).next();
        first.map_or(Ok(()), |rule| Err(format!("record rule broken: {rule}")))
    }

    /// From the opening: the base after the changes kept no longer, the records after those that are.
    pub fn replay_all(&self) -> Result<(), String> {
        let (older, kept) = self.desk.split();
        let base = self.start.replayed(older);
        hold(base == self.desk.base, "the base is not the replay of the older changes")?;
        hold(base.replayed(kept) == self.desk.house, "the records are not the replay of all changes")
    }
}

/// Whether the session's owner has a label, now, that covers the script's.
fn reads_within(h: &House, s: u8, script: u8) -> bool {
    within(h.scripts[&script].label(), h.user(h.sessions[&s].owner).label())
}

/// The counts after the request was so answered; None where it could not be.
fn moved((last, kept, changes): Counts, request: &Request, answer: &Answer) -> Option<Counts> {
    Some(match (answer, request) {
        (Answer::Refused(..), _) | (Answer::Granted, Read { .. }) => (last, kept, changes),
        (Answer::Granted, TakeBack { .. }) => (last, kept.checked_sub(1)?, changes.checked_sub(1)?),
        (Answer::Granted, _) if !issues(request) => (last, MOST_KEPT.min(kept + 1), changes + 1),
        // The next one issued is one more.
        (Answer::Numbered(number), _) if Some(*number) == last.checked_add(1) && issues(request) => {
            (*number, MOST_KEPT.min(kept + 1), changes + 1)
        }
        _ => return None,
    })
}
