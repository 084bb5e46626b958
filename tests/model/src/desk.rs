// The desk of document 01 as 02 amends it: records, effects, kept changes by replay.

use crate::places::Places;
use crate::reasons::{Failed, Reason};
use crate::request::Request::{self, *};
use std::collections::BTreeMap;

pub const HOUSE: u8 = 0;
pub const STAFF: u8 = 0;
pub const FREELANCER: u8 = 1;
pub const OUTSIDER: u8 = 2;
pub const RO: u8 = 0;
pub const RW: u8 = 1;
pub const MOST_DRAFTS: usize = 256;
pub const MOST_KEPT: usize = 32;

/// A level and categories; the place is the record's own.
pub type Label = (u8, u16);

/// What Import asks of the two labels. A desk is opened under one rule for its whole life.
#[derive(Clone, Copy, PartialEq, Eq, PartialOrd, Ord, Debug, Default)]
pub enum Rule {
    /// Equal labels, as document 004 has it.
    #[default]
    One,
    /// The house script's covers the room script's, as document 001 has it.
    Two,
}

impl Rule {
    pub const BOTH: [Rule; 2] = [Rule::One, Rule::Two];

    /// None for another number, which is refusal 3 at opening.
    pub fn of(number: u32) -> Option<Rule> {
        Rule::BOTH.into_iter().find(|rule| rule.number() == number)
    }

    pub fn number(self) -> u32 {
        match self {
            Rule::One => 1,
            Rule::Two => 2,
        }
    }

    /// The rule of a generated run: two seeds under rule 1, two under rule 2, so that odd and even ones meet both.
    pub fn of_seed(seed: u64) -> Rule {
        if seed / 2 % 2 == 0 { Rule::One } else { Rule::Two }
    }
}

#[derive(Clone, PartialEq, Eq, Debug)]
pub struct User {
    pub sort: u8,
    pub level: u8,
    pub c: u16,
    pub joined: Places,
    pub led: Places,
    pub administrator: bool,
}

#[derive(Clone, PartialEq, Eq, Debug)]
pub struct Script {
    pub level: u8,
    pub c: u16,
    pub origin: u8,
}

#[derive(Clone, PartialEq, Eq, Debug)]
pub struct Session {
    pub owner: u8,
    pub level: u8,
    pub c: u16,
    /// The place of an RW session; None for RO.
    pub place: Option<u8>,
}

#[derive(Clone, PartialEq, Eq, Debug)]
pub struct Draft {
    pub script: u8,
    pub places: Places,
}

impl User {
    pub fn label(&self) -> Label {
        (self.level, self.c)
    }
}

impl Script {
    pub fn label(&self) -> Label {
        (self.level, self.c)
    }
}

impl Session {
    pub fn label(&self) -> Label {
        (self.level, self.c)
    }
}

/// The records of one house.
#[derive(Clone, PartialEq, Eq, Debug, Default)]
pub struct House {
    pub users: BTreeMap<u8, User>,
    pub rooms: Places,
    pub scripts: BTreeMap<u8, Script>,
    pub sessions: BTreeMap<u8, Session>,
    pub drafts: BTreeMap<u32, Draft>,
}

#[derive(Clone, Copy, PartialEq, Eq, Debug)]
pub enum Answer {
    Granted,
    Numbered(u32),
    /// The refusal's number and the condition that failed.
    Refused(u8, Failed),
}

impl Answer {
    pub fn byte(&self) -> u8 {
        match self {
            Answer::Granted => 0x80,
            Answer::Numbered(_) => 0x81,
            Answer::Refused(n, _) => 0xC0 + n,
        }
    }

    pub fn granted(&self) -> bool {
        !matches!(self, Answer::Refused(..))
    }

    pub fn number(&self) -> Option<u32> {
        if let Answer::Numbered(number) = self { Some(*number) } else { None }
    }

    pub fn reason(&self) -> Reason {
        match self {
            Answer::Refused(n, failed) => Reason::refusal(*n, failed),
            _ => Reason::bare(0),
        }
    }

    /// The answer as the batch writes it.
    pub fn bytes(&self) -> Vec<u8> {
        let mut out = vec![self.byte()];
        if let Some(number) = self.number() {
            out.extend(number.to_be_bytes());
        }
        out
    }
}

/// A granted request with the number it was given; replay gives it the same number.
#[derive(Clone, PartialEq, Eq, Debug)]
pub struct Change {
    pub request: Request,
    pub number: Option<u32>,
}

#[derive(Clone)]
pub struct Desk {
    pub house: House,
    /// The last draft number issued.
    pub last: u32,
    pub rule: Rule,
    /// Every change not taken back, oldest first: all of them, not the last 32.
    pub changes: Vec<Change>,
    pub kept: usize,
    /// The records after the changes that are kept no longer.
    pub base: House,
}

impl House {
    pub fn user(&self, u: u8) -> &User {
        &self.users[&u]
    }

    pub fn leads(&self, u: u8, room: u8) -> bool {
        self.user(u).led.contains(room)
    }

    /// Who leads the room, lowest first.
    pub fn leads_of(&self, room: u8) -> Vec<u8> {
        self.users.iter().filter(|(_, user)| user.led.contains(room)).map(|(u, _)| *u).collect()
    }

    pub fn places(&self, v: u32) -> Places {
        self.drafts[&v].places
    }

    /// These records after the changes, oldest first.
    pub fn replayed(&self, changes: &[Change]) -> House {
        let mut house = self.clone();
        for change in changes {
            house.apply(&change.request, change.number);
        }
        house
    }

    /// The granted effect of a request, on records that grant it.
    pub fn apply(&mut self, request: &Request, number: Option<u32>) {
        match *request {
            Enrol { new, sort, level, c, admin, .. } => {
                let user = User {
                    sort,
                    level,
                    c,
                    joined: Places::default(),
                    led: Places::default(),
                    administrator: admin == 1,
                };
                assert!(self.users.insert(new, user).is_none());
            }
            Establish { u, room } => {
                assert!(self.rooms.insert(room));
                self.users.get_mut(&u).unwrap().led.insert(room);
            }
            JoinStaff { w, room, .. } => {
                self.users.get_mut(&w).unwrap().joined.insert(room);
            }
            LeaveStaff { w, room, .. } | LeaveOutsider { w, room, .. } => {
                self.users.get_mut(&w).unwrap().joined.remove(room);
                self.sessions.retain(|_, s| !(s.owner == w && s.place == Some(room)));
            }
            JoinOutsider { w, room, level, c, .. } => {
                let user = self.users.get_mut(&w).unwrap();
                user.sort = FREELANCER;
                if user.joined.is_empty() {
                    user.level = level;
                    user.c = c;
                    // Of any kind: one that is not covered would read on by the label of before.
                    self.sessions.retain(|_, s| s.owner != w || s.level <= level && s.c & !c == 0);
                }
                user.joined.insert(room);
            }
            Add { v, room, .. } => {
                self.drafts.get_mut(&v).unwrap().places.insert(room);
            }
            Remove { v, room, .. } => {
                self.drafts.get_mut(&v).unwrap().places.remove(room);
                self.clear_empty();
            }
            Import { script2, .. } => self.issue(number, script2, HOUSE),
            Merge { v, .. } => {
                self.drafts.get_mut(&v).unwrap().places.insert(HOUSE);
            }
            Disband { room, .. } => {
                self.rooms.remove(room);
                for user in self.users.values_mut() {
                    user.joined.remove(room);
                    user.led.remove(room);
                }
                self.sessions.retain(|_, s| s.place != Some(room));
                let mut of_room = [false; 256];
                for (n, script) in &self.scripts {
                    of_room[*n as usize] = script.origin == room;
                }
                self.drafts.retain(|_, d| !of_room[d.script as usize]);
                self.scripts.retain(|_, s| s.origin != room);
                for draft in self.drafts.values_mut() {
                    draft.places.remove(room);
                }
                self.clear_empty();
            }
            MakeLead { w, room, .. } => {
                self.users.get_mut(&w).unwrap().led.insert(room);
            }
            EndLead { w, room, .. } => self.users.get_mut(&w).unwrap().led.remove(room),
            OpenRoom { u, s, room, level, c } => self.open(u, s, Some(room), level, c),
            OpenHouse { u, s, level, c } => self.open(u, s, Some(HOUSE), level, c),
            OpenRo { u, s, level, c } => self.open(u, s, None, level, c),
            Read { .. } => {}
            Update { s, script, .. } => {
                let place = self.sessions[&s].place.unwrap();
                self.issue(number, script, place);
            }
            Create { s, script } => {
                let Session { level, c, place, .. } = self.sessions[&s];
                let origin = place.unwrap();
                assert!(self.scripts.insert(script, Script { level, c, origin }).is_none());
                self.issue(number, script, origin);
            }
            Kill { s, .. } => {
                self.sessions.remove(&s);
            }
            TakeBack { .. } => unreachable!("the desk takes back by replay"),
        }
    }

    fn issue(&mut self, number: Option<u32>, script: u8, place: u8) {
        let draft = Draft { script, places: Places::only(place) };
        let earlier = self.drafts.insert(number.expect("a number was issued"), draft);
        assert!(earlier.is_none(), "two drafts with one number");
    }

    fn open(&mut self, owner: u8, s: u8, place: Option<u8>, level: u8, c: u16) {
        let earlier = self.sessions.insert(s, Session { owner, level, c, place });
        assert!(earlier.is_none());
    }

    /// A draft without places goes, then a script without drafts.
    fn clear_empty(&mut self) {
        self.drafts.retain(|_, d| !d.places.is_empty());
        let drafted = self.drafted();
        self.scripts.retain(|n, _| drafted[*n as usize]);
    }

    /// For each script number, whether a draft names it.
    pub fn drafted(&self) -> [bool; 256] {
        let mut drafted = [false; 256];
        for draft in self.drafts.values() {
            drafted[draft.script as usize] = true;
        }
        drafted
    }
}

impl Desk {
    pub fn open(last: u32, rule: Rule) -> Desk {
        Desk::of(House::default(), last, rule)
    }

    /// Opened under the rule with that number; another number is refused, and gives the empty desk with last number 0 and rule 1.
    pub fn open_under(last: u32, number: u32) -> Desk {
        match Rule::of(number) {
            Some(rule) => Desk::open(last, rule),
            None => Desk::open(0, Rule::One),
        }
    }

    /// A desk with these records and no kept change.
    pub fn of(house: House, last: u32, rule: Rule) -> Desk {
        Desk { base: house.clone(), house, last, rule, changes: Vec::new(), kept: 0 }
    }

    /// Whether of this desk and the same under the other rule one grants the request and one refuses it.
    pub fn asks_its_rule(&self, request: &Request) -> bool {
        let rule = if self.rule == Rule::One { Rule::Two } else { Rule::One };
        let other = Desk { rule, ..self.clone() };
        self.refusal(request).is_none() != other.refusal(request).is_none()
    }

    /// The changes that are kept no longer, and those that are.
    pub fn split(&self) -> (&[Change], &[Change]) {
        self.changes.split_at(self.changes.len() - self.kept)
    }

    /// The records after the kept changes, from the base: replaying all changes at each Take back would make long runs slow.
    pub fn replay(&self) -> House {
        self.base.replayed(self.split().1)
    }

    /// Makes the change and keeps it; the oldest of more than 32 goes into the base.
    fn change(&mut self, request: &Request, number: Option<u32>) {
        self.house.apply(request, number);
        self.changes.push(Change { request: *request, number });
        if self.kept < MOST_KEPT {
            self.kept += 1;
        } else {
            let oldest = &self.changes[self.changes.len() - 1 - MOST_KEPT];
            self.base.apply(&oldest.request, oldest.number);
        }
    }

    pub fn answer(&mut self, request: &Request) -> Answer {
        if let Some((n, failed)) = self.refusal(request) {
            return Answer::Refused(n, failed);
        }
        match request {
            Read { .. } => Answer::Granted,
            TakeBack { .. } => {
                self.changes.pop().expect("a kept change is a change");
                self.kept -= 1;
                self.house = self.replay();
                Answer::Granted
            }
            _ => {
                let number = if issues(request) {
                    self.last += 1;
                    Some(self.last)
                } else {
                    None
                };
                self.change(request, number);
                number.map_or(Answer::Granted, Answer::Numbered)
            }
        }
    }
}

/// 09, 14, 15: granted with a draft number.
pub fn issues(request: &Request) -> bool {
    matches!(request, Import { .. } | Update { .. } | Create { .. })
}
