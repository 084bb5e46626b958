// The generator of runs: it plays a desk as it goes, so that most requests are granted.

use crate::desk::*;
use crate::imports::{standing, Standing, STANDINGS};
use crate::leads;
use crate::request::Request::{self, *};
use crate::request::{body_length, frame, Frame, KINDS};

/// Splitmix64: a run depends on its seed alone.
pub struct Chance(u64);

impl Chance {
    pub fn new(seed: u64) -> Chance {
        Chance(seed)
    }

    pub fn next(&mut self) -> u64 {
        self.0 = self.0.wrapping_add(0x9E37_79B9_7F4A_7C15);
        let mut z = self.0;
        z = (z ^ (z >> 30)).wrapping_mul(0xBF58_476D_1CE4_E5B9);
        z = (z ^ (z >> 27)).wrapping_mul(0x94D0_49BB_1331_11EB);
        z ^ (z >> 31)
    }

    pub fn below(&mut self, n: usize) -> usize {
        (self.next() % n as u64) as usize
    }

    pub fn percent(&mut self, n: usize) -> bool {
        self.below(100) < n
    }

    fn one_of<T: Copy>(&mut self, from: &[T]) -> Option<T> {
        if from.is_empty() { None } else { Some(from[self.below(from.len())]) }
    }
}

/// Weights of the kinds, in the order of KINDS.
type Weights = [usize; 21];

//                     01 02 03 04 05 06 07 08 09 0A 0B 0C 0D 10 11 12 13 14 15 16 20
const SETUP: Weights = [9, 5, 6, 0, 4, 0, 2, 0, 1, 1, 0, 3, 1, 8, 8, 3, 2, 4, 8, 0, 0];
const MIXED: Weights = [3, 2, 4, 3, 4, 3, 6, 4, 4, 4, 1, 3, 2, 6, 4, 4, 9, 9, 6, 4, 3];
const PEOPLE: Weights = [4, 2, 9, 8, 9, 9, 3, 1, 1, 1, 1, 6, 5, 7, 3, 4, 6, 4, 3, 3, 2];
const ROOMS: Weights = [2, 8, 5, 1, 4, 1, 6, 2, 3, 3, 6, 5, 3, 6, 3, 3, 4, 5, 6, 2, 3];
const TAKING: Weights = [3, 2, 4, 3, 4, 3, 4, 3, 3, 3, 2, 4, 3, 5, 4, 4, 3, 5, 5, 4, 16];
const DRAFTS: Weights = [1, 0, 2, 0, 1, 0, 5, 1, 9, 3, 0, 2, 2, 3, 3, 2, 3, 60, 9, 1, 1];
const STYLES: [Weights; 5] = [MIXED, PEOPLE, ROOMS, TAKING, DRAFTS];
/// Of runs with many Imports, more of which shall meet a full desk.
const IMPORTING: [Weights; 5] = [MIXED, DRAFTS, ROOMS, TAKING, DRAFTS];

struct Player {
    chance: Chance,
    desk: Desk,
    /// Whether the run has many Imports, with labels that stand to each other in every way.
    importing: bool,
    /// Whether freelancers often leave and come back, with sessions open.
    returning: bool,
    /// A few labels, so that equal ones happen, and ones that differ in one part.
    labels: Vec<Label>,
}

/// A desk without users is set up by this many requests first.
const SETTING_UP: usize = 90;

/// A run of `count` requests as bytes; some end in an unknown kind or a cut body, unless the run shall be whole.
pub fn generate(seed: u64, count: usize, opened: u32, rule: Rule, whole: bool) -> Vec<u8> {
    going_on(seed, count, Desk::open(opened, rule), whole)
}

/// Such a run for a desk that was opened otherwise.
pub fn going_on(seed: u64, count: usize, desk: Desk, whole: bool) -> Vec<u8> {
    let mut chance = Chance::new(seed);
    let drawn = chance.below(STYLES.len() + IMPORTING.len());
    let importing = drawn < IMPORTING.len();
    let style = if importing { IMPORTING[drawn] } else { STYLES[drawn - IMPORTING.len()] };
    let labels = if importing { near_labels(&mut chance) } else { labels(&mut chance) };
    let ending = chance.below(8);
    let streaks = chance.below(4);
    let stray = if chance.percent(40) { 1 + chance.below(6) } else { 0 };
    // Some runs take an early desk back to the empty one.
    let emptied = if chance.percent(25) { Some(stray + 1 + chance.below(24)) } else { None };
    let setup = if desk.house.users.is_empty() { SETTING_UP } else { 0 };
    // By the seed, so that odd and even ones meet it under both rules; the measured runs are played without.
    let returning = seed / 4 % 2 == 1;
    let mut player = Player { chance, desk, importing, returning, labels };
    let mut out = Vec::new();
    let mut in_a_row = 0;
    for ordinal in 0..count {
        if ordinal + 1 == count && ending < 2 && !whole {
            player.end_badly(ending, &mut out);
            break;
        }
        let weights = if ordinal < setup { SETUP } else { style };
        if in_a_row == 0 && ordinal > 60 && player.chance.below(600) < streaks * streaks {
            // Past 32 in a row, or down to an early desk.
            in_a_row = if player.chance.percent(60) { 33 + player.chance.below(4) } else { 1 + player.chance.below(12) };
        }
        if emptied == Some(ordinal) {
            in_a_row = 33;
        }
        let request = if ordinal < stray {
            player.wrong()
        } else if in_a_row > 0 {
            in_a_row -= 1;
            match player.propose(0x20) {
                Some(request) => request,
                None => {
                    in_a_row = 0;
                    TakeBack { u: player.chance.below(64) as u8 }
                }
            }
        } else {
            player.next(&weights)
        };
        player.desk.answer(&request);
        out.extend(request.bytes());
    }
    out
}

fn labels(chance: &mut Chance) -> Vec<Label> {
    let categories = [0x0001, 0x8000, 0x0003, 0x00FF, 0x8001];
    let (level, c) = (chance.below(8) as u8, categories[chance.below(5)]);
    let (other_level, other_c) = (chance.below(8) as u8, categories[chance.below(5)]);
    vec![(7, 0xFFFF), (0, 0), (level, c), (level, other_c), (other_level, c)]
}

/// Two levels side by side, with categories that are the same, more, fewer and others.
fn near_labels(chance: &mut Chance) -> Vec<Label> {
    let level = chance.below(7) as u8;
    let (a, b, c) = [(0x0001, 0x0010, 0x8000), (0x8000, 0x0001, 0x00F0), (0x0100, 0x0080, 0x0002)][chance.below(3)];
    let labels = [a, a | b, a | c, a | b | c].into_iter().flat_map(|c| [(level, c), (level + 1, c)]);
    std::iter::once((7, 0xFFFF)).chain(labels).collect()
}

impl Player {
    fn next(&mut self, weights: &Weights) -> Request {
        let spent = self.desk.house.drafts.len() == MOST_DRAFTS || self.desk.last == u32::MAX;
        if spent && self.chance.percent(25) {
            // Otherwise in order, so 10 or 11; or the label is wrong too, so 9 or 16.
            let kind = self.chance.one_of(&[0x09, 0x14, 0x15]).unwrap();
            let request = if self.chance.percent(50) { self.propose(kind) } else { self.other_label() };
            if let Some(request) = request {
                return request;
            }
        }
        if self.importing && self.chance.percent(if spent { 40 } else { 12 }) {
            // Not every pair of labels is there.
            for _ in 0..3 {
                if let Some(request) = self.any_import() {
                    return request;
                }
            }
        }
        if self.returning && self.chance.percent(10) {
            if let Some(request) = self.coming_back() {
                return request;
            }
        }
        // Fewer where many Imports are, so that the desk is full sooner.
        if self.chance.percent(if self.importing { 20 } else { 35 }) {
            return self.wrong();
        }
        for _ in 0..30 {
            let kind = self.kind(weights);
            for _ in 0..4 {
                match self.propose(kind) {
                    Some(request) if self.desk.refusal(&request).is_none() => return request,
                    Some(_) => {}
                    None => break,
                }
            }
        }
        self.wrong()
    }

    fn kind(&mut self, weights: &Weights) -> u8 {
        let mut at = self.chance.below(weights.iter().sum());
        for (kind, weight) in KINDS.iter().zip(weights) {
            if at < *weight {
                return *kind;
            }
            at -= weight;
        }
        unreachable!()
    }

    fn label(&mut self) -> Label {
        if self.chance.percent(12) {
            return (self.chance.below(8) as u8, self.chance.next() as u16);
        }
        self.labels[self.chance.below(self.labels.len())]
    }

    /// A label for a session of u: mostly one that u covers.
    fn label_of(&mut self, u: u8) -> Label {
        let (level, c) = self.desk.house.users[&u].label();
        if self.chance.percent(30) {
            return (level, c);
        }
        let (l, k) = self.label();
        (l.min(level), k & c)
    }

    fn users(&self, fits: impl Fn(&User) -> bool) -> Vec<u8> {
        self.desk.house.users.iter().filter(|(_, u)| fits(u)).map(|(n, _)| *n).collect()
    }

    fn user(&mut self, fits: impl Fn(&User) -> bool) -> Option<u8> {
        let from = self.users(fits);
        self.chance.one_of(&from)
    }

    /// A room and one of its leads.
    fn led_room(&mut self) -> Option<(u8, u8)> {
        let rooms: Vec<u8> = self.desk.house.rooms.iter().collect();
        let room = self.chance.one_of(&rooms)?;
        Some((room, self.user(|u| u.led.contains(room))?))
    }

    /// The same of a room with a number of leads that fits.
    fn room_led_by(&mut self, fits: impl Fn(usize) -> bool) -> Option<(u8, u8)> {
        let house = &self.desk.house;
        let rooms: Vec<u8> = house.rooms.iter().filter(|room| fits(house.leads_of(*room).len())).collect();
        let room = self.chance.one_of(&rooms)?;
        Some((room, self.user(|u| u.led.contains(room))?))
    }

    fn session(&mut self, fits: impl Fn(&Session) -> bool) -> Option<u8> {
        let from: Vec<u8> =
            self.desk.house.sessions.iter().filter(|(_, s)| fits(s)).map(|(n, _)| *n).collect();
        self.chance.one_of(&from)
    }

    fn script(&mut self, fits: impl Fn(&Script) -> bool) -> Option<u8> {
        let from: Vec<u8> =
            self.desk.house.scripts.iter().filter(|(_, s)| fits(s)).map(|(n, _)| *n).collect();
        self.chance.one_of(&from)
    }

    /// A draft with its script.
    fn draft(&mut self, fits: impl Fn(&Draft, &Script) -> bool) -> Option<(u8, u32)> {
        let h = &self.desk.house;
        // A table, since 256 searches for scripts made this the slowest step.
        let mut scripts = [None; 64];
        for (n, script) in &h.scripts {
            scripts[*n as usize] = Some(script);
        }
        let from: Vec<(u8, u32)> = h
            .drafts
            .iter()
            .filter(|(_, d)| scripts[d.script as usize].is_some_and(|script| fits(d, script)))
            .map(|(v, d)| (d.script, *v))
            .collect();
        self.chance.one_of(&from)
    }

    /// A number 0..63 that is not there; often the lowest or the highest, so that numbers are reused.
    fn free(&mut self, there: impl Fn(&House, u8) -> bool) -> Option<u8> {
        let from: Vec<u8> = (0..64).filter(|n| !there(&self.desk.house, *n)).collect();
        match self.chance.below(4) {
            0 => from.first().copied(),
            1 => from.last().copied(),
            _ => self.chance.one_of(&from),
        }
    }

    /// A request of the kind that looks in order; None when the desk has nothing for it.
    fn propose(&mut self, kind: u8) -> Option<Request> {
        Some(match kind {
            0x01 => {
                let new = self.free(|h, n| h.users.contains_key(&n))?;
                let (level, c) = self.label();
                if self.desk.house.users.is_empty() {
                    return Some(Enrol { u: new, new, sort: STAFF, level, c, admin: 1 });
                }
                let u = self.user(|u| u.administrator)?;
                if self.chance.percent(45) {
                    Enrol { u, new, sort: OUTSIDER, level: 0, c: 0, admin: 0 }
                } else {
                    let admin = self.chance.percent(20) as u8;
                    Enrol { u, new, sort: STAFF, level, c, admin }
                }
            }
            0x02 => {
                let u = self.user(|u| u.administrator)?;
                let free: Vec<u8> = (1..=16).filter(|r| !self.desk.house.rooms.contains(*r)).collect();
                let room = if self.chance.percent(40) { free.last().copied()? } else { self.chance.one_of(&free)? };
                Establish { u, room }
            }
            0x03 => {
                let (room, u) = self.led_room()?;
                let w = self.user(|w| w.sort == STAFF && !w.joined.contains(room))?;
                JoinStaff { u, w, room }
            }
            0x04 => {
                let (room, u) = self.led_room()?;
                let w = self.user(|w| w.sort == STAFF && w.joined.contains(room))?;
                LeaveStaff { u, w, room }
            }
            0x05 => {
                let (room, u) = self.led_room()?;
                let w = self.user(|w| w.sort != STAFF && !w.joined.contains(room))?;
                let (level, c) = self.label();
                JoinOutsider { u, w, room, level, c }
            }
            0x06 => {
                let (room, u) = self.led_room()?;
                let w = self.user(|w| w.sort == FREELANCER && w.joined.contains(room))?;
                LeaveOutsider { u, w, room }
            }
            0x07 => {
                let (room, u) = self.led_room()?;
                let (script, v) =
                    self.draft(|d, _| d.places.contains(HOUSE) && !d.places.contains(room))?;
                Add { u, script, v, room }
            }
            0x08 => {
                let (room, u) = self.led_room()?;
                let (script, v) = self.draft(|d, _| d.places.contains(room))?;
                Remove { u, script, v, room }
            }
            0x09 => {
                let rule = self.desk.rule;
                return self.import(|room, house| wrong_parts(rule, house, room) == (false, false));
            }
            0x0A => {
                let (room, u) = self.led_room()?;
                let (script, v) = self.draft(|d, s| s.origin == HOUSE && d.places.contains(room))?;
                Merge { u, script, v, room }
            }
            0x0B => {
                let (room, u) = self.led_room()?;
                Disband { u, room }
            }
            0x0C => {
                // Few rooms have many leads, so that those with one, two and three are met often.
                let many = self.chance.percent(20);
                let (room, u) = self.room_led_by(|leads| leads < 4 || many)?;
                let w = self.user(|w| w.sort == STAFF && !w.led.contains(room))?;
                MakeLead { u, w, room }
            }
            0x0D => {
                let (room, u) = self.room_led_by(|leads| leads > 1)?;
                let w = self.user(|w| w.led.contains(room))?;
                EndLead { u, w, room }
            }
            0x10 => {
                let u = self.user(|u| !u.joined.is_empty())?;
                let joined: Vec<u8> = self.desk.house.users[&u].joined.iter().collect();
                let room = self.chance.one_of(&joined)?;
                let s = self.free(|h, n| h.sessions.contains_key(&n))?;
                let (level, c) = self.label_of(u);
                OpenRoom { u, s, room, level, c }
            }
            0x11 => {
                let u = self.user(|u| u.sort == STAFF)?;
                let s = self.free(|h, n| h.sessions.contains_key(&n))?;
                let (level, c) = self.label_of(u);
                OpenHouse { u, s, level, c }
            }
            0x12 => {
                let u = self.user(|_| true)?;
                let s = self.free(|h, n| h.sessions.contains_key(&n))?;
                let (level, c) = self.label_of(u);
                OpenRo { u, s, level, c }
            }
            0x13 => {
                let s = self.session(|_| true)?;
                let Session { owner, place, .. } = self.desk.house.sessions[&s];
                let owner = self.desk.house.users[&owner].clone();
                let (script, v) = self.draft(|d, _| match place {
                    Some(place) => d.places.contains(place),
                    None => {
                        !d.places.is_disjoint(&owner.joined)
                            || owner.sort == STAFF && d.places.contains(HOUSE)
                    }
                })?;
                Read { s, script, v }
            }
            0x14 => return self.update(|one, other| one == other),
            0x15 => {
                let s = self.session(|s| s.place.is_some())?;
                let script = self.free(|h, n| h.scripts.contains_key(&n))?;
                Create { s, script }
            }
            0x16 => {
                let s = self.session(|_| true)?;
                let Session { owner, place, .. } = self.desk.house.sessions[&s];
                let lead = self.user(|u| place.is_some_and(|p| u.led.contains(p)));
                let u = lead.filter(|_| self.chance.percent(50)).unwrap_or(owner);
                Kill { u, s }
            }
            0x20 => TakeBack { u: self.user(|u| u.administrator)? },
            _ => return None,
        })
    }

    /// A freelancer with a session open, and that session's label.
    fn freelancer(&mut self, fits: impl Fn(&User) -> bool) -> Option<(u8, Label)> {
        let users = &self.desk.house.users;
        let fits = |s: &&Session| users[&s.owner].sort == FREELANCER && fits(&users[&s.owner]);
        let from: Vec<(u8, Label)> = self.desk.house.sessions.values().filter(fits).map(|s| (s.owner, s.label())).collect();
        self.chance.one_of(&from)
    }

    /// A label that is the one given, or covers it, or does not: by the level, or by a category at an equal or a higher level.
    fn near(&mut self, (level, c): Label) -> Label {
        let (higher, fewer) = (7.min(level + 1), c & c.wrapping_sub(1));
        let more = c | 1 << self.chance.below(16);
        self.chance.one_of(&[(level, c), (level, more), (higher, c), (level.saturating_sub(1), more), (level, fewer), (higher, fewer)]).unwrap()
    }

    /// A step on the way of a freelancer who leaves all rooms with sessions open and comes back, or what shows what became of these.
    fn coming_back(&mut self) -> Option<Request> {
        if matches!(self.desk.changes.last(), Some(Change { request: JoinOutsider { .. }, .. })) && self.chance.percent(25) {
            return self.propose(0x20);
        }
        Some(match self.chance.below(12) {
            0..=4 => {
                // Or a second room, where nothing ends.
                let back = self.chance.percent(80);
                let (room, u) = self.led_room()?;
                let (w, label) = self.freelancer(|w| w.joined.is_empty() == back && !w.joined.contains(room))?;
                let (level, c) = self.near(label);
                JoinOutsider { u, w, room, level, c }
            }
            5..=7 => {
                let (w, _) = self.freelancer(|w| !w.joined.is_empty())?;
                let joined: Vec<u8> = self.desk.house.users[&w].joined.iter().collect();
                let room = self.chance.one_of(&joined)?;
                LeaveOutsider { u: self.user(|u| u.led.contains(room))?, w, room }
            }
            8..=9 => {
                let u = self.user(|u| u.sort == FREELANCER)?;
                let s = self.free(|h, n| h.sessions.contains_key(&n))?;
                let (level, c) = self.label_of(u);
                OpenRo { u, s, level, c }
            }
            10 => return self.propose(0x13),
            // A session that is free again is none.
            _ => {
                let s = self.free(|h, n| h.sessions.contains_key(&n))?;
                let (script, v) = self.draft(|_, _| true)?;
                Read { s, script, v }
            }
        })
    }

    /// An Import in order but for the two labels, which stand to each other in one of the ways there are.
    fn any_import(&mut self) -> Option<Request> {
        let wanted: Standing = self.chance.one_of(&STANDINGS)?;
        let scripts = &self.desk.house.scripts;
        let of_house = |(_, script): &(&u8, &Script)| script.origin == HOUSE;
        let mut pairs = Vec::new();
        for (one, room) in scripts.iter().filter(|s| !of_house(s)) {
            let fits = |(_, house): &(&u8, &Script)| standing(house.label(), room.label()) == wanted;
            pairs.extend(scripts.iter().filter(of_house).filter(fits).map(|(two, _)| (*one, *two, room.origin)));
        }
        let (script1, script2, room) = self.chance.one_of(&pairs)?;
        let u = self.user(|u| u.led.contains(room))?;
        let drafts: Vec<u32> = self.desk.house.drafts.iter().filter(|(_, d)| d.script == script1).map(|(v, _)| *v).collect();
        let v = self.chance.one_of(&drafts)?;
        Some(Import { u, script1, v, script2, room })
    }

    /// An Import in order, if the two labels are.
    fn import(&mut self, fits: impl Fn(Label, Label) -> bool) -> Option<Request> {
        let (room, u) = self.led_room()?;
        let (script1, v) = self.draft(|_, s| s.origin == room)?;
        let label = self.desk.house.scripts[&script1].label();
        let script2 = self.script(|s| s.origin == HOUSE && fits(label, s.label()))?;
        Some(Import { u, script1, v, script2, room })
    }

    /// An Update likewise.
    fn update(&mut self, fits: impl Fn(Label, Label) -> bool) -> Option<Request> {
        let s = self.session(|s| s.place.is_some())?;
        let session = &self.desk.house.sessions[&s];
        let (place, label) = (session.place?, session.label());
        let (script, v) = self.draft(|d, script| d.places.contains(place) && fits(label, script.label()))?;
        Some(Update { s, script, v })
    }

    /// One of these with a wrong label: the level is wrong, the categories, or both.
    fn other_label(&mut self) -> Option<Request> {
        let parts = self.chance.one_of(&[(true, false), (false, true), (true, true)])?;
        let rule = self.desk.rule;
        if self.chance.percent(65) {
            self.import(|room, house| wrong_parts(rule, house, room) == parts)
        } else {
            self.update(|session, script| wrong_parts(Rule::One, session, script) == parts)
        }
    }

    /// A request likely refused: one in order with a record or a byte changed, or any at all.
    fn wrong(&mut self) -> Request {
        if self.desk.house.users.is_empty() && self.chance.percent(70) {
            return self.wrong_first();
        }
        if self.chance.percent(15) {
            if let Some(request) = self.near_miss() {
                return request;
            }
        }
        if self.chance.percent(8) {
            if let Some(request) = self.wrong_lead() {
                return request;
            }
        }
        let kind = self.chance.one_of(&KINDS).unwrap();
        let Some(request) = self.propose(kind) else { return self.any(kind) };
        match self.chance.below(100) {
            0..=39 => self.other_record(request),
            40..=74 => self.other_byte(request),
            // More than one, so that the order of the conditions shows.
            75..=79 => {
                let once = self.other_byte(request);
                self.other_byte(once)
            }
            80..=84 => self.beyond(request),
            85..=92 => request,
            _ => self.any(kind),
        }
    }

    /// In order but for one fact of row 3, 4, 8, 9 or 16 that a random change seldom meets.
    fn near_miss(&mut self) -> Option<Request> {
        let (room, u) = self.led_room()?;
        Some(match self.chance.below(9) {
            0 => {
                let (script, v) = self.draft(|d, _| d.places.contains(HOUSE) && d.places.contains(room))?;
                Add { u, script, v, room }
            }
            1 => {
                let (script, v) = self.draft(|_, s| s.origin == room)?;
                Merge { u, script, v, room }
            }
            2 => {
                let s = self.session(|s| s.place.is_some())?;
                let place = self.desk.house.sessions[&s].place?;
                let (script, v) = self.draft(|d, _| d.places.contains(place))?;
                Update { s, script, v }
            }
            3 => {
                let s = self.session(|s| s.place.is_none())?;
                let (script, v) = self.draft(|_, _| true)?;
                Read { s, script, v }
            }
            4 => {
                let u = self.user(|u| u.administrator)?;
                let new = self.free(|h, n| h.users.contains_key(&n))?;
                let (level, c) = if self.chance.percent(50) { (0, 0) } else { self.label() };
                let level = level * self.chance.below(2) as u8;
                let admin = self.chance.one_of(&[1, 1, 2])?;
                Enrol { u, new, sort: OUTSIDER, level, c, admin }
            }
            5 => {
                let (script1, v) = self.draft(|_, s| s.origin == room)?;
                let script2 = self.free(|h, n| h.scripts.contains_key(&n))?;
                Import { u, script1, v, script2, room }
            }
            6 => return self.other_label(),
            near => {
                let (script1, v) = self.draft(|_, s| s.origin == room)?;
                let (other, w) = self.draft(|_, _| true)?;
                match near {
                    7 => {
                        let script2 = self.script(|s| s.origin != HOUSE)?;
                        Import { u, script1, v, script2, room }
                    }
                    _ if self.chance.percent(50) => Import { u, script1, v: w, script2: other, room },
                    _ => Import { u, script1: other, v: w, script2: other, room },
                }
            }
        })
    }

    /// A 0C or 0D in order but for u or w; or what one asks who leads no more.
    fn wrong_lead(&mut self) -> Option<Request> {
        let (room, u) = self.led_room()?;
        Some(match self.chance.below(10) {
            0 => MakeLead { u, w: self.user(|w| w.led.contains(room))?, room },
            1 => MakeLead { u, w: self.user(|w| w.sort != STAFF)?, room },
            2 => EndLead { u, w: self.user(|w| w.sort != STAFF)?, room },
            3 => EndLead { u, w: self.user(|w| w.sort == STAFF && !w.led.contains(room))?, room },
            4 => {
                let (room, u) = self.room_led_by(|leads| leads == 1)?;
                EndLead { u, w: u, room }
            }
            5 => {
                // By one who does not lead, of the only lead: 6 comes first.
                let (room, w) = self.room_led_by(|leads| leads == 1)?;
                EndLead { u: self.user(|u| !u.led.contains(room))?, w, room }
            }
            6 => {
                let leads = self.chance.percent(40);
                let (u, w) = (self.user(|u| !u.led.contains(room))?, self.user(|w| !leads || w.led.contains(room))?);
                if self.chance.percent(50) { MakeLead { u, w, room } } else { EndLead { u, w, room } }
            }
            _ => return self.led_before(),
        })
    }

    /// A request by one who led the room before.
    fn led_before(&mut self) -> Option<Request> {
        let (changes, house) = (&self.desk.changes, &self.desk.house);
        // Of late alone: a long run has many.
        let ended = changes.iter().rev().take(150).filter_map(|change| match change.request {
            EndLead { w, room, .. } => Some((w, room)),
            _ => None,
        });
        let there = |(u, room): &(u8, u8)| house.users.contains_key(u) && house.rooms.contains(*room);
        let from: Vec<(u8, u8)> = ended.filter(there).filter(|(u, room)| leads::led_before(changes, *u, *room)).collect();
        let (u, room) = self.chance.one_of(&from)?;
        let w = self.user(|w| w.sort == STAFF)?;
        Some(match self.chance.below(6) {
            0 => JoinStaff { u, w, room },
            1 => Disband { u, room },
            2 => Kill { u, s: self.session(|s| s.place == Some(room) && s.owner != u)? },
            3 => MakeLead { u, w: u, room },
            4 => EndLead { u, w: self.user(|w| w.led.contains(room))?, room },
            // And made a lead again, which is in order.
            _ => MakeLead { u: self.user(|u| u.led.contains(room))?, w: u, room },
        })
    }

    /// On a desk without users: an Enrol that is not the first administrator's own.
    fn wrong_first(&mut self) -> Request {
        let (level, c) = self.label();
        let u = self.chance.below(64) as u8;
        let other = (u + 1) % 64;
        match self.chance.below(5) {
            0 => Enrol { u, new: other, sort: STAFF, level, c, admin: 1 },
            1 => Enrol { u, new: other, sort: OUTSIDER, level: 0, c: 0, admin: 0 },
            2 => Enrol { u, new: u, sort: OUTSIDER, level: 0, c: 0, admin: 0 },
            3 => Enrol { u, new: u, sort: STAFF, level, c, admin: 0 },
            _ => Enrol { u, new: u, sort: FREELANCER, level, c, admin: 1 },
        }
    }

    /// The request with one of its records changed for another that is there.
    fn other_record(&mut self, mut request: Request) -> Request {
        let new_user = self.user(|_| true).unwrap_or(0);
        let new_session = self.session(|_| true).unwrap_or(0);
        let house_only = self.chance.percent(50);
        let new_script = self.script(|s| !house_only || s.origin == HOUSE).unwrap_or(0);
        let new_draft = self.draft(|_, _| true).unwrap_or((0, 0));
        let rooms: Vec<u8> = self.desk.house.rooms.iter().collect();
        let new_room = self.chance.one_of(&rooms).unwrap_or(1);
        let new_label = self.label();
        let field = self.chance.below(3);
        match &mut request {
            Enrol { u, new, level, c, .. } => match field {
                0 => *u = new_user,
                1 => *new = new_user,
                _ => (*level, *c) = new_label,
            },
            Establish { u, room } | Disband { u, room } => match field {
                0 => *room = new_room,
                _ => *u = new_user,
            },
            JoinStaff { u, w, room }
            | LeaveStaff { u, w, room }
            | JoinOutsider { u, w, room, .. }
            | LeaveOutsider { u, w, room }
            | MakeLead { u, w, room }
            | EndLead { u, w, room } => match field {
                0 => *u = new_user,
                1 => *w = new_user,
                _ => *room = new_room,
            },
            Add { u, script, v, room } | Remove { u, script, v, room } | Merge { u, script, v, room } => {
                match field {
                    0 => *u = new_user,
                    1 => (*script, *v) = new_draft,
                    _ => *room = new_room,
                }
            }
            Import { u, script1, v, script2, .. } => match field {
                0 => *u = new_user,
                1 => (*script1, *v) = new_draft,
                _ => *script2 = new_script,
            },
            OpenRoom { u, s, level, c, .. } | OpenHouse { u, s, level, c } | OpenRo { u, s, level, c } => {
                match field {
                    0 => *u = new_user,
                    1 => *s = new_session,
                    _ => (*level, *c) = new_label,
                }
            }
            Read { s, script, v } | Update { s, script, v } => match field {
                0 => *s = new_session,
                1 => *script = new_script,
                _ => (*script, *v) = new_draft,
            },
            Create { s, script } => match field {
                0 => *script = new_script,
                _ => *s = new_session,
            },
            Kill { u, s } => match field {
                0 => *s = new_session,
                _ => *u = new_user,
            },
            TakeBack { u } => *u = new_user,
        }
        request
    }

    /// The request with one body byte changed, often to a value at a bound.
    fn other_byte(&mut self, request: Request) -> Request {
        let mut bytes = request.bytes();
        let at = 1 + self.chance.below(bytes.len() - 1);
        let bounds = [0, 1, 2, 3, 7, 8, 15, 16, 17, 62, 63, 64, 65, 128, 254, 255];
        bytes[at] = match self.chance.below(4) {
            0 => bytes[at].wrapping_add(1),
            1 => self.chance.next() as u8,
            _ => self.chance.one_of(&bounds).unwrap(),
        };
        whole(&bytes)
    }

    /// The request with some body bytes over every bound.
    fn beyond(&mut self, request: Request) -> Request {
        let mut bytes = request.bytes();
        for byte in &mut bytes[1..] {
            if self.chance.percent(40) {
                *byte = 64 + self.chance.below(192) as u8;
            }
        }
        whole(&bytes)
    }

    /// A body of small numbers.
    fn any(&mut self, kind: u8) -> Request {
        let mut bytes = vec![kind];
        for _ in 0..body_length(kind).unwrap() {
            let small = self.chance.below(4) as u8;
            bytes.push(if self.chance.percent(90) { small } else { self.chance.next() as u8 });
        }
        whole(&bytes)
    }

    /// An unknown kind with bytes after it that must not be judged, or a cut body.
    fn end_badly(&mut self, ending: usize, out: &mut Vec<u8>) {
        if ending == 0 {
            out.push(unknown_kind(&mut self.chance));
            out.extend(TakeBack { u: 0 }.bytes());
        } else {
            let kind = self.chance.one_of(&KINDS).unwrap();
            let bytes = self.propose(kind).unwrap_or_else(|| self.any(kind)).bytes();
            let kept = 1 + self.chance.below(bytes.len() - 1);
            out.extend(&bytes[..kept]);
        }
    }
}

/// Whether the level and the categories are wrong by the rule: equal under rule 1, covered by the first under rule 2.
fn wrong_parts(rule: Rule, first: Label, second: Label) -> (bool, bool) {
    match rule {
        Rule::One => (first.0 != second.0, first.1 != second.1),
        Rule::Two => (first.0 < second.0, second.1 & !first.1 != 0),
    }
}

/// An unknown kind, often one beside the known ones.
pub fn unknown_kind(chance: &mut Chance) -> u8 {
    let unknown: Vec<u8> = (0..=255).filter(|k| body_length(*k).is_none()).collect();
    let near: Vec<u8> = unknown.iter().copied().filter(|k| *k <= 0x22).collect();
    let kind = if chance.percent(60) { chance.one_of(&near) } else { chance.one_of(&unknown) };
    kind.unwrap()
}

fn whole(bytes: &[u8]) -> Request {
    match frame(bytes) {
        Frame::Whole(request, length) if length == bytes.len() => request,
        _ => unreachable!("a whole request was changed within its body"),
    }
}
