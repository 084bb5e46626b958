// The image of document 02: a desk written as bytes, and bytes read as a desk or refused.

use crate::desk::*;
use crate::places::Places;
use crate::rules;

pub const COUNTER: u8 = 0x40;
pub const USER: u8 = 0x41;
pub const ROOM: u8 = 0x42;
pub const SCRIPT: u8 = 0x43;
pub const SESSION: u8 = 0x44;
pub const DRAFT: u8 = 0x45;
/// Stands directly behind the counter where the rule is 2.
pub const RULE: u8 = 0x46;

/// Refusal 14: no bytes, or an end inside a body.
pub const CUT: u8 = 14;
/// Refusal 15: not an image.
pub const NO_IMAGE: u8 = 15;

/// What stands for the missing place of an RO session.
const NO_PLACE: u8 = 255;

/// The bytes behind a record's kind; None for an unknown kind.
fn body_length(kind: u8) -> Option<usize> {
    Some(match kind {
        COUNTER => 4,
        USER => 14,
        ROOM => 1,
        SCRIPT => 5,
        SESSION => 7,
        DRAFT => 9,
        RULE => 0,
        _ => return None,
    })
}

/// The desk's image: the kinds in their order, each ascending by id or number, as the tables are.
pub fn write(desk: &Desk) -> Vec<u8> {
    let h = &desk.house;
    let mut out = vec![COUNTER];
    out.extend(desk.last.to_be_bytes());
    if desk.rule == Rule::Two {
        out.push(RULE);
    }
    for (id, user) in &h.users {
        out.extend([USER, *id, user.sort, user.level]);
        out.extend(user.c.to_be_bytes());
        out.extend(u32::from(user.joined).to_be_bytes());
        out.extend(u32::from(user.led).to_be_bytes());
        out.push(user.administrator as u8);
    }
    for room in h.rooms.iter() {
        out.extend([ROOM, room]);
    }
    for (id, script) in &h.scripts {
        out.extend([SCRIPT, *id, script.level]);
        out.extend(script.c.to_be_bytes());
        out.push(script.origin);
    }
    for (id, session) in &h.sessions {
        out.extend([SESSION, *id, session.owner, session.level]);
        out.extend(session.c.to_be_bytes());
        out.extend(session.place.map_or([RO, NO_PLACE], |place| [RW, place]));
    }
    for (number, draft) in &h.drafts {
        out.push(DRAFT);
        out.extend(number.to_be_bytes());
        out.push(draft.script);
        out.extend(u32::from(draft.places).to_be_bytes());
    }
    out
}

/// Why bytes are refused: the number, and what is wrong in words: the first thing in the form and the bounds, every record rule.
#[derive(Debug, PartialEq, Eq)]
pub struct Refused {
    pub number: u8,
    pub wrong: Vec<&'static str>,
}

/// What the frames, the form and the bounds can fail by, besides the record rules.
pub const FAULTS: [&str; 35] = [
    "no bytes",
    "an end inside a body",
    "an unknown kind",
    "the first record is not the counter",
    "a second counter",
    "the rule not directly behind the counter",
    "the rule twice",
    "kinds out of order",
    "users not ascending",
    "rooms not ascending",
    "scripts not ascending",
    "sessions not ascending",
    "drafts not ascending",
    "user over 63",
    "sort over 2",
    "level of a user over 7",
    "the house among the rooms joined",
    "rooms joined over 16",
    "the house among the rooms led",
    "rooms led over 16",
    "administrator not 0 or 1",
    "room 0",
    "room over 16",
    "script over 63",
    "level of a script over 7",
    "origin over 16",
    "session over 63",
    "owner over 63",
    "level of a session over 7",
    "kind of a session not 0 or 1",
    "place of an RO session not 255",
    "place of an RW session over 16",
    "script of a draft over 63",
    "places of a draft over 16",
    "more than 256 drafts",
];

/// Every way to be refused, in words.
pub fn faults() -> Vec<&'static str> {
    let rules = rules::rules(&House::default(), 0);
    FAULTS.into_iter().chain(rules.map(|(words, _)| words)).collect()
}

fn test(holds: bool, number: u8, fault: &'static str) -> Result<(), Refused> {
    if holds {
        return Ok(());
    }
    assert!(FAULTS.contains(&fault), "{fault} is not listed");
    Err(Refused { number, wrong: vec![fault] })
}

/// The desk that an image opens as, with no kept change.
pub fn read(bytes: &[u8]) -> Result<Desk, Refused> {
    let mut reader = Reader::default();
    for record in frames(bytes)? {
        reader.record(record)?;
    }
    let Reader { house, last, rule, .. } = reader;
    let wrong: Vec<&str> = rules::broken(rules::rules(&house, last)).collect();
    if wrong.is_empty() { Ok(Desk::of(house, last, rule)) } else { Err(Refused { number: NO_IMAGE, wrong }) }
}

/// Walks the frames, from the first byte to the last, and asks nothing else of them.
pub fn frames(bytes: &[u8]) -> Result<Vec<&[u8]>, Refused> {
    test(!bytes.is_empty(), CUT, "no bytes")?;
    let mut records = Vec::new();
    let mut left = bytes;
    while let Some(kind) = left.first() {
        let length = body_length(*kind);
        test(length.is_some(), NO_IMAGE, "an unknown kind")?;
        let length = 1 + length.unwrap_or(0);
        test(length <= left.len(), CUT, "an end inside a body")?;
        let (record, rest) = left.split_at(length);
        records.push(record);
        left = rest;
    }
    Ok(records)
}

/// The bytes of a body, front to back.
struct Body<'a>(&'a [u8]);

impl Body<'_> {
    fn take<const N: usize>(&mut self) -> [u8; N] {
        let (front, rest) = self.0.split_at(N);
        self.0 = rest;
        front.try_into().expect("N bytes were split off")
    }

    fn one(&mut self) -> u8 {
        u8::from_be_bytes(self.take())
    }

    fn two(&mut self) -> u16 {
        u16::from_be_bytes(self.take())
    }

    fn four(&mut self) -> u32 {
        u32::from_be_bytes(self.take())
    }
}

fn within(holds: bool, fault: &'static str) -> Result<(), Refused> {
    test(holds, NO_IMAGE, fault)
}

/// Bits over place 16.
fn beyond(set: u32) -> bool {
    set >> 17 != 0
}

fn with_house(set: u32) -> bool {
    set & 1 != 0
}

#[derive(Default)]
struct Reader {
    house: House,
    last: u32,
    /// Rule 1 until a record says otherwise.
    rule: Rule,
    /// The kind and the id or number of the record before; the rule has neither, and is not counted.
    before: Option<(u8, u32)>,
}

impl Reader {
    /// Tests one whole record, and takes it in.
    fn record(&mut self, record: &[u8]) -> Result<(), Refused> {
        let mut body = Body(&record[1..]);
        match record[0] {
            COUNTER => self.counter(&mut body)?,
            USER => self.user(&mut body)?,
            ROOM => self.room(&mut body)?,
            SCRIPT => self.script(&mut body)?,
            SESSION => self.session(&mut body)?,
            DRAFT => self.draft(&mut body)?,
            _ => self.rule()?,
        }
        assert!(body.0.is_empty(), "the body was not read to its end");
        Ok(())
    }

    /// The counter first and once, then the kinds in their order, each ascending.
    fn follows(&mut self, kind: u8, id: u32, ascending: &'static str) -> Result<(), Refused> {
        let Some((kind_before, id_before)) = self.before.replace((kind, id)) else {
            return within(kind == COUNTER, "the first record is not the counter");
        };
        within(kind != COUNTER, "a second counter")?;
        within(kind >= kind_before, "kinds out of order")?;
        within(kind > kind_before || id > id_before, ascending)
    }

    fn counter(&mut self, body: &mut Body) -> Result<(), Refused> {
        self.last = body.four();
        self.follows(COUNTER, 0, "a second counter")
    }

    fn rule(&mut self) -> Result<(), Refused> {
        within(self.before.is_some(), "the first record is not the counter")?;
        within(self.rule == Rule::One, "the rule twice")?;
        within(self.before == Some((COUNTER, 0)), "the rule not directly behind the counter")?;
        self.rule = Rule::Two;
        Ok(())
    }

    fn user(&mut self, body: &mut Body) -> Result<(), Refused> {
        let (id, sort, level, c) = (body.one(), body.one(), body.one(), body.two());
        let (joined, led, administrator) = (body.four(), body.four(), body.one());
        self.follows(USER, id.into(), "users not ascending")?;
        within(id <= 63, "user over 63")?;
        within(sort <= 2, "sort over 2")?;
        within(level <= 7, "level of a user over 7")?;
        within(!with_house(joined), "the house among the rooms joined")?;
        within(!beyond(joined), "rooms joined over 16")?;
        within(!with_house(led), "the house among the rooms led")?;
        within(!beyond(led), "rooms led over 16")?;
        within(administrator <= 1, "administrator not 0 or 1")?;
        let administrator = administrator == 1;
        let (joined, led) = (Places::from(joined), Places::from(led));
        self.house.users.insert(id, User { sort, level, c, joined, led, administrator });
        Ok(())
    }

    fn room(&mut self, body: &mut Body) -> Result<(), Refused> {
        let id = body.one();
        self.follows(ROOM, id.into(), "rooms not ascending")?;
        within(id != HOUSE, "room 0")?;
        within(id <= 16, "room over 16")?;
        self.house.rooms.insert(id);
        Ok(())
    }

    fn script(&mut self, body: &mut Body) -> Result<(), Refused> {
        let (id, level, c, origin) = (body.one(), body.one(), body.two(), body.one());
        self.follows(SCRIPT, id.into(), "scripts not ascending")?;
        within(id <= 63, "script over 63")?;
        within(level <= 7, "level of a script over 7")?;
        within(origin <= 16, "origin over 16")?;
        self.house.scripts.insert(id, Script { level, c, origin });
        Ok(())
    }

    fn session(&mut self, body: &mut Body) -> Result<(), Refused> {
        let (id, owner, level, c) = (body.one(), body.one(), body.one(), body.two());
        let (kind, place) = (body.one(), body.one());
        self.follows(SESSION, id.into(), "sessions not ascending")?;
        within(id <= 63, "session over 63")?;
        within(owner <= 63, "owner over 63")?;
        within(level <= 7, "level of a session over 7")?;
        within(kind == RO || kind == RW, "kind of a session not 0 or 1")?;
        within(kind == RW || place == NO_PLACE, "place of an RO session not 255")?;
        within(kind == RO || place <= 16, "place of an RW session over 16")?;
        let place = if kind == RW { Some(place) } else { None };
        self.house.sessions.insert(id, Session { owner, level, c, place });
        Ok(())
    }

    fn draft(&mut self, body: &mut Body) -> Result<(), Refused> {
        let (number, script, places) = (body.four(), body.one(), body.four());
        self.follows(DRAFT, number, "drafts not ascending")?;
        within(script <= 63, "script of a draft over 63")?;
        within(!beyond(places), "places of a draft over 16")?;
        within(self.house.drafts.len() < MOST_DRAFTS, "more than 256 drafts")?;
        self.house.drafts.insert(number, Draft { script, places: Places::from(places) });
        Ok(())
    }
}
