// The refusals of documents 01 and 02, row by row, each with the record that decides and the two values.

use crate::desk::*;
use crate::places::Places;
use crate::reasons::{Failed, Record};
use crate::request::Request::{self, *};

const LAST_ID: u8 = 63;
const LAST_ROOM: u8 = 16;
const LAST_LEVEL: u8 = 7;
const NO: u8 = 0;
const YES: u8 = 1;

type Clause = Option<Failed>;
type Row = fn(&Desk, &Request) -> Clause;

/// The rows in the order in which they are asked: 16 directly after 9.
const ROWS: [(u8, Row); 11] = [
    (3, Desk::row_3),
    (4, Desk::row_4),
    (5, Desk::row_5),
    (6, Desk::row_6),
    (7, Desk::row_7),
    (8, Desk::row_8),
    (9, Desk::row_9),
    (16, Desk::row_16),
    (10, Desk::row_10),
    (11, Desk::row_11),
    (12, Desk::row_12),
];

fn when(fails: bool, clause: &'static str, record: Record, held: impl Into<u32>, wanted: impl Into<u32>) -> Clause {
    fails.then(|| Failed { clause, record, held: held.into(), wanted: wanted.into() })
}

/// Where no record decides: what was asked for or reached, and its bound.
fn bound(fails: bool, clause: &'static str, asked: impl Into<u32>, bound: impl Into<u32>) -> Clause {
    when(fails, clause, Record::None, asked, bound)
}

/// What must exist; there is no bound.
fn there(found: bool, clause: &'static str, asked: impl Into<u32>) -> Clause {
    bound(!found, clause, asked, 0u8)
}

/// What must not exist yet: its id twice.
fn new(found: bool, clause: &'static str, record: Record) -> Clause {
    when(found, clause, record, record.id(), record.id())
}

/// The two labels of a request: the one that the record has, and the one wanted of it.
enum Labels {
    /// The record's must cover the other.
    Cover(Record, Label, Label),
    /// They must be equal.
    Equal(Record, Label, Label),
}
use Labels::*;

impl Desk {
    /// The first refusal that applies, with the first condition under it that fails.
    pub fn refusal(&self, request: &Request) -> Option<(u8, Failed)> {
        self.refusals(request).next()
    }

    /// Every refusal that applies, in order. A row may rely on those from 3 to 8 before it: once one of these applies, ask no further.
    pub fn refusals<'a>(&'a self, request: &'a Request) -> impl Iterator<Item = (u8, Failed)> + 'a {
        ROWS.iter().filter_map(move |(n, row)| row(self, request).map(|failed| (*n, failed)))
    }

    /// Users, scripts, sessions, the room, the level, then what Enrol alone has.
    fn row_3(&self, request: &Request) -> Clause {
        let u_ = |u: u8| bound(u > LAST_ID, "u over 63", u, LAST_ID);
        let w_ = |w: u8| bound(w > LAST_ID, "w over 63", w, LAST_ID);
        let script_ = |n: u8| bound(n > LAST_ID, "script over 63", n, LAST_ID);
        let session = |s: u8| bound(s > LAST_ID, "session over 63", s, LAST_ID);
        let room_ = |r: u8| bound(r > LAST_ROOM, "room over 16", r, LAST_ROOM).or(bound(r == 0, "room 0", r, 1u8));
        let level_ = |l: u8| bound(l > LAST_LEVEL, "level over 7", l, LAST_LEVEL);
        match *request {
            Enrol { u, new, sort, level, c, admin } => {
                let outsider = |fails: bool, clause, field: u16| bound(sort == OUTSIDER && fails, clause, field, 0u8);
                u_(u)
                    .or(bound(new > LAST_ID, "new over 63", new, LAST_ID))
                    .or(level_(level))
                    .or(bound(sort != STAFF && sort != OUTSIDER, "sort not 0 or 2", sort, 0u8))
                    .or(bound(admin > YES, "admin not 0 or 1", admin, YES))
                    .or(outsider(level != 0, "sort 2 with level", level.into()))
                    .or(outsider(c != 0, "sort 2 with categories", c))
                    .or(outsider(admin != NO, "sort 2 with admin", admin.into()))
            }
            Establish { u, room } | Disband { u, room } => u_(u).or(room_(room)),
            JoinStaff { u, w, room }
            | LeaveStaff { u, w, room }
            | LeaveOutsider { u, w, room }
            | MakeLead { u, w, room }
            | EndLead { u, w, room } => u_(u).or(w_(w)).or(room_(room)),
            JoinOutsider { u, w, room, level, .. } => u_(u).or(w_(w)).or(room_(room)).or(level_(level)),
            Add { u, script, room, .. } | Remove { u, script, room, .. } | Merge { u, script, room, .. } => {
                u_(u).or(script_(script)).or(room_(room))
            }
            Import { u, script1, script2, room, .. } => u_(u)
                .or(script_(script1))
                .or(bound(script2 > LAST_ID, "script2 over 63", script2, LAST_ID))
                .or(room_(room)),
            OpenRoom { u, s, room, level, .. } => u_(u).or(session(s)).or(room_(room)).or(level_(level)),
            OpenHouse { u, s, level, .. } | OpenRo { u, s, level, .. } => u_(u).or(session(s)).or(level_(level)),
            Read { s, script, .. } | Update { s, script, .. } | Create { s, script } => script_(script).or(session(s)),
            Kill { u, s } => u_(u).or(session(s)),
            TakeBack { u } => u_(u),
        }
    }

    /// Users, the room, scripts, the session, the draft.
    fn row_4(&self, request: &Request) -> Clause {
        let h = &self.house;
        let u_ = |u: u8| there(h.users.contains_key(&u), "no such u", u);
        let w_ = |w: u8| there(h.users.contains_key(&w), "no such w", w);
        let room_ = |r: u8| there(h.rooms.contains(r), "no such room", r);
        let script_ = |n: u8| there(h.scripts.contains_key(&n), "no such script", n);
        let session = |s: u8| there(h.sessions.contains_key(&s), "no such session", s);
        let draft = |script: u8, v: u32| match h.drafts.get(&v) {
            None => there(false, "no such draft", v),
            Some(draft) => there(draft.script == script, "draft of another script", v),
        };
        match *request {
            // On a desk without users the acting user need not exist.
            Enrol { .. } if h.users.is_empty() => None,
            Enrol { u, .. } | Establish { u, .. } => u_(u),
            JoinStaff { u, w, room }
            | LeaveStaff { u, w, room }
            | JoinOutsider { u, w, room, .. }
            | LeaveOutsider { u, w, room }
            | MakeLead { u, w, room }
            | EndLead { u, w, room } => u_(u).or(w_(w)).or(room_(room)),
            Add { u, script, v, room } | Remove { u, script, v, room } | Merge { u, script, v, room } => {
                u_(u).or(room_(room)).or(script_(script)).or(draft(script, v))
            }
            Import { u, script1, v, script2, room } => u_(u)
                .or(room_(room))
                .or(script_(script1))
                .or(there(h.scripts.contains_key(&script2), "no such script2", script2))
                .or(draft(script1, v)),
            Disband { u, room } | OpenRoom { u, room, .. } => u_(u).or(room_(room)),
            OpenHouse { u, .. } | OpenRo { u, .. } => u_(u),
            Read { s, script, v } | Update { s, script, v } => script_(script).or(session(s)).or(draft(script, v)),
            Create { s, .. } => session(s),
            Kill { u, s } => u_(u).or(session(s)),
            TakeBack { u } => u_(u),
        }
    }

    fn row_5(&self, request: &Request) -> Clause {
        let h = &self.house;
        match *request {
            Enrol { new: user, .. } => new(h.users.contains_key(&user), "user exists", Record::User(user)),
            Establish { room, .. } => new(h.rooms.contains(room), "room exists", Record::Room(room)),
            OpenRoom { s, .. } | OpenHouse { s, .. } | OpenRo { s, .. } => {
                new(h.sessions.contains_key(&s), "session exists", Record::Session(s))
            }
            Create { script, .. } => new(h.scripts.contains_key(&script), "script exists", Record::Script(script)),
            _ => None,
        }
    }

    fn row_6(&self, request: &Request) -> Clause {
        let h = &self.house;
        match *request {
            Enrol { u, new, sort, admin, .. } if h.users.is_empty() => bound(u != new, "empty desk: u not new", u, new)
                .or(bound(sort != STAFF, "empty desk: not staff", sort, STAFF))
                .or(bound(admin != YES, "empty desk: not administrator", admin, YES)),
            Enrol { u, .. } | Establish { u, .. } | TakeBack { u } => {
                when(!h.user(u).administrator, "no house administrator", Record::User(u), NO, YES)
            }
            JoinStaff { u, room, .. }
            | LeaveStaff { u, room, .. }
            | JoinOutsider { u, room, .. }
            | LeaveOutsider { u, room, .. }
            | Add { u, room, .. }
            | Remove { u, room, .. }
            | Import { u, room, .. }
            | Merge { u, room, .. }
            | Disband { u, room }
            | MakeLead { u, room, .. }
            | EndLead { u, room, .. } => {
                when(!h.leads(u, room), "u doesn't lead the room", Record::User(u), h.user(u).led, Places::only(room))
            }
            Kill { u, s } => {
                let Session { owner, place, .. } = h.sessions[&s];
                let (leads, clause) = match place {
                    None => (false, "neither owns; RO has no room"),
                    Some(HOUSE) => (false, "neither owns; house has no lead"),
                    Some(room) => (h.leads(u, room), "neither owns nor leads its room"),
                };
                when(owner != u && !leads, clause, Record::Session(s), owner, u)
            }
            _ => None,
        }
    }

    fn row_7(&self, request: &Request) -> Clause {
        let sort = |u: u8| self.house.user(u).sort;
        let user = |fails, clause, u, wanted| when(fails, clause, Record::User(u), sort(u), wanted);
        match *request {
            JoinStaff { w, .. } | LeaveStaff { w, .. } | MakeLead { w, .. } | EndLead { w, .. } => {
                user(sort(w) != STAFF, "w not staff", w, STAFF)
            }
            JoinOutsider { w, .. } => user(sort(w) == STAFF, "w staff", w, OUTSIDER),
            LeaveOutsider { w, .. } => user(sort(w) != FREELANCER, "w no freelancer", w, FREELANCER),
            OpenHouse { u, .. } => user(sort(u) != STAFF, "u not staff", u, STAFF),
            Update { s, .. } | Create { s, .. } => {
                when(self.house.sessions[&s].place.is_none(), "RO session", Record::Session(s), RO, RW)
            }
            _ => None,
        }
    }

    fn row_8(&self, request: &Request) -> Clause {
        let h = &self.house;
        let joined = |fails, clause, u: u8, room| when(fails, clause, Record::User(u), h.user(u).joined, Places::only(room));
        let is_in = |u: u8, room| h.user(u).joined.contains(room);
        let led = |fails, clause, w: u8, room| when(fails, clause, Record::User(w), h.user(w).led, Places::only(room));
        let draft = |fails, clause, v: u32, place| when(fails, clause, Record::Draft(v), h.places(v), Places::only(place));
        let is_at = |v: u32, place| h.places(v).contains(place);
        let origin = |clause, script: u8, place: u8| {
            let origin = h.scripts[&script].origin;
            when(origin != place, clause, Record::Script(script), origin, place)
        };
        match *request {
            JoinStaff { w, room, .. } | JoinOutsider { w, room, .. } => joined(is_in(w, room), "already in", w, room),
            LeaveStaff { w, room, .. } | LeaveOutsider { w, room, .. } => joined(!is_in(w, room), "not in", w, room),
            Add { v, room, .. } => draft(!is_at(v, HOUSE), "house not among the places", v, HOUSE)
                .or(draft(is_at(v, room), "room among the places", v, room)),
            Remove { v, room, .. } => draft(!is_at(v, room), "room not among the places", v, room),
            Merge { script, v, room, .. } => draft(!is_at(v, room), "room not among the places", v, room)
                .or(origin("origin not house", script, HOUSE)),
            Import { script1, script2, room, .. } => origin("origin of script1 not the room", script1, room)
                .or(origin("origin of script2 not the house", script2, HOUSE)),
            MakeLead { w, room, .. } => led(h.leads(w, room), "already leads", w, room),
            EndLead { w, room, .. } => {
                let leads = h.leads_of(room).len() as u32;
                led(!h.leads(w, room), "w doesn't lead the room", w, room)
                    .or(when(leads < 2, "the only lead", Record::Room(room), leads, 2u8))
            }
            OpenRoom { u, room, .. } => joined(!is_in(u, room), "u not in the room", u, room),
            Read { s, v, .. } | Update { s, v, .. } => match h.sessions[&s].place {
                Some(place) => draft(!is_at(v, place), "session's place not among them", v, place),
                None => self.read_only(h.sessions[&s].owner, v),
            },
            _ => None,
        }
    }

    /// Read by RO: wanted is a room of the owner's or, for staff, the house.
    fn read_only(&self, owner: u8, v: u32) -> Clause {
        let (owner, places) = (self.house.user(owner), self.house.places(v));
        let mut wanted = owner.joined;
        let mut clause = "RO: no place shared";
        if owner.sort == STAFF {
            wanted.insert(HOUSE);
            clause = "RO of staff: no place shared";
        }
        when(places.is_disjoint(&wanted), clause, Record::Draft(v), places, wanted)
    }

    /// The level fails or differs.
    fn row_9(&self, request: &Request) -> Clause {
        match self.labels(request)? {
            Cover(record, (held, _), (wanted, _)) => when(held < wanted, "level not covered", record, held, wanted),
            Equal(record, (held, _), (wanted, _)) => when(held != wanted, "levels differ", record, held, wanted),
        }
    }

    /// The categories do; the level was asked before.
    fn row_16(&self, request: &Request) -> Clause {
        match self.labels(request)? {
            Cover(record, (_, held), (_, wanted)) => {
                when(wanted & !held != 0, "categories not covered", record, held, wanted)
            }
            Equal(record, (_, held), (_, wanted)) => when(held != wanted, "categories differ", record, held, wanted),
        }
    }

    /// What 9 and 16 compare; never the place.
    fn labels(&self, request: &Request) -> Option<Labels> {
        let h = &self.house;
        let script_ = |n: u8| h.scripts[&n].label();
        let session = |s: u8| h.sessions[&s].label();
        Some(match *request {
            OpenRoom { u, level, c, .. } | OpenHouse { u, level, c, .. } | OpenRo { u, level, c, .. } => {
                Cover(Record::User(u), h.user(u).label(), (level, c))
            }
            Read { s, script, .. } => Cover(Record::Session(s), session(s), script_(script)),
            Update { s, script, .. } => Equal(Record::Session(s), session(s), script_(script)),
            Import { script1, script2, .. } => match self.rule {
                Rule::One => Equal(Record::Script(script2), script_(script2), script_(script1)),
                Rule::Two => Cover(Record::Script(script2), script_(script2), script_(script1)),
            },
            _ => return None,
        })
    }

    fn row_10(&self, request: &Request) -> Clause {
        let live = self.house.drafts.len();
        bound(issues(request) && live >= MOST_DRAFTS, "256 live drafts", live as u32, MOST_DRAFTS as u32)
    }

    fn row_11(&self, request: &Request) -> Clause {
        bound(issues(request) && self.last == u32::MAX, "last number issued", self.last, u32::MAX)
    }

    fn row_12(&self, request: &Request) -> Clause {
        let taken = matches!(request, TakeBack { .. });
        bound(taken && self.kept == 0, "kept count 0", self.kept as u32, 0u8)
    }
}
