// What a set of runs reached: pairs of kind and answer, conditions with their reasons, refusals that apply together, the two labels at Import, what a Join
// outsider ends, what becomes of leads, and events worth a name.

use crate::batch::bytes;
use crate::conditions::{Condition, CONDITIONS};
use crate::desk::*;
use crate::generate::generate;
use crate::imports::{self, standing, Standing, STANDINGS};
use crate::leads;
use crate::reasons::Failed;
use crate::request::{frame, Frame, Request, KINDS};
use crate::returns::{self, Standing as Stands};
use std::collections::{BTreeMap, BTreeSet};

/// The answers that the tables of 01 and 02 allow a whole request of the kind, as bytes.
fn allowed(kind: u8) -> Vec<u8> {
    let refusals: &[u8] = match kind {
        0x01 | 0x02 => &[3, 4, 5, 6],
        0x03..=0x06 | 0x0C | 0x0D => &[3, 4, 6, 7, 8],
        0x07 | 0x08 | 0x0A => &[3, 4, 6, 8],
        0x09 => &[3, 4, 6, 8, 9, 16, 10, 11],
        0x0B | 0x16 => &[3, 4, 6],
        0x10 => &[3, 4, 5, 8, 9, 16],
        0x11 => &[3, 4, 5, 7, 9, 16],
        0x12 => &[3, 4, 5, 9, 16],
        0x13 => &[3, 4, 8, 9, 16],
        0x14 => &[3, 4, 7, 8, 9, 16, 10, 11],
        0x15 => &[3, 4, 5, 7, 10, 11],
        0x20 => &[3, 4, 6, 12],
        _ => unreachable!("KINDS are known"),
    };
    let granted = if matches!(kind, 0x09 | 0x14 | 0x15) { 0x81 } else { 0x80 };
    std::iter::once(granted).chain(refusals.iter().map(|n| 0xC0 + n)).collect()
}

/// Refusals from 9 on that can apply to one request of the kind, at 0C and 0D from 6 on, all that do; the first is given.
fn together(kind: u8) -> &'static [&'static [u8]] {
    match kind {
        // Who is not staff leads nothing: 7 and 8 never come together at 0C, and always at 0D.
        0x0C => &[&[6], &[6, 7], &[6, 8], &[7], &[8]],
        0x0D => &[&[6], &[6, 7, 8], &[6, 8], &[7, 8], &[8]],
        0x10..=0x13 => &[&[9], &[9, 16], &[16]],
        0x09 | 0x14 => &[
            &[9], &[9, 16], &[16],
            &[9, 10], &[9, 16, 10], &[16, 10], &[10],
            &[9, 11], &[9, 16, 11], &[16, 11], &[11],
        ],
        _ => &[],
    }
}

const EVENTS: [&str; 17] = [
    "the 256th live draft",
    "a draft after one of 256 was deleted",
    "32 take-backs in a row, the 33rd refused with 12",
    "the desk emptied by take-backs",
    "a freelancer out of every room joins again",
    "a freelancer joins a second room",
    "a room established again after Disband",
    "a script number used again",
    "Merge with the house already among the places",
    "Remove deletes a draft, its script stays",
    "Remove deletes a draft and its script",
    "Disband deletes a draft of a house script",
    "Disband ends a session and leaves an RO session of its owner",
    "a lead leaves as a member",
    "a lead kills another's session",
    "a taken-back request had ended a session",
    "an administrator takes back his own enrolment",
];

/// What becomes of open sessions at a Join outsider. Only a freelancer's own can end, and only where a label is set.
const JOINS: [&str; 8] = [
    "a label set by Join outsider ends a session above its level",
    "a label set by Join outsider ends a session by the categories alone",
    "a label set by Join outsider leaves a session that it covers",
    "a label set by Join outsider leaves a session exactly at it",
    "a label set by Join outsider ends one session and leaves another of the same owner",
    "a label set by Join outsider ends a session and leaves another's that it does not cover",
    "a second room leaves a session that the label named does not cover",
    "a Join outsider that ended a session is taken back",
];

/// What becomes of leads, and what those do who were made one.
const LEADS: [&str; 16] = [
    "0C gives a room its second lead",
    "0C gives a room its third lead",
    "0C makes one a lead who is not in the room",
    "0C makes one a lead again",
    "0D ends another's lead",
    "0D ends the own lead",
    "0D ends the lead of who established the room",
    "0D ends the lead of one with an RW session in the room, which stays",
    "0D leaves a room one lead",
    "0C is taken back",
    "0D is taken back",
    "Disband by one who was made a lead",
    "Disband of a room with more than one lead",
    "a Disband of a room with more than one lead is taken back",
    "one who was made a lead kills another's session",
    "who led the room before is refused with 6",
];

#[derive(Default)]
pub struct Coverage {
    pairs: BTreeMap<(u8, u8), usize>,
    /// By the condition's place in the table and the kind of request.
    conditions: BTreeMap<(usize, u8), usize>,
    /// By the kind of request and all the refusals that applied.
    together: BTreeMap<(u8, Vec<u8>), usize>,
    /// By the rule, how the labels stand at an Import that no refusal before 9 applies to, and whether 256 drafts live.
    imports: BTreeMap<(Rule, Standing, bool), usize>,
    /// Reasons that are in no row of the table, answers to an Import that are not the documents', sessions that a Join outsider ends or leaves against them,
    /// and what else than a lead is moved by 0C or 0D.
    strays: BTreeSet<String>,
    events: BTreeMap<&'static str, usize>,
    taken_back: BTreeMap<u8, usize>,
    requests: usize,
    granted: usize,
}

impl Coverage {
    fn event(&mut self, name: &'static str) {
        debug_assert!(EVENTS.contains(&name) || JOINS.contains(&name) || LEADS.contains(&name));
        *self.events.entry(name).or_default() += 1;
    }

    fn refused(&mut self, rule: Rule, kind: u8, n: u8, failed: &Failed) {
        match CONDITIONS.iter().position(|c| c.asked_under(rule) && c.met(kind, n, failed)) {
            Some(row) => *self.conditions.entry((row, kind)).or_default() += 1,
            None => {
                self.strays.insert(format!("{kind:02X}: {n} {failed:?} is in no row of the table"));
            }
        }
    }

    /// An Import that no refusal before 9 applies to, on a desk with a number left.
    fn imported(&mut self, rule: Rule, before: &House, script1: u8, script2: u8, answer: Answer) {
        let label = |script: u8| before.scripts[&script].label();
        let (standing, full) = (standing(label(script2), label(script1)), before.drafts.len() == MOST_DRAFTS);
        *self.imports.entry((rule, standing, full)).or_default() += 1;
        if answer.byte() != imports::answer(rule, standing, full) {
            self.strays.insert(format!("{:02X} to an Import under {rule:?}, {}", answer.byte(), imports::words(standing)));
        }
    }

    /// A granted Join outsider, which may have set a label. An outsider's sessions have the zero label, which any covers, so they count for nothing.
    fn joined(&mut self, before: &House, after: &House, w: u8, label: Label) {
        let (sets, freelancer) = (returns::sets(before, w), before.users[&w].sort == FREELANCER);
        let (mut ended, mut own_left, mut others_left) = (false, false, false);
        for (s, session) in &before.sessions {
            let (own, stands) = (session.owner == w, returns::standing(label, session.label()));
            let (ends, now) = (returns::ends(before, session, w, label), after.sessions.get(s));
            if now != Some(session).filter(|_| !ends) {
                self.strays.insert(format!("Join outsider, label set {sets}, own session {own}, {stands:?}: then {now:?}"));
            }
            let covered = matches!(stands, Stands::Same | Stands::Covers);
            ended |= ends;
            own_left |= own && covered;
            others_left |= !own && !covered;
            match (own && freelancer, sets, stands) {
                (false, ..) => {}
                (_, false, _) if covered => {}
                (_, false, _) => self.event("a second room leaves a session that the label named does not cover"),
                (_, _, Stands::Lower) => self.event("a label set by Join outsider ends a session above its level"),
                (_, _, Stands::Lacks) => self.event("a label set by Join outsider ends a session by the categories alone"),
                (_, _, Stands::Covers) => self.event("a label set by Join outsider leaves a session that it covers"),
                (_, _, Stands::Same) => self.event("a label set by Join outsider leaves a session exactly at it"),
            }
        }
        if ended && own_left {
            self.event("a label set by Join outsider ends one session and leaves another of the same owner");
        }
        if ended && others_left {
            self.event("a label set by Join outsider ends a session and leaves another's that it does not cover");
        }
        match (freelancer, sets) {
            (true, true) => self.event("a freelancer out of every room joins again"),
            (true, false) => self.event("a freelancer joins a second room"),
            _ => {}
        }
    }

    /// A granted request about leads, or by one; the desk is as it was left.
    fn led(&mut self, before: &House, desk: &Desk, request: &Request, undone: Option<Request>) {
        let (after, founder) = (&desk.house, |room: u8| leads::founder(&desk.changes, room));
        match *request {
            Request::MakeLead { w, room, .. } | Request::EndLead { w, room, .. } if !leads::only_lead_moved(before, after, w, room) => {
                self.strays.insert(format!("{request:?} moved something else"));
            }
            Request::MakeLead { w, room, .. } => {
                match after.leads_of(room).len() {
                    2 => self.event("0C gives a room its second lead"),
                    3 => self.event("0C gives a room its third lead"),
                    _ => {}
                }
                if !before.users[&w].joined.contains(room) {
                    self.event("0C makes one a lead who is not in the room");
                }
                // The last change is this one.
                if desk.changes.split_last().is_some_and(|(_, earlier)| leads::led_before(earlier, w, room)) {
                    self.event("0C makes one a lead again");
                }
            }
            Request::EndLead { u, w, room } => {
                self.event(if u == w { "0D ends the own lead" } else { "0D ends another's lead" });
                if founder(room) == Some(w) {
                    self.event("0D ends the lead of who established the room");
                }
                if after.sessions.values().any(|s| s.owner == w && s.place == Some(room)) {
                    self.event("0D ends the lead of one with an RW session in the room, which stays");
                }
                if after.leads_of(room).len() == 1 {
                    self.event("0D leaves a room one lead");
                }
            }
            Request::Disband { u, room } => {
                if founder(room) != Some(u) {
                    self.event("Disband by one who was made a lead");
                }
                if before.leads_of(room).len() > 1 {
                    self.event("Disband of a room with more than one lead");
                }
            }
            Request::Kill { u, s } => {
                let Session { owner, place, .. } = before.sessions[&s];
                if owner != u && place.and_then(founder) != Some(u) {
                    self.event("one who was made a lead kills another's session");
                }
            }
            Request::TakeBack { .. } => match undone {
                Some(Request::MakeLead { .. }) => self.event("0C is taken back"),
                Some(Request::EndLead { .. }) => self.event("0D is taken back"),
                Some(Request::Disband { room, .. }) if after.leads_of(room).len() > 1 => {
                    self.event("a Disband of a room with more than one lead is taken back")
                }
                _ => {}
            },
            _ => {}
        }
    }

    /// A refusal with 6 where who asks led the room before.
    fn not_led(&mut self, desk: &Desk, request: &Request) {
        let asked = match *request {
            Request::Kill { u, s } => desk.house.sessions[&s].place.map(|place| (u, place)),
            Request::JoinStaff { u, room, .. }
            | Request::LeaveStaff { u, room, .. }
            | Request::JoinOutsider { u, room, .. }
            | Request::LeaveOutsider { u, room, .. }
            | Request::Add { u, room, .. }
            | Request::Remove { u, room, .. }
            | Request::Import { u, room, .. }
            | Request::Merge { u, room, .. }
            | Request::Disband { u, room }
            | Request::MakeLead { u, room, .. }
            | Request::EndLead { u, room, .. } => Some((u, room)),
            _ => None,
        };
        if asked.is_some_and(|(u, room)| leads::led_before(&desk.changes, u, room)) {
            self.event("who led the room before is refused with 6");
        }
    }

    /// Prints how often each kind met its conditions under the numbers asked for; what was never met, and what no row has. Of a condition that is asked
    /// under one rule alone, only where the runs went under it.
    fn unmet(&self, rules: &[Rule], asked: impl Fn(u8) -> bool) -> Vec<String> {
        let mut missing: Vec<String> = self.strays.iter().cloned().collect();
        let here = |c: &Condition| asked(c.n) && rules.iter().any(|rule| c.asked_under(*rule));
        for (row, condition) in CONDITIONS.iter().enumerate().filter(|(_, c)| here(c)) {
            let name = format!("{} {:02X} {}", condition.n, condition.record, condition.clause);
            let mut line = format!("{name}:");
            for kind in condition.kinds {
                let times = self.conditions.get(&(row, *kind)).copied().unwrap_or(0);
                line += &format!(" {kind:02X}:{times}");
                if times == 0 {
                    missing.push(format!("{kind:02X} {name}"));
                }
            }
            println!("{line}");
        }
        missing.extend(self.never_together(asked));
        missing
    }

    /// The same of the refusals that apply together, where the last of them is asked for.
    fn never_together(&self, asked: impl Fn(u8) -> bool) -> Vec<String> {
        let mut missing = Vec::new();
        for kind in KINDS {
            for refusals in together(kind).iter().filter(|r| r.last().is_some_and(|n| asked(*n))) {
                let times = self.together.get(&(kind, refusals.to_vec())).copied().unwrap_or(0);
                println!("{kind:02X} together {refusals:?}: {times}");
                if times == 0 {
                    missing.push(format!("{kind:02X} together {refusals:?}"));
                }
            }
        }
        missing
    }

    /// The same of events that must happen so many times.
    fn seldom(&self, events: &[&str], least: usize) -> Vec<String> {
        let mut missing = Vec::new();
        for event in events {
            let times = self.events.get(event).copied().unwrap_or(0);
            println!("{times} {event}");
            if times < least {
                missing.push(format!("{event}, {least} times"));
            }
        }
        missing
    }

    /// The same of the labels at Import; each must be met with room for a draft, and where it is said without room too.
    fn never_imported(&self, rules: &[Rule], without_room: bool) -> Vec<String> {
        let mut missing = Vec::new();
        for rule in rules {
            for (standing, full) in STANDINGS.iter().flat_map(|standing| [(*standing, false), (*standing, true)]) {
                let times = self.imports.get(&(*rule, standing, full)).copied().unwrap_or(0);
                let room = if full { ", 256 live drafts" } else { "" };
                let name = format!("Import under rule {}, {}{room}", rule.number(), imports::words(standing));
                println!("{name}: {:02X} {times}", imports::answer(*rule, standing, full));
                if times == 0 && (without_room || !full) {
                    missing.push(name);
                }
            }
        }
        missing
    }

    fn run(&mut self, bytes: &[u8], opened: u32, rule: Rule) {
        let mut desk = Desk::open(opened, rule);
        let mut at = 0;
        let mut in_a_row = 0;
        let mut was_full = false;
        let mut disbanded = BTreeSet::new();
        let mut scripts_seen = BTreeSet::new();
        loop {
            let (request, length) = match frame(&bytes[at..]) {
                Frame::End => return,
                Frame::Unknown(kind) | Frame::Cut(kind) => {
                    let byte = if crate::request::body_length(kind).is_none() { 0xC1 } else { 0xC2 };
                    *self.pairs.entry((kind, byte)).or_default() += 1;
                    self.requests += 1;
                    return;
                }
                Frame::Whole(request, length) => (request, length),
            };
            at += length;
            let before = desk.house.clone();
            let undone = desk.changes.last().map(|c| c.request);
            let answer = desk.answer(&request);
            self.requests += 1;
            self.granted += answer.granted() as usize;
            *self.pairs.entry((request.kind(), answer.byte())).or_default() += 1;
            match (request, answer) {
                (_, Answer::Refused(3..=8 | 11, _)) => {}
                (Request::Import { script1, script2, .. }, _) => self.imported(rule, &before, script1, script2, answer),
                _ => {}
            }
            if let Answer::Refused(n, failed) = answer {
                self.refused(rule, request.kind(), n, &failed);
                if n == 6 {
                    self.not_led(&desk, &request);
                }
                // Once 3 and 4 do not apply, 0C and 0D can be asked all that is left.
                let about_leads = matches!(request, Request::MakeLead { .. } | Request::EndLead { .. });
                if !(3..=8).contains(&n) || about_leads && n >= 6 {
                    let refusals = desk.refusals(&request).map(|(n, _)| n).collect();
                    *self.together.entry((request.kind(), refusals)).or_default() += 1;
                }
                if n == 12 && in_a_row >= 32 {
                    self.event("32 take-backs in a row, the 33rd refused with 12");
                }
                continue;
            }
            in_a_row = if matches!(request, Request::TakeBack { .. }) { in_a_row + 1 } else { 0 };
            self.observe(&before, &desk.house, &request, undone);
            self.led(&before, &desk, &request, undone);
            match request {
                Request::Disband { room, .. } => {
                    disbanded.insert(room);
                }
                Request::Establish { room, .. } if disbanded.contains(&room) => {
                    self.event("a room established again after Disband")
                }
                Request::Create { script, .. } if !scripts_seen.insert(script) => {
                    self.event("a script number used again")
                }
                _ => {}
            }
            if desk.house.drafts.len() == MOST_DRAFTS && issues(&request) {
                self.event("the 256th live draft");
                if was_full {
                    self.event("a draft after one of 256 was deleted");
                }
                was_full = true;
            }
        }
    }

    fn observe(&mut self, before: &House, after: &House, request: &Request, undone: Option<Request>) {
        match *request {
            Request::TakeBack { u } => {
                let undone = undone.expect("granted");
                *self.taken_back.entry(undone.kind()).or_default() += 1;
                if after.users.is_empty() {
                    self.event("the desk emptied by take-backs");
                }
                if matches!(undone, Request::Enrol { new, .. } if new == u) {
                    self.event("an administrator takes back his own enrolment");
                }
                if after.sessions.keys().any(|s| !before.sessions.contains_key(s)) {
                    self.event("a taken-back request had ended a session");
                    if matches!(undone, Request::JoinOutsider { .. }) {
                        self.event("a Join outsider that ended a session is taken back");
                    }
                }
            }
            Request::JoinOutsider { w, level, c, .. } => self.joined(before, after, w, (level, c)),
            Request::LeaveStaff { w, room, .. } if before.users[&w].led.contains(room) => {
                self.event("a lead leaves as a member")
            }
            Request::Merge { v, .. } if before.drafts[&v].places.contains(HOUSE) => {
                self.event("Merge with the house already among the places")
            }
            Request::Remove { script, v, .. } if !after.drafts.contains_key(&v) => {
                if after.scripts.contains_key(&script) {
                    self.event("Remove deletes a draft, its script stays");
                } else {
                    self.event("Remove deletes a draft and its script");
                }
            }
            Request::Disband { .. } => {
                let of_house = |d: &Draft| before.scripts[&d.script].origin == HOUSE;
                if before.drafts.iter().any(|(v, d)| of_house(d) && !after.drafts.contains_key(v)) {
                    self.event("Disband deletes a draft of a house script");
                }
                let ended: Vec<_> =
                    before.sessions.iter().filter(|(n, _)| !after.sessions.contains_key(n)).collect();
                let ro = |owner: u8| after.sessions.values().any(|s| s.owner == owner && s.place.is_none());
                if ended.iter().any(|(_, s)| ro(s.owner)) {
                    self.event("Disband ends a session and leaves an RO session of its owner");
                }
            }
            Request::Kill { u, s } if before.sessions[&s].owner != u => {
                self.event("a lead kills another's session")
            }
            _ => {}
        }
    }
}

/// Prints what the seeds reach, under the rule of each; true when nothing is missing under either and at least half is granted.
pub fn report(seeds: &[u64], count: usize) -> bool {
    let mut complete = true;
    let mut said = Vec::new();
    for rule in Rule::BOTH {
        println!("rule {}:", rule.number());
        let seeds: Vec<u64> = seeds.iter().copied().filter(|seed| Rule::of_seed(*seed) == rule).collect();
        let (all, missing) = reached(&seeds, count, rule);
        complete &= self::complete(&missing);
        said.push(format!("rule {}: {} requests, {} granted, {} conditions", rule.number(), all.requests, all.granted, all.conditions.len()));
    }
    println!("{}", said.join("; "));
    complete
}

/// How often, at least, an Import, a 0C and a 0D get each of their answers, a Join outsider ends or leaves sessions, and leads are moved: once for so many runs.
const RUNS_FOR_ONE: usize = 4;

/// What runs under one rule reach, and what is missing.
fn reached(seeds: &[u64], count: usize, rule: Rule) -> (Coverage, Vec<String>) {
    let mut all = Coverage::default();
    for seed in seeds {
        all.run(&generate(*seed, count, 0, rule, false), 0, rule);
    }
    // Refusal 11 needs an opening near the top; the compared runs open with 0, so these are the model's own.
    let mut near = Coverage::default();
    for seed in seeds.iter().take(40) {
        let opened = u32::MAX - (seed % 80) as u32;
        near.run(&generate(*seed, count, opened, rule, false), opened, rule);
    }
    let often = 1.max(seeds.len() / RUNS_FOR_ONE);
    let mut missing = Vec::new();
    for kind in KINDS {
        let mut line = format!("{kind:02X}");
        for byte in allowed(kind) {
            let from = if byte == 0xCB { &near } else { &all };
            let times = from.pairs.get(&(kind, byte)).copied().unwrap_or(0);
            line += &format!(" {byte:02X}:{times}");
            let common = kind == 0x09 && matches!(byte, 0x81 | 0xC9 | 0xD0 | 0xCA) || matches!(kind, 0x0C | 0x0D);
            let least = if common { often } else { 1 };
            if times < least {
                missing.push(format!("{kind:02X} {byte:02X}, {least} times"));
            }
        }
        println!("{line}");
    }
    for ((kind, byte), _) in all.pairs.iter().chain(&near.pairs) {
        if KINDS.contains(kind) && *byte != 0xC2 && !allowed(*kind).contains(byte) {
            missing.push(format!("{kind:02X} {byte:02X} is outside the tables"));
        }
    }
    for byte in [0xC1, 0xC2] {
        let times: usize = all.pairs.iter().filter(|((_, b), _)| *b == byte).map(|(_, n)| n).sum();
        println!("{byte:02X}:{times}");
        if times == 0 {
            missing.push(format!("{byte:02X}"));
        }
    }
    // Refusal 11 is met near the top alone.
    missing.extend(all.unmet(&[rule], |n| n != 11));
    missing.extend(near.unmet(&[rule], |n| n == 11));
    // Few runs fill a desk: with 256 live drafts the answers are asked for, not each pair of labels.
    missing.extend(all.never_imported(&[rule], false));
    missing.extend(all.seldom(&EVENTS, 1));
    missing.extend(all.seldom(&JOINS, often));
    missing.extend(all.seldom(&LEADS, often));
    for kind in KINDS.iter().filter(|k| !matches!(k, 0x13 | 0x20)) {
        if !all.taken_back.contains_key(kind) {
            missing.push(format!("{kind:02X} taken back"));
        }
    }
    if 2 * all.granted < all.requests {
        missing.push("half of the requests granted".into());
    }
    (all, missing)
}

/// The rule under which a stored run goes, by its file's name.
fn rule_of(file: &str) -> Rule {
    let name = file.rsplit('/').next().unwrap_or(file);
    if name.starts_with("rule-2-") { Rule::Two } else { Rule::One }
}

/// Whether stored runs, each a file's name and its text of commented hex, meet every condition that a desk opened with 0 can, at Import all that the
/// labels can be under either rule, all that a Join outsider does to sessions, and all that becomes of leads.
pub fn stored(files: &[(String, String)]) -> Result<bool, String> {
    let mut all = Coverage::default();
    for (name, text) in files {
        let hex: String = text.lines().map(|line| line.split('#').next().unwrap_or("")).collect();
        all.run(&bytes(&hex.replace(' ', ""))?, 0, rule_of(name));
    }
    let mut missing = all.unmet(&Rule::BOTH, |n| n != 11);
    missing.extend(all.never_imported(&Rule::BOTH, true));
    missing.extend(all.seldom(&JOINS, 1));
    missing.extend(all.seldom(&LEADS, 1));
    let second = files.iter().filter(|(name, _)| rule_of(name) == Rule::Two).count();
    println!("{} runs, {second} of them under rule 2, {} requests, {} conditions", files.len(), all.requests, all.conditions.len());
    Ok(complete(&missing))
}

fn complete(missing: &[String]) -> bool {
    for name in missing {
        println!("missing: {name}");
    }
    missing.is_empty()
}
