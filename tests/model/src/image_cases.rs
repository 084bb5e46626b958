// The stored images of tests/images: a small house in the image's form, and each case what is changed in it. The answers are said here, by hand.

use crate::whole_images::{self, Line, ACCEPTED, CUT, FIRST, LEAD, UNKNOWN};
use Edit::*;

enum Edit {
    /// In place of the record with that name.
    Set(&'static str, &'static str, &'static str),
    Without(&'static str),
    /// Behind the record with that name.
    After(&'static str, &'static str, &'static str),
    /// The record and all behind it go; the bytes given end the image.
    End(&'static str, &'static str, &'static str),
}

/// The records that the cases change: two rooms, staff, a freelancer, an outsider, and every kind of session and draft.
const HOUSE: [(&str, &str, &str); 17] = [
    ("counter", "40 00000005", "last number 5"),
    ("user 0", "41 00 00 05 0003 00000000 00000006 01", "user 0: staff, leads rooms 1 and 2, administrator"),
    ("user 1", "41 01 00 03 0001 00000002 00000000 00", "user 1: staff in room 1"),
    ("user 2", "41 02 01 02 0001 00000002 00000000 00", "user 2: freelancer in room 1"),
    ("user 3", "41 03 02 00 0000 00000000 00000000 00", "user 3: outsider"),
    ("room 1", "42 01", "room 1"),
    ("room 2", "42 02", "room 2"),
    ("script 0", "43 00 02 0001 00", "script 0 of the house"),
    ("script 1", "43 01 02 0001 01", "script 1 of room 1"),
    ("session 0", "44 00 01 02 0001 01 00", "session 0: user 1, RW in the house"),
    ("session 1", "44 01 02 01 0001 01 01", "session 1: user 2, RW in room 1"),
    ("session 2", "44 02 03 00 0000 00 FF", "session 2: user 3, RO"),
    ("draft 1", "45 00000001 00 00000001", "draft 1 of script 0: in the house"),
    ("draft 2", "45 00000002 00 00000003", "draft 2 of script 0: in the house and room 1"),
    ("draft 3", "45 00000003 00 00000004", "draft 3 of script 0: in room 2 alone"),
    ("draft 4", "45 00000004 01 00000002", "draft 4 of script 1: in room 1"),
    ("draft 5", "45 00000005 01 00000002", "draft 5 of script 1: in room 1"),
];

/// A file's name, what must come of it, and the changes.
type Case = (&'static str, &'static str, Vec<Edit>);

const SECOND: &str = "15: a second counter";
const RULE: &str = "15: the rule not directly behind the counter";
const RULE_TWICE: &str = "15: the rule twice";
const KINDS: &str = "15: kinds out of order";
const NUMBERS: &str = "15: draft numbers from 1 to the counter";
const OUTSIDERS: &str = "15: outsiders with zero labels, in no room";
const STAFF: &str = "15: only staff are administrators or leads";
const MEMBERS: &str = "15: RW sessions owned by staff (house) or members of their room";
const COVERED: &str = "15: sessions within the owner's label";
const ROOM_ONLY: &str = "15: a room script's drafts in that room only";
const HOUSE_OR_ONE: &str = "15: a house script's drafts with the house, or with exactly one room";

fn form() -> Vec<Case> {
    vec![
        ("house", ACCEPTED, vec![]),
        ("cut-counter", CUT, vec![End("counter", "40 000000", "the counter, one byte short")]),
        ("cut-user", CUT, vec![End("user 3", "41 03 02 00 0000 00000000 00000000", "user 3, one byte short")]),
        ("cut-room", CUT, vec![End("room 2", "42", "a room, one byte short")]),
        ("cut-script", CUT, vec![End("script 1", "43 01 02 0001", "script 1, one byte short")]),
        ("cut-session", CUT, vec![End("session 2", "44 02 03 00 0000 00", "session 2, one byte short")]),
        ("cut-draft", CUT, vec![End("draft 5", "45 00000005 01 000000", "draft 5, one byte short")]),
        ("cut-behind-user-64", CUT, vec![
            After("user 3", "41 40 00 07 FFFF 00000000 00000000 00", "user 64 would be 15"),
            End("draft 5", "45", "but the walk comes first, and ends inside a body"),
        ]),
        ("cut-behind-two-counters", CUT, vec![
            After("counter", "40 00000005", "a second counter would be 15"),
            End("draft 5", "45 00", "but the walk comes first, and ends inside a body"),
        ]),
        ("cut-without-counter", CUT, vec![Without("counter"), End("draft 5", "45 00", "the walk comes first, and ends inside a body")]),
        ("cut-before-unknown-kind", CUT, vec![End("draft 5", "45 000000 46 FF", "FF would be no kind, but stands inside the body that is cut")]),
        ("unknown-kind-before-cut", UNKNOWN, vec![
            After("draft 4", "48", "no kind"),
            End("draft 5", "45 00", "a body cut behind it"),
        ]),
        ("unknown-kind-39-before-cut", UNKNOWN, vec![After("user 3", "39", "no kind"), End("draft 5", "45", "a body cut behind it")]),
        ("unknown-kind-first", UNKNOWN, vec![Set("counter", "3F 00000005", "no kind")]),
        ("unknown-kind-between", UNKNOWN, vec![After("room 2", "48", "no kind")]),
        ("unknown-kind-last", UNKNOWN, vec![After("draft 5", "00", "no kind")]),
        ("unknown-kind-47", UNKNOWN, vec![Set("draft 5", "47 00000005 01 00000002 01 00000004", "no kind today")]),
        ("line-end-behind", UNKNOWN, vec![After("draft 5", "0A", "a line end is no kind")]),
        ("no-counter", FIRST, vec![Without("counter")]),
        ("counter-behind-a-user", FIRST, vec![Without("counter"), After("user 0", "40 00000005", "not at the front")]),
        ("counter-at-the-end", FIRST, vec![Without("counter"), After("draft 5", "40 00000005", "not at the front")]),
        ("two-counters", SECOND, vec![After("counter", "40 00000005", "once more")]),
        ("two-counters-falling", SECOND, vec![After("counter", "40 00000004", "another")]),
        ("two-counters-rising", SECOND, vec![After("counter", "40 00000006", "another")]),
        ("second-counter-at-the-end", SECOND, vec![After("draft 5", "40 00000005", "once more")]),
        ("user-behind-a-room", KINDS, vec![
            Without("user 3"),
            After("room 1", "41 03 02 00 0000 00000000 00000000 00", "user 3, behind a room"),
        ]),
        ("room-behind-a-script", KINDS, vec![Without("room 2"), After("script 0", "42 02", "room 2, behind a script")]),
        ("script-behind-a-session", KINDS, vec![Without("script 1"), After("session 0", "43 01 02 0001 01", "script 1, behind a session")]),
        ("session-behind-a-draft", KINDS, vec![Without("session 2"), After("draft 1", "44 02 03 00 0000 00 FF", "session 2, behind a draft")]),
        ("user-at-the-end", KINDS, vec![
            Without("user 3"),
            After("draft 5", "41 03 02 00 0000 00000000 00000000 00", "user 3, at the end"),
        ]),
        ("users-falling", "15: users not ascending", vec![
            Without("user 3"),
            After("user 1", "41 03 02 00 0000 00000000 00000000 00", "user 3 before user 2"),
        ]),
        ("rooms-falling", "15: rooms not ascending", vec![Without("room 1"), After("room 2", "42 01", "room 1 behind room 2")]),
        ("scripts-falling", "15: scripts not ascending", vec![
            Without("script 0"),
            After("script 1", "43 00 02 0001 00", "script 0 behind script 1"),
        ]),
        ("sessions-falling", "15: sessions not ascending", vec![
            Without("session 1"),
            After("session 2", "44 01 02 01 0001 01 01", "session 1 behind session 2"),
        ]),
        ("drafts-falling", "15: drafts not ascending", vec![
            Without("draft 1"),
            After("draft 2", "45 00000001 00 00000001", "draft 1 behind draft 2"),
        ]),
        ("drafts-by-script", "15: drafts not ascending", vec![
            Set("script 0", "43 00 02 0001 01", "script 0 of room 1"),
            Set("draft 1", "45 00000004 00 00000002", "the drafts of script 0 first"),
            Set("draft 2", "45 00000005 00 00000002", ""),
            Without("draft 3"),
            Set("draft 4", "45 00000001 01 00000002", "then those of script 1: not ascending by number"),
            Set("draft 5", "45 00000002 01 00000002", ""),
        ]),
        ("user-twice", "15: users not ascending", vec![After("user 3", "41 03 02 00 0000 00000000 00000000 00", "user 3 once more")]),
        ("user-twice-otherwise", "15: users not ascending", vec![
            After("user 1", "41 01 00 03 0003 00000002 00000000 00", "user 1 with other categories"),
        ]),
        ("room-twice", "15: rooms not ascending", vec![After("room 1", "42 01", "room 1 once more")]),
        ("script-twice", "15: scripts not ascending", vec![After("script 0", "43 00 02 0001 00", "script 0 once more")]),
        ("script-twice-otherwise", "15: scripts not ascending", vec![After("script 0", "43 00 03 0001 00", "script 0 with another level")]),
        ("session-twice", "15: sessions not ascending", vec![After("session 2", "44 02 03 00 0000 00 FF", "session 2 once more")]),
        ("session-twice-otherwise", "15: sessions not ascending", vec![
            After("session 2", "44 02 02 00 0000 00 FF", "session 2 of another owner"),
        ]),
        ("draft-twice", "15: drafts not ascending", vec![After("draft 5", "45 00000005 01 00000002", "draft 5 once more")]),
        ("draft-twice-otherwise", "15: drafts not ascending", vec![After("draft 2", "45 00000002 00 00000001", "draft 2 at other places")]),
    ]
}

/// The record of rule 2, in its place and in every other. What is put behind the same record last stands first.
fn rules_of_import() -> Vec<Case> {
    let (rule, again) = (|| After("counter", "46", "rule 2"), || After("counter", "46", "once more"));
    let cut = || End("draft 5", "45 00", "but the walk comes first, and ends inside a body");
    vec![
        ("rule-2", ACCEPTED, vec![rule()]),
        ("rule-2-twice", RULE_TWICE, vec![again(), rule()]),
        ("rule-2-three-times", RULE_TWICE, vec![again(), again(), rule()]),
        ("rule-2-and-behind-a-user", RULE_TWICE, vec![rule(), After("user 0", "46", "once more")]),
        ("rule-2-and-at-the-end", RULE_TWICE, vec![rule(), After("draft 5", "46", "once more")]),
        ("rule-2-before-the-counter", FIRST, vec![Set("counter", "46", "rule 2"), After("counter", "40 00000005", "and only then the counter")]),
        ("rule-2-on-both-sides-of-the-counter", FIRST, vec![
            Set("counter", "46", "rule 2"),
            After("counter", "46", "rule 2 once more"),
            After("counter", "40 00000005", "the counter"),
        ]),
        ("rule-2-without-counter", FIRST, vec![Set("counter", "46", "rule 2, and no counter")]),
        ("rule-2-behind-a-user", RULE, vec![After("user 0", "46", "rule 2, behind user 0")]),
        ("rule-2-behind-the-users", RULE, vec![After("user 3", "46", "rule 2, behind the users")]),
        ("rule-2-behind-a-room", RULE, vec![After("room 2", "46", "rule 2, behind the rooms")]),
        ("rule-2-behind-a-script", RULE, vec![After("script 0", "46", "rule 2, behind a script")]),
        ("rule-2-behind-a-session", RULE, vec![After("session 2", "46", "rule 2, behind the sessions")]),
        ("rule-2-between-drafts", RULE, vec![After("draft 3", "46", "rule 2, between drafts")]),
        ("rule-2-at-the-end", RULE, vec![After("draft 5", "46", "rule 2, at the end")]),
        ("rule-2-behind-two-counters", SECOND, vec![rule(), After("counter", "40 00000005", "the counter once more")]),
        ("rule-2-between-two-counters", SECOND, vec![After("counter", "40 00000005", "the counter once more"), rule()]),
        ("rule-2-with-a-body", UNKNOWN, vec![After("counter", "46 02", "rule 2 has no body, and 02 is no kind")]),
        ("cut-counter-with-rule-2", CUT, vec![End("counter", "40 0000 46", "the counter, one byte short: this 46 is in its body")]),
        ("counter-70", ACCEPTED, vec![Set("counter", "40 00000046", "last number 70: this 46 is in the counter's body, and the rule is 1")]),
        ("counter-70-and-rule-2", ACCEPTED, vec![Set("counter", "40 00000046", "last number 70"), rule()]),
        ("rule-2-and-cut-user", CUT, vec![rule(), End("user 0", "41 00 00 05 0003 00000000 00000006", "user 0, one byte short")]),
        ("rule-2-and-cut-draft", CUT, vec![rule(), End("draft 5", "45", "a draft without its body")]),
        ("rule-2-twice-and-cut", CUT, vec![After("counter", "46", "twice would be 15"), rule(), cut()]),
        ("rule-2-behind-a-room-and-cut", CUT, vec![After("room 1", "46", "rule 2 would be 15 here"), cut()]),
        ("rule-2-without-counter-and-cut", CUT, vec![Set("counter", "46", "no counter would be 15"), cut()]),
        ("rule-2-and-unknown-kind", UNKNOWN, vec![rule(), After("user 3", "47", "no kind today")]),
        ("rule-2-and-unknown-kind-before-cut", UNKNOWN, vec![rule(), After("user 3", "48", "no kind"), End("draft 5", "45 00", "a body cut behind it")]),
        ("rule-2-and-user-64", "15: user over 63", vec![rule(), After("user 3", "41 40 00 00 0000 00000000 00000000 00", "user 64")]),
        ("rule-2-and-users-falling", "15: users not ascending", vec![
            rule(),
            Without("user 3"),
            After("user 1", "41 03 02 00 0000 00000000 00000000 00", "user 3 before user 2"),
        ]),
        ("rule-2-and-room-with-two-leads", ACCEPTED, vec![
            rule(),
            Set("user 1", "41 01 00 03 0001 00000002 00000002 00", "user 1: staff, leads room 1 too"),
        ]),
        ("rule-2-and-freelancer-second-lead", STAFF, vec![
            rule(),
            Set("user 2", "41 02 01 02 0001 00000002 00000002 00", "leads room 1 too"),
        ]),
        ("rule-2-and-room-without-lead", LEAD, vec![
            rule(),
            Set("user 0", "41 00 00 05 0003 00000000 00000004 01", "leads room 2; nobody leads room 1"),
        ]),
        // Import's rule is none of the records: whatever labels two scripts have, both rules open the desk.
        ("house-script-higher", ACCEPTED, vec![Set("script 0", "43 00 04 0003 00", "script 0 of the house, above script 1")]),
        ("rule-2-and-house-script-higher", ACCEPTED, vec![rule(), Set("script 0", "43 00 04 0003 00", "script 0 of the house, above script 1")]),
        ("house-script-lower", ACCEPTED, vec![Set("script 0", "43 00 01 0000 00", "script 0 of the house, below script 1")]),
        ("rule-2-and-house-script-lower", ACCEPTED, vec![rule(), Set("script 0", "43 00 01 0000 00", "script 0 of the house, below script 1")]),
    ]
}

fn bounds_of_users() -> Vec<Case> {
    let joined = "15: rooms joined over 16";
    let led = "15: rooms led over 16";
    vec![
        ("user-63", ACCEPTED, vec![After("user 3", "41 3F 00 00 0000 00000000 00000000 00", "user 63")]),
        ("user-64", "15: user over 63", vec![After("user 3", "41 40 00 00 0000 00000000 00000000 00", "user 64")]),
        ("user-255", "15: user over 63", vec![After("user 3", "41 FF 00 00 0000 00000000 00000000 00", "user 255")]),
        ("user-sort-1", ACCEPTED, vec![Set("user 3", "41 03 01 00 0000 00000000 00000000 00", "sort 1")]),
        ("user-sort-3", "15: sort over 2", vec![Set("user 3", "41 03 03 00 0000 00000000 00000000 00", "sort 3")]),
        ("user-level-7", ACCEPTED, vec![Set("user 1", "41 01 00 07 0001 00000002 00000000 00", "level 7")]),
        ("user-level-8", "15: level of a user over 7", vec![Set("user 1", "41 01 00 08 0001 00000002 00000000 00", "level 8")]),
        ("user-categories-all", ACCEPTED, vec![Set("user 1", "41 01 00 03 FFFF 00000002 00000000 00", "all categories")]),
        ("user-in-the-house", "15: the house among the rooms joined", vec![
            Set("user 1", "41 01 00 03 0001 00000003 00000000 00", "bit 0 among the rooms joined"),
        ]),
        ("user-in-room-16", ACCEPTED, vec![
            Set("user 0", "41 00 00 05 0003 00000000 00010006 01", "leads room 16 too"),
            Set("user 1", "41 01 00 03 0001 00010002 00000000 00", "in room 16 too"),
            After("room 2", "42 10", "room 16"),
        ]),
        ("user-in-room-17", joined, vec![Set("user 1", "41 01 00 03 0001 00020002 00000000 00", "bit 17 among the rooms joined")]),
        ("user-in-room-31", joined, vec![Set("user 1", "41 01 00 03 0001 80000002 00000000 00", "bit 31 among the rooms joined")]),
        ("user-leads-the-house", "15: the house among the rooms led", vec![
            Set("user 0", "41 00 00 05 0003 00000000 00000007 01", "bit 0 among the rooms led"),
        ]),
        ("user-leads-room-17", led, vec![Set("user 0", "41 00 00 05 0003 00000000 00020006 01", "bit 17 among the rooms led")]),
        ("user-leads-room-31", led, vec![Set("user 0", "41 00 00 05 0003 00000000 80000006 01", "bit 31 among the rooms led")]),
        ("second-administrator", ACCEPTED, vec![Set("user 1", "41 01 00 03 0001 00000002 00000000 01", "administrator too")]),
        ("administrator-2", "15: administrator not 0 or 1", vec![
            Set("user 1", "41 01 00 03 0001 00000002 00000000 02", "administrator 2"),
        ]),
        ("administrator-255", "15: administrator not 0 or 1", vec![
            Set("user 0", "41 00 00 05 0003 00000000 00000006 FF", "administrator 255"),
        ]),
    ]
}

fn bounds() -> Vec<Case> {
    let (ro, rw) = ("15: place of an RO session not 255", "15: place of an RW session over 16");
    let kind = "15: kind of a session not 0 or 1";
    vec![
        ("room-0", "15: room 0", vec![After("user 3", "42 00", "room 0")]),
        ("room-17", "15: room over 16", vec![After("room 2", "42 11", "room 17")]),
        ("room-255", "15: room over 16", vec![After("room 2", "42 FF", "room 255")]),
        ("script-63", ACCEPTED, vec![
            After("script 1", "43 3F 07 FFFF 00", "script 63, level 7, all categories"),
            Set("draft 3", "45 00000003 3F 00000001", "its draft"),
        ]),
        ("script-64", "15: script over 63", vec![
            After("script 1", "43 40 07 FFFF 00", "script 64"),
            Set("draft 3", "45 00000003 40 00000001", "its draft"),
        ]),
        ("script-level-7", ACCEPTED, vec![Set("script 1", "43 01 07 0001 01", "level 7")]),
        ("script-level-8", "15: level of a script over 7", vec![Set("script 1", "43 01 08 0001 01", "level 8")]),
        ("script-of-room-16", ACCEPTED, vec![
            Set("user 0", "41 00 00 05 0003 00000000 00010006 01", "leads room 16 too"),
            After("room 2", "42 10", "room 16"),
            Set("script 1", "43 01 02 0001 10", "script 1 of room 16"),
            Set("draft 4", "45 00000004 01 00010000", "draft 4 of script 1: in room 16"),
            Set("draft 5", "45 00000005 01 00010000", "draft 5 of script 1: in room 16"),
        ]),
        ("script-of-room-17", "15: origin over 16", vec![Set("script 1", "43 01 02 0001 11", "origin 17")]),
        ("script-of-room-255", "15: origin over 16", vec![Set("script 1", "43 01 02 0001 FF", "origin 255")]),
        ("session-63", ACCEPTED, vec![After("session 2", "44 3F 00 00 0000 00 FF", "session 63")]),
        ("session-64", "15: session over 63", vec![After("session 2", "44 40 00 00 0000 00 FF", "session 64")]),
        ("session-owner-63", ACCEPTED, vec![
            After("user 3", "41 3F 00 00 0000 00000000 00000000 00", "user 63"),
            Set("session 2", "44 02 3F 00 0000 00 FF", "owner 63"),
        ]),
        ("session-owner-64", "15: owner over 63", vec![Set("session 2", "44 02 40 00 0000 00 FF", "owner 64")]),
        ("session-level-7", ACCEPTED, vec![
            Set("user 1", "41 01 00 07 0001 00000002 00000000 00", "level 7"),
            Set("session 2", "44 02 01 07 0000 00 FF", "user 1, level 7"),
        ]),
        ("session-level-8", "15: level of a session over 7", vec![Set("session 2", "44 02 03 08 0000 00 FF", "level 8")]),
        ("session-kind-2", kind, vec![Set("session 2", "44 02 03 00 0000 02 FF", "neither RO nor RW")]),
        ("session-kind-2-with-a-place", kind, vec![Set("session 0", "44 00 01 02 0001 02 00", "neither RO nor RW")]),
        ("session-kind-255", kind, vec![Set("session 2", "44 02 03 00 0000 FF FF", "neither RO nor RW")]),
        ("ro-session-in-the-house", ro, vec![Set("session 2", "44 02 03 00 0000 00 00", "RO with place 0")]),
        ("ro-session-in-a-room", ro, vec![Set("session 2", "44 02 02 00 0000 00 01", "RO with place 1")]),
        ("ro-session-place-254", ro, vec![Set("session 2", "44 02 03 00 0000 00 FE", "RO with place 254")]),
        ("rw-session-in-room-16", ACCEPTED, vec![
            Set("user 0", "41 00 00 05 0003 00000000 00010006 01", "leads room 16 too"),
            Set("user 2", "41 02 01 02 0001 00010000 00000000 00", "user 2: freelancer in room 16"),
            After("room 2", "42 10", "room 16"),
            Set("session 1", "44 01 02 01 0001 01 10", "session 1: user 2, RW in room 16"),
        ]),
        ("rw-session-in-room-17", rw, vec![Set("session 1", "44 01 02 01 0001 01 11", "RW with place 17")]),
        ("rw-session-place-32", rw, vec![Set("session 0", "44 00 01 02 0001 01 20", "RW with place 32")]),
        ("rw-session-place-255", rw, vec![Set("session 0", "44 00 01 02 0001 01 FF", "RW with place 255")]),
        ("draft-of-script-64", "15: script of a draft over 63", vec![Set("draft 3", "45 00000003 40 00000001", "of script 64")]),
        ("draft-in-room-16", ACCEPTED, vec![
            Set("user 0", "41 00 00 05 0003 00000000 00010006 01", "leads room 16 too"),
            After("room 2", "42 10", "room 16"),
            Set("draft 2", "45 00000002 00 00010001", "in the house and room 16"),
        ]),
        ("draft-in-room-17", "15: places of a draft over 16", vec![Set("draft 2", "45 00000002 00 00020001", "in the house and place 17")]),
        ("draft-in-room-31", "15: places of a draft over 16", vec![Set("draft 2", "45 00000002 00 80000001", "in the house and place 31")]),
        ("draft-0", NUMBERS, vec![Set("draft 1", "45 00000000 00 00000001", "number 0")]),
        ("draft-above-the-counter", NUMBERS, vec![Set("counter", "40 00000004", "last number 4, under draft 5")]),
        ("draft-with-counter-0", NUMBERS, vec![Set("counter", "40 00000000", "last number 0")]),
        ("counter-above-the-drafts", ACCEPTED, vec![Set("counter", "40 00000006", "last number 6: draft 6 is gone")]),
        ("counter-at-the-top", ACCEPTED, vec![Set("counter", "40 FFFFFFFF", "the last number there is")]),
        ("draft-at-the-top", ACCEPTED, vec![
            Set("counter", "40 FFFFFFFF", "the last number there is"),
            Set("draft 5", "45 FFFFFFFF 01 00000002", "and its draft"),
        ]),
        ("draft-at-the-top-above-the-counter", NUMBERS, vec![
            Set("counter", "40 FFFFFFFE", "the last but one"),
            Set("draft 5", "45 FFFFFFFF 01 00000002", "the last number there is"),
        ]),
    ]
}

fn records_named() -> Vec<Case> {
    vec![
        ("room-joined-is-not-there", "15: rooms joined are there", vec![Set("user 1", "41 01 00 03 0001 0000000A 00000000 00", "in room 3 too")]),
        ("room-led-is-not-there", "15: rooms led are there", vec![Set("user 0", "41 00 00 05 0003 00000000 0000000E 01", "leads room 3 too")]),
        ("room-led-by-another-is-not-there", "15: rooms led are there", vec![
            Set("user 1", "41 01 00 03 0001 00000002 0000000A 00", "leads rooms 1 and 3; there is no room 3"),
        ]),
        ("origin-is-not-there", "15: origins are there; places of drafts are there", vec![
            Set("script 1", "43 01 02 0001 03", "of room 3"),
            Set("draft 4", "45 00000004 01 00000008", "draft 4 of script 1: in room 3"),
            Set("draft 5", "45 00000005 01 00000008", "draft 5 of script 1: in room 3"),
        ]),
        ("ro-owner-is-not-there", "15: owners are there", vec![Set("session 2", "44 02 04 00 0000 00 FF", "of user 4")]),
        ("rw-owner-is-not-there", "15: owners are there", vec![Set("session 0", "44 00 04 02 0001 01 00", "of user 4")]),
        ("owner-taken-out", "15: owners are there", vec![Without("user 3")]),
        ("room-of-a-session-is-not-there", "15: places of sessions are there; RW sessions owned by staff (house) or members of their room", vec![
            Set("session 1", "44 01 02 01 0001 01 03", "RW in room 3"),
        ]),
        ("room-of-a-session-joined-but-not-there", "15: rooms joined are there; places of sessions are there", vec![
            Set("user 2", "41 02 01 02 0001 0000000A 00000000 00", "user 2: freelancer in rooms 1 and 3"),
            Set("session 1", "44 01 02 01 0001 01 03", "RW in room 3"),
        ]),
        ("script-of-a-draft-is-not-there", "15: scripts of drafts are there", vec![Set("draft 3", "45 00000003 02 00000004", "of script 2")]),
        ("script-taken-out", "15: scripts of drafts are there", vec![Without("script 1")]),
        ("room-of-a-draft-is-not-there", "15: places of drafts are there", vec![
            Set("draft 2", "45 00000002 00 00000009", "in the house and room 3"),
        ]),
        ("only-room-of-a-draft-is-not-there", "15: places of drafts are there", vec![Set("draft 3", "45 00000003 00 00000008", "in room 3 alone")]),
        ("script-without-draft", "15: a draft for each script", vec![After("script 1", "43 02 02 0001 00", "script 2, of which there is no draft")]),
        ("room-script-without-draft", "15: a draft for each script", vec![Without("draft 4"), Without("draft 5")]),
        ("script-with-one-draft", ACCEPTED, vec![Without("draft 4")]),
        ("house-draft-without-place", "15: a house script's drafts with the house, or with exactly one room; a place for each draft", vec![
            Set("draft 1", "45 00000001 00 00000000", "nowhere"),
        ]),
        ("room-draft-without-place", "15: a room script's drafts in that room only; a place for each draft", vec![
            Set("draft 5", "45 00000005 01 00000000", "nowhere"),
        ]),
    ]
}

fn rules_of_people() -> Vec<Case> {
    let leads = "user 1: staff, leads room 1";
    vec![
        ("no-administrator", "15: a house administrator if there is any user", vec![
            Set("user 0", "41 00 00 05 0003 00000000 00000006 00", "no administrator"),
        ]),
        ("other-administrator", ACCEPTED, vec![
            Set("user 0", "41 00 00 05 0003 00000000 00000006 00", "no administrator"),
            Set("user 1", "41 01 00 03 0001 00000002 00000000 01", "but this one is"),
        ]),
        ("freelancer-administrator", STAFF, vec![Set("user 2", "41 02 01 02 0001 00000002 00000000 01", "administrator")]),
        ("outsider-administrator", STAFF, vec![Set("user 3", "41 03 02 00 0000 00000000 00000000 01", "administrator")]),
        ("staff-lead", ACCEPTED, vec![
            Set("user 0", "41 00 00 05 0003 00000000 00000004 01", "leads room 2"),
            Set("user 1", "41 01 00 03 0001 00000002 00000002 00", leads),
        ]),
        ("freelancer-lead", STAFF, vec![
            Set("user 0", "41 00 00 05 0003 00000000 00000004 01", "leads room 2"),
            Set("user 2", "41 02 01 02 0001 00000002 00000002 00", "leads room 1"),
        ]),
        ("outsider-lead", STAFF, vec![
            Set("user 0", "41 00 00 05 0003 00000000 00000004 01", "leads room 2"),
            Set("user 3", "41 03 02 00 0000 00000000 00000002 00", "leads room 1"),
        ]),
        ("room-without-lead", LEAD, vec![Set("user 0", "41 00 00 05 0003 00000000 00000004 01", "leads room 2; nobody leads room 1")]),
        ("room-16-without-lead", LEAD, vec![After("room 2", "42 10", "room 16, which nobody leads")]),
        ("two-leads-and-a-room-without-lead", LEAD, vec![
            Set("user 0", "41 00 00 05 0003 00000000 00000002 01", "leads room 1; nobody leads room 2"),
            Set("user 1", "41 01 00 03 0001 00000002 00000002 00", leads),
        ]),
        ("room-with-two-leads", ACCEPTED, vec![Set("user 1", "41 01 00 03 0001 00000002 00000002 00", "user 1: staff, leads room 1 too; refused before L6")]),
        ("room-with-two-leads-one-outside", ACCEPTED, vec![Set("user 1", "41 01 00 03 0001 00000002 00000004 00", "leads room 2 too, and is not in it")]),
        ("rooms-with-two-leads", ACCEPTED, vec![Set("user 1", "41 01 00 03 0001 00000002 00000006 00", "leads rooms 1 and 2 too")]),
        ("room-with-three-leads", ACCEPTED, vec![
            Set("user 1", "41 01 00 03 0001 00000002 00000002 00", leads),
            After("user 3", "41 04 00 00 0000 00000000 00000002 00", "user 4: staff, leads room 1"),
        ]),
        ("freelancer-second-lead", STAFF, vec![Set("user 2", "41 02 01 02 0001 00000002 00000002 00", "leads room 1 too")]),
        ("outsider-second-lead", STAFF, vec![Set("user 3", "41 03 02 00 0000 00000000 00000002 00", "leads room 1 too")]),
        ("freelancer-third-lead", STAFF, vec![
            Set("user 1", "41 01 00 03 0001 00000002 00000002 00", leads),
            Set("user 2", "41 02 01 02 0001 00000002 00000002 00", "leads room 1 too"),
        ]),
        ("only-lead-taken-out", LEAD, vec![
            Without("user 0"),
            Set("user 1", "41 01 00 03 0001 00000002 00000002 01", "leads room 1, administrator; nobody leads room 2 any more"),
        ]),
        ("one-of-two-leads-taken-out", ACCEPTED, vec![
            Without("user 0"),
            Set("user 1", "41 01 00 03 0001 00000002 00000006 01", "leads rooms 1 and 2, administrator"),
        ]),
        ("outsider-with-a-level", OUTSIDERS, vec![Set("user 3", "41 03 02 01 0000 00000000 00000000 00", "level 1")]),
        ("outsider-with-a-category", OUTSIDERS, vec![Set("user 3", "41 03 02 00 8000 00000000 00000000 00", "one category")]),
        ("outsider-in-a-room", OUTSIDERS, vec![Set("user 3", "41 03 02 00 0000 00000002 00000000 00", "in room 1")]),
        ("freelancer-in-no-room", ACCEPTED, vec![
            Set("user 3", "41 03 01 05 8000 00000000 00000000 00", "freelancer, in no room any more, with the label kept"),
        ]),
        ("staff-in-two-rooms", ACCEPTED, vec![Set("user 1", "41 01 00 03 0001 00000006 00000000 00", "in rooms 1 and 2")]),
    ]
}

fn rules_of_sessions_and_drafts() -> Vec<Case> {
    vec![
        ("house-session-of-a-freelancer", MEMBERS, vec![Set("session 1", "44 01 02 01 0001 01 00", "RW in the house")]),
        ("house-session-of-an-outsider", MEMBERS, vec![Set("session 2", "44 02 03 00 0000 01 00", "RW in the house")]),
        ("room-session-of-a-member", ACCEPTED, vec![Set("session 0", "44 00 01 02 0001 01 01", "user 1, RW in room 1")]),
        ("room-session-of-staff-elsewhere", MEMBERS, vec![Set("session 0", "44 00 01 02 0001 01 02", "user 1, RW in room 2")]),
        ("room-session-of-a-freelancer-elsewhere", MEMBERS, vec![Set("session 1", "44 01 02 01 0001 01 02", "user 2, RW in room 2")]),
        ("room-session-of-a-lead-outside", MEMBERS, vec![Set("session 0", "44 00 00 02 0001 01 01", "user 0 leads room 1 and is not in it")]),
        ("room-session-of-an-outsider", MEMBERS, vec![Set("session 2", "44 02 03 00 0000 01 01", "user 3, RW in room 1")]),
        ("rw-session-with-the-whole-label", ACCEPTED, vec![Set("session 0", "44 00 01 03 0001 01 00", "user 1's whole label")]),
        ("rw-session-above-the-level", COVERED, vec![Set("session 0", "44 00 01 04 0001 01 00", "level 4, above user 1's 3")]),
        ("rw-session-with-a-category-more", COVERED, vec![Set("session 0", "44 00 01 02 0003 01 00", "category 0002, which user 1 lacks")]),
        ("room-session-above-the-level", COVERED, vec![Set("session 1", "44 01 02 03 0001 01 01", "level 3, above user 2's 2")]),
        ("room-session-with-a-category-more", COVERED, vec![Set("session 1", "44 01 02 01 8001 01 01", "category 8000, which user 2 lacks")]),
        ("ro-session-with-the-whole-label", ACCEPTED, vec![Set("session 2", "44 02 02 02 0001 00 FF", "RO: user 2's whole label")]),
        ("ro-session-below-the-label", ACCEPTED, vec![Set("session 2", "44 02 02 01 0000 00 FF", "RO: below user 2's label")]),
        ("ro-session-above-the-level", COVERED, vec![Set("session 2", "44 02 02 03 0001 00 FF", "RO: level 3, above user 2's 2")]),
        ("ro-session-with-a-category-more", COVERED, vec![Set("session 2", "44 02 02 01 8001 00 FF", "RO: a lower level, and category 8000, which user 2 lacks")]),
        ("ro-session-above-the-label", COVERED, vec![Set("session 2", "44 02 02 05 8001 00 FF", "RO: as from an earlier label of user 2; accepted before L4")]),
        ("ro-session-above-the-label-taken-out", ACCEPTED, vec![Without("session 2")]),
        ("rule-2-and-ro-session-above-the-label", COVERED, vec![
            After("counter", "46", "rule 2"),
            Set("session 2", "44 02 02 05 8001 00 FF", "RO: as from an earlier label of user 2"),
        ]),
        ("ro-session-of-staff-above-the-level", COVERED, vec![Set("session 2", "44 02 01 04 0001 00 FF", "RO: level 4, above user 1's 3")]),
        ("ro-session-of-an-outsider", ACCEPTED, vec![After("session 2", "44 03 03 00 0000 00 FF", "RO: user 3's label is all zeros, and so is this")]),
        ("ro-session-of-an-outsider-at-level-1", COVERED, vec![Set("session 2", "44 02 03 01 0000 00 FF", "RO: level 1, above user 3's 0")]),
        ("ro-session-of-an-outsider-with-a-category", COVERED, vec![Set("session 2", "44 02 03 00 0001 00 FF", "RO: category 0001, and user 3 has none")]),
        ("ro-session-of-a-freelancer-in-no-room", ACCEPTED, vec![
            Set("user 3", "41 03 01 05 8000 00000000 00000000 00", "freelancer, in no room any more, with the label kept"),
            Set("session 2", "44 02 03 05 8000 00 FF", "RO: the whole label still"),
        ]),
        ("ro-session-of-a-freelancer-in-no-room-above-the-level", COVERED, vec![
            Set("user 3", "41 03 01 05 8000 00000000 00000000 00", "freelancer, in no room any more, with the label kept"),
            Set("session 2", "44 02 03 06 8000 00 FF", "RO: level 6, above user 3's 5"),
        ]),
        ("sessions-with-one-above-the-level", COVERED, vec![After("session 2", "44 3F 02 03 0000 00 FF", "session 63, RO: level 3, above user 2's 2; all others are covered")]),
        ("room-draft-in-the-house", ROOM_ONLY, vec![Set("draft 5", "45 00000005 01 00000001", "in the house, not in room 1")]),
        ("room-draft-in-another-room", ROOM_ONLY, vec![Set("draft 5", "45 00000005 01 00000004", "in room 2, not in room 1")]),
        ("room-draft-in-the-house-too", ROOM_ONLY, vec![Set("draft 5", "45 00000005 01 00000003", "in room 1 and the house")]),
        ("room-draft-in-two-rooms", ROOM_ONLY, vec![Set("draft 5", "45 00000005 01 00000006", "in rooms 1 and 2")]),
        ("house-draft-in-two-rooms", HOUSE_OR_ONE, vec![Set("draft 3", "45 00000003 00 00000006", "in rooms 1 and 2, not in the house")]),
        ("house-draft-in-the-house-and-two-rooms", ACCEPTED, vec![Set("draft 3", "45 00000003 00 00000007", "in the house and rooms 1 and 2")]),
    ]
}

/// The house with the changes of a case.
fn edited(edits: &[Edit]) -> Vec<Line> {
    let mut records: Vec<(&str, Line)> = HOUSE.iter().map(|(name, hex, says)| (*name, (hex.to_string(), says.to_string()))).collect();
    for edit in edits {
        let (Set(name, ..) | Without(name) | After(name, ..) | End(name, ..)) = edit;
        let at = records.iter().position(|(n, _)| n == name).expect("the record is there");
        let line = |hex: &str, says: &str| (hex.to_string(), says.to_string());
        match edit {
            Set(_, hex, says) => records[at].1 = line(hex, says),
            Without(_) => drop(records.remove(at)),
            After(_, hex, says) => records.insert(at + 1, ("", line(hex, says))),
            End(_, hex, says) => {
                records.truncate(at);
                records.push(("", line(hex, says)));
            }
        }
    }
    records.into_iter().map(|(_, line)| line).collect()
}

/// Writes a file for each case; its first line is the answer.
pub fn write(folder: &str) -> Result<(), String> {
    let changed = [form(), rules_of_import(), bounds_of_users(), bounds(), records_named(), rules_of_people(), rules_of_sessions_and_drafts()];
    let changed = changed.into_iter().flatten().map(|(name, answer, edits)| (name.to_string(), answer, edited(&edits)));
    for (name, answer, records) in changed.chain(whole_images::all()) {
        let width = records.iter().map(|(hex, _)| hex.len()).max().unwrap_or(0);
        let mut text = format!("# {answer}\n");
        for (hex, says) in records {
            text += format!("{hex:width$}  # {says}").trim_end_matches([' ', '#']);
            text.push('\n');
        }
        let file = format!("{folder}/{name}.hex");
        if std::path::Path::new(&file).exists() {
            return Err(format!("{file} is there already"));
        }
        std::fs::write(&file, text).map_err(|error| format!("{file}: {error}"))?;
    }
    Ok(())
}
