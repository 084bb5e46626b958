// The stored images that are written out whole: of a desk without users, of single bytes, of a desk in use and of a full one.

/// A record in hex, and what it is.
pub type Line = (String, String);

pub const ACCEPTED: &str = "accepted";
pub const CUT: &str = "14: an end inside a body";
pub const UNKNOWN: &str = "15: an unknown kind";
pub const LEAD: &str = "15: a lead for each room";
pub const FIRST: &str = "15: the first record is not the counter";

/// The images with their files' names and answers.
pub fn all() -> Vec<(String, &'static str, Vec<Line>)> {
    let lines = |records: &[(&str, &str)]| records.iter().map(|(hex, says)| (hex.to_string(), says.to_string())).collect();
    let mut all = vec![
        ("empty".into(), "14: no bytes", lines(&[])),
        ("nobody".into(), ACCEPTED, lines(&[("40 00000000", "the empty desk: last number 0, no record")])),
        ("nobody-rule-2".into(), ACCEPTED, lines(&[("40 00000000", "last number 0, no record"), ("46", "rule 2")])),
        ("nobody-rule-2-twice".into(), "15: the rule twice", lines(&[("40 00000000", "last number 0"), ("46", "rule 2"), ("46", "once more")])),
        ("nobody-rule-2-first".into(), FIRST, lines(&[("46", "rule 2"), ("40 00000000", "and only then the counter")])),
        ("nobody-rule-2-cut".into(), CUT, lines(&[("40 00000000", "last number 0"), ("46", "rule 2"), ("41", "a user without its body")])),
        ("nobody-rule-2-and-a-line-end".into(), UNKNOWN, lines(&[("40 00000000", "last number 0"), ("46", "rule 2"), ("0A", "a line end is no kind")])),
        ("nobody-at-the-top-rule-2".into(), ACCEPTED, lines(&[("40 FFFFFFFF", "no record, and no number left"), ("46", "rule 2")])),
        ("nobody-at-the-top".into(), ACCEPTED, lines(&[("40 FFFFFFFF", "no record, and no number left")])),
        ("nobody-and-a-script".into(), ACCEPTED, lines(&[
            ("40 00000001", "no run leads to this desk, but it keeps the rules"),
            ("43 00 02 0001 00", "script 0 of the house"),
            ("45 00000001 00 00000001", "its draft, in the house"),
        ])),
        ("nobody-and-a-room".into(), LEAD, lines(&[("40 00000000", "no user"), ("42 01", "room 1, which nobody leads")])),
        ("nobody-and-a-session".into(), "15: owners are there", lines(&[
            ("40 00000000", "no user"),
            ("44 00 00 00 0000 00 FF", "session 0 of user 0"),
        ])),
        ("one-administrator".into(), ACCEPTED, lines(&[
            ("40 00000000", "last number 0"),
            ("41 00 00 05 0003 00000000 00000000 01", "user 0, as enrolled"),
        ])),
        ("one-administrator-rule-2".into(), ACCEPTED, lines(&[
            ("40 00000000", "last number 0"),
            ("46", "rule 2"),
            ("41 00 00 05 0003 00000000 00000000 01", "user 0, as enrolled"),
        ])),
        ("one-administrator-and-rule-2".into(), "15: the rule not directly behind the counter", lines(&[
            ("40 00000000", "last number 0"),
            ("41 00 00 05 0003 00000000 00000000 01", "user 0, as enrolled"),
            ("46", "rule 2"),
        ])),
        ("one-without-administrator".into(), "15: a house administrator if there is any user", lines(&[
            ("40 00000000", "last number 0"),
            ("41 00 00 05 0003 00000000 00000000 00", "user 0, no administrator"),
        ])),
    ];
    for kind in 0x40..=0x45 {
        all.push((format!("kind-{kind:02X}-alone"), CUT, vec![(format!("{kind:02X}"), "a kind without its body".into())]));
    }
    for kind in ["00", "01", "3F", "47", "80", "FF"] {
        all.push((format!("kind-{kind}-alone"), UNKNOWN, lines(&[(kind, "no kind")])));
    }
    all.push(("kind-46-alone".into(), FIRST, lines(&[("46", "rule 2 has no body, but a counter stands before it")])));
    all.push(("middling".into(), ACCEPTED, lines(&MIDDLING)));
    all.push(("middling-rule-2".into(), ACCEPTED, under_rule_2(lines(&MIDDLING))));
    all.push(("full".into(), ACCEPTED, full(256)));
    all.push(("full-rule-2".into(), ACCEPTED, under_rule_2(full(256))));
    all.push(("drafts-257".into(), "15: more than 256 drafts", full(257)));
    all.push(("all-users-lead".into(), ACCEPTED, led_by(|_| true)));
    all.push(("last-user-leads".into(), ACCEPTED, led_by(|id| id == 63)));
    all.push(("no-user-leads".into(), LEAD, led_by(|_| false)));
    all
}

/// The same desk under the other rule.
fn under_rule_2(mut lines: Vec<Line>) -> Vec<Line> {
    lines.insert(1, ("46".into(), "rule 2".into()));
    lines
}

/// A desk in use, of which every byte is changed by the test.
const MIDDLING: [(&str, &str); 46] = [
    ("40 0000002A", "last number 42"),
    ("41 00 00 07 FFFF 00000000 00000002 01", "user 0: staff, leads room 1, administrator"),
    ("41 01 00 05 0007 00010006 00000004 01", "user 1: staff in rooms 1, 2 and 16, leads room 2, administrator"),
    ("41 02 00 03 0003 00000000 00010008 00", "user 2: staff, leads rooms 3 and 16"),
    ("41 05 00 03 0003 00000008 00010000 00", "user 5: staff in room 3, leads room 16 beside user 2"),
    ("41 09 01 02 0001 00000002 00000000 00", "user 9: freelancer in room 1"),
    ("41 0A 01 02 0003 0000000C 00000000 00", "user 10: freelancer in rooms 2 and 3"),
    ("41 14 01 04 0002 00000000 00000000 00", "user 20: freelancer in no room any more"),
    ("41 3F 02 00 0000 00000000 00000000 00", "user 63: outsider"),
    ("42 01", "room 1"),
    ("42 02", "room 2"),
    ("42 03", "room 3"),
    ("42 10", "room 16"),
    ("43 00 02 0001 00", "script 0 of the house"),
    ("43 01 02 0001 01", "script 1 of room 1"),
    ("43 02 02 0003 02", "script 2 of room 2"),
    ("43 07 00 0000 00", "script 7 of the house"),
    ("43 1E 07 FFFF 00", "script 30 of the house"),
    ("43 3F 03 0001 10", "script 63 of room 16"),
    ("44 00 00 07 FFFF 01 00", "session 0: user 0, RW in the house"),
    ("44 01 01 02 0001 01 00", "session 1: user 1, RW in the house"),
    ("44 02 01 02 0003 01 02", "session 2: user 1, RW in room 2"),
    ("44 03 09 02 0001 01 01", "session 3: user 9, RW in room 1"),
    ("44 04 0A 02 0003 01 02", "session 4: user 10, RW in room 2"),
    ("44 08 0A 01 0000 01 03", "session 8: user 10, RW in room 3"),
    ("44 0B 01 03 0001 01 10", "session 11: user 1, RW in room 16"),
    ("44 14 14 04 0002 00 FF", "session 20: user 20, RO, with the whole label"),
    ("44 3F 3F 00 0000 00 FF", "session 63: user 63, RO"),
    ("45 00000001 00 00000001", "draft 1 of script 0: in the house"),
    ("45 00000002 00 00000003", "draft 2 of script 0: in the house and room 1"),
    ("45 00000003 01 00000002", "draft 3 of script 1: in room 1"),
    ("45 00000005 00 00000002", "draft 5 of script 0: in room 1 alone"),
    ("45 00000008 02 00000004", "draft 8 of script 2: in room 2"),
    ("45 00000009 02 00000004", "draft 9 of script 2: in room 2"),
    ("45 0000000D 07 00000001", "draft 13 of script 7: in the house"),
    ("45 0000000E 07 0001000F", "draft 14 of script 7: everywhere"),
    ("45 00000010 1E 00000001", "draft 16 of script 30: in the house"),
    ("45 00000014 00 00000001", "draft 20 of script 0: in the house"),
    ("45 00000015 3F 00010000", "draft 21 of script 63: in room 16"),
    ("45 0000001F 3F 00010000", "draft 31 of script 63: in room 16"),
    ("45 00000020 1E 00010000", "draft 32 of script 30: in room 16 alone"),
    ("45 00000021 00 0000000D", "draft 33 of script 0: in the house and rooms 2 and 3"),
    ("45 00000025 01 00000002", "draft 37 of script 1: in room 1"),
    ("45 00000028 02 00000004", "draft 40 of script 2: in room 2"),
    ("45 00000029 07 00000008", "draft 41 of script 7: in room 3 alone"),
    ("45 0000002A 00 00000001", "draft 42 of script 0: in the house"),
];

/// Every user and room there can be, all of them staff; some lead every room.
fn led_by(leads: impl Fn(u32) -> bool) -> Vec<Line> {
    let mut out: Vec<Line> = vec![("40 00000000".into(), "last number 0".into())];
    for id in 0..64 {
        let (led, says) = if leads(id) { (0x0001_FFFE, "leads every room") } else { (0, "leads none") };
        out.push((format!("41 {id:02X} 00 03 0001 00000000 {led:08X} {:02X}", (id == 0) as u8), format!("user {id}: staff, {says}")));
    }
    out.extend((1..=16).map(|id| (format!("42 {id:02X}"), format!("room {id}"))));
    out
}

/// Every user, room, script and session there can be, and so many drafts.
fn full(drafts: u32) -> Vec<Line> {
    let mut out: Vec<Line> = vec![("40 FFFFFFFF".into(), "the last number there is".into())];
    let room = |id: u32| 1 + id % 16;
    out.push(("41 00 00 07 FFFF 00000000 0001FFFE 01".into(), "user 0: staff, leads every room, administrator".into()));
    for id in 1..64 {
        let (label, joined, sort) = match id % 3 {
            0 => ("07 FFFF", 0x0001_FFFE, "staff in every room"),
            1 => ("05 00FF", 1 << room(id), "freelancer in one room"),
            _ => ("00 0000", 0, "outsider"),
        };
        out.push((format!("41 {id:02X} {:02X} {label} {joined:08X} 00000000 00", id % 3), format!("user {id}: {sort}")));
    }
    for id in 1..=16 {
        out.push((format!("42 {id:02X}"), format!("room {id}")));
    }
    let origin = |id: u32| id % 17;
    for id in 0..64 {
        out.push((format!("43 {id:02X} {:02X} {:04X} {:02X}", id % 8, id * 257, origin(id)), format!("script {id}, origin {}", origin(id))));
    }
    for id in 0..64 {
        let (kind, place) = match id % 3 {
            0 if id % 2 == 0 => ("RW in the house", "01 00".into()),
            0 if id != 0 => ("RW in a room", format!("01 {:02X}", room(id))),
            1 => ("RW in a room", format!("01 {:02X}", room(id))),
            _ => ("RO", "00 FF".into()),
        };
        let label = if id % 3 == 2 { "00 0000" } else { "05 00FF" };
        out.push((format!("44 {id:02X} {id:02X} {label} {place}"), format!("session {id}: user {id}, {kind}")));
    }
    for at in 0..drafts {
        let (number, script) = (u32::MAX - 0x00FE_DCBA * (drafts - 1 - at), at % 64);
        let places = if origin(script) == 0 { 0x0001_FFFF } else { 1 << origin(script) };
        out.push((format!("45 {number:08X} {script:02X} {places:08X}"), format!("a draft of script {script}")));
    }
    out
}
