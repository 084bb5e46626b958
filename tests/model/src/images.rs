// Holds the program to images: stored ones with the answer that each names, and every small change of a middling one.

use crate::desk::{House, Rule, Script, HOUSE};
use crate::drive::{hex_file, Opening, Program, Ran, Wanted};
use crate::generate::{going_on, Chance};
use crate::image::{self, faults};
use crate::program::lines;
use crate::request::Request;
use crate::restarts::ByRule;
use crate::rules::Checked;
use std::collections::BTreeSet;
use std::fs;
use std::path::Path;
use std::thread;

/// How many images were taken and refused.
#[derive(Default)]
struct Counts {
    accepted: usize,
    cut: usize,
    no_image: usize,
}

impl Counts {
    fn all(&self) -> usize {
        self.accepted + self.cut + self.no_image
    }

    fn and(self, other: Counts) -> Counts {
        Counts {
            accepted: self.accepted + other.accepted,
            cut: self.cut + other.cut,
            no_image: self.no_image + other.no_image,
        }
    }

    fn words(&self) -> String {
        let Counts { accepted, cut, no_image } = self;
        format!("{accepted} accepted, {cut} refused with 14, {no_image} with 15")
    }
}

/// Gives the image to the program without a request; the model says what must come of it.
fn compare(program: &Program, bytes: &[u8], counts: &mut Counts) -> Result<(), String> {
    let ran = program.run(Opening::From(bytes), &[], false).map_err(|error| error.to_string())?;
    match image::read(bytes) {
        Ok(desk) => {
            counts.accepted += 1;
            if image::write(&desk) != bytes {
                return Err("the model writes what it read as other bytes".into());
            }
            held(&ran, &Wanted { out: &[], errors: "", saved: Some(bytes) })
        }
        Err(refused) => {
            *(if refused.number == image::CUT { &mut counts.cut } else { &mut counts.no_image }) += 1;
            let errors = program.refusal(refused.number);
            held(&ran, &Wanted { out: &[], errors: &errors, saved: None })
                .map_err(|what| format!("{what} (the model: {})", refused.wrong.join("; ")))
        }
    }
}

fn held(ran: &Ran, wanted: &Wanted) -> Result<(), String> {
    ran.differs(wanted).map_or(Ok(()), Err)
}

/// The stored images. A file's first line has what must come of it: `# accepted` or `# 14: ` or `# 15: ` and what is wrong, in the model's words.
pub fn stored(program: &Program, files: &[String]) -> Result<(), String> {
    let mut counts = Counts::default();
    let mut missing: BTreeSet<&str> = faults().into_iter().collect();
    let mut requests = 0;
    let mut by_rule = ByRule::default();
    for file in files {
        let told = |what: String| format!("{file}: {what}");
        let text = fs::read_to_string(file).map_err(|error| told(error.to_string()))?;
        let bytes = hex_file(Path::new(file))?;
        let answer = match image::read(&bytes) {
            Ok(_) => "# accepted".into(),
            Err(refused) => {
                missing.retain(|fault| !refused.wrong.contains(fault));
                format!("# {}: {}", refused.number, refused.wrong.join("; "))
            }
        };
        let first = text.lines().next().unwrap_or("");
        if first != answer {
            return Err(told(format!("the file says {first:?}, the model {answer:?}")));
        }
        compare(program, &bytes, &mut counts).map_err(told)?;
        requests += go_on(program, &bytes, &mut by_rule).map_err(told)?;
    }
    if let Some(fault) = missing.first() {
        return Err(format!("no stored image is refused for: {fault}"));
    }
    if by_rule.too_few() {
        return Err(format!("too little is tried after opening: {}", by_rule.words()));
    }
    println!("{} stored ({}; {requests} requests after opening, {})", counts.all(), counts.words(), by_rule.words());
    Ok(())
}

/// How many requests an accepted image is gone on with.
const GOING_ON: usize = 60;

/// Each room script's first draft into each house script, by a lead of the room: some of these only one of the rules grants.
fn imports(house: &House) -> Vec<Request> {
    let scripts = |of_house: bool| house.scripts.iter().filter(move |(_, script)| (script.origin == HOUSE) == of_house);
    let mut out = Vec::new();
    for (script1, Script { origin: room, .. }) in scripts(false) {
        let u = house.users.iter().find(|(_, user)| user.led.contains(*room)).map(|(u, _)| *u);
        let v = house.drafts.iter().find(|(_, draft)| draft.script == *script1).map(|(v, _)| *v);
        let (Some(u), Some(v)) = (u, v) else { continue };
        out.extend(scripts(true).map(|(script2, _)| Request::Import { u, script1: *script1, v, script2: *script2, room: *room }));
    }
    out
}

/// The lead of each room's first lead ended by its last: 8 where they are one.
fn leads(house: &House) -> impl Iterator<Item = Request> + '_ {
    house.rooms.iter().map(|room| {
        let leads = house.leads_of(room);
        Request::EndLead { u: leads[leads.len() - 1], w: leads[0], room }
    })
}

/// A run on an accepted image, with reasons: first an administrator's take-back, which is 12, then Imports and ends of leads, then a generated run.
fn go_on(program: &Program, bytes: &[u8], by_rule: &mut ByRule) -> Result<usize, String> {
    let Ok(desk) = image::read(bytes) else { return Ok(0) };
    let mut run = Vec::new();
    let administrator = desk.house.users.iter().find(|(_, user)| user.administrator).map(|(u, _)| *u);
    if let Some(u) = administrator {
        run.extend([0x20, u]);
    }
    let mut after = desk.clone();
    for request in imports(&desk.house).into_iter().chain(leads(&desk.house)) {
        after.answer(&request);
        run.extend(request.bytes());
    }
    run.extend(going_on(bytes.len() as u64, GOING_ON, after, true));
    by_rule.count(&desk, &run);
    let mut desk = Checked::of(desk);
    let out = lines(&mut desk, &run, true)?;
    if administrator.is_some() && !out.starts_with("1 20 CC - 12 00 0 0 0\n") {
        return Err("the model takes back right after opening".into());
    }
    let ran = program.run(Opening::From(bytes), &run, true).map_err(|error| error.to_string())?;
    let saved = image::write(&desk.desk);
    held(&ran, &Wanted { out: out.as_bytes(), errors: "", saved: Some(&saved) })?;
    Ok(out.lines().count())
}

/// Every cut of the image, every byte changed and left out, each record missing, doubled and swapped with the next, unknown kinds and the rule between records.
pub fn changed(program: &Program, file: &str) -> Result<(), String> {
    let bytes = hex_file(Path::new(file))?;
    let records = records(&bytes)?;
    let changes = changes(&bytes, &records);
    // Some thousand runs of a program, so two at a time.
    let halves = changes.split_at(changes.len() / 2);
    let half = |name: &str, changes: &[Change]| -> Result<Counts, String> {
        let program = program.within(name).map_err(|error| error.to_string())?;
        let mut counts = Counts::default();
        for (name, changed) in changes {
            compare(&program, changed, &mut counts).map_err(|what| format!("{file}, {name}: {what}"))?;
        }
        Ok(counts)
    };
    let (first, second) = thread::scope(|scope| {
        let first = scope.spawn(|| half("first", halves.0));
        (half("second", halves.1), first.join().expect("the model stopped"))
    });
    let counts = first?.and(second?);
    let (length, kinds) = (bytes.len(), records.iter().map(|r| r[0]).collect::<BTreeSet<u8>>());
    // Under rule 2 the rule is a kind more.
    let all_kinds = if image::read(&bytes).is_ok_and(|desk| desk.rule == Rule::Two) { 7 } else { 6 };
    if length < 300 || kinds.len() != all_kinds || counts.accepted == 0 || counts.cut < length - 50 || counts.no_image < length {
        return Err(format!("{file}: too little is tried: {length} bytes, {}", counts.words()));
    }
    let rule = if all_kinds == 7 { "of rule 2 " } else { "" };
    println!("{length} bytes {rule}changed in {} ways ({})", counts.all(), counts.words());
    Ok(())
}

/// What was changed, and the bytes.
type Change = (String, Vec<u8>);

/// The records of an image that the model accepts, kind bytes first.
fn records(bytes: &[u8]) -> Result<Vec<&[u8]>, String> {
    image::read(bytes).map_err(|refused| format!("refused {}: {}", refused.number, refused.wrong.join("; ")))?;
    image::frames(bytes).map_err(|refused| refused.wrong.join("; "))
}

fn changes(bytes: &[u8], records: &[&[u8]]) -> Vec<Change> {
    let mut out = vec![("unchanged".to_string(), bytes.to_vec())];
    for length in 0..bytes.len() {
        out.push((format!("cut after {length} bytes"), bytes[..length].to_vec()));
    }
    // Its neighbours, and any other.
    let mut chance = Chance::new(bytes.len() as u64);
    for (at, byte) in bytes.iter().enumerate() {
        let any = byte.wrapping_add(2 + chance.below(253) as u8);
        for value in [byte.wrapping_add(1), byte.wrapping_sub(1), any] {
            let mut changed = bytes.to_vec();
            changed[at] = value;
            out.push((format!("byte {at} changed from {byte:02X} to {value:02X}"), changed));
        }
        let mut without = bytes.to_vec();
        without.remove(at);
        out.push((format!("without byte {at}"), without));
    }
    for (at, record) in records.iter().enumerate() {
        let (before, after) = (records[..at].concat(), records[at + 1..].concat());
        let mut push = |what: &str, pieces: &[&[u8]]| out.push((format!("record {at} {what}"), pieces.concat()));
        push("missing", &[&before, &after]);
        push("twice", &[&before, record, record, &after]);
        push("again at the end", &[bytes, record]);
        push("alone", &[record]);
        push("behind an unknown kind", &[&before, &[0x47], record, &after]);
        push("behind the rule", &[&before, &[image::RULE], record, &after]);
        push("cut behind the rule", &[&before, &[image::RULE], &record[..1]]);
        push("cut behind an unknown kind", &[&before, &[0x3F], &record[..1]]);
        push("cut, with an unknown kind in its body", &[&before, &record[..1], &[0xFF]]);
        if let Some(next) = records.get(at + 1) {
            push("swapped with the next", &[&before, next, record, &records[at + 2..].concat()]);
        }
    }
    out
}
