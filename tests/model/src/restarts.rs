// Holds the program to images of generated runs: saved, opened and gone on with, and compared with the same run in one piece.

use crate::desk::{Answer, Desk, Rule};
use crate::drive::{line_differs, Opening, Program, Wanted};
use crate::generate::{generate, going_on, Chance};
use crate::image;
use crate::program::lines;
use crate::request::{frame, Frame, Request};
use crate::rules::Checked;

const LASTS: [Option<u32>; 6] = [None, Some(0), Some(1), Some(4_294_967_290), Some(4_294_967_294), Some(4_294_967_295)];
const RULES: [Option<Rule>; 4] = [None, Some(Rule::Two), Some(Rule::One), Some(Rule::Two)];

fn image_of(desk: &Checked) -> Vec<u8> {
    image::write(&desk.desk)
}

/// Opens what the desk saved, and holds the model to its own round trips.
fn reopened(desk: &Checked) -> Result<Desk, String> {
    let bytes = image_of(desk);
    let again = image::read(&bytes).map_err(|refused| format!("the model refuses its image: {:?}", refused.wrong))?;
    let equal = |one: &Desk, other: &Desk| (&one.house, one.last, one.rule) == (&other.house, other.last, other.rule);
    if !equal(&again, &desk.desk) || image::write(&again) != bytes {
        return Err("the model opens another desk than it saved".into());
    }
    Ok(again)
}

/// How many Imports after an opening were granted by rule 2 where rule 1 refuses them, and refused by rule 1 where rule 2 grants them. An opening that loses
/// the rule shows in these alone.
#[derive(Default)]
pub struct ByRule {
    granted: usize,
    refused: usize,
}

impl ByRule {
    pub fn count(&mut self, opened: &Desk, run: &[u8]) {
        let mut desk = opened.clone();
        let mut left = run;
        while let Frame::Whole(request, length) = frame(left) {
            let asks = matches!(request, Request::Import { .. }) && desk.asks_its_rule(&request);
            match (desk.rule, desk.answer(&request).granted()) {
                (Rule::Two, true) if asks => self.granted += 1,
                (Rule::One, false) if asks => self.refused += 1,
                _ => {}
            }
            left = &left[length..];
        }
    }

    pub fn words(&self) -> String {
        format!("{} Imports after opening granted by rule 2 alone, {} refused by rule 1 alone", self.granted, self.refused)
    }

    pub fn too_few(&self) -> bool {
        self.granted == 0 || self.refused == 0
    }
}

/// Has the program open a desk and answer the requests as the model's desk does; gives its lines.
fn compare(program: &Program, opening: Opening, desk: &mut Checked, run: &[u8], why: bool) -> Result<String, String> {
    let out = lines(desk, run, why)?;
    let ran = program.run(opening, run, why).map_err(|error| error.to_string())?;
    let saved = image_of(desk);
    let wanted = Wanted { out: out.as_bytes(), errors: "", saved: Some(&saved) };
    ran.differs(&wanted).map_or(Ok(out), Err)
}

/// Pairs of runs: one from an opening by number, saved; the other from its image, saved too.
pub fn pairs(program: &Program, seed: u64, count: usize) -> Result<(), String> {
    let (mut answered, mut largest, mut reasons, mut second_rule) = (0, 0, 0, 0);
    let mut by_rule = ByRule::default();
    for at in 0..count {
        let seed = seed + at as u64;
        let told = |what: String| format!("seed {seed}, pair {at}: {what}");
        let mut chance = Chance::new(seed);
        let (last, rule) = (LASTS[at % LASTS.len()], RULES[at / 2 / LASTS.len() % RULES.len()]);
        let opening = Opening::New(last, rule);
        let why = at / LASTS.len() % 2 == 1;
        let (last, rule) = (last.unwrap_or(0), rule.unwrap_or(Rule::One));
        let mut desk = Checked::open(last, rule);
        // Some are long enough for a full desk.
        let length = if at % 8 == 0 { 2000 } else { 10 + chance.below(500) };
        let first = generate(chance.next(), length, last, rule, false);
        answered += compare(program, opening, &mut desk, &first, why).map_err(told)?.lines().count();
        let bytes = image_of(&desk);
        let again = reopened(&desk).map_err(told)?;
        let length = 10 + chance.below(500);
        let second = going_on(chance.next(), length, again.clone(), false);
        by_rule.count(&again, &second);
        let mut desk = Checked::of(again);
        let told = |what: String| format!("seed {seed}, pair {at}, from the image: {what}");
        let out = compare(program, Opening::From(&bytes), &mut desk, &second, why).map_err(told)?;
        answered += out.lines().count();
        reasons += why as usize;
        second_rule += (rule == Rule::Two) as usize;
        largest = largest.max(bytes.len()).max(image_of(&desk).len());
    }
    let by = by_rule.words();
    let tried = format!("{second_rule} under rule 2, {reasons} with reasons, {answered} lines, images of up to {largest} bytes; {by}");
    let said = format!("{count} pairs of runs ({tried})");
    if count < 60 || largest < 2500 || reasons < count / 3 || second_rule < count / 3 || by_rule.too_few() {
        return Err(format!("too little is tried: {said}"));
    }
    println!("{said}");
    Ok(())
}

/// A run with a restart in it.
struct Restarted {
    rule: Rule,
    before: Vec<u8>,
    after: Vec<u8>,
    /// What comes after the restart, without the take-backs that reach across it.
    rest: Vec<u8>,
    /// The lines, counted from 0 after the restart, of those take-backs.
    across: Vec<usize>,
}

/// Plays the run with a restart after so many requests beside the run in one piece. A take-back reaches across the restart where
/// the desk in one piece has a kept change and the one opened anew has none; without these both give the same answers.
fn restart(run: &[u8], requests: usize, rule: Rule, by_rule: &mut ByRule) -> Result<Restarted, String> {
    let mut whole = Checked::open(0, rule);
    let mut at = 0;
    for _ in 0..requests {
        let Frame::Whole(request, length) = frame(&run[at..]) else { break };
        whole.answer(&request)?;
        at += length;
    }
    let (before, after) = (run[..at].to_vec(), run[at..].to_vec());
    let mut anew = Checked::of(reopened(&whole)?);
    by_rule.count(&anew.desk, &after);
    let (mut rest, mut across) = (Vec::new(), Vec::new());
    for line in 0.. {
        let left = &run[at..];
        let Frame::Whole(request, length) = frame(left) else {
            rest.extend(left);
            break;
        };
        let answer = anew.answer(&request)?;
        let none_kept = matches!((request, answer), (Request::TakeBack { .. }, Answer::Refused(12, _)));
        if none_kept && whole.desk.kept > 0 {
            across.push(line);
        } else {
            if whole.answer(&request)? != answer {
                return Err(format!("the model answers otherwise after a restart, {} requests after it", line + 1));
            }
            rest.extend(&left[..length]);
        }
        at += length;
    }
    Ok(Restarted { rule, before, after, rest, across })
}

/// A line without its ordinal.
fn answers(lines: &str) -> impl Iterator<Item = &str> {
    lines.lines().map(|line| line.split_once(' ').map_or(line, |(_, rest)| rest))
}

/// Runs with a restart in them: the lines are those of the run in one piece, except that take-backs across the restart are refused with 12.
pub fn restarts(program: &Program, seed: u64, count: usize) -> Result<(), String> {
    let (mut with, mut without, mut across, mut answered, mut second_rule) = (0, 0, 0, 0, 0);
    let mut by_rule = ByRule::default();
    for at in 0..count {
        let seed = seed + at as u64;
        let mut chance = Chance::new(seed);
        let (why, rule) = (at % 2 == 1, Rule::of_seed(at as u64));
        let length = 40 + chance.below(500);
        let run = generate(chance.next(), length, 0, rule, false);
        let restarted = restart(&run, chance.below(length), rule, &mut by_rule).map_err(|what| format!("seed {seed}, restart {at}: {what}"))?;
        let told = |what: String| format!("seed {seed}, restart {at} after {} bytes: {what}", restarted.before.len());
        answered += one_restart(program, &restarted, why).map_err(told)?;
        *(if restarted.across.is_empty() { &mut without } else { &mut with }) += 1;
        across += restarted.across.len();
        second_rule += (rule == Rule::Two) as usize;
    }
    let pieces = format!("{without} runs as in one piece, {with} but for {across} take-backs across, refused with 12");
    let said = format!("{count} restarts ({second_rule} under rule 2, {answered} lines; {pieces}; {})", by_rule.words());
    if with < 2 || without < 2 || second_rule < count / 3 || by_rule.too_few() {
        return Err(format!("too little is tried: {said}"));
    }
    println!("{said}");
    Ok(())
}

fn one_restart(program: &Program, restarted: &Restarted, why: bool) -> Result<usize, String> {
    let Restarted { rule, before, after, rest, across } = restarted;
    // Rule 1 need not be said.
    let opening = Opening::New(None, Some(*rule).filter(|rule| *rule == Rule::Two));
    let mut desk = Checked::open(0, *rule);
    let first = compare(program, opening, &mut desk, before, why)?;
    let saved = image_of(&desk);
    let mut desk = Checked::of(reopened(&desk)?);
    let second = compare(program, Opening::From(&saved), &mut desk, after, why)?;
    let mut whole = Checked::open(0, *rule);
    let one_piece = compare(program, opening, &mut whole, &[&before[..], rest].concat(), why)?;
    let refused = if why { "20 CC - 12 00 0 0 0" } else { "20 CC -" };
    if across.iter().any(|line| answers(&second).nth(*line) != Some(refused)) {
        return Err("a take-back across the restart is not refused with 12".into());
    }
    let kept = answers(&second).enumerate().filter(|(line, _)| !across.contains(line)).map(|(_, line)| line);
    let both: Vec<&str> = answers(&first).chain(kept).collect();
    let one: Vec<&str> = answers(&one_piece).collect();
    if both != one {
        return Err(format!("after the restart and in one piece: {}", line_differs(both.join("\n").as_bytes(), one.join("\n").as_bytes())));
    }
    if image_of(&desk) != image_of(&whole) {
        return Err("the images after the restart and in one piece differ".into());
    }
    Ok(both.len() + across.len())
}

/// How many requests of the run, from the opening with 0 and the image's rule on, lead to the image; the fewest, and at least one.
pub fn judged(run: &[u8], bytes: &[u8]) -> Option<usize> {
    let mut desk = Desk::open(0, image::read(bytes).ok()?.rule);
    let mut at = 0;
    for requests in 1.. {
        let Frame::Whole(request, length) = frame(&run[at..]) else { break };
        desk.answer(&request);
        at += length;
        if image::write(&desk) == bytes {
            return Some(requests);
        }
    }
    None
}
