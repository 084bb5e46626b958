// The model as the program `desk`: its arguments, its lines, its images and what it says when something fails.

use crate::desk::{Desk, Rule};
use crate::image;
use crate::reasons::Reason;
use crate::request::{frame, Frame};
use crate::rules::Checked;
use std::ffi::{OsStr, OsString};
use std::fs::{self, File};
use std::io::{self, Read, Write};
use std::os::unix::ffi::OsStrExt;
use std::path::Path;

pub const USAGE: &str = "usage: [--last N | --from IMAGE] [--rule R] [--save IMAGE] [--why] < requests > lines";

/// A longer file is no image.
const LONGEST: u64 = 65_536;

#[derive(Default)]
pub struct Arguments {
    last: Option<u32>,
    rule: Option<u32>,
    from: Option<OsString>,
    save: Option<OsString>,
    why: bool,
}

impl Arguments {
    /// None where the words are no such arguments; `--opened` is the model's own word for `--last`.
    pub fn of(words: &[OsString]) -> Option<Arguments> {
        let mut arguments = Arguments::default();
        let mut words = words.iter();
        while let Some(word) = words.next() {
            let fresh = match word.to_str()? {
                "--why" => !std::mem::replace(&mut arguments.why, true),
                "--last" | "--opened" => arguments.last.replace(number(words.next()?)?).is_none(),
                "--rule" => arguments.rule.replace(number(words.next()?)?).is_none(),
                "--from" => arguments.from.replace(words.next()?.clone()).is_none(),
                "--save" => arguments.save.replace(words.next()?.clone()).is_none(),
                _ => false,
            };
            if !fresh {
                return None;
            }
        }
        // The image says both.
        let beside = arguments.last.is_some() || arguments.rule.is_some();
        if arguments.from.is_some() && beside { None } else { Some(arguments) }
    }
}

/// Decimal digits below 2 ^ 32; Rust alone would also take a sign.
fn number(word: &OsStr) -> Option<u32> {
    let word = word.to_str()?;
    if word.bytes().all(|b| b.is_ascii_digit()) { word.parse().ok() } else { None }
}

/// What a run has to say on standard error when it ends: nothing where all went well.
type Said = Vec<String>;

/// Runs as the program does; a broken rule of the model's own is the error.
pub fn run(arguments: &Arguments) -> Result<Said, String> {
    let desk = match &arguments.from {
        None => {
            let number = arguments.rule.unwrap_or(1);
            let Some(rule) = Rule::of(number) else { return Ok(vec![format!("--rule {number}: refused 3")]) };
            Desk::open(arguments.last.unwrap_or(0), rule)
        }
        Some(name) => match open(name) {
            Ok(desk) => desk,
            Err(reason) => return Ok(vec![about(name, &reason)]),
        },
    };
    let mut desk = Checked::of(desk);
    let mut input = Vec::new();
    let mut said = Vec::new();
    if let Err(error) = io::stdin().lock().read_to_end(&mut input) {
        said.push(format!("standard input: {error}"));
    }
    let lines = lines(&mut desk, &input, arguments.why)?;
    let mut out = io::stdout().lock();
    if let Err(error) = out.write_all(lines.as_bytes()).and_then(|()| out.flush()) {
        said.push(format!("standard output: {error}"));
    }
    if let Some(name) = &arguments.save {
        if let Err(error) = save(name, &image::write(&desk.desk)) {
            said.push(about(name, &error.to_string()));
        }
    }
    Ok(said)
}

fn about(name: &OsStr, reason: &str) -> String {
    format!("{}: {reason}", name.to_string_lossy())
}

/// The desk in an image's file, or what is wrong with it.
fn open(name: &OsStr) -> Result<Desk, String> {
    let mut bytes = Vec::new();
    let file = File::open(name).map_err(|error| error.to_string())?;
    file.take(LONGEST + 1).read_to_end(&mut bytes).map_err(|error| error.to_string())?;
    if bytes.len() as u64 > LONGEST {
        return Err(format!("refused {}", image::NO_IMAGE));
    }
    image::read(&bytes).map_err(|refused| format!("refused {}", refused.number))
}

/// A new file beside it is written and flushed, and takes the name: whoever looks finds the old image or the new one.
fn save(name: &OsStr, bytes: &[u8]) -> io::Result<()> {
    let mut beside = name.to_owned();
    beside.push(".new");
    let written = write_whole(&beside, bytes).and_then(|()| fs::rename(&beside, name));
    if written.is_err() {
        let _ = fs::remove_file(&beside);
    }
    written
}

fn write_whole(name: &OsStr, bytes: &[u8]) -> io::Result<()> {
    if Path::new(name).file_name().map_or(true, |file| file.as_bytes() == b".new") {
        return Err(io::ErrorKind::NotFound.into());
    }
    let mut file = File::create(name)?;
    file.write_all(bytes)?;
    file.sync_all()
}

/// The lines of 01's run, with the reasons where they are asked for; a broken rule ends it with the request's ordinal.
pub fn lines(desk: &mut Checked, bytes: &[u8], why: bool) -> Result<String, String> {
    let mut out = String::new();
    let mut at = 0;
    for ordinal in 1.. {
        let (kind, byte, number, reason, length) = match frame(&bytes[at..]) {
            Frame::End => break,
            Frame::Unknown(kind) => (kind, 0xC1, None, Reason::bare(1), None),
            Frame::Cut(kind) => (kind, 0xC2, None, Reason::bare(2), None),
            Frame::Whole(request, length) => {
                let answer = desk.answer(&request).map_err(|rule| format!("request {ordinal}: {rule}"))?;
                (request.kind(), answer.byte(), answer.number(), answer.reason(), Some(length))
            }
        };
        let number = number.map_or("-".into(), |v| v.to_string());
        out += &format!("{ordinal} {kind:02X} {byte:02X} {number}");
        if why {
            out += &format!(" {reason}");
        }
        out.push('\n');
        let Some(length) = length else { break };
        at += length;
    }
    desk.replay_all()?;
    Ok(out)
}
