// The program `model`: runs, generates, lists and measures runs and batches of the desk.

mod batch;
mod batches;
mod conditions;
mod coverage;
mod desk;
mod drive;
mod generate;
mod image;
mod image_cases;
mod images;
mod imports;
mod killed;
mod leads;
mod pieces;
mod places;
mod program;
mod reasons;
mod refusals;
mod request;
mod restarts;
mod returns;
mod rules;
#[cfg_attr(not(all(target_os = "linux", target_arch = "x86_64")), path = "no_trace.rs")]
mod trace;
mod whole_images;

use desk::Rule;
use drive::Program;
use program::Arguments;
use request::{frame, Frame};
use std::ffi::OsString;
use std::io::{self, Read, Write};
use std::process::ExitCode;

const USAGE: &str = "usage:
model [--last N | --from IMAGE] [--rule R] [--save IMAGE] [--why] < requests       (stands in for the program `desk`)
model run [--last N | --from IMAGE] [--rule R] [--save IMAGE] [--why] < requests   (--opened is --last)
model generate SEED COUNT [--opened N] [--rule R] [--whole] > requests
model rule-of SEED               (the rule under which a seed's run goes in a comparison)
model requests < requests        (ordinal and hex, a line each)
model pieces < bytes > bytes     (the same bytes, written in odd pieces)
model batch < cases              (NAME LAST ROOM PLACE REQUESTS, a line each; LAST is N, N/R or +)
model batches SEED COUNT > cases
model coverage COUNT SEED..
model stored FILE..              (whether these runs, in commented hex, meet every condition)
model make-images FOLDER         (writes the stored images)
model judged IMAGE < requests    (how many of them lead to the image, under its rule)
and these, which drive a program, given as the words of a command, with files in FOLDER:
model stored-images FOLDER FILE.. -- PROGRAM..
model changed-images FOLDER FILE -- PROGRAM..
model image-runs FOLDER SEED COUNT -- PROGRAM..
model restarts FOLDER SEED COUNT -- PROGRAM..
model killed FOLDER [--by-chance] -- PROGRAM..
model unread -- COMMAND..        (with a standard output that nobody reads)";
const WORDS: [&str; 9] = ["run", "generate", "rule-of", "requests", "pieces", "batch", "batches", "coverage", "stored"];
const DRIVING: [&str; 8] =
    ["make-images", "judged", "stored-images", "changed-images", "image-runs", "restarts", "killed", "unread"];

fn main() -> ExitCode {
    let given: Vec<OsString> = std::env::args_os().skip(1).collect();
    let words: Vec<String> = given.iter().map(|w| w.to_string_lossy().into()).collect();
    let done = match &words[..] {
        [word, ..] if word == "run" => as_program(&given[1..]),
        [word, rest @ ..] if WORDS.contains(&word.as_str()) => own(word, rest.to_vec()).map(|()| true),
        [word, rest @ ..] if DRIVING.contains(&word.as_str()) => drive(word, rest).map_err(io::Error::other),
        _ => as_program(&given),
    };
    match done {
        Ok(true) => ExitCode::SUCCESS,
        Ok(false) => ExitCode::FAILURE,
        Err(error) => {
            eprintln!("model: {error}");
            ExitCode::FAILURE
        }
    }
}

/// Runs as the program does; true where standard error has no line.
fn as_program(words: &[OsString]) -> io::Result<bool> {
    let said = match Arguments::of(words) {
        Some(arguments) => program::run(&arguments).map_err(io::Error::other)?,
        None => vec![program::USAGE.into()],
    };
    for line in &said {
        eprintln!("desk: {line}");
    }
    Ok(said.is_empty())
}

/// One of the words about images, most of which drive a program; false where it ended badly and said so itself.
fn drive(word: &str, rest: &[String]) -> Result<bool, String> {
    let at = rest.iter().position(|w| w == "--").unwrap_or(rest.len());
    let (rest, command) = (&rest[..at], rest.get(at + 1..).unwrap_or(&[]));
    let number = |word: &String| word.parse::<u64>().map_err(|_| USAGE.to_string());
    let program = |folder: &String| match command {
        [] => Err(USAGE.to_string()),
        _ => Ok(Program::new(folder, command)),
    };
    match (word, rest) {
        ("make-images", [folder]) => image_cases::write(folder)?,
        ("judged", [file]) => {
            let image = std::fs::read(file).map_err(|error| format!("{file}: {error}"))?;
            let run = input().map_err(|error| error.to_string())?;
            println!("{}", restarts::judged(&run, &image).ok_or(format!("{file}: no requests lead there"))?);
        }
        ("stored-images", [folder, files @ ..]) => images::stored(&program(folder)?, files)?,
        ("changed-images", [folder, file]) => images::changed(&program(folder)?, file)?,
        ("image-runs", [folder, seed, count]) => {
            restarts::pairs(&program(folder)?, number(seed)?, number(count)? as usize)?
        }
        ("restarts", [folder, seed, count]) => {
            restarts::restarts(&program(folder)?, number(seed)?, number(count)? as usize)?
        }
        ("killed", [folder]) => killed::each_moment(&program(folder)?, false)?,
        ("killed", [folder, word]) if word == "--by-chance" => killed::each_moment(&program(folder)?, true)?,
        ("unread", []) => return killed::unread(command),
        _ => return Err(USAGE.into()),
    }
    Ok(true)
}

/// One of the model's own words, with what follows it.
fn own(word: &str, mut rest: Vec<String>) -> io::Result<()> {
    let usage = || io::Error::other(USAGE);
    let measured = |complete: bool| if complete { Ok(()) } else { Err(io::Error::other("not everything was met")) };
    if word == "stored" {
        let texts: Vec<String> = rest.iter().map(std::fs::read_to_string).collect::<Result<_, _>>()?;
        let files: Vec<(String, String)> = rest.into_iter().zip(texts).collect();
        return measured(coverage::stored(&files).map_err(io::Error::other)?);
    }
    let mut value = |flag: &str, otherwise: u32| -> io::Result<u32> {
        let Some(at) = rest.iter().position(|w| w == flag) else { return Ok(otherwise) };
        let value = rest.get(at + 1).and_then(|w| w.parse().ok()).ok_or_else(usage)?;
        rest.drain(at..at + 2);
        Ok(value)
    };
    let opened = value("--opened", 0)?;
    let rule = Rule::of(value("--rule", 1)?).ok_or_else(usage)?;
    let mut said = |flag: &str| rest.iter().position(|w| w == flag).map(|at| rest.remove(at)).is_some();
    let whole = said("--whole");
    let numbers: Vec<u64> = rest.iter().map(|w| w.parse().map_err(|_| usage())).collect::<Result<_, _>>()?;
    match (word, &numbers[..]) {
        ("generate", [seed, count]) => {
            io::stdout().write_all(&generate::generate(*seed, *count as usize, opened, rule, whole))
        }
        ("rule-of", [seed]) => writeln!(io::stdout(), "{}", Rule::of_seed(*seed).number()),
        ("requests", []) => requests(),
        ("pieces", []) => pieces::write(&input()?),
        ("batch", []) => batch(),
        ("batches", [seed, count]) => {
            let text = batches::batches(*seed, *count as usize).map_err(io::Error::other)?;
            io::stdout().write_all(text.as_bytes())
        }
        ("coverage", [count, seeds @ ..]) if !seeds.is_empty() => measured(coverage::report(seeds, *count as usize)),
        _ => Err(usage()),
    }
}

fn input() -> io::Result<Vec<u8>> {
    let mut bytes = Vec::new();
    io::stdin().lock().read_to_end(&mut bytes)?;
    Ok(bytes)
}

/// Prints what the batch leaves of each case.
fn batch() -> io::Result<()> {
    let mut out = io::BufWriter::new(io::stdout().lock());
    batch::lines(&io::read_to_string(io::stdin())?, &mut out)?;
    out.flush()
}

/// Prints each request's ordinal and bytes, so that a difference can be shown.
fn requests() -> io::Result<()> {
    let bytes = input()?;
    let mut out = io::BufWriter::new(io::stdout().lock());
    let mut at = 0;
    for ordinal in 1.. {
        let (length, last) = match frame(&bytes[at..]) {
            Frame::End => break,
            Frame::Unknown(_) | Frame::Cut(_) => (bytes.len() - at, true),
            Frame::Whole(_, length) => (length, false),
        };
        write!(out, "{ordinal} ")?;
        for byte in &bytes[at..at + length] {
            write!(out, "{byte:02X}")?;
        }
        writeln!(out)?;
        at += length;
        if last {
            break;
        }
    }
    out.flush()
}
