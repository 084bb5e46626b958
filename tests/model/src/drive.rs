// Runs the program under test, given as the words of a command, and holds what it did against what it should do.

use crate::desk::Rule;
use std::ffi::OsStr;
use std::fs;
use std::io;
use std::path::{Path, PathBuf};
use std::process::{Command, Stdio};

pub struct Program {
    words: Vec<String>,
    /// Where the files of a run stand.
    folder: PathBuf,
}

/// What a run left.
pub struct Ran {
    pub out: Vec<u8>,
    pub errors: String,
    pub status: Option<i32>,
    /// The file that it was told to save.
    pub saved: Option<Vec<u8>>,
}

/// What a run must leave; no image where none may be saved.
pub struct Wanted<'a> {
    pub out: &'a [u8],
    pub errors: &'a str,
    pub saved: Option<&'a [u8]>,
}

/// How a desk is opened.
#[derive(Clone, Copy)]
pub enum Opening<'a> {
    /// With the last number and the rule, where they are said.
    New(Option<u32>, Option<Rule>),
    From(&'a [u8]),
}

impl Program {
    pub fn new(folder: &str, words: &[String]) -> Program {
        Program { words: words.to_vec(), folder: folder.into() }
    }

    /// The same with the files in a folder of their own.
    pub fn within(&self, name: &str) -> io::Result<Program> {
        let folder = self.file(name);
        fs::create_dir_all(&folder)?;
        Ok(Program { words: self.words.clone(), folder })
    }

    pub fn file(&self, name: &str) -> PathBuf {
        self.folder.join(name)
    }

    /// A command of the program with these words.
    pub fn command(&self, words: &[&OsStr]) -> Command {
        let mut command = Command::new(&self.words[0]);
        command.args(&self.words[1..]).args(words);
        command
    }

    /// Opens a desk, gives it the requests and has it saved; the files are new for each run.
    pub fn run(&self, opening: Opening, requests: &[u8], why: bool) -> io::Result<Ran> {
        let (from, save, input) = (self.file("from"), self.file("saved"), self.file("requests"));
        if save.exists() {
            fs::remove_file(&save)?;
        }
        fs::write(&input, requests)?;
        let mut words: Vec<&OsStr> = Vec::new();
        let (number, rule);
        match opening {
            Opening::New(said_last, said_rule) => {
                number = said_last.map(|last| last.to_string());
                rule = said_rule.map(|rule| rule.number().to_string());
                for (word, value) in [("--last", &number), ("--rule", &rule)] {
                    words.extend(value.iter().flat_map(|value| [OsStr::new(word), value.as_ref()]));
                }
            }
            Opening::From(bytes) => {
                fs::write(&from, bytes)?;
                words.extend([OsStr::new("--from"), from.as_ref()]);
            }
        }
        words.extend([OsStr::new("--save"), save.as_ref()]);
        if why {
            words.push(OsStr::new("--why"));
        }
        let ran = self.command(&words).stdin(fs::File::open(&input)?).stderr(Stdio::piped()).output()?;
        let saved = fs::read(&save).ok();
        let errors = String::from_utf8_lossy(&ran.stderr).into();
        Ok(Ran { out: ran.stdout, errors, status: ran.status.code(), saved })
    }

    /// What the program says of an image that it refuses.
    pub fn refusal(&self, number: u8) -> String {
        format!("desk: {}: refused {number}\n", self.file("from").display())
    }
}

impl Ran {
    /// The first thing in which the run is not as wanted.
    pub fn differs(&self, wanted: &Wanted) -> Option<String> {
        let status = if wanted.errors.is_empty() { 0 } else { 1 };
        if self.errors != wanted.errors {
            return Some(format!("standard error has {:?}, wanted {:?}", self.errors, wanted.errors));
        }
        if self.out != wanted.out {
            return Some(line_differs(&self.out, wanted.out));
        }
        if self.status != Some(status) {
            return Some(format!("ended with {:?}, wanted {status}", self.status));
        }
        match (&self.saved, wanted.saved) {
            (Some(_), None) => Some("saved an image, wanted none".into()),
            (None, Some(_)) => Some("saved no image".into()),
            (Some(saved), Some(wanted)) if saved != wanted => Some(byte_differs(saved, wanted)),
            _ => None,
        }
    }
}

pub fn line_differs(got: &[u8], wanted: &[u8]) -> String {
    let (got, wanted) = (String::from_utf8_lossy(got), String::from_utf8_lossy(wanted));
    let (mut got, mut wanted) = (got.lines(), wanted.lines());
    loop {
        let pair = (got.next(), wanted.next());
        if pair.0 != pair.1 || pair == (None, None) {
            return format!("printed {:?}, wanted {:?}", pair.0.unwrap_or("nothing"), pair.1.unwrap_or("nothing"));
        }
    }
}

fn byte_differs(got: &[u8], wanted: &[u8]) -> String {
    let at = got.iter().zip(wanted).take_while(|(a, b)| a == b).count();
    let byte = |bytes: &[u8]| bytes.get(at).map_or("the end".into(), |b| format!("{b:02X}"));
    format!("the image has {} at byte {at} of {}, wanted {} of {}", byte(got), got.len(), byte(wanted), wanted.len())
}

/// The bytes of a file of commented hex.
pub fn hex_file(path: &Path) -> Result<Vec<u8>, String> {
    let text = fs::read_to_string(path).map_err(|error| format!("{}: {error}", path.display()))?;
    crate::batch::bytes(&plain(&text)).map_err(|error| format!("{}: {error}", path.display()))
}

fn plain(text: &str) -> String {
    let hex = text.lines().map(|line| line.split('#').next().unwrap_or(""));
    hex.collect::<String>().split_whitespace().collect()
}
