// Kills the program while it saves, at every moment that can be told apart, and looks at the image: the old one or the new one, whole.

use crate::desk::{Desk, Rule};
use crate::drive::Program;
use crate::generate::{generate, going_on, Chance};
use crate::image;
use crate::program::lines;
use crate::rules::Checked;
use crate::trace;
use std::ffi::OsStr;
use std::fs::{self, File};
use std::io::{self, Read};
use std::os::unix::net::UnixStream;
use std::os::unix::process::CommandExt;
use std::process::{Command, Stdio};
use std::thread::sleep;
use std::time::{Duration, Instant};

extern "C" {
    pub fn kill(process: i32, signal: i32) -> i32;
}

pub const SIGKILL: i32 = 9;

/// How a run that was to be killed came to its end.
pub enum End {
    Killed,
    /// By itself, before the moment came.
    Itself,
}

/// A run from one image that saves over the same.
struct Saving<'a> {
    program: &'a Program,
    old: Vec<u8>,
    new: Vec<u8>,
    /// Whether the old image stands where the new one is saved.
    over: bool,
}

#[derive(Default)]
struct Found {
    old: usize,
    new: usize,
}

/// Kills the program at every system call from its first read of the input on; where these can't be followed, after delays by chance.
pub fn each_moment(program: &Program, by_chance: bool) -> Result<(), String> {
    let mut said = Vec::new();
    for over in [true, false] {
        let saving = Saving::prepare(program, over)?;
        let mut found = Found::default();
        let traced = !by_chance && saving.at_each_call(&mut found)?;
        if !traced {
            saving.after_delays(&mut found)?;
        }
        let old = if over { "the old image" } else { "no image" };
        said.push(format!("{} times {old} and {} the new one", found.old, found.new));
        if found.old == 0 || found.new == 0 {
            return Err(format!("too little is tried: {}", said.join(", ")));
        }
        if !over {
            let how = if traced { "at each system call" } else { "after delays by chance, its system calls not followed" };
            println!("killed {how}: {}", said.join(", "));
        }
    }
    Ok(())
}

impl Saving<'_> {
    fn prepare(program: &Program, over: bool) -> Result<Saving<'_>, String> {
        // Each rule once.
        let rule = if over { Rule::Two } else { Rule::One };
        let mut desk = Checked::open(0, rule);
        lines(&mut desk, &generate(17, 400, 0, rule, true), false)?;
        let Desk { house, last, .. } = desk.desk;
        let desk = Desk::of(house, last, rule);
        let old = image::write(&desk);
        let run = going_on(18, 60, desk.clone(), true);
        let mut desk = Checked::of(desk);
        lines(&mut desk, &run, false)?;
        let new = image::write(&desk.desk);
        fs::write(program.file("requests"), run).map_err(|error| error.to_string())?;
        Ok(Saving { program, old, new, over })
    }

    /// Starts anew: the old image where it belongs. What killed runs left beside it stays.
    fn start(&self) -> io::Result<Command> {
        let (from, save) = (self.program.file("from"), self.program.file("image"));
        fs::write(&from, &self.old)?;
        if self.over {
            fs::write(&save, &self.old)?;
        } else if save.exists() {
            fs::remove_file(&save)?;
        }
        let mut command = self.program.command(&[OsStr::new("--from"), from.as_ref(), OsStr::new("--save"), save.as_ref()]);
        command.stdin(File::open(self.program.file("requests"))?).stderr(File::create(self.program.file("errors"))?);
        Ok(command)
    }

    /// The image that is there now is the old one or the new one; a run that ended by itself said nothing and left the new one.
    fn look(&self, end: End, found: &mut Found) -> Result<(), String> {
        let image = fs::read(self.program.file("image")).ok();
        let old = if self.over { Some(&self.old) } else { None };
        if image.as_ref() == Some(&self.new) {
            found.new += 1;
        } else if image.as_ref() == old {
            found.old += 1;
        } else {
            let length = image.map_or("no file".into(), |image| format!("{} bytes", image.len()));
            return Err(format!("the image is neither the old one ({} bytes) nor the new one ({} bytes): {length}", self.old.len(), self.new.len()));
        }
        let errors = fs::read_to_string(self.program.file("errors")).map_err(|error| error.to_string())?;
        match end {
            End::Itself if image.as_ref() != Some(&self.new) || !errors.is_empty() => {
                Err(format!("not saved, though nobody killed it: {errors:?}"))
            }
            _ => Ok(()),
        }
    }

    /// False where system calls can't be followed.
    fn at_each_call(&self, found: &mut Found) -> Result<bool, String> {
        for moment in 0..MOST_CALLS {
            let command = self.start().map_err(|error| error.to_string())?;
            let end = match trace::kill_at(command, moment) {
                Ok(end) => end,
                Err(error) if moment == 0 && trace::not_permitted(&error) => return Ok(false),
                Err(error) => return Err(format!("moment {moment}: {error}")),
            };
            let last = matches!(end, End::Itself);
            self.look(end, found).map_err(|what| format!("killed at system call {moment} from the input on: {what}"))?;
            if last {
                return Ok(true);
            }
            self.again().map_err(|what| format!("after a kill at system call {moment} from the input on: {what}"))?;
        }
        Err(format!("more than {MOST_CALLS} system calls"))
    }

    /// What a killed run left beside the image must not hinder the next.
    fn again(&self) -> Result<(), String> {
        let ended = self.start().and_then(|mut command| command.stdout(Stdio::null()).status());
        ended.map_err(|error| error.to_string())?;
        self.look(End::Itself, &mut Found::default())
    }

    /// Delays from none to a little more than a whole run takes.
    fn after_delays(&self, found: &mut Found) -> Result<(), String> {
        let told = |error: io::Error| error.to_string();
        let began = Instant::now();
        let end = kill_after(self.start().map_err(told)?, Duration::from_secs(600)).map_err(told)?;
        let whole = began.elapsed();
        self.look(end, found)?;
        let mut chance = Chance::new(whole.as_nanos() as u64);
        for at in 0..CHANCES {
            let delay = if at == 0 { Duration::ZERO } else { whole.mul_f64(chance.below(1200) as f64 / 1000.0) };
            let end = kill_after(self.start().map_err(told)?, delay).map_err(told)?;
            self.look(end, found).map_err(|what| format!("killed after {delay:?}: {what}"))?;
            self.again().map_err(|what| format!("after a kill, {delay:?} after the start: {what}"))?;
        }
        Ok(())
    }
}

/// No program needs as many to save.
const MOST_CALLS: usize = 5000;
const CHANCES: usize = 100;

/// Kills the command and all that it started, as one group, once the delay is over.
fn kill_after(mut command: Command, delay: Duration) -> io::Result<End> {
    let mut child = command.stdout(Stdio::piped()).process_group(0).spawn()?;
    let mut out = child.stdout.take().expect("piped");
    let began = Instant::now();
    let end = loop {
        if child.try_wait()?.is_some() {
            break End::Itself;
        }
        if began.elapsed() >= delay {
            // Safe: the group is the child's own, and the child is not waited for yet.
            unsafe { kill(-(child.id() as i32), SIGKILL) };
            child.wait()?;
            break End::Killed;
        }
        sleep(Duration::from_micros(50));
    };
    // The output ends when the last process that holds it has gone.
    out.read_to_end(&mut Vec::new())?;
    Ok(end)
}

/// Runs the command with a standard output that nobody reads; true where it ended well.
pub fn unread(command: &[String]) -> Result<bool, String> {
    let (out, reader) = UnixStream::pair().map_err(|error| error.to_string())?;
    drop(reader);
    let (first, rest) = command.split_first().ok_or("no command")?;
    let out = Stdio::from(std::os::fd::OwnedFd::from(out));
    let status = Command::new(first).args(rest).stdout(out).status().map_err(|error| format!("{first}: {error}"))?;
    Ok(status.success())
}
