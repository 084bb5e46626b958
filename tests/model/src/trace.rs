// Following a program's system calls, as Linux does it on x86-64, and killing it at one of them.

use crate::killed::{kill, End, SIGKILL};
use std::collections::BTreeSet;
use std::ffi::{c_long, c_void};
use std::io;
use std::os::unix::process::CommandExt;
use std::process::{Command, Stdio};

extern "C" {
    fn ptrace(request: c_long, process: c_long, address: *mut c_void, data: *mut c_void) -> c_long;
    fn waitpid(process: i32, status: *mut i32, options: i32) -> i32;
}

const TRACE_ME: c_long = 0;
const GET_REGISTERS: c_long = 12;
const TO_NEXT_CALL: c_long = 24;
const SET_OPTIONS: c_long = 0x4200;
/// Calls told from signals; children of every sort too; all are killed with us.
const OPTIONS: usize = 1 | 2 | 4 | 8 | 16 | 0x10_0000;
const ALL_CHILDREN: i32 = 0x4000_0000;
const SIGTRAP: i32 = 5;
const SIGSTOP: i32 = 19;
const AT_A_CALL: i32 = SIGTRAP | 0x80;
/// Where the registers have the call's number and its first argument.
const REGISTERS: usize = 27;
const CALL: usize = 15;
const FIRST: usize = 14;
const READ: u64 = 0;
const EPERM: i32 = 1;
const ESRCH: i32 = 3;
const ECHILD: i32 = 10;
const EACCES: i32 = 13;
const ENOSYS: i32 = 38;

pub fn not_permitted(error: &io::Error) -> bool {
    matches!(error.raw_os_error(), Some(EPERM | EACCES | ENOSYS))
}

fn ask(request: c_long, process: i32, data: usize) -> io::Result<()> {
    // Safe: `data` is a number, or for GET_REGISTERS the address of as many words as it writes.
    match unsafe { ptrace(request, process.into(), std::ptr::null_mut(), data as *mut c_void) } {
        -1 => Err(io::Error::last_os_error()),
        _ => Ok(()),
    }
}

/// The next stop or end of a process, with its status; None once there is no process left.
fn wait() -> io::Result<Option<(i32, i32)>> {
    let mut status = 0;
    // Safe: one int is written.
    match unsafe { waitpid(-1, &mut status, ALL_CHILDREN) } {
        -1 => Some(io::Error::last_os_error()).filter(|e| e.raw_os_error() != Some(ECHILD)).map_or(Ok(None), Err),
        process => Ok(Some((process, status))),
    }
}

fn stopped(status: i32) -> bool {
    status & 0x7F == 0x7F
}

/// Runs the command and kills it and all its children at one stop before or after a system call, counted from the first read of standard input on.
pub fn kill_at(mut command: Command, moment: usize) -> io::Result<End> {
    // Safe: nothing but a system call happens between fork and exec.
    unsafe {
        command.pre_exec(|| ask(TRACE_ME, 0, 0));
    }
    let first = command.stdout(Stdio::null()).spawn()?.id() as i32;
    if !wait()?.is_some_and(|(_, status)| stopped(status)) {
        return Err(io::Error::other("it ended before it began"));
    }
    ask(SET_OPTIONS, first, OPTIONS)?;
    ask(TO_NEXT_CALL, first, 0)?;
    let mut alive = BTreeSet::from([first]);
    let mut left = None;
    while let Some((process, status)) = wait()? {
        if !stopped(status) {
            alive.remove(&process);
            continue;
        }
        let (signal, event) = (status >> 8 & 0xFF, status >> 16);
        let new = alive.insert(process);
        if signal == AT_A_CALL {
            if left.is_none() && reads_input(process)? {
                left = Some(moment);
            }
            match &mut left {
                Some(0) => return kill_all(alive),
                Some(left) => *left -= 1,
                None => {}
            }
        }
        // Its own signals go on to it; the stops of following it do not.
        let ours = signal == AT_A_CALL || signal == SIGTRAP || event != 0 || new && signal == SIGSTOP;
        match ask(TO_NEXT_CALL, process, if ours { 0 } else { signal as usize }) {
            // Gone meanwhile: its end is still to be waited for.
            Err(error) if error.raw_os_error() == Some(ESRCH) => {}
            done => done?,
        }
    }
    Ok(End::Itself)
}

fn reads_input(process: i32) -> io::Result<bool> {
    let mut registers = [0u64; REGISTERS];
    ask(GET_REGISTERS, process, registers.as_mut_ptr() as usize)?;
    Ok(registers[CALL] == READ && registers[FIRST] == 0)
}

fn kill_all(alive: BTreeSet<i32>) -> io::Result<End> {
    for process in alive {
        // Safe here and below: it is our own, and not waited for, so that its number is no other's.
        unsafe { kill(process, SIGKILL) };
    }
    while let Some((process, status)) = wait()? {
        // One that was started just now.
        if stopped(status) {
            unsafe { kill(process, SIGKILL) };
        }
    }
    Ok(End::Killed)
}
