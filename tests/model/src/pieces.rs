// Copies standard input to a pipe in pieces of odd sizes, so that a reader's buffer ends anywhere in a request.

use std::io::{self, Write};
use std::thread::sleep;
use std::time::{Duration, Instant};

/// Sizes around the powers of two that buffers have.
const SIZES: [usize; 16] = [1, 7, 1023, 13, 1, 1024, 2, 1025, 3, 4097, 5, 4095, 11, 4096, 1, 2047];
const PATIENCE: Duration = Duration::from_secs(10);

extern "C" {
    fn ioctl(descriptor: i32, request: std::ffi::c_ulong, ...) -> i32;
}

/// Linux's number for asking how many bytes wait to be read.
const FIONREAD: std::ffi::c_ulong = 0x541B;

fn waiting() -> io::Result<i32> {
    let mut bytes: i32 = 0;
    // Safe: this request writes one int, and descriptor 1 is ours.
    match unsafe { ioctl(1, FIONREAD, &mut bytes as *mut i32) } {
        0 => Ok(bytes),
        _ => Err(io::Error::last_os_error()),
    }
}

/// Returns once the pipe is empty: pieces that wait together would be read as one.
fn taken() -> io::Result<()> {
    let began = Instant::now();
    while waiting()? > 0 {
        if began.elapsed() > PATIENCE {
            return Err(io::Error::other("the reader takes nothing"));
        }
        sleep(Duration::from_micros(20));
    }
    Ok(())
}

pub fn write(mut bytes: &[u8]) -> io::Result<()> {
    let mut out = io::stdout().lock();
    for size in SIZES.iter().cycle() {
        let (piece, rest) = bytes.split_at(bytes.len().min(*size));
        out.write_all(piece)?;
        out.flush()?;
        if rest.is_empty() {
            break;
        }
        taken()?;
        bytes = rest;
    }
    Ok(())
}
