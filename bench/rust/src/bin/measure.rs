//! Runs a program and writes what it used: `measure REPORT PROGRAM WORDS..`.
//!
//! The report is one line: the microseconds of user time, those of system time, the greatest resident set in KiB, and
//! the exit status, or 256 where the program was ended by a signal. The program's streams are those of this one.
//!
//! This program stands between the script and the program that is measured since a process begins with the greatest
//! resident set of the one that started it: a script's is far above that of a small program.

use std::process::{Command, ExitCode};

#[cfg(not(all(target_os = "linux", target_pointer_width = "64")))]
compile_error!("the layout of rusage below is that of 64-bit Linux");

/// A time of `struct rusage`.
#[repr(C)]
#[derive(Clone, Copy, Default)]
struct Time {
    seconds: i64,
    microseconds: i64,
}

/// `struct rusage` of 64-bit Linux (getrusage(2)).
#[repr(C)]
#[derive(Clone, Copy, Default)]
struct Usage {
    user: Time,
    system: Time,
    greatest_resident: i64,
    others: [i64; 13],
}

unsafe extern "C" {
    /// wait4(2)
    fn wait4(process: i32, status: *mut i32, options: i32, usage: *mut Usage) -> i32;
}

fn main() -> ExitCode {
    let words: Vec<_> = std::env::args_os().skip(1).collect();
    let [report, program, rest @ ..] = words.as_slice() else {
        eprintln!("usage: measure REPORT PROGRAM WORDS..");
        return ExitCode::FAILURE;
    };
    let line = match Command::new(program).args(rest).spawn() {
        Ok(child) => usage_of(child.id() as i32),
        Err(fault) => {
            eprintln!("measure: {}: {fault}", program.to_string_lossy());
            return ExitCode::FAILURE;
        }
    };
    match line.and_then(|line| std::fs::write(report, line)) {
        Ok(()) => ExitCode::SUCCESS,
        Err(fault) => {
            eprintln!("measure: {fault}");
            ExitCode::FAILURE
        }
    }
}

/// Waits for a child of this process, and gives the line of the report.
fn usage_of(process: i32) -> std::io::Result<String> {
    let mut status = 0;
    let mut usage = Usage::default();
    // Safety: both pointers are to values of the right layouts, which live across the call.
    if unsafe { wait4(process, &mut status, 0, &mut usage) } != process {
        return Err(std::io::Error::last_os_error());
    }
    let microseconds = |time: Time| time.seconds * 1_000_000 + time.microseconds;
    let code = if status & 0x7f == 0 {
        status >> 8 & 0xff
    } else {
        256
    };
    Ok(format!(
        "{} {} {} {code}\n",
        microseconds(usage.user),
        microseconds(usage.system),
        usage.greatest_resident
    ))
}
