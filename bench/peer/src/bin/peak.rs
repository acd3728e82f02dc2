//! peak FILE COMMAND..: runs the command and writes its wall time and its processor time in
//! microseconds, its peak memory in KiB and its exit status into FILE. (The peak that a large program sees of a
//! child that it starts itself is at least its own.)

use std::process::{Command, ExitCode};
use std::time::Instant;

unsafe extern "C" {
    fn wait4(pid: i32, status: *mut i32, options: i32, usage: *mut i64) -> i32;
}

fn main() -> ExitCode {
    let words: Vec<_> = std::env::args_os().skip(1).collect();
    let [file, command, rest @ ..] = words.as_slice() else {
        eprintln!("peak FILE COMMAND..");
        return ExitCode::from(2);
    };
    let start = Instant::now();
    let Ok(child) = Command::new(command).args(rest).spawn() else { return ExitCode::from(1) };
    let mut status = 0;
    // The two times, of two numbers each, and fourteen numbers, of which the first is the peak.
    let mut usage = [0_i64; 18];
    // SAFETY: `usage` is as large as the system's struct, and `status` is one number.
    let got = unsafe { wait4(child.id() as i32, &mut status, 0, usage.as_mut_ptr()) };
    let wall = start.elapsed().as_micros();
    if got < 0 {
        return ExitCode::from(1);
    }
    let busy = (usage[0] + usage[2]) * 1_000_000 + usage[1] + usage[3];
    let line = format!("{wall} {busy} {} {status}\n", usage[4]);
    match std::fs::write(file, line) {
        Ok(()) => ExitCode::SUCCESS,
        Err(_) => ExitCode::from(1),
    }
}
