//! Runs a command once and tells what it took: `once INPUT COMMAND ..` gives it the file INPUT on standard input, drops what it prints,
//! and prints a line of three numbers: its seconds by the clock, its seconds of processor time, and its greatest memory in megabytes.
//! It ends with status 1 where the command does not end with 0. For Linux, on processors of 64 bits.
//!
//! A program of its own, and small: a process begins with the memory of who starts it as its greatest.
//!
//! `rustc --edition 2021 -O bench/once.rs` builds it; `bench/measure` does.
use std::fs::File;
use std::process::{exit, Command, Stdio};
use std::time::Instant;

extern "C" {
    /// The system's, which `std` stands on.
    fn wait4(pid: i32, status: &mut i32, options: i32, usage: &mut Usage) -> i32;
}

/// The system's `struct rusage`.
#[derive(Default)]
#[repr(C)]
struct Usage {
    /// Seconds and microseconds, of the program itself and of the kernel for it.
    times: [i64; 4],
    kilobytes: i64,
    others: [i64; 13],
}

fn main() {
    let words: Vec<String> = std::env::args().skip(1).collect();
    let [input, program, rest @ ..] = &words[..] else {
        eprintln!("once INPUT COMMAND ..");
        exit(2)
    };
    let mut command = Command::new(program);
    command.args(rest).stdin(File::open(input).expect("an input")).stdout(Stdio::null());
    let (mut status, mut usage) = (0, Usage::default());
    let begun = Instant::now();
    let child = command.spawn().expect("a command");
    // SAFETY: the system writes to both, which are as large as it says.
    let ended = unsafe { wait4(child.id() as i32, &mut status, 0, &mut usage) };
    let seconds = begun.elapsed().as_secs_f64();
    if ended != child.id() as i32 || status != 0 {
        eprintln!("{}: it ended with {status}", words.join(" "));
        exit(1)
    }
    let [own, own_micros, kernel, kernel_micros] = usage.times;
    let processor = (own + kernel) as f64 + (own_micros + kernel_micros) as f64 / 1e6;
    println!("{seconds:.4} {processor:.4} {:.1}", usage.kilobytes as f64 / 1024.0);
}
