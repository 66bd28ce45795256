//! Runs a program and prints its processor seconds and its peak memory in MiB.
//!
//! A program's peak begins with the memory of the one that starts it, so a small one does.
use std::process::{exit, Command};

#[derive(Default)]
#[repr(C)]
struct Usage {
    user: [i64; 2],
    system: [i64; 2],
    peak: i64,
    rest: [i64; 13],
}

extern "C" {
    fn getrusage(who: i32, usage: *mut Usage) -> i32;
}

const CHILDREN: i32 = -1;

fn main() {
    let mut words = std::env::args().skip(1);
    let status = Command::new(words.next().expect("a program")).args(words).status().expect("it starts");
    let mut usage = Usage::default();
    unsafe { getrusage(CHILDREN, &mut usage) };
    let seconds = |it: [i64; 2]| it[0] as f64 + it[1] as f64 / 1e6;
    eprintln!("{:.3} {:.1}", seconds(usage.user) + seconds(usage.system), usage.peak as f64 / 1024.0);
    exit(status.code().unwrap_or(1));
}
