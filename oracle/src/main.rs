//! The release's own channels, run under a schedule text: standard input to standard output, as `replay` does it.
mod baton;
mod compare;
mod generator;
mod record;
mod schedule;
mod stand_ins;

// The paths that the release's files name.
mod cell {
    pub use crate::stand_ins::UnsafeCell;
    pub use std::cell::Cell;
}
mod sync {
    pub use crate::stand_ins::gated::{Mutex, atomic};
    pub use std::sync::Arc;
}
mod quiet {
    pub use crate::stand_ins::quiet_words::{Mutex, atomic};
}
mod polled {
    pub use crate::stand_ins::polled_words::atomic;
}
mod thread {
    pub use crate::stand_ins::Thread;
    pub use std::thread::yield_now;
    pub fn current_or_unnamed() -> Thread {
        Thread
    }
}
mod time {
    pub use crate::stand_ins::clock::Instant;
}
use std::{fmt, hint, marker, mem, ops, ptr};

#[allow(dead_code, unused_imports)]
mod release {
    include!(concat!(env!("OUT_DIR"), "/release.rs"));

    pub mod list {
        #[derive(Debug, Default)]
        pub struct ListToken;
    }

    pub mod error {
        pub use std::sync::mpsc::{RecvTimeoutError, TryRecvError, TrySendError};

        pub enum SendTimeoutError<T> {
            Timeout(T),
            Disconnected(T),
        }
    }
}

use std::io::{Read, Write};
use std::path::Path;
use std::process::exit;

const USE: &str = "oracle: replays the schedule text on standard input with the release's channels
oracle changes: prints the lines that were changed in the release's files
oracle compare REPLAY TRACE SEED COUNT LENGTH: compares the two programs with the release, output and record after every frame,
    on COUNT random texts from SEED on, and on every order of LENGTH steps of each pair of calls; exits with 1 at the first difference
oracle sample SEED COUNT FOLDER: writes COUNT texts from SEED on to FOLDER/stdin, each behind its length, and the release's outputs to
    FOLDER/stdout";

/// Texts with what the release says to them, for a program that has no Rust at hand.
fn sample(seed: u64, count: u64, folder: &Path) {
    let bench = schedule::Bench::new();
    let (mut texts, mut outputs) = (Vec::new(), Vec::new());
    for s in seed..seed + count {
        let text = generator::text(s);
        texts.extend(format!("{:08x}", text.len()).into_bytes());
        texts.extend(&text);
        for (line, _) in bench.replay(&text) {
            outputs.extend([&line[..], b"\n"].concat());
        }
    }
    std::fs::write(folder.join("stdin"), texts).unwrap();
    std::fs::write(folder.join("stdout"), outputs).unwrap();
}

fn main() {
    let args: Vec<String> = std::env::args().skip(1).collect();
    let args: Vec<&str> = args.iter().map(String::as_str).collect();
    let number = |s: &str| s.parse().unwrap_or_else(|_| panic!("{s}: no number"));
    match args[..] {
        [] => {
            let mut text = Vec::new();
            std::io::stdin().read_to_end(&mut text).unwrap();
            for (line, _) in schedule::Bench::new().replay(&text) {
                std::io::stdout().write_all(&[&line[..], b"\n"].concat()).unwrap();
            }
        }
        ["changes"] => print!("{}", include_str!(concat!(env!("OUT_DIR"), "/changes.txt"))),
        ["compare", replay, trace, seed, count, length] => {
            if !compare::compare(replay, trace, number(seed), number(count), number(length) as u32) {
                exit(1);
            }
        }
        ["sample", seed, count, folder] => sample(number(seed), number(count), Path::new(folder)),
        _ => {
            eprintln!("{USE}");
            exit(2);
        }
    }
}
