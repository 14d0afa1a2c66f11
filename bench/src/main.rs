//! The proved replay against an ordinary one, over the same texts: outputs, times and instructions.
mod count;
#[allow(dead_code)]
#[path = "../../oracle/src/generator.rs"]
mod generator;
mod ordinary;
mod sides;
mod texts;
mod time;

use std::process::exit;
use texts::Kind;

const USE: &str = "bench time [SEED] [TEXTS] [ROUNDS]: times both over TEXTS texts of each kind, the best of ROUNDS rounds
bench count [SEED] [TEXTS]: counts both sides' instructions with valgrind; exits with 1 where the proved one has more than twice as many
bench log [FRAMES]: runs both over so many frames of ever new texts
bench once KIND SIDE SEED TEXTS: runs one side alone, to be counted
A difference in output is told, and exits with 1.";

fn main() {
    let args: Vec<String> = std::env::args().skip(1).collect();
    let args: Vec<&str> = args.iter().map(String::as_str).collect();
    let number = |s: &str| s.parse::<u64>().unwrap_or_else(|_| panic!("{s}: no number"));
    let nth = |n: usize, default: u64| args.get(n).map_or(default, |s| number(s));
    match args[..] {
        ["time", ..] if args.len() <= 4 => time::time(nth(1, 1), nth(2, 40), nth(3, 15)),
        ["count", ..] if args.len() <= 3 => count::count(nth(1, 1), nth(2, 10)),
        ["log", ..] if args.len() <= 2 => time::log(nth(1, 40_000_000)),
        ["once", kind, side, seed, texts] => count::once(Kind::named(kind), sides::named(side), number(seed), number(texts)),
        _ => {
            eprintln!("{USE}");
            exit(2);
        }
    }
}
