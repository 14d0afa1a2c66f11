//! Both replayers by the instructions that they execute, as valgrind counts them.
use crate::sides::{self, SIDES, Side};
use crate::texts::{KINDS, Kind, SUMS, frames};
use std::path::Path;
use std::process::{Command, Stdio, exit};

/// The most instructions that the proved side may take for one of the ordinary side.
const LIMIT: f64 = 2.0;

/// Runs one side over the texts of a kind, once.
pub fn once(kind: Kind, side: Side, seed: u64, count: u64) {
    for s in seed..seed + count {
        let text = kind.text(s);
        side.replay(&text, &mut sides::buffer(text.len()));
    }
}

/// The instructions of a side over the texts of a kind: this program run under valgrind, counting inside the side's function alone.
fn instructions(folder: &Path, kind: &str, side: usize, seed: u64, count: u64) -> u64 {
    let (name, _, function) = SIDES[side];
    let file = folder.join("counts");
    let run = Command::new("valgrind")
        .args(["--tool=callgrind", &format!("--toggle-collect={function}"), &format!("--callgrind-out-file={}", file.display())])
        .arg(std::env::current_exe().unwrap())
        .args(["once", kind, name, &seed.to_string(), &count.to_string()])
        .output()
        .unwrap_or_else(|e| panic!("valgrind: {e}"));
    let counts = std::fs::read_to_string(&file).unwrap_or_default();
    let total = counts.lines().find_map(|line| line.strip_prefix("totals: ")?.trim().parse().ok());
    match total {
        Some(n) if run.status.success() && n > 0 => n,
        _ => panic!("valgrind counted nothing in {function}:\n{}", String::from_utf8_lossy(&run.stderr)),
    }
}

/// Tells of one line of the table, and whether it keeps the limit.
fn tell(name: &str, frames: u64, counts: [u64; 2]) -> bool {
    let ratio = counts[0] as f64 / counts[1] as f64;
    let each = counts.map(|n| n as f64 / frames as f64);
    println!("{name:<15} {frames:>10} {ratio:>8.3} {:>16.1} {:>16.1}", each[0], each[1]);
    ratio <= LIMIT
}

/// The table of all kinds; ends the program with 1 where a ratio is above the limit.
pub fn count(seed: u64, count: u64) {
    let found = Command::new("valgrind").arg("--version").stdout(Stdio::null()).status();
    if !found.is_ok_and(|status| status.success()) {
        eprintln!("bench: not counted, for want of valgrind");
        exit(2);
    }
    let folder = std::env::temp_dir().join(format!("bench-{}", std::process::id()));
    std::fs::create_dir_all(&folder).unwrap();
    println!("{:<15} {:>10} {:>8} {:>16} {:>16}", "kind", "frames", "ratio", "proved: ins/fr", "ordinary: ins/fr");
    let mut rows: Vec<(&str, u64, [u64; 2])> = Vec::new();
    let mut above: Vec<&str> = Vec::new();
    for (name, kind) in KINDS {
        let frames = (seed..seed + count).map(|s| frames(&kind.text(s))).sum();
        let counts = [0, 1].map(|side| instructions(&folder, name, side, seed, count));
        rows.push((name, frames, counts));
        if !tell(name, frames, counts) {
            above.push(name);
        }
    }
    let _ = std::fs::remove_dir_all(&folder);
    for (name, begins) in SUMS {
        let of: Vec<_> = rows.iter().filter(|row| row.0.starts_with(begins)).collect();
        let sum = |side: usize| of.iter().map(|row| row.2[side]).sum();
        tell(name, of.iter().map(|row| row.1).sum(), [sum(0), sum(1)]);
    }
    if !above.is_empty() {
        println!("above {LIMIT:.1} times: {}", above.join(", "));
        exit(1);
    }
}
