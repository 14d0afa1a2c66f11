//! The programs against the release, over many texts: `replay` by its output, `trace` by the record after each frame too.
use crate::generator;
use crate::record::{FIELDS, Seen, field_name};
use crate::schedule::Bench;
use std::io::Write;
use std::process::{Command, Stdio};

/// The lines that a program writes for a text.
fn written(program: &str, text: &[u8]) -> Vec<Vec<u8>> {
    let mut child = Command::new(program)
        .stdin(Stdio::piped())
        .stdout(Stdio::piped())
        .spawn()
        .unwrap_or_else(|e| panic!("{program}: {e}"));
    child.stdin.take().unwrap().write_all(text).unwrap();
    let out = child.wait_with_output().unwrap().stdout;
    out.split_inclusive(|b| *b == b'\n').map(|l| l.strip_suffix(b"\n").unwrap_or(b"no end of line").to_vec()).collect()
}

/// Which field of a record's line differs first from what the release shows, and how.
fn field_differs(seen: &Seen, line: &[u8]) -> Option<String> {
    if line.len() != 16 * FIELDS {
        return Some(format!("a record's line of {} digits", line.len()));
    }
    let told = |i: usize| u64::from_str_radix(std::str::from_utf8(&line[16 * i..16 * i + 16]).ok()?, 16).ok();
    let differs = |i: &usize| seen[*i].is_some() && seen[*i] != told(*i);
    let i = (0..FIELDS).find(differs)?;
    let said = told(i).map_or("no number".into(), |n| format!("{n:x}"));
    Some(format!("{}: the release {:x}, the program {said}", field_name(i), seen[i].unwrap()))
}

/// What differs first, and at which frame.
fn difference(release: &[(Vec<u8>, Seen)], replay: &[Vec<u8>], trace: &[Vec<u8>]) -> Option<(usize, String)> {
    let said = |l: Option<&Vec<u8>>| String::from_utf8_lossy(l.map_or(b"nothing", |l| l)).into_owned();
    for (n, (line, seen)) in release.iter().enumerate() {
        let shown = if seen.is_empty() { n } else { 2 * n };
        for told in [replay.get(n), trace.get(shown)] {
            if told != Some(line) {
                return Some((n, format!("the release {}, the program {}", said(Some(line)), said(told))));
            }
        }
        if seen.is_empty() {
            continue;
        }
        if let Some(how) = field_differs(seen, trace.get(shown + 1).map_or(b"", |l| l)) {
            return Some((n, how));
        }
    }
    let more = replay.len() > release.len() || trace.len() > 2 * release.len();
    more.then(|| (release.len(), "the program says more".into()))
}

/// Says where a text's first difference is.
fn tell(name: &str, text: &[u8], (n, how): (usize, String)) {
    let frame = String::from_utf8_lossy(text.split(|b| *b == b'\n').nth(n).unwrap_or(b"")).into_owned();
    println!("DIFFERENCE in {name}, frame {}: `{frame}`: {how}", n + 1);
    println!("{}", String::from_utf8_lossy(text));
}

/// How many of a text's lines `05tt` got this output.
fn answered(text: &[u8], release: &[(Vec<u8>, Seen)], output: &[u8]) -> u64 {
    let frames = text.split(|b| *b == b'\n').zip(release);
    frames.filter(|(frame, (line, _))| frame.starts_with(b"05") && line == output).count() as u64
}

/// Compares on `count` random texts from `seed` on, and on every order of `length` steps of each pair of calls.
pub fn compare(replay: &str, trace: &str, seed: u64, count: u64, length: u32) -> bool {
    let bench = Bench::new();
    let (mut texts, mut frames, mut fields) = (0u64, 0u64, 0u64);
    let (mut asked, mut failed, mut refused) = (0u64, 0u64, 0u64);
    let mut same = |name: &str, text: &[u8]| {
        let release = bench.replay(text);
        texts += 1;
        frames += release.len() as u64;
        asked += text.split(|b| *b == b'\n').any(|frame| frame.starts_with(b"05")) as u64;
        failed += answered(text, &release, b"00");
        refused += answered(text, &release, b"0e");
        fields += release.iter().map(|(_, seen)| seen.iter().flatten().count() as u64).sum::<u64>();
        let found = difference(&release, &written(replay, text), &written(trace, text));
        let none = found.is_none();
        found.into_iter().for_each(|how| tell(name, text, how));
        none
    };
    for s in seed..seed + count {
        if !same(&format!("seed {s}"), &generator::text(s)) {
            return false;
        }
    }
    for capacity in [0, 1, 2] {
        for (i, text) in generator::pairs(capacity, length).enumerate() {
            if !same(&format!("pair {i} of capacity {capacity}"), &text) {
                return false;
            }
        }
    }
    println!("oracle: {texts} texts, {frames} frames, {fields} fields of records, no difference");
    println!("oracle: {asked} of the texts with lines 05tt, by which {failed} exchanges failed; {refused} refused with 14");
    true
}
