//! Takes the release's files from their folder, puts stand-ins in for what waits for the schedule, and says what it changed.
use std::path::{Path, PathBuf};
use std::{env, fs};

/// A file of the release, with the lines that are changed in it: the old text, which must stand there as often as said, and the new.
struct Source {
    name: &'static str,
    changes: &'static [(&'static str, usize, &'static str)],
}

const SOURCES: [Source; 6] = [
    Source {
        name: "array",
        changes: &[
            // The message's store and take are steps.
            ("slot.msg.get().write(", 1, "slot.msg.at_gate().write("),
            ("slot.msg.get().read()", 1, "slot.msg.at_gate().read()"),
        ],
    },
    Source {
        name: "zero",
        changes: &[
            ("packet.msg.get().write(Some(msg));", 1, "packet.msg.at_gate().write(Some(msg));"),
            (
                "let msg = unsafe { packet.msg.get().replace(None) }.unwrap();",
                1,
                "let msg = unsafe { packet.msg.at_gate().replace(None) }.unwrap();",
            ),
        ],
    },
    Source {
        name: "waker",
        changes: &[
            // The lock and the words of a waker belong to the section that uses it: no step of their own.
            ("use crate::sync::Mutex;", 1, "use crate::quiet::Mutex;"),
            ("use crate::sync::atomic::", 1, "use crate::quiet::atomic::"),
        ],
    },
    Source {
        name: "context",
        changes: &[
            // A poll's load is a step, and its abort belongs to it.
            ("use crate::sync::atomic::", 1, "use crate::polled::atomic::"),
        ],
    },
    Source { name: "select", changes: &[] },
    Source { name: "utils", changes: &[] },
];

/// Faults to put into the release's text on purpose, one at a time: each must be noticed (`try-breaks`).
const BREAKS: [(&str, &str, &str); 12] = [
    // Full without the head; Empty by the stamp alone.
    ("array", "if head.wrapping_add(self.one_lap) == tail {", "if head <= tail {"),
    ("array", "if (tail & !self.mark_bit) == head {\n                    // If the channel is disconnected...", "if true {"),
    // A stamp of the wrong lap; a length that forgets what has gone round.
    ("array", "token.array.stamp = head.wrapping_add(self.one_lap);", "token.array.stamp = head.wrapping_add(self.mark_bit);"),
    ("array", "self.cap - hix + tix", "self.cap - hix"),
    // A failed exchange that does not load its word again.
    ("array", "Err(_) => {\n                        backoff.spin_light();\n                        tail = self.tail.load(Ordering::Relaxed);", "Err(_) => {\n                        backoff.spin_light();"),
    ("array", "Err(_) => {\n                        backoff.spin_light();\n                        head = self.head.load(Ordering::Relaxed);", "Err(_) => {\n                        backoff.spin_light();"),
    // The newest waiter is picked; a disconnect that times its waiters out.
    ("waker", ".iter()\n                .position(", ".iter()\n                .rposition("),
    ("waker", "if entry.cx.try_select(Selected::Disconnected).is_ok() {", "if entry.cx.try_select(Selected::Aborted).is_ok() {"),
    // A disconnect that forgets one side, or that `try_send` forgets; a deadline that is not reached at its tick.
    ("zero", "inner.senders.disconnect();", ""),
    ("zero", "} else if inner.is_disconnected {\n            Err(TrySendError::Disconnected(msg))", "} else if false {\n            Err(TrySendError::Disconnected(msg))"),
    ("context", "if now < end {", "if now <= end {"),
    // A word that changes from anything, not only from Waiting.
    ("context", "Selected::Waiting.into(),\n                select.into(),", "self.inner.select.peek(),\n                select.into(),"),
];

fn folder() -> PathBuf {
    match env::var_os("RELEASE_FILES") {
        Some(given) => PathBuf::from(given),
        None => Path::new(&env::var_os("CARGO_MANIFEST_DIR").unwrap()).join("../../shared/docs/src"),
    }
}

fn main() {
    println!("cargo:rerun-if-env-changed=RELEASE_FILES");
    println!("cargo:rerun-if-env-changed=ORACLE_BREAK");
    println!("cargo:rerun-if-changed=build.rs");
    let broken = env::var("ORACLE_BREAK").ok().map(|n| BREAKS[n.parse::<usize>().unwrap()]);
    let from = folder().join("library/std/src/sync/mpmc");
    let mut all = String::new();
    let mut said = String::new();
    for source in &SOURCES {
        let path = from.join(source.name).with_extension("rs");
        println!("cargo:rerun-if-changed={}", path.display());
        let text = fs::read_to_string(&path)
            .unwrap_or_else(|e| panic!("the release's file {}.rs is not there ({e}): set RELEASE_FILES to its folder", source.name));
        // A file's own heading can't stand inside a module that is written out.
        let mut text: String = text.lines().filter(|l| !l.starts_with("//!")).map(|l| format!("{l}\n")).collect();
        for (old, times, new) in source.changes {
            assert_eq!(text.matches(old).count(), *times, "{}.rs: {old}", source.name);
            text = text.replace(old, new);
            said += &format!("{}.rs: {old}  ->  {new}\n", source.name);
        }
        if let Some((_, old, new)) = broken.filter(|(name, ..)| *name == source.name) {
            assert_eq!(text.matches(old).count(), 1, "{}.rs: {old}", source.name);
            text = text.replace(old, new);
        }
        // What the comparison sees of a record is added at the end: it changes nothing.
        let peek = Path::new("peek").join(source.name).with_extension("rs");
        println!("cargo:rerun-if-changed={}", peek.display());
        let peek = fs::read_to_string(peek).unwrap_or_default();
        all += &format!("pub mod {} {{\n{text}{peek}}}\n", source.name);
    }
    let out = PathBuf::from(env::var_os("OUT_DIR").unwrap());
    fs::write(out.join("release.rs"), all).unwrap();
    fs::write(out.join("changes.txt"), said).unwrap();
}
