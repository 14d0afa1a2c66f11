//! The two replayers, each behind a function that a profiler finds by its name.
use crate::ordinary;
use std::process::exit;

unsafe extern "C" {
    /// The proved replay: answers the output's length, or `usize::MAX` where the buffer is too short.
    fn linked_replay(text: *const u8, text_len: usize, out: *mut u8, out_len: usize) -> usize;
}

/// The ordinary replay, behind the same form.
#[unsafe(no_mangle)]
#[inline(never)]
extern "C" fn ordinary_replay(text: *const u8, text_len: usize, out: *mut u8, out_len: usize) -> usize {
    // The caller has both from slices.
    let (text, out) = unsafe { (std::slice::from_raw_parts(text, text_len), std::slice::from_raw_parts_mut(out, out_len)) };
    ordinary::replay(text, out)
}

/// One of the two.
#[derive(Clone, Copy)]
pub enum Side {
    Proved,
    Ordinary,
}

/// Both, with their names and the functions that they stand behind.
pub const SIDES: [(&str, Side, &str); 2] = [("proved", Side::Proved, "linked_replay"), ("ordinary", Side::Ordinary, "ordinary_replay")];

/// The side of a name.
pub fn named(name: &str) -> Side {
    SIDES.iter().find(|(n, ..)| *n == name).unwrap_or_else(|| panic!("{name}: no side")).1
}

/// A buffer that is long enough for the outputs of all these texts.
pub fn buffer(longest: usize) -> Vec<u8> {
    vec![0; 3 * longest + 3]
}

impl Side {
    /// The output of a text, in a buffer that is long enough.
    #[inline(never)]
    pub fn replay(self, text: &[u8], out: &mut [u8]) -> usize {
        let (from, to) = (text.as_ptr(), out.as_mut_ptr());
        // Pointers and lengths are those of the two slices.
        let end = unsafe {
            match self {
                Side::Proved => linked_replay(from, text.len(), to, out.len()),
                Side::Ordinary => ordinary_replay(from, text.len(), to, out.len()),
            }
        };
        assert!(end <= out.len(), "a buffer of {} bytes is too short", out.len());
        end
    }
}

/// Ends the program where the outputs of a text differ.
pub fn same(kind: &str, seed: u64, proved: &[u8], ordinary: &[u8]) {
    if proved != ordinary {
        let line = proved.split(|b| *b == b'\n').zip(ordinary.split(|b| *b == b'\n')).take_while(|(p, o)| p == o).count();
        println!("DIFFERENCE in kind {kind}, seed {seed}, frame {}", line + 1);
        exit(1);
    }
}
