//! Edits that wait while their file is locked, as a list beside the terminal's text and the text that is shown.

use crate::Report;
use crate::blocks::Blocks;
use crate::clock::Instant;
use crate::codec::Tmesg;
use crate::editing::Edit;
use crate::ends::{HostEnd, push_t};
use crate::host::MOST_RUNES;
use crate::sample::{check_of, letters, mix, next_state};

const TAG: u16 = 1;
const LENGTH: usize = 20_000;

struct Waiting {
    text: Blocks,
    shown: Blocks,
    edits: Vec<Edit>,
}

fn blocks_of(runes: &[char]) -> Blocks {
    let mut blocks = Blocks::gaps(0);
    blocks.type_in(0, runes);
    blocks
}

impl Waiting {
    fn new(text: &[char]) -> Waiting {
        Waiting { text: blocks_of(text), shown: blocks_of(text), edits: Vec::new() }
    }

    /// Shows an edit at once, and keeps it.
    fn replace(&mut self, p: u32, q: u32, text: &str) -> Option<()> {
        let text: Vec<char> = text.chars().collect();
        if q < p || self.shown.len() < q || text.len() > MOST_RUNES - self.shown.len() as usize {
            return None;
        }
        self.shown.cut(p, q - p);
        self.shown.type_in(p, &text);
        self.edits.push(Edit { p, q, text });
        Some(())
    }

    /// Makes all edits that were kept, and adds the frames that tell the host of them.
    fn put(&mut self, out: &mut Vec<u8>) {
        for Edit { p, q, text } in self.edits.drain(..) {
            self.text.cut(p, q - p);
            self.text.type_in(p, &text);
            if p < q {
                push_t(out, Tmesg::Cut(TAG, p, q));
            }
            push_t(out, Tmesg::Type(TAG, p, text));
        }
    }
}

/// Types runes that are shown at once, while the file is being written, and sends them once it is free. What the host does isn't counted.
/// Each is typed behind the one before it, or at a place of its own.
pub fn sent(size: usize, are_scattered: bool) -> Report {
    let text = letters(LENGTH);
    let mut host = HostEnd::opened(vec![text.clone()]).expect("bytes that fit");
    let mut waiting = Waiting::new(&text);
    let mut state = 1;
    let mut out = Vec::new();
    let begin = Instant::now();
    for typed in 0..size {
        state = next_state(state);
        let place = if are_scattered { (state >> 33) as u32 % (LENGTH + typed + 1) as u32 } else { typed as u32 };
        waiting.replace(place, place, "x").expect("a place of the text");
    }
    waiting.put(&mut out);
    let took = begin.elapsed();
    host.feed(&out).expect("bytes that fit");
    let (_, text) = host.host.texts().next().expect("a text");
    Report { took, check: mix(0, check_of(text)) }
}
