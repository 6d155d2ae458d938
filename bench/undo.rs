//! An undo of a replace-all in a long text, as an editor's host gets it: many edits of one file, the last in the text first.

use crate::Report;
use crate::clock::Instant;
use crate::codec::{Tmesg, decode_t};
use crate::ends::{Framer, push_t};
use crate::host::MOST_RUNES;
use crate::sample::{check_of, letters, mix};
use std::ops::Range;

const TAG: u16 = 1;
/// So many runes stand between the start of one place and that of the next, and so many of them, the first ones, were replaced.
const STRETCH: usize = 16;
const REPLACED: usize = 5;
const PIECE: usize = 65_536;

/// A text with a gap where the last change was: a change moves what stands between the gap and its place, and nothing else.
#[derive(Default)]
struct GapBuffer {
    /// The runes before the gap, the gap, and the runes after it. What stands in the gap means nothing.
    runes: Vec<char>,
    gap: Range<usize>,
}

impl GapBuffer {
    fn of(runes: Vec<char>) -> GapBuffer {
        let len = runes.len();
        GapBuffer { runes, gap: len..len }
    }

    fn len(&self) -> usize {
        self.runes.len() - self.gap.len()
    }

    /// Moves the gap to place `p` of the text.
    fn move_gap(&mut self, p: usize) {
        let Range { start, end } = self.gap;
        let moved = p + end - start;
        if p < start {
            self.runes.copy_within(p..start, moved);
        } else {
            self.runes.copy_within(end..moved, start);
        }
        self.gap = p..moved;
    }

    /// Makes the gap wider where it has fewer than `n` places, and then by a good deal, so that long texts seldom need it.
    fn make_gap(&mut self, n: usize) {
        let len = self.runes.len();
        if self.gap.len() < n {
            let by = n.max(len / 16);
            self.runes.resize(len + by, '\0');
            self.runes.copy_within(self.gap.end..len, self.gap.end + by);
            self.gap.end += by;
        }
    }

    fn insert(&mut self, p: usize, runes: &[char]) -> Option<()> {
        if p > self.len() || runes.len() > MOST_RUNES - self.len() {
            return None;
        }
        self.make_gap(runes.len());
        self.move_gap(p);
        self.gap.start += runes.len();
        self.runes[p..self.gap.start].copy_from_slice(runes);
        Some(())
    }

    fn delete(&mut self, p: usize, q: usize) -> Option<()> {
        if p > q || q > self.len() {
            return None;
        }
        self.move_gap(p);
        self.gap.end += q - p;
        Some(())
    }

    fn into_text(mut self) -> Vec<char> {
        self.runes.drain(self.gap);
        self.runes
    }
}

/// A host of one file, which a terminal opens, types and cuts in. Its text stays a gap buffer from message to message.
#[derive(Default)]
struct Host {
    framer: Framer,
    text: GapBuffer,
    dot: (u32, u32),
    open: bool,
    dirty: bool,
    taken: u64,
}

impl Host {
    fn new(text: Vec<char>) -> Host {
        Host { text: GapBuffer::of(text), ..Host::default() }
    }

    /// Takes a message, or answers nothing where it is refused.
    fn handle(&mut self, message: Tmesg) -> Option<()> {
        let taken = self.taken.checked_add(1)?;
        match message {
            Tmesg::Version(1..) | Tmesg::StartCmdFile => {}
            Tmesg::StartFile(TAG) => self.open = true,
            Tmesg::Type(TAG, p, runes) if self.open => {
                self.text.insert(p as usize, &runes)?;
                let end = p + runes.len() as u32;
                self.dot = (end, end);
                self.dirty = true;
            }
            Tmesg::Cut(TAG, p, q) if self.open => {
                self.text.delete(p as usize, q as usize)?;
                self.dot = (p, p);
                self.dirty = true;
            }
            _ => return None,
        }
        self.taken = taken;
        Some(())
    }

    /// Feeds a stream piece by piece.
    fn feed_all(&mut self, stream: &[u8]) -> Option<()> {
        for piece in stream.chunks(PIECE) {
            for message in self.framer.feed(piece, decode_t)? {
                self.handle(message)?;
            }
        }
        Some(())
    }
}

/// The text after the replace-all: an `x` stands for each rune that was replaced.
fn replaced(runes: &[char]) -> Vec<char> {
    runes.iter().enumerate().map(|(at, rune)| if at % STRETCH < REPLACED { 'x' } else { *rune }).collect()
}

/// The frames that put the runes back that stood at each place, from the last place to the first.
fn stream(runes: &[char]) -> Vec<u8> {
    let mut out = Vec::new();
    for (at, stretch) in runes.chunks(STRETCH).enumerate().rev() {
        let p = (at * STRETCH) as u32;
        push_t(&mut out, Tmesg::Cut(TAG, p, p + REPLACED as u32));
        push_t(&mut out, Tmesg::Type(TAG, p, stretch[..REPLACED].to_vec()));
    }
    out
}

/// Opens the file.
fn opened(text: Vec<char>) -> Option<Host> {
    let mut host = Host::new(text);
    let mut opening = Vec::new();
    for message in [Tmesg::Version(2), Tmesg::StartCmdFile, Tmesg::StartFile(TAG)] {
        push_t(&mut opening, message);
    }
    host.feed_all(&opening)?;
    Some(host)
}

pub fn undone(size: usize) -> Report {
    let runes = letters(size * STRETCH);
    let stream = stream(&runes);
    let mut host = opened(replaced(&runes)).expect("messages that fit");
    let begin = Instant::now();
    host.feed_all(std::hint::black_box(&stream)).expect("messages that fit");
    let text = host.text.into_text();
    let took = begin.elapsed();
    Report { took, check: mix(host.taken, check_of(&text)) }
}
