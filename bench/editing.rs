//! Many edits of one text, which a command line makes.

use crate::Report;
use crate::clock::Instant;
use crate::codec::Tmesg;
use crate::ends::{HostEnd, push_t};
use crate::host::MOST_RUNES;
use crate::sample::{check_of, mix};

pub struct Edit {
    pub p: u32,
    pub q: u32,
    pub text: Vec<char>,
}

/// The new text in one pass, from the first edit to the last. As in ours, the text and all that is put in have at most 1,000,000 runes.
pub fn replaced(text: &[char], edits: &[Edit]) -> Option<Vec<char>> {
    let added: usize = edits.iter().map(|edit| edit.text.len()).sum();
    let removed: usize = edits.iter().map(|edit| (edit.q - edit.p) as usize).sum();
    if text.len() + added > MOST_RUNES {
        return None;
    }
    let mut new = Vec::with_capacity(text.len() - removed + added);
    let mut at = 0;
    for edit in edits {
        new.extend_from_slice(&text[at..edit.p as usize]);
        new.extend_from_slice(&edit.text);
        at = edit.q as usize;
    }
    new.extend_from_slice(&text[at..]);
    Some(new)
}

/// All occurrences that do not overlap, from the left.
fn occurrences(text: &[char], lit: &[char]) -> Vec<(u32, u32)> {
    let mut found = Vec::new();
    let mut at = 0;
    while at + lit.len() <= text.len() {
        if text[at..].starts_with(lit) {
            found.push((at as u32, (at + lit.len()) as u32));
            at += lit.len();
        } else {
            at += 1;
        }
    }
    found
}

/// The parts of `,x/PATTERN/c/TEXT/` or `,x/PATTERN/i/TEXT/`: the pattern, whether the text comes in its place, and the text.
fn command(line: &str) -> Option<(Vec<char>, bool, Vec<char>)> {
    let (pattern, rest) = line.strip_prefix(",x/")?.split_once('/')?;
    let (action, text) = rest.strip_suffix('/')?.split_once('/')?;
    Some((pattern.chars().collect(), action == "c", text.chars().collect()))
}

/// The edits that a line makes, each with its text, since each is told to the terminal, and its pattern.
pub fn edits_of(text: &[char], line: &str) -> Option<(Vec<Edit>, Vec<char>)> {
    let (pattern, in_place, more) = command(line)?;
    let found = occurrences(text, &pattern).into_iter();
    let edits = found.map(|(p, q)| Edit { p, q: if in_place { q } else { p }, text: more.clone() });
    Some((edits.collect(), pattern))
}

/// Has a host run the line on this text.
fn run(text: Vec<char>, line: &str) -> Option<Report> {
    let mut host = HostEnd::opened(vec![text])?;
    let mut typed = Vec::new();
    push_t(&mut typed, Tmesg::Type(0, 0, format!("{line}\n").chars().collect()));
    let begin = Instant::now();
    host.feed(&typed)?;
    let check = host.pending.take_all();
    let took = begin.elapsed();
    let (_, text) = host.host.texts().next()?;
    Some(Report { took, check: mix(check, check_of(text)) })
}

/// Edits of one rune, each of which gives way to another.
pub fn each(size: usize) -> Report {
    run(vec!['a'; size], ",x/a/c/b/").expect("a command")
}
