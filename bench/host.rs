//! A host over `Vec<char>`: the messages of the terminal in, the answering frames out, with the tests that ours makes. Of the command
//! language it knows the forms that the jobs use: `#P,#Qc/TEXT/`, `,x/PATTERN/c/TEXT/` and `,x/PATTERN/i/TEXT/`.

use crate::codec::{HFrame, Hmesg, MOST_IN_MESSAGE, Tmesg};
use crate::editing::{Edit, edits_of, replaced};
use std::iter::zip;

pub const MOST_RUNES: usize = 1_000_000;
const MOST_IN_PATTERN: usize = 128;
const COMMAND_FILE: u16 = 0;

#[derive(Default)]
struct File {
    name: Vec<char>,
    text: Vec<char>,
    dot: (u32, u32),
    open: bool,
    dirty: bool,
    announced: bool,
}

#[derive(Default)]
pub struct Host {
    /// By tag; a file that was closed leaves its place empty.
    files: Vec<Option<File>>,
    work: Option<u16>,
    snarf: Vec<char>,
    pattern: Vec<char>,
    taken: u64,
    version: u16,
    done: bool,
}

/// The start of the line that stands `n` lines before that of `p`.
fn lines_before(text: &[char], p: usize, n: usize) -> usize {
    let mut newlines = text[..p].iter().enumerate().rev().filter(|(_, rune)| **rune == '\n');
    newlines.nth(n).map_or(0, |(at, _)| at + 1)
}

fn is_word(rune: char) -> bool {
    rune.is_ascii_alphanumeric() || rune == '_' || rune > '\u{7F}'
}

/// The range of the word that has `p` inside it or at an edge.
fn word_at(text: &[char], p: usize) -> (u32, u32) {
    let before = text[..p].iter().rev().take_while(|rune| is_word(**rune)).count();
    let behind = text[p..].iter().take_while(|rune| is_word(**rune)).count();
    ((p - before) as u32, (p + behind) as u32)
}

/// The first occurrence from `from` on, else the first of all.
fn search(text: &[char], pattern: &[char], from: usize) -> Option<(u32, u32)> {
    let in_part = |from: usize| {
        let at = text[from..].windows(pattern.len()).position(|part| part == pattern)?;
        Some(((from + at) as u32, (from + at + pattern.len()) as u32))
    };
    in_part(from).or_else(|| in_part(0))
}

/// The places and the text of `#P,#Qc/TEXT/`.
fn command(line: &str) -> Option<(u32, u32, &str)> {
    let (p, rest) = line.strip_prefix('#')?.split_once(",#")?;
    let (q, text) = rest.split_once("c/")?;
    Some((p.parse().ok()?, q.parse().ok()?, text.strip_suffix('/')?))
}

impl File {
    fn range(&self, p: u32, q: u32) -> Option<(usize, usize)> {
        (p <= q && q as usize <= self.text.len()).then_some((p as usize, q as usize))
    }

    /// The edits of a line, and its pattern if it has one.
    fn edits_of(&self, line: &str) -> Option<(Vec<Edit>, Option<Vec<char>>)> {
        if let Some((p, q, text)) = command(line) {
            self.range(p, q)?;
            return Some((vec![Edit { p, q, text: text.chars().collect() }], None));
        }
        let (edits, pattern) = edits_of(&self.text, line)?;
        Some((edits, Some(pattern)))
    }

    fn insert(&mut self, p: u32, runes: &[char]) -> Option<()> {
        let text = &mut self.text;
        if p as usize > text.len() || runes.len() > MOST_RUNES - text.len() {
            return None;
        }
        text.splice(p as usize..p as usize, runes.iter().copied());
        Some(())
    }
}

impl Host {
    /// A host with files of these names and texts under the tags from 1 on.
    pub fn new(given: Vec<(Vec<char>, Vec<char>)>) -> Host {
        let command_file = File { name: "~~sam~~".chars().collect(), announced: true, ..File::default() };
        let files = given.into_iter().map(|(name, text)| File { name, text, ..File::default() });
        let files = std::iter::once(command_file).chain(files).map(Some).collect();
        Host { files, version: 1, ..Host::default() }
    }

    /// The texts and names of the files from tag 1 on.
    pub fn texts(&self) -> impl Iterator<Item = (&[char], &[char])> {
        self.files.iter().skip(1).flatten().map(|file| (file.name.as_slice(), file.text.as_slice()))
    }

    /// What a message answers, or nothing where it is refused.
    pub fn handle(&mut self, message: Tmesg) -> Option<Vec<HFrame>> {
        let seen = self.taken.checked_add(1)?;
        let answer = if self.done { vec![] } else { self.answer(message)? };
        self.taken = seen;
        Some(answer.into_iter().map(|msg| HFrame { seen, msg }).collect())
    }

    fn answer(&mut self, message: Tmesg) -> Option<Vec<Hmesg>> {
        match message {
            Tmesg::Version(version) => self.agree(version),
            Tmesg::StartCmdFile => self.start_command_file(),
            Tmesg::StartFile(tag) => self.start_file(tag),
            Tmesg::StartNewFile => self.start_new_file(),
            Tmesg::Close(tag) => self.close(tag),
            Tmesg::WorkFile(tag, p, q) => self.work_file(tag, p, q),
            Tmesg::Type(tag, p, text) if tag == COMMAND_FILE && text.last() == Some(&'\n') => self.type_line(p, &text),
            Tmesg::Type(tag, p, text) => self.type_in(tag, p, &text),
            Tmesg::Cut(tag, p, q) => self.cut(tag, p, q),
            Tmesg::Check(tag) => self.open(tag).map(|_| vec![Hmesg::Check(tag)]),
            Tmesg::Request(tag, p, n) => self.request(tag, p, n),
            Tmesg::Origin(tag, p, n) => self.origin(tag, p, n),
            Tmesg::Snarf(tag, p, q) => self.snarf(tag, p, q),
            Tmesg::Paste(tag, p) => self.paste(tag, p),
            Tmesg::SetSnarf(text) => {
                self.snarf = text;
                Some(vec![Hmesg::SnarfLen(self.snarf.len() as u32)])
            }
            Tmesg::Look(tag, p, q) => self.look(tag, p, q),
            Tmesg::Search(tag, p, q) => self.search(tag, p, q),
            Tmesg::Dclick(tag, p) => self.double_click(tag, p),
            Tmesg::Ack => Some(vec![]),
            Tmesg::Exit => {
                self.done = true;
                Some(vec![Hmesg::Exit])
            }
            Tmesg::Write(_) | Tmesg::Send(..) | Tmesg::StartSnarf => None,
        }
    }

    fn file(&mut self, tag: u16) -> Option<&mut File> {
        self.files.get_mut(tag as usize)?.as_mut()
    }

    fn open(&mut self, tag: u16) -> Option<&mut File> {
        self.file(tag).filter(|file| file.open)
    }

    fn agree(&mut self, version: u16) -> Option<Vec<Hmesg>> {
        if version == 0 {
            return None;
        }
        self.version = version.min(2);
        let mut out = vec![Hmesg::Version(self.version)];
        for (tag, file) in zip(0.., &mut self.files) {
            if let Some(file) = file.as_mut().filter(|file| !file.announced) {
                file.announced = true;
                out.extend([Hmesg::NewName(tag), Hmesg::MovName(tag, file.name.clone())]);
            }
        }
        out.extend([Hmesg::Ack, Hmesg::Unlock]);
        Some(out)
    }

    fn start_command_file(&mut self) -> Option<Vec<Hmesg>> {
        let file = self.file(COMMAND_FILE)?;
        let mut out = Vec::new();
        if !file.open {
            file.open = true;
            out.extend([Hmesg::NewName(0), Hmesg::MovName(0, file.name.clone()), Hmesg::BindName(0)]);
            if !file.text.is_empty() {
                out.push(Hmesg::Grow(0, 0, file.text.len() as u32));
            }
        }
        out.push(Hmesg::Unlock);
        Some(out)
    }

    fn start_file(&mut self, tag: u16) -> Option<Vec<Hmesg>> {
        let file = self.file(tag).filter(|_| tag != COMMAND_FILE)?;
        let mut out = Vec::new();
        if !file.open {
            file.open = true;
            out.push(Hmesg::BindName(tag));
            if !file.text.is_empty() {
                out.push(Hmesg::Grow(tag, 0, file.text.len() as u32));
            }
        }
        out.push(Hmesg::Unlock);
        self.work = Some(tag);
        Some(out)
    }

    fn start_new_file(&mut self) -> Option<Vec<Hmesg>> {
        let tag = u16::try_from(self.files.len()).ok()?;
        self.files.push(Some(File { open: true, announced: true, ..File::default() }));
        self.work = Some(tag);
        Some(vec![Hmesg::NewName(tag), Hmesg::BindName(tag), Hmesg::Current(tag), Hmesg::Unlock])
    }

    fn close(&mut self, tag: u16) -> Option<Vec<Hmesg>> {
        self.open(tag).filter(|_| tag != COMMAND_FILE)?;
        self.files[tag as usize] = None;
        self.work.take_if(|work| *work == tag);
        Some(vec![Hmesg::Close(tag), Hmesg::DelName(tag), Hmesg::Unlock])
    }

    fn work_file(&mut self, tag: u16, p: u32, q: u32) -> Option<Vec<Hmesg>> {
        let file = self.open(tag).filter(|_| tag != COMMAND_FILE)?;
        file.range(p, q)?;
        file.dot = (p, q);
        self.work = Some(tag);
        Some(vec![Hmesg::Current(tag)])
    }

    fn type_in(&mut self, tag: u16, p: u32, text: &[char]) -> Option<Vec<Hmesg>> {
        let file = self.open(tag)?;
        file.insert(p, text)?;
        let end = p + text.len() as u32;
        file.dot = (end, end);
        file.dirty |= tag != COMMAND_FILE;
        Some(vec![])
    }

    /// Types into the command file, and runs the line that the last newline ends.
    fn type_line(&mut self, p: u32, text: &[char]) -> Option<Vec<Hmesg>> {
        self.type_in(COMMAND_FILE, p, text)?;
        let file = self.open(COMMAND_FILE)?;
        let end = p as usize + text.len() - 1;
        let line = String::from_iter(&file.text[lines_before(&file.text, end, 0)..end]);
        self.run(&line)
    }

    /// Runs a line: the new text is made at once, and what changed is told from the last edit to the first.
    fn run(&mut self, line: &str) -> Option<Vec<Hmesg>> {
        let tag = self.work?;
        let file = self.file(tag)?;
        let (edits, pattern) = file.edits_of(line)?;
        let new = replaced(&file.text, &edits)?;
        file.dot = match (&pattern, edits.as_slice()) {
            (None, [Edit { p, text, .. }]) => (*p, p + text.len() as u32),
            _ => (0, new.len() as u32),
        };
        let mut out = Vec::new();
        for Edit { p, q, text } in edits.into_iter().rev().filter(|_| file.open) {
            if p < q {
                out.push(Hmesg::Cut(tag, p, q - p));
            }
            match text.len() {
                0 => {}
                1..=MOST_IN_MESSAGE => out.push(Hmesg::GrowData(tag, p, text)),
                n => out.push(Hmesg::Grow(tag, p, n as u32)),
            }
        }
        if !file.dirty {
            out.push(Hmesg::Dirty(tag));
        }
        out.extend(pattern.clone().map(Hmesg::SetPat));
        out.extend([Hmesg::SetDot(tag, file.dot.0, file.dot.1), Hmesg::Check(tag), Hmesg::Unlock]);
        file.text = new;
        file.dirty = true;
        if let Some(pattern) = pattern {
            self.pattern = pattern;
        }
        Some(out)
    }

    fn cut(&mut self, tag: u16, p: u32, q: u32) -> Option<Vec<Hmesg>> {
        let file = self.open(tag)?;
        let (start, end) = file.range(p, q)?;
        file.text.drain(start..end);
        file.dot = (p, p);
        file.dirty |= tag != COMMAND_FILE;
        Some(vec![])
    }

    fn request(&mut self, tag: u16, p: u32, n: u16) -> Option<Vec<Hmesg>> {
        let text = &self.open(tag)?.text;
        let start = text.len().min(p as usize);
        let end = text.len().min(p as usize + MOST_IN_MESSAGE.min(n as usize));
        let runes = text[start..end].to_vec();
        Some(vec![Hmesg::Data(tag, start as u32, runes), Hmesg::UnlockFile(tag)])
    }

    fn origin(&mut self, tag: u16, p: u32, n: u32) -> Option<Vec<Hmesg>> {
        let file = self.open(tag)?;
        file.range(p, p)?;
        let start = lines_before(&file.text, p as usize, n as usize);
        Some(vec![Hmesg::Origin(tag, start as u32), Hmesg::UnlockFile(tag)])
    }

    fn snarf(&mut self, tag: u16, p: u32, q: u32) -> Option<Vec<Hmesg>> {
        let file = self.open(tag)?;
        let (start, end) = file.range(p, q)?;
        self.snarf = file.text[start..end].to_vec();
        Some(vec![Hmesg::SnarfLen(q - p)])
    }

    fn paste(&mut self, tag: u16, p: u32) -> Option<Vec<Hmesg>> {
        let runes = self.snarf.clone();
        let file = self.open(tag)?;
        if runes.is_empty() || runes.len() > MOST_RUNES - file.text.len() {
            return Some(vec![Hmesg::UnlockFile(tag)]);
        }
        file.insert(p, &runes)?;
        let end = p + runes.len() as u32;
        file.dot = (p, end);
        let mut out = Vec::new();
        out.push(if runes.len() <= MOST_IN_MESSAGE {
            Hmesg::GrowData(tag, p, runes)
        } else {
            Hmesg::Grow(tag, p, runes.len() as u32)
        });
        if !file.dirty && tag != COMMAND_FILE {
            file.dirty = true;
            out.push(Hmesg::Dirty(tag));
        }
        out.extend([Hmesg::SetDot(tag, p, end), Hmesg::Check(tag), Hmesg::UnlockFile(tag)]);
        Some(out)
    }

    fn look(&mut self, tag: u16, p: u32, q: u32) -> Option<Vec<Hmesg>> {
        let file = self.open(tag)?;
        let (start, end) = file.range(p, q)?;
        let pattern = file.text[start..end].to_vec();
        if pattern.is_empty() || pattern.len() > MOST_IN_PATTERN {
            return Some(vec![Hmesg::UnlockFile(tag)]);
        }
        let mut out = vec![Hmesg::SetPat(pattern.clone())];
        out.extend(self.found(tag, &pattern, end)?);
        self.pattern = pattern;
        Some(out)
    }

    fn search(&mut self, tag: u16, p: u32, q: u32) -> Option<Vec<Hmesg>> {
        let (_, from) = self.open(tag)?.range(p, q)?;
        if self.pattern.is_empty() {
            return Some(vec![Hmesg::UnlockFile(tag)]);
        }
        let pattern = std::mem::take(&mut self.pattern);
        let out = self.found(tag, &pattern, from);
        self.pattern = pattern;
        out
    }

    /// Selects the next occurrence of the pattern.
    fn found(&mut self, tag: u16, pattern: &[char], from: usize) -> Option<Vec<Hmesg>> {
        let file = self.open(tag)?;
        let Some((p, q)) = search(&file.text, pattern, from) else {
            return Some(vec![Hmesg::UnlockFile(tag)]);
        };
        file.dot = (p, q);
        Some(vec![Hmesg::SetDot(tag, p, q), Hmesg::MoveTo(tag, p), Hmesg::Check(tag), Hmesg::UnlockFile(tag)])
    }

    fn double_click(&mut self, tag: u16, p: u32) -> Option<Vec<Hmesg>> {
        let file = self.open(tag)?;
        file.range(p, p)?;
        file.dot = word_at(&file.text, p as usize);
        Some(vec![Hmesg::SetDot(tag, file.dot.0, file.dot.1), Hmesg::UnlockFile(tag)])
    }
}
