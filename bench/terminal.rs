//! A terminal over texts that are loaded in part: the user's events and the host's frames in, messages out, with the locks that ours takes
//! and the tests that ours makes.

use crate::blocks::Blocks;
use crate::codec::{HFrame, Hmesg, MOST_IN_MESSAGE, Tmesg};
use crate::host::MOST_RUNES;
use std::collections::VecDeque;

const COMMAND_FILE: u16 = 0;

#[derive(Clone)]
pub enum Event {
    Typed(u16, Vec<char>),
    Select(u16, u32, u32),
    View(u16, u32, u32),
    Open(u16),
    Work(u16),
    Close(u16),
    New,
    OpenCmd,
    Version(u16),
}

impl Event {
    fn file(&self) -> Option<u16> {
        match self {
            Event::Typed(tag, _) | Event::Select(tag, _, _) | Event::View(tag, _, _) => Some(*tag),
            Event::Open(tag) | Event::Work(tag) | Event::Close(tag) => Some(*tag),
            Event::New | Event::OpenCmd | Event::Version(_) => None,
        }
    }

    /// Whether the event takes the command lock, and so waits for the locks of all files.
    fn waits_for_all(&self) -> bool {
        match self {
            Event::Typed(tag, runes) => *tag == COMMAND_FILE && runes.last() == Some(&'\n'),
            Event::Open(_) | Event::Close(_) | Event::New | Event::OpenCmd | Event::Version(_) => true,
            Event::Select(..) | Event::View(..) | Event::Work(_) => false,
        }
    }
}

/// What the terminal keeps of an open file.
struct Window {
    text: Blocks,
    dot: (u32, u32),
    view_start: u32,
    view_length: u32,
    locks: u64,
    awaits: bool,
}

#[derive(Default)]
struct Known {
    name: Vec<char>,
    dirty: bool,
    window: Option<Window>,
}

struct Unsent {
    tag: u16,
    place: u32,
    runes: Vec<char>,
}

#[derive(Default)]
pub struct Terminal {
    /// By tag.
    files: Vec<Option<Known>>,
    unsent: Option<Unsent>,
    held: VecDeque<Event>,
    sent: u64,
    version: u16,
    command_lock: bool,
    /// The locks of all files together.
    file_locks: u64,
    exited: bool,
    current: Option<u16>,
    pattern: Vec<char>,
    snarf: Vec<char>,
    snarf_length: u32,
}

fn after_insert(p: u32, n: u32, place: u32) -> u32 {
    if p < place { place + n } else { place }
}

fn after_cut(p: u32, n: u32, place: u32) -> u32 {
    if place < p { place } else { p + (place - p).saturating_sub(n) }
}

impl Window {
    fn move_places(&mut self, after: impl Fn(u32) -> u32) {
        self.dot = (after(self.dot.0), after(self.dot.1));
        self.view_start = after(self.view_start);
    }

    fn len(&self) -> u32 {
        self.text.len()
    }

    /// The request for the first stretch of gaps in the view.
    fn wanted(&self, tag: u16) -> Option<Tmesg> {
        if self.awaits {
            return None;
        }
        let end = self.view_start.saturating_add(self.view_length).min(self.len());
        let (p, n) = self.text.first_gaps(self.view_start, end)?;
        Some(Tmesg::Request(tag, p, n.min(MOST_IN_MESSAGE as u32) as u16))
    }
}

impl Terminal {
    pub fn new() -> Terminal {
        Terminal { version: 1, ..Terminal::default() }
    }

    pub fn user(&mut self, event: Event) {
        self.held.push_back(event);
    }

    fn known(&mut self, tag: u16) -> Option<&mut Known> {
        self.files.get_mut(tag as usize)?.as_mut()
    }

    fn window(&mut self, tag: u16) -> Option<&mut Window> {
        self.known(tag)?.window.as_mut()
    }

    /// Counts a message and takes its lock.
    fn compose(&mut self, message: Tmesg, out: &mut Vec<Tmesg>) {
        match &message {
            Tmesg::Version(_) | Tmesg::StartCmdFile | Tmesg::StartFile(_) | Tmesg::StartNewFile | Tmesg::Close(_) => {
                self.command_lock = true;
            }
            Tmesg::Type(COMMAND_FILE, _, text) if text.last() == Some(&'\n') => self.command_lock = true,
            Tmesg::Request(tag, _, _) => {
                if let Some(window) = self.window(*tag) {
                    window.locks += 1;
                    window.awaits = true;
                    self.file_locks += 1;
                }
            }
            _ => {}
        }
        self.sent += 1;
        out.push(message);
    }

    fn compose_unsent(&mut self, out: &mut Vec<Tmesg>) {
        if let Some(Unsent { tag, place, runes }) = self.unsent.take() {
            self.compose(Tmesg::Type(tag, place, runes), out);
        }
    }

    /// The unsent runes and then the message.
    fn send(&mut self, message: Tmesg) -> Vec<Tmesg> {
        let mut out = Vec::new();
        self.compose_unsent(&mut out);
        self.compose(message, &mut out);
        out
    }

    /// Whether a lock holds back the oldest event, or there is none.
    fn waits(&mut self) -> bool {
        let Some(event) = self.held.front() else { return true };
        let (file, waits_for_all) = (event.file(), event.waits_for_all());
        self.command_lock
            || (waits_for_all && self.file_locks > 0)
            || file.and_then(|tag| self.window(tag)).is_some_and(|window| window.locks > 0)
    }

    /// Does the oldest held event, unless a lock holds it back. A refused event composes nothing.
    pub fn act(&mut self) -> Option<Vec<Tmesg>> {
        if self.waits() {
            return None;
        }
        let event = self.held.pop_front()?;
        Some(if self.exited { Vec::new() } else { self.perform(event).unwrap_or_default() })
    }

    fn perform(&mut self, event: Event) -> Option<Vec<Tmesg>> {
        match event {
            Event::Typed(tag, runes) => self.type_in(tag, runes),
            Event::Select(tag, p, q) => {
                let window = self.window(tag).filter(|window| p <= q && q <= window.len())?;
                window.dot = (p, q);
                Some(vec![])
            }
            Event::View(tag, p, n) => {
                let window = self.window(tag).filter(|window| p <= window.len())?;
                (window.view_start, window.view_length) = (p, n);
                Some(window.wanted(tag).map_or_else(Vec::new, |message| self.send(message)))
            }
            Event::Open(tag) => {
                self.known(tag).filter(|_| tag != COMMAND_FILE)?;
                Some(self.send(Tmesg::StartFile(tag)))
            }
            Event::Work(tag) => {
                let (p, q) = self.window(tag).filter(|_| tag != COMMAND_FILE)?.dot;
                Some(self.send(Tmesg::WorkFile(tag, p, q)))
            }
            Event::Close(tag) => {
                self.window(tag).filter(|_| tag != COMMAND_FILE)?;
                Some(self.send(Tmesg::Close(tag)))
            }
            Event::New => Some(self.send(Tmesg::StartNewFile)),
            Event::OpenCmd => Some(self.send(Tmesg::StartCmdFile)),
            Event::Version(version) => (version > 0).then(|| self.send(Tmesg::Version(version))),
        }
    }

    /// Puts runes behind the dot, which is empty in all jobs. They stay unsent, unless they end a line of the command file.
    fn type_in(&mut self, tag: u16, runes: Vec<char>) -> Option<Vec<Tmesg>> {
        let window = self.window(tag)?;
        let (place, end) = window.dot;
        if place != end || runes.len() > MOST_IN_MESSAGE || runes.len() > MOST_RUNES - window.len() as usize {
            return None;
        }
        let behind = place + runes.len() as u32;
        window.text.type_in(place, &runes);
        window.move_places(|at| after_insert(place, behind - place, at));
        window.dot = (behind, behind);
        let ends_line = tag == COMMAND_FILE && runes.last() == Some(&'\n');
        let mut out = Vec::new();
        match &mut self.unsent {
            Some(unsent)
                if unsent.tag == tag
                    && unsent.place as usize + unsent.runes.len() == place as usize
                    && unsent.runes.len() + runes.len() <= MOST_IN_MESSAGE =>
            {
                unsent.runes.extend_from_slice(&runes)
            }
            _ => {
                self.compose_unsent(&mut out);
                self.unsent = Some(Unsent { tag, place, runes });
            }
        }
        if ends_line {
            self.compose_unsent(&mut out);
        }
        Some(out)
    }

    /// Moves the place of the unsent runes, if they are of this file.
    fn move_unsent(&mut self, tag: u16, after: impl Fn(u32) -> u32) {
        if let Some(unsent) = self.unsent.as_mut().filter(|unsent| unsent.tag == tag) {
            unsent.place = after(unsent.place);
        }
    }

    /// Takes a frame, and returns what it composes; nothing where it is refused.
    pub fn receive(&mut self, frame: HFrame) -> Option<Vec<Tmesg>> {
        if self.sent < frame.seen {
            return None;
        }
        match frame.msg {
            Hmesg::Ack => return Some(if self.exited { vec![] } else { self.send(Tmesg::Ack) }),
            Hmesg::Check(tag) => {
                let wanted = self.window(tag)?.wanted(tag).filter(|_| !self.exited);
                return Some(wanted.map_or_else(Vec::new, |message| self.send(message)));
            }
            Hmesg::UnlockFile(tag) => {
                let window = self.window(tag).filter(|window| window.locks > 0)?;
                window.locks -= 1;
                let wanted = window.wanted(tag);
                self.file_locks -= 1;
                let wanted = wanted.filter(|_| !self.exited);
                return Some(wanted.map_or_else(Vec::new, |message| self.send(message)));
            }
            Hmesg::Grow(tag, p, n) => self.grow(tag, p, n as usize)?,
            Hmesg::GrowData(tag, p, text) => self.grow_data(tag, p, &text)?,
            Hmesg::Data(tag, p, text) => self.load(tag, p, &text)?,
            Hmesg::Cut(tag, p, n) => self.cut(tag, p, n)?,
            Hmesg::SetDot(tag, p, q) => {
                self.window(tag).filter(|window| p <= q && q <= window.len())?.dot = (p, q);
            }
            Hmesg::MoveTo(tag, p) | Hmesg::Origin(tag, p) => {
                self.window(tag).filter(|window| p <= window.len())?.view_start = p;
            }
            msg => self.note(msg)?,
        }
        Some(vec![])
    }

    /// Takes what concerns no text.
    fn note(&mut self, msg: Hmesg) -> Option<()> {
        match msg {
            Hmesg::Version(0) => {}
            Hmesg::Version(version) => self.version = version.min(2),
            Hmesg::NewName(tag) => {
                if self.files.len() <= tag as usize {
                    self.files.resize_with(tag as usize + 1, || None);
                }
                let file = &mut self.files[tag as usize];
                if file.is_some() {
                    return None;
                }
                *file = Some(Known::default());
            }
            Hmesg::MovName(tag, name) => self.known(tag)?.name = name,
            Hmesg::BindName(tag) => {
                let file = self.known(tag).filter(|file| file.window.is_none())?;
                let text = Blocks::gaps(0);
                file.window = Some(Window { text, dot: (0, 0), view_start: 0, view_length: 0, locks: 0, awaits: false });
            }
            Hmesg::Current(tag) => {
                self.known(tag)?;
                self.current = Some(tag);
            }
            Hmesg::Unlock => {
                if !std::mem::replace(&mut self.command_lock, false) {
                    return None;
                }
            }
            Hmesg::Clean(tag) => self.known(tag)?.dirty = false,
            Hmesg::Dirty(tag) => self.known(tag)?.dirty = true,
            Hmesg::SetPat(pattern) => self.pattern = pattern,
            Hmesg::SetSnarf(text) => self.snarf = text,
            Hmesg::SnarfLen(length) => self.snarf_length = length,
            Hmesg::Close(tag) => {
                let window = self.known(tag)?.window.take()?;
                self.file_locks -= window.locks;
                self.unsent.take_if(|unsent| unsent.tag == tag);
            }
            Hmesg::DelName(tag) => {
                self.known(tag).filter(|file| file.window.is_none())?;
                self.files[tag as usize] = None;
            }
            Hmesg::Exit => {
                self.exited = true;
                self.command_lock = false;
                self.file_locks = 0;
                for window in self.files.iter_mut().flatten().filter_map(|file| file.window.as_mut()) {
                    (window.locks, window.awaits) = (0, false);
                }
            }
            _ => return None,
        }
        Some(())
    }

    /// The window of a file into which `n` more runes or gaps may come at `p`.
    fn growing(&mut self, tag: u16, p: u32, n: usize) -> Option<&mut Window> {
        self.window(tag).filter(|window| p <= window.len() && n <= MOST_RUNES - window.len() as usize)
    }

    fn grow(&mut self, tag: u16, p: u32, n: usize) -> Option<()> {
        let window = self.growing(tag, p, n)?;
        window.text.grow(p, n as u32);
        window.move_places(|at| after_insert(p, n as u32, at));
        self.move_unsent(tag, |at| after_insert(p, n as u32, at));
        Some(())
    }

    fn grow_data(&mut self, tag: u16, p: u32, text: &[char]) -> Option<()> {
        let window = self.growing(tag, p, text.len())?;
        let n = text.len() as u32;
        window.text.type_in(p, text);
        window.move_places(|at| after_insert(p, n, at));
        self.move_unsent(tag, |at| after_insert(p, n, at));
        Some(())
    }

    fn load(&mut self, tag: u16, p: u32, text: &[char]) -> Option<()> {
        let window = self.window(tag)?;
        if (window.len() as u64) < p as u64 + text.len() as u64 {
            return None;
        }
        window.text.data(p, text);
        window.awaits = false;
        Some(())
    }

    fn cut(&mut self, tag: u16, p: u32, n: u32) -> Option<()> {
        let window = self.window(tag)?;
        if (window.len() as u64) < p as u64 + n as u64 {
            return None;
        }
        window.text.cut(p, n);
        window.move_places(|at| after_cut(p, n, at));
        self.move_unsent(tag, |at| after_cut(p, n, at));
        Some(())
    }
}
