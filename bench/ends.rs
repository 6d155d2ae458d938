//! A host and a terminal with their bytes: frames in, in whatever pieces they come, and frames out.

use crate::codec::{Tmesg, decode_h, decode_t, encode_h, encode_t, fits_t, split};
use crate::host::Host;
use crate::sample::{check_bytes, mix};
use crate::terminal::{Event, Terminal};

/// How many bytes are taken out at once.
const ROOM: usize = 65_536;

/// Cuts a stream into frames.
#[derive(Default)]
pub struct Framer {
    kept: Vec<u8>,
}

impl Framer {
    /// What the frames that become whole with the next piece say.
    pub fn feed<M>(&mut self, piece: &[u8], decode: impl Fn(u8, &[u8]) -> Option<M>) -> Option<Vec<M>> {
        self.kept.extend_from_slice(piece);
        let mut frames = Vec::new();
        let mut rest = self.kept.as_slice();
        while let Some((kind, body, after)) = split(rest) {
            frames.push(decode(kind, body)?);
            rest = after;
        }
        let left = rest.len();
        self.kept.drain(..self.kept.len() - left);
        Some(frames)
    }
}

/// Bytes that wait to be taken out.
#[derive(Default)]
pub struct Pending {
    bytes: Vec<u8>,
    taken: usize,
}

impl Pending {
    pub fn len(&self) -> usize {
        self.bytes.len() - self.taken
    }

    /// Moves the first bytes into a buffer, and returns how many.
    pub fn take_out(&mut self, into: &mut [u8]) -> usize {
        let count = into.len().min(self.len());
        into[..count].copy_from_slice(&self.bytes[self.taken..self.taken + count]);
        self.taken += count;
        if self.taken == self.bytes.len() {
            self.bytes.clear();
            self.taken = 0;
        }
        count
    }

    /// Takes all out, and returns their check value.
    pub fn take_all(&mut self) -> u64 {
        let mut piece = [0; ROOM];
        let mut check = 0;
        loop {
            let count = self.take_out(&mut piece);
            if count == 0 {
                return check;
            }
            check = mix(check, check_bytes(&piece[..count]));
        }
    }
}

pub struct HostEnd {
    pub host: Host,
    framer: Framer,
    pub pending: Pending,
}

impl HostEnd {
    /// A host with files of these texts, each open, the last of them the work file, and the command file.
    pub fn opened(texts: Vec<Vec<char>>) -> Option<HostEnd> {
        let tags = 1..=texts.len() as u16;
        let mut host = HostEnd::new(texts);
        let mut opening = Vec::new();
        for message in [Tmesg::Version(2), Tmesg::StartCmdFile].into_iter().chain(tags.map(Tmesg::StartFile)) {
            push_t(&mut opening, message);
        }
        host.feed(&opening)?;
        host.pending.take_all();
        Some(host)
    }

    pub fn new(texts: Vec<Vec<char>>) -> HostEnd {
        let host = Host::new(texts.into_iter().map(|text| (vec!['f'], text)).collect());
        HostEnd { host, framer: Framer::default(), pending: Pending::default() }
    }

    /// Answers each message that is whole.
    pub fn feed(&mut self, piece: &[u8]) -> Option<()> {
        for message in self.framer.feed(piece, decode_t)? {
            for frame in self.host.handle(message)? {
                encode_h(&mut self.pending.bytes, &frame);
            }
        }
        Some(())
    }
}

pub struct TermEnd {
    pub terminal: Terminal,
    framer: Framer,
    pub pending: Pending,
}

impl TermEnd {
    pub fn new() -> TermEnd {
        TermEnd { terminal: Terminal::new(), framer: Framer::default(), pending: Pending::default() }
    }

    fn send(&mut self, messages: &[Tmesg]) {
        for message in messages {
            encode_t(&mut self.pending.bytes, message);
        }
    }

    /// Has the events act that no lock holds back.
    fn act(&mut self) {
        while let Some(messages) = self.terminal.act() {
            self.send(&messages);
        }
    }

    pub fn put(&mut self, event: Event) {
        self.terminal.user(event);
        self.act();
    }

    /// Takes each frame that is whole, and then has held events act.
    pub fn feed(&mut self, piece: &[u8]) -> Option<()> {
        for frame in self.framer.feed(piece, decode_h)? {
            let messages = self.terminal.receive(frame)?;
            self.send(&messages);
        }
        self.act();
        Some(())
    }
}

/// Adds the frame of a message.
pub fn push_t(out: &mut Vec<u8>, message: Tmesg) {
    assert!(fits_t(&message));
    encode_t(out, &message);
}

