//! The terminal's end of a link, with the clock of its connections.

use crate::handle::Held;
use crate::link::MOST_NOTE;
use crate::{done, tells, Error, LinkFault};
use sulgrevad_sys::{self as sys, sam_line};

/// The most bytes that may come before the host's hello.
pub(crate) const MOST_WORDS: usize = 65_536;

/// What a program is to do for its line.
#[derive(Clone, Copy, Debug, PartialEq, Eq)]
pub enum Tick {
    /// Nothing.
    Nothing,
    /// Make a connection.
    Connect,
    /// Close the connection, or end the attempt to make one: for the line it is over.
    Drop,
    /// Call [`Line::ask`], or have a client go on: nothing has come for 15 seconds, though an answer is due.
    Ask,
}

impl Tick {
    /// Returns what the number says.
    pub(crate) fn of(tick: u32) -> Tick {
        match tick {
            sys::SAM_TICK_CONNECT => Tick::Connect,
            sys::SAM_TICK_DROP => Tick::Drop,
            sys::SAM_TICK_ASK => Tick::Ask,
            _ => Tick::Nothing,
        }
    }
}

/// The state of a line.
#[derive(Clone, Copy, Debug, PartialEq, Eq)]
pub enum LineState {
    /// There is no connection; the next is tried when [`due_in`](crate::Clocked::due_in) says.
    Down,
    /// One is being made, or waits for the host's hello; it is given up after 30 seconds.
    Connecting,
    /// A host has welcomed the newest connection.
    Open,
    /// It has, but nothing has come for long, though an answer is due.
    Late,
    /// The host has refused for good: no connection is tried any more.
    Lost(LinkFault),
}

impl LineState {
    fn of(details: &sys::sam_line_details) -> LineState {
        match details.state {
            sys::SAM_LINE_DOWN => LineState::Down,
            sys::SAM_LINE_CONNECTING => LineState::Connecting,
            sys::SAM_LINE_OPEN => LineState::Open,
            sys::SAM_LINE_LATE => LineState::Late,
            _ => LineState::Lost(LinkFault::of(details.why).expect("a lost line has the host's reason")),
        }
    }
}

/// The state, the counts and the times of a line. Counts are in bytes, but for `failures` and `attempt`; times are in milliseconds.
#[derive(Clone, Copy, Debug, PartialEq, Eq)]
pub struct LineDetails {
    /// The state.
    pub state: LineState,
    /// For how long nothing has come, though something was due.
    pub silence: u64,
    /// How long the answer to the last question took; 0 before the first.
    pub round_trip: u64,
    /// After how much silence the user is to know that an answer is overdue.
    pub overdue_after: u64,
    /// How many connections failed, one after another; 6 stands for more, too.
    pub failures: u64,
    /// The number of the newest connection; 0 before the first.
    pub attempt: u64,
    /// How many bytes this side's stream has, heads of packets and questions included.
    pub put_count: u64,
    /// How many of them the host has acknowledged.
    pub acknowledged: u64,
    /// How many bytes of the host's stream have come.
    pub received: u64,
    /// Whether a host has welcomed the line.
    pub is_known: bool,
    /// Whether there is no connection, though there was one, or one has failed.
    pub is_broken: bool,
    /// Whether the host has acknowledged all that was put.
    pub has_all: bool,
}

impl LineDetails {
    /// Returns what the library hands out.
    pub(crate) fn of(details: &sys::sam_line_details) -> LineDetails {
        LineDetails {
            state: LineState::of(details),
            silence: details.silence,
            round_trip: details.round_trip,
            overdue_after: details.overdue_after,
            failures: details.failures,
            attempt: details.attempt,
            put_count: details.put_count,
            acknowledged: details.acknowledged,
            received: details.received,
            is_known: details.is_known,
            is_broken: details.is_broken,
            has_all: details.has_all,
        }
    }
}

/// The terminal's end of a link, which also decides when a connection is to be made, when the host is to be asked, and when the connection
/// is to be given up. It opens no connection and has no clock: each call takes the time, in milliseconds of any clock that doesn't jump. A
/// time below the greatest that was handed in counts as the greatest. A put, a note and a piece are taken whole or not at all.
///
/// ```
/// use sulgrevad::{Clocked, Line, LineState, Link, Role, Tick};
///
/// let mut line = Line::new([7; 16], false, 0)?;
/// let mut host = Link::new(Role::Host, [7; 16])?;
/// line.put(b"hello", 0)?;
/// assert_eq!(line.tick(0), Tick::Connect); // the program opens a connection
/// let attempt = line.connected(20)?;
/// let mut bytes = [0; 100]; // the bytes that the connection carries
/// let count = line.take_out(attempt, &mut bytes)?;
/// host.answer(bytes[..42].try_into().expect("a hello is first"))?;
/// host.feed(attempt, &bytes[42..count])?;
/// let count = host.take_out(attempt, &mut bytes)?;
/// line.receive(attempt, b"Welcome to this machine\n", 40)?; // words of a login
/// line.receive(attempt, &bytes[..count], 50)?;
/// assert_eq!(line.describe(50).state, LineState::Open);
/// # Ok::<(), sulgrevad::Error>(())
/// ```
#[derive(Debug)]
pub struct Line {
    pub(crate) handle: Held<sam_line>,
}

impl Line {
    /// Makes a line, whose first connection is due at once. The id is the session's name: 16 bytes that the terminal chose at random. It is
    /// no secret. With `take_over`, the session is to begin with the texts of another, as long as no host has welcomed this line. Its only
    /// error is `NoMemory`.
    pub fn new(id: [u8; sys::SAM_LINK_ID_BYTES], take_over: bool, now: u64) -> Result<Line, Error> {
        let handle = Held::made(sam_line::INIT, sys::sam_line_free, |at| unsafe { sys::sam_line_new(at, id.as_ptr(), take_over, now) })?;
        Ok(Line { handle })
    }

    fn at(&self) -> *mut sam_line {
        self.handle.at()
    }

    /// Puts bytes for the host's program, all or none, with or without a connection. Errors, in this order: `CountFull`; `NoMemory`.
    pub fn put(&mut self, bytes: &[u8], now: u64) -> Result<(), Error> {
        done(unsafe { sys::sam_line_put(self.at(), bytes.as_ptr(), bytes.len(), now) })
    }

    /// Asks the host whether all has come, if something that was put is not acknowledged, or the line is late; but not while such a
    /// question is under way. So it may be called after each put and each piece. Errors, in this order: `CountFull`; `NoMemory`.
    pub fn ask(&mut self, now: u64) -> Result<(), Error> {
        done(unsafe { sys::sam_line_ask(self.at(), now) })
    }

    /// Moves the next bytes of the host's program into the buffer, those of one packet at most, and returns their number: 0 if a note is
    /// next, or nothing.
    pub fn take_in(&mut self, into: &mut [u8]) -> usize {
        tells(|count| unsafe { sys::sam_line_take_in(self.at(), into.as_mut_ptr(), into.len(), count) })
    }

    /// Returns the note that is next; `None` if bytes before it are not taken in yet, or if none has come.
    pub fn next_note(&mut self) -> Option<Vec<u8>> {
        let mut note = vec![0; MOST_NOTE];
        let mut len = 0;
        let status = unsafe { sys::sam_line_next_note(self.at(), note.as_mut_ptr(), note.len(), &mut len) };
        note.truncate(len);
        (status == sys::SAM_OK).then_some(note)
    }
}
