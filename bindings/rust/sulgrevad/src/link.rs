//! One end of a link, which carries bytes and notes over connections that may break, and hellos.

use crate::handle::Held;
use crate::{done, tells, Error, LinkFault};
use sulgrevad_sys::{self as sys, sam_link};

/// The place of bytes in a piece: `len` of them, behind its first `start`.
pub use sys::sam_place as Place;

/// The number of bytes of a hello.
pub const HELLO_BYTES: usize = sys::SAM_LINK_HELLO_BYTES;

/// The most bytes that a note has.
pub const MOST_NOTE: usize = sys::SAM_LINK_MOST_NOTE;

/// A side of a link.
#[derive(Clone, Copy, Debug, PartialEq, Eq)]
#[repr(u32)]
pub enum Role {
    /// It opens connections.
    Terminal = sys::SAM_LINK_TERMINAL,
    /// It takes them.
    Host = sys::SAM_LINK_HOST,
}

/// The state of the newest connection.
#[derive(Clone, Copy, Debug, PartialEq, Eq)]
pub enum Phase {
    /// There is none, or it is over.
    Down,
    /// The terminal has called, and no welcome has come.
    Asking,
    /// Both sides have said hello.
    Open,
}

/// The kinds of a hello: a terminal says one of the first three, a host one of the others.
#[derive(Clone, Copy, Debug, PartialEq, Eq)]
pub enum What {
    /// No welcome has come as yet.
    Begin,
    /// A welcome has come.
    Resume,
    /// No welcome has come as yet, and the session is to begin with the texts of another.
    TakeOver,
    /// The host takes the connection.
    Welcome,
    /// The host refuses it.
    Refused(LinkFault),
}

impl What {
    fn of(number: u32) -> What {
        match number {
            sys::SAM_LINK_BEGIN => What::Begin,
            sys::SAM_LINK_RESUME => What::Resume,
            sys::SAM_LINK_TAKE_OVER => What::TakeOver,
            sys::SAM_LINK_WELCOME => What::Welcome,
            refusal => {
                What::Refused(LinkFault::of(refusal + (sys::SAM_LINK_NOT_A_LINK - 17)).expect("the library reads such hellos alone"))
            }
        }
    }
}

/// A hello.
#[derive(Clone, Copy, Debug, PartialEq, Eq)]
pub struct Hello {
    /// The kind of the hello.
    pub what: What,
    /// The name of the session.
    pub id: [u8; sys::SAM_LINK_ID_BYTES],
    /// The number of the connection.
    pub attempt: u64,
}

/// Reads the hello with which the bytes begin, and returns it; `None` if nothing is wrong so far, but there are fewer than 42. Errors of
/// `Link`, in this order: `NotALink` as soon as the bytes differ from the mark; `OtherVersion` with the ninth byte; `BadHello` with the
/// tenth.
pub fn read_hello(bytes: &[u8]) -> Result<Option<Hello>, Error> {
    let (mut what, mut id, mut attempt) = (0, [0; sys::SAM_LINK_ID_BYTES], 0);
    match unsafe { sys::sam_link_read_hello(bytes.as_ptr(), bytes.len(), &mut what, id.as_mut_ptr(), &mut attempt) } {
        sys::SAM_NONE => Ok(None),
        status => done(status).map(|()| {
            Some(Hello {
                what: What::of(what),
                id,
                attempt,
            })
        }),
    }
}

/// Returns the hello by which a host refuses a connection whose first bytes these are; `None` for a reason that isn't one of the first
/// seven, because it never goes over the line. The hello names the session and the connection of the hello that came; if `read_hello` reads
/// none, it names all zeros.
pub fn write_refusal(why: LinkFault, bytes: &[u8]) -> Option<[u8; HELLO_BYTES]> {
    let mut into = [0; HELLO_BYTES];
    let status = unsafe { sys::sam_link_write_refusal(why.status(), bytes.as_ptr(), bytes.len(), into.as_mut_ptr()) };
    (status == sys::SAM_OK).then_some(into)
}

/// One end of a link: each byte and each note comes out at the other side once and in order, over connections that may break at any byte.
/// It opens no connection and knows no clock. A put, a note, a piece and a hello are taken whole or not at all.
///
/// ```
/// use sulgrevad::{Link, Role};
///
/// let mut terminal = Link::new(Role::Terminal, [7; 16])?;
/// let mut host = Link::new(Role::Host, [7; 16])?;
/// terminal.put(b"hello")?;
/// let attempt = terminal.call(false)?;
/// let mut line = [0; 100]; // the bytes that a connection carries
/// let count = terminal.take_out(attempt, &mut line)?;
/// host.answer(line[..42].try_into().expect("a hello is first"))?;
/// host.feed(attempt, &line[42..count])?;
/// let mut text = [0; 100];
/// assert_eq!(host.take_in(&mut text), 5);
/// assert_eq!(&text[..5], b"hello");
/// # Ok::<(), sulgrevad::Error>(())
/// ```
#[derive(Debug)]
pub struct Link {
    handle: Held<sam_link>,
}

impl Link {
    /// Makes the end of one side, before its first connection. The id is the session's name: 16 bytes that the terminal chose at random. It
    /// is no secret. Its only error is `NoMemory`.
    pub fn new(role: Role, id: [u8; sys::SAM_LINK_ID_BYTES]) -> Result<Link, Error> {
        let handle = Held::made(sam_link::INIT, sys::sam_link_free, |at| unsafe { sys::sam_link_new(at, role as u32, id.as_ptr()) })?;
        Ok(Link { handle })
    }

    fn at(&self) -> *mut sam_link {
        self.handle.at()
    }

    /// Begins a connection that the program has opened, at the terminal's end: the connection before is over. Returns its number, counted
    /// from 1. With `take_over`, the session is to begin with the texts of another, as long as no host has welcomed this end. Errors, in
    /// this order: `Link(WrongRole)`; `CountFull`.
    pub fn call(&mut self, take_over: bool) -> Result<u64, Error> {
        let mut attempt = 0;
        done(unsafe { sys::sam_link_call(self.at(), take_over, &mut attempt) })?;
        Ok(attempt)
    }

    /// Takes the host's hello at the terminal's end: the first bytes that came on the newest connection. Errors, and nothing has changed
    /// then: those of [`read_hello`]; then of `Link`, in this order, `WrongRole`; `NotOpen` if no call waits for a welcome; the host's
    /// reason, if the host refuses; `BadHello`; `OtherSession`; `OldAttempt`; `WrongCount`.
    pub fn welcomed(&mut self, hello: &[u8; HELLO_BYTES]) -> Result<(), Error> {
        done(unsafe { sys::sam_link_welcomed(self.at(), hello.as_ptr(), hello.len()) })
    }

    /// Takes a connection at the host's end by its first bytes, the terminal's hello: the connection before is over. Errors, and nothing
    /// has changed then: those of [`read_hello`]; then of `Link`, in this order, `WrongRole`; `BadHello`; `NoSession`; `OtherSession`;
    /// `OldAttempt`; `WrongCount`.
    pub fn answer(&mut self, hello: &[u8; HELLO_BYTES]) -> Result<(), Error> {
        done(unsafe { sys::sam_link_answer(self.at(), hello.as_ptr(), hello.len()) })
    }

    /// Ends a connection at this end, because it broke or because the program gives it up. Nothing changes if it isn't the newest.
    pub fn broken(&mut self, attempt: u64) {
        unsafe { sys::sam_link_broken(self.at(), attempt) };
    }

    /// Puts bytes for the other side's program, all or none, with or without a connection. Errors, in this order: `CountFull`; `NoMemory`.
    pub fn put(&mut self, bytes: &[u8]) -> Result<(), Error> {
        done(unsafe { sys::sam_link_put(self.at(), bytes.as_ptr(), bytes.len()) })
    }

    /// Puts a note behind all bytes that were put: it comes out after these bytes and before later ones. Errors, in this order:
    /// `Link(TooLong)` for more than 4,096 bytes; `CountFull`; `NoMemory`.
    pub fn put_note(&mut self, bytes: &[u8]) -> Result<(), Error> {
        done(unsafe { sys::sam_link_put_note(self.at(), bytes.as_ptr(), bytes.len()) })
    }

    /// Asks the other side to acknowledge now: if no byte comes, the line is broken. Errors, in this order: `CountFull`; `NoMemory`.
    pub fn ask(&mut self) -> Result<(), Error> {
        done(unsafe { sys::sam_link_ask(self.at()) })
    }

    /// Acknowledges all bytes that have come. The end does so by itself when it is asked, and after each 16,384 bytes. Errors, in this
    /// order: `CountFull`; `NoMemory`.
    pub fn acknowledge(&mut self) -> Result<(), Error> {
        done(unsafe { sys::sam_link_acknowledge(self.at()) })
    }

    /// Moves the next bytes for a connection into the buffer, and returns their number: first the hello, and then the stream from the place
    /// where this connection goes on. Before the welcome, a terminal's end hands out bytes of the stream on the first connection alone. The
    /// error is `Link(NotOpen)` if the connection is over or isn't the newest.
    pub fn take_out(&mut self, attempt: u64, into: &mut [u8]) -> Result<usize, Error> {
        let mut count = 0;
        done(unsafe { sys::sam_link_take_out(self.at(), attempt, into.as_mut_ptr(), into.len(), &mut count) })?;
        Ok(count)
    }

    /// Takes bytes that came on a connection after the hello, in pieces of any length, all or none. Errors, in this order: `Link(NotOpen)`
    /// if the connection is over, isn't the newest, or has no hello yet; `CountFull`; `NoMemory`, and the piece may be fed again. Three
    /// other errors of `Link` end the connection: `BadKind` or `BadLength` if the piece has a wrong packet; else `AckAhead` if it
    /// acknowledges bytes that this connection wasn't given.
    pub fn feed(&mut self, attempt: u64, bytes: &[u8]) -> Result<(), Error> {
        done(unsafe { sys::sam_link_feed(self.at(), attempt, bytes.as_ptr(), bytes.len()) })
    }

    /// Takes bytes that came as `feed` does, and then moves bytes into the buffer as `take_in` does, again and again, until there is no
    /// room, or a note is next, or nothing. Returns the number of bytes that it moved. The errors are those of `feed`.
    pub fn feed_into(&mut self, attempt: u64, bytes: &[u8], into: &mut [u8]) -> Result<usize, Error> {
        let mut count = 0;
        done(unsafe {
            sys::sam_link_feed_into(self.at(), attempt, bytes.as_ptr(), bytes.len(), into.as_mut_ptr(), into.len(), &mut count)
        })?;
        Ok(count)
    }

    /// Takes bytes that came as `feed` does, and writes the places of the program's bytes among them. It does so only if nothing is left of
    /// earlier pieces, no note and no part of a packet: it then takes in whole packets, a place for each, until there is no room in
    /// `places`, or a note is next, or nothing. Returns the number of places that it wrote, else 0. `take_in` has the bytes after them. The
    /// errors are those of `feed`.
    pub fn feed_places(&mut self, attempt: u64, bytes: &[u8], places: &mut [Place]) -> Result<usize, Error> {
        let mut count = 0;
        done(unsafe {
            sys::sam_link_feed_places(self.at(), attempt, bytes.as_ptr(), bytes.len(), places.as_mut_ptr(), places.len(), &mut count)
        })?;
        Ok(count)
    }

    /// Moves the next bytes of the other side's program into the buffer, those of one packet at most, and returns their number: 0 if a note
    /// is next, or nothing.
    pub fn take_in(&mut self, into: &mut [u8]) -> usize {
        tells(|count| unsafe { sys::sam_link_take_in(self.at(), into.as_mut_ptr(), into.len(), count) })
    }

    /// Returns the note that is next; `None` if bytes before it are not taken in yet, or if none has come.
    pub fn next_note(&mut self) -> Option<Vec<u8>> {
        let mut note = vec![0; MOST_NOTE];
        let mut len = 0;
        let status = unsafe { sys::sam_link_next_note(self.at(), note.as_mut_ptr(), note.len(), &mut len) };
        note.truncate(len);
        (status == sys::SAM_OK).then_some(note)
    }

    /// Returns the state of the newest connection.
    pub fn phase(&self) -> Phase {
        match tells(|phase| unsafe { sys::sam_link_phase(self.at(), phase) }) {
            sys::SAM_LINK_DOWN => Phase::Down,
            sys::SAM_LINK_ASKING => Phase::Asking,
            _ => Phase::Open,
        }
    }

    /// Returns the number of the newest connection, or 0 before the first.
    pub fn attempt(&self) -> u64 {
        tells(|attempt| unsafe { sys::sam_link_attempt(self.at(), attempt) })
    }

    /// Returns the number of bytes of this side's stream, heads of packets included.
    pub fn put_count(&self) -> u64 {
        tells(|count| unsafe { sys::sam_link_put_count(self.at(), count) })
    }

    /// Returns the number of bytes of this side's stream that the other side has acknowledged. All bytes that were put by some time have
    /// come once this number is at least that of `put_count` at that time.
    pub fn acknowledged(&self) -> u64 {
        tells(|count| unsafe { sys::sam_link_acknowledged(self.at(), count) })
    }

    /// Returns the number of bytes of this side's stream that the newest connection has not been given.
    pub fn unsent(&self) -> usize {
        tells(|count| unsafe { sys::sam_link_unsent(self.at(), count) })
    }

    /// Returns the number of bytes of the other side's stream that have come.
    pub fn received(&self) -> u64 {
        tells(|count| unsafe { sys::sam_link_received(self.at(), count) })
    }
}
