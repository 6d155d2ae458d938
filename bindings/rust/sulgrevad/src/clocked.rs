//! What a line and a client share: their connections, what comes on these, and how they stand.

use crate::handle::Held;
use crate::line::MOST_WORDS;
use crate::{done, tells, told, Client, Error, Line, LineDetails, Tick};
use sulgrevad_sys::{self as sys, sam_client, sam_line, sam_line_details, sam_status};

/// The calls of the library that line and client have by the same names.
pub struct Calls<H> {
    tick: unsafe extern "C" fn(*mut H, u64, *mut u32) -> sam_status,
    due_in: unsafe extern "C" fn(*mut H, u64, *mut u64) -> sam_status,
    connected: unsafe extern "C" fn(*mut H, u64, *mut u64) -> sam_status,
    not_connected: unsafe extern "C" fn(*mut H, u64) -> sam_status,
    broken: unsafe extern "C" fn(*mut H, u64, u64) -> sam_status,
    address_changed: unsafe extern "C" fn(*mut H, u64) -> sam_status,
    expect: unsafe extern "C" fn(*mut H, bool, u64) -> sam_status,
    put_note: unsafe extern "C" fn(*mut H, *const u8, usize, u64) -> sam_status,
    acknowledge: unsafe extern "C" fn(*mut H) -> sam_status,
    take_out: unsafe extern "C" fn(*mut H, u64, *mut u8, usize, *mut usize) -> sam_status,
    receive: unsafe extern "C" fn(*mut H, u64, *const u8, usize, u64) -> sam_status,
    describe: unsafe extern "C" fn(*mut H, u64, *mut sam_line_details) -> sam_status,
    words: unsafe extern "C" fn(*mut H, *mut u8, usize, *mut usize) -> sam_status,
}

/// What has such calls. No other crate can name it, so none implements [`Clocked`].
pub trait Called {
    type Raw;
    const CALLS: Calls<Self::Raw>;

    fn held(&self) -> &Held<Self::Raw>;
}

impl Called for Line {
    type Raw = sam_line;
    const CALLS: Calls<sam_line> = Calls {
        tick: sys::sam_line_tick,
        due_in: sys::sam_line_due_in,
        connected: sys::sam_line_connected,
        not_connected: sys::sam_line_not_connected,
        broken: sys::sam_line_broken,
        address_changed: sys::sam_line_address_changed,
        expect: sys::sam_line_expect,
        put_note: sys::sam_line_put_note,
        acknowledge: sys::sam_line_acknowledge,
        take_out: sys::sam_line_take_out,
        receive: sys::sam_line_receive,
        describe: sys::sam_line_describe,
        words: sys::sam_line_words,
    };

    fn held(&self) -> &Held<sam_line> {
        &self.handle
    }
}

impl Called for Client {
    type Raw = sam_client;
    const CALLS: Calls<sam_client> = Calls {
        tick: sys::sam_client_tick,
        due_in: sys::sam_client_due_in,
        connected: sys::sam_client_connected,
        not_connected: sys::sam_client_not_connected,
        broken: sys::sam_client_broken,
        address_changed: sys::sam_client_address_changed,
        expect: sys::sam_client_expect,
        put_note: sys::sam_client_put_note,
        acknowledge: sys::sam_client_acknowledge,
        take_out: sys::sam_client_take_out,
        receive: sys::sam_client_receive,
        describe: sys::sam_client_describe,
        words: sys::sam_client_words,
    };

    fn held(&self) -> &Held<sam_client> {
        &self.handle
    }
}

/// What a [`Line`] and a [`Client`] share: their connections, what comes on these, and how they stand. It is implemented for these two
/// alone. A client goes on by [`Client::next_event`].
///
/// Calls take the time, `now`, in milliseconds of any clock that doesn't jump. A time below the greatest that was handed in counts as the
/// greatest.
pub trait Clocked: Called {
    /// Returns what the program is to do at this time. What it returns counts as begun: another call at the same time returns something
    /// else, so call it until it returns `Nothing`. At `Ask` call [`Line::ask`], or have a client go on.
    fn tick(&mut self, now: u64) -> Tick {
        Tick::of(tells(|tick| unsafe { (Self::CALLS.tick)(self.held().at(), now, tick) }))
    }

    /// Returns the number of milliseconds until `tick`, or `next_event` of a client, has something to do, if no other call comes before;
    /// `None` if it never has.
    fn due_in(&self, now: u64) -> Option<u64> {
        told(|left| unsafe { (Self::CALLS.due_in)(self.held().at(), now, left) })
    }

    /// Takes a connection that the program has opened: the connection before is over. Returns its number, counted from 1, which names it in
    /// the calls below. The error is `CountFull`, after 2^64-1 connections.
    fn connected(&mut self, now: u64) -> Result<u64, Error> {
        let mut attempt = 0;
        done(unsafe { (Self::CALLS.connected)(self.held().at(), now, &mut attempt) })?;
        Ok(attempt)
    }

    /// Gives up the connection for which `Connect` asked, because it can't be made: another is tried after a pause. At any other time it
    /// changes nothing.
    fn not_connected(&mut self, now: u64) {
        unsafe { (Self::CALLS.not_connected)(self.held().at(), now) };
    }

    /// Ends a connection, because it broke or because the program gives it up: another is tried after a pause. Nothing changes if it isn't
    /// the newest, or is over already.
    fn broken(&mut self, attempt: u64, now: u64) {
        unsafe { (Self::CALLS.broken)(self.held().at(), attempt, now) };
    }

    /// Doubts an open connection, because an address of the machine came or went: it is late, so call [`Line::ask`], or have a client go
    /// on; if no byte comes it is given up after 2 seconds. A connection that is to be made is tried after 1 second at most.
    fn address_changed(&mut self, now: u64) {
        unsafe { (Self::CALLS.address_changed)(self.held().at(), now) };
    }

    /// Notes whether the program waits for an answer of the host's program, as to a note of its own: that holds over all connections, until
    /// another call says otherwise. While the program waits an answer is due, though the host has acknowledged all that was put: if no byte
    /// comes for 15 seconds the connection is late, so `tick` returns `Ask`, and if none comes for 15 more it is given up. A client waits
    /// in any case while a task is open, an event is held or something is locked.
    fn expect(&mut self, expects: bool, now: u64) {
        unsafe { (Self::CALLS.expect)(self.held().at(), expects, now) };
    }

    /// Puts a note for the host's program. It comes out behind all bytes that were put, and before later ones: of a client behind the edits
    /// and events that have acted, and before those that wait. Errors, in this order, and the note is not put then: `Link(TooLong)` for
    /// more than 4,096 bytes; `CountFull`; `NoMemory`.
    fn put_note(&mut self, bytes: &[u8], now: u64) -> Result<(), Error> {
        done(unsafe { (Self::CALLS.put_note)(self.held().at(), bytes.as_ptr(), bytes.len(), now) })
    }

    /// Acknowledges all bytes that have come. It is done without this call when the host asks, and after each 16,384 bytes. Errors, in this
    /// order: `CountFull`; `NoMemory`.
    fn acknowledge(&mut self) -> Result<(), Error> {
        done(unsafe { (Self::CALLS.acknowledge)(self.held().at()) })
    }

    /// Moves the next bytes for a connection into the buffer, and returns their number: first the hello, and then the stream from the place
    /// where this connection goes on. Call it after each put, question and piece, and of a client once it has gone on. The error is
    /// `Link(NotOpen)` if the connection is over or isn't the newest.
    fn take_out(&mut self, attempt: u64, into: &mut [u8]) -> Result<usize, Error> {
        let mut count = 0;
        done(unsafe { (Self::CALLS.take_out)(self.held().at(), attempt, into.as_mut_ptr(), into.len(), &mut count) })?;
        Ok(count)
    }

    /// Takes bytes that came on a connection, from its first one on, in pieces of any length, all or none. Then have a client go on. Errors
    /// of `Link`, in this order: `NotOpen` if the connection is over or isn't the newest; `TooManyAnswers`; before the host's welcome
    /// `TooManyWords`, `WrongHello`, and the host's reason, if it refuses; then the error `CountFull`, and of `Link` `BadKind`,
    /// `BadLength`, `AckAhead`. After each of these but the first the connection is over. `NoMemory` may come at any place: the connection
    /// stays, and the same bytes are to be given again.
    fn receive(&mut self, attempt: u64, bytes: &[u8], now: u64) -> Result<(), Error> {
        done(unsafe { (Self::CALLS.receive)(self.held().at(), attempt, bytes.as_ptr(), bytes.len(), now) })
    }

    /// Returns the state, the counts and the times of the line to the host. `has_all` there speaks of the line alone.
    fn describe(&self, now: u64) -> LineDetails {
        LineDetails::of(&tells(|details| unsafe { (Self::CALLS.describe)(self.held().at(), now, details) }))
    }

    /// Returns the words that came on the newest connection before the host's hello, perhaps of a login. They need be no text.
    fn words(&self) -> Vec<u8> {
        let mut words = vec![0; MOST_WORDS];
        let count = tells(|len| unsafe { (Self::CALLS.words)(self.held().at(), words.as_mut_ptr(), words.len(), len) });
        words.truncate(count);
        words
    }
}

impl Clocked for Line {}
impl Clocked for Client {}
