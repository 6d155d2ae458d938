//! A durable server: a host with its end of a link, which goes on after a crash from records of what it took.

use crate::handle::Held;
use crate::{done, part_of_text, short_text, tells, told, whole_text, Error, HELLO_BYTES};
use sulgrevad_sys::{self as sys, sam_effect, sam_recovery, sam_server, sam_status};

/// What the program of a server is asked to do.
#[derive(Clone, Debug, PartialEq, Eq)]
pub enum Effect {
    /// The saved text of the file of this tag is to be written: `saved`.
    Write(u16),
    /// The terminal's program said this message, a note of the link.
    Hear(Vec<u8>),
    /// The terminal closed a file that was dirty. No file has its tag any more, so this has what it held last, for a program that keeps a
    /// copy.
    Close {
        /// The tag that it had. No other file gets it.
        tag: u16,
        /// Its name.
        name: String,
        /// Its text.
        text: String,
    },
}

/// A host with its end of a link, which outlives a crash. It makes a record of each thing that it takes, and nothing that a record decides
/// goes out before that record is durable. So the terminal never learns of anything that a crash undoes. It opens no file and no
/// connection, and knows no clock.
///
/// A call that takes something has these errors, in this order: why the server has stopped before (`Stream`, `HostRefused`, `Server`);
/// `Waiting` if earlier work is left; `NoMemory`; its own refusals. Nothing is taken then, and no record is made. Once it is taken,
/// `Unfinished` says that memory is short: until `go_on` returns `Ok`, no other call takes anything, and nothing goes out.
///
/// ```
/// use sulgrevad::{recover, DurableServer, Link, Role};
///
/// let mut journal = Vec::new(); // on a disk, in earnest
/// let mut server = DurableServer::new([7; 16])?;
/// server.add_file("notes", "hello\n")?;
/// let mut terminal = Link::new(Role::Terminal, [7; 16])?;
/// let attempt = terminal.call(false)?;
/// let mut line = [0; 42];
/// terminal.take_out(attempt, &mut line)?;
/// server.accept(&line)?;
/// assert_eq!(server.take_out(attempt, &mut line)?, 0); // nothing is durable yet
/// while let Some(body) = server.next_record() {
///     journal.push(body);
///     server.durable(1);
/// }
/// assert_eq!(server.take_out(attempt, &mut line)?, 42); // the welcome
/// drop(server); // a crash
/// let server = recover([7; 16], &journal)?;
/// assert_eq!(server.text(1).as_deref(), Some("hello\n"));
/// # Ok::<(), sulgrevad::Error>(())
/// ```
#[derive(Debug)]
pub struct DurableServer {
    handle: Held<sam_server>,
}

impl DurableServer {
    /// Makes the server of a session without files (but the command file), before its first connection. The id is the session's name: 16
    /// bytes that the terminal chose at random. Its only error is `NoMemory`.
    pub fn new(id: [u8; sys::SAM_LINK_ID_BYTES]) -> Result<DurableServer, Error> {
        DurableServer::made(|at| unsafe { sys::sam_server_new(at, id.as_ptr()) })
    }

    /// Returns the server that a call makes.
    fn made(make: impl FnOnce(*mut sam_server) -> sam_status) -> Result<DurableServer, Error> {
        let handle = Held::made(sam_server::INIT, sys::sam_server_free, make)?;
        Ok(DurableServer { handle })
    }

    fn at(&self) -> *mut sam_server {
        self.handle.at()
    }

    /// Adds a file, and returns its tag: 1 for the first, 2 for the next, and so on. Its own refusals: `TooLong`, `NoTag`. After
    /// `Unfinished` the file has joined under the next tag.
    pub fn add_file(&mut self, name: &str, text: &str) -> Result<u16, Error> {
        let mut tag = 0;
        done(unsafe { sys::sam_server_add_file(self.at(), name.as_ptr(), name.len(), text.as_ptr(), text.len(), &mut tag) })?;
        Ok(tag)
    }

    /// Takes a connection by its first 42 bytes, the terminal's hello: the connection before is over. Its number is the one that
    /// `read_hello` returns. Before all other errors come those of `read_hello`. Its own refusals: `Link`, `BadHello` to `WrongCount`,
    /// which `write_refusal` tells the terminal.
    pub fn accept(&mut self, hello: &[u8; HELLO_BYTES]) -> Result<(), Error> {
        done(unsafe { sys::sam_server_accept(self.at(), hello.as_ptr(), hello.len()) })
    }

    /// Takes bytes that came on a connection after the hello, in pieces of any length, all or none, and answers each message that is whole.
    /// Its own refusals: `Link`, as of `Link::feed`; `CountFull`. Behind all of them comes why the server stops.
    pub fn receive(&mut self, attempt: u64, bytes: &[u8]) -> Result<(), Error> {
        done(unsafe { sys::sam_server_receive(self.at(), attempt, bytes.as_ptr(), bytes.len()) })
    }

    /// Ends a connection, because it broke or because the program gives it up. Nothing changes if it isn't the newest.
    pub fn broken(&mut self, attempt: u64) {
        unsafe { sys::sam_server_broken(self.at(), attempt) };
    }

    /// Puts a message for the terminal's program, a note of the link, behind all bytes that were put. Its own refusals: `Link(TooLong)` for
    /// more than 4,096 bytes; `CountFull`.
    pub fn say(&mut self, message: &[u8]) -> Result<(), Error> {
        done(unsafe { sys::sam_server_say(self.at(), message.as_ptr(), message.len()) })
    }

    /// Marks a file as dirty: after a write that failed, before `effect_done`. Its own refusals: `NoFile` if the tag has no file;
    /// `CommandFile` for tag 0; `NotAnnounced` if the terminal was not told the file's name yet.
    pub fn mark_dirty(&mut self, tag: u16) -> Result<(), Error> {
        done(unsafe { sys::sam_server_mark_dirty(self.at(), tag) })
    }

    /// Asks the terminal to acknowledge now. Its own refusal: `CountFull`.
    pub fn ask(&mut self) -> Result<(), Error> {
        done(unsafe { sys::sam_server_ask(self.at()) })
    }

    /// Acknowledges all bytes that have come. Its own refusal: `CountFull`.
    pub fn acknowledge(&mut self) -> Result<(), Error> {
        done(unsafe { sys::sam_server_acknowledge(self.at()) })
    }

    /// Goes on with what was taken last, after `Unfinished`; does nothing if no work is left. Errors, in this order: why the server has
    /// stopped, at this call or before; `Unfinished`.
    pub fn go_on(&mut self) -> Result<(), Error> {
        done(unsafe { sys::sam_server_go_on(self.at()) })
    }

    /// Returns the number of bytes of the record that `next_record` returns next; `None` if there is none.
    pub fn record_len(&self) -> Option<usize> {
        told(|len| unsafe { sys::sam_server_record_len(self.at(), len) })
    }

    /// Returns the oldest record that was not returned; `None` if there is none. Put it into a journal, in order: none may be left out.
    pub fn next_record(&mut self) -> Option<Vec<u8>> {
        let mut body = vec![0; self.record_len()?];
        told(|len| unsafe { sys::sam_server_next_record(self.at(), body.as_mut_ptr(), body.len(), len) })?;
        Some(body)
    }

    /// Takes so many more of the records that were returned as durable, the oldest first.
    pub fn durable(&mut self, count: usize) {
        unsafe { sys::sam_server_durable(self.at(), count) };
    }

    /// Moves the next bytes for a connection into the buffer, as many as durable records decide and fit, and returns their number: first
    /// the hello, and then the stream from the place where this connection goes on. Its only error is `Link(NotOpen)`.
    pub fn take_out(&mut self, attempt: u64, into: &mut [u8]) -> Result<usize, Error> {
        let mut count = 0;
        done(unsafe { sys::sam_server_take_out(self.at(), attempt, into.as_mut_ptr(), into.len(), &mut count) })?;
        Ok(count)
    }

    /// Returns the effect that is to be done now, the same until `effect_done`; `None` if there is none, or while the record that has it is
    /// not durable. What the terminal sent behind it waits for that: do it soon. After a crash an effect is returned again, unless the
    /// record of its end is durable.
    pub fn next_effect(&self) -> Option<Effect> {
        let effect: sam_effect = told(|effect| unsafe { sys::sam_server_next_effect(self.at(), effect) })?;
        match effect.kind {
            sys::SAM_EFFECT_WRITE => Some(Effect::Write(effect.tag)),
            sys::SAM_EFFECT_HEAR => self.heard(effect.len).map(Effect::Hear),
            _ => self.closed(effect.tag, effect.len),
        }
    }

    /// Returns the message that is to be heard, of so many bytes.
    fn heard(&self, len: usize) -> Option<Vec<u8>> {
        let mut message = vec![0; len];
        told(|len| unsafe { sys::sam_server_heard(self.at(), message.as_mut_ptr(), message.len(), len) }).map(|_: usize| message)
    }

    /// Returns the file that was closed, with a text of so many bytes.
    fn closed(&self, tag: u16, len: usize) -> Option<Effect> {
        let mut text = vec![0; len];
        let _: usize = told(|len| unsafe { sys::sam_server_closed_text(self.at(), text.as_mut_ptr(), text.len(), len) })?;
        Some(Effect::Close {
            tag,
            name: short_text(|into, len| unsafe { sys::sam_server_closed_name(self.at(), into.as_mut_ptr(), into.len(), len) })?,
            text: String::from_utf8(text).expect("the library writes UTF-8"),
        })
    }

    /// Ends the effect, which is done. `ending` is a number of the program's own for how it ended, which stands in the record. Its own
    /// refusal: `NoFile` if `next_effect` returns `None`.
    pub fn effect_done(&mut self, ending: u64) -> Result<(), Error> {
        done(unsafe { sys::sam_server_effect_done(self.at(), ending) })
    }

    /// Returns a server of another session, which begins with the texts of this one, for a terminal that takes them over. All files but the
    /// command file join it with their names and texts, in the order of their tags: from tag 1 on, with no gap. Its records begin a journal
    /// of its own: once that has the name of the old one, the texts are taken over. Marks of dirty files, what was written last and
    /// selections stay behind: call `mark_dirty` once the terminal has a file's name.
    ///
    /// Errors, in this order: `Waiting`, for `go_on`; `Server(EffectWaits)` before an effect is done; `NoMemory`.
    pub fn heir(&self, id: [u8; sys::SAM_LINK_ID_BYTES]) -> Result<DurableServer, Error> {
        DurableServer::made(|at| unsafe { sys::sam_server_heir(self.at(), id.as_ptr(), at) })
    }

    /// Returns whether the session is over: the terminal has sent Texit, or a command line was `q`.
    pub fn is_done(&self) -> bool {
        tells(|done| unsafe { sys::sam_server_is_done(self.at(), done) })
    }

    /// Returns the number of tags that were given, the command file's 0 included.
    pub fn tags(&self) -> usize {
        tells(|count| unsafe { sys::sam_server_tags(self.at(), count) })
    }

    /// Returns whether the tag has a file now. The tag of a closed file has none.
    pub fn has_file(&self, tag: u16) -> bool {
        tells(|has| unsafe { sys::sam_server_has_file(self.at(), tag, has) })
    }

    /// Returns the name of a file; `None` if the tag has no file, as for the readers below.
    pub fn name(&self, tag: u16) -> Option<String> {
        short_text(|into, len| unsafe { sys::sam_server_name(self.at(), tag, into.as_mut_ptr(), into.len(), len) })
    }

    /// Returns the length of a file's text in runes.
    pub fn len(&self, tag: u16) -> Option<u32> {
        told(|runes| unsafe { sys::sam_server_len(self.at(), tag, runes) })
    }

    /// Returns whether a file was edited since it was made or written.
    pub fn is_dirty(&self, tag: u16) -> Option<bool> {
        told(|dirty| unsafe { sys::sam_server_is_dirty(self.at(), tag, dirty) })
    }

    /// Returns the text of a file.
    pub fn text(&self, tag: u16) -> Option<String> {
        self.text_part(tag, 0, u32::MAX)
    }

    /// Returns the text of a file from the place `place` on, at most `most` runes.
    pub fn text_part(&self, tag: u16, place: u32, most: u32) -> Option<String> {
        part_of_text(place, most, |place, into, bytes, runes| unsafe {
            sys::sam_server_text(self.at(), tag, place, into.as_mut_ptr(), into.len(), bytes, runes)
        })
    }

    /// Returns the length in runes of the text that a file had when the terminal had it written last; `None` also if it never was.
    pub fn saved_len(&self, tag: u16) -> Option<u32> {
        told(|runes| unsafe { sys::sam_server_saved_len(self.at(), tag, runes) })
    }

    /// Returns the text that a file had when the terminal had it written last; `None` also if it never was.
    pub fn saved(&self, tag: u16) -> Option<String> {
        self.saved_part(tag, 0, u32::MAX)
    }

    /// Returns the same text from the place `place` on, at most `most` runes.
    pub fn saved_part(&self, tag: u16, place: u32, most: u32) -> Option<String> {
        part_of_text(place, most, |place, into, bytes, runes| unsafe {
            sys::sam_server_saved(self.at(), tag, place, into.as_mut_ptr(), into.len(), bytes, runes)
        })
    }

    /// Returns whether the terminal has opened the file.
    pub fn is_open(&self, tag: u16) -> Option<bool> {
        told(|open| unsafe { sys::sam_server_is_open(self.at(), tag, open) })
    }

    /// Returns the text of the snarf buffer.
    pub fn snarf(&self) -> String {
        whole_text(|place, into, bytes, runes| unsafe {
            sys::sam_server_snarf(self.at(), place, into.as_mut_ptr(), into.len(), bytes, runes)
        })
        .expect("the handle is made")
    }

    /// Returns the length of the snarf buffer in runes.
    pub fn snarf_len(&self) -> u32 {
        tells(|runes| unsafe { sys::sam_server_snarf_len(self.at(), runes) })
    }

    /// Returns the number of the newest connection, or 0 before the first.
    pub fn attempt(&self) -> u64 {
        tells(|attempt| unsafe { sys::sam_server_attempt(self.at(), attempt) })
    }

    /// Returns the number of bytes that were put for the terminal, heads of packets included, also of those whose records are not durable.
    pub fn put_count(&self) -> u64 {
        tells(|count| unsafe { sys::sam_server_put_count(self.at(), count) })
    }

    /// Returns the number of these bytes that the terminal has acknowledged. A program that is about to end says its last message, and
    /// waits until this number is that of `put_count`.
    pub fn acknowledged(&self) -> u64 {
        tells(|count| unsafe { sys::sam_server_acknowledged(self.at(), count) })
    }

    /// Returns the number of bytes of the terminal's stream that have come.
    pub fn received(&self) -> u64 {
        tells(|count| unsafe { sys::sam_server_received(self.at(), count) })
    }
}

/// A durable server that is made again of its records, one by one; [`recover`] does it at once.
#[derive(Debug)]
pub struct Recovery {
    handle: Held<sam_recovery>,
}

impl Recovery {
    /// Begins with the server of a session that has taken nothing. The id is that of the session whose records they are. Its only error is
    /// `NoMemory`.
    pub fn new(id: [u8; sys::SAM_LINK_ID_BYTES]) -> Result<Recovery, Error> {
        let handle = Held::made(sam_recovery::INIT, sys::sam_recovery_free, |at| unsafe { sys::sam_recovery_new(at, id.as_ptr()) })?;
        Ok(Recovery { handle })
    }

    /// Takes the next record of the journal again. Errors, in this order: `Server(NoRecord)`; then `Server(NotTaken)` or `NoMemory`,
    /// whichever shows first. Nothing is left of the recovery then: begin anew.
    pub fn take(self, body: &[u8]) -> Result<Recovery, Error> {
        done(unsafe { sys::sam_recovery_take(self.handle.at(), body.as_ptr(), body.len()) })?;
        Ok(self)
    }

    /// Returns the server that goes on behind all these records. Its connection is over, and its records count as durable, so have the
    /// journal synced before: an effect that waits is to be done now. Its only error is `NoMemory`, with the recovery as it was.
    pub fn finish(self) -> Result<DurableServer, (Error, Recovery)> {
        DurableServer::made(|at| unsafe { sys::sam_recovery_finish(self.handle.at(), at) }).map_err(|why| (why, self))
    }
}

/// Makes a durable server again, of the records of its journal from the oldest on, once that is synced. Errors: `Server` at a record that
/// is none, or that the records before it don't lead to; `NoMemory`.
pub fn recover<B: AsRef<[u8]>>(id: [u8; sys::SAM_LINK_ID_BYTES], records: impl IntoIterator<Item = B>) -> Result<DurableServer, Error> {
    let mut recovery = Recovery::new(id)?;
    for body in records {
        recovery = recovery.take(body.as_ref())?;
    }
    recovery.finish().map_err(|(why, _)| why)
}
