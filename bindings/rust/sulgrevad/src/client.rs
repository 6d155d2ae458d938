//! The user's side of a session: an overlay, and its line to the host.

use crate::edits::{is_followed, take_edits};
use crate::handle::Held;
use crate::link::MOST_NOTE;
use crate::step::term_step;
use crate::{done, tells, Error, NoteKind, Refusal, Replacement, Shown, ShownEdit, SpliceKind, TermStep};
use sulgrevad_sys::{self as sys, sam_client, sam_client_event, sam_did};

/// What a client tells as it goes on.
#[derive(Clone, Copy, Debug, PartialEq, Eq)]
#[non_exhaustive]
pub enum ClientEvent {
    /// Nothing moves until the host or the user does something, or the time comes.
    Idle,
    /// 1,000 things moved that are not told, and more may: call again.
    Busy,
    /// A frame was received or an event acted. The splices are to be taken. If a request acted, its number stands beside it.
    Stepped(TermStep, Option<u64>),
    /// An event was refused: by its number over all events that acted or were refused, edits that were put among them; as a request, by
    /// that of [`Shown::ask`]; as the write of a task, to which no answer comes, by that of [`Client::write`]. A reason that this crate
    /// doesn't know is `Err`, with its number in sulgrevad.h.
    Refused {
        /// The number among all events.
        event: u64,
        /// The number of the request; `None` if it was none.
        request: Option<u64>,
        /// The number of the task; `None` if it was none.
        task: Option<u32>,
        /// The reason.
        why: Result<Refusal, u32>,
    },
    /// A note came, which [`Client::note`] returns. All frames before it are received.
    Note,
    /// A note came, which [`Client::note`] returns: it answers the task of this number.
    Answered(u32),
    /// The session is over, and no answer comes to the task of this number.
    Unanswered(u32),
    /// The command line of this request has run. What it printed, so many runes, stands in the command file from that place on, and is
    /// loaded: [`Shown::text`] of tag 0 returns it.
    Ran {
        /// The number that [`Client::run`] returned.
        request: u64,
        /// Where in the command file stands what the line printed.
        place: u32,
        /// How many runes that is.
        count: u32,
    },
    /// The session is over, and the request of this number never acts, or its command line has no answer.
    Lapsed(u64),
}

impl ClientEvent {
    /// Returns the event that the library hands out.
    fn of(kind: sam_client_event, did: &sam_did) -> ClientEvent {
        let request = (did.request != 0).then_some(did.request);
        match kind {
            sys::SAM_CLIENT_BUSY => ClientEvent::Busy,
            sys::SAM_CLIENT_STEPPED => ClientEvent::Stepped(term_step(did), request),
            sys::SAM_CLIENT_REFUSED => ClientEvent::Refused {
                event: did.event,
                request,
                task: (did.task != 0).then_some(did.task),
                why: Refusal::of(did.why).ok_or(did.why),
            },
            sys::SAM_CLIENT_NOTE => ClientEvent::Note,
            sys::SAM_CLIENT_ANSWERED => ClientEvent::Answered(did.task),
            sys::SAM_CLIENT_UNANSWERED => ClientEvent::Unanswered(did.task),
            sys::SAM_CLIENT_RAN => ClientEvent::Ran { request: did.request, place: did.start, count: did.came },
            sys::SAM_CLIENT_LAPSED => ClientEvent::Lapsed(did.request),
            _ => ClientEvent::Idle,
        }
    }
}

/// The user's side of a session in one handle, for a front end whose user never waits, over connections that may break: an overlay, and its
/// line to the host. It moves all between the two by itself. It opens no connection and has no clock: the program makes connections, moves
/// their bytes, and hands in the time, `now`, in milliseconds of any clock that doesn't jump.
///
/// Places count runes and gaps of the shown text. An editor that takes each splice before it tells of an edit has the shown text as its
/// own. A replacement makes no splice. A connection that breaks takes nothing of what the user did.
///
/// ```
/// use sulgrevad::{Client, ClientEvent, Clocked, Event, Host, Link, Role, Shown, Tick};
///
/// let (mut host, mut link) = (Host::new()?, Link::new(Role::Host, [7; 16])?);
/// let file = host.add_file("notes", "")?;
/// let mut client = Client::new([7; 16], false, 0)?;
///
/// fn go_on(client: &mut Client) -> Result<(), sulgrevad::Error> {
///     while client.next_event(0)? != ClientEvent::Idle {
///         for _splice in client.splices() {} // each goes into the editor's own text
///     }
///     Ok(())
/// }
/// // In an editor a connection stands between the two.
/// fn carry(client: &mut Client, link: &mut Link, host: &mut Host) -> Result<(), sulgrevad::Error> {
///     let mut bytes = [0; 4096];
///     loop {
///         go_on(client)?;
///         let up = client.take_out(1, &mut bytes)?;
///         link.feed(1, &bytes[..up])?;
///         let count = link.take_in(&mut bytes);
///         host.feed(&bytes[..count])?;
///         for piece in host.take_out() {
///             link.put(&piece)?;
///         }
///         let down = link.take_out(1, &mut bytes)?;
///         client.receive(1, &bytes[..down], 0)?;
///         if up + count + down == 0 {
///             return Ok(());
///         }
///     }
/// }
///
/// assert_eq!(client.tick(0), Tick::Connect);
/// let attempt = client.connected(0)?;
/// let mut hello = [0; 42];
/// client.take_out(attempt, &mut hello)?;
/// link.answer(&hello)?;
/// client.ask(Event::OfferVersion(2))?;
/// carry(&mut client, &mut link, &mut host)?;
/// client.ask(Event::Open(file))?;
/// carry(&mut client, &mut link, &mut host)?;
/// client.replace(file, 0, 0, "hello")?;
/// assert_eq!(client.text(file, 0).as_deref(), Some("hello"));
/// assert!(!client.has_all());
/// carry(&mut client, &mut link, &mut host)?;
/// assert_eq!(host.text(file).as_deref(), Some("hello"));
/// assert!(client.has_all());
/// # Ok::<(), sulgrevad::Error>(())
/// ```
#[derive(Debug)]
pub struct Client {
    pub(crate) handle: Held<sam_client>,
}

impl Client {
    /// Makes a client that knows no file, and whose first connection is due at once. The id is the session's name: 16 bytes that the
    /// terminal chose at random. It is no secret. With `take_over`, the session is to begin with the texts of another, as long as no host
    /// has welcomed this client. Then ask for `OfferVersion`. Its only error is `NoMemory`.
    pub fn new(id: [u8; sys::SAM_LINK_ID_BYTES], take_over: bool, now: u64) -> Result<Client, Error> {
        let handle = Held::made(sam_client::INIT, sys::sam_client_free, |at| unsafe {
            sys::sam_client_new(at, id.as_ptr(), take_over, now)
        })?;
        Ok(Client { handle })
    }

    fn at(&self) -> *mut sam_client {
        self.handle.at()
    }

    /// Goes on until there is something to tell, and returns it. Call it after each call that brought something, until it returns `Idle`,
    /// and take all splices before each call. Errors, in this order: `Waiting` if splices are left, and all is as it was. Else some of what
    /// waited may be done, and nothing is lost: why the terminal has stopped, at this call or before (`Stream`, `TermRefused`);
    /// `CountFull`; `Unfinished` if memory is short: call it again later.
    pub fn next_event(&mut self, now: u64) -> Result<ClientEvent, Error> {
        let (mut kind, mut did) = (0, sam_did::default());
        done(unsafe { sys::sam_client_next_event(self.at(), now, &mut kind, &mut did) })?;
        Ok(ClientEvent::of(kind, &did))
    }

    /// Goes on as `next_event` does, but over each step that is an edit of the host's, loads runes, or is an edit of the user's that acted,
    /// at most 2,048: puts their splices behind those that are in the list, each with the runes that it brought. Returns what is told else,
    /// whose splices are to be taken; it is `Idle` only if no step was made. That takes less time if there are thousands. Its errors are
    /// those of `next_event`, in its order; what came before them is in the list then.
    pub fn step_edits(&mut self, now: u64, into: &mut Vec<ShownEdit>) -> Result<ClientEvent, Error> {
        let (mut kind, mut did) = (0, sam_did::default());
        done(take_edits(into, |changes| unsafe {
            sys::sam_client_step_edits(self.at(), now, changes, &mut kind, &mut did)
        }))?;
        if kind != sys::SAM_CLIENT_STEPPED || !is_followed(&did) {
            return Ok(ClientEvent::of(kind, &did));
        }
        // There was no room for the rest of a step.
        while let Some(splice) = self.next_splice() {
            let count = if splice.kind == SpliceKind::Went { 0 } else { splice.count };
            let runes = self.read(splice.tag, splice.place, count as usize).unwrap_or_default();
            into.push(ShownEdit { splice, runes });
        }
        Ok(ClientEvent::Busy)
    }

    /// Returns the note that was told last; an empty one before the first.
    pub fn note(&self) -> Vec<u8> {
        let mut note = vec![0; MOST_NOTE];
        let len = tells(|len| unsafe { sys::sam_client_note(self.at(), note.as_mut_ptr(), note.len(), len) });
        note.truncate(len);
        note
    }

    /// Makes replacements one after another, each as `replace` does, by one call: the places of each are those of the text that the ones
    /// before it have left. So from the last place to the first, all are places of the text before. Returns how many were made: all, or
    /// those before one that is refused, for which `replace` says why. Errors, in this order, and none is made then: `NoMemory`; `Waiting`
    /// if splices are left; what refuses the first one.
    pub fn replace_each(&mut self, tag: u16, replacements: &[Replacement<'_>]) -> Result<usize, Error> {
        let ((rows, text), mut made) = (Replacement::lent(replacements), 0);
        let (count, len) = (rows.len(), text.len());
        let all = done(unsafe { sys::sam_client_replace_each(self.at(), tag, rows.as_ptr(), count, text.as_ptr(), len, &mut made) });
        if made == 0 {
            all?;
        }
        Ok(made)
    }

    /// Has the host's program do something, and returns the number of the task, counted from 1: `Open`, to join the file or the folder at a
    /// path; `Complete`, to tell the names that complete a path; or `Reload`, to read the file of a tag anew from its disk. The message
    /// goes behind all that acted, as a note does. `next_event` tells once that the answer came, or that none comes. Errors, in this
    /// order, and no task is begun then: `Note(BadKind)` for another kind; `TooMany` if 1,000 tasks are open; `CountFull`; `NoMemory`;
    /// `Note(BadField)` if the kind has no tag and the tag is not 0, or no path and the path is not empty; `Note(BadLength)` if the message
    /// would have more than 4,096 bytes; `Note(BadPath)` for a zero byte; `CountFull`; `NoMemory`.
    pub fn begin(&mut self, kind: NoteKind, tag: u16, path: &[u8], now: u64) -> Result<u32, Error> {
        let mut task = 0;
        done(unsafe { sys::sam_client_begin(self.at(), kind as u32, tag, path.as_ptr(), path.len(), now, &mut task) })?;
        Ok(task)
    }

    /// Asks for a file to be written as it is shown now, as `ask` does by `Write`, and returns the number of the task. Its answer is
    /// `Saved` or `NotSaved`; if the write is refused, no answer comes, and `Refused` has its number. A write that would find the same text
    /// as one that waits is that task. Errors, in this order, and no task is begun then: `TooMany` if 1,000 tasks are open; `CountFull`;
    /// `NoMemory`; then those of `ask`.
    pub fn write(&mut self, tag: u16) -> Result<u32, Error> {
        let mut task = 0;
        done(unsafe { sys::sam_client_write(self.at(), tag, &mut task) })?;
        Ok(task)
    }

    /// Has the host run a command line on an open file, from the file's dot on, as it is shown now: behind all that was asked for before.
    /// Returns the number of the request that types its newline. `next_event` tells once that the line has run, and where in the command
    /// file stands what it printed: at most 65,536 runes of that. Or it tells by that number that the line was refused, or lapsed. The
    /// command file is opened for it, and emptied at 100,000 runes. Errors, in this order, and the client is then as it was: `NoMemory`;
    /// `NotText` if the line has a newline; `Edit(NotOpen)` if the file is not open, a close of it waits, it is the command file, or the
    /// user has left; `Edit(TextTooLong)` if the line has more than 400,000 runes; `TooMany` if 1,000 lines are open, or 1,000 requests
    /// would wait: it has one for each 512 runes, and three more. Or as `ask`, in its order: the line doesn't run then, though some of its
    /// runes may come to stand in the command file.
    pub fn run(&mut self, tag: u16, line: &str) -> Result<u64, Error> {
        let mut request = 0;
        done(unsafe { sys::sam_client_run(self.at(), tag, line.as_ptr(), line.len(), &mut request) })?;
        Ok(request)
    }

    /// Notes what a window shows of a file, from the place `start` to the place `end`, in the place of what it showed before. While nothing
    /// else waits, the client loads that by itself, then what is behind it and the rest of the file, in slices, but these only once nobody
    /// has pressed a key for a second (`rest`). Of several files, the one that was told last is first. Any tag and any place may be told,
    /// also before the file is open. Its only error is `NoMemory`, after which all is as it was.
    pub fn see(&mut self, tag: u16, start: u32, end: u32) -> Result<(), Error> {
        done(unsafe { sys::sam_client_see(self.at(), tag, start, end) })
    }

    /// Leaves out a file that no window shows: the client loads no more of it by itself.
    pub fn forget(&mut self, tag: u16) {
        unsafe { sys::sam_client_forget(self.at(), tag) };
    }

    /// Counts a key of the user that edits nothing, as one that moves the caret: for a second only what windows show is loaded, so what the
    /// key asks for waits for no slice. A replacement counts by itself.
    pub fn rest(&mut self, now: u64) {
        unsafe { sys::sam_client_rest(self.at(), now) };
    }

    /// Returns whether the host has all that the user did, and all notes: nothing waits here, and the host's end of the link has
    /// acknowledged all.
    pub fn has_all(&self) -> bool {
        tells(|has| unsafe { sys::sam_client_has_all(self.at(), has) })
    }

    /// Returns whether the shown text of a file may differ from the text that was written last. It is false for a tag without a file, and
    /// for tag 0.
    pub fn is_unsaved(&self, tag: u16) -> bool {
        tells(|unsaved| unsafe { sys::sam_client_is_unsaved(self.at(), tag, unsaved) })
    }
}
