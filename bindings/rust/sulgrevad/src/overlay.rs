//! A terminal whose user never waits: the edits that wait are shown over its texts.

use crate::handle::Held;
use crate::step::term_step;
use crate::{done, tells, told, Error, Refusal, TermStep, PIECE};
use sulgrevad_sys::{self as sys, sam_did, sam_event, sam_overlay, sam_splice};

/// What a splice does.
#[derive(Clone, Copy, Debug, PartialEq, Eq)]
#[non_exhaustive]
pub enum SpliceKind {
    /// Runes or gaps came in at the place.
    Came,
    /// Runes or gaps from the place on went.
    Went,
    /// The runes from the place on are loaded now. Nothing moved.
    Filled,
    /// The text is empty: the file was opened, or closed, and what waited over it is gone.
    Emptied,
}

/// A change of the shown text of a file. Of several by one step each is made in the text that the ones before it left.
#[derive(Clone, Copy, Debug, PartialEq, Eq)]
pub struct Splice {
    /// What it does.
    pub kind: SpliceKind,
    /// The file.
    pub tag: u16,
    /// The place where it begins; 0 for `Emptied`.
    pub place: u32,
    /// The number of runes or gaps; 0 for `Emptied`.
    pub count: u32,
}

impl Splice {
    /// Returns the splice that the library hands out.
    pub(crate) fn of(splice: sam_splice) -> Splice {
        Splice {
            kind: match splice.kind {
                sys::SAM_SPLICE_CAME => SpliceKind::Came,
                sys::SAM_SPLICE_WENT => SpliceKind::Went,
                sys::SAM_SPLICE_FILLED => SpliceKind::Filled,
                _ => SpliceKind::Emptied,
            },
            tag: splice.tag,
            place: splice.place,
            count: splice.count,
        }
    }
}

/// Runes that an overlay gives back, because the host left no room for them.
#[derive(Clone, Debug, PartialEq, Eq)]
pub struct Dropped {
    /// The file.
    pub tag: u16,
    /// The place of the shown text where they stood.
    pub place: u32,
    /// The number of runes that went there; 0 if a later edit had taken them out.
    pub count: u32,
    /// All of them.
    pub text: String,
}

impl Dropped {
    /// Returns what a call takes back where so many runes wait; `None` if nothing is to be taken back.
    pub(crate) fn taken(waiting: u32, take: impl FnOnce(&mut sam_splice, &mut [u8], &mut usize) -> u32) -> Result<Option<Dropped>, Error> {
        let mut bytes = vec![0; 4 * waiting as usize];
        let (mut splice, mut len) = (sam_splice::default(), 0);
        let status = take(&mut splice, &mut bytes, &mut len);
        if status == sys::SAM_NONE {
            return Ok(None);
        }
        done(status)?;
        bytes.truncate(len);
        Ok(Some(Dropped {
            tag: splice.tag,
            place: splice.place,
            count: splice.count,
            text: String::from_utf8(bytes).expect("the library writes UTF-8"),
        }))
    }
}

/// What became of an edit that waits.
#[derive(Clone, Copy, Debug, PartialEq, Eq)]
pub enum Put {
    /// Nothing waits over the file: what is shown is the terminal's text.
    Nothing,
    /// It waits on: a lock is held, or frames, events, composed messages or a request come first.
    NotFree,
    /// It was put, and the next step has it act.
    Edit,
}

/// What became of the oldest request.
#[derive(Clone, Copy, Debug, PartialEq, Eq)]
pub enum Turn {
    /// None waits.
    Nothing,
    /// It waits on: edits before it are left to put, a lock is in its way, or frames, events or composed messages come first.
    NotYet,
    /// The terminal has it, and the next step has it act.
    Request,
}

/// An event of the user that leaves each text but that of the command file. Each does what the call of a [`Terminal`](crate::Terminal) does
/// that has its name; those of `Cmd` do it at the command file. One number alone is the tag of the file.
#[derive(Clone, Copy, Debug, PartialEq, Eq)]
pub enum Event<'a> {
    /// Selects runes: `(tag, start, end)`, two places.
    Select(u16, u32, u32),
    /// Selects the word round a place: `(tag, place)`.
    Dclick(u16, u32),
    /// Selects the next occurrence of the selected text.
    Look(u16),
    /// Selects the next occurrence of the pattern.
    Search(u16),
    /// Sends the typed runes.
    Flush,
    /// Copies the selection into the snarf buffer.
    Snarf(u16),
    /// Asks for the host's snarf buffer, which `snarfed` returns then.
    GetSnarf,
    /// Gives the host another snarf buffer.
    SetSnarf(&'a str),
    /// Shows runes from a place on, and asks for them bit by bit: `(tag, place, len)`.
    View(u16, u32, u32),
    /// Shows the same runes, and asks at once for all that are not loaded: `(tag, place, len)`.
    Load(u16, u32, u32),
    /// Scrolls the view up: `(tag, lines)`.
    Scroll(u16, u32),
    /// Asks for the first gap that the view shows.
    Check(u16),
    /// Opens a file.
    Open(u16),
    /// Makes an empty file, and opens it.
    NewFile,
    /// Asks the host to write a file.
    Write(u16),
    /// Closes a file for good.
    Close(u16),
    /// Opens the command file.
    OpenCmd,
    /// Makes a file the one that command lines work on.
    Work(u16),
    /// Sends the selection to the command file, and runs its last line.
    Send(u16),
    /// Offers a version of the protocol, and asks for the names of all files.
    OfferVersion(u16),
    /// Ends the session.
    Exit,
    /// Types at most 512 runes in the place of the command file's dot; a line end runs the line.
    TypeCmd(&'a str),
    /// Cuts the command file's dot into the snarf buffer.
    CutCmd,
    /// Puts the snarf buffer in the place of the command file's dot.
    PasteCmd,
}

impl<'a> Event<'a> {
    /// Returns the text that it brings.
    pub(crate) fn text(self) -> &'a str {
        match self {
            Event::SetSnarf(text) | Event::TypeCmd(text) => text,
            _ => "",
        }
    }

    /// Returns the event as the library takes it.
    pub(crate) fn numbers(self) -> sam_event {
        let (kind, tag, start, number) = match self {
            Event::Select(tag, start, end) => (sys::SAM_EVENT_SELECT, tag, start, end),
            Event::Dclick(tag, place) => (sys::SAM_EVENT_DCLICK, tag, place, 0),
            Event::Look(tag) => (sys::SAM_EVENT_LOOK, tag, 0, 0),
            Event::Search(tag) => (sys::SAM_EVENT_SEARCH, tag, 0, 0),
            Event::Flush => (sys::SAM_EVENT_FLUSH, 0, 0, 0),
            Event::Snarf(tag) => (sys::SAM_EVENT_SNARF, tag, 0, 0),
            Event::GetSnarf => (sys::SAM_EVENT_GET_SNARF, 0, 0, 0),
            Event::SetSnarf(_) => (sys::SAM_EVENT_SET_SNARF, 0, 0, 0),
            Event::View(tag, place, len) => (sys::SAM_EVENT_VIEW, tag, place, len),
            Event::Load(tag, place, len) => (sys::SAM_EVENT_LOAD, tag, place, len),
            Event::Scroll(tag, lines) => (sys::SAM_EVENT_SCROLL, tag, 0, lines),
            Event::Check(tag) => (sys::SAM_EVENT_CHECK, tag, 0, 0),
            Event::Open(tag) => (sys::SAM_EVENT_OPEN, tag, 0, 0),
            Event::NewFile => (sys::SAM_EVENT_NEW_FILE, 0, 0, 0),
            Event::Write(tag) => (sys::SAM_EVENT_WRITE, tag, 0, 0),
            Event::Close(tag) => (sys::SAM_EVENT_CLOSE, tag, 0, 0),
            Event::OpenCmd => (sys::SAM_EVENT_OPEN_CMD, 0, 0, 0),
            Event::Work(tag) => (sys::SAM_EVENT_WORK, tag, 0, 0),
            Event::Send(tag) => (sys::SAM_EVENT_SEND, tag, 0, 0),
            Event::OfferVersion(_) => (sys::SAM_EVENT_OFFER_VERSION, 0, 0, 0),
            Event::Exit => (sys::SAM_EVENT_EXIT, 0, 0, 0),
            Event::TypeCmd(_) => (sys::SAM_EVENT_TYPE_CMD, 0, 0, 0),
            Event::CutCmd => (sys::SAM_EVENT_CUT_CMD, 0, 0, 0),
            Event::PasteCmd => (sys::SAM_EVENT_PASTE_CMD, 0, 0, 0),
        };
        let version = match self {
            Event::OfferVersion(version) => version,
            _ => 0,
        };
        sam_event {
            kind,
            start,
            number,
            tag,
            version,
        }
    }
}

/// A terminal for an editor that has a text of its own and takes each key at once. What the user does is shown at once, also while the file
/// is locked. Until the file is free it waits over the terminal's text, and the host's changes go through it.
///
/// Places count runes and gaps of the shown text. An editor that takes each splice before it tells of an edit has the shown text as its
/// own, and its places are always right. A replacement makes no splice.
///
/// ```
/// use sulgrevad::{Event, Host, Overlay, Put, Shown, TermStep, Turn};
///
/// let mut host = Host::new()?;
/// let file = host.add_file("notes", "")?;
/// let mut overlay = Overlay::new()?;
///
/// // Goes on as far as it can: requests act, and what waits is put. In an editor each splice goes into its own text, and a pipe stands
/// // between the two.
/// fn go_on(overlay: &mut Overlay, file: u16) -> Result<(), sulgrevad::Error> {
///     loop {
///         while !matches!(overlay.step()?.0, TermStep::Idle | TermStep::Locked) {
///             for _splice in overlay.splices() {}
///         }
///         if overlay.act_next()? != Turn::Request && overlay.put_next(file)? != Put::Edit {
///             return Ok(());
///         }
///     }
/// }
/// fn carry(overlay: &mut Overlay, host: &mut Host, file: u16) -> Result<(), sulgrevad::Error> {
///     go_on(overlay, file)?;
///     while overlay.pending() + host.pending() > 0 {
///         let up: Vec<u8> = overlay.take_out().flatten().collect();
///         host.feed(&up)?;
///         let down: Vec<u8> = host.take_out().flatten().collect();
///         overlay.bring(&down)?;
///         go_on(overlay, file)?;
///     }
///     Ok(())
/// }
///
/// overlay.ask(Event::OfferVersion(2))?;
/// carry(&mut overlay, &mut host, file)?;
/// overlay.ask(Event::Open(file))?;
/// carry(&mut overlay, &mut host, file)?;
/// overlay.ask(Event::Write(file))?;
/// go_on(&mut overlay, file)?; // the file is locked now
/// overlay.replace(file, 0, 0, "hello")?;
/// overlay.ask(Event::Write(file))?; // it will write the hello
/// overlay.replace(file, 5, 5, "!")?;
/// assert_eq!(overlay.text(file, 0).as_deref(), Some("hello!"));
/// carry(&mut overlay, &mut host, file)?;
/// assert_eq!(host.text(file).as_deref(), Some("hello!"));
/// # Ok::<(), sulgrevad::Error>(())
/// ```
#[derive(Debug)]
pub struct Overlay {
    pub(crate) handle: Held<sam_overlay>,
}

impl Overlay {
    /// Makes an overlay over a terminal that knows no file. Its only error is `NoMemory`.
    pub fn new() -> Result<Overlay, Error> {
        let handle = Held::made(sam_overlay::INIT, sys::sam_overlay_free, |at| unsafe { sys::sam_overlay_new(at) })?;
        Ok(Overlay { handle })
    }

    fn at(&self) -> *mut sam_overlay {
        self.handle.at()
    }

    /// Puts the next edit of those that wait over a file as an event, if it can act at once and stands behind no request of the file or of
    /// the command lock, and returns what became of it. Call it, and make a step, as long as it returns `Edit`. Errors, in this order, and
    /// the overlay is then as it was: why the terminal has stopped before; `Edit(TooLong)` if the file would have more than 1,000,000
    /// runes, because the host put more in meanwhile; `CountFull`; `NoMemory`.
    pub fn put_next(&mut self, tag: u16) -> Result<Put, Error> {
        let mut put = 0;
        done(unsafe { sys::sam_overlay_put_next(self.at(), tag, &mut put) })?;
        Ok(match put {
            sys::SAM_PUT_NOTHING => Put::Nothing,
            sys::SAM_PUT_NOT_FREE => Put::NotFree,
            _ => Put::Edit,
        })
    }

    /// Has the oldest request act, if all edits before it are put and it can act at once, and returns what became of it. Call it before
    /// `put_next`, and make a step, as long as it returns `Request`. Its errors are those of `put_next`, in its order, without
    /// `Edit(TooLong)`.
    pub fn act_next(&mut self) -> Result<Turn, Error> {
        let mut turn = 0;
        done(unsafe { sys::sam_overlay_act_next(self.at(), &mut turn) })?;
        Ok(match turn {
            sys::SAM_TURN_NOTHING => Turn::Nothing,
            sys::SAM_TURN_NOT_YET => Turn::NotYet,
            _ => Turn::Request,
        })
    }

    /// Takes an event beside the requests that wait, which stay; `step` has it act. An event acts on the terminal's text, so put all that
    /// waits over its file first. Errors, in this order, and the overlay is then as it was: `NoMemory`, if it brings a text; why the
    /// terminal has stopped before; `Waiting` until a step was `Idle` or `Locked`, and while an edit was put that has not acted;
    /// `CountFull`; `NoMemory`.
    pub fn bring_event(&mut self, event: Event<'_>) -> Result<(), Error> {
        let text = event.text();
        done(unsafe { sys::sam_overlay_bring_event(self.at(), &event.numbers(), text.as_ptr(), text.len()) })
    }

    /// Takes bytes of the host's frames, in pieces of any length, and receives none: the frames that are whole wait for `step`. Errors, in
    /// this order, and the bytes are then not taken: why the terminal has stopped before; `Waiting` until a step was `Idle` or `Locked`,
    /// and while an edit was put that has not acted; `CountFull`; `NoMemory`.
    pub fn bring(&mut self, bytes: &[u8]) -> Result<(), Error> {
        done(unsafe { sys::sam_overlay_bring(self.at(), bytes.as_ptr(), bytes.len()) })
    }

    /// Makes one step with the frames and events that wait, as that of a terminal, and returns its result, whose change is that of the
    /// terminal's text. If a request acted or was refused, its number stands beside it. `splices` then has the changes of the shown text.
    /// Errors, in this order: `Waiting` if splices of an earlier step are left; why the terminal has stopped before; `Unfinished` if memory
    /// is short, and nothing has changed; why the terminal stops at this step.
    pub fn step(&mut self) -> Result<(TermStep, Option<u64>), Error> {
        let mut did = sam_did::default();
        done(unsafe { sys::sam_overlay_step(self.at(), &mut did) })?;
        Ok((term_step(&did), (did.request != 0).then_some(did.request)))
    }

    /// Tests whether the host's stream may end here, as `finish` of a terminal does, with its errors. It changes nothing.
    pub fn finish(&self) -> Result<(), Error> {
        done(unsafe { sys::sam_overlay_finish(self.at()) })
    }

    /// Returns the number of pending bytes, which are for the host.
    pub fn pending(&self) -> usize {
        tells(|len| unsafe { sys::sam_overlay_pending(self.at(), len) })
    }

    /// Takes the pending bytes, in pieces.
    pub fn take_out(&mut self) -> impl Iterator<Item = Vec<u8>> + '_ {
        std::iter::from_fn(|| {
            let mut piece = vec![0; PIECE.min(self.pending())];
            let mut count = 0;
            unsafe { sys::sam_overlay_take_out(self.at(), piece.as_mut_ptr(), piece.len(), &mut count) };
            piece.truncate(count);
            (count > 0).then_some(piece)
        })
    }

    /// Returns the oldest refused event that was not handed out yet: its number, counted from 1 over all events that were taken and all
    /// edits that were put, and the reason; `None` if there is none. A reason that this crate doesn't know is `Err`, with its number in
    /// sulgrevad.h.
    pub fn next_refusal(&mut self) -> Option<(u64, Result<Refusal, u32>)> {
        let mut why = 0;
        let event = told(|event| unsafe { sys::sam_overlay_next_refusal(self.at(), event, &mut why) })?;
        Some((event, Refusal::of(why).ok_or(why)))
    }
}
