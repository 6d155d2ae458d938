//! The terminal: windows, keyboard and mouse over partly loaded texts.

use crate::handle::Held;
use crate::step::{next_frame, term_step};
use crate::{done, part_of_text, short_text, tells, told, whole_text, Error, NextFrame, Refusal, TermStep, PIECE};
use sulgrevad_sys::{self as sys, sam_did, sam_file, sam_state, sam_term};

/// The number by which `read` of the library stands for a rune that is not loaded.
const GAP: u32 = sys::SAM_GAP;

/// A change of a text: from the place `start` on, `gone` runes or gaps of the old text gave way to `came` of the new one.
#[derive(Clone, Copy, Debug, PartialEq, Eq)]
pub struct Change {
    /// The place, which is the same in both texts.
    pub start: u32,
    /// The number of runes or gaps that went.
    pub gone: u32,
    /// The number of runes or gaps that came.
    pub came: u32,
}

/// The state of a terminal. Each field is the result of the reader of its name.
#[derive(Clone, Copy, Debug, PartialEq, Eq)]
pub struct TermState {
    /// The number of events that were taken.
    pub events: u64,
    /// The number of events that have acted or were refused.
    pub decided: u64,
    /// The number of held events.
    pub held: u64,
    /// The number of messages that were composed.
    pub sent: u64,
    /// The number of messages in flight, as [`Terminal::under_way`] counts them.
    pub under_way: u64,
    /// The number of pending bytes.
    pub pending: usize,
    /// The number of tags that there is room for.
    pub tags: usize,
    /// The number of typed runes that are not sent yet.
    pub unsent: u32,
    /// The length of the host's snarf buffer in runes, as the host said last.
    pub snarf_len: u32,
    /// The version of the protocol that both sides speak: 1 or 2.
    pub version: u16,
    /// Whether the command lock is held.
    pub command_locked: bool,
    /// Whether the host has ended the session.
    pub exited: bool,
}

impl TermState {
    pub(crate) fn of(state: &sam_state) -> TermState {
        TermState {
            events: state.events,
            decided: state.decided,
            held: state.held,
            sent: state.sent,
            under_way: state.under_way,
            pending: state.pending,
            tags: state.tags,
            unsent: state.unsent,
            snarf_len: state.snarf_len,
            version: state.version,
            command_locked: state.command_locked,
            exited: state.exited,
        }
    }
}

/// The state of a terminal's file. Each field is the result of its reader. If there is no such file, or it is not open, the fields that
/// need it are 0 or `false`.
#[derive(Clone, Copy, Debug, PartialEq, Eq)]
pub struct FileState {
    /// Whether the terminal knows it.
    pub is_known: bool,
    /// Whether it is open.
    pub is_open: bool,
    /// Whether it is dirty, as the host said last.
    pub is_dirty: bool,
    /// Whether it may differ from the text that was written last.
    pub is_changed: bool,
    /// Whether the command lock or a lock of the file is held.
    pub is_locked: bool,
    /// Whether an edit would act at once: the file is open and not locked, no frame waits, no event is held, not even one of another file,
    /// and the session goes on.
    pub is_free: bool,
    /// The length of its text in runes, gaps counted.
    pub len: u32,
    /// The places where its selection begins and ends.
    pub dot: (u32, u32),
    /// The places where its view begins and ends.
    pub view: (u32, u32),
}

impl FileState {
    pub(crate) fn of(file: &sam_file) -> FileState {
        FileState {
            is_known: file.is_known,
            is_open: file.is_open,
            is_dirty: file.is_dirty,
            is_changed: file.is_changed,
            is_locked: file.is_locked,
            is_free: file.is_free,
            len: file.len,
            dot: (file.dot_start, file.dot_end),
            view: (file.view_start, file.view_end),
        }
    }
}

/// Returns the runes that the library handed out as numbers: `None` for each that is not loaded.
pub(crate) fn shown(runes: Vec<u32>) -> Vec<Option<char>> {
    let shown = |rune| if rune == GAP { None } else { char::from_u32(rune) };
    runes.into_iter().map(shown).collect()
}

/// A terminal. It is dropped with its pending bytes. A thread may hand it to another, but two can't share it:
///
/// ```
/// fn goes<T: Send>() {}
/// goes::<sulgrevad::Terminal>();
/// ```
///
/// ```compile_fail,E0277
/// fn is_shared<T: Sync>() {}
/// is_shared::<sulgrevad::Terminal>();
/// ```
///
/// An event of the user acts at once if it can. Else it is held until the locks that it waits for are free and the events before it have
/// acted. Each call also lets held events act. The messages that this composes are then pending. Errors of each event, in this order, and
/// the event is then not taken: `NoMemory`, if it brings a text; why the terminal has stopped before (`Stream`, `TermRefused`); `NoMemory`,
/// or why the terminal stops, as it goes on with earlier input; `CountFull`; `NoMemory`. Two come after the event was taken: `Unfinished`,
/// and why the terminal stops at an event.
///
/// An event that was taken may be refused, at once or later: that is no error, the event does nothing, and `refusals` reports its number
/// and the reason. The reasons of all events come first, in this order: `Exited` if the session is over; and of an event that names a file
/// `NoFile` if the terminal doesn't know it, and `NotOpen` if it is not open.
#[derive(Debug)]
pub struct Terminal {
    handle: Held<sam_term>,
}

impl Terminal {
    /// Makes a terminal that knows no file. Its only error is `NoMemory`.
    pub fn new() -> Result<Terminal, Error> {
        let handle = Held::made(sam_term::INIT, sys::sam_term_free, |at| unsafe { sys::sam_term_new(at) })?;
        Ok(Terminal { handle })
    }

    fn at(&self) -> *mut sam_term {
        self.handle.at()
    }

    /// Types a text in the place of the selection, which is then empty and after the text. Refused, in this order: `Exited`; `NoFile`;
    /// `NotOpen`; `TextTooLong` for more than 512 runes; `TooLong` if the file would have more than 1,000,000.
    pub fn type_(&mut self, tag: u16, text: &str) -> Result<(), Error> {
        done(unsafe { sys::sam_term_type(self.at(), tag, text.as_ptr(), text.len()) })
    }

    /// Types a text of any length, in events of 512 runes each, but for the last. Hands out how many bytes of the text were taken, also
    /// beside an error: an event that isn't answered well is the last, and what was taken before stays. After `Unfinished` its own bytes
    /// count, too.
    pub fn type_text(&mut self, tag: u16, text: &str) -> (usize, Result<(), Error>) {
        let mut taken = 0;
        let status = unsafe { sys::sam_term_type_text(self.at(), tag, text.as_ptr(), text.len(), &mut taken) };
        (taken, done(status))
    }

    /// Replaces the runes from the place `start` to the place `end` by a text of any length, all or nothing. An empty text takes the runes
    /// out. The places are those of the file's text when the event acts. The dot moves as other places do. Refused, in this order:
    /// `Exited`; `NoFile`; `CommandFile` for tag 0; `NotOpen`; `BadPosition` for a range that the file's text doesn't have; `TooLong` if
    /// the file would have more than 1,000,000 runes.
    pub fn edit(&mut self, tag: u16, start: u32, end: u32, text: &str) -> Result<(), Error> {
        done(unsafe { sys::sam_term_edit(self.at(), tag, start, end, text.as_ptr(), text.len()) })
    }

    /// Gives the host another snarf buffer: at most 4,096 bytes, or 32,000 in version 2. Refused, in this order: `Exited`; `TextTooLong`
    /// for a longer text.
    pub fn set_snarf(&mut self, text: &str) -> Result<(), Error> {
        done(unsafe { sys::sam_term_set_snarf(self.at(), text.as_ptr(), text.len()) })
    }

    /// Cuts the selection into the snarf buffer. Nothing changes if the selection is empty.
    pub fn cut(&mut self, tag: u16) -> Result<(), Error> {
        done(unsafe { sys::sam_term_cut(self.at(), tag) })
    }

    /// Pastes the snarf buffer in the place of the selection, and selects it. If the buffer is empty, or the file would have more than
    /// 1,000,000 runes, the selection goes and nothing comes, and nothing is refused.
    pub fn paste(&mut self, tag: u16) -> Result<(), Error> {
        done(unsafe { sys::sam_term_paste(self.at(), tag) })
    }

    /// Copies the selection into the snarf buffer. Nothing changes if the selection is empty.
    pub fn snarf(&mut self, tag: u16) -> Result<(), Error> {
        done(unsafe { sys::sam_term_snarf(self.at(), tag) })
    }

    /// Selects the next occurrence of the selected text, which becomes the pattern. Nothing changes if the selection is empty or has more
    /// than 128 runes.
    pub fn look(&mut self, tag: u16) -> Result<(), Error> {
        done(unsafe { sys::sam_term_look(self.at(), tag) })
    }

    /// Selects the next occurrence of the pattern. Nothing changes if there is no pattern or no occurrence.
    pub fn search(&mut self, tag: u16) -> Result<(), Error> {
        done(unsafe { sys::sam_term_search(self.at(), tag) })
    }

    /// Prints the selected text in the command file, and runs its last line as a command line. Nothing changes if the selection is empty,
    /// or if the command file would have more than 1,000,000 runes.
    pub fn send(&mut self, tag: u16) -> Result<(), Error> {
        done(unsafe { sys::sam_term_send(self.at(), tag) })
    }

    /// Opens a file. Command lines work on it then. All other events of a file need it open. Refused, in this order: `Exited`; `NoFile`;
    /// `CommandFile` for tag 0.
    pub fn open(&mut self, tag: u16) -> Result<(), Error> {
        done(unsafe { sys::sam_term_open(self.at(), tag) })
    }

    /// Asks the host to write a file: the host keeps a copy of its text, and the file is then clean. Refused as `close` is.
    pub fn write(&mut self, tag: u16) -> Result<(), Error> {
        done(unsafe { sys::sam_term_write(self.at(), tag) })
    }

    /// Closes a file for good: the host drops its text, written or not. Refused, in this order: `Exited`; `NoFile`; `CommandFile` for tag
    /// 0; `NotOpen`.
    pub fn close(&mut self, tag: u16) -> Result<(), Error> {
        done(unsafe { sys::sam_term_close(self.at(), tag) })
    }

    /// Makes a file, with its dot, the one that command lines work on. Refused as `close` is.
    pub fn work(&mut self, tag: u16) -> Result<(), Error> {
        done(unsafe { sys::sam_term_work(self.at(), tag) })
    }

    /// Asks for the first gap that the view shows. The host answers, and no text changes.
    pub fn check(&mut self, tag: u16) -> Result<(), Error> {
        done(unsafe { sys::sam_term_check(self.at(), tag) })
    }

    /// Opens the command file.
    pub fn open_cmd(&mut self) -> Result<(), Error> {
        done(unsafe { sys::sam_term_open_cmd(self.at()) })
    }

    /// Makes an empty file, and opens it. Command lines work on it then. If all tags are given it makes none.
    pub fn new_file(&mut self) -> Result<(), Error> {
        done(unsafe { sys::sam_term_new_file(self.at()) })
    }

    /// Asks for the host's snarf buffer: `snarfed` returns it once the answer has come.
    pub fn get_snarf(&mut self) -> Result<(), Error> {
        done(unsafe { sys::sam_term_get_snarf(self.at()) })
    }

    /// Sends the typed runes, once the events before this one have acted.
    pub fn flush(&mut self) -> Result<(), Error> {
        done(unsafe { sys::sam_term_flush(self.at()) })
    }

    /// Ends the session.
    pub fn exit(&mut self) -> Result<(), Error> {
        done(unsafe { sys::sam_term_exit(self.at()) })
    }

    /// Selects the runes from the place `start` to the place `end`: they are the dot. Refused, after the reasons of all events:
    /// `BadPosition` for a range that the file's text doesn't have.
    pub fn select(&mut self, tag: u16, start: u32, end: u32) -> Result<(), Error> {
        done(unsafe { sys::sam_term_select(self.at(), tag, start, end) })
    }

    /// Selects the word round a place. Refused, after the reasons of all events: `BadPosition` if the place is after the end.
    pub fn dclick(&mut self, tag: u16, place: u32) -> Result<(), Error> {
        done(unsafe { sys::sam_term_dclick(self.at(), tag, place) })
    }

    /// Scrolls the view of the file up by `lines` lines.
    pub fn scroll(&mut self, tag: u16, lines: u32) -> Result<(), Error> {
        done(unsafe { sys::sam_term_scroll(self.at(), tag, lines) })
    }

    /// Shows at most `len` runes of the file from the place `place` on, and asks for those that are not loaded: for at most 512 at a time,
    /// and then for the next. Refused, after the reasons of all events: `BadPosition` if the place is after the end.
    pub fn view(&mut self, tag: u16, place: u32, len: u32) -> Result<(), Error> {
        done(unsafe { sys::sam_term_view(self.at(), tag, place, len) })
    }

    /// Shows the same runes as `view`, and asks at once for all that are not loaded, in at most 1,954 stretches of 512 runes. So a page
    /// comes in one round trip. Refused as `view` is.
    pub fn load(&mut self, tag: u16, place: u32, len: u32) -> Result<(), Error> {
        done(unsafe { sys::sam_term_load(self.at(), tag, place, len) })
    }

    /// Offers a version of the protocol, and asks for the names of all files. Before it the terminal knows none of them, and refuses each
    /// event on one. Events after it wait for the answer. Offer the version again to learn of files that joined the host since. Version 2
    /// allows longer snarfed texts. Refused, in this order: `Exited`; `BadVersion` for version 0.
    pub fn offer_version(&mut self, version: u16) -> Result<(), Error> {
        done(unsafe { sys::sam_term_offer_version(self.at(), version) })
    }

    /// Takes bytes of the host's frames, in pieces of any length. The terminal receives each frame that is whole, and then held events act.
    /// Errors, in this order, and the bytes are then not taken: why the terminal has stopped before (`Stream`, `TermRefused`); `NoMemory`,
    /// or why the terminal stops, as it goes on with earlier input; `CountFull`; `NoMemory`. Two come after the bytes were taken:
    /// `Unfinished`, and why the terminal stops at a frame of these bytes or at an event.
    pub fn feed(&mut self, bytes: &[u8]) -> Result<(), Error> {
        done(unsafe { sys::sam_term_feed(self.at(), bytes.as_ptr(), bytes.len()) })
    }

    /// Takes bytes of the host's frames as `feed` does, but receives none: the frames that are whole wait for `step`. Errors, in this
    /// order, and the bytes are then not taken: why the terminal has stopped before; `Waiting` until a step was `Idle` or `Locked`;
    /// `CountFull`; `NoMemory`.
    pub fn bring(&mut self, bytes: &[u8]) -> Result<(), Error> {
        done(unsafe { sys::sam_term_bring(self.at(), bytes.as_ptr(), bytes.len()) })
    }

    /// Returns the oldest frame that waits, as the step that receives it will say it; `None` if no frame waits. So a program can read the
    /// runes that will go.
    pub fn next_frame(&self) -> Option<NextFrame> {
        told(|next| unsafe { sys::sam_term_next_frame(self.at(), next) }).map(|next| next_frame(&next))
    }

    /// Makes one step with the frames and events that wait, and returns its result. If messages that were composed last are left over, the
    /// step makes them pending. Else the terminal receives the oldest frame. If no frame waits, the oldest event acts or is refused. `feed`
    /// makes steps until one is `Idle` or `Locked`. Errors, in this order: why the terminal has stopped before; `Unfinished` if memory is
    /// short, and nothing has changed; why the terminal stops at this step.
    pub fn step(&mut self) -> Result<TermStep, Error> {
        let mut did = sam_did::default();
        done(unsafe { sys::sam_term_step(self.at(), &mut did) })?;
        Ok(term_step(&did))
    }

    /// Makes steps as long as the next frame edits a text, at most `most`, and returns their results: each is `Received`. All edits are of
    /// one file. None begins before the place `first`, and none ends after the place where the one before it began. So a program can read
    /// the runes that go before the call, and the runes that came after it. If no edit was received its errors are those of `step`; else
    /// the next step has them.
    pub fn step_edits(&mut self, first: u32, most: usize) -> Result<Vec<TermStep>, Error> {
        let (mut did, mut got) = (vec![sam_did::default(); most], 0);
        let made = done(unsafe { sys::sam_term_step_edits(self.at(), first, did.as_mut_ptr(), most, &mut got) });
        if got == 0 {
            made?;
        }
        Ok(did[..got].iter().map(term_step).collect())
    }

    /// Tests whether the host's stream may end here. Call it once the terminal's input has ended. It changes nothing. Errors, in this
    /// order: why the terminal has stopped before; `Unfinished` if some input, or a message that was composed, still waits for memory;
    /// `Stream(Truncated)` if the stream ends inside a frame.
    pub fn finish(&self) -> Result<(), Error> {
        done(unsafe { sys::sam_term_finish(self.at()) })
    }

    /// Returns the number of bytes of the host's stream before the frame that is wrong, if the terminal has stopped by `Stream`; `None` if
    /// it goes on, or has stopped because of a refusal.
    pub fn fault_place(&self) -> Option<u64> {
        told(|place| unsafe { sys::sam_term_fault_place(self.at(), place) })
    }

    /// Composes the typed runes that are not sent yet. Call it when the user pauses, before the program sleeps. Errors, in this order: why
    /// the terminal has stopped before; `NoMemory`, or why the terminal stops, as it goes on with earlier input; `TermRefused(CountFull)`
    /// after 2^64-1 messages, and then `NoMemory`: the runes are as they were. Two come after the runes were composed: `Unfinished`, and
    /// why the terminal stops at an event.
    pub fn flush_now(&mut self) -> Result<(), Error> {
        done(unsafe { sys::sam_term_flush_now(self.at()) })
    }

    /// Returns the number of pending bytes, which are for the host.
    pub fn pending(&self) -> usize {
        tells(|len| unsafe { sys::sam_term_pending(self.at(), len) })
    }

    /// Takes the pending bytes, in pieces.
    pub fn take_out(&mut self) -> impl Iterator<Item = Vec<u8>> + '_ {
        std::iter::from_fn(|| {
            let mut piece = vec![0; PIECE.min(self.pending())];
            let mut count = 0;
            unsafe { sys::sam_term_take_out(self.at(), piece.as_mut_ptr(), piece.len(), &mut count) };
            piece.truncate(count);
            (count > 0).then_some(piece)
        })
    }

    /// Returns the oldest refused event that was not handed out yet: its number, counted from 1 over all events, and the reason; `None` if
    /// there is none. A reason that this crate doesn't know is `Err`, with its number in sulgrevad.h.
    pub fn next_refusal(&mut self) -> Option<(u64, Result<Refusal, u32>)> {
        let mut why = 0;
        let event = told(|event| unsafe { sys::sam_term_next_refusal(self.at(), event, &mut why) })?;
        Some((event, Refusal::of(why).ok_or(why)))
    }

    /// Returns the refused events of `next_refusal`, up to the last.
    pub fn refusals(&mut self) -> impl Iterator<Item = (u64, Result<Refusal, u32>)> + '_ {
        std::iter::from_fn(|| self.next_refusal())
    }

    /// Returns the runes of an open file from the place `place` on, at most `most`: in it `None` for each that is not loaded. Returns
    /// `None` if the file is not open.
    pub fn read(&self, tag: u16, place: u32, most: usize) -> Option<Vec<Option<char>>> {
        let most = most.min(self.len(tag)?.saturating_sub(place) as usize);
        let mut runes = vec![0; most];
        let count: u32 = told(|count| unsafe { sys::sam_term_read(self.at(), tag, place, runes.as_mut_ptr(), most, count) })?;
        runes.truncate(count as usize);
        Some(shown(runes))
    }

    /// Returns the change of an open file's text since the last call for this file: the smallest stretch that holds all that each frame and
    /// each event touched, loading included. On the first call its text was empty before. Returns `None` if the file is not open. The only
    /// error is `NoMemory`, on the first call for a file alone.
    pub fn changed(&mut self, tag: u16) -> Result<Option<Change>, Error> {
        let (mut start, mut gone, mut came) = (0, 0, 0);
        match unsafe { sys::sam_term_changed(self.at(), tag, &mut start, &mut gone, &mut came) } {
            sys::SAM_NONE => Ok(None),
            status => done(status).map(|()| Some(Change { start, gone, came })),
        }
    }

    /// Returns the state of the terminal by one call.
    pub fn state(&self) -> TermState {
        TermState::of(&tells(|value| unsafe { sys::sam_term_state(self.at(), value) }))
    }

    /// Returns the state of a file by one call. A tag without a file is no error.
    pub fn file(&self, tag: u16) -> FileState {
        FileState::of(&tells(|value| unsafe { sys::sam_term_file(self.at(), tag, value) }))
    }

    /// Returns the number of events that were taken. Right after one was, it is the number of that event, by which a refusal names it.
    pub fn events(&self) -> u64 {
        tells(|value| unsafe { sys::sam_term_events(self.at(), value) })
    }

    /// Returns the number of events that have acted or were refused. Events are done in order, so the event that was made last is held if
    /// this is below `events`.
    pub fn decided(&self) -> u64 {
        tells(|value| unsafe { sys::sam_term_decided(self.at(), value) })
    }

    /// Returns the number of tags that the terminal has room for: each file that it knows has a tag below this.
    pub fn tags(&self) -> usize {
        tells(|value| unsafe { sys::sam_term_tags(self.at(), value) })
    }

    /// Returns whether the terminal knows a file of this tag.
    pub fn is_known(&self, tag: u16) -> bool {
        tells(|value| unsafe { sys::sam_term_is_known(self.at(), tag, value) })
    }

    /// Returns whether a file is open.
    pub fn is_open(&self, tag: u16) -> bool {
        tells(|value| unsafe { sys::sam_term_is_open(self.at(), tag, value) })
    }

    /// Returns whether a file may differ from the text that was written last: the host said that it is dirty, or the user changed it here
    /// since. A held event has changed nothing yet. It is false if the tag is not known.
    pub fn is_changed(&self, tag: u16) -> bool {
        tells(|value| unsafe { sys::sam_term_is_changed(self.at(), tag, value) })
    }

    /// Returns whether the command lock or a lock of this file is held: an edit of the file would wait.
    pub fn locked(&self, tag: u16) -> bool {
        tells(|value| unsafe { sys::sam_term_locked(self.at(), tag, value) })
    }

    /// Returns whether the command lock is held.
    pub fn command_locked(&self) -> bool {
        tells(|value| unsafe { sys::sam_term_command_locked(self.at(), value) })
    }

    /// Returns the number of held events.
    pub fn held(&self) -> u64 {
        tells(|value| unsafe { sys::sam_term_held(self.at(), value) })
    }

    /// Returns the number of typed runes that are not sent yet.
    pub fn unsent(&self) -> u32 {
        tells(|value| unsafe { sys::sam_term_unsent(self.at(), value) })
    }

    /// Returns the number of messages that were composed.
    pub fn sent(&self) -> u64 {
        tells(|value| unsafe { sys::sam_term_sent(self.at(), value) })
    }

    /// Returns the number of messages in flight: those that were composed and that the host has not taken, as far as its frames say. 0
    /// means that it has taken them all.
    ///
    /// Any other number is an upper bound, because the host sends no frame for some messages: for typing (but for the end of a command
    /// line), for the cutting of a selection, and for the acknowledgement that the terminal sends after each [`Terminal::offer_version`].
    /// They count until the host answers a later message. [`Terminal::check`] asks for an answer that changes no text.
    pub fn under_way(&self) -> u64 {
        tells(|value| unsafe { sys::sam_term_under_way(self.at(), value) })
    }

    /// Returns the length of the host's snarf buffer in runes, as the host said last.
    pub fn snarf_len(&self) -> u32 {
        tells(|value| unsafe { sys::sam_term_snarf_len(self.at(), value) })
    }

    /// Returns whether the host has ended the session.
    pub fn exited(&self) -> bool {
        tells(|value| unsafe { sys::sam_term_exited(self.at(), value) })
    }

    /// Returns the version of the protocol that both sides speak: 1 or 2.
    pub fn version(&self) -> u16 {
        tells(|value| unsafe { sys::sam_term_version(self.at(), value) })
    }

    /// Returns whether a known file is dirty, as the host said last; `None` if the tag is not known.
    pub fn is_dirty(&self, tag: u16) -> Option<bool> {
        told(|value| unsafe { sys::sam_term_is_dirty(self.at(), tag, value) })
    }

    /// Returns the tag of the file that the host's answer to `work` or `new_file` named last; `None` before the first. The file may be
    /// closed since. `open` doesn't change it.
    pub fn current(&self) -> Option<u16> {
        told(|value| unsafe { sys::sam_term_current(self.at(), value) })
    }

    /// Returns the length of an open file in runes, gaps counted; `None` if the file is not open.
    pub fn len(&self, tag: u16) -> Option<u32> {
        told(|value| unsafe { sys::sam_term_len(self.at(), tag, value) })
    }

    /// Returns the first place of an open file, at or after `place`, whose rune is not loaded; `None` if there is none, or if the file is
    /// not open.
    pub fn first_gap(&self, tag: u16, place: u32) -> Option<u32> {
        told(|gap| unsafe { sys::sam_term_first_gap(self.at(), tag, place, gap) })
    }

    /// Returns the text of an open file from the place `place` on, up to the first rune that is not loaded; `None` if the file is not open.
    pub fn text(&self, tag: u16, place: u32) -> Option<String> {
        self.text_part(tag, place, u32::MAX)
    }

    /// Returns the same text, at most `most` runes.
    pub fn text_part(&self, tag: u16, place: u32, most: u32) -> Option<String> {
        part_of_text(place, most, |place, into, bytes, runes| unsafe {
            sys::sam_term_text(self.at(), tag, place, into.as_mut_ptr(), into.len(), bytes, runes)
        })
    }

    /// Counts the bytes that the loaded runes of an open file take in UTF-8 from the place `start` to the place `end`, and the runes there
    /// that are not loaded; `None` if the file is not open.
    pub fn bytes(&self, tag: u16, start: u32, end: u32) -> Option<(usize, u32)> {
        let mut gaps = 0;
        told(|bytes| unsafe { sys::sam_term_bytes(self.at(), tag, start, end, bytes, &mut gaps) }).map(|bytes| (bytes, gaps))
    }

    /// Returns the place after the loaded runes of an open file that `bytes` bytes of UTF-8 hold whole, from the place `start` on. It is at
    /// the latest the first gap, or the end of the text. Returns `None` if the file is not open.
    pub fn place(&self, tag: u16, start: u32, bytes: usize) -> Option<u32> {
        told(|place| unsafe { sys::sam_term_place(self.at(), tag, start, bytes, place) })
    }

    /// Counts the code units that the loaded runes of an open file take in UTF-16 from the place `start` to the place `end`, and the runes
    /// there that are not loaded; `None` if the file is not open.
    pub fn units(&self, tag: u16, start: u32, end: u32) -> Option<(u32, u32)> {
        let mut gaps = 0;
        told(|units| unsafe { sys::sam_term_units(self.at(), tag, start, end, units, &mut gaps) }).map(|units| (units, gaps))
    }

    /// Returns the place after the loaded runes of an open file that `units` code units of UTF-16 hold whole, from the place `start` on. It
    /// is at the latest the first gap, or the end of the text. Returns `None` if the file is not open.
    pub fn unit_place(&self, tag: u16, start: u32, units: u32) -> Option<u32> {
        told(|place| unsafe { sys::sam_term_unit_place(self.at(), tag, start, units, place) })
    }

    /// Returns the place after the next `lines` line ends of an open file, from the place `start` on; `None` if the file is not open, or if
    /// a gap or the end of the text comes before.
    pub fn line(&self, tag: u16, start: u32, lines: u32) -> Option<u32> {
        told(|place| unsafe { sys::sam_term_line(self.at(), tag, start, lines, place) })
    }

    /// Returns the place where a line of an open file begins: the line that is `lines` lines before the line of the place `start`, or that
    /// line itself for 0. Returns `None` if the file is not open, if a gap comes first, if there are fewer lines, or if the place is after
    /// the end.
    pub fn line_before(&self, tag: u16, start: u32, lines: u32) -> Option<u32> {
        told(|place| unsafe { sys::sam_term_line_before(self.at(), tag, start, lines, place) })
    }

    /// Counts the line ends among the loaded runes of an open file from the place `start` to the place `end`, and the runes there that are
    /// not loaded; `None` if the file is not open.
    pub fn lines(&self, tag: u16, start: u32, end: u32) -> Option<(u32, u32)> {
        let mut gaps = 0;
        told(|lines| unsafe { sys::sam_term_lines(self.at(), tag, start, end, lines, &mut gaps) }).map(|lines| (lines, gaps))
    }

    /// Returns the dot of an open file: the places where its selection begins and ends; `None` if the file is not open.
    pub fn dot(&self, tag: u16) -> Option<(u32, u32)> {
        let mut end = 0;
        told(|start| unsafe { sys::sam_term_dot(self.at(), tag, start, &mut end) }).map(|start| (start, end))
    }

    /// Returns the view of an open file: the places where it begins and ends; `None` if the file is not open.
    pub fn view_of(&self, tag: u16) -> Option<(u32, u32)> {
        let mut end = 0;
        told(|start| unsafe { sys::sam_term_view_of(self.at(), tag, start, &mut end) }).map(|start| (start, end))
    }

    /// Returns the name of a known file; `None` if the tag is not known.
    pub fn name(&self, tag: u16) -> Option<String> {
        short_text(|into, len| unsafe { sys::sam_term_name(self.at(), tag, into.as_mut_ptr(), into.len(), len) })
    }

    /// Returns the pattern that the host reported last.
    pub fn pattern(&self) -> String {
        short_text(|into, len| unsafe { sys::sam_term_pattern(self.at(), into.as_mut_ptr(), into.len(), len) }).expect("the handle is made")
    }

    /// Returns the snarfed text that the host sent last (`get_snarf`). It may be only the front of the host's buffer, because at most 4,096
    /// bytes come, or 32,000 in version 2.
    pub fn snarfed(&self) -> String {
        whole_text(|place, into, bytes, runes| unsafe {
            sys::sam_term_snarfed(self.at(), place, into.as_mut_ptr(), into.len(), bytes, runes)
        })
        .expect("the handle is made")
    }
}
