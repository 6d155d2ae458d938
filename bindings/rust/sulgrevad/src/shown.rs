//! What an overlay and a client share: the shown texts, how they change, and what is asked for beside edits.

use crate::handle::Held;
use crate::terminal::shown;
use crate::{done, part_of_text, short_text, tells, told, whole_text};
use crate::{Client, Dropped, Error, Event, FileState, Overlay, Splice, TermState};
use sulgrevad_sys::{self as sys, sam_client, sam_event, sam_file, sam_overlay, sam_splice, sam_state, sam_status};

/// A call that hands out one value.
type Tells<H, T> = unsafe extern "C" fn(*mut H, *mut T) -> sam_status;
/// A call that hands out one value of a file.
type TellsOf<H, T> = unsafe extern "C" fn(*mut H, u16, *mut T) -> sam_status;

/// The calls of the library that overlay and client have by the same names.
pub struct Calls<H> {
    replace: unsafe extern "C" fn(*mut H, u16, u32, u32, *const u8, usize) -> sam_status,
    ask: unsafe extern "C" fn(*mut H, *const sam_event, *const u8, usize, *mut u64) -> sam_status,
    requests: Tells<H, usize>,
    drop_next: unsafe extern "C" fn(*mut H, u16, *mut sam_splice, *mut u8, usize, *mut usize) -> sam_status,
    next_splice: Tells<H, sam_splice>,
    fault_place: Tells<H, u64>,
    state: Tells<H, sam_state>,
    file: TellsOf<H, sam_file>,
    name: unsafe extern "C" fn(*mut H, u16, *mut u8, usize, *mut usize) -> sam_status,
    current: Tells<H, u16>,
    pattern: unsafe extern "C" fn(*mut H, *mut u8, usize, *mut usize) -> sam_status,
    snarfed: unsafe extern "C" fn(*mut H, u32, *mut u8, usize, *mut usize, *mut u32) -> sam_status,
    waiting: TellsOf<H, u32>,
    next_waiting: TellsOf<H, u16>,
    first_gap: unsafe extern "C" fn(*mut H, u16, u32, *mut u32) -> sam_status,
    len: TellsOf<H, u32>,
    read: unsafe extern "C" fn(*mut H, u16, u32, *mut u32, usize, *mut u32) -> sam_status,
    text: unsafe extern "C" fn(*mut H, u16, u32, *mut u8, usize, *mut usize, *mut u32) -> sam_status,
}

/// What has such calls. No other crate can name it, so none implements [`Shown`].
pub trait Called {
    type Raw;
    const CALLS: Calls<Self::Raw>;

    fn held(&self) -> &Held<Self::Raw>;
}

impl Called for Overlay {
    type Raw = sam_overlay;
    const CALLS: Calls<sam_overlay> = Calls {
        replace: sys::sam_overlay_replace,
        ask: sys::sam_overlay_ask,
        requests: sys::sam_overlay_requests,
        drop_next: sys::sam_overlay_drop_next,
        next_splice: sys::sam_overlay_next_splice,
        fault_place: sys::sam_overlay_fault_place,
        state: sys::sam_overlay_state,
        file: sys::sam_overlay_file,
        name: sys::sam_overlay_name,
        current: sys::sam_overlay_current,
        pattern: sys::sam_overlay_pattern,
        snarfed: sys::sam_overlay_snarfed,
        waiting: sys::sam_overlay_waiting,
        next_waiting: sys::sam_overlay_next_waiting,
        first_gap: sys::sam_overlay_first_gap,
        len: sys::sam_overlay_len,
        read: sys::sam_overlay_read,
        text: sys::sam_overlay_text,
    };

    fn held(&self) -> &Held<sam_overlay> {
        &self.handle
    }
}

impl Called for Client {
    type Raw = sam_client;
    const CALLS: Calls<sam_client> = Calls {
        replace: sys::sam_client_replace,
        ask: sys::sam_client_ask,
        requests: sys::sam_client_requests,
        drop_next: sys::sam_client_drop_next,
        next_splice: sys::sam_client_next_splice,
        fault_place: sys::sam_client_fault_place,
        state: sys::sam_client_state,
        file: sys::sam_client_file,
        name: sys::sam_client_name,
        current: sys::sam_client_current,
        pattern: sys::sam_client_pattern,
        snarfed: sys::sam_client_snarfed,
        waiting: sys::sam_client_waiting,
        next_waiting: sys::sam_client_next_waiting,
        first_gap: sys::sam_client_first_gap,
        len: sys::sam_client_len,
        read: sys::sam_client_read,
        text: sys::sam_client_text,
    };

    fn held(&self) -> &Held<sam_client> {
        &self.handle
    }
}

/// What an [`Overlay`] and a [`Client`] share: the shown texts, how they change, and what is asked for beside edits. It is implemented for
/// these two alone.
///
/// Places count runes and gaps of the shown text. An editor that takes each splice before it tells of an edit has the shown text as its
/// own, and its places are always right. A replacement makes no splice.
///
/// ```
/// use sulgrevad::{Overlay, Shown};
///
/// /// Returns the first line of a file as it is shown, as far as it is loaded.
/// fn first_line(shown: &impl Shown, file: u16) -> Option<String> {
///     shown.text(file, 0)?.lines().next().map(str::to_owned)
/// }
///
/// assert_eq!(first_line(&Overlay::new()?, 1), None); // no file is open
/// # Ok::<(), sulgrevad::Error>(())
/// ```
pub trait Shown: Called {
    /// Replaces the shown runes from the place `start` to the place `end` by a text of any length, all or nothing. The new runes stand
    /// behind what is shown before `start`. They are shown at once, whatever is locked, and wait for `put_next` of an overlay, or go to the
    /// host as a client goes on; no request that was asked for before finds them. Errors, in this order, and all is then as it was:
    /// `NoMemory`; `Waiting` if splices are left; `Edit(Exited)` if a request waits that ends the session; `Edit(NotOpen)` if one waits
    /// that closes the file; `Edit(Exited)` if the session is over; why the terminal has stopped before (`Stream`, `TermRefused`); `Edit`
    /// with `NoFile`, `CommandFile` for tag 0, `NotOpen`, `BadPosition` for a range that the shown text doesn't have, `TooLong` if these
    /// runes, the terminal's text and all that waits over it are more than 1,000,000; `NoMemory`, also while an edit of the file was put
    /// that has not acted.
    fn replace(&mut self, tag: u16, start: u32, end: u32, text: &str) -> Result<(), Error> {
        done(unsafe { (Self::CALLS.replace)(self.held().at(), tag, start, end, text.as_ptr(), text.len()) })
    }

    /// Asks for what is no edit. It stands in one order with the edits: it acts as a client goes on, or by `act_next` of an overlay, once
    /// all edits before it are put, and finds the text that is shown now, with the host's changes since. A place that it names moves with
    /// that text: what the host puts in at the place itself stands behind it, and a range of which all goes is empty there; a place past
    /// the end of the text stays. Returns the number of the request, by which `next_event` of a client or `step` of an overlay tells once
    /// that it acted or was refused; or a client that it lapsed, where the session is over. A write that would find the same text as one
    /// that waits is that one, and has its number. Errors, in this order, and all is then as it was: `NoMemory`, if it brings a text;
    /// `CountFull` after 2^64-1 requests; `Waiting` while an edit was put that has not acted: go on, or make a step, first; `TooMany` if
    /// 1,000 requests wait; `CountFull`; `NoMemory`.
    fn ask(&mut self, event: Event<'_>) -> Result<u64, Error> {
        let (text, mut number) = (event.text(), 0);
        done(unsafe { (Self::CALLS.ask)(self.held().at(), &event.numbers(), text.as_ptr(), text.len(), &mut number) })?;
        Ok(number)
    }

    /// Returns the number of requests that wait, those not among them that the terminal has.
    fn requests(&self) -> usize {
        tells(|count| unsafe { (Self::CALLS.requests)(self.held().at(), count) })
    }

    /// Takes back the next insertion that waits over a file, if an edit could act at once and the file has no room for this one, because
    /// the host put more in meanwhile: that is where `put_next` of an overlay returns `Edit(TooLong)`. Returns it; `None` if nothing is to
    /// be taken back. Errors, in this order, and all is then as it was: `Waiting` if splices are left; `NoMemory`.
    fn drop_next(&mut self, tag: u16) -> Result<Option<Dropped>, Error> {
        Dropped::taken(self.waiting(tag), |splice, into, len| unsafe {
            (Self::CALLS.drop_next)(self.held().at(), tag, splice, into.as_mut_ptr(), into.len(), len)
        })
    }

    /// Returns the next change of the shown text by the last step; `None` if none is left.
    fn next_splice(&mut self) -> Option<Splice> {
        told(|splice| unsafe { (Self::CALLS.next_splice)(self.held().at(), splice) }).map(Splice::of)
    }

    /// Returns the changes of `next_splice`, up to the last.
    fn splices(&mut self) -> Splices<'_, Self> {
        Splices(self)
    }

    /// Returns the number of bytes of the host's stream before the frame that is wrong, if the terminal has stopped by `Stream`; `None` if
    /// it goes on, or has stopped because of a refusal.
    fn fault_place(&self) -> Option<u64> {
        told(|place| unsafe { (Self::CALLS.fault_place)(self.held().at(), place) })
    }

    /// Returns the state of the terminal by one call.
    fn state(&self) -> TermState {
        TermState::of(&tells(|value| unsafe { (Self::CALLS.state)(self.held().at(), value) }))
    }

    /// Returns the state of a file by one call. A tag without a file is no error. Length, dot and view are those of the terminal's text.
    fn file(&self, tag: u16) -> FileState {
        FileState::of(&tells(|value| unsafe { (Self::CALLS.file)(self.held().at(), tag, value) }))
    }

    /// Returns the name of a known file; `None` if the tag is not known.
    fn name(&self, tag: u16) -> Option<String> {
        short_text(|into, len| unsafe { (Self::CALLS.name)(self.held().at(), tag, into.as_mut_ptr(), into.len(), len) })
    }

    /// Returns the tag of the file that the host's answer to `Work` or `NewFile` named last; `None` before the first. The file may be
    /// closed since.
    fn current(&self) -> Option<u16> {
        told(|value| unsafe { (Self::CALLS.current)(self.held().at(), value) })
    }

    /// Returns the pattern that the host reported last.
    fn pattern(&self) -> String {
        short_text(|into, len| unsafe { (Self::CALLS.pattern)(self.held().at(), into.as_mut_ptr(), into.len(), len) })
            .expect("the handle is made")
    }

    /// Returns the snarfed text that the host sent last (`GetSnarf`). It may be only the front of the host's buffer, because at most 4,096
    /// bytes come, or 32,000 in version 2.
    fn snarfed(&self) -> String {
        whole_text(|place, into, bytes, runes| unsafe {
            (Self::CALLS.snarfed)(self.held().at(), place, into.as_mut_ptr(), into.len(), bytes, runes)
        })
        .expect("the handle is made")
    }

    /// Returns the number of runes that wait over a file, those that a later edit takes out among them. It is 0 if the file is not open, or
    /// if only what takes runes out waits.
    fn waiting(&self, tag: u16) -> u32 {
        tells(|value| unsafe { (Self::CALLS.waiting)(self.held().at(), tag, value) })
    }

    /// Returns the first file from the tag `from` on over which an edit waits, also one that only takes runes out; `None` if there is none.
    fn next_waiting(&self, from: u16) -> Option<u16> {
        told(|tag| unsafe { (Self::CALLS.next_waiting)(self.held().at(), from, tag) })
    }

    /// Returns the first place of the shown text of a file, at or after `place`, whose rune is not loaded; `None` if the file is not open,
    /// or if all are loaded from there on.
    fn first_gap(&self, tag: u16, place: u32) -> Option<u32> {
        told(|gap| unsafe { (Self::CALLS.first_gap)(self.held().at(), tag, place, gap) })
    }

    /// Returns the length of the shown text of an open file in runes, gaps counted; `None` if the file is not open.
    fn len(&self, tag: u16) -> Option<u32> {
        told(|value| unsafe { (Self::CALLS.len)(self.held().at(), tag, value) })
    }

    /// Returns the shown runes of an open file from the place `place` on, at most `most`: in it `None` for each that is not loaded. Returns
    /// `None` if the file is not open.
    fn read(&self, tag: u16, place: u32, most: usize) -> Option<Vec<Option<char>>> {
        let most = most.min(self.len(tag)?.saturating_sub(place) as usize);
        let mut runes = vec![0; most];
        let count: u32 = told(|count| unsafe { (Self::CALLS.read)(self.held().at(), tag, place, runes.as_mut_ptr(), most, count) })?;
        runes.truncate(count as usize);
        Some(shown(runes))
    }

    /// Returns the shown text of an open file from the place `place` on, up to the first rune that is not loaded; `None` if the file is not
    /// open.
    fn text(&self, tag: u16, place: u32) -> Option<String> {
        part_of_text(place, u32::MAX, |place, into, bytes, runes| unsafe {
            (Self::CALLS.text)(self.held().at(), tag, place, into.as_mut_ptr(), into.len(), bytes, runes)
        })
    }
}

impl Shown for Overlay {}
impl Shown for Client {}

/// The changes of the shown text by the last step, which [`Shown::splices`] returns.
#[derive(Debug)]
pub struct Splices<'a, S: ?Sized>(&'a mut S);

impl<S: Shown + ?Sized> Iterator for Splices<'_, S> {
    type Item = Splice;

    fn next(&mut self) -> Option<Splice> {
        self.0.next_splice()
    }
}
