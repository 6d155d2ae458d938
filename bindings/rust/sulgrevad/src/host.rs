//! The host: whole texts, commands, and the answers to a terminal's messages.

use crate::handle::Held;
use crate::step::host_step;
use crate::{done, part_of_text, short_text, tells, told, whole_text, Error, HostStep, PIECE};
use sulgrevad_sys::{self as sys, sam_did, sam_host};

/// A host. It is dropped with its pending bytes. A thread may hand it to another, but two can't share it:
///
/// ```
/// fn goes<T: Send>() {}
/// goes::<sulgrevad::Host>();
/// ```
///
/// ```compile_fail,E0277
/// fn is_shared<T: Sync>() {}
/// is_shared::<sulgrevad::Host>();
/// ```
#[derive(Debug)]
pub struct Host {
    handle: Held<sam_host>,
}

impl Host {
    /// Makes a host with the command file alone (tag 0). Its only error is `NoMemory`.
    pub fn new() -> Result<Host, Error> {
        let handle = Held::made(sam_host::INIT, sys::sam_host_free, |at| unsafe { sys::sam_host_new(at) })?;
        Ok(Host { handle })
    }

    fn at(&self) -> *mut sam_host {
        self.handle.at()
    }

    /// Adds a file, clean and closed, and returns its tag: 1 for the first, 2 for the next, and so on. A program may call it at any time:
    /// the answer to the terminal's next Tversion has the name. Errors, in this order: `TooLong` for a name of more than 64 runes or a text
    /// of more than 1,000,000; `NoTag`; `NoMemory`. The host is then as it was.
    pub fn add_file(&mut self, name: &str, text: &str) -> Result<u16, Error> {
        let mut tag = 0;
        done(unsafe { sys::sam_host_add_file(self.at(), name.as_ptr(), name.len(), text.as_ptr(), text.len(), &mut tag) })?;
        Ok(tag)
    }

    /// Takes bytes of the terminal's messages, in pieces of any length, and answers each message that is whole. The answers are then
    /// pending. Edits of one file that follow each other in one call move its text once; in several calls, each of them moves it. Errors,
    /// in this order, and the bytes are then not taken: why the host has stopped before (`Stream`, `HostRefused`); `NoMemory`, or why the
    /// host stops, as it answers messages that waited; `CountFull`; `NoMemory`. Two come after the bytes were taken: `Unfinished`, and why
    /// the host stops at a message of these bytes. It has then answered all messages before the fault.
    pub fn feed(&mut self, bytes: &[u8]) -> Result<(), Error> {
        done(unsafe { sys::sam_host_feed(self.at(), bytes.as_ptr(), bytes.len()) })
    }

    /// Takes bytes of the terminal's messages as `feed` does, but answers none: the messages that are whole wait for `step`. Errors, in
    /// this order, and the bytes are then not taken: why the host has stopped before; `Waiting` until a step was `Idle`; `CountFull`;
    /// `NoMemory`.
    pub fn bring(&mut self, bytes: &[u8]) -> Result<(), Error> {
        done(unsafe { sys::sam_host_bring(self.at(), bytes.as_ptr(), bytes.len()) })
    }

    /// Returns the kind of the oldest message that waits, by the numbers of docs/reference/PROTOCOL.md, and the tag of the file that it
    /// names, or 0; `None` if no message waits. The next step that takes a message begins with this one.
    pub fn next_message(&self) -> Option<(u8, u16)> {
        let mut tag = 0;
        told(|kind| unsafe { sys::sam_host_next_message(self.at(), kind, &mut tag) }).map(|kind| (kind, tag))
    }

    /// Makes one step with the messages that wait, and returns its result. If frames of the last answer are left over, the step makes them
    /// pending. Else the host takes edits of one file that follow each other, with the checks (Tcheck) among them; or, if no edit is next,
    /// it answers the oldest message. `feed` makes steps until one is `Idle`. Errors, in this order: why the host has stopped before;
    /// `Unfinished` if memory is short, and nothing has changed; why the host stops at this step.
    pub fn step(&mut self) -> Result<HostStep, Error> {
        let mut did = sam_did::default();
        done(unsafe { sys::sam_host_step(self.at(), &mut did) })?;
        Ok(host_step(&did))
    }

    /// Tests whether the terminal's stream may end here. Call it once the host's input has ended. It changes nothing. Errors, in this
    /// order: why the host has stopped before; `Unfinished` if some input still waits for memory; `Stream(Truncated)` if the stream ends
    /// inside a message.
    pub fn finish(&self) -> Result<(), Error> {
        done(unsafe { sys::sam_host_finish(self.at()) })
    }

    /// Returns the number of bytes of the terminal's stream before the message that is wrong, if the host has stopped by `Stream`; `None`
    /// if it goes on, or has stopped at a message that it refused.
    pub fn fault_place(&self) -> Option<u64> {
        told(|place| unsafe { sys::sam_host_fault_place(self.at(), place) })
    }

    /// Returns the number of pending bytes, which are for the terminal.
    pub fn pending(&self) -> usize {
        tells(|len| unsafe { sys::sam_host_pending(self.at(), len) })
    }

    /// Takes the pending bytes, in pieces.
    pub fn take_out(&mut self) -> impl Iterator<Item = Vec<u8>> + '_ {
        std::iter::from_fn(|| {
            let mut piece = vec![0; PIECE.min(self.pending())];
            let mut count = 0;
            unsafe { sys::sam_host_take_out(self.at(), piece.as_mut_ptr(), piece.len(), &mut count) };
            piece.truncate(count);
            (count > 0).then_some(piece)
        })
    }

    /// Returns the tag of the next file that the terminal asked the host to write (Twrite); `None` if none is left. Write `saved` of it to
    /// disk now. Each Twrite gives its tag once, in order. Ask after each feed, because the saved text is gone once the file is closed.
    pub fn next_written(&mut self) -> Option<u16> {
        told(|tag| unsafe { sys::sam_host_next_written(self.at(), tag) })
    }

    /// Returns the tags of `next_written`, up to the last.
    pub fn written(&mut self) -> impl Iterator<Item = u16> + '_ {
        std::iter::from_fn(|| self.next_written())
    }

    /// Marks a file as dirty, open or not: for a program whose write of it failed, or that has another text on disk. If the file was clean,
    /// the frame that says so (Hdirty) is then pending, behind all answers of before. No text, dot or name changes. A program may call it
    /// at any time. Errors, in this order: `NoFile` if the tag has no file; `CommandFile` for tag 0; `NotAnnounced` if the terminal was not
    /// told the file's name yet; `NoMemory`. The host is then as it was.
    pub fn mark_dirty(&mut self, tag: u16) -> Result<(), Error> {
        done(unsafe { sys::sam_host_mark_dirty(self.at(), tag) })
    }

    /// Returns whether the session is over: the terminal has sent Texit, or a command line was `q`.
    pub fn is_done(&self) -> bool {
        tells(|done| unsafe { sys::sam_host_is_done(self.at(), done) })
    }

    /// Returns the number of messages that the host has answered.
    pub fn taken(&self) -> u64 {
        tells(|taken| unsafe { sys::sam_host_taken(self.at(), taken) })
    }

    /// Returns the version of the protocol: 1 or 2.
    pub fn version(&self) -> u16 {
        tells(|version| unsafe { sys::sam_host_version(self.at(), version) })
    }

    /// Returns the number of tags that were given, the command file's 0 included.
    pub fn tags(&self) -> usize {
        tells(|count| unsafe { sys::sam_host_tags(self.at(), count) })
    }

    /// Returns whether the tag has a file now. The tag of a closed file has none.
    pub fn has_file(&self, tag: u16) -> bool {
        tells(|has| unsafe { sys::sam_host_has_file(self.at(), tag, has) })
    }

    /// Returns the name of a file; `None` if the tag has no file, as for the readers below.
    pub fn name(&self, tag: u16) -> Option<String> {
        short_text(|into, len| unsafe { sys::sam_host_name(self.at(), tag, into.as_mut_ptr(), into.len(), len) })
    }

    /// Returns the length of a file's text in runes.
    pub fn len(&self, tag: u16) -> Option<u32> {
        told(|runes| unsafe { sys::sam_host_len(self.at(), tag, runes) })
    }

    /// Returns whether a file was edited since it was made or written. The command file, tag 0, is never dirty.
    pub fn is_dirty(&self, tag: u16) -> Option<bool> {
        told(|dirty| unsafe { sys::sam_host_is_dirty(self.at(), tag, dirty) })
    }

    /// Returns the text of a file.
    pub fn text(&self, tag: u16) -> Option<String> {
        self.text_part(tag, 0, u32::MAX)
    }

    /// Returns the text of a file from the place `place` on, at most `most` runes.
    pub fn text_part(&self, tag: u16, place: u32, most: u32) -> Option<String> {
        part_of_text(place, most, |place, into, bytes, runes| unsafe {
            sys::sam_host_text(self.at(), tag, place, into.as_mut_ptr(), into.len(), bytes, runes)
        })
    }

    /// Returns the text that a file had when it was written last (Twrite); `None` also if it never was.
    pub fn saved(&self, tag: u16) -> Option<String> {
        self.saved_part(tag, 0, u32::MAX)
    }

    /// Returns the same text from the place `place` on, at most `most` runes.
    pub fn saved_part(&self, tag: u16, place: u32, most: u32) -> Option<String> {
        part_of_text(place, most, |place, into, bytes, runes| unsafe {
            sys::sam_host_saved(self.at(), tag, place, into.as_mut_ptr(), into.len(), bytes, runes)
        })
    }

    /// Returns the text of the snarf buffer.
    pub fn snarf(&self) -> String {
        whole_text(|place, into, bytes, runes| unsafe {
            sys::sam_host_snarf(self.at(), place, into.as_mut_ptr(), into.len(), bytes, runes)
        })
        .expect("the handle is made")
    }

    /// Returns the length of the snarf buffer in runes.
    pub fn snarf_len(&self) -> u32 {
        tells(|runes| unsafe { sys::sam_host_snarf_len(self.at(), runes) })
    }

    /// Returns the length in runes of the text that a file had when it was written last; `None` also if it never was.
    pub fn saved_len(&self, tag: u16) -> Option<u32> {
        told(|runes| unsafe { sys::sam_host_saved_len(self.at(), tag, runes) })
    }

    /// Returns the dot of a file: the places where its selection begins and ends.
    pub fn dot(&self, tag: u16) -> Option<(u32, u32)> {
        let mut end = 0;
        told(|start| unsafe { sys::sam_host_dot(self.at(), tag, start, &mut end) }).map(|start| (start, end))
    }
}
