//! The messages of a session, which samhost and its front ends exchange as the notes of a link: the page SESSION of the repository.

use crate::{done, Error, NoteFault, MOST_NOTE};
use sulgrevad_sys::{self as sys, sam_note};

// What follows is written by tools/session_messages, from the tables of docs/reference/SESSION.md.
/// The kinds of messages, with their fields: up to 64 those from the terminal.
#[derive(Clone, Copy, Debug, PartialEq, Eq)]
#[repr(u8)]
pub enum NoteKind {
    /// Request, path: joins the file, or the folder, at the path.
    Open = 1,
    /// Request, path: asks for the names that complete the path.
    Complete = 2,
    /// Request, tag: reads a file anew from its disk.
    Reload = 3,
    /// Tag, number: the user's edits have made the file what the file `number` has.
    Reloaded = 4,
    /// Request, tag: asks what becomes of the Twrite of this file that comes next.
    Write = 5,
    /// Number, path, text: the first message: version of the messages, name of the session, machine.
    Session = 65,
    /// Text: words for people.
    Said = 66,
    /// Tag, number: another program wants the file shown at the line `number`, if not 0.
    Shown = 67,
    /// Text: another terminal, at the machine that the text names, has the session now.
    TakenOver = 68,
    /// Code, number: the session is over, with this exit status: the last message.
    Ended = 69,
    /// Request, tag: the file of an Open.
    Opened = 70,
    /// Request, code, text: what was asked for is not done, and why.
    Refused = 71,
    /// Request, code, path: names, each with a newline behind it; those of folders end in `/`.
    Names = 72,
    /// Request, number: the file of the tag `number` is hidden; that of an answer has what stands on the disk.
    Anew = 73,
    /// Request, tag, code, path, copy, text: a write went to the disk, at the path.
    Saved = 74,
    /// Request, tag, code, path, copy, text: a write failed, and why; its text is in the copy, if not empty.
    NotSaved = 75,
    /// Tag, code, path, text: another program changed the file, or removed it.
    Changed = 76,
    /// Tag, number, path: the file was written last at this time, in seconds since 1970.
    Dated = 77,
    /// Tag, code, number, path, copy, text: an earlier session left a text in the copy, of the time `number`.
    Earlier = 78,
    /// Tag, code, path, copy, text: a text that is on no disk under its name is in the copy.
    Aside = 79,
    /// Tag, code, path, text: a text could be saved nowhere, and why.
    Lost = 80,
    /// Code, text: what is done from now on survives no crash, and why.
    NoJournal = 81,
}

impl NoteKind {
    /// Returns the kind of a number; `None` for one of a later version.
    pub fn of(number: u8) -> Option<NoteKind> {
        match number {
            1 => Some(NoteKind::Open),
            2 => Some(NoteKind::Complete),
            3 => Some(NoteKind::Reload),
            4 => Some(NoteKind::Reloaded),
            5 => Some(NoteKind::Write),
            65 => Some(NoteKind::Session),
            66 => Some(NoteKind::Said),
            67 => Some(NoteKind::Shown),
            68 => Some(NoteKind::TakenOver),
            69 => Some(NoteKind::Ended),
            70 => Some(NoteKind::Opened),
            71 => Some(NoteKind::Refused),
            72 => Some(NoteKind::Names),
            73 => Some(NoteKind::Anew),
            74 => Some(NoteKind::Saved),
            75 => Some(NoteKind::NotSaved),
            76 => Some(NoteKind::Changed),
            77 => Some(NoteKind::Dated),
            78 => Some(NoteKind::Earlier),
            79 => Some(NoteKind::Aside),
            80 => Some(NoteKind::Lost),
            81 => Some(NoteKind::NoJournal),
            _ => None,
        }
    }
}

/// What happened, or why.
#[derive(Clone, Copy, Debug, PartialEq, Eq)]
#[repr(u8)]
pub enum NoteCode {
    /// Nothing to say.
    NoCode = 0,
    /// The disk is full.
    NoSpace = 1,
    /// The system allows it not.
    NoPermission = 2,
    /// It can only be read.
    ReadOnly = 3,
    /// It is not there.
    NotFound = 4,
    /// It is a folder.
    IsFolder = 5,
    /// It is no UTF-8, or has a zero byte.
    NotText = 6,
    /// It has too many characters.
    TooLong = 7,
    /// There are too many files.
    TooMany = 8,
    /// Out of memory.
    NoMemory = 9,
    /// The file has no name.
    NoName = 10,
    /// Another program changed the file; the next write replaces it, and keeps what it has.
    ChangedSince = 11,
    /// It is there, and this session hasn't read it; the next write replaces it, and keeps what it has.
    ExistsAlready = 12,
    /// It was not written before this terminal took the session over.
    TakenUnsaved = 13,
    /// No file has this tag.
    NoSuchFile = 14,
    /// The text says what.
    Other = 15,
    /// There are more.
    HasMore = 16,
    /// What another program had written there is in the copy.
    Replaced = 17,
    /// A write broke off, and what the file was is in the copy.
    Broken = 18,
    /// The copy is newer than the file.
    Newer = 19,
    /// The copy is older than the file.
    Older = 20,
    /// Of what was cut last.
    Cut = 21,
    /// Of a file without a name.
    Unnamed = 22,
    /// The disk failed.
    Failed = 23,
    /// It can't be read, so another program may have changed it; the next write replaces it, and keeps what it has.
    Unreadable = 24,
}

impl NoteCode {
    /// Returns the code of a number; `Other` for one of a later version.
    pub fn of(number: u8) -> NoteCode {
        match number {
            0 => NoteCode::NoCode,
            1 => NoteCode::NoSpace,
            2 => NoteCode::NoPermission,
            3 => NoteCode::ReadOnly,
            4 => NoteCode::NotFound,
            5 => NoteCode::IsFolder,
            6 => NoteCode::NotText,
            7 => NoteCode::TooLong,
            8 => NoteCode::TooMany,
            9 => NoteCode::NoMemory,
            10 => NoteCode::NoName,
            11 => NoteCode::ChangedSince,
            12 => NoteCode::ExistsAlready,
            13 => NoteCode::TakenUnsaved,
            14 => NoteCode::NoSuchFile,
            15 => NoteCode::Other,
            16 => NoteCode::HasMore,
            17 => NoteCode::Replaced,
            18 => NoteCode::Broken,
            19 => NoteCode::Newer,
            20 => NoteCode::Older,
            21 => NoteCode::Cut,
            22 => NoteCode::Unnamed,
            23 => NoteCode::Failed,
            24 => NoteCode::Unreadable,
            _ => NoteCode::Other,
        }
    }
}
// Up to here by tools/session_messages.

/// A message. A field that its kind has not is 0 or empty.
#[derive(Clone, Copy, Debug, PartialEq, Eq)]
pub struct Note<'a> {
    /// Its kind.
    pub kind: NoteKind,
    /// The number that the terminal gave a request; 0 if no request asked for this.
    pub request: u32,
    /// The tag of a file.
    pub tag: u16,
    /// What happened, or why.
    pub code: NoteCode,
    /// A version, a line, a time, another tag or a status, as the kind says.
    pub number: u64,
    /// The bytes of a path.
    pub path: &'a [u8],
    /// Those of a second path.
    pub copy: &'a [u8],
    /// Words for people.
    pub text: &'a str,
}

impl Note<'_> {
    /// Makes a message of this kind with nothing else.
    pub fn new(kind: NoteKind) -> Note<'static> {
        Note {
            kind,
            request: 0,
            tag: 0,
            code: NoteCode::NoCode,
            number: 0,
            path: &[],
            copy: &[],
            text: "",
        }
    }
}

/// Reads the message that the bytes spell, all of them, and returns it. A code of a later version is `Other`. Its only errors are `Note`,
/// with `BadKind` for a kind of a later version (skip such a message), `BadLength`, `BadPath` or `BadText`.
///
/// ```
/// use sulgrevad::{read_note, write_note, Note, NoteKind};
///
/// let note = Note { request: 7, path: b"/tmp/a", ..Note::new(NoteKind::Open) };
/// let bytes = write_note(&note)?;
/// assert_eq!(bytes, b"\x01\0\0\0\x07\0\x06/tmp/a");
/// assert_eq!(read_note(&bytes)?, note);
/// # Ok::<(), sulgrevad::Error>(())
/// ```
pub fn read_note(bytes: &[u8]) -> Result<Note<'_>, Error> {
    let mut read = sam_note::default();
    done(unsafe { sys::sam_note_read(bytes.as_ptr(), bytes.len(), &mut read) })?;
    let text = &bytes[read.text_at..read.text_at + read.text_len];
    Ok(Note {
        kind: NoteKind::of(read.kind).ok_or(Error::Note(NoteFault::BadKind))?,
        request: read.request,
        tag: read.tag,
        code: NoteCode::of(read.code),
        number: read.number,
        path: &bytes[read.path_at..read.path_at + read.path_len],
        copy: &bytes[read.copy_at..read.copy_at + read.copy_len],
        text: std::str::from_utf8(text).expect("the library reads UTF-8 alone"),
    })
}

/// Returns the bytes of a message. Its only errors are `Note`, with `BadField` if a field that the kind has not is not 0 or not empty,
/// `BadLength` for more than `MOST_NOTE` bytes, or `BadPath`.
pub fn write_note(note: &Note<'_>) -> Result<Vec<u8>, Error> {
    let Note { path, copy, text, .. } = note;
    let head = sam_note {
        kind: note.kind as u8,
        code: note.code as u8,
        tag: note.tag,
        request: note.request,
        number: note.number,
        path_len: path.len(),
        copy_len: copy.len(),
        text_len: text.len(),
        ..sam_note::default()
    };
    let (mut into, mut len) = (vec![0; MOST_NOTE], 0);
    let room = into.len();
    done(unsafe { sys::sam_note_write(&head, path.as_ptr(), copy.as_ptr(), text.as_ptr(), into.as_mut_ptr(), room, &mut len) })?;
    into.truncate(len);
    Ok(into)
}
