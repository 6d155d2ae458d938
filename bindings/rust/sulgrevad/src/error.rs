//! The errors of calls.

use crate::status_text;
use std::fmt;
use sulgrevad_sys as sys;

/// A family of faults: an enum whose variants have the numbers of sulgrevad.h.
macro_rules! family {
    ($(#[$about:meta])* $name:ident { $($(#[$each:meta])* $fault:ident = $status:ident,)* }) => {
        $(#[$about])*
        #[derive(Clone, Copy, Debug, PartialEq, Eq)]
        #[non_exhaustive]
        #[repr(u32)]
        pub enum $name {
            $($(#[$each])* $fault = sys::$status,)*
        }

        impl $name {
            /// Returns the fault of a status, if it is one of these.
            pub(crate) fn of(status: u32) -> Option<$name> {
                [$($name::$fault),*].into_iter().find(|fault| fault.status() == status)
            }

            /// Returns its number in sulgrevad.h.
            pub fn status(self) -> u32 {
                self as u32
            }
        }

        impl fmt::Display for $name {
            fn fmt(&self, f: &mut fmt::Formatter<'_>) -> fmt::Result {
                f.write_str(sentence_of(self.status()))
            }
        }
    };
}

family! {
    /// A fault of a stream of bytes.
    StreamFault {
        /// A kind that this direction doesn't have.
        BadKind = SAM_BAD_KIND,
        /// A length that the kind can't have.
        BadLength = SAM_BAD_LENGTH,
        /// A text that is not UTF-8, or has too many runes.
        BadText = SAM_BAD_TEXT,
        /// It ends inside a message or frame. Only `finish` returns it, and this side goes on.
        Truncated = SAM_TRUNCATED,
    }
}

family! {
    /// The reason why the host refused a message.
    HostFault {
        /// No file has this tag.
        NoFile = SAM_HOST_NO_FILE,
        /// The file is not open.
        NotOpen = SAM_HOST_NOT_OPEN,
        /// A place after the end, or a range whose end is before its start.
        BadPosition = SAM_HOST_BAD_POSITION,
        /// The file would have more than 1,000,000 runes.
        TooLong = SAM_HOST_TOO_LONG,
        /// There is no version 0.
        BadVersion = SAM_HOST_BAD_VERSION,
        /// 2^64-1 messages were taken.
        CountFull = SAM_HOST_COUNT_FULL,
        /// The message is not for the command file.
        CommandFile = SAM_HOST_COMMAND_FILE,
    }
}

family! {
    /// The reason why the terminal refused a frame.
    TermFault {
        /// The frame answers a message that was not sent yet.
        FromTheFuture = SAM_TERM_FROM_THE_FUTURE,
        /// The terminal knows no file of this tag.
        NoFile = SAM_TERM_NO_FILE,
        /// The file is not open.
        NotOpen = SAM_TERM_NOT_OPEN,
        /// The file is known or open already.
        AlreadyBound = SAM_TERM_ALREADY_BOUND,
        /// A place after the end, or a range whose end is before its start.
        BadPosition = SAM_TERM_BAD_POSITION,
        /// The file would have more than 1,000,000 runes.
        TooLong = SAM_TERM_TOO_LONG,
        /// The frame frees a lock that is not held.
        LockNotHeld = SAM_TERM_LOCK_NOT_HELD,
        /// 2^64-1 messages were composed.
        CountFull = SAM_TERM_COUNT_FULL,
    }
}

family! {
    /// The reason why the terminal refused an event, or an overlay an edit. The terminal or overlay goes on.
    Refusal {
        /// The session has ended.
        Exited = SAM_REFUSAL_EXITED,
        /// The terminal knows no file of this tag.
        NoFile = SAM_REFUSAL_NO_FILE,
        /// The file is not open.
        NotOpen = SAM_REFUSAL_NOT_OPEN,
        /// A place after the end, or a range whose end is before its start.
        BadPosition = SAM_REFUSAL_BAD_POSITION,
        /// The file would have more than 1,000,000 runes.
        TooLong = SAM_REFUSAL_TOO_LONG,
        /// More than 512 runes typed, or a snarf buffer that is too long for a message.
        TextTooLong = SAM_REFUSAL_TEXT_TOO_LONG,
        /// The command file is never opened, closed, written, edited or worked on so.
        CommandFile = SAM_REFUSAL_COMMAND_FILE,
        /// There is no version 0.
        BadVersion = SAM_REFUSAL_BAD_VERSION,
    }
}

family! {
    /// The reason why a call of a link or a line was refused. The first seven also go over the line.
    LinkFault {
        /// The bytes are no hello.
        NotALink = SAM_LINK_NOT_A_LINK,
        /// A hello of another version.
        OtherVersion = SAM_LINK_OTHER_VERSION,
        /// A hello that says nothing which this side takes.
        BadHello = SAM_LINK_BAD_HELLO,
        /// The terminal resumes a session that the host doesn't have.
        NoSession = SAM_LINK_NO_SESSION,
        /// The id is another.
        OtherSession = SAM_LINK_OTHER_SESSION,
        /// The connection isn't the newest.
        OldAttempt = SAM_LINK_OLD_ATTEMPT,
        /// Bytes are counted that can't have come.
        WrongCount = SAM_LINK_WRONG_COUNT,
        /// The call is one of the other side.
        WrongRole = SAM_LINK_WRONG_ROLE,
        /// The connection is over, isn't the newest, or has no hello yet.
        NotOpen = SAM_LINK_NOT_OPEN,
        /// A note of more than 4,096 bytes.
        TooLong = SAM_LINK_TOO_LONG,
        /// A packet of an unknown kind came, and the connection is over.
        BadKind = SAM_LINK_BAD_KIND,
        /// A packet came with a length that its kind can't have, and the connection is over.
        BadLength = SAM_LINK_BAD_LENGTH,
        /// Bytes are acknowledged that did not go, and the connection is over.
        AckAhead = SAM_LINK_ACK_AHEAD,
        /// More than 65,536 bytes came before the host's hello, and the connection is over.
        TooManyWords = SAM_LINK_TOO_MANY_WORDS,
        /// The host asks and asks, and takes no answer; the connection is over.
        TooManyAnswers = SAM_LINK_TOO_MANY_ANSWERS,
        /// What should be the host's hello is none, or doesn't fit, and the connection is over.
        WrongHello = SAM_LINK_WRONG_HELLO,
    }
}

family! {
    /// The reason why bytes are no message of a session, or why a message isn't written.
    NoteFault {
        /// No kind has this number: a message of a later version, which is skipped.
        BadKind = SAM_NOTE_BAD_KIND,
        /// A field that the kind has not is not 0 or not empty. Only `write_note` returns it.
        BadField = SAM_NOTE_BAD_FIELD,
        /// Too few bytes or too many for the fields, or more than 4,096.
        BadLength = SAM_NOTE_BAD_LENGTH,
        /// A byte of a path is 0.
        BadPath = SAM_NOTE_BAD_PATH,
        /// The text is not UTF-8. Only `read_note` returns it.
        BadText = SAM_NOTE_BAD_TEXT,
    }
}

family! {
    /// The reason why a durable server has stopped, or hands no texts on, or a record is not taken again.
    ServerFault {
        /// A stream would have 2^64 bytes, and the server has stopped.
        CountFull = SAM_SERVER_COUNT_FULL,
        /// The bytes are those of no record.
        NoRecord = SAM_SERVER_NO_RECORD,
        /// The records before it lead to no server that takes it.
        NotTaken = SAM_SERVER_NOT_TAKEN,
        /// An effect is to be done before the texts are handed on. Only `heir` returns it.
        EffectWaits = SAM_SERVER_EFFECT_WAITS,
    }
}

/// The reason why a call did not do its work. Each has its number in sulgrevad.h.
#[derive(Clone, Copy, Debug, PartialEq, Eq)]
#[non_exhaustive]
pub enum Error {
    /// Out of memory, and the input of the call was not taken: make the call again.
    NoMemory,
    /// Out of memory, but the input of the call was taken: don't bring it again. The next feed, event or `flush_now` goes on with the work
    /// that waits, and feeding no bytes does just that. It returns `NoMemory` while memory is still short. An overlay goes on by its next
    /// `step`, a client by `next_event`, a durable server by `go_on`.
    Unfinished,
    /// A stream of 2^64 bytes, or 2^64 events or connections.
    CountFull,
    /// Earlier work waits, so make steps, and take the splices, first; the input was not taken.
    Waiting,
    /// 1,000 requests wait, or 1,000 tasks or command lines are open, so go on first; the input was not taken.
    TooMany,
    /// Bytes that are not UTF-8.
    NotText,
    /// A name above 64 runes, or a text above 1,000,000.
    TooLong,
    /// All 65,536 tags were given.
    NoTag,
    /// There is no such file.
    NoFile,
    /// The file is the command file, which is never dirty.
    CommandFile,
    /// The terminal was not told the file's name yet.
    NotAnnounced,
    /// The other side's stream is wrong, and this side has stopped.
    Stream(StreamFault),
    /// The host refused a message, and has stopped.
    HostRefused(HostFault),
    /// The terminal refused a frame, and has stopped.
    TermRefused(TermFault),
    /// An overlay or a client refused an edit or a command line of the user, and is as it was.
    Edit(Refusal),
    /// A call of a link or a line was refused, which goes on.
    Link(LinkFault),
    /// Bytes are no message of a session, or a message isn't written.
    Note(NoteFault),
    /// A durable server has stopped, or hands no texts on, or a record is not taken again.
    Server(ServerFault),
    /// The first wrong line of a script, counted from 1; or if none is wrong the line at which nothing is there to take.
    ScriptLine(usize),
    /// A line of a script would count more than 2^64-1 messages.
    ScriptCountFull,
    /// A status that this crate doesn't know.
    Unknown(u32),
}

impl Error {
    /// Returns the error of a status. That of a wrong script has no line yet.
    pub(crate) fn of(status: u32) -> Error {
        match status {
            sys::SAM_NO_MEMORY => Error::NoMemory,
            sys::SAM_UNFINISHED => Error::Unfinished,
            sys::SAM_COUNT_FULL => Error::CountFull,
            sys::SAM_WAITING => Error::Waiting,
            sys::SAM_TOO_MANY => Error::TooMany,
            sys::SAM_NOT_TEXT => Error::NotText,
            sys::SAM_ADD_TOO_LONG => Error::TooLong,
            sys::SAM_ADD_NO_TAG => Error::NoTag,
            sys::SAM_NONE => Error::NoFile,
            sys::SAM_MARK_COMMAND_FILE => Error::CommandFile,
            sys::SAM_MARK_NOT_ANNOUNCED => Error::NotAnnounced,
            sys::SAM_SCRIPT_COUNT_FULL => Error::ScriptCountFull,
            _ => StreamFault::of(status)
                .map(Error::Stream)
                .or_else(|| HostFault::of(status).map(Error::HostRefused))
                .or_else(|| TermFault::of(status).map(Error::TermRefused))
                .or_else(|| Refusal::of(status).map(Error::Edit))
                .or_else(|| LinkFault::of(status).map(Error::Link))
                .or_else(|| NoteFault::of(status).map(Error::Note))
                .or_else(|| ServerFault::of(status).map(Error::Server))
                .unwrap_or(Error::Unknown(status)),
        }
    }

    /// Returns its number in sulgrevad.h, of which [`status_text`] has the name and a sentence.
    pub fn status(self) -> u32 {
        match self {
            Error::NoMemory => sys::SAM_NO_MEMORY,
            Error::Unfinished => sys::SAM_UNFINISHED,
            Error::CountFull => sys::SAM_COUNT_FULL,
            Error::Waiting => sys::SAM_WAITING,
            Error::TooMany => sys::SAM_TOO_MANY,
            Error::NotText => sys::SAM_NOT_TEXT,
            Error::TooLong => sys::SAM_ADD_TOO_LONG,
            Error::NoTag => sys::SAM_ADD_NO_TAG,
            Error::NoFile => sys::SAM_NONE,
            Error::CommandFile => sys::SAM_MARK_COMMAND_FILE,
            Error::NotAnnounced => sys::SAM_MARK_NOT_ANNOUNCED,
            Error::Stream(why) => why.status(),
            Error::HostRefused(why) => why.status(),
            Error::TermRefused(why) => why.status(),
            Error::Edit(why) => why.status(),
            Error::Link(why) => why.status(),
            Error::Note(why) => why.status(),
            Error::Server(why) => why.status(),
            Error::ScriptLine(_) => sys::SAM_SCRIPT_LINE,
            Error::ScriptCountFull => sys::SAM_SCRIPT_COUNT_FULL,
            Error::Unknown(status) => status,
        }
    }

    /// Returns whether the host, terminal or server has stopped for good: the other side's stream is wrong, or was refused, or a count of a
    /// server is full.
    pub fn is_stop(self) -> bool {
        unsafe { sys::sam_is_stop(self.status()) }
    }
}

/// Returns the library's sentence about a status, without its name.
fn sentence_of(status: u32) -> &'static str {
    let text = status_text(status);
    text.split_once(": ").map_or(text, |(_, sentence)| sentence)
}

impl fmt::Display for Error {
    fn fmt(&self, f: &mut fmt::Formatter<'_>) -> fmt::Result {
        match self {
            Error::ScriptLine(line) => write!(f, "line {line} of the script is wrong or can't be done"),
            Error::Unknown(status) => write!(f, "status {status}"),
            other => f.write_str(sentence_of(other.status())),
        }
    }
}

impl std::error::Error for Error {}

#[cfg(test)]
mod tests {
    use super::*;

    /// The numbers of sulgrevad.h, with the errors that they are.
    const ERRORS: [(u32, Error); 56] = [
        (1, Error::NoMemory),
        (2, Error::Unfinished),
        (3, Error::CountFull),
        (6, Error::NotText),
        (7, Error::NoFile),
        (8, Error::Waiting),
        (10, Error::TooMany),
        (19, Error::TooLong),
        (20, Error::NoTag),
        (33, Error::Stream(StreamFault::BadKind)),
        (34, Error::Stream(StreamFault::BadLength)),
        (35, Error::Stream(StreamFault::BadText)),
        (36, Error::Stream(StreamFault::Truncated)),
        (50, Error::CommandFile),
        (51, Error::NotAnnounced),
        (65, Error::HostRefused(HostFault::NoFile)),
        (66, Error::HostRefused(HostFault::NotOpen)),
        (67, Error::HostRefused(HostFault::BadPosition)),
        (68, Error::HostRefused(HostFault::TooLong)),
        (69, Error::HostRefused(HostFault::BadVersion)),
        (70, Error::HostRefused(HostFault::CountFull)),
        (72, Error::HostRefused(HostFault::CommandFile)),
        (97, Error::TermRefused(TermFault::FromTheFuture)),
        (98, Error::TermRefused(TermFault::NoFile)),
        (99, Error::TermRefused(TermFault::NotOpen)),
        (100, Error::TermRefused(TermFault::AlreadyBound)),
        (101, Error::TermRefused(TermFault::BadPosition)),
        (102, Error::TermRefused(TermFault::TooLong)),
        (103, Error::TermRefused(TermFault::LockNotHeld)),
        (104, Error::TermRefused(TermFault::CountFull)),
        (162, Error::ScriptCountFull),
        (193, Error::Link(LinkFault::NotALink)),
        (194, Error::Link(LinkFault::OtherVersion)),
        (195, Error::Link(LinkFault::BadHello)),
        (196, Error::Link(LinkFault::NoSession)),
        (197, Error::Link(LinkFault::OtherSession)),
        (198, Error::Link(LinkFault::OldAttempt)),
        (199, Error::Link(LinkFault::WrongCount)),
        (200, Error::Link(LinkFault::WrongRole)),
        (201, Error::Link(LinkFault::NotOpen)),
        (202, Error::Link(LinkFault::TooLong)),
        (203, Error::Link(LinkFault::BadKind)),
        (204, Error::Link(LinkFault::BadLength)),
        (205, Error::Link(LinkFault::AckAhead)),
        (207, Error::Link(LinkFault::TooManyWords)),
        (208, Error::Link(LinkFault::TooManyAnswers)),
        (209, Error::Link(LinkFault::WrongHello)),
        (225, Error::Note(NoteFault::BadKind)),
        (226, Error::Note(NoteFault::BadField)),
        (227, Error::Note(NoteFault::BadLength)),
        (228, Error::Note(NoteFault::BadPath)),
        (229, Error::Note(NoteFault::BadText)),
        (289, Error::Server(ServerFault::CountFull)),
        (290, Error::Server(ServerFault::NoRecord)),
        (291, Error::Server(ServerFault::NotTaken)),
        (292, Error::Server(ServerFault::EffectWaits)),
    ];

    const REFUSALS: [(u32, Refusal); 8] = [
        (129, Refusal::Exited),
        (130, Refusal::NoFile),
        (131, Refusal::NotOpen),
        (132, Refusal::BadPosition),
        (133, Refusal::TooLong),
        (134, Refusal::TextTooLong),
        (135, Refusal::CommandFile),
        (136, Refusal::BadVersion),
    ];

    /// Those that no safe call hands on: SAM_OK, SAM_NO_HANDLE, SAM_MADE, SAM_NONE, SAM_NO_ROOM, SAM_LINK_NO_ROOM, those of a
    /// journal, which has no safe calls, and SAM_SCRIPT_LINE, which `replay` gives its line.
    const OTHERS: [u32; 13] = [0, 4, 5, 9, 161, 206, 257, 258, 259, 260, 261, 262, 263];

    #[test]
    fn each_number_is_its_error() {
        for (status, error) in ERRORS {
            assert_eq!((Error::of(status), error.status()), (error, status));
        }
        for (status, why) in REFUSALS {
            assert_eq!((Refusal::of(status), why.status()), (Some(why), status));
        }
        assert_eq!((Error::ScriptLine(9).status(), Error::Unknown(250).status()), (161, 250));
        assert_eq!((Error::of(250), Refusal::of(128)), (Error::Unknown(250), None));
    }

    #[test]
    fn each_number_of_the_library_has_a_name_here() {
        let is_listed = |status| {
            let errors = ERRORS.iter().map(|(number, _)| number);
            let refusals = REFUSALS.iter().map(|(number, _)| number);
            errors.chain(refusals).chain(&OTHERS).any(|number| *number == status)
        };
        for status in 0..512 {
            assert_eq!(is_listed(status), status_text(status) != "unknown status", "{status}");
        }
    }

    #[test]
    fn only_a_wrong_stream_or_a_full_count_stops() {
        for (status, error) in ERRORS {
            let is_of_a_stream = matches!(error, Error::Stream(_) | Error::HostRefused(_) | Error::TermRefused(_));
            let goes_on = error == Error::Stream(StreamFault::Truncated);
            let is_full = error == Error::Server(ServerFault::CountFull);
            assert_eq!(error.is_stop(), is_full || is_of_a_stream && !goes_on, "{status}");
        }
    }
}
