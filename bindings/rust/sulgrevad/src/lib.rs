//! A proved host and a proved terminal for editors whose screen and text live apart, after Rob Pike's sam: safe Rust over the C library.
//! An [`Overlay`] is a terminal for an editor that takes each key at once: what its user does is shown while it waits.
//! A [`Client`] is that and its line to the host, for a front end whose connections may break; a [`Session`] also makes and reads them.
//! A [`Link`] carries the bytes of both over connections that may break; a [`Line`] also says when a terminal is to connect.
//! What overlay and client share are methods of the trait [`Shown`], and what line and client share those of [`Clocked`]: import these.
//! A [`DurableServer`] is a host with its end of a link, which goes on after a crash from records of what it took.
//! `sulgrevad.h` and the page EMBEDDING of the repository have the whole story, and `sulgrevad-sys` says how the library is found.
//!
//! A [`Host`] is the server: it holds whole texts and runs commands. A [`Terminal`] is the client: it holds windows, and of each open text
//! the parts that it has loaded. The dot is the selection, a place an offset in runes, the snarf buffer the clipboard: the host holds it.
//! Places and lengths of texts count runes (`char`s), and a text has at most 1,000,000.
//!
//! If the library is out of memory, a call says so ([`Error::NoMemory`], [`Error::Unfinished`]). If Rust has none for a `Vec` or a `String`
//! that is handed out, the program ends, as always in Rust.
//!
//! ```
//! use sulgrevad::{Host, Terminal};
//!
//! let mut host = Host::new()?;
//! let file = host.add_file("notes", "hello\n")?;
//! let mut term = Terminal::new()?;
//!
//! // In an editor a pipe stands between the two.
//! fn carry(term: &mut Terminal, host: &mut Host) -> Result<(), sulgrevad::Error> {
//!     while term.pending() + host.pending() > 0 {
//!         let up: Vec<u8> = term.take_out().flatten().collect();
//!         host.feed(&up)?;
//!         let down: Vec<u8> = host.take_out().flatten().collect();
//!         term.feed(&down)?;
//!     }
//!     Ok(())
//! }
//!
//! term.offer_version(2)?; // asks for the names of the files, too
//! carry(&mut term, &mut host)?;
//! term.open(file)?;
//! term.select(file, 5, 5)?; // waits until the file is open
//! term.type_(file, " world")?;
//! carry(&mut term, &mut host)?;
//! term.flush_now()?; // the user pauses: the typed text is sent
//! carry(&mut term, &mut host)?;
//! assert_eq!(host.text(file).as_deref(), Some("hello world\n"));
//! # Ok::<(), sulgrevad::Error>(())
//! ```

#![warn(missing_docs)]

mod client;
mod clocked;
mod edits;
mod error;
mod handle;
mod host;
mod line;
mod link;
mod note;
mod overlay;
mod script;
mod server;
mod session;
mod shown;
mod step;
mod terminal;

pub use client::{Client, ClientEvent};
pub use clocked::Clocked;
pub use edits::{Replacement, ShownEdit};
pub use error::{Error, HostFault, LinkFault, NoteFault, Refusal, ServerFault, StreamFault, TermFault};
pub use host::Host;
pub use line::{Line, LineDetails, LineState, Tick};
pub use link::{read_hello, write_refusal, Hello, Link, Phase, Place, Role, What, HELLO_BYTES, MOST_NOTE};
pub use note::{read_note, write_note, Note, NoteCode, NoteKind};
pub use overlay::{Dropped, Event, Overlay, Put, Splice, SpliceKind, Turn};
pub use script::replay;
pub use server::{recover, DurableServer, Effect, Recovery};
pub use session::{Session, SessionError, Waker, WriteHalf};
pub use shown::{Shown, Splices};
pub use step::{HostStep, NextFrame, TermStep};
pub use terminal::{Change, FileState, TermState, Terminal};

use std::ffi::CStr;
use sulgrevad_sys as sys;

/// The most bytes that one turn of `take_out` hands out, and the room that a replay is given first.
const PIECE: usize = 4096;

/// Returns the version of the library that the program runs with: the major, the minor and the patch number.
pub fn library_version() -> (u32, u32, u32) {
    let version = unsafe { sys::sam_library_version() };
    (version >> 16, version >> 8 & 0xff, version & 0xff)
}

/// Returns the name of a status of sulgrevad.h and a sentence about it, or "unknown status" for any other number.
///
/// ```
/// assert_eq!(sulgrevad::status_text(6), "SAM_NOT_TEXT: the bytes are not UTF-8");
/// ```
pub fn status_text(status: u32) -> &'static str {
    // The text is the library's, in ASCII, and stays.
    let text: &'static CStr = unsafe { CStr::from_ptr(sys::sam_status_text(status)) };
    text.to_str().expect("the library writes UTF-8")
}

/// Returns the error of a status, if it is one.
fn done(status: u32) -> Result<(), Error> {
    match status {
        sys::SAM_OK => Ok(()),
        status => Err(Error::of(status)),
    }
}

/// Returns the result of a reader; `None` if the reader says that there is none.
fn told<T: Default>(read: impl FnOnce(&mut T) -> u32) -> Option<T> {
    let mut value = T::default();
    (read(&mut value) == sys::SAM_OK).then_some(value)
}

/// Returns the result of a reader that always has one of a handle that is made.
fn tells<T: Default>(read: impl FnOnce(&mut T) -> u32) -> T {
    told(read).expect("the handle is made")
}

/// Reads a text in pieces: `read` puts some of it into the buffer from a place on, and says how many bytes and runes.
fn whole_text(read: impl FnMut(u32, &mut [u8], &mut usize, &mut u32) -> u32) -> Option<String> {
    part_of_text(0, u32::MAX, read)
}

/// Reads a text so from the place `place` on, at most `most` runes.
fn part_of_text(mut place: u32, most: u32, mut read: impl FnMut(u32, &mut [u8], &mut usize, &mut u32) -> u32) -> Option<String> {
    let (mut text, mut left) = (String::new(), most);
    loop {
        let mut piece = [0; PIECE];
        let (mut bytes, mut runes) = (0, 0);
        if read(place, &mut piece, &mut bytes, &mut runes) != sys::SAM_OK {
            return None;
        }
        let more = std::str::from_utf8(&piece[..bytes]).expect("the library writes UTF-8");
        if runes >= left {
            text.extend(more.chars().take(left as usize));
            return Some(text);
        }
        if runes == 0 {
            return Some(text);
        }
        text.push_str(more);
        place += runes;
        left -= runes;
    }
}

/// Reads a short text that fits in one buffer.
fn short_text(read: impl FnOnce(&mut [u8], &mut usize) -> u32) -> Option<String> {
    let mut piece = [0; PIECE];
    let mut len = 0;
    (read(&mut piece, &mut len) == sys::SAM_OK).then(|| String::from_utf8(piece[..len].to_vec()).expect("the library writes UTF-8"))
}
