//! The calls of `sulgrevad.h`, as they are, with its words: its top says what the caller owes. The crate `sulgrevad` has safe ones.

#![allow(non_camel_case_types)]

use std::os::raw::{c_char, c_void};

/// The status of a call: one of the numbers below, or one that this crate doesn't know.
pub type sam_status = u32;

pub const SAM_OK: sam_status = 0;
pub const SAM_NO_MEMORY: sam_status = 1;
pub const SAM_UNFINISHED: sam_status = 2;
pub const SAM_COUNT_FULL: sam_status = 3;
pub const SAM_NO_HANDLE: sam_status = 4;
pub const SAM_MADE: sam_status = 5;
pub const SAM_NOT_TEXT: sam_status = 6;
pub const SAM_NONE: sam_status = 7;
pub const SAM_WAITING: sam_status = 8;
pub const SAM_NO_ROOM: sam_status = 9;
pub const SAM_TOO_MANY: sam_status = 10;
pub const SAM_ADD_TOO_LONG: sam_status = 19;
pub const SAM_ADD_NO_TAG: sam_status = 20;
pub const SAM_BAD_KIND: sam_status = 33;
pub const SAM_BAD_LENGTH: sam_status = 34;
pub const SAM_BAD_TEXT: sam_status = 35;
pub const SAM_TRUNCATED: sam_status = 36;
pub const SAM_MARK_COMMAND_FILE: sam_status = 50;
pub const SAM_MARK_NOT_ANNOUNCED: sam_status = 51;
pub const SAM_HOST_NO_FILE: sam_status = 65;
pub const SAM_HOST_NOT_OPEN: sam_status = 66;
pub const SAM_HOST_BAD_POSITION: sam_status = 67;
pub const SAM_HOST_TOO_LONG: sam_status = 68;
pub const SAM_HOST_BAD_VERSION: sam_status = 69;
pub const SAM_HOST_COUNT_FULL: sam_status = 70;
pub const SAM_HOST_COMMAND_FILE: sam_status = 72;
pub const SAM_TERM_FROM_THE_FUTURE: sam_status = 97;
pub const SAM_TERM_NO_FILE: sam_status = 98;
pub const SAM_TERM_NOT_OPEN: sam_status = 99;
pub const SAM_TERM_ALREADY_BOUND: sam_status = 100;
pub const SAM_TERM_BAD_POSITION: sam_status = 101;
pub const SAM_TERM_TOO_LONG: sam_status = 102;
pub const SAM_TERM_LOCK_NOT_HELD: sam_status = 103;
pub const SAM_TERM_COUNT_FULL: sam_status = 104;
pub const SAM_REFUSAL_EXITED: sam_status = 129;
pub const SAM_REFUSAL_NO_FILE: sam_status = 130;
pub const SAM_REFUSAL_NOT_OPEN: sam_status = 131;
pub const SAM_REFUSAL_BAD_POSITION: sam_status = 132;
pub const SAM_REFUSAL_TOO_LONG: sam_status = 133;
pub const SAM_REFUSAL_TEXT_TOO_LONG: sam_status = 134;
pub const SAM_REFUSAL_COMMAND_FILE: sam_status = 135;
pub const SAM_REFUSAL_BAD_VERSION: sam_status = 136;
pub const SAM_SCRIPT_LINE: sam_status = 161;
pub const SAM_SCRIPT_COUNT_FULL: sam_status = 162;
pub const SAM_LINK_NOT_A_LINK: sam_status = 193;
pub const SAM_LINK_OTHER_VERSION: sam_status = 194;
pub const SAM_LINK_BAD_HELLO: sam_status = 195;
pub const SAM_LINK_NO_SESSION: sam_status = 196;
pub const SAM_LINK_OTHER_SESSION: sam_status = 197;
pub const SAM_LINK_OLD_ATTEMPT: sam_status = 198;
pub const SAM_LINK_WRONG_COUNT: sam_status = 199;
pub const SAM_LINK_WRONG_ROLE: sam_status = 200;
pub const SAM_LINK_NOT_OPEN: sam_status = 201;
pub const SAM_LINK_TOO_LONG: sam_status = 202;
pub const SAM_LINK_BAD_KIND: sam_status = 203;
pub const SAM_LINK_BAD_LENGTH: sam_status = 204;
pub const SAM_LINK_ACK_AHEAD: sam_status = 205;
pub const SAM_LINK_NO_ROOM: sam_status = 206;
pub const SAM_LINK_TOO_MANY_WORDS: sam_status = 207;
pub const SAM_LINK_TOO_MANY_ANSWERS: sam_status = 208;
pub const SAM_LINK_WRONG_HELLO: sam_status = 209;
pub const SAM_NOTE_BAD_KIND: sam_status = 225;
pub const SAM_NOTE_BAD_FIELD: sam_status = 226;
pub const SAM_NOTE_BAD_LENGTH: sam_status = 227;
pub const SAM_NOTE_BAD_PATH: sam_status = 228;
pub const SAM_NOTE_BAD_TEXT: sam_status = 229;
pub const SAM_JOURNAL_SHORT: sam_status = 257;
pub const SAM_JOURNAL_NOT_A_JOURNAL: sam_status = 258;
pub const SAM_JOURNAL_OTHER_VERSION: sam_status = 259;
pub const SAM_JOURNAL_DAMAGED_HEAD: sam_status = 260;
pub const SAM_JOURNAL_DAMAGED: sam_status = 261;
pub const SAM_JOURNAL_TORN: sam_status = 262;
pub const SAM_JOURNAL_TOO_LONG: sam_status = 263;
pub const SAM_SERVER_COUNT_FULL: sam_status = 289;
pub const SAM_SERVER_NO_RECORD: sam_status = 290;
pub const SAM_SERVER_NOT_TAKEN: sam_status = 291;
pub const SAM_SERVER_EFFECT_WAITS: sam_status = 292;

/// The sides of a link, and the states of a connection.
pub const SAM_LINK_TERMINAL: u32 = 0;
pub const SAM_LINK_HOST: u32 = 1;
pub const SAM_LINK_DOWN: u32 = 0;
pub const SAM_LINK_ASKING: u32 = 1;
pub const SAM_LINK_OPEN: u32 = 2;

/// The kinds of a link's hello, but for the refusals, which are 17 to 23.
pub const SAM_LINK_BEGIN: u32 = 1;
pub const SAM_LINK_RESUME: u32 = 2;
pub const SAM_LINK_TAKE_OVER: u32 = 3;
pub const SAM_LINK_WELCOME: u32 = 4;

pub const SAM_LINK_ID_BYTES: usize = 16;
pub const SAM_LINK_HELLO_BYTES: usize = 42;
pub const SAM_LINK_MOST_NOTE: usize = 4096;

/// What a program is to do for its line.
pub const SAM_TICK_NOTHING: u32 = 0;
pub const SAM_TICK_CONNECT: u32 = 1;
pub const SAM_TICK_DROP: u32 = 2;
pub const SAM_TICK_ASK: u32 = 3;

/// The states of a line.
pub const SAM_LINE_DOWN: u32 = 0;
pub const SAM_LINE_CONNECTING: u32 = 1;
pub const SAM_LINE_OPEN: u32 = 2;
pub const SAM_LINE_LATE: u32 = 3;
pub const SAM_LINE_LOST: u32 = 4;

// What follows is written by tools/session_messages, from the tables of docs/reference/SESSION.md.
/// The kinds of messages.
pub const SAM_NOTE_OPEN: u8 = 1;
pub const SAM_NOTE_COMPLETE: u8 = 2;
pub const SAM_NOTE_RELOAD: u8 = 3;
pub const SAM_NOTE_RELOADED: u8 = 4;
pub const SAM_NOTE_WRITE: u8 = 5;
pub const SAM_NOTE_SESSION: u8 = 65;
pub const SAM_NOTE_SAID: u8 = 66;
pub const SAM_NOTE_SHOWN: u8 = 67;
pub const SAM_NOTE_TAKEN_OVER: u8 = 68;
pub const SAM_NOTE_ENDED: u8 = 69;
pub const SAM_NOTE_OPENED: u8 = 70;
pub const SAM_NOTE_REFUSED: u8 = 71;
pub const SAM_NOTE_NAMES: u8 = 72;
pub const SAM_NOTE_ANEW: u8 = 73;
pub const SAM_NOTE_SAVED: u8 = 74;
pub const SAM_NOTE_NOT_SAVED: u8 = 75;
pub const SAM_NOTE_CHANGED: u8 = 76;
pub const SAM_NOTE_DATED: u8 = 77;
pub const SAM_NOTE_EARLIER: u8 = 78;
pub const SAM_NOTE_ASIDE: u8 = 79;
pub const SAM_NOTE_LOST: u8 = 80;
pub const SAM_NOTE_NO_JOURNAL: u8 = 81;

/// The codes.
pub const SAM_NOTE_NO_CODE: u8 = 0;
pub const SAM_NOTE_NO_SPACE: u8 = 1;
pub const SAM_NOTE_NO_PERMISSION: u8 = 2;
pub const SAM_NOTE_READ_ONLY: u8 = 3;
pub const SAM_NOTE_NOT_FOUND: u8 = 4;
pub const SAM_NOTE_IS_FOLDER: u8 = 5;
pub const SAM_NOTE_NOT_TEXT: u8 = 6;
pub const SAM_NOTE_TOO_LONG: u8 = 7;
pub const SAM_NOTE_TOO_MANY: u8 = 8;
pub const SAM_NOTE_NO_MEMORY: u8 = 9;
pub const SAM_NOTE_NO_NAME: u8 = 10;
pub const SAM_NOTE_CHANGED_SINCE: u8 = 11;
pub const SAM_NOTE_EXISTS_ALREADY: u8 = 12;
pub const SAM_NOTE_TAKEN_UNSAVED: u8 = 13;
pub const SAM_NOTE_NO_SUCH_FILE: u8 = 14;
pub const SAM_NOTE_OTHER: u8 = 15;
pub const SAM_NOTE_HAS_MORE: u8 = 16;
pub const SAM_NOTE_REPLACED: u8 = 17;
pub const SAM_NOTE_BROKEN: u8 = 18;
pub const SAM_NOTE_NEWER: u8 = 19;
pub const SAM_NOTE_OLDER: u8 = 20;
pub const SAM_NOTE_CUT: u8 = 21;
pub const SAM_NOTE_UNNAMED: u8 = 22;
pub const SAM_NOTE_FAILED: u8 = 23;
pub const SAM_NOTE_UNREADABLE: u8 = 24;

// Up to here by tools/session_messages.

/// A message of a session. What its kind has not is 0 or empty.
#[derive(Clone, Copy, Debug, Default, PartialEq, Eq)]
#[repr(C)]
pub struct sam_note {
    pub kind: u8,
    pub code: u8,
    pub tag: u16,
    pub request: u32,
    pub number: u64,
    pub path_at: usize,
    pub path_len: usize,
    pub copy_at: usize,
    pub copy_len: usize,
    pub text_at: usize,
    pub text_len: usize,
}

/// The kind of a step: one of the numbers below, or one that this crate doesn't know.
pub type sam_step = u32;

pub const SAM_STEP_IDLE: sam_step = 0;
pub const SAM_STEP_LOCKED: sam_step = 1;
pub const SAM_STEP_WROTE: sam_step = 2;
pub const SAM_STEP_EDITED: sam_step = 3;
pub const SAM_STEP_ANSWERED: sam_step = 4;
pub const SAM_STEP_RECEIVED: sam_step = 5;
pub const SAM_STEP_ACTED: sam_step = 6;
pub const SAM_STEP_REFUSED: sam_step = 7;

/// The kinds of messages and frames; docs/reference/PROTOCOL.md says what each means.
pub const SAM_KIND_TVERSION: u8 = 1;
pub const SAM_KIND_TSTARTCMDFILE: u8 = 2;
pub const SAM_KIND_TCHECK: u8 = 3;
pub const SAM_KIND_TREQUEST: u8 = 4;
pub const SAM_KIND_TORIGIN: u8 = 5;
pub const SAM_KIND_TSTARTFILE: u8 = 6;
pub const SAM_KIND_TWORKFILE: u8 = 7;
pub const SAM_KIND_TTYPE: u8 = 8;
pub const SAM_KIND_TCUT: u8 = 9;
pub const SAM_KIND_TPASTE: u8 = 10;
pub const SAM_KIND_TSNARF: u8 = 11;
pub const SAM_KIND_TSTARTNEWFILE: u8 = 12;
pub const SAM_KIND_TWRITE: u8 = 13;
pub const SAM_KIND_TCLOSE: u8 = 14;
pub const SAM_KIND_TLOOK: u8 = 15;
pub const SAM_KIND_TSEARCH: u8 = 16;
pub const SAM_KIND_TSEND: u8 = 17;
pub const SAM_KIND_TDCLICK: u8 = 18;
pub const SAM_KIND_TSTARTSNARF: u8 = 19;
pub const SAM_KIND_TSETSNARF: u8 = 20;
pub const SAM_KIND_TACK: u8 = 21;
pub const SAM_KIND_TEXIT: u8 = 22;
pub const SAM_KIND_HVERSION: u8 = 65;
pub const SAM_KIND_HBINDNAME: u8 = 66;
pub const SAM_KIND_HCURRENT: u8 = 67;
pub const SAM_KIND_HNEWNAME: u8 = 68;
pub const SAM_KIND_HMOVNAME: u8 = 69;
pub const SAM_KIND_HGROW: u8 = 70;
pub const SAM_KIND_HCHECK: u8 = 71;
pub const SAM_KIND_HUNLOCK: u8 = 72;
pub const SAM_KIND_HDATA: u8 = 73;
pub const SAM_KIND_HORIGIN: u8 = 74;
pub const SAM_KIND_HUNLOCKFILE: u8 = 75;
pub const SAM_KIND_HSETDOT: u8 = 76;
pub const SAM_KIND_HGROWDATA: u8 = 77;
pub const SAM_KIND_HMOVETO: u8 = 78;
pub const SAM_KIND_HCLEAN: u8 = 79;
pub const SAM_KIND_HDIRTY: u8 = 80;
pub const SAM_KIND_HCUT: u8 = 81;
pub const SAM_KIND_HSETPAT: u8 = 82;
pub const SAM_KIND_HDELNAME: u8 = 83;
pub const SAM_KIND_HCLOSE: u8 = 84;
pub const SAM_KIND_HSETSNARF: u8 = 85;
pub const SAM_KIND_HSNARFLEN: u8 = 86;
pub const SAM_KIND_HACK: u8 = 87;
pub const SAM_KIND_HEXIT: u8 = 88;

/// What a splice does: one of the numbers below.
pub type sam_splice_kind = u32;

pub const SAM_SPLICE_CAME: sam_splice_kind = 1;
pub const SAM_SPLICE_WENT: sam_splice_kind = 2;
pub const SAM_SPLICE_FILLED: sam_splice_kind = 3;
pub const SAM_SPLICE_EMPTIED: sam_splice_kind = 4;

/// The kind of an event that an overlay takes: one of the numbers below.
pub type sam_event_kind = u32;

pub const SAM_EVENT_SELECT: sam_event_kind = 1;
pub const SAM_EVENT_DCLICK: sam_event_kind = 2;
pub const SAM_EVENT_LOOK: sam_event_kind = 3;
pub const SAM_EVENT_SEARCH: sam_event_kind = 4;
pub const SAM_EVENT_FLUSH: sam_event_kind = 5;
pub const SAM_EVENT_SNARF: sam_event_kind = 6;
pub const SAM_EVENT_GET_SNARF: sam_event_kind = 7;
pub const SAM_EVENT_SET_SNARF: sam_event_kind = 8;
pub const SAM_EVENT_VIEW: sam_event_kind = 9;
pub const SAM_EVENT_LOAD: sam_event_kind = 10;
pub const SAM_EVENT_SCROLL: sam_event_kind = 11;
pub const SAM_EVENT_CHECK: sam_event_kind = 12;
pub const SAM_EVENT_OPEN: sam_event_kind = 13;
pub const SAM_EVENT_NEW_FILE: sam_event_kind = 14;
pub const SAM_EVENT_WRITE: sam_event_kind = 15;
pub const SAM_EVENT_CLOSE: sam_event_kind = 16;
pub const SAM_EVENT_OPEN_CMD: sam_event_kind = 17;
pub const SAM_EVENT_WORK: sam_event_kind = 18;
pub const SAM_EVENT_SEND: sam_event_kind = 19;
pub const SAM_EVENT_OFFER_VERSION: sam_event_kind = 20;
pub const SAM_EVENT_EXIT: sam_event_kind = 21;
pub const SAM_EVENT_TYPE_CMD: sam_event_kind = 22;
pub const SAM_EVENT_CUT_CMD: sam_event_kind = 23;
pub const SAM_EVENT_PASTE_CMD: sam_event_kind = 24;

/// What became of an edit that waits: one of the numbers below.
pub type sam_put = u32;

pub const SAM_PUT_NOTHING: sam_put = 0;
pub const SAM_PUT_NOT_FREE: sam_put = 1;
pub const SAM_PUT_EDIT: sam_put = 2;

/// What became of the oldest request: one of the numbers below.
pub type sam_turn = u32;

pub const SAM_TURN_NOTHING: sam_turn = 0;
pub const SAM_TURN_NOT_YET: sam_turn = 1;
pub const SAM_TURN_REQUEST: sam_turn = 2;

/// What a client tells as it goes on: enum sam_client_event.
pub type sam_client_event = u32;

pub const SAM_CLIENT_IDLE: sam_client_event = 0;
pub const SAM_CLIENT_BUSY: sam_client_event = 1;
pub const SAM_CLIENT_STEPPED: sam_client_event = 2;
pub const SAM_CLIENT_REFUSED: sam_client_event = 3;
pub const SAM_CLIENT_NOTE: sam_client_event = 4;
pub const SAM_CLIENT_ANSWERED: sam_client_event = 5;
pub const SAM_CLIENT_UNANSWERED: sam_client_event = 6;
pub const SAM_CLIENT_RAN: sam_client_event = 7;
pub const SAM_CLIENT_LAPSED: sam_client_event = 8;

/// The kind of an effect of a durable server: one of the numbers below.
pub type sam_effect_kind = u32;

pub const SAM_EFFECT_WRITE: sam_effect_kind = 1;
pub const SAM_EFFECT_HEAR: sam_effect_kind = 2;
pub const SAM_EFFECT_CLOSE: sam_effect_kind = 3;

/// The result of a step.
#[derive(Clone, Copy, Debug, Default, PartialEq, Eq)]
#[repr(C)]
pub struct sam_did {
    pub event: u64,
    pub request: u64,
    pub count: usize,
    pub step: sam_step,
    pub why: sam_status,
    pub start: u32,
    pub gone: u32,
    pub came: u32,
    pub task: u32,
    pub tag: u16,
    pub kind: u8,
    pub loads: bool,
}

/// The state of a terminal.
#[derive(Clone, Copy, Debug, Default, PartialEq, Eq)]
#[repr(C)]
pub struct sam_state {
    pub events: u64,
    pub decided: u64,
    pub held: u64,
    pub sent: u64,
    pub under_way: u64,
    pub pending: usize,
    pub tags: usize,
    pub unsent: u32,
    pub snarf_len: u32,
    pub version: u16,
    pub command_locked: bool,
    pub exited: bool,
}

/// The state of a terminal's file.
#[derive(Clone, Copy, Debug, Default, PartialEq, Eq)]
#[repr(C)]
pub struct sam_file {
    pub len: u32,
    pub dot_start: u32,
    pub dot_end: u32,
    pub view_start: u32,
    pub view_end: u32,
    pub is_known: bool,
    pub is_open: bool,
    pub is_dirty: bool,
    pub is_changed: bool,
    pub is_locked: bool,
    pub is_free: bool,
}

/// A change of the shown text of a file.
#[derive(Clone, Copy, Debug, Default, PartialEq, Eq)]
#[repr(C)]
pub struct sam_splice {
    pub kind: sam_splice_kind,
    pub place: u32,
    pub count: u32,
    pub tag: u16,
}

/// One of several replacements: the shown runes from the place `start` to the place `end` give way to the next `count` runes of a text.
#[derive(Clone, Copy, Debug, Default, PartialEq, Eq)]
#[repr(C)]
pub struct sam_replacement {
    pub start: u32,
    pub end: u32,
    pub count: u32,
}

/// Room for the changes that many steps made, which the caller lends. The library counts what it puts there.
#[derive(Clone, Copy, Debug)]
#[repr(C)]
pub struct sam_changes {
    pub splices: *mut sam_splice,
    pub most: usize,
    pub got: usize,
    pub runes: *mut u32,
    pub room: usize,
    pub used: usize,
}

/// An event of the user, for an overlay.
#[derive(Clone, Copy, Debug, Default, PartialEq, Eq)]
#[repr(C)]
pub struct sam_event {
    pub kind: sam_event_kind,
    pub start: u32,
    pub number: u32,
    pub tag: u16,
    pub version: u16,
}

/// The place of bytes in a piece.
#[derive(Clone, Copy, Debug, Default, PartialEq, Eq)]
#[repr(C)]
pub struct sam_place {
    pub start: usize,
    pub len: usize,
}

/// What stands around the body of a record of a journal.
#[derive(Clone, Copy, Debug, Default, PartialEq, Eq)]
#[repr(C)]
pub struct sam_record_frame {
    pub front: [u8; 24],
    pub back: [u8; 4],
}

/// A whole record of a journal.
#[derive(Clone, Copy, Debug, Default, PartialEq, Eq)]
#[repr(C)]
pub struct sam_record {
    pub durable: u64,
    pub body: usize,
    pub len: usize,
    pub next: usize,
}

/// What a durable server asks its program to do.
#[derive(Clone, Copy, Debug, Default, PartialEq, Eq)]
#[repr(C)]
pub struct sam_effect {
    pub len: usize,
    pub kind: sam_effect_kind,
    pub tag: u16,
}

/// What `sam_line_describe` hands out: the state, the counts and the times of a line. Times are in milliseconds.
#[derive(Clone, Copy, Debug, Default, PartialEq, Eq)]
#[repr(C)]
pub struct sam_line_details {
    /// For how long nothing has come, though something was due.
    pub silence: u64,
    /// How long the answer to the last question took; 0 before the first.
    pub round_trip: u64,
    /// After how much silence the user is to know that an answer is overdue.
    pub overdue_after: u64,
    /// How many connections failed, one after another; 6 stands for more, too.
    pub failures: u64,
    /// The number of the newest connection; 0 before the first.
    pub attempt: u64,
    /// How many bytes this side's stream has, heads of packets and questions included.
    pub put_count: u64,
    /// How many of them the host has acknowledged.
    pub acknowledged: u64,
    /// How many bytes of the host's stream have come.
    pub received: u64,
    /// enum sam_line_state.
    pub state: u32,
    /// The host's reason if the line is lost, else SAM_OK.
    pub why: u32,
    /// Whether a host has welcomed the line.
    pub is_known: bool,
    /// Whether there is no connection, though there was one, or one has failed.
    pub is_broken: bool,
    /// Whether the host has acknowledged all that was put.
    pub has_all: bool,
}

/// The number by which `sam_term_read` stands for a rune that is not loaded.
pub const SAM_GAP: u32 = u32::MAX;

/// The handle of a host. It is empty if all its bytes are zero.
#[derive(Debug)]
#[repr(C)]
pub struct sam_host {
    pub at: *mut c_void,
    pub made: u64,
}

/// The handle of a terminal. It is empty if all its bytes are zero.
#[derive(Debug)]
#[repr(C)]
pub struct sam_term {
    pub at: *mut c_void,
    pub made: u64,
}

/// The handle of an overlay. It is empty if all its bytes are zero.
#[derive(Debug)]
#[repr(C)]
pub struct sam_overlay {
    pub at: *mut c_void,
    pub made: u64,
}

/// The handle of a link's end. It is empty if all its bytes are zero.
#[derive(Debug)]
#[repr(C)]
pub struct sam_link {
    pub at: *mut c_void,
    pub made: u64,
}

/// The handle of a line. It is empty if all its bytes are zero.
#[derive(Debug)]
#[repr(C)]
pub struct sam_line {
    pub at: *mut c_void,
    pub made: u64,
}

/// The handle of a client. It is empty if all its bytes are zero.
#[derive(Debug)]
#[repr(C)]
pub struct sam_client {
    pub at: *mut c_void,
    pub made: u64,
}

/// The handle of a durable server. It is empty if all its bytes are zero.
#[derive(Debug)]
#[repr(C)]
pub struct sam_server {
    pub at: *mut c_void,
    pub made: u64,
}

/// The handle of a recovery. It is empty if all its bytes are zero.
#[derive(Debug)]
#[repr(C)]
pub struct sam_recovery {
    pub at: *mut c_void,
    pub made: u64,
}

impl sam_host {
    /// An empty handle: SAM_HOST_INIT.
    pub const INIT: sam_host = sam_host {
        at: std::ptr::null_mut(),
        made: 0,
    };
}

impl sam_term {
    /// An empty handle: SAM_TERM_INIT.
    pub const INIT: sam_term = sam_term {
        at: std::ptr::null_mut(),
        made: 0,
    };
}

impl sam_overlay {
    /// An empty handle: SAM_OVERLAY_INIT.
    pub const INIT: sam_overlay = sam_overlay {
        at: std::ptr::null_mut(),
        made: 0,
    };
}

impl sam_link {
    /// An empty handle: SAM_LINK_INIT.
    pub const INIT: sam_link = sam_link {
        at: std::ptr::null_mut(),
        made: 0,
    };
}

impl sam_line {
    /// An empty handle: SAM_LINE_INIT.
    pub const INIT: sam_line = sam_line {
        at: std::ptr::null_mut(),
        made: 0,
    };
}

impl sam_client {
    /// An empty handle: SAM_CLIENT_INIT.
    pub const INIT: sam_client = sam_client {
        at: std::ptr::null_mut(),
        made: 0,
    };
}

impl sam_server {
    /// An empty handle: SAM_SERVER_INIT.
    pub const INIT: sam_server = sam_server {
        at: std::ptr::null_mut(),
        made: 0,
    };
}

impl sam_recovery {
    /// An empty handle: SAM_RECOVERY_INIT.
    pub const INIT: sam_recovery = sam_recovery {
        at: std::ptr::null_mut(),
        made: 0,
    };
}

extern "C" {
    /// Returns the version of the library that the program runs with, in the form of SAM_VERSION, which is the version of this header.
    /// Before 1.0 calls may change when the minor number grows, so a program can compare the two. The protocol has a version of its own:
    /// sam_host_version, sam_term_version.
    pub fn sam_library_version() -> u32;
    /// Returns the name of a status and a sentence about it, as "SAM_NOT_TEXT: the bytes are not UTF-8". For any other number it returns
    /// "unknown status". The text ends in NUL. The library owns it: it stays, and any thread may read it.
    pub fn sam_status_text(status: sam_status) -> *const c_char;
    /// Returns whether a status says that the handle has stopped for good. A feed, an event or a step returns one of these if the other
    /// side's stream is wrong or was refused, if a terminal has composed 2^64-1 messages, or if a count of a durable server is full. After
    /// any other status the handle goes on: SAM_NO_MEMORY, SAM_UNFINISHED, SAM_COUNT_FULL, SAM_NOT_TEXT, SAM_TRUNCATED.
    pub fn sam_is_stop(status: sam_status) -> bool;

    /// Makes a host with the command file alone (tag 0). Refused, in this order: SAM_NO_HANDLE if the handle is NULL; SAM_MADE if it is
    /// made already; SAM_NO_MEMORY. The handle is then as it was.
    pub fn sam_host_new(host: *mut sam_host) -> sam_status;
    /// Frees a host, with its pending bytes, and leaves the handle empty. Refused: SAM_NO_HANDLE if the handle is NULL or empty.
    pub fn sam_host_free(host: *mut sam_host) -> sam_status;
    /// Adds a file, clean and closed, and hands out its tag: 1 for the first, 2 for the next, and so on. The name and the text are UTF-8,
    /// and both lengths count bytes. A program may call it at any time, also on a host that has stopped. No byte becomes pending, because
    /// the answer to the terminal's next Tversion has the name. Messages that wait, as after SAM_UNFINISHED, are answered after the file
    /// has joined. Refused, in this order: SAM_NOT_TEXT if the name or the text is not UTF-8; SAM_ADD_TOO_LONG for a name of more than 64
    /// runes or a text of more than 1,000,000; SAM_ADD_NO_TAG after 65,535 files, new ones of the terminal counted; SAM_NO_MEMORY. The host
    /// is then as it was.
    pub fn sam_host_add_file(
        host: *mut sam_host,
        name: *const u8,
        name_len: usize,
        text: *const u8,
        text_len: usize,
        tag: *mut u16,
    ) -> sam_status;
    /// Takes bytes of the terminal's messages, in pieces of any length, and answers each message that is whole. The answers are then
    /// pending. Edits of one file that follow each other in one call move its text once; in several calls, each of them moves it. Refused,
    /// in this order, and the bytes are then not taken: why the host has stopped before, SAM_STREAM.. or SAM_HOST_REFUSED..; SAM_NO_MEMORY,
    /// or why the host stops, as it answers messages that waited; SAM_COUNT_FULL if the stream would have more than 2^64-1 bytes;
    /// SAM_NO_MEMORY. Two statuses come after the bytes were taken: SAM_UNFINISHED if memory is short, and why the host stops at a message
    /// of these bytes. The host has then answered all messages before the fault.
    pub fn sam_host_feed(host: *mut sam_host, bytes: *const u8, len: usize) -> sam_status;
    /// Takes bytes of the terminal's messages as sam_host_feed does, but answers none: the messages that are whole wait for sam_host_step.
    /// Refused, in this order: why the host has stopped before, SAM_STREAM.. or SAM_HOST_REFUSED..; SAM_WAITING if earlier work is left,
    /// which is so until a step has handed out SAM_STEP_IDLE; SAM_COUNT_FULL; SAM_NO_MEMORY. The bytes are then not taken, and the host is
    /// as it was.
    pub fn sam_host_bring(host: *mut sam_host, bytes: *const u8, len: usize) -> sam_status;
    /// Hands out the kind of the oldest message that waits (enum sam_kind), and the tag of the file that it names, or 0. The next step that
    /// takes a message begins with this one. Returns SAM_NONE if no message waits.
    pub fn sam_host_next_message(host: *mut sam_host, kind: *mut u8, tag: *mut u16) -> sam_status;
    /// Makes one step with the messages that wait, and hands out its result. If frames of the last answer are left over, the step makes
    /// them pending. Else the host takes edits of one file that follow each other, with the checks (Tcheck) among them; or, if no edit is
    /// next, it answers the oldest message. sam_host_feed makes steps until one is SAM_STEP_IDLE. Refused, in this order, and nothing is
    /// handed out then: why the host has stopped before, SAM_STREAM.. or SAM_HOST_REFUSED..; SAM_UNFINISHED if memory is short, and nothing
    /// has changed, so make the step again; why the host stops at this step.
    pub fn sam_host_step(host: *mut sam_host, did: *mut sam_did) -> sam_status;
    /// Tests whether the terminal's stream may end here. Call it once the host's input has ended. It changes nothing, and takes no memory.
    /// Refused, in this order: why the host has stopped before, SAM_STREAM.. or SAM_HOST_REFUSED..; SAM_UNFINISHED if some input still
    /// waits for memory; SAM_TRUNCATED if the stream ends inside a message.
    pub fn sam_host_finish(host: *mut sam_host) -> sam_status;
    /// Hands out the number of bytes of the terminal's stream before the message that is wrong, if the host has stopped at a fault of the
    /// stream (SAM_STREAM..). Returns SAM_NONE if the host goes on, or has stopped at a message that it refused.
    pub fn sam_host_fault_place(host: *mut sam_host, place: *mut u64) -> sam_status;
    /// Hands out the number of pending bytes, which are for the terminal.
    pub fn sam_host_pending(host: *mut sam_host, len: *mut usize) -> sam_status;
    /// Moves the first pending bytes into the buffer, as many as fit, and hands out their number.
    pub fn sam_host_take_out(host: *mut sam_host, into: *mut u8, room: usize, count: *mut usize) -> sam_status;
    /// Hands out the tag of the next file that the terminal asked the host to write (Twrite). Write sam_host_saved of it to disk now. Each
    /// Twrite gives its tag once, in order, so a file that was written twice comes twice. Ask after each feed, because the saved text is
    /// gone once the file is closed. Returns SAM_NONE if no tag is left.
    pub fn sam_host_next_written(host: *mut sam_host, tag: *mut u16) -> sam_status;
    /// Marks a file as dirty, open or not: for a program whose write of it failed, or that has another text on disk. If the file was clean,
    /// the frame that says so (Hdirty) is then pending, behind all answers of before. It frees no lock, and no text, dot or name changes. A
    /// program may call it at any time, also on a host that has stopped. Messages that wait, as after SAM_UNFINISHED, are answered after
    /// the mark. Refused, in this order: SAM_NONE if the tag has no file; SAM_MARK_COMMAND_FILE for tag 0; SAM_MARK_NOT_ANNOUNCED if the
    /// terminal was not told the file's name yet: the answer to its next Tversion has the name; SAM_NO_MEMORY. The host is then as it was.
    pub fn sam_host_mark_dirty(host: *mut sam_host, tag: u16) -> sam_status;
    /// Hands out whether the session is over: the terminal has sent Texit, or a command line was `q`.
    pub fn sam_host_is_done(host: *mut sam_host, done: *mut bool) -> sam_status;
    /// Hands out the number of messages that the host has answered.
    pub fn sam_host_taken(host: *mut sam_host, taken: *mut u64) -> sam_status;
    /// Hands out the version of the protocol: 1 or 2.
    pub fn sam_host_version(host: *mut sam_host, version: *mut u16) -> sam_status;
    /// Hands out the number of tags that were given, the command file's 0 included: the greatest tag is one less.
    pub fn sam_host_tags(host: *mut sam_host, count: *mut usize) -> sam_status;
    /// Hands out whether the tag has a file now. The tag of a closed file has none.
    pub fn sam_host_has_file(host: *mut sam_host, tag: u16, has: *mut bool) -> sam_status;
    /// Copies the name of a file in UTF-8, as many whole runes as fit, and hands out the number of bytes. A room of 256 bytes is always
    /// enough. Returns SAM_NONE if the tag has no file.
    pub fn sam_host_name(host: *mut sam_host, tag: u16, into: *mut u8, room: usize, len: *mut usize) -> sam_status;
    /// Hands out the length of a file's text in runes. Returns SAM_NONE if the tag has no file.
    pub fn sam_host_len(host: *mut sam_host, tag: u16, runes: *mut u32) -> sam_status;
    /// Hands out whether a file was edited since it was made or written. The command file, tag 0, is never dirty. Returns SAM_NONE if the
    /// tag has no file.
    pub fn sam_host_is_dirty(host: *mut sam_host, tag: u16, dirty: *mut bool) -> sam_status;
    /// Copies the text of a file from the place `place` on, in UTF-8, as many whole runes as fit. Hands out the number of bytes and the
    /// number of runes. Both are 0 if the place is at the end or after it, or if the next rune does not fit: 4 bytes are enough for any.
    /// Returns SAM_NONE if the tag has no file.
    pub fn sam_host_text(
        host: *mut sam_host,
        tag: u16,
        place: u32,
        into: *mut u8,
        room: usize,
        bytes: *mut usize,
        runes: *mut u32,
    ) -> sam_status;
    /// Hands out the length in runes of the text that a file had when it was written last (Twrite). Returns SAM_NONE if the tag has no
    /// file, or if the file was never written.
    pub fn sam_host_saved_len(host: *mut sam_host, tag: u16, runes: *mut u32) -> sam_status;
    /// Copies the text that a file had when it was written last (Twrite), from the place `place` on, as sam_host_text does. Returns
    /// SAM_NONE if the tag has no file, or if the file was never written.
    pub fn sam_host_saved(
        host: *mut sam_host,
        tag: u16,
        place: u32,
        into: *mut u8,
        room: usize,
        bytes: *mut usize,
        runes: *mut u32,
    ) -> sam_status;
    /// Hands out the dot of a file: the places where its selection begins and ends. Returns SAM_NONE if the tag has no file.
    pub fn sam_host_dot(host: *mut sam_host, tag: u16, start: *mut u32, end: *mut u32) -> sam_status;
    /// Hands out the length of the snarf buffer in runes.
    pub fn sam_host_snarf_len(host: *mut sam_host, runes: *mut u32) -> sam_status;
    /// Copies the snarf buffer from the place `place` on, in UTF-8, as many whole runes as fit. Hands out the number of bytes and the
    /// number of runes.
    pub fn sam_host_snarf(host: *mut sam_host, place: u32, into: *mut u8, room: usize, bytes: *mut usize, runes: *mut u32) -> sam_status;

    /// Makes a terminal that knows no file. Refused, in this order: SAM_NO_HANDLE if the handle is NULL; SAM_MADE if it is made already;
    /// SAM_NO_MEMORY. The handle is then as it was.
    pub fn sam_term_new(term: *mut sam_term) -> sam_status;
    /// Frees a terminal, with its pending bytes, and leaves the handle empty. Refused: SAM_NO_HANDLE if the handle is NULL or empty.
    pub fn sam_term_free(term: *mut sam_term) -> sam_status;
    /// Types a text in the place of the selection, which is then empty and after the text. The terminal sends the text with the text that
    /// is typed after it, at the latest before any other message. Refused by number, after the reasons of all events:
    /// SAM_REFUSAL_TEXT_TOO_LONG for more than 512 runes, which sam_term_type_text takes; SAM_REFUSAL_TOO_LONG if the file would have more
    /// than 1,000,000 runes.
    pub fn sam_term_type(term: *mut sam_term, tag: u16, text: *const u8, len: usize) -> sam_status;
    /// Types a text of any length: it is cut into events of 512 runes each, but for the last, and they are made in order, as by
    /// sam_term_type. An empty text is one event. Hands out how many bytes of the text the events have that were taken. It ends with the
    /// first event that is not answered by SAM_OK: what was taken before stays. If that answer is SAM_UNFINISHED, this event was taken,
    /// too, and its bytes count; after any other answer they don't. Refused, in this order: SAM_NOT_TEXT; SAM_NO_MEMORY if there is none
    /// for the runes of the text. The terminal is then as it was, and the number is 0. Each event may be refused by number, as one of
    /// sam_term_type.
    pub fn sam_term_type_text(term: *mut sam_term, tag: u16, text: *const u8, len: usize, taken: *mut usize) -> sam_status;
    /// Replaces the runes from the place `start` to the place `end` by a text of any length, all or nothing. An empty text takes the runes
    /// out. The places are those of the file's text when the event acts. The dot moves as other places do, and the snarf buffer stays as it
    /// is. Refused by number, in this order, and nothing is changed then: SAM_REFUSAL_EXITED; SAM_REFUSAL_NO_FILE; SAM_REFUSAL_COMMAND_FILE
    /// for tag 0; SAM_REFUSAL_NOT_OPEN; SAM_REFUSAL_BAD_POSITION if `end` is below `start` or after the end of the file;
    /// SAM_REFUSAL_TOO_LONG if the file would have more than 1,000,000 runes.
    pub fn sam_term_edit(term: *mut sam_term, tag: u16, start: u32, end: u32, text: *const u8, len: usize) -> sam_status;
    /// Selects the runes from the place `start` to the place `end`: they are the dot. Refused by number, after the reasons of all events:
    /// SAM_REFUSAL_BAD_POSITION if `end` is below `start` or after the end of the file.
    pub fn sam_term_select(term: *mut sam_term, tag: u16, start: u32, end: u32) -> sam_status;
    /// Cuts the selection into the snarf buffer. Nothing changes if the selection is empty.
    pub fn sam_term_cut(term: *mut sam_term, tag: u16) -> sam_status;
    /// Pastes the snarf buffer in the place of the selection, and selects it. If the buffer is empty, or the file would have more than
    /// 1,000,000 runes, the selection goes and nothing comes.
    pub fn sam_term_paste(term: *mut sam_term, tag: u16) -> sam_status;
    /// Copies the selection into the snarf buffer. Nothing changes if the selection is empty.
    pub fn sam_term_snarf(term: *mut sam_term, tag: u16) -> sam_status;
    /// Selects the next occurrence of the selected text, which becomes the pattern. Nothing changes if the selection is empty or has more
    /// than 128 runes.
    pub fn sam_term_look(term: *mut sam_term, tag: u16) -> sam_status;
    /// Selects the next occurrence of the pattern. Nothing changes if there is no pattern or no occurrence.
    pub fn sam_term_search(term: *mut sam_term, tag: u16) -> sam_status;
    /// Prints the selected text in the command file, and runs its last line as a command. Nothing changes if the selection is empty, or if
    /// the command file would have more than 1,000,000 runes.
    pub fn sam_term_send(term: *mut sam_term, tag: u16) -> sam_status;
    /// Selects the word round a place. Refused by number, after the reasons of all events: SAM_REFUSAL_BAD_POSITION if the place is after
    /// the end of the file.
    pub fn sam_term_dclick(term: *mut sam_term, tag: u16, place: u32) -> sam_status;
    /// Scrolls the view of the file up by `lines` lines.
    pub fn sam_term_scroll(term: *mut sam_term, tag: u16, lines: u32) -> sam_status;
    /// Shows at most `len` runes of the file from the place `place` on, and asks for those that are not loaded: for at most 512 at a time,
    /// and then for the next. It goes on to ask whenever a change brings gaps into the view. An empty view, of `len` 0, asks for nothing by
    /// itself. Refused by number, after the reasons of all events: SAM_REFUSAL_BAD_POSITION if the place is after the end of the file.
    pub fn sam_term_view(term: *mut sam_term, tag: u16, place: u32, len: u32) -> sam_status;
    /// Shows the same runes as sam_term_view, and asks at once for all that are not loaded, in at most 1,954 stretches of 512 runes. So the
    /// longest text comes in one round trip. Each stretch is a message of 11 bytes, and the file is locked until all are answered: if the
    /// user may want to type meanwhile, ask for a long text in parts. The view goes on to ask, as sam_term_view says. If a command line
    /// puts more than 512 runes in at each of many places, a file that is shown whole stays locked for a round trip a place. So call
    /// sam_term_view(term, tag, 0, 0) once all is loaded: then the next sam_term_load asks for all gaps in one round trip. Refused by
    /// number as sam_term_view is.
    pub fn sam_term_load(term: *mut sam_term, tag: u16, place: u32, len: u32) -> sam_status;
    /// Opens a file. Command lines work on it then. All other events of a file need it open. Refused by number, in this order:
    /// SAM_REFUSAL_EXITED; SAM_REFUSAL_NO_FILE; SAM_REFUSAL_COMMAND_FILE for tag 0.
    pub fn sam_term_open(term: *mut sam_term, tag: u16) -> sam_status;
    /// Opens the command file.
    pub fn sam_term_open_cmd(term: *mut sam_term) -> sam_status;
    /// Makes an empty file, and opens it. Command lines work on it then. If all tags are given it makes none, and the command file says `?
    /// no tag`.
    pub fn sam_term_new_file(term: *mut sam_term) -> sam_status;
    /// Asks the host to write a file: the host keeps a copy of its text (sam_host_saved), and the file is then clean. Refused by number as
    /// sam_term_close is.
    pub fn sam_term_write(term: *mut sam_term, tag: u16) -> sam_status;
    /// Closes a file for good: the host drops its text, written or not. Refused by number, in this order: SAM_REFUSAL_EXITED;
    /// SAM_REFUSAL_NO_FILE; SAM_REFUSAL_COMMAND_FILE for tag 0; SAM_REFUSAL_NOT_OPEN.
    pub fn sam_term_close(term: *mut sam_term, tag: u16) -> sam_status;
    /// Makes a file, with its dot, the one that command lines work on. Refused by number as sam_term_close is.
    pub fn sam_term_work(term: *mut sam_term, tag: u16) -> sam_status;
    /// Asks for the first gap that the view shows. The host answers, and no text changes.
    pub fn sam_term_check(term: *mut sam_term, tag: u16) -> sam_status;
    /// Asks for the host's snarf buffer: sam_term_snarfed hands it out once the answer has come.
    pub fn sam_term_get_snarf(term: *mut sam_term) -> sam_status;
    /// Gives the host another snarf buffer: at most 4,096 bytes, or 32,000 in version 2. Refused by number: SAM_REFUSAL_EXITED; then
    /// SAM_REFUSAL_TEXT_TOO_LONG for a longer text.
    pub fn sam_term_set_snarf(term: *mut sam_term, text: *const u8, len: usize) -> sam_status;
    /// Offers a version of the protocol, and asks for all names. Before it the terminal knows none of the host's files, and refuses each
    /// event on one. Events after it wait for the answer. Offer the version again to learn of files that joined the host since. Refused by
    /// number: SAM_REFUSAL_EXITED; then SAM_REFUSAL_BAD_VERSION for version 0.
    pub fn sam_term_offer_version(term: *mut sam_term, version: u16) -> sam_status;
    /// Sends the typed runes, once the events before this one have acted.
    pub fn sam_term_flush(term: *mut sam_term) -> sam_status;
    /// Ends the session.
    pub fn sam_term_exit(term: *mut sam_term) -> sam_status;
    /// Takes bytes of the host's frames, in pieces of any length. The terminal receives each frame that is whole, and then held events act.
    /// Refused, in this order, and the bytes are then not taken: why the terminal has stopped before, SAM_STREAM.. or SAM_TERM_REFUSED..;
    /// SAM_NO_MEMORY, or why the terminal stops, as it goes on with earlier input; SAM_COUNT_FULL if the stream would have more than 2^64-1
    /// bytes; SAM_NO_MEMORY. Two statuses come after the bytes were taken: SAM_UNFINISHED if memory is short, and why the terminal stops at
    /// a frame of these bytes or at an event.
    pub fn sam_term_feed(term: *mut sam_term, bytes: *const u8, len: usize) -> sam_status;
    /// Takes bytes of the host's frames as sam_term_feed does, but receives none: the frames that are whole wait for sam_term_step.
    /// Refused, in this order: why the terminal has stopped before, SAM_STREAM.. or SAM_TERM_REFUSED..; SAM_WAITING if earlier work is
    /// left, which is so until a step has handed out SAM_STEP_IDLE or SAM_STEP_LOCKED; SAM_COUNT_FULL; SAM_NO_MEMORY. The bytes are then
    /// not taken, and the terminal is as it was.
    pub fn sam_term_bring(term: *mut sam_term, bytes: *const u8, len: usize) -> sam_status;
    /// Hands out the `kind`, `tag`, `start`, `gone` and `loads` of the step that will receive the oldest frame that waits. So a program can
    /// read the runes that will go. `came` is 0. Returns SAM_NONE if no frame waits.
    pub fn sam_term_next_frame(term: *mut sam_term, next: *mut sam_did) -> sam_status;
    /// Makes one step with the frames and events that wait, and hands out its result. If messages that were composed last are left over,
    /// the step makes them pending. Else the terminal receives the oldest frame. If no frame waits, the oldest event acts or is refused.
    /// sam_term_feed makes steps until one is SAM_STEP_IDLE or SAM_STEP_LOCKED; the call of an event and sam_term_flush_now make all that
    /// are left. Refused, in this order, and nothing is handed out then: why the terminal has stopped before, SAM_STREAM.. or
    /// SAM_TERM_REFUSED..; SAM_UNFINISHED if memory is short, and nothing has changed, so make the step again; why the terminal stops at
    /// this step.
    pub fn sam_term_step(term: *mut sam_term, did: *mut sam_did) -> sam_status;
    /// Makes steps as long as the next frame edits a text (Hgrowdata or Hcut), and hands out the result of each in `did`, which has room
    /// for `most` of them. *got counts the results. The room after them is not kept. All edits are of one file. None begins before the
    /// place `first`, and none ends after the place where the one before it began. So a program can read the runes that go before the call,
    /// and the runes that came after it. Returns SAM_OK also if the next frame is no edit of these. If a step is not made, it returns the
    /// status of that step, and *got counts the steps before. After SAM_NO_HANDLE *got is as it was.
    pub fn sam_term_step_edits(term: *mut sam_term, first: u32, did: *mut sam_did, most: usize, got: *mut usize) -> sam_status;
    /// Hands out the fields of sam_state at once, each as the reader of its name does.
    pub fn sam_term_state(term: *mut sam_term, state: *mut sam_state) -> sam_status;
    /// Hands out the answers of several readers of one tag at once: sam_term_is_known, _is_open, _is_dirty, _is_changed, _locked, _len,
    /// _dot and _view_of, and whether an edit would act at once. A tag without a file is no error.
    pub fn sam_term_file(term: *mut sam_term, tag: u16, file: *mut sam_file) -> sam_status;
    /// Tests whether the host's stream may end here. Call it once the terminal's input has ended. It changes nothing, and takes no memory.
    /// Refused, in this order: why the terminal has stopped before, SAM_STREAM.. or SAM_TERM_REFUSED..; SAM_UNFINISHED if some input, or a
    /// message that was composed, still waits for memory; SAM_TRUNCATED if the stream ends inside a frame. sam_term_held has the number of
    /// events that wait.
    pub fn sam_term_finish(term: *mut sam_term) -> sam_status;
    /// Hands out the number of bytes of the host's stream before the frame that is wrong, if the terminal has stopped at a fault of the
    /// stream (SAM_STREAM..). Returns SAM_NONE if the terminal goes on, or has stopped because of a refusal.
    pub fn sam_term_fault_place(term: *mut sam_term, place: *mut u64) -> sam_status;
    /// Composes the typed runes that are not sent yet. Call it when the user pauses, before the program sleeps. Refused, in this order: why
    /// the terminal has stopped before, SAM_STREAM.. or SAM_TERM_REFUSED..; SAM_NO_MEMORY, or why the terminal stops, as it goes on with
    /// earlier input; SAM_TERM_COUNT_FULL after 2^64-1 messages, and then SAM_NO_MEMORY: the runes are as they were. Two statuses come
    /// after the runes were composed: SAM_UNFINISHED if memory is short, and why the terminal stops at an event.
    pub fn sam_term_flush_now(term: *mut sam_term) -> sam_status;
    /// Hands out the number of pending bytes, which are for the host.
    pub fn sam_term_pending(term: *mut sam_term, len: *mut usize) -> sam_status;
    /// Moves the first pending bytes into the buffer, as many as fit, and hands out their number.
    pub fn sam_term_take_out(term: *mut sam_term, into: *mut u8, room: usize, count: *mut usize) -> sam_status;
    /// Hands out the oldest refused event that was not handed out yet: its number, counted from 1 over all event calls that were taken, and
    /// the reason (SAM_REFUSAL..). The terminal keeps refusals that nobody asks for. Returns SAM_NONE if there is none.
    pub fn sam_term_next_refusal(term: *mut sam_term, event: *mut u64, why: *mut sam_status) -> sam_status;
    /// Hands out the number of event calls that were taken. Right after a call that was taken (SAM_OK, SAM_UNFINISHED) it is the number of
    /// that event, by which sam_term_next_refusal names it.
    pub fn sam_term_events(term: *mut sam_term, events: *mut u64) -> sam_status;
    /// Hands out the number of events that have acted or were refused. Events are done in order. So if this number equals that of
    /// sam_term_events, the event that was taken last has acted or was refused; if it is smaller, that event is held.
    pub fn sam_term_decided(term: *mut sam_term, events: *mut u64) -> sam_status;
    /// Hands out the number of tags that the terminal has room for: each file that it knows has a tag below this.
    pub fn sam_term_tags(term: *mut sam_term, count: *mut usize) -> sam_status;
    /// Hands out whether the terminal knows a file of this tag.
    pub fn sam_term_is_known(term: *mut sam_term, tag: u16, known: *mut bool) -> sam_status;
    /// Copies the name of a known file in UTF-8, as many whole runes as fit, and hands out the number of bytes. A room of 256 bytes is
    /// always enough. Returns SAM_NONE if the terminal knows no file of this tag.
    pub fn sam_term_name(term: *mut sam_term, tag: u16, into: *mut u8, room: usize, len: *mut usize) -> sam_status;
    /// Hands out whether a known file is dirty, as the host said last. Returns SAM_NONE if the terminal knows no file of this tag.
    pub fn sam_term_is_dirty(term: *mut sam_term, tag: u16, dirty: *mut bool) -> sam_status;
    /// Hands out whether a file may differ from the text that was written last: the host said that it is dirty, or the user typed into it
    /// or cut from it here since. A held event has changed nothing yet. The command file is never written, and never changed.
    pub fn sam_term_is_changed(term: *mut sam_term, tag: u16, changed: *mut bool) -> sam_status;
    /// Hands out whether a file is open.
    pub fn sam_term_is_open(term: *mut sam_term, tag: u16, open: *mut bool) -> sam_status;
    /// Hands out the file that the host's answer to sam_term_work or sam_term_new_file named last. It may be closed since. sam_term_open
    /// also changes the file that command lines work on, but not the answer of this call. Returns SAM_NONE if the host has named none yet.
    pub fn sam_term_current(term: *mut sam_term, tag: *mut u16) -> sam_status;
    /// Hands out the length of an open file in runes, gaps counted. Returns SAM_NONE if the file is not open.
    pub fn sam_term_len(term: *mut sam_term, tag: u16, runes: *mut u32) -> sam_status;
    /// Copies the runes of an open file from the place `place` on as numbers, as many as there are and fit, with SAM_GAP for each that is
    /// not loaded. Hands out their number. The room counts runes. Returns SAM_NONE if the file is not open.
    pub fn sam_term_read(term: *mut sam_term, tag: u16, place: u32, into: *mut u32, room: usize, count: *mut u32) -> sam_status;
    /// Copies the text of an open file from the place `place` on, up to the first rune that is not loaded, in UTF-8, as many whole runes as
    /// fit. Hands out the number of bytes and the number of runes. Both are 0 if a gap is at the place, if the place is at the end or after
    /// it, or if the next rune does not fit. Returns SAM_NONE if the file is not open.
    pub fn sam_term_text(
        term: *mut sam_term,
        tag: u16,
        place: u32,
        into: *mut u8,
        room: usize,
        bytes: *mut usize,
        runes: *mut u32,
    ) -> sam_status;
    /// Counts the bytes that the loaded runes of an open file take in UTF-8 from the place `start` to the place `end`, and the runes there
    /// that are not loaded. Runes after the end of the text don't count, and none counts if `end` is not after `start`. The cost of this
    /// call and the next six grows by the logarithm of the number of stretches that are loaded or not, wherever the places are, and by at
    /// most 1,024 runes. Returns SAM_NONE if the file is not open.
    pub fn sam_term_bytes(term: *mut sam_term, tag: u16, start: u32, end: u32, bytes: *mut usize, gaps: *mut u32) -> sam_status;
    /// Hands out the place after the loaded runes of an open file that `bytes` bytes of UTF-8 hold whole, from the place `start` on. It is
    /// at the latest the first gap, or the end of the text; and it is `start` if that is after the end. Returns SAM_NONE if the file is not
    /// open.
    pub fn sam_term_place(term: *mut sam_term, tag: u16, start: u32, bytes: usize, place: *mut u32) -> sam_status;
    /// Counts the code units that the loaded runes of an open file take in UTF-16 from the place `start` to the place `end`, two for each
    /// rune from U+10000 on and one for any other, and the runes there that are not loaded. Runes after the end of the text don't count,
    /// and none counts if `end` is not after `start`. Returns SAM_NONE if the file is not open.
    pub fn sam_term_units(term: *mut sam_term, tag: u16, start: u32, end: u32, units: *mut u32, gaps: *mut u32) -> sam_status;
    /// Hands out the place after the loaded runes of an open file that `units` code units of UTF-16 hold whole, from the place `start` on.
    /// It is at the latest the first gap, or the end of the text; and it is `start` if that is after the end. Returns SAM_NONE if the file
    /// is not open.
    pub fn sam_term_unit_place(term: *mut sam_term, tag: u16, start: u32, units: u32, place: *mut u32) -> sam_status;
    /// Hands out the place after the next `lines` line ends (U+000A) of an open file, from the place `start` on: a line begins there. For 0
    /// line ends it is `start`, wherever that is. Returns SAM_NONE if the file is not open, or if a gap or the end of the text comes before
    /// the last of them.
    pub fn sam_term_line(term: *mut sam_term, tag: u16, start: u32, lines: u32, place: *mut u32) -> sam_status;
    /// Hands out the place where a line of an open file begins: the line that is `lines` lines before the line of the place `start`, or
    /// that line itself for 0. Returns SAM_NONE if the file is not open, if a gap comes first, read backwards from `start`, if there are
    /// fewer lines, or if `start` is after the end of the text.
    pub fn sam_term_line_before(term: *mut sam_term, tag: u16, start: u32, lines: u32, place: *mut u32) -> sam_status;
    /// Counts the line ends (U+000A) among the loaded runes of an open file from the place `start` to the place `end`, and the runes there
    /// that are not loaded. Runes after the end of the text don't count, and none counts if `end` is not after `start`. So if all is loaded
    /// before a place, the line of that place is 1 plus the line ends from 0 to it. Returns SAM_NONE if the file is not open.
    pub fn sam_term_lines(term: *mut sam_term, tag: u16, start: u32, end: u32, lines: *mut u32, gaps: *mut u32) -> sam_status;
    /// Hands out the change of an open file's text since the last call for this file: in the old text `gone` runes or gaps from the place
    /// `start` on gave way to `came` of the new one, and all else is as it was. It is the smallest such stretch that holds all that each
    /// frame and each event of the user touched by itself. `gone` and `came` are both 0 if none touched anything. Loading touches the runes
    /// that it loads: `gone` and `came` are the same there. On the first call for a file its text was empty before. A program that asks
    /// after each event and after each frame, while no event is held, gets each edit: it feeds the frames one by one. Refused, in this
    /// order, and nothing is handed out then: SAM_NONE if the file is not open; SAM_NO_MEMORY, on the first call for a file alone.
    pub fn sam_term_changed(term: *mut sam_term, tag: u16, start: *mut u32, gone: *mut u32, came: *mut u32) -> sam_status;
    /// Hands out the first place of an open file, at or after `place`, whose rune is not loaded. Returns SAM_NONE if the file is not open,
    /// or if all are loaded from there on: sam_term_is_open tells the two apart.
    pub fn sam_term_first_gap(term: *mut sam_term, tag: u16, place: u32, gap: *mut u32) -> sam_status;
    /// Hands out the dot of an open file: the places where its selection begins and ends. Returns SAM_NONE if the file is not open.
    pub fn sam_term_dot(term: *mut sam_term, tag: u16, start: *mut u32, end: *mut u32) -> sam_status;
    /// Hands out the view of an open file: the places where it begins and ends. Returns SAM_NONE if the file is not open.
    pub fn sam_term_view_of(term: *mut sam_term, tag: u16, start: *mut u32, end: *mut u32) -> sam_status;
    /// Hands out whether the command lock or a lock of this file is held: an edit of the file would wait.
    pub fn sam_term_locked(term: *mut sam_term, tag: u16, locked: *mut bool) -> sam_status;
    /// Hands out whether the command lock is held.
    pub fn sam_term_command_locked(term: *mut sam_term, locked: *mut bool) -> sam_status;
    /// Hands out the number of held events. No call hands out their texts or places.
    pub fn sam_term_held(term: *mut sam_term, events: *mut u64) -> sam_status;
    /// Hands out the number of typed runes that are not sent yet.
    pub fn sam_term_unsent(term: *mut sam_term, runes: *mut u32) -> sam_status;
    /// Hands out the number of messages that were composed.
    pub fn sam_term_sent(term: *mut sam_term, messages: *mut u64) -> sam_status;
    /// Hands out the number of messages in flight: those that were composed and that the host has not taken, as far as its frames say. 0
    /// means that it has taken them all. Any other number is an upper bound, because the host sends no frame for some messages: for typing
    /// (but for the end of a command line), for the cutting of a selection, and for the acknowledgement that the terminal sends after each
    /// sam_term_offer_version. They count until the host answers a later message. sam_term_check asks for an answer that changes no text.
    pub fn sam_term_under_way(term: *mut sam_term, messages: *mut u64) -> sam_status;
    /// Copies the pattern that the host reported last, in UTF-8, as many whole runes as fit, and hands out the number of bytes. A room of
    /// 512 bytes is always enough.
    pub fn sam_term_pattern(term: *mut sam_term, into: *mut u8, room: usize, len: *mut usize) -> sam_status;
    /// Copies the snarfed text that the host sent last (sam_term_get_snarf), from the place `place` on, in UTF-8, as many whole runes as
    /// fit. Hands out the number of bytes and the number of runes. The text may be only the front of the host's buffer, because at most
    /// 4,096 bytes come, or 32,000 in version 2.
    pub fn sam_term_snarfed(term: *mut sam_term, place: u32, into: *mut u8, room: usize, bytes: *mut usize, runes: *mut u32) -> sam_status;
    /// Hands out the length of the host's snarf buffer in runes, as the host said last.
    pub fn sam_term_snarf_len(term: *mut sam_term, runes: *mut u32) -> sam_status;
    /// Hands out whether the host has ended the session.
    pub fn sam_term_exited(term: *mut sam_term, exited: *mut bool) -> sam_status;
    /// Hands out the version of the protocol that both sides speak: 1, or 2 if both know it. Version 2 allows longer snarfed texts.
    pub fn sam_term_version(term: *mut sam_term, version: *mut u16) -> sam_status;

    /// Makes an overlay over a terminal that knows no file. Refused, in this order: SAM_NO_HANDLE if the handle is NULL; SAM_MADE if it is
    /// made already; SAM_NO_MEMORY. The handle is then as it was.
    pub fn sam_overlay_new(overlay: *mut sam_overlay) -> sam_status;
    /// Frees an overlay, with what waits and with its pending bytes, and leaves the handle empty. Refused: SAM_NO_HANDLE if the handle is
    /// NULL or empty.
    pub fn sam_overlay_free(overlay: *mut sam_overlay) -> sam_status;
    /// Takes bytes of the host's frames, in pieces of any length, and receives none: the frames that are whole wait for sam_overlay_step.
    /// Refused, in this order, and the overlay is then as it was: why the terminal has stopped before, SAM_STREAM.. or SAM_TERM_REFUSED..;
    /// SAM_WAITING if earlier work is left, which is so until a step has handed out SAM_STEP_IDLE or SAM_STEP_LOCKED, and while an edit was
    /// put that has not acted; SAM_COUNT_FULL; SAM_NO_MEMORY.
    pub fn sam_overlay_bring(overlay: *mut sam_overlay, bytes: *const u8, len: usize) -> sam_status;
    /// Makes one step with the frames and events that wait, as sam_term_step does, and hands out its result. Its change is that of the
    /// terminal's text; that of the shown text is then handed out by sam_overlay_next_splice. By an edit that was put nothing that is shown
    /// changes. If a request acted or was refused, `request` is its number, as sam_overlay_ask handed it out: each is told once, in their
    /// order. Refused, in this order, and nothing is handed out then: SAM_WAITING if splices are left; why the terminal has stopped before,
    /// SAM_STREAM.. or SAM_TERM_REFUSED..; SAM_UNFINISHED if memory is short, and nothing has changed, so make the step again; why the
    /// terminal stops at this step: what is shown, and what waits, is as it was.
    pub fn sam_overlay_step(overlay: *mut sam_overlay, did: *mut sam_did) -> sam_status;
    /// Hands out the next change of the shown text by the last step. Returns SAM_NONE if none is left.
    pub fn sam_overlay_next_splice(overlay: *mut sam_overlay, splice: *mut sam_splice) -> sam_status;
    /// Tests whether the host's stream may end here, as sam_term_finish does, with its refusals. It changes nothing.
    pub fn sam_overlay_finish(overlay: *mut sam_overlay) -> sam_status;
    /// Hands out the number of bytes of the host's stream before the frame that is wrong, as sam_term_fault_place does.
    pub fn sam_overlay_fault_place(overlay: *mut sam_overlay, place: *mut u64) -> sam_status;
    /// Hands out the number of pending bytes, which are for the host.
    pub fn sam_overlay_pending(overlay: *mut sam_overlay, len: *mut usize) -> sam_status;
    /// Moves the first pending bytes into the buffer, as many as fit, and hands out their number.
    pub fn sam_overlay_take_out(overlay: *mut sam_overlay, into: *mut u8, room: usize, count: *mut usize) -> sam_status;
    /// Replaces the shown runes of a file from the place `start` to the place `end` by a text of any length, all or nothing. The new runes
    /// stand behind what is shown before `start`. They are shown at once, and wait for sam_overlay_put_next; no lock refuses them, and no
    /// request that was asked for before finds them. Refused, in this order, and the overlay is then as it was: SAM_NOT_TEXT; SAM_NO_MEMORY
    /// if there is no memory for the runes; SAM_WAITING if splices are left; SAM_REFUSAL_EXITED if a request waits that ends the session;
    /// SAM_REFUSAL_NOT_OPEN if one waits that closes the file; SAM_REFUSAL_EXITED if the session is over; why the terminal has stopped
    /// before, SAM_STREAM.. or SAM_TERM_REFUSED..; SAM_REFUSAL_NO_FILE; SAM_REFUSAL_COMMAND_FILE for tag 0; SAM_REFUSAL_NOT_OPEN;
    /// SAM_REFUSAL_BAD_POSITION if `end` is below `start` or after the end of the shown text; SAM_REFUSAL_TOO_LONG if there are runes, and
    /// these, the terminal's text and all that waits over it are more than 1,000,000; SAM_NO_MEMORY, also while an edit of the file was put
    /// that has not acted: make steps first.
    pub fn sam_overlay_replace(overlay: *mut sam_overlay, tag: u16, start: u32, end: u32, text: *const u8, len: usize) -> sam_status;
    /// Puts the next edit of those that wait over a file as an event, if it can act at once, and hands out what became of it. The edit is
    /// one removal, or one insertion of any length, and none that stands behind a request of the file or of the command lock. Call it, and
    /// make a step, as long as it hands out SAM_PUT_EDIT. Refused, in this order, and the overlay is then as it was: why the terminal has
    /// stopped before, SAM_STREAM.. or SAM_TERM_REFUSED..; SAM_REFUSAL_TOO_LONG if the file would have more than 1,000,000 runes, because
    /// the host put more in meanwhile; SAM_COUNT_FULL after 2^64-1 events; SAM_NO_MEMORY.
    pub fn sam_overlay_put_next(overlay: *mut sam_overlay, tag: u16, put: *mut sam_put) -> sam_status;
    /// Takes back the next insertion that waits over a file, if an edit could act at once and the file has no room for this one: that is
    /// where sam_overlay_put_next answers SAM_REFUSAL_TOO_LONG. Copies its runes in UTF-8, all of them, and hands out the number of bytes,
    /// and the splice by which they went of the shown text: its kind is SAM_SPLICE_WENT, and its `count` 0 if a later edit had taken them
    /// out. They go from the text that each request of the file finds, too, and the places that it names move with that. Refused, in this
    /// order, and overlay and buffer are then as they were: SAM_WAITING if splices are left; SAM_NO_ROOM if the room is less than four
    /// bytes for each rune that sam_overlay_waiting counts; SAM_NONE if nothing is to be taken back; SAM_NO_MEMORY.
    pub fn sam_overlay_drop_next(
        overlay: *mut sam_overlay,
        tag: u16,
        splice: *mut sam_splice,
        into: *mut u8,
        room: usize,
        len: *mut usize,
    ) -> sam_status;
    /// Asks for what is no edit: an event (enum sam_event_kind), with its text if it brings one. It stands in one order with the edits: it
    /// acts by sam_overlay_act_next, once all edits before it are put, and finds the text that is shown now, with the host's changes since.
    /// A place that it names moves with that text, as of sam_client_ask. Hands out the number of the request, counted from 1 over those
    /// that were taken: sam_overlay_step tells by it, once, that the request acted or was refused. A write that would find the same text as
    /// one that waits is that one, and has its number. Refused, in this order, and overlay and number are then as they were: SAM_NOT_TEXT
    /// if the text is not UTF-8; SAM_NO_MEMORY if there is no memory for its runes; SAM_NONE if no event has this kind; SAM_COUNT_FULL if
    /// 2^64-1 requests were taken; SAM_WAITING while an edit was put that has not acted: make a step first; SAM_TOO_MANY if 1,000 requests
    /// wait; SAM_COUNT_FULL if 2^32-1 were taken while edits or requests waited; SAM_NO_MEMORY.
    pub fn sam_overlay_ask(overlay: *mut sam_overlay, event: *const sam_event, text: *const u8, len: usize, number: *mut u64)
        -> sam_status;
    /// Has the oldest request act, if all edits before it are put and it can act at once, and hands out what became of it: at
    /// SAM_TURN_REQUEST it waits no more, and the next step has it act, or refuses it. A request waits for the edits of its file; one that
    /// takes the command lock for those of all files. Call it before sam_overlay_put_next, and make a step, as long as it hands out
    /// SAM_TURN_REQUEST. Its refusals are those of sam_overlay_put_next, in its order, without SAM_REFUSAL_TOO_LONG.
    pub fn sam_overlay_act_next(overlay: *mut sam_overlay, turn: *mut sam_turn) -> sam_status;
    /// Hands out the number of requests that wait, those not among them that the terminal has.
    pub fn sam_overlay_requests(overlay: *mut sam_overlay, count: *mut usize) -> sam_status;
    /// Takes an event beside the requests that wait, which stay. It waits for sam_overlay_step. The text is that of SAM_EVENT_SET_SNARF and
    /// of SAM_EVENT_TYPE_CMD; for other kinds `len` is 0. An event acts on the terminal's text: so put all that waits over its file first,
    /// or ask for it by sam_overlay_ask. Refused, in this order, and the overlay is then as it was: SAM_NOT_TEXT if the text is not UTF-8;
    /// SAM_NO_MEMORY if there is no memory for its runes; SAM_NONE if no event has this kind; why the terminal has stopped before,
    /// SAM_STREAM.. or SAM_TERM_REFUSED..; SAM_WAITING as for sam_overlay_bring; SAM_COUNT_FULL after 2^64-1 events; SAM_NO_MEMORY.
    pub fn sam_overlay_bring_event(overlay: *mut sam_overlay, event: *const sam_event, text: *const u8, len: usize) -> sam_status;
    /// Hands out the oldest refused event that was not handed out yet: its number, counted from 1 over all events that were taken and all
    /// edits that were put, and the reason (SAM_REFUSAL..). Returns SAM_NONE if there is none.
    pub fn sam_overlay_next_refusal(overlay: *mut sam_overlay, event: *mut u64, why: *mut sam_status) -> sam_status;
    /// Hands out the fields of sam_state at once, each as the reader sam_term_.. of its name does.
    pub fn sam_overlay_state(overlay: *mut sam_overlay, state: *mut sam_state) -> sam_status;
    /// Hands out the answers of several readers of one tag at once, as sam_term_file does. A tag without a file is no error. `len`, the dot
    /// and the view are those of the terminal's text.
    pub fn sam_overlay_file(overlay: *mut sam_overlay, tag: u16, file: *mut sam_file) -> sam_status;
    /// Copies the name of a known file in UTF-8, as many whole runes as fit, and hands out the number of bytes. A room of 256 bytes is
    /// always enough. Returns SAM_NONE if the terminal knows no file of this tag.
    pub fn sam_overlay_name(overlay: *mut sam_overlay, tag: u16, into: *mut u8, room: usize, len: *mut usize) -> sam_status;
    /// Hands out the file that the host's answer to SAM_EVENT_WORK or SAM_EVENT_NEW_FILE named last. It may be closed since. Returns
    /// SAM_NONE if the host has named none yet.
    pub fn sam_overlay_current(overlay: *mut sam_overlay, tag: *mut u16) -> sam_status;
    /// Copies the pattern that the host reported last, in UTF-8, as many whole runes as fit, and hands out the number of bytes. A room of
    /// 512 bytes is always enough.
    pub fn sam_overlay_pattern(overlay: *mut sam_overlay, into: *mut u8, room: usize, len: *mut usize) -> sam_status;
    /// Copies the snarfed text that the host sent last (SAM_EVENT_GET_SNARF), from the place `place` on, in UTF-8, as many whole runes as
    /// fit. Hands out the number of bytes and the number of runes.
    pub fn sam_overlay_snarfed(
        overlay: *mut sam_overlay,
        place: u32,
        into: *mut u8,
        room: usize,
        bytes: *mut usize,
        runes: *mut u32,
    ) -> sam_status;
    /// Hands out the number of runes that wait over a file, those that a later edit takes out among them. 0 if the file is not open, or if
    /// nothing or only what takes runes out waits.
    pub fn sam_overlay_waiting(overlay: *mut sam_overlay, tag: u16, runes: *mut u32) -> sam_status;
    /// Hands out the first file from the tag `from` on over which an edit waits, also one that only takes runes out. To find all, go on
    /// behind each. Returns SAM_NONE if there is none.
    pub fn sam_overlay_next_waiting(overlay: *mut sam_overlay, from: u16, tag: *mut u16) -> sam_status;
    /// Hands out the length of the shown text of an open file in runes, gaps counted. Returns SAM_NONE if the file is not open.
    pub fn sam_overlay_len(overlay: *mut sam_overlay, tag: u16, runes: *mut u32) -> sam_status;
    /// Hands out the first place of the shown text of an open file, at or after `place`, whose rune is not loaded. Returns SAM_NONE if the
    /// file is not open, or if all are loaded from there on: sam_overlay_len tells the two apart.
    pub fn sam_overlay_first_gap(overlay: *mut sam_overlay, tag: u16, place: u32, gap: *mut u32) -> sam_status;
    /// Copies the shown runes of an open file from the place `place` on as numbers, as many as there are and fit, with SAM_GAP for each
    /// that is not loaded. Hands out their number. The room counts runes. Returns SAM_NONE if the file is not open.
    pub fn sam_overlay_read(overlay: *mut sam_overlay, tag: u16, place: u32, into: *mut u32, room: usize, count: *mut u32) -> sam_status;
    /// Copies the shown text of an open file from the place `place` on, up to the first rune that is not loaded, in UTF-8, as many whole
    /// runes as fit. Hands out the number of bytes and the number of runes. Both are 0 if a gap is at the place, if the place is at the end
    /// or after it, or if the next rune does not fit. Returns SAM_NONE if the file is not open.
    pub fn sam_overlay_text(
        overlay: *mut sam_overlay,
        tag: u16,
        place: u32,
        into: *mut u8,
        room: usize,
        bytes: *mut usize,
        runes: *mut u32,
    ) -> sam_status;

    /// Makes the end of one side (enum sam_link_role), before its first connection. The id is the session's name: 16 bytes that the
    /// terminal chose at random. It is no secret. Refused, in this order: SAM_NO_HANDLE if the handle is NULL; SAM_MADE if it is made
    /// already; SAM_LINK_WRONG_ROLE if `role` is neither; SAM_NO_MEMORY. The handle is then as it was.
    pub fn sam_link_new(link: *mut sam_link, role: u32, id: *const u8) -> sam_status;
    /// Frees an end, with all the bytes that it keeps, and leaves the handle empty. Refused: SAM_NO_HANDLE if the handle is NULL or empty.
    pub fn sam_link_free(link: *mut sam_link) -> sam_status;
    /// Reads the hello with which the bytes begin, and hands out `what` it says (enum sam_link_what, or 17 to 23), the id and the number of
    /// the connection. Returns SAM_NONE if nothing is wrong so far, but there are fewer than 42 bytes. Refused, in this order:
    /// SAM_LINK_NOT_A_LINK as soon as the bytes differ from the mark; SAM_LINK_OTHER_VERSION with the ninth byte; SAM_LINK_BAD_HELLO with
    /// the tenth, if that says nothing.
    pub fn sam_link_read_hello(bytes: *const u8, len: usize, what: *mut u32, id: *mut u8, attempt: *mut u64) -> sam_status;
    /// Writes the hello by which a host refuses a connection. `why` is one of SAM_LINK_NOT_A_LINK to SAM_LINK_WRONG_COUNT, and `bytes` are
    /// the bytes that came. The hello names the session and the connection of the hello with which they begin; if sam_link_read_hello reads
    /// none, it names all zeros. Returns SAM_NONE for any other reason, and the buffer is then as it was.
    pub fn sam_link_write_refusal(why: u32, bytes: *const u8, len: usize, into: *mut u8) -> sam_status;
    /// Begins a connection that the program has opened, at the terminal's end: the connection before is over. Hands out its number, counted
    /// from 1, which names it in the calls below. With `take_over`, the session is to begin with the texts of another, as long as no host
    /// has welcomed this end. Refused, in this order: SAM_LINK_WRONG_ROLE; SAM_COUNT_FULL after 2^64-1 connections.
    pub fn sam_link_call(link: *mut sam_link, take_over: bool, attempt: *mut u64) -> sam_status;
    /// Takes the host's hello at the terminal's end: the first 42 bytes that came on the newest connection. Refused, in this order, and
    /// nothing is changed then: the refusals of sam_link_read_hello, and SAM_NONE for fewer than 42 bytes; SAM_LINK_WRONG_ROLE;
    /// SAM_LINK_NOT_OPEN if no call waits for a welcome; the host's reason, if the host refuses (sam_link_read_hello tells this from the
    /// rest, because it hands out 17 to 23); SAM_LINK_BAD_HELLO; SAM_LINK_OTHER_SESSION; SAM_LINK_OLD_ATTEMPT; SAM_LINK_WRONG_COUNT.
    pub fn sam_link_welcomed(link: *mut sam_link, bytes: *const u8, len: usize) -> sam_status;
    /// Takes a connection at the host's end by its first 42 bytes, the terminal's hello: the connection before is over. The connection has
    /// the number that sam_link_read_hello hands out. Refused, in this order, and nothing is changed then, nor for the older connection:
    /// the refusals of sam_link_read_hello, and SAM_NONE for fewer than 42 bytes; SAM_LINK_WRONG_ROLE; SAM_LINK_BAD_HELLO;
    /// SAM_LINK_NO_SESSION; SAM_LINK_OTHER_SESSION; SAM_LINK_OLD_ATTEMPT; SAM_LINK_WRONG_COUNT.
    pub fn sam_link_answer(link: *mut sam_link, bytes: *const u8, len: usize) -> sam_status;
    /// Ends a connection at this end, because it broke or because the program gives it up. Nothing changes if it isn't the newest.
    pub fn sam_link_broken(link: *mut sam_link, attempt: u64) -> sam_status;
    /// Puts bytes for the other side's program, all or none, with or without a connection. Refused, in this order: SAM_COUNT_FULL if the
    /// stream would have more than 2^64-1 bytes; SAM_NO_MEMORY.
    pub fn sam_link_put(link: *mut sam_link, bytes: *const u8, len: usize) -> sam_status;
    /// Puts a note behind all bytes that were put: it comes out after these bytes and before later ones. Refused, in this order:
    /// SAM_LINK_TOO_LONG for more than 4,096 bytes; SAM_COUNT_FULL; SAM_NO_MEMORY.
    pub fn sam_link_put_note(link: *mut sam_link, bytes: *const u8, len: usize) -> sam_status;
    /// Asks the other side to acknowledge now. So a program finds out that a line carries nothing any more: if no byte comes, it is broken.
    /// Refused, in this order: SAM_COUNT_FULL; SAM_NO_MEMORY.
    pub fn sam_link_ask(link: *mut sam_link) -> sam_status;
    /// Acknowledges all bytes that have come. The end does so by itself when it is asked, and after each 16,384 bytes. Refused, in this
    /// order: SAM_COUNT_FULL; SAM_NO_MEMORY.
    pub fn sam_link_acknowledge(link: *mut sam_link) -> sam_status;
    /// Moves the next bytes for a connection into the buffer, as many as there are and fit, and hands out their number: first the hello,
    /// and then the stream from the place where this connection goes on. Before the welcome, a terminal's end hands out bytes of the stream
    /// on the first connection alone. Refused: SAM_LINK_NOT_OPEN if the connection is over or isn't the newest.
    pub fn sam_link_take_out(link: *mut sam_link, attempt: u64, into: *mut u8, room: usize, count: *mut usize) -> sam_status;
    /// Takes bytes that came on a connection after the hello, in pieces of any length, all or none. Refused, in this order:
    /// SAM_LINK_NOT_OPEN if the connection is over, isn't the newest, or has no hello yet; SAM_COUNT_FULL if the other side's stream would
    /// have more than 2^64-1 bytes; SAM_NO_MEMORY, and the piece may be fed again. Three other refusals end the connection, and change
    /// nothing else: SAM_LINK_BAD_KIND or SAM_LINK_BAD_LENGTH if the piece has a wrong packet; else SAM_LINK_ACK_AHEAD if it acknowledges
    /// bytes that this connection wasn't given.
    pub fn sam_link_feed(link: *mut sam_link, attempt: u64, bytes: *const u8, len: usize) -> sam_status;
    /// Takes bytes that came as sam_link_feed does, and then moves bytes into the buffer as sam_link_take_in does, again and again, until
    /// that hands out 0. Hands out the number of bytes that it moved: if they fill the buffer, more may wait for sam_link_take_in. The
    /// buffer may not overlap the bytes that came. If nothing is left of earlier pieces, no note and no part of a packet, the bytes are
    /// copied once instead of twice. Refused as sam_link_feed is.
    pub fn sam_link_feed_into(
        link: *mut sam_link,
        attempt: u64,
        bytes: *const u8,
        len: usize,
        into: *mut u8,
        room: usize,
        count: *mut usize,
    ) -> sam_status;
    /// Takes bytes that came as sam_link_feed does, and hands out the places of the program's bytes among them: no byte is copied. It hands
    /// out places only if nothing is left of earlier pieces, no note and no part of a packet: it then takes in whole packets, a place for
    /// each, until there is no room for a place (`most` of them), or a note is next, or nothing. Hands out the number of places that it
    /// wrote, else 0. More bytes may wait for sam_link_take_in. Refused as sam_link_feed is.
    pub fn sam_link_feed_places(
        link: *mut sam_link,
        attempt: u64,
        bytes: *const u8,
        len: usize,
        places: *mut sam_place,
        most: usize,
        count: *mut usize,
    ) -> sam_status;
    /// Moves the next bytes of the other side's program into the buffer, as many as one packet has left and fit, and hands out their
    /// number. Call it until it hands out 0: then a note is next, or nothing.
    pub fn sam_link_take_in(link: *mut sam_link, into: *mut u8, room: usize, count: *mut usize) -> sam_status;
    /// Moves the note that is next into the buffer, and hands out its length in bytes, which may be 0. Refused, in this order:
    /// SAM_LINK_NO_ROOM if the buffer has less room than 4,096 bytes; SAM_NONE if no note is next, because bytes before it are not taken in
    /// yet, or because none has come.
    pub fn sam_link_next_note(link: *mut sam_link, into: *mut u8, room: usize, len: *mut usize) -> sam_status;
    /// Hands out the state of the newest connection: enum sam_link_phase.
    pub fn sam_link_phase(link: *mut sam_link, phase: *mut u32) -> sam_status;
    /// Hands out the number of the newest connection, or 0 before the first. At a host's end it is the newest that the end took.
    pub fn sam_link_attempt(link: *mut sam_link, attempt: *mut u64) -> sam_status;
    /// Hands out the number of bytes of this side's stream, heads of packets included.
    pub fn sam_link_put_count(link: *mut sam_link, count: *mut u64) -> sam_status;
    /// Hands out the number of bytes of this side's stream that the other side has acknowledged. The end keeps those after them in memory.
    /// All bytes that were put by some time have come once this number is at least that of sam_link_put_count at that time.
    pub fn sam_link_acknowledged(link: *mut sam_link, count: *mut u64) -> sam_status;
    /// Hands out the number of bytes of this side's stream that the newest connection has not been given. sam_link_take_out hands them out,
    /// unless the other side's hello tells that they have come.
    pub fn sam_link_unsent(link: *mut sam_link, count: *mut usize) -> sam_status;
    /// Hands out the number of bytes of the other side's stream that have come.
    pub fn sam_link_received(link: *mut sam_link, count: *mut u64) -> sam_status;
    /// Makes a line, whose first connection is due at once. The id is the session's name: 16 bytes that the terminal chose at random. It is
    /// no secret. With `take_over`, the session is to begin with the texts of another, as long as no host has welcomed this line. Refused,
    /// in this order: SAM_NO_HANDLE if the handle is NULL; SAM_MADE if it is made already; SAM_NO_MEMORY. The handle is then as it was.
    pub fn sam_line_new(line: *mut sam_line, id: *const u8, take_over: bool, now: u64) -> sam_status;
    /// Frees a line, with all the bytes that it keeps, and leaves the handle empty. Refused: SAM_NO_HANDLE if the handle is NULL or empty.
    pub fn sam_line_free(line: *mut sam_line) -> sam_status;
    /// Hands out what the program is to do at this time (enum sam_tick). What it hands out counts as begun: another call at the same time
    /// hands out something else, so call it until it hands out SAM_TICK_NOTHING.
    pub fn sam_line_tick(line: *mut sam_line, now: u64, tick: *mut u32) -> sam_status;
    /// Hands out the number of milliseconds until sam_line_tick has something to say, if no other call comes before. Returns SAM_NONE if it
    /// never has.
    pub fn sam_line_due_in(line: *mut sam_line, now: u64, left: *mut u64) -> sam_status;
    /// Takes a connection that the program has opened: the connection before is over. Hands out its number, counted from 1, which names it
    /// in the calls below. Send the bytes of sam_line_take_out: its hello. Refused: SAM_COUNT_FULL after 2^64-1 connections.
    pub fn sam_line_connected(line: *mut sam_line, now: u64, attempt: *mut u64) -> sam_status;
    /// Gives up the connection for which SAM_TICK_CONNECT asked, because it can't be made: another is tried after a pause. At any other
    /// time it changes nothing.
    pub fn sam_line_not_connected(line: *mut sam_line, now: u64) -> sam_status;
    /// Ends a connection, because it broke or because the program gives it up: another is tried after a pause, which grows from 0 over 1,
    /// 2, 4, 8 and 16 to 30 seconds, and begins anew after a connection that stood for a second. Nothing changes if it isn't the newest, or
    /// is over already.
    pub fn sam_line_broken(line: *mut sam_line, attempt: u64, now: u64) -> sam_status;
    /// Doubts an open connection, because an address of the machine came or went: it is late, so call sam_line_ask, and if no byte comes it
    /// is given up after 2 seconds. A connection that is to be made is tried after 1 second at most.
    pub fn sam_line_address_changed(line: *mut sam_line, now: u64) -> sam_status;
    /// Notes whether the program waits for an answer of the host's program, as to a request: that holds over all connections, until another
    /// call says otherwise. While the program waits an answer is due, though the host has acknowledged all that was put: if no byte comes
    /// for 15 seconds, the connection is late, so sam_line_ask asks, and if none comes for 15 more, it is given up.
    pub fn sam_line_expect(line: *mut sam_line, expects: bool, now: u64) -> sam_status;
    /// Puts bytes for the host's program, all or none, with or without a connection: an answer is then due. Refused, in this order:
    /// SAM_COUNT_FULL if the stream would have more than 2^64-1 bytes; SAM_NO_MEMORY.
    pub fn sam_line_put(line: *mut sam_line, bytes: *const u8, len: usize, now: u64) -> sam_status;
    /// Puts a note behind all bytes that were put: it comes out after these bytes and before later ones. Refused, in this order:
    /// SAM_LINK_TOO_LONG for more than 4,096 bytes; SAM_COUNT_FULL; SAM_NO_MEMORY.
    pub fn sam_line_put_note(line: *mut sam_line, bytes: *const u8, len: usize, now: u64) -> sam_status;
    /// Asks the host whether all has come, if something that was put is not acknowledged, or the line is late; but not while such a
    /// question is under way. So it may be called after each put and each piece. Refused, in this order: SAM_COUNT_FULL; SAM_NO_MEMORY.
    pub fn sam_line_ask(line: *mut sam_line, now: u64) -> sam_status;
    /// Acknowledges all bytes that have come. The line does so by itself when it is asked, and after each 16,384 bytes. Refused, in this
    /// order: SAM_COUNT_FULL; SAM_NO_MEMORY.
    pub fn sam_line_acknowledge(line: *mut sam_line) -> sam_status;
    /// Moves the next bytes for a connection into the buffer, as many as there are and fit, and hands out their number: first the hello,
    /// and then the stream from the place where this connection goes on. Call it after each put, question and piece. Refused:
    /// SAM_LINK_NOT_OPEN if the connection is over or isn't the newest.
    pub fn sam_line_take_out(line: *mut sam_line, attempt: u64, into: *mut u8, room: usize, count: *mut usize) -> sam_status;
    /// Takes bytes that came on a connection, from its first one on, in pieces of any length, all or none. Refused, in this order:
    /// SAM_LINK_NOT_OPEN if the connection is over or isn't the newest; SAM_LINK_TOO_MANY_ANSWERS if 65,536 bytes or more are kept that
    /// answer the host; before the host's welcome SAM_LINK_TOO_MANY_WORDS, SAM_LINK_WRONG_HELLO, and the host's reason, if it refuses; then
    /// SAM_COUNT_FULL, SAM_LINK_BAD_KIND, SAM_LINK_BAD_LENGTH and SAM_LINK_ACK_AHEAD, as sam_link_feed has them. After each of these but
    /// the first the connection is over: close it. The line then tries another, or is lost: sam_line_describe says why. SAM_NO_MEMORY may
    /// come at any place: the connection stays, and the same bytes are to be given again. Of these only the host's welcome may have been
    /// taken, as is_known and the counts then say.
    pub fn sam_line_receive(line: *mut sam_line, attempt: u64, bytes: *const u8, len: usize, now: u64) -> sam_status;
    /// Moves the next bytes of the host's program into the buffer, as many as one packet has left and fit, and hands out their number. Call
    /// it until it hands out 0: then a note is next, or nothing.
    pub fn sam_line_take_in(line: *mut sam_line, into: *mut u8, room: usize, count: *mut usize) -> sam_status;
    /// Moves the note that is next into the buffer, and hands out its length in bytes, which may be 0. Refused, in this order:
    /// SAM_LINK_NO_ROOM if the buffer has less room than 4,096 bytes; SAM_NONE if no note is next, because bytes before it are not taken in
    /// yet, or because none has come.
    pub fn sam_line_next_note(line: *mut sam_line, into: *mut u8, room: usize, len: *mut usize) -> sam_status;
    /// Hands out the state, the counts and the times of a line, in one call.
    pub fn sam_line_describe(line: *mut sam_line, now: u64, details: *mut sam_line_details) -> sam_status;
    /// Copies the words that came on the newest connection before the host's hello, perhaps of a login, as many bytes as fit, and hands out
    /// their number. They are bytes, and need be no text. A room of 65,536 bytes is always enough while a connection stands.
    pub fn sam_line_words(line: *mut sam_line, into: *mut u8, room: usize, len: *mut usize) -> sam_status;

    /// Makes a client that knows no file, and whose first connection is due at once. The id is the session's name: 16 bytes that the
    /// terminal chose at random. It is no secret. With `take_over`, the session is to begin with the texts of another, as long as no host
    /// has welcomed this client. Then ask for SAM_EVENT_OFFER_VERSION, which names the host's files. Refused, in this order: SAM_NO_HANDLE
    /// if the handle is NULL; SAM_MADE if it is made already; SAM_NO_MEMORY. The handle is then as it was.
    pub fn sam_client_new(client: *mut sam_client, id: *const u8, take_over: bool, now: u64) -> sam_status;
    /// Frees a client, with what waits and with all the bytes that it keeps, and leaves the handle empty. Refused: SAM_NO_HANDLE if the
    /// handle is NULL or empty.
    pub fn sam_client_free(client: *mut sam_client) -> sam_status;
    /// Hands out what the program is to do at this time (enum sam_tick). What it hands out counts as begun: another call at the same time
    /// hands out something else, so call it until it hands out SAM_TICK_NOTHING. At SAM_TICK_ASK go on (sam_client_next_event): that asks
    /// the host.
    pub fn sam_client_tick(client: *mut sam_client, now: u64, tick: *mut u32) -> sam_status;
    /// Hands out the number of milliseconds until sam_client_tick or sam_client_next_event has something to do, if no other call comes
    /// before. Returns SAM_NONE if neither ever has.
    pub fn sam_client_due_in(client: *mut sam_client, now: u64, left: *mut u64) -> sam_status;
    /// Takes a connection that the program has opened: the connection before is over. Hands out its number, counted from 1, which names it
    /// in the calls below. Send the bytes of sam_client_take_out: its hello. Refused: SAM_COUNT_FULL after 2^64-1 connections.
    pub fn sam_client_connected(client: *mut sam_client, now: u64, attempt: *mut u64) -> sam_status;
    /// Gives up the connection for which SAM_TICK_CONNECT asked, because it can't be made: another is tried after a pause. At any other
    /// time it changes nothing.
    pub fn sam_client_not_connected(client: *mut sam_client, now: u64) -> sam_status;
    /// Ends a connection, because it broke or because the program gives it up: another is tried after a pause, as by sam_line_broken.
    /// Nothing changes if it isn't the newest, or is over already.
    pub fn sam_client_broken(client: *mut sam_client, attempt: u64, now: u64) -> sam_status;
    /// Doubts an open connection, because an address of the machine came or went, as sam_line_address_changed does. Then go on: the host is
    /// asked.
    pub fn sam_client_address_changed(client: *mut sam_client, now: u64) -> sam_status;
    /// Notes whether the program waits for an answer to a note of its own: a host that doesn't answer is found out then, as by
    /// sam_line_expect. While a task is open, an event is held or something is locked, the client waits in any case.
    pub fn sam_client_expect(client: *mut sam_client, expects: bool, now: u64) -> sam_status;
    /// Takes bytes that came on a connection, from its first one on, in pieces of any length, all or none. Then go on. Its refusals are
    /// those of sam_line_receive, in its order.
    pub fn sam_client_receive(client: *mut sam_client, attempt: u64, bytes: *const u8, len: usize, now: u64) -> sam_status;
    /// Moves the next bytes for a connection into the buffer, as many as there are and fit, and hands out their number: first the hello,
    /// and then the stream from the place where this connection goes on. Go on before, so that all is there. Refused: SAM_LINK_NOT_OPEN if
    /// the connection is over or isn't the newest.
    pub fn sam_client_take_out(client: *mut sam_client, attempt: u64, into: *mut u8, room: usize, count: *mut usize) -> sam_status;
    /// Acknowledges all bytes that have come. The client does so by itself when it is asked, and after each 16,384 bytes. Refused, in this
    /// order: SAM_COUNT_FULL; SAM_NO_MEMORY.
    pub fn sam_client_acknowledge(client: *mut sam_client) -> sam_status;
    /// Goes on until there is something to tell, and hands out what (enum sam_client_event). Bytes of the host are received, requests and
    /// edits that wait act once they can, and all that is composed goes into the line. Call it after each call that brought something,
    /// until it hands out SAM_CLIENT_IDLE, and take all splices before each call. `did` is as sam_overlay_step hands it out at
    /// SAM_CLIENT_STEPPED, and has `event`, `request`, `task` and `why` alone at SAM_CLIENT_REFUSED: which event it was, counted from 1
    /// over all events that acted or were refused, edits that were put among them, and SAM_REFUSAL... If a request acted or was refused,
    /// `request` is its number, as sam_client_ask handed it out: each is told once, in their order, over all connections. Requests by which
    /// the client loads a text by itself have numbers, too, which are told as they act or lapse, but not where they are refused. `task` is
    /// the task's number at SAM_CLIENT_ANSWERED, at SAM_CLIENT_UNANSWERED, and where the write of sam_client_write is refused: each task
    /// ends once, by one of these. At SAM_CLIENT_RAN `request` is the number of a command line (sam_client_run), `start` the place in the
    /// command file where stands what it printed, and `came` how many runes of that are told; all of these are loaded. At SAM_CLIENT_LAPSED
    /// `request` is the number of one that was not told before, or of a line whose end was not told. It comes once the session is over; and
    /// once the user has left, for a line of which not all is loaded. The session is over, for this and for SAM_CLIENT_UNANSWERED, once a
    /// message has said so (SAM_NOTE_ENDED, SAM_NOTE_TAKEN_OVER) or the host has refused the line for good. Else the fields are 0. Where
    /// nothing else moves, it asks for what is to be loaded next (sam_client_see). Refused, in this order, and nothing is handed out then:
    /// SAM_WAITING if splices are left, and all is as it was. Else some of what waited may be done, and nothing is lost: why the terminal
    /// has stopped, at this call or before, SAM_STREAM.. or SAM_TERM_REFUSED..; SAM_COUNT_FULL; SAM_UNFINISHED if memory is short: call it
    /// again later.
    pub fn sam_client_next_event(client: *mut sam_client, now: u64, kind: *mut sam_client_event, did: *mut sam_did) -> sam_status;
    /// Goes on as sam_client_next_event does, and over each step that is an edit: of the host's (Hgrowdata, Hcut), of runes that are loaded
    /// (Hdata), or one of the user's that acted, which made no splice. Hands out their splices in their order, each with the runes that it
    /// brought, SAM_GAP for one that is not loaded. It stops behind the first event that is none of these, and hands that out; its splices
    /// are left for sam_client_next_splice. SAM_CLIENT_IDLE comes only if no step was made, else SAM_CLIENT_BUSY in its place. That comes,
    /// too, after `most` steps, and where there is no room for a splice or for the 512 runes that a frame may bring. If the room ends in a
    /// step, it hands out SAM_CLIENT_STEPPED and that step, and the rest of its splices is left, if there is more. It refuses as
    /// sam_client_next_event does, in its order, and the counts say then what was handed out before; after SAM_NO_HANDLE they are as they
    /// were.
    pub fn sam_client_step_edits(
        client: *mut sam_client,
        now: u64,
        changes: *mut sam_changes,
        kind: *mut sam_client_event,
        did: *mut sam_did,
    ) -> sam_status;
    /// Hands out the next change of the shown text by the last step. Returns SAM_NONE if none is left.
    pub fn sam_client_next_splice(client: *mut sam_client, splice: *mut sam_splice) -> sam_status;
    /// Copies the note that was told last (SAM_CLIENT_NOTE, SAM_CLIENT_ANSWERED), and hands out its length in bytes, which may be 0. It
    /// stays until the next one is told. Before the first it has 0 bytes. Refused: SAM_NO_ROOM if the buffer has less room than the note; a
    /// room of 4,096 bytes is always enough.
    pub fn sam_client_note(client: *mut sam_client, into: *mut u8, room: usize, len: *mut usize) -> sam_status;
    /// Puts a note for the host's program. It comes out behind the edits and events that have acted, and before those that wait. Refused,
    /// in this order, and the note is not put then: SAM_LINK_TOO_LONG for more than 4,096 bytes; SAM_COUNT_FULL; SAM_NO_MEMORY.
    pub fn sam_client_put_note(client: *mut sam_client, bytes: *const u8, len: usize, now: u64) -> sam_status;
    /// Replaces the shown runes of a file from the place `start` to the place `end` by a text of any length, all or nothing. The new runes
    /// stand behind what is shown before `start`. They are shown at once, whatever is locked, and go to the host as the client goes on; no
    /// request that was asked for before finds them. Its refusals are those of sam_overlay_replace, in its order.
    pub fn sam_client_replace(client: *mut sam_client, tag: u16, start: u32, end: u32, text: *const u8, len: usize) -> sam_status;
    /// Makes replacements of a file, one after another, each as sam_client_replace does: its places are those of the text that the ones
    /// before it have left. So from the last place to the first, all are places of the text before. The text has the runes of all of them,
    /// in their order. It stops in front of the first one that is refused, and *made counts those before. Refused, in this order, and none
    /// is made then: SAM_NO_HANDLE, after which *made is as it was; SAM_NOT_TEXT if the text is not UTF-8; SAM_NO_MEMORY if there is no
    /// memory for its runes; SAM_NOT_TEXT if it has more runes or fewer than the replacements take; SAM_WAITING if splices are left. Then
    /// come the refusals of sam_client_replace for the first one that is refused.
    pub fn sam_client_replace_each(
        client: *mut sam_client,
        tag: u16,
        replacements: *const sam_replacement,
        count: usize,
        text: *const u8,
        len: usize,
        made: *mut usize,
    ) -> sam_status;
    /// Asks for what is no edit: an event of an overlay (enum sam_event_kind), with its text if it brings one. It stands in one order with
    /// the edits: it acts as the client goes on, once all edits before it are put, and finds the text that is shown now, with the host's
    /// changes since. A place that it names is one of that text, and moves with it as the host changes the text: what comes in at the place
    /// itself stands behind it, and a range of which all goes is empty there. A place past the end of the text doesn't move: it is one of a
    /// text to come, as of a file that is asked to be opened just before. Requests act in the order in which they were asked for. Hands out
    /// the number of the request, counted from 1 over those that were taken: sam_client_next_event tells by it, once, that the request
    /// acted or was refused; or that the session is over, and it lapsed. A write that would find the same text as one that waits is that
    /// one, and has its number. Refused, in this order, and client and number are then as they were: SAM_NOT_TEXT if the text is not UTF-8;
    /// SAM_NO_MEMORY if there is no memory for its runes; SAM_NONE if no event has this kind; SAM_COUNT_FULL if 2^64-1 requests were taken;
    /// SAM_WAITING while an edit was put that has not acted: go on first; SAM_TOO_MANY if 1,000 requests wait; SAM_COUNT_FULL if 2^32-1
    /// were taken while edits or requests waited; SAM_NO_MEMORY.
    pub fn sam_client_ask(client: *mut sam_client, event: *const sam_event, text: *const u8, len: usize, number: *mut u64) -> sam_status;
    /// Takes back the next insertion that waits over a file, if an edit could act at once and the file has no room for this one, because
    /// the host put more in meanwhile. Ask for it where the client is idle and edits wait over a free file. Copies its runes in UTF-8, all
    /// of them, and hands out the number of bytes, and the splice by which they went of the shown text, as sam_overlay_drop_next does, with
    /// its refusals. Places that requests name move, as there.
    pub fn sam_client_drop_next(
        client: *mut sam_client,
        tag: u16,
        splice: *mut sam_splice,
        into: *mut u8,
        room: usize,
        len: *mut usize,
    ) -> sam_status;
    /// Has the host's program do something, and hands out the number of the task, counted from 1 over all tasks. The kind is SAM_NOTE_OPEN,
    /// to join the file or the folder at a path; SAM_NOTE_COMPLETE, to tell the names that complete a path; or SAM_NOTE_RELOAD, to read the
    /// file of a tag anew from its disk. The message goes behind all that acted, as a note does, and has the number as its request.
    /// sam_client_next_event tells once that the answer came (SAM_CLIENT_ANSWERED), with that number: sam_client_note copies it. Refused,
    /// in this order, and no task is begun then: SAM_NOTE_BAD_KIND for another kind; SAM_TOO_MANY if 1,000 tasks are open; SAM_COUNT_FULL
    /// after 2^32-1 tasks; SAM_NO_MEMORY if there is no room for the task; SAM_NOTE_BAD_FIELD if the kind has no tag and the tag is not 0,
    /// or no path and the path is not empty; SAM_NOTE_BAD_LENGTH if the message would have more than 4,096 bytes; SAM_NOTE_BAD_PATH if a
    /// byte of the path is 0; SAM_COUNT_FULL, SAM_NO_MEMORY of the line.
    pub fn sam_client_begin(
        client: *mut sam_client,
        kind: u32,
        tag: u16,
        path: *const u8,
        len: usize,
        now: u64,
        task: *mut u32,
    ) -> sam_status;
    /// Asks for a file to be written as it is shown now, as SAM_EVENT_WRITE does by sam_client_ask, and hands out the number of the task.
    /// Its answer is SAM_NOTE_SAVED or SAM_NOTE_NOT_SAVED; if the write is refused, no answer comes, and `task` of sam_did has its number
    /// at SAM_CLIENT_REFUSED. A write that would find the same text as one that waits is that task. Refused, in this order, and no task is
    /// begun then: SAM_TOO_MANY if 1,000 tasks are open; SAM_COUNT_FULL after 2^32-1 tasks; SAM_NO_MEMORY if there is no room for the task;
    /// then as sam_client_ask refuses a write, in its order: SAM_COUNT_FULL, SAM_WAITING, SAM_TOO_MANY, SAM_COUNT_FULL, SAM_NO_MEMORY.
    pub fn sam_client_write(client: *mut sam_client, tag: u16, task: *mut u32) -> sam_status;
    /// Has the host run a command line on an open file, from the file's dot on, as it is shown now: behind all that was asked for before.
    /// Makes the file the work file, opens the command file if it is not open, and types the line there in the place of its dot, between
    /// two newlines, of which the first ends what may stand before it. Hands out the number of the request that types its last newline.
    /// SAM_CLIENT_STEPPED tells by that number that the line begins; and SAM_CLIENT_RAN, once, that it has run, and where in the command
    /// file stands what it printed: at most 65,536 runes of that, all loaded, which sam_client_text reads before the client goes on. Or
    /// SAM_CLIENT_REFUSED or SAM_CLIENT_LAPSED tells that it doesn't run, or that its answer doesn't come. Its other requests have numbers,
    /// too, which nobody was handed. What it printed is loaded once no request waits, so a request to leave that stands behind the line may
    /// come first. Where the command file has 100,000 runes, and no other line is open, the line replaces them. Refused, in this order, and
    /// client and number are then as they were: SAM_NOT_TEXT if the line is not UTF-8; SAM_NO_MEMORY if there is no memory for its runes;
    /// SAM_NOT_TEXT if it has a newline; SAM_REFUSAL_NOT_OPEN if the file is not open, a SAM_EVENT_CLOSE of it waits, it is the command
    /// file, or the user has left (SAM_EVENT_EXIT, or the line `q`); SAM_REFUSAL_TEXT_TOO_LONG if it has more than 400,000 runes;
    /// SAM_TOO_MANY if 1,000 lines are open, or if more than 1,000 requests would wait, counting three of the line, and one for each 512
    /// runes that it types. Refused, too, as sam_client_ask refuses one of these requests, in its order (SAM_COUNT_FULL, SAM_WAITING,
    /// SAM_COUNT_FULL, SAM_NO_MEMORY): the number is then as it was, and the line doesn't run, though its file may become the work file,
    /// and some of its runes may come to stand in the command file.
    pub fn sam_client_run(client: *mut sam_client, tag: u16, line: *const u8, len: usize, request: *mut u64) -> sam_status;
    /// Notes what a window shows of a file, from the place `start` to the place `end`, in the place of what it showed before. While nothing
    /// else waits, the client loads that by itself, behind what command lines have printed, then what is behind it and the rest of the
    /// file, in slices, but these only once nobody has pressed a key for a second (sam_client_rest). Of several files, the one that was
    /// told last is first. Any tag and any place may be told, also before the file is open. Refused: SAM_NO_MEMORY, and all is as it was.
    pub fn sam_client_see(client: *mut sam_client, tag: u16, start: u32, end: u32) -> sam_status;
    /// Leaves out a file that no window shows: the client loads no more of it by itself.
    pub fn sam_client_forget(client: *mut sam_client, tag: u16) -> sam_status;
    /// Counts a key of the user that edits nothing, as one that moves the caret: for a second only what windows show is loaded, so what the
    /// key asks for waits for no slice. A replacement counts by itself.
    pub fn sam_client_rest(client: *mut sam_client, now: u64) -> sam_status;
    /// Hands out whether the host has all that the user did, and all notes: no edit and no request waits, no event is held, all is sent,
    /// and the host's end of the link has acknowledged all.
    pub fn sam_client_has_all(client: *mut sam_client, has: *mut bool) -> sam_status;
    /// Hands out whether the shown text of a file may differ from the text that was written last: an edit waits over it, or
    /// sam_term_is_changed says so. False for a tag without a file, and for tag 0.
    pub fn sam_client_is_unsaved(client: *mut sam_client, tag: u16, unsaved: *mut bool) -> sam_status;
    /// Hands out the number of requests that wait for edits or other requests before them, or for a lock of the command line; not one that
    /// the terminal has and that has not acted.
    pub fn sam_client_requests(client: *mut sam_client, count: *mut usize) -> sam_status;
    /// Hands out the state, the counts and the times of the line to the host, in one call, as sam_line_describe does. Its has_all speaks of
    /// the line alone.
    pub fn sam_client_describe(client: *mut sam_client, now: u64, details: *mut sam_line_details) -> sam_status;
    /// Copies the words that came on the newest connection before the host's hello, as sam_line_words does.
    pub fn sam_client_words(client: *mut sam_client, into: *mut u8, room: usize, len: *mut usize) -> sam_status;
    /// Hands out the fields of sam_state at once, each as the reader sam_term_.. of its name does.
    pub fn sam_client_state(client: *mut sam_client, state: *mut sam_state) -> sam_status;
    /// Hands out the answers of several readers of one tag at once, as sam_overlay_file does.
    pub fn sam_client_file(client: *mut sam_client, tag: u16, file: *mut sam_file) -> sam_status;
    /// Copies the name of a known file in UTF-8, as many whole runes as fit, and hands out the number of bytes. A room of 256 bytes is
    /// always enough. Returns SAM_NONE if the terminal knows no file of this tag.
    pub fn sam_client_name(client: *mut sam_client, tag: u16, into: *mut u8, room: usize, len: *mut usize) -> sam_status;
    /// Hands out the file that the host's answer to SAM_EVENT_WORK or SAM_EVENT_NEW_FILE named last. It may be closed since. Returns
    /// SAM_NONE if the host has named none yet.
    pub fn sam_client_current(client: *mut sam_client, tag: *mut u16) -> sam_status;
    /// Copies the pattern that the host reported last, in UTF-8, as many whole runes as fit, and hands out the number of bytes. A room of
    /// 512 bytes is always enough.
    pub fn sam_client_pattern(client: *mut sam_client, into: *mut u8, room: usize, len: *mut usize) -> sam_status;
    /// Copies the snarfed text that the host sent last (SAM_EVENT_GET_SNARF), from the place `place` on, in UTF-8, as many whole runes as
    /// fit. Hands out the number of bytes and the number of runes.
    pub fn sam_client_snarfed(
        client: *mut sam_client,
        place: u32,
        into: *mut u8,
        room: usize,
        bytes: *mut usize,
        runes: *mut u32,
    ) -> sam_status;
    /// Hands out the number of bytes of the host's stream before the frame that is wrong, as sam_term_fault_place does.
    pub fn sam_client_fault_place(client: *mut sam_client, place: *mut u64) -> sam_status;
    /// Hands out the number of runes that wait over a file, as sam_overlay_waiting does.
    pub fn sam_client_waiting(client: *mut sam_client, tag: u16, runes: *mut u32) -> sam_status;
    /// Hands out the first file from the tag `from` on over which an edit waits, as sam_overlay_next_waiting does. Returns SAM_NONE if
    /// there is none.
    pub fn sam_client_next_waiting(client: *mut sam_client, from: u16, tag: *mut u16) -> sam_status;
    /// Hands out the length of the shown text of an open file in runes, gaps counted. Returns SAM_NONE if the file is not open.
    pub fn sam_client_len(client: *mut sam_client, tag: u16, runes: *mut u32) -> sam_status;
    /// Hands out the first place of the shown text of an open file, at or after `place`, whose rune is not loaded. Returns SAM_NONE if the
    /// file is not open, or if all are loaded from there on: sam_client_len tells the two apart.
    pub fn sam_client_first_gap(client: *mut sam_client, tag: u16, place: u32, gap: *mut u32) -> sam_status;
    /// Copies the shown runes of an open file from the place `place` on as numbers, as many as there are and fit, with SAM_GAP for each
    /// that is not loaded. Hands out their number. The room counts runes. Returns SAM_NONE if the file is not open.
    pub fn sam_client_read(client: *mut sam_client, tag: u16, place: u32, into: *mut u32, room: usize, count: *mut u32) -> sam_status;
    /// Copies the shown text of an open file from the place `place` on, up to the first rune that is not loaded, in UTF-8, as many whole
    /// runes as fit, as sam_overlay_text does. Hands out the number of bytes and the number of runes. Returns SAM_NONE if the file is not
    /// open.
    pub fn sam_client_text(
        client: *mut sam_client,
        tag: u16,
        place: u32,
        into: *mut u8,
        room: usize,
        bytes: *mut usize,
        runes: *mut u32,
    ) -> sam_status;

    /// Reads the message that bytes spell, all of them. Refused, in this order, and the note is then as it was: SAM_NOTE_BAD_KIND (skip
    /// such a message: it comes from a later version); SAM_NOTE_BAD_LENGTH if there is no byte, if there are too few or too many for the
    /// fields of the kind, or more than 4,096; SAM_NOTE_BAD_PATH; SAM_NOTE_BAD_TEXT.
    pub fn sam_note_read(bytes: *const u8, len: usize, note: *mut sam_note) -> sam_status;
    /// Writes the bytes of a message into the buffer, at most SAM_LINK_MOST_NOTE, and hands out how many. The bytes of path, copy and text
    /// are read from these pointers, by the lengths in the note; where they stood is not read. Refused, in this order, and what `into` and
    /// `len` lead to is then as it was: SAM_NOTE_BAD_KIND; SAM_NOTE_BAD_FIELD; SAM_NOTE_BAD_LENGTH for more than 4,096 bytes, or more than
    /// there is room for; SAM_NOTE_BAD_PATH; SAM_NOTE_BAD_TEXT.
    pub fn sam_note_write(
        note: *const sam_note,
        path: *const u8,
        copy: *const u8,
        text: *const u8,
        into: *mut u8,
        room: usize,
        len: *mut usize,
    ) -> sam_status;
    /// Writes the head of the file of this random number. Returns SAM_OK.
    pub fn sam_journal_head(random: u64, into: *mut u8) -> sam_status;
    /// Hands out what stands around a body in the file of this random number: in the record of this number, counted from 0, that is made
    /// when so many bytes of the file are durable. They may be no more than stand before the record, or it is not read again. Refused:
    /// SAM_JOURNAL_TOO_LONG.
    pub fn sam_journal_frame(
        random: u64,
        number: u64,
        durable: u64,
        body: *const u8,
        len: usize,
        frame: *mut sam_record_frame,
    ) -> sam_status;
    /// Reads a whole file: hands out its random number, how many whole records it has from the front on, and the place in bytes at which
    /// they end. SAM_JOURNAL_DAMAGED hands out the same of what stands before the damage. Refused, in this order: SAM_JOURNAL_SHORT,
    /// SAM_JOURNAL_NOT_A_JOURNAL, SAM_JOURNAL_OTHER_VERSION, SAM_JOURNAL_DAMAGED_HEAD.
    pub fn sam_journal_read(bytes: *const u8, len: usize, random: *mut u64, count: *mut u64, end: *mut usize) -> sam_status;
    /// Hands out the record of this number that stands at this place of a file. Its random number is what sam_journal_read hands out.
    /// SAM_NONE if the file ends there. Refused: SAM_JOURNAL_TORN.
    pub fn sam_journal_next(bytes: *const u8, len: usize, place: usize, random: u64, number: u64, found: *mut sam_record) -> sam_status;
    /// Makes the server of a session without files (but the command file), before its first connection. The id is the session's name, as
    /// for sam_link_new. Refused, in this order: SAM_NO_HANDLE if the handle is NULL; SAM_MADE if it is made already; SAM_NO_MEMORY. The
    /// handle is then as it was.
    pub fn sam_server_new(server: *mut sam_server, id: *const u8) -> sam_status;
    /// Frees a server, with all that it keeps, and leaves the handle empty. Refused: SAM_NO_HANDLE if the handle is NULL or empty.
    pub fn sam_server_free(server: *mut sam_server) -> sam_status;
    /// Adds a file as sam_host_add_file does, and hands out its tag. Its own refusals: SAM_NOT_TEXT, SAM_ADD_TOO_LONG, SAM_ADD_NO_TAG.
    /// After SAM_UNFINISHED the file has joined under the next tag, which is not handed out.
    pub fn sam_server_add_file(
        server: *mut sam_server,
        name: *const u8,
        name_len: usize,
        text: *const u8,
        text_len: usize,
        tag: *mut u16,
    ) -> sam_status;
    /// Takes a connection by its first 42 bytes, the terminal's hello: the connection before is over. The connection has the number that
    /// sam_link_read_hello hands out. Before all but SAM_NO_HANDLE it may return what sam_link_read_hello refuses, and SAM_NONE for fewer
    /// than 42 bytes. Its own refusals are those of sam_link_answer: SAM_LINK_BAD_HELLO to SAM_LINK_WRONG_COUNT. sam_link_write_refusal
    /// writes what the terminal is told then.
    pub fn sam_server_accept(server: *mut sam_server, bytes: *const u8, len: usize) -> sam_status;
    /// Takes bytes that came on a connection after the hello, in pieces of any length, all or none, and answers each message that is whole.
    /// Its own refusals are those of sam_link_feed but SAM_NO_MEMORY; the last three of them end the connection.
    pub fn sam_server_receive(server: *mut sam_server, attempt: u64, bytes: *const u8, len: usize) -> sam_status;
    /// Ends a connection, because it broke or because the program gives it up. Nothing changes if it isn't the newest. It makes no record.
    pub fn sam_server_broken(server: *mut sam_server, attempt: u64) -> sam_status;
    /// Puts a message for the terminal's program: a note of the link, behind all bytes that were put. Its own refusals: SAM_LINK_TOO_LONG
    /// for more than 4,096 bytes; SAM_COUNT_FULL.
    pub fn sam_server_say(server: *mut sam_server, bytes: *const u8, len: usize) -> sam_status;
    /// Marks a file as dirty as sam_host_mark_dirty does: after a write that failed, before sam_server_effect_done. Its own refusals:
    /// SAM_NONE if the tag has no file; SAM_MARK_COMMAND_FILE; SAM_MARK_NOT_ANNOUNCED.
    pub fn sam_server_mark_dirty(server: *mut sam_server, tag: u16) -> sam_status;
    /// Asks the terminal to acknowledge now, as sam_link_ask does. Its own refusal: SAM_COUNT_FULL.
    pub fn sam_server_ask(server: *mut sam_server) -> sam_status;
    /// Acknowledges all bytes that have come, as sam_link_acknowledge does. Its own refusal: SAM_COUNT_FULL.
    pub fn sam_server_acknowledge(server: *mut sam_server) -> sam_status;
    /// Goes on with what was taken last, after SAM_UNFINISHED; does nothing if no work is left. Refused, in this order: why the server has
    /// stopped, at this call or before; SAM_UNFINISHED if memory is still short.
    pub fn sam_server_go_on(server: *mut sam_server) -> sam_status;
    /// Hands out the number of bytes of the record that sam_server_next_record hands out next. Returns SAM_NONE if there is none.
    pub fn sam_server_record_len(server: *mut sam_server, len: *mut usize) -> sam_status;
    /// Hands out the oldest record that was not handed out: copies its bytes, all of them or none, and hands out their number. The record
    /// of a piece has 9 bytes more than the piece, no record of a message more than 4,097, and that of a file 9 more than its name and its
    /// text. Refused, in this order, and nothing is changed then: SAM_NONE if there is none; SAM_NO_ROOM if it doesn't fit.
    pub fn sam_server_next_record(server: *mut sam_server, into: *mut u8, room: usize, len: *mut usize) -> sam_status;
    /// Takes so many more of the records that were handed out as durable, the oldest first.
    pub fn sam_server_durable(server: *mut sam_server, count: usize) -> sam_status;
    /// Moves the next bytes for a connection into the buffer, as many as durable records decide and fit, and hands out their number: first
    /// the hello, and then the stream from the place where this connection goes on. Refused: SAM_LINK_NOT_OPEN if the connection is over or
    /// isn't the newest.
    pub fn sam_server_take_out(server: *mut sam_server, attempt: u64, into: *mut u8, room: usize, count: *mut usize) -> sam_status;
    /// Hands out the effect that is to be done now, the same until sam_server_effect_done. What the terminal sent behind it waits for that:
    /// do it soon. After a crash an effect is handed out again, unless the record of its end is durable. Returns SAM_NONE if there is none,
    /// or while the record that has it is not durable.
    pub fn sam_server_next_effect(server: *mut sam_server, effect: *mut sam_effect) -> sam_status;
    /// Copies the message that is to be heard now, all of it or nothing, and hands out its length in bytes. A room of 4,096 bytes is always
    /// enough. Refused, in this order: SAM_NONE if sam_server_next_effect hands out no message; SAM_NO_ROOM if it doesn't fit.
    pub fn sam_server_heard(server: *mut sam_server, into: *mut u8, room: usize, len: *mut usize) -> sam_status;
    /// Copies the name of the file that was closed, in UTF-8, all of it or nothing, and hands out its length in bytes. A room of
    /// SAM_MOST_NAME_BYTES is always enough. Refused, in this order: SAM_NONE if sam_server_next_effect hands out no file that was closed;
    /// SAM_NO_ROOM if it doesn't fit.
    pub fn sam_server_closed_name(server: *mut sam_server, into: *mut u8, room: usize, len: *mut usize) -> sam_status;
    /// Copies the text that the file had as it was closed, in UTF-8, all of it or nothing, and hands out its length in bytes. Refused as
    /// sam_server_closed_name is.
    pub fn sam_server_closed_text(server: *mut sam_server, into: *mut u8, room: usize, len: *mut usize) -> sam_status;
    /// Ends the effect, which is done. `ending` is a number of the program's own for how it ended, which stands in the record. Its own
    /// refusal: SAM_NONE if sam_server_next_effect hands out none.
    pub fn sam_server_effect_done(server: *mut sam_server, ending: u64) -> sam_status;
    /// Hands out whether the session is over: the terminal has sent Texit, or a command line was `q`.
    pub fn sam_server_is_done(server: *mut sam_server, done: *mut bool) -> sam_status;
    /// Hands out the number of tags that were given, the command file's 0 included: the greatest tag is one less.
    pub fn sam_server_tags(server: *mut sam_server, count: *mut usize) -> sam_status;
    /// Hands out whether the tag has a file now. The tag of a closed file has none.
    pub fn sam_server_has_file(server: *mut sam_server, tag: u16, has: *mut bool) -> sam_status;
    /// Copies the name of a file, as sam_host_name does. Returns SAM_NONE if the tag has no file.
    pub fn sam_server_name(server: *mut sam_server, tag: u16, into: *mut u8, room: usize, len: *mut usize) -> sam_status;
    /// Hands out the length of a file's text in runes. Returns SAM_NONE if the tag has no file.
    pub fn sam_server_len(server: *mut sam_server, tag: u16, runes: *mut u32) -> sam_status;
    /// Hands out whether a file was edited since it was made or written. Returns SAM_NONE if the tag has no file.
    pub fn sam_server_is_dirty(server: *mut sam_server, tag: u16, dirty: *mut bool) -> sam_status;
    /// Copies the text of a file from the place `place` on, as sam_host_text does. Returns SAM_NONE if the tag has no file.
    pub fn sam_server_text(
        server: *mut sam_server,
        tag: u16,
        place: u32,
        into: *mut u8,
        room: usize,
        bytes: *mut usize,
        runes: *mut u32,
    ) -> sam_status;
    /// Hands out the length in runes of the text that a file had when the terminal had it written last. Returns SAM_NONE if the tag has no
    /// file, or if the file was never written.
    pub fn sam_server_saved_len(server: *mut sam_server, tag: u16, runes: *mut u32) -> sam_status;
    /// Copies the text that a file had when the terminal had it written last, from the place `place` on, as sam_host_text does. Returns
    /// SAM_NONE if the tag has no file, or if the file was never written.
    pub fn sam_server_saved(
        server: *mut sam_server,
        tag: u16,
        place: u32,
        into: *mut u8,
        room: usize,
        bytes: *mut usize,
        runes: *mut u32,
    ) -> sam_status;
    /// Hands out whether the terminal has opened the file. Returns SAM_NONE if the tag has no file.
    pub fn sam_server_is_open(server: *mut sam_server, tag: u16, open: *mut bool) -> sam_status;
    /// Hands out the length of the snarf buffer in runes.
    pub fn sam_server_snarf_len(server: *mut sam_server, runes: *mut u32) -> sam_status;
    /// Copies the snarf buffer from the place `place` on, as sam_host_snarf does.
    pub fn sam_server_snarf(
        server: *mut sam_server,
        place: u32,
        into: *mut u8,
        room: usize,
        bytes: *mut usize,
        runes: *mut u32,
    ) -> sam_status;
    /// Hands out the number of the newest connection, or 0 before the first.
    pub fn sam_server_attempt(server: *mut sam_server, attempt: *mut u64) -> sam_status;
    /// Hands out the number of bytes that were put for the terminal, heads of packets included, also of those whose records are not
    /// durable.
    pub fn sam_server_put_count(server: *mut sam_server, count: *mut u64) -> sam_status;
    /// Hands out the number of these bytes that the terminal has acknowledged. A program that is about to end says its last message, and
    /// waits until this number is that of sam_server_put_count.
    pub fn sam_server_acknowledged(server: *mut sam_server, count: *mut u64) -> sam_status;
    /// Hands out the number of bytes of the terminal's stream that have come.
    pub fn sam_server_received(server: *mut sam_server, count: *mut u64) -> sam_status;
    /// Begins with the server of a session that has taken nothing. The id is that of the session whose records they are. Refused, in this
    /// order: SAM_NO_HANDLE if the handle is NULL; SAM_MADE if it is made already; SAM_NO_MEMORY. The handle is then as it was.
    pub fn sam_recovery_new(recovery: *mut sam_recovery, id: *const u8) -> sam_status;
    /// Frees a recovery, and leaves the handle empty. Refused: SAM_NO_HANDLE if the handle is NULL or empty.
    pub fn sam_recovery_free(recovery: *mut sam_recovery) -> sam_status;
    /// Takes the next record of the journal again: its body, as sam_server_next_record handed it out. Refused, in this order, and the
    /// handle is then empty, so begin anew: SAM_SERVER_NO_RECORD; then SAM_SERVER_NOT_TAKEN or SAM_NO_MEMORY, whichever shows first.
    pub fn sam_recovery_take(recovery: *mut sam_recovery, body: *const u8, len: usize) -> sam_status;
    /// Makes the server that goes on behind all these records, and leaves the recovery's handle empty. The server's connection is over, and
    /// its records count as durable, so have the journal synced before: an effect that waits is to be done now. Refused, in this order, and
    /// both handles are then as they were: SAM_NO_HANDLE if one of them is NULL, or the recovery's is empty; SAM_MADE if the server's is
    /// made already; SAM_NO_MEMORY.
    pub fn sam_recovery_finish(recovery: *mut sam_recovery, server: *mut sam_server) -> sam_status;
    /// Makes in an empty handle, which is not that of this server, a server of another session that begins with the texts of this one, for
    /// a terminal that takes them over. All files but the command file join it with the names and the texts that they have, in the order of
    /// their tags: from tag 1 on, with no gap. Each makes a record, and these begin a journal of its own. So the texts are taken over once
    /// that journal has the name of the old one. This server is as it was, and can go on until then. Which files are dirty, what was
    /// written last, selections and the command file stay behind: mark a file as dirty once the terminal has its name. Refused, in this
    /// order, and both handles are then as they were: SAM_NO_HANDLE if one of them is NULL, or this server's is empty; SAM_MADE if the
    /// other is made already; SAM_WAITING if earlier work is left, for sam_server_go_on; SAM_SERVER_EFFECT_WAITS if an effect is not done,
    /// also one that is not handed out yet; SAM_NO_MEMORY. A server that has stopped hands its texts on, too.
    pub fn sam_server_heir(server: *mut sam_server, id: *const u8, heir: *mut sam_server) -> sam_status;
    /// Runs a script over a host and a terminal of its own, and hands out the output of its `show` lines, in bytes. It takes no handle.
    /// docs/reference/SCRIPTS.md explains the language. All lines are read before the first is done. At SAM_OK *out_len is the number of
    /// all bytes that are printed, and the first of them stand in `out`, as many as fit. The rest of the buffer is as it was. If *out_len
    /// is above out_room, call again with so much room, because a script prints the same each time. Refused: SAM_SCRIPT_LINE if a line is
    /// wrong; *line, counted from 1, is the first of these. If no line is wrong, the first that can't be done decides: SAM_SCRIPT_LINE
    /// reports a `host` or `term` at which nothing is there to take, SAM_SCRIPT_COUNT_FULL a line that would count more than 2^64-1
    /// messages. SAM_NO_MEMORY may come at any line. The results are then as they were, but for *line at SAM_SCRIPT_LINE.
    pub fn sam_replay(
        script: *const u8,
        script_len: usize,
        out: *mut u8,
        out_room: usize,
        out_len: *mut usize,
        line: *mut usize,
    ) -> sam_status;
}
