//! The results of single steps of a host or a terminal.

use crate::{Change, Refusal};
use sulgrevad_sys::{self as sys, sam_did};

/// The frame that a terminal's next step receives. Places and counts are of runes and gaps.
#[derive(Clone, Copy, Debug, PartialEq, Eq)]
pub struct NextFrame {
    /// The number of its kind, as docs/reference/PROTOCOL.md has it.
    pub kind: u8,
    /// The file that it names, or 0.
    pub tag: u16,
    /// The place in that file's text at which runes or gaps will give way or come in; 0 if nothing changes.
    pub start: u32,
    /// The number of runes or gaps that will give way there.
    pub gone: u32,
    /// Whether gaps give way to their runes: the frame loads them, and changes no text.
    pub loads: bool,
}

/// The result of a step of a host.
#[derive(Clone, Copy, Debug, PartialEq, Eq)]
#[non_exhaustive]
pub enum HostStep {
    /// Nothing: nothing waits.
    Idle,
    /// The last answer is pending now.
    Wrote,
    /// The host took `count` messages at once: edits of one file, and the checks (Tcheck) among them.
    Edited {
        /// The file.
        tag: u16,
        /// How many messages.
        count: usize,
    },
    /// The host answered one message of this kind, by the numbers of docs/reference/PROTOCOL.md; `tag` is the file that it names, or 0.
    Answered {
        /// The kind.
        kind: u8,
        /// The file, or 0.
        tag: u16,
    },
}

/// The result of a step of a terminal.
#[derive(Clone, Copy, Debug, PartialEq, Eq)]
#[non_exhaustive]
pub enum TermStep {
    /// Nothing: nothing waits, and no event is held.
    Idle,
    /// Nothing: no frame waits, and a lock holds the oldest event back.
    Locked,
    /// The messages that were composed last are pending now.
    Wrote,
    /// The terminal received one frame of this kind, by the numbers of docs/reference/PROTOCOL.md; `tag` is the file that it names, or 0,
    /// and `change` the change of its text. If `loads` is true the frame loads runes in the place of gaps: more of the text is known, and
    /// nothing changed.
    Received {
        /// The kind.
        kind: u8,
        /// The file, or 0.
        tag: u16,
        /// The change of the file's text.
        change: Change,
        /// Whether runes came in the place of gaps.
        loads: bool,
    },
    /// The event of this number, counted from 1, acted; `tag` is the file that it names, or 0, and `change` the change of its text.
    Acted {
        /// The number of the event.
        event: u64,
        /// The file, or 0.
        tag: u16,
        /// The change of the file's text.
        change: Change,
    },
    /// The event of this number was refused: `why` is the reason, or the number of a reason that this crate doesn't know.
    Refused {
        /// The number of the event.
        event: u64,
        /// The reason.
        why: Result<Refusal, u32>,
    },
}

fn change_of(did: &sam_did) -> Change {
    Change {
        start: did.start,
        gone: did.gone,
        came: did.came,
    }
}

pub(crate) fn next_frame(next: &sam_did) -> NextFrame {
    NextFrame {
        kind: next.kind,
        tag: next.tag,
        start: next.start,
        gone: next.gone,
        loads: next.loads,
    }
}

pub(crate) fn host_step(did: &sam_did) -> HostStep {
    match did.step {
        sys::SAM_STEP_WROTE => HostStep::Wrote,
        sys::SAM_STEP_EDITED => HostStep::Edited {
            tag: did.tag,
            count: did.count,
        },
        sys::SAM_STEP_ANSWERED => HostStep::Answered {
            kind: did.kind,
            tag: did.tag,
        },
        _ => HostStep::Idle,
    }
}

pub(crate) fn term_step(did: &sam_did) -> TermStep {
    let (event, tag) = (did.event, did.tag);
    match did.step {
        sys::SAM_STEP_LOCKED => TermStep::Locked,
        sys::SAM_STEP_WROTE => TermStep::Wrote,
        sys::SAM_STEP_RECEIVED => TermStep::Received {
            kind: did.kind,
            tag,
            change: change_of(did),
            loads: did.loads,
        },
        sys::SAM_STEP_ACTED => TermStep::Acted {
            event,
            tag,
            change: change_of(did),
        },
        sys::SAM_STEP_REFUSED => TermStep::Refused {
            event,
            why: Refusal::of(did.why).ok_or(did.why),
        },
        _ => TermStep::Idle,
    }
}
