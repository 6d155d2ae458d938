//! Many edits by one call of a client.

use crate::terminal::shown;
use crate::{Splice, SpliceKind};
use sulgrevad_sys::{self as sys, sam_changes, sam_did, sam_replacement, sam_splice};

/// The most steps of which one call hands out the edits.
const MOST_EDITS: usize = 2048;
/// The most runes that come with them.
const MOST_RUNES: usize = 65_536;

/// One of several replacements: the shown runes from the place `start` to the place `end` give way to the text.
#[derive(Clone, Copy, Debug, PartialEq, Eq)]
pub struct Replacement<'a> {
    /// The place where the runes that go begin.
    pub start: u32,
    /// The place where they end.
    pub end: u32,
    /// The text that comes.
    pub text: &'a str,
}

impl Replacement<'_> {
    /// Returns the replacements as the library takes them, and their runes one after another.
    pub(crate) fn lent(all: &[Replacement<'_>]) -> (Vec<sam_replacement>, String) {
        let row = |one: &Replacement<'_>| sam_replacement {
            start: one.start,
            end: one.end,
            // The library refuses a count that is not that of the text.
            count: u32::try_from(one.text.chars().count()).unwrap_or(u32::MAX),
        };
        (all.iter().map(row).collect(), all.iter().map(|one| one.text).collect())
    }
}

/// A change of the shown text of a file, with the runes that it brought.
#[derive(Clone, Debug, PartialEq, Eq)]
pub struct ShownEdit {
    /// The change.
    pub splice: Splice,
    /// The runes that came or were loaded: in it `None` for each that is not loaded. It is empty for `Went`.
    pub runes: Vec<Option<char>>,
}

/// Returns whether a step edits a text by a frame, or loads some of it.
pub(crate) fn is_followed(did: &sam_did) -> bool {
    matches!(did.kind, sys::SAM_KIND_HDATA | sys::SAM_KIND_HGROWDATA | sys::SAM_KIND_HCUT)
}

/// Lends a call room for the edits of many steps, and puts those that it hands out behind the others. Returns the status of the call.
pub(crate) fn take_edits(into: &mut Vec<ShownEdit>, call: impl FnOnce(&mut sam_changes) -> u32) -> u32 {
    let (mut splices, mut runes) = (Vec::<sam_splice>::with_capacity(MOST_EDITS), Vec::<u32>::with_capacity(MOST_RUNES));
    let mut changes = sam_changes {
        splices: splices.as_mut_ptr(),
        most: MOST_EDITS,
        got: 0,
        runes: runes.as_mut_ptr(),
        room: MOST_RUNES,
        used: 0,
    };
    let status = call(&mut changes);
    // The library has written so many.
    unsafe {
        splices.set_len(changes.got);
        runes.set_len(changes.used);
    }
    let mut came = shown(runes).into_iter();
    into.extend(splices.into_iter().map(Splice::of).map(|splice| {
        let count = if splice.kind == SpliceKind::Went { 0 } else { splice.count };
        ShownEdit {
            splice,
            runes: came.by_ref().take(count as usize).collect(),
        }
    }));
    status
}
