//! Scripts, which are run over a host and a terminal of their own.

use crate::{done, Error, PIECE};
use sulgrevad_sys as sys;

/// Runs a script over a host and a terminal of its own, and returns the output of its `show` lines. docs/reference/SCRIPTS.md explains the
/// language. Errors: `ScriptLine`, `ScriptCountFull`, `NoMemory`.
///
/// ```
/// let shown = sulgrevad::replay(b"file notes hello\nshow\n")?;
/// assert_eq!(shown, b"= h 0 - c ~~sam~~ ||\n= h 1 - c notes |hello|\n= s 0 0 0 0 0 0\n");
/// assert_eq!(sulgrevad::replay(b"show\nfly\n"), Err(sulgrevad::Error::ScriptLine(2)));
/// # Ok::<(), sulgrevad::Error>(())
/// ```
pub fn replay(script: &[u8]) -> Result<Vec<u8>, Error> {
    let mut out = vec![0; PIECE];
    loop {
        let (mut len, mut line) = (0, 0);
        let status = unsafe { sys::sam_replay(script.as_ptr(), script.len(), out.as_mut_ptr(), out.len(), &mut len, &mut line) };
        if status == sys::SAM_SCRIPT_LINE {
            return Err(Error::ScriptLine(line));
        }
        done(status)?;
        let is_whole = len <= out.len();
        out.resize(len, 0);
        if is_whole {
            return Ok(out);
        }
    }
}
