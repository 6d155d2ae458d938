//! A host and a terminal for the tests, and what carries the bytes between them.

use sulgrevad::{Error, Host, Terminal};

/// Carries bytes both ways, cut into pieces, until neither side has any.
pub fn carry(term: &mut Terminal, host: &mut Host) -> Result<(), Error> {
    while term.pending() + host.pending() > 0 {
        for piece in term.take_out().flatten().collect::<Vec<u8>>().chunks(3) {
            host.feed(piece)?;
        }
        for piece in host.take_out().flatten().collect::<Vec<u8>>().chunks(5) {
            term.feed(piece)?;
        }
    }
    Ok(())
}

/// A host with one file, which the terminal has open. Both speak version 2.
pub fn opened(text: &str) -> Result<(Host, Terminal, u16), Error> {
    let mut host = Host::new()?;
    let file = host.add_file("notes", text)?;
    let mut term = Terminal::new()?;
    term.offer_version(2)?;
    carry(&mut term, &mut host)?;
    term.open(file)?;
    carry(&mut term, &mut host)?;
    Ok((host, term, file))
}
