//! Each fault that a stream can have and each refusal of an event, by its own name. The bytes follow docs/reference/PROTOCOL.md, the limits
//! are those of sulgrevad.h.

mod both;

use both::{carry, opened};
use sulgrevad::{Error, Host, HostFault, Refusal, StreamFault, TermFault, Terminal};

const MAX_RUNES: usize = 1_000_000;

/// A message of a terminal: its kind, the length of its fields, and these.
fn message(kind: u8, fields: &[u8]) -> Vec<u8> {
    let mut bytes = vec![kind];
    bytes.extend_from_slice(&(fields.len() as u16).to_be_bytes());
    bytes.extend_from_slice(fields);
    bytes
}

/// A frame of a host that has taken so many messages.
fn frame(kind: u8, seen: u64, fields: &[u8]) -> Vec<u8> {
    message(kind, &[&seen.to_be_bytes(), fields].concat())
}

/// What a new host, whose file 1 has this text, says of bytes. It says it again at the next feed and at the end.
fn fed_host(text: &str, bytes: &[u8]) -> Result<(), Error> {
    let mut host = Host::new()?;
    host.add_file("a", text)?;
    let fed = host.feed(bytes);
    assert_eq!((host.feed(&[]), host.finish()), (fed, fed));
    fed
}

/// What a new terminal says of bytes. It says it again at the next feed, at an event and at the end.
fn fed_term(bytes: &[u8]) -> Result<(), Error> {
    let mut term = Terminal::new()?;
    let fed = term.feed(bytes);
    assert_eq!((term.feed(&[]), term.cut(1), term.finish()), (fed, fed, fed));
    fed
}

#[test]
fn a_stream_up_has_its_faults() {
    let fault = |why| Err(Error::Stream(why));
    assert_eq!(fed_host("one", &[23]), fault(StreamFault::BadKind)); // Texit, 22, is the last kind
    assert_eq!(fed_host("one", &[1, 0, 3]), fault(StreamFault::BadLength)); // a Tversion has two bytes
    assert_eq!(fed_host("one", &message(8, b"\0\x01\0\0\0\0\xff")), fault(StreamFault::BadText)); // Ttype(1, 0, ..)
    assert_eq!(fed_host("one", &message(1, b"\0\x02")), Ok(())); // Tversion(2)
}

#[test]
fn a_stream_down_has_its_faults() {
    let fault = |why| Err(Error::Stream(why));
    assert_eq!(fed_term(&[64]), fault(StreamFault::BadKind)); // Hversion, 65, is the first kind
    assert_eq!(fed_term(&[72, 0, 9]), fault(StreamFault::BadLength)); // an Hunlock has eight bytes
    assert_eq!(fed_term(&frame(69, 0, b"\0\x01\xff")), fault(StreamFault::BadText)); // Hmovname(1, ..)
    assert_eq!(fed_term(&frame(68, 0, b"\0\x01")), Ok(())); // Hnewname(1)
}

#[test]
fn a_fault_is_told_by_its_place() -> Result<(), Error> {
    let (mut host, mut term) = (Host::new()?, Terminal::new()?);
    let (up, down) = (message(1, b"\0\x02"), frame(68, 0, b"\0\x01")); // Tversion(2), Hnewname(1)
    assert_eq!((host.fault_place(), term.fault_place()), (None, None));
    assert!(host.feed(&[&up[..], &[23]].concat()).is_err());
    assert!(term.feed(&[&down[..], &[64]].concat()).is_err());
    assert_eq!(
        (host.fault_place(), term.fault_place()),
        (Some(up.len() as u64), Some(down.len() as u64))
    );
    Ok(())
}

#[test]
fn a_host_refuses_messages() {
    let refused = |why| Err(Error::HostRefused(why));
    let open = message(6, b"\0\x01"); // Tstartfile(1)
    let cut = message(9, b"\0\x01\0\0\0\0\0\0\0\x04"); // Tcut(1, 0, 4)
    let type_ = message(8, b"\0\x01\0\0\0\0y"); // Ttype(1, 0, `y`)
    let full = "x".repeat(MAX_RUNES);
    assert_eq!(fed_host("one", &message(6, b"\0\x09")), refused(HostFault::NoFile)); // Tstartfile(9)
    assert_eq!(fed_host("one", &message(13, b"\0\x01")), refused(HostFault::NotOpen)); // Twrite(1)
    assert_eq!(fed_host("one", &[&open[..], &cut].concat()), refused(HostFault::BadPosition));
    assert_eq!(fed_host("four", &[&open[..], &cut].concat()), Ok(()));
    assert_eq!(fed_host(&full, &[&open[..], &type_].concat()), refused(HostFault::TooLong));
    assert_eq!(fed_host(&full[1..], &[&open[..], &type_].concat()), Ok(()));
    assert_eq!(fed_host("one", &message(1, b"\0\0")), refused(HostFault::BadVersion)); // Tversion(0)
    assert_eq!(fed_host("one", &message(14, b"\0\0")), refused(HostFault::CommandFile));
    // Tclose(0)
}

#[test]
fn a_terminal_refuses_frames() {
    let refused = |why| Err(Error::TermRefused(why));
    let (new, bind) = (frame(68, 0, b"\0\x01"), frame(66, 0, b"\0\x01")); // Hnewname(1), Hbindname(1)
    let check = frame(71, 0, b"\0\x01"); // Hcheck(1)
    let dot = frame(76, 0, b"\0\x01\0\0\0\0\0\0\0\x01"); // Hsetdot(1, 0, 1)
    let grow = |count: u32| frame(70, 0, &[b"\0\x01\0\0\0\0", &count.to_be_bytes()[..]].concat()); // Hgrow(1, 0, count)
    let full = MAX_RUNES as u32;
    assert_eq!(fed_term(&frame(72, 1, b"")), refused(TermFault::FromTheFuture)); // Hunlock, which answers a first message
    assert_eq!(fed_term(&bind), refused(TermFault::NoFile));
    assert_eq!(fed_term(&[&new[..], &check].concat()), refused(TermFault::NotOpen));
    assert_eq!(fed_term(&[&new[..], &new].concat()), refused(TermFault::AlreadyBound));
    assert_eq!(fed_term(&[&new[..], &bind, &dot].concat()), refused(TermFault::BadPosition));
    assert_eq!(fed_term(&[&new[..], &bind, &grow(full + 1)].concat()), refused(TermFault::TooLong));
    assert_eq!(fed_term(&[&new[..], &bind, &grow(full), &dot, &check].concat()), Ok(()));
    assert_eq!(fed_term(&frame(72, 0, b"")), refused(TermFault::LockNotHeld)); // Hunlock
}

/// Wants that of the events since this was asked last the one that was made last was refused, and no other.
fn wants_refusal(term: &mut Terminal, why: Refusal) {
    let last = term.events();
    assert_eq!(term.refusals().collect::<Vec<_>>(), [(last, Ok(why))]);
}

#[test]
fn events_are_refused() -> Result<(), Error> {
    let (mut host, mut term, file) = opened("one\n")?;
    term.close(0)?; // it is not known before it is opened
    wants_refusal(&mut term, Refusal::NoFile);
    term.open_cmd()?;
    carry(&mut term, &mut host)?;
    term.close(0)?;
    wants_refusal(&mut term, Refusal::CommandFile);
    term.select(file, 0, 5)?;
    wants_refusal(&mut term, Refusal::BadPosition);
    term.type_(file, &"é".repeat(512))?;
    term.type_(file, &"é".repeat(513))?;
    wants_refusal(&mut term, Refusal::TextTooLong);
    term.set_snarf(&"é".repeat(16_000))?; // 32,000 bytes
    term.set_snarf(&"é".repeat(16_001))?;
    wants_refusal(&mut term, Refusal::TextTooLong);
    term.offer_version(0)?;
    wants_refusal(&mut term, Refusal::BadVersion);
    Ok(())
}

#[test]
fn an_event_for_a_file_that_is_not_open_is_refused() -> Result<(), Error> {
    let (mut host, mut term) = (Host::new()?, Terminal::new()?);
    let file = host.add_file("a", "one")?;
    term.offer_version(2)?;
    carry(&mut term, &mut host)?;
    term.cut(file)?;
    wants_refusal(&mut term, Refusal::NotOpen);
    Ok(())
}

#[test]
fn a_rune_more_than_a_file_may_have_is_refused() -> Result<(), Error> {
    let (_host, mut term, file) = opened(&"x".repeat(MAX_RUNES))?;
    term.select(file, 0, 1)?;
    term.type_(file, "y")?; // in the place of another
    term.type_(file, "y")?;
    wants_refusal(&mut term, Refusal::TooLong);
    Ok(())
}

#[test]
fn events_after_the_end_are_refused() -> Result<(), Error> {
    let (mut host, mut term, file) = opened("one\n")?;
    term.exit()?;
    carry(&mut term, &mut host)?;
    term.cut(file)?;
    wants_refusal(&mut term, Refusal::Exited);
    Ok(())
}

#[test]
fn a_host_takes_no_file_that_is_too_long_or_too_many() -> Result<(), Error> {
    let mut host = Host::new()?;
    assert_eq!(host.add_file(&"é".repeat(65), ""), Err(Error::TooLong));
    assert_eq!(host.add_file("a", &"x".repeat(MAX_RUNES + 1)), Err(Error::TooLong));
    assert_eq!(host.add_file(&"é".repeat(64), &"x".repeat(MAX_RUNES)), Ok(1));
    for tag in 2..=65_535 {
        assert_eq!(host.add_file("a", ""), Ok(tag));
    }
    assert_eq!(host.add_file("a", ""), Err(Error::NoTag));
    Ok(())
}
