//! A line, with the times of its connections.

use sulgrevad::{Clocked, Error, Line, LineDetails, LineState, Link, LinkFault, Role, Tick, MOST_NOTE};

const ID: [u8; 16] = *b"a session's name";

/// What an end has for a connection.
fn written(link: &mut Link, attempt: u64) -> Vec<u8> {
    let mut bytes = vec![0; 100_000];
    let count = link.take_out(attempt, &mut bytes).unwrap();
    bytes.truncate(count);
    bytes
}

/// A line with a host that has welcomed it, at the time 1000.
fn opened() -> (Line, Link, u64) {
    let mut line = Line::new(ID, false, 1000).unwrap();
    let mut host = Link::new(Role::Host, ID).unwrap();
    let attempt = line.connected(1000).unwrap();
    let mut hello = [0; 42];
    assert_eq!(line.take_out(attempt, &mut hello), Ok(42));
    host.answer(&hello).unwrap();
    line.receive(attempt, b"a login\n", 1000).unwrap();
    line.receive(attempt, &written(&mut host, attempt), 1000).unwrap();
    (line, host, attempt)
}

#[test]
fn connections_are_due_by_the_clock() {
    let mut line = Line::new(ID, true, 0).unwrap();
    assert_eq!(
        (line.due_in(0), line.tick(0), line.tick(0)),
        (Some(0), Tick::Connect, Tick::Nothing)
    );
    line.not_connected(0);
    assert_eq!((line.tick(0), line.describe(0).failures), (Tick::Connect, 1));
    line.not_connected(0);
    assert_eq!((line.due_in(0), line.describe(0).state), (Some(1000), LineState::Down));

    let (mut line, _, attempt) = opened();
    assert_eq!((line.words(), line.due_in(1000)), (b"a login\n".to_vec(), None));
    line.expect(true, 1000);
    assert_eq!(line.due_in(1000), Some(15_000));
    line.expect(false, 1000);
    assert_eq!(line.due_in(1000), None);
    line.put(b"hi", 1000).unwrap();
    assert_eq!((line.tick(15_999), line.tick(16_000)), (Tick::Nothing, Tick::Ask));
    line.ask(16_000).unwrap();
    assert_eq!(
        (line.describe(16_000).state, line.describe(16_000).silence),
        (LineState::Late, 15_000)
    );
    line.address_changed(16_000);
    assert_eq!((line.tick(17_999), line.tick(18_000)), (Tick::Nothing, Tick::Drop));
    assert_eq!(line.take_out(attempt, &mut [0; 9]), Err(Error::Link(LinkFault::NotOpen)));
}

#[test]
fn bytes_and_notes_go_both_ways() {
    let (mut line, mut host, attempt) = opened();
    line.put(b"hi", 1000).unwrap();
    line.put_note(b"note", 1000).unwrap();
    line.ask(1000).unwrap();
    let mut bytes = [0; 100];
    let count = line.take_out(attempt, &mut bytes).unwrap();
    host.feed(attempt, &bytes[..count]).unwrap();
    assert_eq!((host.take_in(&mut bytes), host.next_note()), (2, Some(b"note".to_vec())));
    host.put(b"back").unwrap();
    host.put_note(b"ok").unwrap();
    line.receive(attempt, &written(&mut host, attempt), 1120).unwrap();
    assert_eq!((line.next_note(), line.take_in(&mut bytes), &bytes[..4]), (None, 4, &b"back"[..]));
    assert_eq!((line.next_note(), line.next_note()), (Some(b"ok".to_vec()), None));
    let wanted = LineDetails {
        state: LineState::Open,
        silence: 0,
        round_trip: 120,
        overdue_after: 1240,
        failures: 0,
        attempt: 1,
        put_count: 15,
        acknowledged: 15,
        received: 23,
        is_known: true,
        is_broken: false,
        has_all: true,
    };
    assert_eq!(line.describe(1120), wanted);
    line.acknowledge().unwrap();
    assert_eq!(line.take_out(attempt, &mut bytes), Ok(11));
}

#[test]
fn what_is_refused_says_why() {
    let (mut line, _, attempt) = opened();
    assert_eq!(line.put_note(&[0; MOST_NOTE + 1], 1000), Err(Error::Link(LinkFault::TooLong)));
    assert_eq!(line.receive(attempt, b"\x09", 1000), Err(Error::Link(LinkFault::BadKind)));
    assert_eq!(line.receive(attempt, b"\x09", 1000), Err(Error::Link(LinkFault::NotOpen)));
    let second = line.connected(1000).unwrap();
    assert_eq!(
        line.receive(second, b"\x89samlink\x02", 1000),
        Err(Error::Link(LinkFault::WrongHello))
    );
    let third = line.connected(1000).unwrap();
    line.receive(third, &[0; 65_536], 1000).unwrap();
    assert_eq!(line.receive(third, &[0], 1000), Err(Error::Link(LinkFault::TooManyWords)));
    let fourth = line.connected(1000).unwrap();
    let mut refusal = [0; 42];
    refusal[..10].copy_from_slice(b"\x89samlink\x01\x15");
    assert_eq!(line.receive(fourth, &refusal, 1000), Err(Error::Link(LinkFault::OtherSession)));
    assert_eq!(line.describe(1000).state, LineState::Lost(LinkFault::OtherSession));
    line.broken(fourth, 1000);
    assert_eq!((line.due_in(1000), line.tick(9999)), (None, Tick::Nothing));
}
