//! A link over connections that break, and hellos.

use sulgrevad::{read_hello, write_refusal, Error, Link, LinkFault, Phase, Place, Role, What, HELLO_BYTES, MOST_NOTE};

const ID: [u8; 16] = *b"a session's name";

/// What an end has for a connection: its hello, and what comes after it.
fn written(link: &mut Link, attempt: u64) -> ([u8; HELLO_BYTES], Vec<u8>) {
    let mut bytes = vec![0; 100_000];
    let count = link.take_out(attempt, &mut bytes).unwrap();
    (bytes[..HELLO_BYTES].try_into().unwrap(), bytes[HELLO_BYTES..count].to_vec())
}

/// All bytes that are next for the program.
fn taken(link: &mut Link) -> Vec<u8> {
    let (mut all, mut piece) = (Vec::new(), [0; 1000]);
    loop {
        match link.take_in(&mut piece) {
            0 => return all,
            count => all.extend_from_slice(&piece[..count]),
        }
    }
}

#[test]
fn bytes_and_notes_survive_a_break() {
    let mut link = Link::new(Role::Terminal, ID).unwrap();
    let mut host = Link::new(Role::Host, ID).unwrap();
    link.put(&[7; 9000]).unwrap();
    link.put_note(b"after nine thousand").unwrap();
    link.put(b"end").unwrap();
    assert_eq!((link.phase(), link.attempt(), link.acknowledged()), (Phase::Down, 0, 0));
    let put = link.put_count();
    assert_eq!(put, 9000 + 3 * 3 + 19 + 3 + 3 + 3);

    let first = link.call(false).unwrap();
    let (hello, rest) = written(&mut link, first);
    assert_eq!(
        read_hello(&hello).unwrap().map(|read| (read.what, read.id, read.attempt)),
        Some((What::Begin, ID, 1))
    );
    assert_eq!(read_hello(&hello[..41]), Ok(None));
    host.answer(&hello).unwrap();
    host.feed(first, &rest[..5000]).unwrap(); // and the line breaks
    link.broken(first);
    assert_eq!(link.take_out(first, &mut [0; 9]), Err(Error::Link(LinkFault::NotOpen)));

    let second = link.call(true).unwrap();
    let (hello, none) = written(&mut link, second);
    assert_eq!((read_hello(&hello).unwrap().unwrap().what, none.len()), (What::TakeOver, 0)); // no welcome came
    assert_eq!(host.answer(&hello), Ok(()));
    let (welcome, _) = written(&mut host, second);
    link.welcomed(&welcome).unwrap();
    assert_eq!((link.phase(), link.acknowledged()), (Phase::Open, 5000));
    link.ask().unwrap();
    let mut bytes = vec![0; 100_000];
    let count = link.take_out(second, &mut bytes).unwrap();
    host.feed(second, &bytes[..count]).unwrap();

    assert_eq!(host.received(), link.put_count());
    assert_eq!(host.next_note(), None); // bytes before it are not taken in
    assert_eq!(taken(&mut host), [7; 9000]);
    assert_eq!(host.next_note(), Some(b"after nine thousand".to_vec()));
    assert_eq!(taken(&mut host), b"end");

    host.acknowledge().unwrap();
    let count = host.take_out(second, &mut bytes).unwrap();
    link.feed(second, &bytes[..count]).unwrap();
    assert_eq!((link.acknowledged(), link.unsent()), (link.put_count(), 0));
    assert_eq!((link.received(), link.take_in(&mut [0; 9]), link.next_note()), (22, 0, None));

    host.put(b"at once").unwrap();
    let count = host.take_out(second, &mut bytes).unwrap();
    let mut into = [0; 2];
    assert_eq!(link.feed_into(first, &bytes[..count], &mut into), Err(Error::Link(LinkFault::NotOpen)));
    assert_eq!(link.feed_into(second, &bytes[..count], &mut into), Ok(2));
    assert_eq!((&into, taken(&mut link)), (b"at", b" once".to_vec()));

    host.put(b"in place").unwrap();
    let count = host.take_out(second, &mut bytes).unwrap();
    let mut places = [Place::default(); 2];
    assert_eq!(link.feed_places(first, &bytes[..count], &mut places), Err(Error::Link(LinkFault::NotOpen)));
    assert_eq!(link.feed_places(second, &bytes[..count], &mut places), Ok(1));
    assert_eq!((places, &bytes[3..11]), ([Place { start: 3, len: 8 }, Place::default()], &b"in place"[..]));
    assert_eq!(link.take_in(&mut into), 0);
}

#[test]
fn what_is_refused_says_why() {
    let mut link = Link::new(Role::Terminal, ID).unwrap();
    let mut host = Link::new(Role::Host, [0; 16]).unwrap();
    assert_eq!(host.call(false), Err(Error::Link(LinkFault::WrongRole)));
    assert_eq!(read_hello(b"GET / HTTP/1.1"), Err(Error::Link(LinkFault::NotALink)));
    assert_eq!(link.put_note(&[0; MOST_NOTE + 1]), Err(Error::Link(LinkFault::TooLong)));

    let attempt = link.call(false).unwrap();
    let (hello, _) = written(&mut link, attempt);
    assert_eq!(host.answer(&hello), Err(Error::Link(LinkFault::OtherSession)));
    assert_eq!(link.answer(&hello), Err(Error::Link(LinkFault::WrongRole)));
    let refusal = write_refusal(LinkFault::OtherSession, &hello).unwrap();
    assert_eq!(read_hello(&refusal).unwrap().unwrap().what, What::Refused(LinkFault::OtherSession));
    assert_eq!(link.welcomed(&refusal), Err(Error::Link(LinkFault::OtherSession)));
    assert_eq!(link.phase(), Phase::Asking);
    assert_eq!(write_refusal(LinkFault::NotOpen, &hello), None);
    link.acknowledge().unwrap();
    assert_eq!(link.put_count(), 11);
}
