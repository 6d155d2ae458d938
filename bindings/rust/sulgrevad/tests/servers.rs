//! A durable server, its records and its effects, and a server that is made of the records.

use sulgrevad::{recover, DurableServer, Effect, Error, Link, LinkFault, Recovery, Role, ServerFault, Terminal};

const ID: [u8; 16] = *b"a session's name";

/// Puts the records into the journal, and tells that they are durable.
fn record(server: &mut DurableServer, journal: &mut Vec<Vec<u8>>) {
    while let Some(len) = server.record_len() {
        let body = server.next_record().unwrap();
        assert_eq!(body.len(), len);
        journal.push(body);
        server.durable(1);
    }
}

/// Opens a connection between the two, and returns its number.
fn connect(server: &mut DurableServer, link: &mut Link, journal: &mut Vec<Vec<u8>>) -> u64 {
    let mut bytes = [0; 42];
    let attempt = link.call(false).unwrap();
    link.take_out(attempt, &mut bytes).unwrap();
    server.accept(&bytes).unwrap();
    assert_eq!(server.take_out(attempt, &mut [0; 42]), Ok(0));
    record(server, journal);
    assert_eq!(server.take_out(attempt, &mut bytes), Ok(42));
    link.welcomed(&bytes).unwrap();
    attempt
}

/// Carries bytes until none are left.
fn carry(server: &mut DurableServer, link: &mut Link, term: &mut Terminal, attempt: u64, journal: &mut Vec<Vec<u8>>) {
    let mut bytes = [0; 4096];
    loop {
        term.flush_now().unwrap();
        let up: Vec<u8> = term.take_out().flatten().collect();
        link.put(&up).unwrap();
        let count = link.take_out(attempt, &mut bytes).unwrap();
        server.receive(attempt, &bytes[..count]).unwrap();
        record(server, journal);
        let down = server.take_out(attempt, &mut bytes).unwrap();
        link.feed(attempt, &bytes[..down]).unwrap();
        loop {
            match link.take_in(&mut bytes) {
                0 => break,
                count => term.feed(&bytes[..count]).unwrap(),
            }
        }
        if up.len() + count + down == 0 {
            return;
        }
    }
}

#[test]
fn a_server_goes_on_after_a_crash() {
    let (mut journal, mut term) = (Vec::new(), Terminal::new().unwrap());
    let mut server = DurableServer::new(ID).unwrap();
    let mut link = Link::new(Role::Terminal, ID).unwrap();
    assert_eq!((server.add_file("notes", "hello\n"), server.next_effect()), (Ok(1), None));
    let attempt = connect(&mut server, &mut link, &mut journal);
    term.offer_version(2).unwrap();
    term.open(1).unwrap();
    term.type_(1, "b").unwrap();
    term.write(1).unwrap();
    term.type_(1, "c").unwrap();
    link.put_note(b"note").unwrap();
    carry(&mut server, &mut link, &mut term, attempt, &mut journal);
    assert_eq!(server.next_effect(), Some(Effect::Hear(b"note".to_vec())));
    server.effect_done(0).unwrap();
    server.go_on().unwrap();
    carry(&mut server, &mut link, &mut term, attempt, &mut journal);
    assert_eq!(
        (server.next_effect(), server.saved(1).as_deref()),
        (Some(Effect::Write(1)), Some("bhello\n"))
    );
    drop(server); // a crash

    let mut server = recover(ID, &journal).unwrap();
    assert_eq!(
        (server.next_effect(), server.record_len(), server.saved_len(1)),
        (Some(Effect::Write(1)), None, Some(7))
    );
    assert_eq!(server.take_out(attempt, &mut [0; 9]), Err(Error::Link(LinkFault::NotOpen)));
    link.broken(attempt);
    let attempt = connect(&mut server, &mut link, &mut journal);
    server.mark_dirty(1).unwrap();
    server.effect_done(7).unwrap();
    carry(&mut server, &mut link, &mut term, attempt, &mut journal);
    assert_eq!((server.text(1).as_deref(), server.is_dirty(1)), (Some("bchello\n"), Some(true)));
    assert_eq!(
        (server.text_part(1, 1, 3).as_deref(), server.saved_part(1, 5, 9).as_deref()),
        (Some("che"), Some("o\n"))
    );
    assert_eq!(
        (server.name(1).as_deref(), server.name(2), server.len(1)),
        (Some("notes"), None, Some(8))
    );
    assert_eq!(
        (server.tags(), server.has_file(1), server.has_file(2), server.is_done()),
        (2, true, false, false)
    );
    assert_eq!((server.is_open(1), server.is_open(2)), (Some(true), None));
    assert_eq!((server.snarf_len(), server.snarf().as_str()), (0, ""));
    assert_eq!((server.attempt(), server.received() > 0), (attempt, true));
    let put = server.put_count();
    server.ask().unwrap();
    server.acknowledge().unwrap();
    server.say(b"hi").unwrap();
    assert_eq!((server.put_count() - put, server.acknowledged() <= put), (3 + 11 + 5, true));
    assert_eq!(server.take_out(attempt, &mut [0; 9]), Ok(0));
    assert_eq!((server.next_record(), server.next_record()), (Some(vec![6]), Some(vec![5])));
    server.durable(2);
    assert_eq!(server.take_out(attempt, &mut [0; 99]), Ok(14));
    server.broken(attempt);
    assert_eq!(server.receive(attempt, b""), Err(Error::Link(LinkFault::NotOpen)));
}

#[test]
fn a_file_that_closes_dirty_is_told_of() {
    let (mut journal, mut term) = (Vec::new(), Terminal::new().unwrap());
    let mut server = DurableServer::new(ID).unwrap();
    let mut link = Link::new(Role::Terminal, ID).unwrap();
    server.add_file("notes", "hello\n").unwrap();
    server.add_file("clean", "x").unwrap();
    let attempt = connect(&mut server, &mut link, &mut journal);
    term.offer_version(2).unwrap();
    for tag in [1, 2] {
        term.open(tag).unwrap();
        carry(&mut server, &mut link, &mut term, attempt, &mut journal);
    }
    term.type_(1, "b").unwrap();
    term.close(1).unwrap();
    carry(&mut server, &mut link, &mut term, attempt, &mut journal);
    let closed = Effect::Close {
        tag: 1,
        name: "notes".to_string(),
        text: "bhello\n".to_string(),
    };
    assert_eq!((server.next_effect(), server.has_file(1)), (Some(closed.clone()), false));
    drop(server); // a crash

    let mut server = recover(ID, &journal).unwrap();
    assert_eq!((server.next_effect(), server.has_file(1)), (Some(closed), false));
    link.broken(attempt);
    let attempt = connect(&mut server, &mut link, &mut journal);
    server.effect_done(0).unwrap();
    carry(&mut server, &mut link, &mut term, attempt, &mut journal);
    term.close(2).unwrap();
    carry(&mut server, &mut link, &mut term, attempt, &mut journal);
    assert_eq!((server.next_effect(), server.has_file(2)), (None, false));
}

#[test]
fn records_that_lead_nowhere_are_refused() {
    let mut journal = Vec::new();
    let mut server = DurableServer::new(ID).unwrap();
    assert_eq!(server.effect_done(0), Err(Error::NoFile));
    assert_eq!(server.mark_dirty(0), Err(Error::CommandFile));
    assert_eq!(server.say(&[0; 4097]), Err(Error::Link(LinkFault::TooLong)));
    assert_eq!(server.accept(&[0; 42]), Err(Error::Link(LinkFault::NotALink)));
    server.add_file("notes", "hello\n").unwrap();
    record(&mut server, &mut journal);
    assert_eq!(recover(ID, [b"\x09"]).err(), Some(Error::Server(ServerFault::NoRecord)));
    let done = [7, 0, 0, 0, 0, 0, 0, 0, 0];
    let recovery = Recovery::new(ID).unwrap().take(&journal[0]).unwrap();
    assert_eq!(recovery.take(&done).err(), Some(Error::Server(ServerFault::NotTaken)));
    let recovery = Recovery::new(ID).unwrap().take(&journal[0]).unwrap();
    assert_eq!(recovery.finish().unwrap().text(1).as_deref(), Some("hello\n"));
}

#[test]
fn another_terminal_takes_the_texts_over() {
    const OTHER: [u8; 16] = *b"another sessions";
    let (mut journal, mut term) = (Vec::new(), Terminal::new().unwrap());
    let mut server = DurableServer::new(ID).unwrap();
    let mut link = Link::new(Role::Terminal, ID).unwrap();
    assert_eq!((server.add_file("notes", "hello\n"), server.add_file("more", "")), (Ok(1), Ok(2)));
    let attempt = connect(&mut server, &mut link, &mut journal);
    term.offer_version(2).unwrap();
    term.open(1).unwrap();
    term.type_(1, "b").unwrap();
    term.write(1).unwrap();
    carry(&mut server, &mut link, &mut term, attempt, &mut journal);
    let refused = server.heir(OTHER).err();
    assert_eq!(refused, Some(Error::Server(ServerFault::EffectWaits)));
    server.effect_done(0).unwrap();

    let mut heir = server.heir(OTHER).unwrap();
    drop(server);
    journal.clear();
    record(&mut heir, &mut journal);
    assert_eq!((journal.len(), &journal[0][1..]), (2, &b"\0\0\0\0\0\0\0\x05notesbhello\n"[..]));
    let (mut term, mut link) = (Terminal::new().unwrap(), Link::new(Role::Terminal, OTHER).unwrap());
    let attempt = connect(&mut heir, &mut link, &mut journal);
    term.offer_version(2).unwrap();
    term.open(1).unwrap();
    term.type_(1, "a").unwrap();
    carry(&mut heir, &mut link, &mut term, attempt, &mut journal);
    drop(heir); // a crash
    let heir = recover(OTHER, &journal).unwrap();
    assert_eq!((heir.text(1).as_deref(), heir.text(2).as_deref()), (Some("abhello\n"), Some("")));
}
