//! A client: a session over connections that break, what is told, and what is refused.

use sulgrevad::{
    read_note, write_note, Client, ClientEvent, Clocked, Dropped, Error, Event, Host, LineState, Link, LinkFault, Note, NoteFault, NoteKind,
    Refusal, Replacement, Role, Shown, ShownEdit, Splice, SpliceKind, StreamFault, TermStep, Tick, MOST_NOTE,
};

const ID: [u8; 16] = *b"a session's name";

/// A host with its end of a link, a client, and the number of the connection that stands; 0: none.
struct Session {
    host: Host,
    link: Link,
    client: Client,
    attempt: u64,
    now: u64,
    splices: Vec<Splice>,
    notes: Vec<Vec<u8>>,
    refused: Vec<(Option<u64>, Result<Refusal, u32>)>,
    ended: Vec<ClientEvent>,     // tasks
    lines: Vec<(u64, u32, u32)>, // that have run
    lapsed: Vec<u64>,
}

impl Session {
    fn new(text: &str) -> (Session, u16) {
        Session::loaded(text, 9)
    }

    /// A session in which so much of the text is loaded.
    fn loaded(text: &str, count: u32) -> (Session, u16) {
        let mut host = Host::new().unwrap();
        let file = host.add_file("a", text).unwrap();
        let mut session = Session {
            host,
            link: Link::new(Role::Host, ID).unwrap(),
            client: Client::new(ID, false, 0).unwrap(),
            attempt: 0,
            now: 0,
            splices: Vec::new(),
            notes: Vec::new(),
            refused: Vec::new(),
            ended: Vec::new(),
            lines: Vec::new(),
            lapsed: Vec::new(),
        };
        session.connect();
        for event in [
            Event::OfferVersion(2),
            Event::OpenCmd,
            Event::Open(file),
            Event::Load(file, 0, count),
        ] {
            session.client.ask(event).unwrap();
            session.settle();
        }
        session.splices.clear();
        (session, file)
    }

    /// Opens a connection once the client wants one, and hands its hello to the host.
    fn connect(&mut self) {
        self.now += 60_000;
        assert_eq!(self.client.tick(self.now), Tick::Connect);
        self.attempt = self.client.connected(self.now).unwrap();
        let mut hello = [0; 42];
        assert_eq!(self.client.take_out(self.attempt, &mut hello), Ok(42));
        self.link.answer(&hello).unwrap();
    }

    /// Breaks the connection, and loses what the client has for it.
    fn cut(&mut self) {
        self.client.take_out(self.attempt, &mut [0; 4096]).unwrap();
        self.client.broken(self.attempt, self.now);
        self.link.broken(self.attempt);
    }

    fn go_on(&mut self) {
        loop {
            match self.client.next_event(self.now).unwrap() {
                ClientEvent::Idle => return,
                ClientEvent::Refused {
                    request, why, task: None, ..
                } => self.refused.push((request, why)),
                told @ (ClientEvent::Answered(_) | ClientEvent::Unanswered(_) | ClientEvent::Refused { .. }) => self.ended.push(told),
                ClientEvent::Note => self.notes.push(self.client.note()),
                ClientEvent::Ran { request, place, count } => self.lines.push((request, place, count)),
                ClientEvent::Lapsed(request) => self.lapsed.push(request),
                _ => self.splices.extend(self.client.splices()),
            }
        }
    }

    /// Moves the host's bytes to the client, which doesn't go on. Returns how many.
    fn down(&mut self) -> usize {
        let mut bytes = [0; 4096];
        let count = self.link.take_out(self.attempt, &mut bytes).unwrap();
        self.client.receive(self.attempt, &bytes[..count], self.now).unwrap();
        count
    }

    /// Moves the client's bytes to the host, which answers. Returns how many.
    fn up(&mut self) -> usize {
        let mut bytes = [0; 4096];
        let up = self.client.take_out(self.attempt, &mut bytes).unwrap();
        self.link.feed(self.attempt, &bytes[..up]).unwrap();
        let count = self.link.take_in(&mut bytes);
        self.host.feed(&bytes[..count]).unwrap();
        for piece in self.host.take_out() {
            self.link.put(&piece).unwrap();
        }
        up + count
    }

    fn settle(&mut self) {
        loop {
            self.go_on();
            if self.up() + self.down() == 0 {
                return;
            }
        }
    }

    /// Has all come that the host has, and makes its edits in a text, in which `None` stands for a rune that is not loaded. Returns the
    /// kinds of the frames that are told else.
    fn take_edits(&mut self, tag: u16, text: &mut Vec<Option<char>>) -> Vec<u8> {
        while self.up() + self.down() > 0 {}
        let (mut edits, mut kinds) = (Vec::new(), Vec::new());
        loop {
            let told = self.client.step_edits(self.now, &mut edits).unwrap();
            for edit in edits.drain(..).filter(|edit| edit.splice.tag == tag) {
                make_edit(text, edit);
            }
            assert!(self.client.splices().all(|splice| splice.tag != tag));
            match told {
                ClientEvent::Idle => return kinds,
                ClientEvent::Stepped(TermStep::Received { kind, .. }, _) => kinds.push(kind),
                _ => (),
            }
        }
    }

    /// Has the host say that so many runes come in at a place of file 1, in answer to all that was sent; and, if so, that it is free.
    fn grow(&mut self, place: u32, count: u32, frees: bool) {
        let seen = self.client.state().sent.to_be_bytes();
        let (place, count) = (place.to_be_bytes(), count.to_be_bytes());
        let mut frames = [&[70, 0, 18][..], &seen, &[0, 1], &place, &count].concat();
        if frees {
            frames.extend([&[75, 0, 10][..], &seen, &[0, 1]].concat());
        }
        self.link.put(&frames).unwrap();
        self.down();
    }
}

/// Makes an edit in a text.
fn make_edit(text: &mut Vec<Option<char>>, ShownEdit { splice, runes }: ShownEdit) {
    let (start, count) = (splice.place as usize, splice.count as usize);
    let gone = if splice.kind == SpliceKind::Came { 0 } else { count };
    assert_eq!(runes.len(), if splice.kind == SpliceKind::Went { 0 } else { count });
    text.splice(start..start + gone, runes);
}

fn replacement(start: u32, end: u32, text: &str) -> Replacement<'_> {
    Replacement { start, end, text }
}

#[test]
fn what_is_typed_survives_a_lock_and_a_break() {
    let (mut session, file) = Session::new("hello");
    assert!(session.client.has_all() && !session.client.is_unsaved(file));
    session.client.ask(Event::Write(file)).unwrap();
    session.go_on();
    session.client.replace(file, 5, 5, " wörld").unwrap();
    session.cut();
    session.client.ask(Event::Write(file)).unwrap();
    session.client.replace(file, 0, 1, "J").unwrap();
    assert_eq!(session.client.requests(), 1);
    let client = &session.client;
    assert!(client.file(file).is_locked && client.is_unsaved(file) && !client.has_all());
    assert_eq!(
        (client.waiting(file), client.next_waiting(0), client.next_waiting(2)),
        (7, Some(file), None)
    );
    assert_eq!(
        (client.len(file), client.read(file, 6, 2)),
        (Some(11), Some(vec![Some('w'), Some('ö')]))
    );
    session.connect();
    session.settle();
    assert_eq!(
        (session.host.text(file).as_deref(), session.client.has_all()),
        (Some("Jello wörld"), true)
    );
    assert_eq!(
        (session.client.text(file, 0).as_deref(), &session.splices[..]),
        (Some("Jello wörld"), &[][..])
    );
}

#[test]
fn a_write_has_the_text_that_was_shown() {
    let (mut session, file) = Session::new("hello");
    session.client.replace(file, 5, 5, "!").unwrap();
    session.client.ask(Event::Write(file)).unwrap();
    session.client.replace(file, 6, 6, "?").unwrap();
    session.settle();
    assert_eq!(
        (session.host.saved(file).as_deref(), session.host.text(file).as_deref()),
        (Some("hello!"), Some("hello!?"))
    );
    for _ in 0..1000 {
        session.client.ask(Event::Search(file)).unwrap();
    }
    assert_eq!(session.client.ask(Event::Search(file)), Err(Error::TooMany));
}

#[test]
fn many_replacements_are_one_call() {
    let (mut session, file) = Session::new("hello");
    session.client.ask(Event::Write(file)).unwrap();
    session.go_on();
    let all = [replacement(4, 5, "𝄞!"), replacement(1, 2, ""), replacement(0, 0, "J")];
    assert_eq!(session.client.replace_each(file, &all), Ok(3));
    let beyond = [replacement(0, 1, "H"), replacement(9, 9, "x"), replacement(0, 0, "y")];
    assert_eq!(session.client.replace_each(file, &beyond), Ok(1));
    assert_eq!(
        session.client.replace_each(file, &beyond[1..]),
        Err(Error::Edit(Refusal::BadPosition))
    );
    assert_eq!(
        (session.client.replace_each(file, &[]), session.client.text(file, 0).as_deref()),
        (Ok(0), Some("Hhll𝄞!"))
    );
    session.grow(0, 1, false);
    assert!(matches!(session.client.next_event(0), Ok(ClientEvent::Stepped(..))));
    assert_eq!(session.client.replace_each(file, &all), Err(Error::Waiting));
    let (mut session, file) = Session::new(&"h".repeat(3000));
    let all: Vec<_> = (0..3000)
        .rev()
        .map(|place| replacement(place, place + 1, if place % 2 == 0 { "" } else { "ö" }))
        .collect();
    assert_eq!(session.client.replace_each(file, &all), Ok(3000));
    session.settle();
    assert_eq!((session.host.text(file), session.client.has_all()), (Some("ö".repeat(1500)), true));
}

/// Begins a session in which the whole text is loaded, and a command line is asked for that changes it.
fn commanded(text: &str, line: &str) -> (Session, u16) {
    let (mut session, file) = Session::new(text);
    let len = session.client.len(file).unwrap();
    session.client.ask(Event::Load(file, 0, len)).unwrap();
    session.client.ask(Event::Work(file)).unwrap();
    session.settle();
    session.client.ask(Event::TypeCmd(line)).unwrap();
    session.go_on();
    (session, file)
}

fn whole(text: Vec<Option<char>>) -> String {
    text.into_iter().map(|rune| rune.expect("all is loaded")).collect()
}

#[test]
fn many_edits_come_by_few_calls() {
    let (mut session, file) = commanded(&"a line\n".repeat(3000), ",x/a/c/ö𝄞/\n");
    let mut text: Vec<_> = session.client.text(file, 0).unwrap().chars().map(Some).collect();
    let kinds = session.take_edits(file, &mut text);
    assert!(kinds.contains(&72) && !kinds.contains(&77) && !kinds.contains(&81), "{kinds:?}");
    let text = whole(text);
    assert_eq!((session.host.text(file).as_ref(), text.len()), (Some(&text), 36_000));
}

/// Each step but the first has two removals, round what is typed.
#[test]
fn the_room_of_a_call_may_end_within_a_step() {
    let (mut session, file) = commanded(&"ab".repeat(1100), ",x/ab/d\n");
    let typed: Vec<_> = (0..1099).rev().map(|pair| replacement(2 * pair + 1, 2 * pair + 1, "ö")).collect();
    assert_eq!(session.client.replace_each(file, &typed), Ok(1099));
    let mut text = session.client.read(file, 0, 9999).unwrap();
    session.take_edits(file, &mut text);
    assert_eq!(
        (session.client.text(file, 0), whole(text)),
        (Some("ö".repeat(1099)), "ö".repeat(1099))
    );
}

#[test]
fn loads_come_with_their_runes() {
    let (mut session, file) = Session::new(&"abc".repeat(1000));
    session.client.ask(Event::Load(file, 0, 3000)).unwrap();
    session.go_on();
    session.client.replace(file, 1000, 1000, "ö").unwrap();
    let mut text = session.client.read(file, 0, 9999).unwrap();
    assert!(text.contains(&None));
    session.take_edits(file, &mut text);
    assert_eq!(session.client.text(file, 0), Some(whole(text)));
}

#[test]
fn notes_go_both_ways() {
    let (mut session, _) = Session::new("hello");
    assert_eq!(session.client.note(), b"");
    session.client.put_note(b"up", session.now).unwrap();
    session.link.put_note(b"down").unwrap();
    session.settle();
    assert_eq!(
        (session.link.next_note(), &session.notes[..]),
        (Some(b"up".to_vec()), &[b"down".to_vec()][..])
    );
    assert_eq!(
        session.client.put_note(&[0; MOST_NOTE + 1], 0),
        Err(Error::Link(LinkFault::TooLong))
    );
}

#[test]
fn each_task_ends_once() {
    let (mut session, file) = Session::new("hello");
    let (client, now) = (&mut session.client, session.now);
    assert_eq!(
        (
            client.begin(NoteKind::Open, 0, b"/tmp/a", now),
            client.begin(NoteKind::Reload, file, b"", now)
        ),
        (Ok(1), Ok(2))
    );
    assert_eq!((client.write(file), client.write(file), client.write(9)), (Ok(3), Ok(3), Ok(4)));
    session.settle();
    assert!(matches!(
        session.ended[..],
        [ClientEvent::Refused {
            request: Some(_),
            task: Some(4),
            why: Ok(Refusal::NoFile),
            ..
        }]
    ));
    let notes: Vec<_> = std::iter::from_fn(|| session.link.next_note()).collect();
    let heard: Vec<_> = notes.iter().map(|note| read_note(note).unwrap()).collect();
    let open = Note {
        request: 1,
        path: b"/tmp/a",
        ..Note::new(NoteKind::Open)
    };
    let [reload, write] = [(NoteKind::Reload, 2), (NoteKind::Write, 3)].map(|(kind, request)| Note {
        request,
        tag: file,
        ..Note::new(kind)
    });
    assert_eq!(heard[..3], [open, reload, write]);
    for (kind, request) in [
        (NoteKind::Saved, 3),
        (NoteKind::Opened, 1),
        (NoteKind::Opened, 1),
        (NoteKind::Ended, 0),
    ] {
        let note = Note {
            request,
            ..Note::new(kind)
        };
        session.link.put_note(&write_note(&note).unwrap()).unwrap();
    }
    session.settle();
    assert_eq!(
        session.ended[1..],
        [ClientEvent::Answered(3), ClientEvent::Answered(1), ClientEvent::Unanswered(2)]
    );
    assert_eq!(session.notes.len(), 2);
}

#[test]
fn a_command_line_is_told_once() {
    let (mut session, file) = Session::new("one\ntwo\n");
    let client = &mut session.client;
    let lines = ["2p", ",x/o/c/ö/", ",p"].map(|line| client.run(file, line).unwrap());
    assert_eq!(client.run(file, "1p\n2p"), Err(Error::NotText));
    assert_eq!(client.run(9, "1p"), Err(Error::Edit(Refusal::NotOpen)));
    assert_eq!(client.run(file, &" ".repeat(400_001)), Err(Error::Edit(Refusal::TextTooLong)));
    session.settle();
    let printed: Vec<_> = session
        .lines
        .iter()
        .map(|&(request, place, count)| {
            let text = session.client.text(0, place).unwrap_or_default();
            (request, text.chars().take(count as usize).collect::<String>())
        })
        .collect();
    let wanted = ["two\n", "", "öne\ntwö\n"].map(String::from);
    assert_eq!(printed, lines.into_iter().zip(wanted).collect::<Vec<_>>());
    session.link.put_note(&write_note(&Note::new(NoteKind::Ended)).unwrap()).unwrap();
    session.settle();
    let line = session.client.run(file, "1p").unwrap();
    session.settle();
    assert_eq!(session.lapsed, [line]);
}

#[test]
fn a_task_that_is_refused_is_not_begun() {
    let (mut session, file) = Session::new("hello");
    let client = &mut session.client;
    for (kind, tag, path, why) in [
        (NoteKind::Write, 0, &b"a"[..], NoteFault::BadKind),
        (NoteKind::Open, 1, b"a", NoteFault::BadField),
        (NoteKind::Open, 0, &[7; MOST_NOTE], NoteFault::BadLength),
        (NoteKind::Complete, 0, b"\0", NoteFault::BadPath),
    ] {
        assert_eq!(client.begin(kind, tag, path, 0), Err(Error::Note(why)));
    }
    for number in 1..=1000 {
        assert_eq!(client.begin(NoteKind::Reload, file, b"", 0), Ok(number));
    }
    assert_eq!(client.begin(NoteKind::Reload, file, b"", 0), Err(Error::TooMany));
    assert_eq!(client.write(file), Err(Error::TooMany));
}

#[test]
fn what_a_window_shows_is_loaded_first() {
    let text = "line\n".repeat(2000);
    let (mut session, file) = Session::loaded(&text, 0);
    session.client.see(file, 5000, 5005).unwrap();
    session.client.replace(file, 0, 0, "x").unwrap();
    session.settle();
    let shown = session.client.read(file, 4999, 7).unwrap();
    let wanted: Vec<_> = text[4999..5004].chars().map(Some).collect();
    assert_eq!(shown, [&[None], &wanted[..], &[None]].concat());
    assert_eq!(session.client.due_in(session.now), Some(1000));
    session.now += 999;
    session.client.rest(session.now);
    session.settle();
    assert_eq!(session.client.due_in(session.now), Some(1000));
    session.now += 1000;
    session.settle();
    assert_eq!((session.client.due_in(session.now), session.client.file(file).is_free), (Some(50), true));
    while let Some(left) = session.client.due_in(session.now) {
        session.now += left; // to the next slice
        session.settle();
    }
    assert_eq!(session.client.text(file, 0), Some(format!("x{text}")));
    let (mut session, file) = Session::loaded(&text, 0);
    session.client.see(file, 0, 5).unwrap();
    session.client.forget(file);
    session.settle();
    assert_eq!(session.client.first_gap(file, 0), Some(0));
}

#[test]
fn connections_are_due_by_the_clock() {
    let mut client = Client::new(ID, true, 0).unwrap();
    assert_eq!(
        (client.due_in(0), client.tick(0), client.tick(0)),
        (Some(0), Tick::Connect, Tick::Nothing)
    );
    client.not_connected(0);
    assert_eq!((client.tick(0), client.describe(0).failures), (Tick::Connect, 1));
    let (mut session, _) = Session::new("");
    let (client, now) = (&mut session.client, session.now);
    assert_eq!((client.due_in(now), client.words()), (None, vec![]));
    client.expect(true, now);
    assert_eq!(client.due_in(now), Some(15_000));
    client.expect(false, now);
    client.address_changed(now);
    assert_eq!((client.describe(now).state, client.due_in(now)), (LineState::Late, Some(2000)));
    client.acknowledge().unwrap();
    assert_eq!(client.take_out(9, &mut [0; 9]), Err(Error::Link(LinkFault::NotOpen)));
    assert_eq!(client.receive(1, b"\x09", now), Err(Error::Link(LinkFault::BadKind)));
}

#[test]
fn runes_without_room_come_back() {
    let (mut session, file) = Session::new("hello");
    session.client.ask(Event::View(file, 0, 0)).unwrap(); // so that no gap is asked for
    session.go_on();
    session.client.ask(Event::Write(file)).unwrap();
    session.go_on();
    session.client.replace(file, 5, 5, "wö").unwrap();
    assert_eq!(
        (session.client.drop_next(file), session.client.first_gap(file, 0)),
        (Ok(None), None)
    );
    session.grow(2, 999_995, true);
    assert!(matches!(
        session.client.next_event(0),
        Ok(ClientEvent::Stepped(TermStep::Received { kind: 70, .. }, None))
    ));
    assert_eq!(
        (session.client.drop_next(file), session.client.next_event(0)),
        (Err(Error::Waiting), Err(Error::Waiting))
    );
    let came = session.client.next_splice().unwrap();
    assert_eq!(
        (came.kind, came.place, came.count, session.client.next_splice()),
        (SpliceKind::Came, 2, 999_995, None)
    );
    session.go_on();
    let dropped = Dropped {
        tag: file,
        place: 1_000_000,
        count: 2,
        text: "wö".into(),
    };
    assert_eq!(
        (session.client.drop_next(file), session.client.waiting(file)),
        (Ok(Some(dropped)), 0)
    );
}

#[test]
fn readers_tell_of_the_terminal() {
    let (mut session, file) = Session::new("hello");
    for event in [
        Event::SetSnarf("snarf"),
        Event::GetSnarf,
        Event::Select(file, 0, 2),
        Event::Look(file),
        Event::NewFile,
    ] {
        session.client.ask(event).unwrap();
        session.settle();
    }
    let client = &session.client;
    assert_eq!(
        (client.snarfed(), client.pattern(), client.current()),
        ("snarf".into(), "he".into(), Some(2))
    );
    assert_eq!(
        (client.name(file).as_deref(), client.name(9), client.state().version),
        (Some("a"), None, 2)
    );
}

#[test]
fn refusals_are_told() {
    let (mut session, file) = Session::new("hello");
    assert_eq!(session.client.replace(9, 0, 0, "x"), Err(Error::Edit(Refusal::NoFile)));
    assert_eq!(session.client.replace(0, 0, 0, "x"), Err(Error::Edit(Refusal::CommandFile)));
    assert_eq!(session.client.replace(file, 3, 6, "x"), Err(Error::Edit(Refusal::BadPosition)));
    let asked = session.client.ask(Event::Dclick(file, 9)).unwrap();
    session.go_on();
    assert_eq!(
        (&session.refused[..], session.client.fault_place()),
        (&[(Some(asked), Ok(Refusal::BadPosition))][..], None)
    );
    session.link.put(b"\xff\0\0").unwrap();
    session.down();
    assert_eq!(session.client.next_event(0), Err(Error::Stream(StreamFault::BadKind)));
    assert!(session.client.fault_place().is_some());
}
