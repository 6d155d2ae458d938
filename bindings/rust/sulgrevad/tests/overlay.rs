//! An overlay: what is typed under a lock, what the host does under it, and what is refused.

use sulgrevad::{Dropped, Error, Event, Host, Overlay, Put, Refusal, Shown, Splice, SpliceKind, StreamFault, TermStep, Turn};

/// All that can be done without the host, requests and what waits over the file among it. Returns the changes of what is shown.
fn go_on(overlay: &mut Overlay, file: u16) -> Vec<Splice> {
    let mut splices = Vec::new();
    loop {
        while !matches!(overlay.step().unwrap().0, TermStep::Idle | TermStep::Locked) {
            splices.extend(overlay.splices());
        }
        if overlay.act_next().unwrap() != Turn::Request && overlay.put_next(file).unwrap() != Put::Edit {
            return splices;
        }
    }
}

fn carry(overlay: &mut Overlay, host: &mut Host, file: u16) -> Vec<Splice> {
    let mut splices = go_on(overlay, file);
    while overlay.pending() + host.pending() > 0 {
        let up: Vec<u8> = overlay.take_out().flatten().collect();
        host.feed(&up).unwrap();
        let down: Vec<u8> = host.take_out().flatten().collect();
        overlay.bring(&down).unwrap();
        splices.extend(go_on(overlay, file));
    }
    splices
}

/// A host with one file, and an overlay that has opened and loaded it.
fn opened(text: &str) -> (Host, Overlay, u16) {
    let (mut host, mut overlay) = (Host::new().unwrap(), Overlay::new().unwrap());
    let file = host.add_file("a", text).unwrap();
    for event in [Event::OfferVersion(2), Event::OpenCmd, Event::Open(file), Event::Load(file, 0, 9)] {
        overlay.bring_event(event).unwrap();
        carry(&mut overlay, &mut host, file);
    }
    assert_eq!(overlay.text(file, 0).as_deref(), Some(text));
    (host, overlay, file)
}

#[test]
fn what_is_typed_under_a_lock_is_shown_and_waits() {
    let (mut host, mut overlay, file) = opened("hello");
    assert_eq!(overlay.put_next(file), Ok(Put::Nothing));
    overlay.bring_event(Event::Write(file)).unwrap();
    go_on(&mut overlay, file);
    overlay.replace(file, 5, 5, " wörld").unwrap();
    overlay.replace(file, 0, 1, "J").unwrap();
    assert!(overlay.file(file).is_locked);
    assert_eq!((overlay.waiting(file), overlay.len(file), overlay.file(file).len), (7, Some(11), 5));
    assert_eq!(overlay.read(file, 6, 2), Some(vec![Some('w'), Some('ö')]));
    assert_eq!(overlay.put_next(file), Ok(Put::NotFree));
    assert_eq!(carry(&mut overlay, &mut host, file), []);
    assert_eq!((host.text(file).as_deref(), overlay.waiting(file)), (Some("Jello wörld"), 0));
}

#[test]
fn a_command_line_changes_the_text_under_what_waits() {
    let (mut host, mut overlay, file) = opened("tea");
    overlay.replace(file, 3, 3, "\n,x/t/c/s/").unwrap();
    carry(&mut overlay, &mut host, file);
    for event in [Event::Select(file, 4, 13), Event::Send(file)] {
        overlay.bring_event(event).unwrap();
    }
    go_on(&mut overlay, file);
    overlay.replace(file, 1, 1, "!").unwrap();
    let splices = carry(&mut overlay, &mut host, file);
    let kinds: Vec<_> = splices
        .iter()
        .map(|splice| (splice.kind, splice.tag, splice.place, splice.count))
        .collect();
    assert!(kinds.contains(&(SpliceKind::Went, file, 0, 1)) && kinds.contains(&(SpliceKind::Came, file, 0, 1)));
    assert_eq!(overlay.text(file, 0).as_deref(), Some("s!ea\n,x/s/c/s/"));
    assert_eq!(host.text(file), overlay.text(file, 0));
}

#[test]
fn the_command_file_is_shown_as_its_events_act() {
    let (mut host, mut overlay, file) = opened("hello");
    overlay.bring_event(Event::TypeCmd("abc")).unwrap();
    overlay.step().unwrap();
    let came = overlay.splices().last().unwrap();
    assert_eq!((came.kind, came.tag, came.place, came.count), (SpliceKind::Came, 0, 0, 3));
    for event in [Event::Select(0, 0, 2), Event::CutCmd, Event::TypeCmd("x"), Event::PasteCmd] {
        carry(&mut overlay, &mut host, file);
        overlay.bring_event(event).unwrap();
    }
    carry(&mut overlay, &mut host, file);
    assert_eq!((overlay.text(0, 0), host.text(0)), (Some("xabc".into()), Some("xabc".into())));
}

/// The numbers of the requests that act or are refused until nothing is left to do without the host.
fn told(overlay: &mut Overlay, file: u16) -> Vec<(u64, bool)> {
    let mut told = Vec::new();
    loop {
        loop {
            let (step, request) = overlay.step().unwrap();
            told.extend(request.map(|number| (number, matches!(step, TermStep::Acted { .. }))));
            if matches!(step, TermStep::Idle | TermStep::Locked) {
                break;
            }
            for _splice in overlay.splices() {}
        }
        if overlay.act_next().unwrap() != Turn::Request && overlay.put_next(file).unwrap() != Put::Edit {
            return told;
        }
    }
}

#[test]
fn requests_stand_in_one_order_with_the_edits() {
    let (mut host, mut overlay, file) = opened("hello");
    assert_eq!((overlay.act_next(), overlay.requests()), (Ok(Turn::Nothing), 0));
    overlay.replace(file, 5, 5, "!").unwrap();
    assert_eq!((overlay.ask(Event::Select(file, 5, 6)), overlay.ask(Event::Write(file))), (Ok(1), Ok(2)));
    assert_eq!((overlay.ask(Event::Write(file)), overlay.requests()), (Ok(2), 2)); // it would write the same text
    overlay.replace(file, 0, 1, "J").unwrap();
    assert_eq!(overlay.ask(Event::Dclick(file, 99)), Ok(3));
    assert_eq!(overlay.act_next(), Ok(Turn::NotYet));
    assert_eq!(overlay.put_next(file), Ok(Put::Edit));
    assert_eq!(overlay.ask(Event::Flush), Err(Error::Waiting));
    assert_eq!(told(&mut overlay, file), [(1, true), (2, true)]);
    assert_eq!((overlay.put_next(file), overlay.requests()), (Ok(Put::NotFree), 1)); // the write has locked it
    let up: Vec<u8> = overlay.take_out().flatten().collect();
    host.feed(&up).unwrap();
    assert_eq!((host.saved(file).as_deref(), overlay.text(file, 0).as_deref()), (Some("hello!"), Some("Jello!")));
    let down: Vec<u8> = host.take_out().flatten().collect();
    overlay.bring(&down).unwrap();
    assert_eq!(told(&mut overlay, file), [(3, false)]);
    carry(&mut overlay, &mut host, file);
    assert_eq!((host.text(file).as_deref(), overlay.requests()), (Some("Jello!"), 0));
    overlay.ask(Event::Close(file)).unwrap();
    assert_eq!(overlay.replace(file, 0, 0, "x"), Err(Error::Edit(Refusal::NotOpen)));
    overlay.ask(Event::Exit).unwrap();
    assert_eq!(overlay.replace(file, 0, 0, "x"), Err(Error::Edit(Refusal::Exited)));
    overlay.bring_event(Event::Snarf(file)).unwrap();
    assert_eq!((overlay.requests(), overlay.act_next()), (2, Ok(Turn::NotYet))); // it acts beside them
}

/// A frame by which the host says that so many runes come in at a place of file 1, and that it has seen so many messages.
fn grown(seen: u64, place: u32, count: u32) -> Vec<u8> {
    let mut frame = vec![70, 0, 18];
    frame.extend(seen.to_be_bytes());
    frame.extend([0, 1]);
    frame.extend(place.to_be_bytes());
    frame.extend(count.to_be_bytes());
    frame
}

#[test]
fn runes_without_room_come_back() {
    let (_host, mut overlay, file) = opened("hello");
    overlay.replace(file, 5, 5, "wö").unwrap();
    assert_eq!((overlay.drop_next(file), overlay.next_waiting(0), overlay.next_waiting(2)), (Ok(None), Some(file), None));
    assert_eq!(overlay.first_gap(file, 0), None);
    let sent = overlay.state().sent;
    overlay.bring(&grown(sent, 2, 999_995)).unwrap();
    overlay.step().unwrap();
    assert_eq!(overlay.drop_next(file), Err(Error::Waiting));
    while overlay.splices().count() > 0 || overlay.step() != Ok((TermStep::Idle, None)) {}
    assert_eq!((overlay.first_gap(file, 0), overlay.first_gap(file, 999_997)), (Some(2), None));
    assert_eq!(overlay.put_next(file), Err(Error::Edit(Refusal::TooLong)));
    let dropped = Dropped {
        tag: file,
        place: 1_000_000,
        count: 2,
        text: "wö".into(),
    };
    assert_eq!(overlay.drop_next(file), Ok(Some(dropped)));
    assert_eq!((overlay.len(file), overlay.waiting(file)), (Some(1_000_000), 0));
}

#[test]
fn readers_tell_of_the_terminal() {
    let (mut host, mut overlay, file) = opened("hello");
    for event in [
        Event::SetSnarf("snarf"),
        Event::GetSnarf,
        Event::Select(file, 0, 2),
        Event::Look(file),
        Event::NewFile,
    ] {
        overlay.bring_event(event).unwrap();
    }
    carry(&mut overlay, &mut host, file);
    assert_eq!(
        (overlay.snarfed(), overlay.pattern(), overlay.current()),
        ("snarf".into(), "he".into(), Some(2))
    );
    assert_eq!(
        (overlay.name(file).as_deref(), overlay.name(9), overlay.state().version),
        (Some("a"), None, 2)
    );
    assert_eq!((overlay.finish(), overlay.fault_place()), (Ok(()), None));
    overlay.bring_event(Event::Close(file)).unwrap();
    let gone = carry(&mut overlay, &mut host, file)[0];
    assert_eq!((gone.kind, gone.tag, overlay.len(file)), (SpliceKind::Emptied, file, None));
}

#[test]
fn refusals_leave_all_as_it_was() {
    let (_, mut overlay, file) = opened("hello");
    for (tag, start, end, why) in [
        (9, 0, 0, Refusal::NoFile),
        (0, 0, 0, Refusal::CommandFile),
        (file, 3, 2, Refusal::BadPosition),
        (file, 3, 6, Refusal::BadPosition),
    ] {
        assert_eq!(overlay.replace(tag, start, end, "x"), Err(Error::Edit(why)));
    }
    assert_eq!(
        overlay.replace(file, 0, 0, &"x".repeat(1_000_000)),
        Err(Error::Edit(Refusal::TooLong))
    );
    assert_eq!((overlay.text(file, 0).as_deref(), overlay.next_splice()), (Some("hello"), None));
    overlay.bring_event(Event::Dclick(file, 9)).unwrap();
    go_on(&mut overlay, file);
    assert_eq!(overlay.next_refusal().unwrap().1, Ok(Refusal::BadPosition));
    overlay.replace(file, 0, 0, "x").unwrap();
    assert_eq!((overlay.put_next(file), overlay.bring(b"")), (Ok(Put::Edit), Err(Error::Waiting)));
    go_on(&mut overlay, file);
    overlay.bring(b"\xff\0\0").unwrap();
    assert_eq!(overlay.step(), Err(Error::Stream(StreamFault::BadKind)));
}
