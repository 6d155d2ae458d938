//! A session over the two ends: crossing edits wait, and both ends agree.

mod both;

use both::{carry, opened};
use sulgrevad::{Change, Error, FileState, HostStep, NextFrame, Refusal, StreamFault, TermStep};

#[test]
fn an_edit_that_would_cross_waits() -> Result<(), Error> {
    let (mut host, mut term, file) = opened("hello\n")?;
    term.look(file)?; // a lock of the file is held until it is answered
    term.type_(file, "é")?;
    assert_eq!(term.held(), 1);
    assert_eq!(term.decided(), term.events() - 1);
    assert!(term.locked(file));
    carry(&mut term, &mut host)?;
    assert_eq!(term.held(), 0);
    assert_eq!(term.decided(), term.events());
    term.flush_now()?;
    carry(&mut term, &mut host)?;
    assert_eq!(host.text(file).as_deref(), Some("éhello\n"));
    assert_eq!(term.len(file), Some(7));
    Ok(())
}

#[test]
fn messages_without_an_answer_count_until_a_later_one_is_answered() -> Result<(), Error> {
    let (mut host, mut term, file) = opened("hello\n")?;
    assert_eq!(term.under_way(), 0);
    term.type_(file, "é")?;
    term.flush_now()?;
    carry(&mut term, &mut host)?;
    assert_eq!(host.text(file).as_deref(), Some("éhello\n"));
    assert_eq!(term.under_way(), 1);
    term.check(file)?;
    assert_eq!(term.under_way(), 2);
    carry(&mut term, &mut host)?;
    assert_eq!(term.under_way(), 0);
    Ok(())
}

#[test]
fn gaps_are_told_and_fill() -> Result<(), Error> {
    let (mut host, mut term, file) = opened("one\n")?;
    assert_eq!(term.read(file, 0, 9), Some(vec![None; 4]));
    assert_eq!(term.first_gap(file, 0), Some(0));
    term.view(file, 0, 4)?;
    carry(&mut term, &mut host)?;
    assert_eq!(term.first_gap(file, 0), None);
    assert_eq!(term.read(file, 1, 2), Some(vec![Some('n'), Some('e')]));
    assert_eq!(
        (term.text_part(file, 1, 2), term.text_part(file, 1, 0)),
        (Some("ne".into()), Some("".into()))
    );
    assert_eq!(
        (host.text_part(file, 1, 2), host.text_part(file, 2, 9)),
        (Some("ne".into()), Some("e\n".into()))
    );
    assert_eq!((host.saved_part(file, 0, 1), host.text_part(file + 1, 0, 1)), (None, None));
    assert_eq!(term.read(file, 2, usize::MAX), Some(vec![Some('e'), Some('\n')]));
    assert_eq!(term.read(file, 5, 1), Some(vec![]));
    assert_eq!(term.read(file + 1, 0, usize::MAX), None);
    Ok(())
}

#[test]
fn runes_bytes_and_lines() -> Result<(), Error> {
    let (mut host, mut term, file) = opened("é\n→z")?;
    term.view(file, 1, 3)?;
    carry(&mut term, &mut host)?;
    assert_eq!(term.text(file, 0).as_deref(), Some(""));
    assert_eq!(term.text(file, 1).as_deref(), Some("\n→z"));
    assert_eq!(term.bytes(file, 0, 4), Some((5, 1)));
    assert_eq!(term.place(file, 1, 4), Some(3));
    assert_eq!(term.place(file, 1, 3), Some(2));
    assert_eq!(term.units(file, 0, 4), Some((3, 1)));
    assert_eq!((term.unit_place(file, 1, 2), term.unit_place(file, 0, 2)), (Some(3), Some(0)));
    assert_eq!((term.units(9, 0, 1), term.unit_place(9, 0, 1)), (None, None));
    assert_eq!(term.line(file, 1, 1), Some(2));
    assert_eq!(term.line(file, 0, 1), None); // a gap comes before
    assert_eq!(term.line_before(file, 4, 0), Some(2));
    assert_eq!(term.line_before(file, 2, 1), None); // a gap comes before
    assert_eq!(term.lines(file, 0, 4), Some((1, 1)));
    assert_eq!((term.line_before(9, 0, 0), term.lines(9, 0, 1)), (None, None));
    assert_eq!(
        (term.text(9, 0), term.bytes(9, 0, 1), term.place(9, 0, 1), term.line(9, 0, 0)),
        (None, None, None, None)
    );
    Ok(())
}

#[test]
fn what_changed_is_handed_out() -> Result<(), Error> {
    let change = |start, gone, came| Ok(Some(Change { start, gone, came }));
    let (mut host, mut term, file) = opened("one two\n")?;
    assert_eq!(term.changed(file), change(0, 0, 8));
    term.view(file, 0, 3)?;
    carry(&mut term, &mut host)?;
    assert_eq!(term.changed(file), change(0, 3, 3)); // three runes are loaded
    term.select(file, 4, 7)?;
    term.type_(file, "é")?;
    assert_eq!(term.changed(file), change(4, 3, 1));
    term.select(file, 0, 1)?;
    term.cut(file)?;
    term.select(file, 3, 3)?;
    term.type_(file, "x")?;
    assert_eq!(term.changed(file), change(0, 4, 4)); // with what is between
    assert_eq!(term.changed(file + 1), Ok(None));
    Ok(())
}

#[test]
fn a_page_is_asked_for_at_once() -> Result<(), Error> {
    let text = "x".repeat(1500);
    let (mut host, mut term, file) = opened(&text)?;
    let sent = term.sent();
    term.load(file, 0, 1500)?;
    assert_eq!(term.sent() - sent, 3); // 512, 512 and 476 runes
    carry(&mut term, &mut host)?;
    assert_eq!(term.sent() - sent, 3);
    assert_eq!(term.first_gap(file, 0), None);
    assert_eq!(term.view_of(file), Some((0, 1500)));
    assert!(!term.locked(file));
    Ok(())
}

#[test]
fn an_edit_of_any_length_goes_at_once() -> Result<(), Error> {
    let (mut host, mut term, file) = opened("one two\n")?;
    let many = "é".repeat(1100);
    let sent = term.sent();
    term.edit(file, 4, 7, &many)?;
    assert_eq!(term.sent() - sent, 4); // a Tcut, and Ttypes of 512, 512 and 76 runes
    term.edit(file, 0, 4, "")?;
    carry(&mut term, &mut host)?;
    assert_eq!(host.text(file), Some(format!("{many}\n")));
    assert_eq!(term.refusals().count(), 0);
    term.edit(file, 0, 1102, "x")?; // its end is after that of the text
    assert_eq!(term.refusals().map(|(_, why)| why).collect::<Vec<_>>(), [Ok(Refusal::BadPosition)]);
    carry(&mut term, &mut host)?;
    assert_eq!(term.len(file), Some(1101));
    Ok(())
}

#[test]
fn a_written_file_is_told_once() -> Result<(), Error> {
    let (mut host, mut term, file) = opened("one\n")?;
    term.write(file)?;
    carry(&mut term, &mut host)?;
    assert_eq!(host.written().collect::<Vec<u16>>(), vec![file]);
    assert_eq!(host.written().next(), None);
    assert_eq!(host.saved(file).as_deref(), Some("one\n"));
    Ok(())
}

#[test]
fn a_file_whose_write_failed_is_dirty() -> Result<(), Error> {
    let (mut host, mut term, file) = opened("one\n")?;
    term.write(file)?;
    carry(&mut term, &mut host)?;
    assert_eq!((host.is_dirty(file), term.is_dirty(file)), (Some(false), Some(false)));
    host.mark_dirty(file)?;
    carry(&mut term, &mut host)?;
    assert_eq!((host.is_dirty(file), term.is_dirty(file)), (Some(true), Some(true)));
    let late = host.add_file("late", "two\n")?;
    let faults = [(9, Error::NoFile), (0, Error::CommandFile), (late, Error::NotAnnounced)];
    for (tag, fault) in faults {
        assert_eq!(host.mark_dirty(tag), Err(fault));
    }
    Ok(())
}

#[test]
fn what_was_written_is_read_as_it_is_told() -> Result<(), Error> {
    let (mut host, mut term, file) = opened("one\n")?;
    term.write(file)?;
    term.type_(file, "é")?;
    term.write(file)?;
    carry(&mut term, &mut host)?;
    let mut saved = Vec::new();
    while let Some(tag) = host.next_written() {
        saved.push((tag, host.saved(tag)));
    }
    assert_eq!(saved, vec![(file, Some("éone\n".to_owned())); 2]); // once for each Twrite, as it was at the last
    Ok(())
}

#[test]
fn refusals_are_told_one_by_one() -> Result<(), Error> {
    let (_host, mut term, _) = opened("one\n")?;
    let before = term.events();
    term.cut(9)?;
    term.offer_version(0)?;
    assert_eq!(term.next_refusal(), Some((before + 1, Ok(Refusal::NoFile))));
    assert_eq!(term.next_refusal(), Some((before + 2, Ok(Refusal::BadVersion))));
    assert_eq!(term.next_refusal(), None);
    Ok(())
}

#[test]
fn a_typed_file_is_changed_until_it_is_written() -> Result<(), Error> {
    let (mut host, mut term, file) = opened("one\n")?;
    assert!(!term.is_changed(file));
    term.type_(file, "é")?;
    assert!(term.is_changed(file));
    assert_eq!(term.is_dirty(file), Some(false)); // the host says nothing of typing
    term.write(file)?;
    assert!(term.is_changed(file)); // it is not written yet
    carry(&mut term, &mut host)?;
    assert!(!term.is_changed(file));
    assert!(!term.is_changed(99));
    Ok(())
}

#[test]
fn a_stream_ends_between_two_messages() -> Result<(), Error> {
    let truncated = Err(Error::Stream(StreamFault::Truncated));
    let (mut host, mut term, file) = opened("one\n")?;
    assert_eq!((host.finish(), term.finish()), (Ok(()), Ok(())));
    term.check(file)?;
    for byte in term.take_out().flatten().collect::<Vec<u8>>() {
        host.feed(&[byte])?;
        assert_eq!(host.finish(), if host.pending() == 0 { truncated } else { Ok(()) });
    }
    let frames: Vec<u8> = host.take_out().flatten().collect();
    term.feed(&frames[..1])?;
    assert_eq!(term.finish(), truncated);
    term.feed(&frames[1..])?;
    assert_eq!(term.finish(), Ok(()));
    assert_eq!(host.feed(&[23]), Err(Error::Stream(StreamFault::BadKind)));
    assert_eq!(host.finish(), Err(Error::Stream(StreamFault::BadKind)));
    Ok(())
}

#[test]
fn a_file_joins_a_running_session() -> Result<(), Error> {
    let (mut host, mut term, _) = opened("one\n")?;
    let late = host.add_file("late", "two\n")?;
    carry(&mut term, &mut host)?;
    assert_eq!((late, host.pending(), term.is_known(late)), (2, 0, false));
    term.offer_version(2)?;
    carry(&mut term, &mut host)?;
    assert_eq!(term.name(late).as_deref(), Some("late"));
    term.open(late)?;
    term.view(late, 0, 80)?;
    carry(&mut term, &mut host)?;
    assert_eq!(term.text(late, 0).as_deref(), Some("two\n"));
    Ok(())
}

#[test]
fn refusals_and_faults_have_names() -> Result<(), Error> {
    let (mut host, mut term, _) = opened("one\n")?;
    term.cut(9)?;
    assert_eq!(term.refusals().collect::<Vec<_>>(), vec![(3, Ok(Refusal::NoFile))]);
    assert_eq!(Refusal::NoFile.to_string(), "the event was refused: no file has its tag");
    assert_eq!(host.feed(&[23]), Err(Error::Stream(StreamFault::BadKind)));
    assert_eq!(host.add_file(&"n".repeat(65), "b"), Err(Error::TooLong));
    assert_eq!(Error::TooLong.status(), 19);
    assert_eq!(
        Error::TooLong.to_string(),
        "the name has more than 64 runes, or the text more than 1,000,000"
    );
    assert_eq!(
        sulgrevad::status_text(19),
        "SAM_ADD_TOO_LONG: the name has more than 64 runes, or the text more than 1,000,000"
    );
    assert_eq!(sulgrevad::status_text(17), "unknown status");
    assert_eq!(sulgrevad::library_version(), (0, 1, 0));
    Ok(())
}

#[test]
fn single_steps_say_what_they_did() -> Result<(), Error> {
    let (mut host, mut term, file) = opened("hello\n")?;
    term.view(file, 0, 6)?;
    let up: Vec<u8> = term.take_out().flatten().collect();
    host.bring(&up)?;
    assert_eq!(host.bring(&[]), Err(Error::Waiting));
    assert_eq!(host.next_message(), Some((4, file))); // Trequest
    assert_eq!(host.step()?, HostStep::Answered { kind: 4, tag: file });
    assert_eq!(
        (host.step()?, host.step()?, host.next_message()),
        (HostStep::Wrote, HostStep::Idle, None)
    );
    term.select(file, 5, 5)?;
    term.cut(file + 7)?;
    let down: Vec<u8> = host.take_out().flatten().collect();
    term.bring(&down)?;
    let change = Change {
        start: 0,
        gone: 6,
        came: 6,
    };
    let next = NextFrame {
        kind: 73,
        tag: file,
        start: 0,
        gone: 6,
        loads: true,
    };
    assert_eq!(term.next_frame(), Some(next));
    assert_eq!(
        term.step()?,
        TermStep::Received {
            kind: 73,
            tag: file,
            change,
            loads: true
        }
    ); // Hdata
    assert_eq!(term.step_edits(0, 9)?, []);
    assert!(matches!(
        term.step()?,
        TermStep::Received {
            kind: 75,
            loads: false,
            ..
        }
    )); // Hunlockfile
    assert!(matches!(term.step()?, TermStep::Acted { tag, .. } if tag == file));
    let event = term.events();
    assert_eq!(
        term.step()?,
        TermStep::Refused {
            event,
            why: Ok(Refusal::NoFile)
        }
    );
    assert_eq!(term.step()?, TermStep::Idle);
    term.type_(file, "x")?;
    term.type_(file, "y")?;
    term.edit(file, 0, 1, "")?;
    host.bring(&term.take_out().flatten().collect::<Vec<u8>>())?;
    assert_eq!(host.step()?, HostStep::Edited { tag: file, count: 2 });
    assert_eq!(host.text(file).as_deref(), Some("elloxy\n"));
    assert_eq!(term.next_frame(), None);
    Ok(())
}

#[test]
fn a_state_has_what_its_readers_say() -> Result<(), Error> {
    let (mut host, mut term, file) = opened("hello\n")?;
    term.view(file, 1, 3)?;
    carry(&mut term, &mut host)?;
    term.select(file, 2, 4)?;
    term.type_(file, "xyz")?;
    term.write(file + 7)?;
    let state = term.state();
    assert_eq!(
        (state.events, state.decided, state.held),
        (term.events(), term.decided(), term.held())
    );
    assert_eq!(
        (state.sent, state.under_way, state.pending),
        (term.sent(), term.under_way(), term.pending())
    );
    assert_eq!(
        (state.tags, state.unsent, state.snarf_len),
        (term.tags(), term.unsent(), term.snarf_len())
    );
    assert_eq!(
        (state.version, state.command_locked, state.exited),
        (2, term.command_locked(), term.exited())
    );
    let open = FileState {
        is_known: true,
        is_open: true,
        is_dirty: false,
        is_changed: true,
        is_locked: term.locked(file),
        is_free: !term.locked(file) && term.held() == 0,
        len: 7,
        dot: (5, 5),
        view: (1, 4),
    };
    assert_eq!(
        (term.file(file), term.len(file), term.dot(file), term.view_of(file)),
        (open, Some(7), Some((5, 5)), Some((1, 4)))
    );
    assert!(!term.file(file + 7).is_known);
    Ok(())
}
