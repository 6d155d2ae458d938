//! Calls where they do their work. What is expected follows from sulgrevad.h, docs/reference/PROTOCOL.md and docs/reference/COMMANDS.md.

mod both;

use both::{carry, opened};
use sulgrevad::{Error, Host, Terminal};

#[test]
fn both_speak_the_smaller_version() -> Result<(), Error> {
    let (mut host, mut term) = (Host::new()?, Terminal::new()?);
    assert_eq!((host.version(), term.version()), (1, 1));
    for (offered, spoken) in [(2, 2), (1, 1), (9, 2)] {
        term.offer_version(offered)?;
        carry(&mut term, &mut host)?;
        assert_eq!((host.version(), term.version()), (spoken, spoken));
    }
    Ok(())
}

#[test]
fn names_come_with_the_version() -> Result<(), Error> {
    let mut host = Host::new()?;
    host.add_file("notes", "one\n")?;
    host.add_file("é\0", "")?; // NUL is a rune like others
    let mut term = Terminal::new()?;
    assert_eq!((host.tags(), term.tags()), (3, 0));
    term.offer_version(2)?;
    carry(&mut term, &mut host)?;
    assert_eq!((host.tags(), term.tags()), (3, 3));
    for (tag, name) in [(1, "notes"), (2, "é\0")] {
        assert_eq!((host.name(tag).as_deref(), term.name(tag).as_deref()), (Some(name), Some(name)));
        assert_eq!((term.is_known(tag), term.is_open(tag)), (true, false));
    }
    assert_eq!((host.name(0).as_deref(), term.name(0)), (Some("~~sam~~"), None)); // the command file comes once it is opened
    assert_eq!((host.name(3), term.name(3)), (None, None));
    assert!(!term.is_known(0) && !term.is_known(3));
    Ok(())
}

#[test]
fn the_command_lock_is_held_until_the_command_file_is_open() -> Result<(), Error> {
    let (mut host, mut term, file) = opened("one\n")?;
    assert_eq!((term.is_open(0), term.command_locked()), (false, false));
    term.open_cmd()?;
    assert_eq!((term.is_open(0), term.command_locked(), term.locked(file)), (false, true, true));
    carry(&mut term, &mut host)?;
    assert_eq!((term.is_open(0), term.command_locked(), term.locked(file)), (true, false, false));
    assert_eq!(term.name(0).as_deref(), Some("~~sam~~"));
    term.look(file)?;
    assert_eq!((term.command_locked(), term.locked(file)), (false, true)); // that of the file alone
    Ok(())
}

#[test]
fn a_new_file_is_there_until_it_is_closed() -> Result<(), Error> {
    let (mut host, mut term, _) = opened("one\n")?;
    assert!(!host.has_file(2));
    term.new_file()?;
    carry(&mut term, &mut host)?;
    assert_eq!((host.tags(), term.tags()), (3, 3));
    assert_eq!((host.has_file(2), term.is_known(2), term.is_open(2)), (true, true, true));
    assert_eq!(
        (host.name(2).as_deref(), host.len(2), host.is_dirty(2)),
        (Some(""), Some(0), Some(false))
    );
    assert_eq!(
        (term.name(2).as_deref(), term.len(2), term.dot(2)),
        (Some(""), Some(0), Some((0, 0)))
    );
    term.close(2)?;
    carry(&mut term, &mut host)?;
    assert_eq!((host.tags(), term.tags()), (3, 3)); // no tag is given twice
    assert_eq!((host.has_file(2), term.is_known(2), term.is_open(2)), (false, false, false));
    assert_eq!((host.name(2), host.len(2), host.is_dirty(2)), (None, None, None));
    assert_eq!(
        (host.text(2), host.saved(2), host.saved_len(2), host.dot(2)),
        (None, None, None, None)
    );
    assert_eq!((term.name(2), term.len(2), term.dot(2)), (None, None, None));
    Ok(())
}

#[test]
fn the_current_file_is_that_which_was_made_or_worked_on_last() -> Result<(), Error> {
    let (mut host, mut term, file) = opened("one\n")?;
    assert_eq!(term.current(), None);
    term.new_file()?;
    carry(&mut term, &mut host)?;
    assert_eq!(term.current(), Some(2));
    term.open(file)?;
    carry(&mut term, &mut host)?;
    assert_eq!(term.current(), Some(2)); // opening doesn't change it
    term.work(file)?;
    carry(&mut term, &mut host)?;
    assert_eq!(term.current(), Some(file));
    term.close(file)?;
    carry(&mut term, &mut host)?;
    assert_eq!(term.current(), Some(file)); // it may be closed since
    Ok(())
}

#[test]
fn a_command_line_works_on_the_work_file_and_its_dot() -> Result<(), Error> {
    let (mut host, mut term, file) = opened("one two\n")?;
    term.open_cmd()?;
    term.new_file()?;
    term.select(file, 4, 7)?;
    term.work(file)?;
    term.type_(0, "c/three/\n")?;
    carry(&mut term, &mut host)?;
    assert_eq!(
        (host.text(file).as_deref(), host.text(2).as_deref()),
        (Some("one three\n"), Some(""))
    );
    assert_eq!((host.dot(file), term.dot(file)), (Some((4, 9)), Some((4, 9))));
    assert_eq!(term.is_dirty(file), Some(true)); // the host says it of a command
    Ok(())
}

#[test]
fn what_is_sent_is_printed_and_its_last_line_runs() -> Result<(), Error> {
    let (mut host, mut term, file) = opened("one\n,c/two/\n")?;
    term.open_cmd()?;
    term.select(file, 4, 11)?;
    term.send(file)?;
    carry(&mut term, &mut host)?;
    assert_eq!(host.text(0).as_deref(), Some(",c/two/\n"));
    assert_eq!(host.text(file).as_deref(), Some("two"));
    Ok(())
}

#[test]
fn a_double_click_selects_the_word_at_both_ends() -> Result<(), Error> {
    let (mut host, mut term, file) = opened("one two one\n")?;
    assert_eq!((host.dot(file), term.dot(file)), (Some((0, 0)), Some((0, 0))));
    term.dclick(file, 5)?;
    carry(&mut term, &mut host)?;
    assert_eq!((host.dot(file), term.dot(file)), (Some((4, 7)), Some((4, 7))));
    Ok(())
}

#[test]
fn a_search_is_for_the_pattern_and_not_for_the_dot() -> Result<(), Error> {
    let (mut host, mut term, file) = opened("one two one\n")?;
    assert_eq!(term.pattern(), "");
    term.select(file, 0, 3)?;
    term.look(file)?;
    carry(&mut term, &mut host)?;
    assert_eq!((term.pattern().as_str(), term.dot(file)), ("one", Some((8, 11))));
    term.select(file, 3, 7)?;
    term.search(file)?;
    carry(&mut term, &mut host)?;
    assert_eq!((term.pattern().as_str(), term.dot(file)), ("one", Some((8, 11))));
    assert_eq!(host.dot(file), Some((8, 11)));
    Ok(())
}

#[test]
fn a_view_asks_for_one_stretch_at_a_time() -> Result<(), Error> {
    let (mut host, mut term, file) = opened(&"x".repeat(1500))?;
    let sent = term.sent();
    term.view(file, 0, 1500)?;
    assert_eq!(term.sent() - sent, 1); // 512 runes
    carry(&mut term, &mut host)?;
    assert_eq!(term.sent() - sent, 3); // 512 more, and 476
    assert_eq!((term.view_of(file), term.first_gap(file, 0)), (Some((0, 1500)), None));
    Ok(())
}

#[test]
fn a_check_loads_what_came_into_view_and_takes_no_lock() -> Result<(), Error> {
    let (mut host, mut term, file) = opened("one two\n")?;
    term.view(file, 0, 3)?;
    carry(&mut term, &mut host)?;
    term.select(file, 0, 3)?;
    term.cut(file)?;
    carry(&mut term, &mut host)?;
    assert_eq!((term.view_of(file), term.first_gap(file, 0)), (Some((0, 3)), Some(0)));
    term.check(file)?;
    assert!(!term.locked(file));
    carry(&mut term, &mut host)?;
    assert_eq!(term.text(file, 0).as_deref(), Some(" tw"));
    Ok(())
}

#[test]
fn a_scroll_goes_so_many_lines_up() -> Result<(), Error> {
    let (mut host, mut term, file) = opened("a\nb\nc\nd\n")?;
    term.view(file, 6, 2)?;
    carry(&mut term, &mut host)?;
    assert_eq!(term.view_of(file), Some((6, 8)));
    term.scroll(file, 2)?;
    carry(&mut term, &mut host)?;
    assert_eq!(term.view_of(file), Some((2, 4)));
    assert_eq!(term.text(file, 2).as_deref(), Some("b\n")); // what it shows is loaded
    Ok(())
}

#[test]
fn what_is_copied_comes_once_it_is_asked_for() -> Result<(), Error> {
    let (mut host, mut term, file) = opened("one two one\n")?;
    term.select(file, 4, 7)?;
    term.snarf(file)?;
    carry(&mut term, &mut host)?;
    assert_eq!((term.snarfed().as_str(), term.snarf_len()), ("", 3));
    term.get_snarf()?;
    carry(&mut term, &mut host)?;
    assert_eq!((term.snarfed().as_str(), term.snarf_len()), ("two", 3));
    assert_eq!((host.snarf().as_str(), host.snarf_len()), ("two", 3));
    assert_eq!((host.text(file).as_deref(), term.len(file)), (Some("one two one\n"), Some(12)));
    Ok(())
}

#[test]
fn a_paste_puts_what_was_cut_in_the_place_of_the_dot() -> Result<(), Error> {
    let (mut host, mut term, file) = opened("one two\n")?;
    term.select(file, 0, 4)?;
    term.cut(file)?;
    term.select(file, 1, 3)?;
    term.paste(file)?;
    assert_eq!(term.len(file), Some(2)); // the dot goes at once
    carry(&mut term, &mut host)?;
    assert_eq!((host.text(file).as_deref(), term.len(file)), (Some("tone \n"), Some(6)));
    assert_eq!((host.dot(file), term.dot(file)), (Some((1, 5)), Some((1, 5))));
    Ok(())
}

#[test]
fn a_snarf_buffer_that_is_set_is_pasted_and_comes_back_whole() -> Result<(), Error> {
    let (mut host, mut term, file) = opened("one\n")?;
    let many = "é".repeat(5000); // more bytes than one piece has
    term.set_snarf(&many)?;
    term.paste(file)?;
    term.get_snarf()?;
    carry(&mut term, &mut host)?;
    assert_eq!(host.text(file), Some(format!("{many}one\n")));
    assert_eq!((term.snarfed(), term.snarf_len()), (many, 5000));
    Ok(())
}

#[test]
fn a_text_of_any_length_is_typed_as_events_of_512_runes() -> Result<(), Error> {
    let (mut host, mut term, file) = opened("")?;
    let (events, text) = (term.events(), "é".repeat(600) + &"日".repeat(500));
    assert_eq!(term.type_text(file, &text), (text.len(), Ok(())));
    assert_eq!(term.events() - events, 3);
    term.flush_now()?;
    carry(&mut term, &mut host)?;
    assert_eq!(host.text(file), Some(text));
    Ok(())
}

#[test]
fn a_typed_file_is_dirty_at_the_host_until_it_is_written() -> Result<(), Error> {
    let (mut host, mut term, file) = opened("one\n")?;
    assert_eq!((host.is_dirty(0), host.is_dirty(file)), (Some(false), Some(false)));
    term.type_(file, "é")?;
    term.flush_now()?;
    carry(&mut term, &mut host)?;
    assert_eq!(
        (host.is_dirty(file), host.len(file), host.saved_len(file)),
        (Some(true), Some(5), None)
    );
    assert_eq!(host.dot(file), Some((1, 1))); // after what was typed
    term.write(file)?;
    carry(&mut term, &mut host)?;
    assert_eq!(
        (host.is_dirty(file), host.len(file), host.saved_len(file)),
        (Some(false), Some(5), Some(5))
    );
    term.type_(file, "→")?;
    term.flush_now()?;
    carry(&mut term, &mut host)?;
    assert_eq!(
        (host.is_dirty(file), host.len(file), host.saved_len(file)),
        (Some(true), Some(6), Some(5))
    );
    assert_eq!(host.saved(file).as_deref(), Some("éone\n"));
    Ok(())
}

#[test]
fn typed_runes_are_unsent_until_a_flush() -> Result<(), Error> {
    let (mut host, mut term, file) = opened("one\n")?;
    let sent = term.sent();
    term.type_(file, "é→")?;
    assert_eq!((term.unsent(), term.sent() - sent), (2, 0));
    term.flush()?;
    assert_eq!((term.unsent(), term.sent() - sent), (0, 1));
    carry(&mut term, &mut host)?;
    assert_eq!(host.text(file).as_deref(), Some("é→one\n"));
    Ok(())
}

#[test]
fn a_flush_waits_for_the_events_before_it() -> Result<(), Error> {
    let (mut host, mut term, file) = opened("one\n")?;
    term.look(file)?; // a lock of the file is held until it is answered
    term.type_(file, "x")?;
    term.flush()?;
    assert_eq!((term.held(), term.unsent()), (2, 0));
    carry(&mut term, &mut host)?;
    assert_eq!((term.held(), term.unsent()), (0, 0));
    assert_eq!(host.text(file).as_deref(), Some("xone\n"));
    Ok(())
}

#[test]
fn flush_now_goes_before_the_events_that_are_held() -> Result<(), Error> {
    let (mut host, mut term, file) = opened("one\n")?;
    term.open_cmd()?;
    carry(&mut term, &mut host)?;
    term.look(file)?; // a lock of the file is held until it is answered
    term.type_(0, "x")?;
    term.type_(file, "y")?;
    assert_eq!((term.held(), term.unsent()), (1, 1));
    term.flush_now()?;
    assert_eq!((term.held(), term.unsent()), (1, 0));
    carry(&mut term, &mut host)?;
    assert_eq!((host.text(0).as_deref(), term.unsent()), (Some("x"), 1)); // `y` was typed by then
    Ok(())
}

#[test]
fn an_exit_ends_the_session_at_both_ends() -> Result<(), Error> {
    let (mut host, mut term, _) = opened("one\n")?;
    assert_eq!((host.taken(), term.sent()), (3, 3)); // Tversion, Tack and Tstartfile
    term.exit()?;
    assert_eq!((host.is_done(), term.exited()), (false, false));
    host.feed(&term.take_out().flatten().collect::<Vec<u8>>())?;
    assert_eq!((host.is_done(), term.exited()), (true, false)); // Hexit is under way
    carry(&mut term, &mut host)?;
    assert_eq!((host.is_done(), term.exited()), (true, true));
    assert_eq!((host.taken(), term.sent()), (4, 4));
    Ok(())
}
