//! Messages of a session, as bytes and back.

use sulgrevad::{read_note, write_note, Error, Note, NoteCode, NoteFault, NoteKind, MOST_NOTE};

fn refused<T>(why: NoteFault) -> Result<T, Error> {
    Err(Error::Note(why))
}

#[test]
fn a_message_is_read_as_it_was_written() {
    let note = Note {
        tag: 0x0506,
        code: NoteCode::Older,
        number: u64::MAX,
        path: b"/a\xff",
        copy: b"/b",
        text: "Ü\0",
        ..Note::new(NoteKind::Earlier)
    };
    let bytes = write_note(&note).unwrap();
    assert_eq!(bytes, b"N\x05\x06\x14\xff\xff\xff\xff\xff\xff\xff\xff\0\x03/a\xff\0\x02/b\0\x03\xc3\x9c\0");
    assert_eq!(read_note(&bytes), Ok(note));
}

#[test]
fn each_kind_is_written_and_read() {
    for number in 0..=255 {
        let Some(kind) = NoteKind::of(number) else {
            assert_eq!(read_note(&[number]), refused(NoteFault::BadKind), "{number}");
            continue;
        };
        let note = Note::new(kind);
        let bytes = write_note(&note).unwrap();
        assert_eq!((bytes[0], read_note(&bytes)), (number, Ok(note)));
    }
}

#[test]
fn a_code_of_a_later_version_is_another() {
    let codes: Vec<NoteCode> = (0..=255).map(NoteCode::of).collect();
    assert_eq!((codes[0], codes[24], codes[25], codes[255]), (NoteCode::NoCode, NoteCode::Unreadable, NoteCode::Other, NoteCode::Other));
    for (number, code) in codes[..25].iter().enumerate() {
        assert_eq!(*code as usize, number);
    }
    let ended = read_note(b"E\x19\0\0\0\0\0\0\0\x01").unwrap();
    assert_eq!((ended.kind, ended.code, ended.number), (NoteKind::Ended, NoteCode::Other, 1));
}

#[test]
fn what_is_wrong_is_told_in_order() {
    let aside = Note {
        path: b"/\0",
        copy: b"/\0",
        ..Note::new(NoteKind::Aside)
    };
    let long = "x".repeat(MOST_NOTE);
    assert_eq!(write_note(&Note { number: 1, text: &long, ..aside }), refused(NoteFault::BadField));
    assert_eq!(write_note(&Note { text: &long, ..aside }), refused(NoteFault::BadLength));
    assert_eq!(write_note(&aside), refused(NoteFault::BadPath));
    assert_eq!(write_note(&Note { path: b"/", ..aside }), refused(NoteFault::BadPath));
    assert_eq!(read_note(b""), refused(NoteFault::BadLength));
    assert_eq!(read_note(b"B\0\x02a"), refused(NoteFault::BadLength));
    assert_eq!(read_note(b"P\0\x01\x01\0\x01\0\0\x01\xff"), refused(NoteFault::BadPath));
    assert_eq!(read_note(b"P\0\x01\x01\0\x01/\0\x01\xff"), refused(NoteFault::BadText));
}
