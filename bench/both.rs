//! A host and a terminal, between which bytes are carried.

use crate::Report;
use crate::clock::Instant;
use crate::ends::{HostEnd, TermEnd};
use crate::sample::{check_bytes, check_of, letters, mix};
use crate::terminal::Event;

const FILES: u16 = 4;
const LENGTH: usize = 5_000;
const STRETCH: usize = 10;
const PIECE: usize = 4_096;

/// Carries bytes up and down until none wait. Returns their check value.
fn carry(host: &mut HostEnd, term: &mut TermEnd) -> Option<u64> {
    let mut piece = [0; PIECE];
    let mut check = 0;
    loop {
        let up = term.pending.take_out(&mut piece);
        check = mix(check, check_bytes(&piece[..up]));
        host.feed(&piece[..up])?;
        let down = host.pending.take_out(&mut piece);
        check = mix(check, check_bytes(&piece[..down]));
        term.feed(&piece[..down])?;
        if up == 0 && down == 0 {
            return Some(check);
        }
    }
}

/// Opens the files, and shows the front of each.
fn open(host: &mut HostEnd, term: &mut TermEnd) -> Option<()> {
    term.put(Event::Version(2));
    term.put(Event::OpenCmd);
    carry(host, term)?;
    for tag in 1..=FILES {
        term.put(Event::Open(tag));
        term.put(Event::View(tag, 0, 512));
        carry(host, term)?;
    }
    Some(())
}

/// Types ten runes at a place of a file, and has a command put one in the place of these and the next.
fn turn(term: &mut TermEnd, turn: usize) {
    let tag = (turn % FILES as usize) as u16 + 1;
    let place = turn * 37 % (LENGTH - 100);
    term.put(Event::Select(tag, place as u32, place as u32));
    (0..STRETCH).for_each(|_| term.put(Event::Typed(tag, vec!['x'])));
    term.put(Event::Work(tag));
    let line = format!("#{place},#{}c/y/\n", place + STRETCH + 1);
    term.put(Event::Typed(0, line.chars().collect()));
}

pub fn carried(size: usize) -> Report {
    let mut host = HostEnd::new(vec![letters(LENGTH); FILES as usize]);
    let mut term = TermEnd::new();
    open(&mut host, &mut term).expect("bytes that fit");
    let mut check = 0;
    let begin = Instant::now();
    for at in 0..size / STRETCH {
        turn(&mut term, at);
        check = mix(check, carry(&mut host, &mut term).expect("bytes that fit"));
    }
    let took = begin.elapsed();
    Report { took, check: host.host.texts().fold(check, |check, (_, text)| mix(check, check_of(text))) }
}

/// Opens half of so many files, which the host has, makes the other half, and closes all.
pub fn opened(size: usize) -> Report {
    let mut host = HostEnd::new(vec![letters(10); size / 2]);
    let mut term = TermEnd::new();
    term.put(Event::Version(2));
    carry(&mut host, &mut term).expect("bytes that fit");
    let mut check = 0;
    let begin = Instant::now();
    let tags = 1..=size as u16;
    let opening = tags.clone().map(|tag| if tag as usize <= size / 2 { Event::Open(tag) } else { Event::New });
    for event in opening.chain(tags.map(Event::Close)) {
        term.put(event);
        check = mix(check, carry(&mut host, &mut term).expect("bytes that fit"));
    }
    Report { took: begin.elapsed(), check }
}
