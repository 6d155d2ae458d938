//! A session over halves of connections: its connections break at any byte, and what its user did comes to the host once and in order.

use std::env;
use std::io::{self, Read, Write};
use std::net::{TcpListener, TcpStream};
use std::os::unix::net::UnixStream;
use std::process::{ChildStdin, Command, Stdio};
use std::sync::atomic::{AtomicUsize, Ordering};
use std::sync::{mpsc, Arc, Mutex};
use std::thread;
use std::time::{Duration, Instant};
use sulgrevad::{
    read_hello, write_refusal, Client, ClientEvent, Clocked, Event, Host, LineState, Link, LinkFault, NoteKind, Role, Session, SessionError,
    Shown, SpliceKind, StreamFault, WriteHalf,
};

const ID: [u8; 16] = *b"a session's name";
/// Bytes that each side sends at least.
const LEAST: usize = 150;
const LIMIT: Duration = Duration::from_secs(100);
const SOON: Duration = Duration::from_millis(30);
/// Notes of 4,096 bytes: more than all on the way to a host has room for.
const NOTES: u8 = 150;
/// Bytes of a login: more than the pieces for which a session has room.
const WORDS: usize = 40;
/// The pieces for which it has room.
const MOST_WAITING: usize = 16;
/// A stack for which no machine has room.
const NO_ROOM: &str = "140737488355328";

/// A host, its end of the link, and after how many bytes each way the next connections are cut.
struct Far {
    host: Host,
    link: Link,
    limits: Vec<(usize, usize)>,
    count: usize,
    notes: Vec<Vec<u8>>,
}

impl Far {
    fn new(text: &str, limits: Vec<(usize, usize)>) -> Arc<Mutex<Far>> {
        let mut host = Host::new().unwrap();
        host.add_file("a", text).unwrap();
        Arc::new(Mutex::new(Far {
            host,
            link: Link::new(Role::Host, ID).unwrap(),
            limits,
            count: 0,
            notes: Vec::new(),
        }))
    }

    /// Makes a connection to it: a thread carries it, until so many bytes came or went; one after another, if so many are to come.
    fn connect(far: &Arc<Mutex<Far>>) -> io::Result<(UnixStream, UnixStream)> {
        let (near, other) = UnixStream::pair()?;
        let limit = {
            let mut far = far.lock().unwrap();
            far.count += 1;
            if far.limits.is_empty() {
                (usize::MAX, usize::MAX)
            } else {
                far.limits.remove(0)
            }
        };
        let far = Arc::clone(far);
        thread::spawn(move || carry(&far, other, limit));
        Ok((near.try_clone()?, near))
    }

    fn take(&mut self, attempt: u64, piece: &[u8]) -> Result<Vec<u8>, sulgrevad::Error> {
        let mut bytes = [0; 4096];
        self.link.feed(attempt, piece)?;
        loop {
            let count = self.link.take_in(&mut bytes);
            self.host.feed(&bytes[..count])?;
            match self.link.next_note() {
                Some(note) => self.notes.push(note),
                None if count == 0 => break,
                None => {}
            }
        }
        for piece in self.host.take_out() {
            self.link.put(&piece)?;
        }
        let mut out = Vec::new();
        loop {
            let count = self.link.take_out(attempt, &mut bytes)?;
            if count == 0 {
                return Ok(out);
            }
            out.extend_from_slice(&bytes[..count]);
        }
    }
}

fn carry(far: &Mutex<Far>, mut end: UnixStream, (up, mut down): (usize, usize)) {
    let mut hello = [0; 42];
    let mut attempt = 0;
    for at in 0..up {
        let mut piece = [0; 4096];
        let most = if up == usize::MAX && at >= hello.len() { piece.len() } else { 1 };
        let count = end.read(&mut piece[..most]).unwrap_or(0);
        if count == 0 {
            return;
        }
        let mut far = far.lock().unwrap();
        let out = if at < hello.len() {
            hello[at] = piece[0];
            if at + 1 < hello.len() {
                continue;
            }
            attempt = read_hello(&hello).unwrap().unwrap().attempt;
            match far.link.answer(&hello) {
                Ok(()) => far.take(attempt, &[]).unwrap(),
                Err(sulgrevad::Error::Link(why)) => write_refusal(why, &hello).unwrap().to_vec(),
                Err(why) => panic!("{why}"),
            }
        } else {
            match far.take(attempt, &piece[..count]) {
                Ok(out) => out,
                Err(_) => return, // a newer connection has come
            }
        };
        drop(far);
        let count = out.len().min(down);
        if end.write_all(&out[..count]).is_err() || count < out.len() {
            return;
        }
        down -= count;
    }
}

/// Types and writes over such connections. Returns how many there were.
fn works(limits: Vec<(usize, usize)>) -> usize {
    let far = Far::new("tea\n", limits);
    let opened = Arc::clone(&far);
    let mut session = Session::new(ID, false, move || Far::connect(&opened)).unwrap();
    let (mut shown, mut began) = (Vec::new(), Instant::now());
    for event in [Event::OfferVersion(2), Event::Open(1), Event::Load(1, 0, 100)] {
        session.client.ask(event).unwrap();
    }
    for word in ["", "one ", "two ", "three "] {
        if !word.is_empty() {
            session.client.replace(1, 0, 0, word).unwrap();
            shown.splice(0..0, word.chars());
            session.client.ask(Event::Write(1)).unwrap();
        }
        let is_first = word.is_empty();
        while began.elapsed() < LIMIT {
            session
                .go_on(Duration::from_millis(50), |client, _, splices| {
                    for splice in splices {
                        let end = (splice.place + splice.count) as usize;
                        let read = || {
                            client
                                .read(1, splice.place, splice.count as usize)
                                .unwrap()
                                .into_iter()
                                .map(|rune| rune.unwrap_or('_'))
                        };
                        match splice.kind {
                            SpliceKind::Came => drop(shown.splice(splice.place as usize..splice.place as usize, read())),
                            SpliceKind::Filled => drop(shown.splice(splice.place as usize..end, read())),
                            SpliceKind::Went => drop(shown.drain(splice.place as usize..end)),
                            _ => shown.clear(),
                        }
                    }
                })
                .unwrap();
            if session.client.has_all() && (!is_first || session.client.text(1, 0).as_deref() == Some("tea\n")) {
                break;
            }
        }
        began = Instant::now();
    }
    let wanted = "three two one tea\n";
    let far = far.lock().unwrap();
    assert_eq!(session.client.text(1, 0).as_deref(), Some(wanted));
    assert_eq!(shown.into_iter().collect::<String>(), wanted);
    assert_eq!(far.host.text(1).as_deref(), Some(wanted));
    assert_eq!(far.host.saved(1).as_deref(), Some(wanted));
    far.count
}

#[test]
fn a_session_works_over_one_connection() {
    assert_eq!(works(Vec::new()), 1);
}

#[test]
fn connections_are_cut_at_any_byte() {
    for limit in (0..240).step_by(17) {
        for limits in [(limit, usize::MAX), (usize::MAX, limit)] {
            let count = works(vec![limits]);
            assert!(count == 2 || (count == 1 && limit > LEAST), "{limits:?}: {count} connections");
        }
    }
}

#[test]
fn a_session_that_is_lost_says_why_and_ends_its_tasks() {
    let far = Far::new("tea\n", Vec::new());
    let opened = Arc::clone(&far);
    let mut session = Session::new(*b"another session.", false, move || Far::connect(&opened)).unwrap();
    let task = session.client.begin(NoteKind::Open, 0, b"a", 0).unwrap();
    let mut told = Vec::new();
    let why = loop {
        if let Err(why) = session.go_on(LIMIT, |_, event, _| told.push(event)) {
            break why;
        }
    };
    assert_eq!(why, SessionError::Lost(LinkFault::OtherSession));
    assert_eq!(told, [ClientEvent::Unanswered(task)]);
    assert_eq!(session.go_on(LIMIT, |_, event, _| panic!("{event:?}")), Err(why));
}

#[test]
fn wrong_bytes_stop_a_session() {
    let far = Far::new("tea\n", Vec::new());
    far.lock().unwrap().link.put(&[0xff; 40]).unwrap();
    let opened = Arc::clone(&far);
    let mut session = Session::new(ID, false, move || Far::connect(&opened)).unwrap();
    let why = loop {
        if let Err(why) = session.go_on(LIMIT, |_, _, _| {}) {
            break why;
        }
    };
    assert_eq!(why, SessionError::Stopped(sulgrevad::Error::Stream(StreamFault::BadKind)));
}

#[test]
fn a_session_waits_so_long_or_until_it_is_woken() {
    let mut session = Session::new(ID, false, || -> io::Result<(UnixStream, UnixStream)> {
        Err(io::ErrorKind::NotFound.into())
    })
    .unwrap();
    let began = Instant::now();
    session
        .go_on(Duration::from_millis(30), |_, event, _| assert_eq!(event, ClientEvent::Idle))
        .unwrap();
    assert!(began.elapsed() >= Duration::from_millis(30));
    let waker = session.waker();
    let waking = thread::spawn(move || waker.wake());
    session.go_on(LIMIT, |_, _, _| {}).unwrap();
    waking.join().unwrap();
    assert!(began.elapsed() < LIMIT);
}

/// Does what may hang, and says so if it does.
fn in_time(work: impl FnOnce() + Send + 'static) {
    let (done, ends) = mpsc::channel();
    let working = thread::spawn(move || {
        work();
        done.send(()).unwrap();
    });
    assert_ne!(ends.recv_timeout(LIMIT), Err(mpsc::RecvTimeoutError::Timeout), "it hangs");
    working.join().unwrap();
}

/// Goes on until something holds.
fn go_on_until<O, R, W>(session: &mut Session<O, R, W>, holds: impl Fn(&Client) -> bool)
where
    O: FnMut() -> io::Result<(R, W)> + Send + 'static,
    R: Read + Send + 'static,
    W: WriteHalf + Send + 'static,
{
    let began = Instant::now();
    while !holds(&session.client) {
        assert!(began.elapsed() < LIMIT);
        session.go_on(SOON, |_, _, _| {}).unwrap();
    }
}

/// Opens a text, over connections that are made so, while the host takes nothing for a while.
fn goes_on_beside_a_full_connection<W: WriteHalf + Send + 'static>(
    mut open: impl FnMut(&Arc<Mutex<Far>>) -> io::Result<(UnixStream, W)> + Send + 'static,
) {
    let far = Far::new("tea\n", Vec::new());
    let opened = Arc::clone(&far);
    let mut session = Session::new(ID, false, move || open(&opened)).unwrap();
    for event in [Event::OfferVersion(2), Event::Open(1), Event::Load(1, 0, 100)] {
        session.client.ask(event).unwrap();
    }
    go_on_until(&mut session, |client| client.text(1, 0).as_deref() == Some("tea\n"));
    let held = far.lock().unwrap();
    for number in 0..NOTES {
        session.client.put_note(&[number; 4096], session.now()).unwrap();
    }
    for word in ["one ", "two "] {
        session.go_on(SOON, |_, _, _| {}).unwrap();
        session.client.replace(1, 0, 0, word).unwrap();
    }
    assert!(!session.client.has_all());
    drop(held);
    go_on_until(&mut session, Client::has_all);
    let far = far.lock().unwrap();
    assert_eq!(far.host.text(1).as_deref(), Some("two one tea\n"));
    assert!(far
        .notes
        .iter()
        .map(|note| (note[0], note.len()))
        .eq((0..NOTES).map(|number| (number, 4096))));
    assert_eq!(far.count, 1);
}

#[test]
fn a_full_socket_holds_up_nothing() {
    in_time(|| goes_on_beside_a_full_connection(Far::connect));
}

#[test]
fn a_write_that_finds_no_room_by_tcp_fails_soon() {
    in_time(|| {
        let listener = TcpListener::bind("127.0.0.1:0").unwrap();
        let mut writer = TcpStream::connect(listener.local_addr().unwrap()).unwrap();
        writer.limit_writes().unwrap();
        let why = (0..).find_map(|_| writer.write(&[0; 65_536]).err()).unwrap();
        assert_eq!(why.kind(), io::ErrorKind::WouldBlock);
    });
}

/// The standard input of a child whose output goes on to the host, as of ssh.
fn by_child(far: &Arc<Mutex<Far>>) -> io::Result<(UnixStream, ChildStdin)> {
    let (reader, mut end) = Far::connect(far)?;
    let mut child = Command::new("cat").stdin(Stdio::piped()).stdout(Stdio::piped()).spawn()?;
    let (writer, mut output) = (child.stdin.take().unwrap(), child.stdout.take().unwrap());
    thread::spawn(move || {
        let _ = io::copy(&mut output, &mut end);
        child.wait()
    });
    Ok((reader, writer))
}

#[test]
fn a_child_that_reads_nothing_holds_up_nothing() {
    in_time(|| goes_on_beside_a_full_connection(by_child));
}

#[test]
fn a_connection_that_takes_long_holds_up_nothing() {
    in_time(|| {
        let far = Far::new("tea\n", Vec::new());
        let opened = Arc::clone(&far);
        let (answer, answered) = mpsc::channel();
        let mut session = Session::new(ID, false, move || {
            answered.recv().unwrap();
            Far::connect(&opened)
        })
        .unwrap();
        session.client.ask(Event::OfferVersion(2)).unwrap();
        let task = session.client.begin(NoteKind::Open, 0, b"a", 0).unwrap();
        for _ in 0..3 {
            session.go_on(SOON, |_, _, _| {}).unwrap();
        }
        assert_eq!((session.client.describe(session.now()).state, task), (LineState::Connecting, 1));
        answer.send(()).unwrap();
        go_on_until(&mut session, Client::has_all);
        assert_eq!(far.lock().unwrap().notes, [b"\x01\0\0\0\x01\0\x01a"]);
    });
}

#[test]
fn a_limit_of_any_length_ends_by_a_wake() {
    let mut session = Session::new(ID, false, || -> io::Result<(UnixStream, UnixStream)> {
        Err(io::ErrorKind::NotFound.into())
    })
    .unwrap();
    session.waker().wake();
    session.go_on(Duration::MAX, |_, event, _| panic!("{event:?}")).unwrap();
}

/// Words of a login, a byte at a time, which tell the program nothing. The first waits until it may go, and so does that behind the last.
struct Login {
    may_go: mpsc::Receiver<()>,
    count: Arc<AtomicUsize>, // of the reads that were begun
}

impl Read for Login {
    fn read(&mut self, into: &mut [u8]) -> io::Result<usize> {
        if self.count.fetch_add(1, Ordering::SeqCst) % WORDS == 0 && self.may_go.recv().is_err() {
            return Ok(0);
        }
        into[0] = b'x';
        Ok(1)
    }
}

#[test]
fn no_wake_is_lost_where_many_pieces_wait() {
    in_time(|| {
        let (began, (go, may_go)) = (Instant::now(), mpsc::channel());
        let (count, (writer, _far)) = (Arc::new(AtomicUsize::new(0)), UnixStream::pair().unwrap());
        let login = Login { may_go, count: Arc::clone(&count) };
        let mut halves = Some((login, writer));
        let mut session = Session::new(ID, false, move || halves.take().ok_or_else(|| io::ErrorKind::NotFound.into())).unwrap();
        while count.load(Ordering::SeqCst) == 0 {
            assert!(began.elapsed() < LIMIT);
            session.go_on(SOON, |_, event, _| panic!("{event:?}")).unwrap();
        }
        go.send(()).unwrap();
        while count.load(Ordering::SeqCst) <= MOST_WAITING {
            assert!(began.elapsed() < LIMIT);
            thread::sleep(SOON);
        }
        session.waker().wake();
        session.go_on(LIMIT, |_, event, _| panic!("{event:?}")).unwrap();
        assert!(began.elapsed() < LIMIT);
    });
}

#[test]
fn what_the_program_expects_stays() {
    let far = Far::new("tea\n", Vec::new());
    let mut session = Session::new(ID, false, move || Far::connect(&far)).unwrap();
    session.client.ask(Event::OfferVersion(2)).unwrap();
    go_on_until(&mut session, |client| client.has_all() && client.file(1).is_known);
    assert_eq!(session.client.due_in(session.now()), None);
    session.client.expect(true, session.now());
    session.go_on(SOON, |_, event, _| panic!("{event:?}")).unwrap();
    assert_ne!(session.client.due_in(session.now()), None);
}

/// Runs itself again with stacks for which no machine has room, so that no thread can be made.
#[test]
fn a_thread_that_cannot_be_made_is_no_connection() {
    const NAME: &str = "a_thread_that_cannot_be_made_is_no_connection";
    if env::var_os("RUST_MIN_STACK").map_or(true, |size| size != NO_ROOM) {
        let mut again = Command::new(env::current_exe().unwrap());
        let ran = again
            .args(["--exact", NAME, "--test-threads=1"])
            .env("RUST_MIN_STACK", NO_ROOM)
            .output()
            .unwrap();
        assert!(
            ran.status.success() && String::from_utf8_lossy(&ran.stdout).contains("1 passed"),
            "{ran:?}"
        );
        return;
    }
    assert!(thread::Builder::new().spawn(|| {}).is_err());
    let mut session = Session::new(ID, false, UnixStream::pair).unwrap();
    session.go_on(SOON, |_, event, _| panic!("{event:?}")).unwrap();
    assert_eq!(session.client.describe(session.now()).state, LineState::Down);
}
