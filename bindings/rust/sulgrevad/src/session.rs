//! A client over connections of the program's own, each a half that is read and a half that is written.

use crate::{Client, ClientEvent, Clocked, Error, LineState, LinkFault, Shown, Splice, Tick};
use std::fmt;
use std::io::{self, ErrorKind, Read, Write};
use std::net::{Shutdown, TcpStream};
#[cfg(unix)]
use std::os::unix::net::UnixStream;
#[cfg(target_os = "linux")]
use std::os::{raw::c_int, unix::io::AsRawFd};
use std::process::ChildStdin;
use std::sync::atomic::{AtomicBool, Ordering};
use std::sync::mpsc::{sync_channel, Receiver, SyncSender};
use std::sync::{Arc, Mutex, TryLockError};
use std::thread::{self, JoinHandle};
use std::time::{Duration, Instant};

/// Bytes that are moved together.
const PIECE: usize = 65_536;
/// Pieces that may wait for the session. A host that sends more waits.
const MOST_WAITING: usize = 16;
/// After so long what had no memory is tried again.
const SHORT: Duration = Duration::from_millis(100);
/// After so long a connection that had no room is tried again, and a socket says that it has none.
const FULL: Duration = Duration::from_millis(10);

/// Why a session is over.
#[derive(Clone, Copy, Debug, PartialEq, Eq)]
#[non_exhaustive]
pub enum SessionError {
    /// The host has refused for good: another terminal has the session (`OtherSession`), or the host has lost it (`NoSession`). Each task
    /// that was open has been told as `Unanswered`.
    Lost(LinkFault),
    /// The client has stopped: the host's bytes are wrong (`Stream`, `TermRefused`), or a count is full.
    Stopped(Error),
}

impl fmt::Display for SessionError {
    fn fmt(&self, to: &mut fmt::Formatter<'_>) -> fmt::Result {
        match self {
            SessionError::Lost(why) => write!(to, "the session is lost: {why:?}"),
            SessionError::Stopped(why) => write!(to, "the session has stopped: {why}"),
        }
    }
}

impl std::error::Error for SessionError {}

/// The half of a connection that is written. A write that finds no room fails by `WouldBlock` or `TimedOut`: the session goes on meanwhile,
/// and tries again. Any other failure ends the connection.
pub trait WriteHalf: Write {
    /// Has such a write fail soon. It is called once, before the first write.
    fn limit_writes(&mut self) -> io::Result<()> {
        Ok(())
    }

    /// Ends the connection for its other half, too, so that a read there returns. If dropping this half does so there is nothing to do.
    fn hang_up(&mut self) {}
}

impl WriteHalf for TcpStream {
    fn limit_writes(&mut self) -> io::Result<()> {
        self.set_write_timeout(Some(FULL))
    }

    fn hang_up(&mut self) {
        let _ = self.shutdown(Shutdown::Both); // it may be over already
    }
}

#[cfg(unix)]
impl WriteHalf for UnixStream {
    fn limit_writes(&mut self) -> io::Result<()> {
        self.set_write_timeout(Some(FULL))
    }

    fn hang_up(&mut self) {
        let _ = self.shutdown(Shutdown::Both);
    }
}

impl WriteHalf for ChildStdin {
    /// Has no write wait. The child's end of the pipe stays as it is.
    #[cfg(target_os = "linux")]
    fn limit_writes(&mut self) -> io::Result<()> {
        const F_SETFL: c_int = 4;
        const O_NONBLOCK: c_int = 0o4000;
        extern "C" {
            fn fcntl(file: c_int, command: c_int, ...) -> c_int;
        }
        match unsafe { fcntl(self.as_raw_fd(), F_SETFL, O_NONBLOCK) } {
            0 => Ok(()),
            _ => Err(io::Error::last_os_error()),
        }
    }
}

enum Came {
    Made(u64),
    Piece(u64, Vec<u8>),
    End(u64),
    Woken,
}

/// Wakes a session from another thread, as where keys are read.
#[derive(Clone, Debug)]
pub struct Waker {
    is_woken: Arc<AtomicBool>,
    sender: SyncSender<Came>,
}

impl fmt::Debug for Came {
    fn fmt(&self, to: &mut fmt::Formatter<'_>) -> fmt::Result {
        to.write_str("Came")
    }
}

impl Waker {
    /// Has `go_on`, which waits for the host, return at once.
    pub fn wake(&self) {
        self.is_woken.store(true, Ordering::SeqCst);
        let _ = self.sender.try_send(Came::Woken); // if there is no room it doesn't wait, and looks as it takes the next piece
    }
}

/// A client that connects again by itself. `open` makes a connection, as `TcpStream::connect` does: its two halves, or an error if there is
/// none now. One that takes more than 30 seconds is given up, and while `open` is at it none else is tried: so give it a limit of time. A
/// thread makes and reads each connection, so the session waits for the host and for a time limit alike.
///
/// Neither a connection that is long in coming nor one that takes nothing holds up the session, and one that ends loses nothing. Before the
/// program ends it waits until [`Client::has_all`] is true: what has not come to the host is lost with the session.
///
/// The id is to be random. Over samhost a file is opened by its path ([`Client::begin`]): the crate's example `append` is a whole program.
///
/// ```no_run
/// use sulgrevad::{Event, Session, Shown};
/// use std::{net::TcpStream, time::Duration};
///
/// let mut session = Session::new([7; 16], false, || {
///     let writer = TcpStream::connect("localhost:7000")?;
///     Ok((writer.try_clone()?, writer))
/// })?;
/// session.client.ask(Event::OfferVersion(2))?;
/// session.client.ask(Event::Open(1))?;
/// loop {
///     session.go_on(Duration::from_millis(50), |client, event, splices| {
///         for splice in splices {} // each goes into the editor's own text
///     })?;
///     // The user types: session.client.replace(..)
/// }
/// # #[allow(unreachable_code)]
/// # Ok::<(), Box<dyn std::error::Error>>(())
/// ```
pub struct Session<O, R, W: WriteHalf> {
    /// The client. Edits and requests go to it: `replace`, `ask`, `put_note`; then go on.
    pub client: Client,
    open: Arc<Mutex<O>>,
    making: Option<JoinHandle<io::Result<(R, W)>>>, // the newest connection
    writer: Option<W>,
    attempt: u64,
    unsent: Vec<u8>, // of this connection, which had no room for them
    began: Instant,
    is_short: bool,
    is_full: bool,
    waker: Waker,
    came: Receiver<Came>,
}

impl<O, R, W> Session<O, R, W>
where
    O: FnMut() -> io::Result<(R, W)> + Send + 'static,
    R: Read + Send + 'static,
    W: WriteHalf + Send + 'static,
{
    /// Makes a session, whose first connection is made as it goes on. The id and `take_over` are those of [`Client::new`]. Its only error
    /// is `NoMemory`.
    pub fn new(id: [u8; 16], take_over: bool, open: O) -> Result<Session<O, R, W>, Error> {
        let (sender, came) = sync_channel(MOST_WAITING);
        let (client, began) = (Client::new(id, take_over, 0)?, Instant::now());
        Ok(Session {
            client,
            open: Arc::new(Mutex::new(open)),
            making: None,
            writer: None,
            attempt: 0,
            unsent: Vec::new(),
            began,
            is_short: false,
            is_full: false,
            waker: Waker { is_woken: Arc::default(), sender },
            came,
        })
    }

    /// Returns what wakes this session.
    pub fn waker(&self) -> Waker {
        self.waker.clone()
    }

    /// Returns the time that the client is told, in milliseconds.
    pub fn now(&self) -> u64 {
        self.began.elapsed().as_millis() as u64
    }

    /// Does what is due, waits until bytes of the host come, but for `limit` at most, and tells what happened: of each event the splices,
    /// which go into the editor's own text. It returns once it has told something, was woken, or the time is over. The errors are final;
    /// the client's texts can still be read.
    pub fn go_on(&mut self, limit: Duration, mut tell: impl FnMut(&mut Client, ClientEvent, &[Splice])) -> Result<(), SessionError> {
        let mut has_told = self.move_all(&mut tell)?;
        let began = Instant::now();
        while !has_told {
            let left = limit.saturating_sub(began.elapsed());
            match self.came.recv_timeout(self.rest(left)) {
                Ok(Came::Made(attempt)) => self.take_halves(attempt),
                Ok(Came::Piece(attempt, bytes)) => self.receive(attempt, &bytes),
                Ok(Came::End(attempt)) => self.end(attempt),
                Ok(Came::Woken) | Err(_) => {} // or the time is over: the sender is here, too
            }
            let is_over = self.waker.is_woken.swap(false, Ordering::SeqCst) || left.is_zero();
            has_told = self.move_all(&mut tell)? || is_over;
        }
        Ok(())
    }

    /// Returns how long it may wait. What is due while memory is short would be due again at once.
    fn rest(&self, limit: Duration) -> Duration {
        let due = if self.is_short {
            Some(SHORT)
        } else {
            self.client.due_in(self.now()).map(Duration::from_millis)
        };
        let room = self.is_full.then_some(FULL);
        [due, room].into_iter().flatten().fold(limit, Duration::min)
    }

    /// Moves all that can move. Returns whether something was told.
    fn move_all(&mut self, tell: &mut impl FnMut(&mut Client, ClientEvent, &[Splice])) -> Result<bool, SessionError> {
        self.keep_line()?;
        let mut has_told = false;
        self.is_short = false;
        loop {
            match self.client.next_event(self.now()) {
                Ok(ClientEvent::Idle) => break,
                Ok(ClientEvent::Busy) => {}
                Ok(event) => {
                    let splices: Vec<Splice> = self.client.splices().collect();
                    tell(&mut self.client, event, &splices);
                    has_told = true;
                }
                Err(Error::Unfinished) => {
                    self.is_short = true;
                    break;
                }
                Err(why) => return Err(SessionError::Stopped(why)),
            }
        }
        if !self.is_short {
            self.check_line()?;
        }
        self.send();
        Ok(has_told)
    }

    /// Does what the client wants of the connection at this time.
    fn keep_line(&mut self) -> Result<(), SessionError> {
        loop {
            match self.client.tick(self.now()) {
                Tick::Connect => self.connect()?,
                Tick::Drop => self.hang_up(),
                Tick::Ask => {} // which it does as it goes on
                Tick::Nothing => return Ok(()),
            }
        }
    }

    /// Says why the session is lost, if it is. Ask it once all is told: of a lost session each task that is open is.
    fn check_line(&self) -> Result<(), SessionError> {
        match self.client.describe(self.now()).state {
            LineState::Lost(why) => Err(SessionError::Lost(why)),
            _ => Ok(()),
        }
    }

    /// Begins a connection, which a thread makes.
    fn connect(&mut self) -> Result<(), SessionError> {
        self.hang_up();
        self.attempt = self.client.connected(self.now()).map_err(SessionError::Stopped)?;
        let (attempt, sender, open) = (self.attempt, self.waker.sender.clone(), Arc::clone(&self.open));
        let making = thread::Builder::new().spawn(move || {
            let halves = match open.try_lock() {
                Ok(mut open) => open(),
                Err(TryLockError::Poisoned(open)) => (open.into_inner())(),
                Err(TryLockError::WouldBlock) => Err(ErrorKind::WouldBlock.into()), // the thread of an older connection is still at it
            };
            let _ = sender.send(Came::Made(attempt));
            halves
        });
        match making {
            Ok(making) => self.making = Some(making),
            Err(_) => self.end(attempt),
        }
        Ok(())
    }

    /// Takes the halves of a connection that was made, and reads one of them by a thread.
    fn take_halves(&mut self, attempt: u64) {
        if attempt != self.attempt {
            return; // it was given up
        }
        if let Some(Ok(Ok((reader, mut writer)))) = self.making.take().map(JoinHandle::join) {
            let (sender, is_limited) = (self.waker.sender.clone(), writer.limit_writes().is_ok());
            self.writer = Some(writer);
            if is_limited && thread::Builder::new().spawn(move || read(reader, attempt, &sender)).is_ok() {
                return;
            }
        }
        self.end(attempt);
    }

    fn hang_up(&mut self) {
        self.unsent.clear(); // which the next connection brings, as all that is not acknowledged
        self.making = None;
        if let Some(mut writer) = self.writer.take() {
            writer.hang_up();
        }
    }

    fn end(&mut self, attempt: u64) {
        self.client.broken(attempt, self.now());
        if attempt == self.attempt {
            self.hang_up();
        }
    }

    /// Takes a piece. After a refusal the connection is over for the client; if memory was out, the next one brings the piece again.
    fn receive(&mut self, attempt: u64, bytes: &[u8]) {
        if attempt == self.attempt && self.client.receive(attempt, bytes, self.now()).is_err() {
            self.end(attempt);
        }
    }

    fn send(&mut self) {
        self.is_full = false;
        while let Some(writer) = &mut self.writer {
            if let Err(why) = write(writer, &mut self.unsent) {
                self.is_full = matches!(why.kind(), ErrorKind::WouldBlock | ErrorKind::TimedOut);
                if !self.is_full {
                    self.end(self.attempt);
                }
                return;
            }
            self.unsent.resize(PIECE, 0);
            match self.client.take_out(self.attempt, &mut self.unsent) {
                Ok(count) => self.unsent.truncate(count),
                Err(_) => return self.end(self.attempt),
            }
            if self.unsent.is_empty() {
                return;
            }
        }
    }
}

impl<O, R, W: WriteHalf> Drop for Session<O, R, W> {
    fn drop(&mut self) {
        if let Some(writer) = &mut self.writer {
            writer.hang_up();
        }
    }
}

/// Writes bytes, and takes out those that are written.
fn write(writer: &mut impl Write, bytes: &mut Vec<u8>) -> io::Result<()> {
    while !bytes.is_empty() {
        match writer.write(bytes) {
            Ok(0) => return Err(ErrorKind::WriteZero.into()),
            Ok(count) => drop(bytes.drain(..count)),
            Err(why) if why.kind() == ErrorKind::Interrupted => {}
            Err(why) => return Err(why),
        }
    }
    writer.flush()
}

/// Reads a connection until it is over, or the session is.
fn read(mut reader: impl Read, attempt: u64, sender: &SyncSender<Came>) {
    let mut bytes = vec![0; PIECE];
    loop {
        let came = match reader.read(&mut bytes) {
            Ok(count) if count > 0 => Came::Piece(attempt, bytes[..count].to_vec()),
            Err(why) if why.kind() == ErrorKind::Interrupted => continue,
            _ => Came::End(attempt),
        };
        let is_over = matches!(came, Came::End(_));
        if sender.send(came).is_err() || is_over {
            return;
        }
    }
}
