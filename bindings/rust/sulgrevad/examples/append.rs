//! append FILE TEXT: puts a text at the end of a file of samhost's machine, and writes it, over connections that may break.

use std::error::Error;
use std::fs::File;
use std::io::{self, Read};
use std::process::{ChildStdin, ChildStdout, Command, Stdio};
use std::time::Duration;
use std::{env, process};
use sulgrevad::{read_note, Client, ClientEvent, Clocked, Event, NoteKind, Session, Shown};

const LONG: Duration = Duration::from_secs(60);
const MESSAGES_VERSION: u64 = 1;

type Opener = Box<dyn FnMut() -> io::Result<(ChildStdout, ChildStdin)> + Send>;
type Host = Session<Opener, ChildStdout, ChildStdin>;

/// Runs samhost for each connection: by `--serve` it begins the session, by `--attach` it goes on with it.
fn begin() -> Result<Host, Box<dyn Error>> {
    let mut id = [0; 16];
    File::open("/dev/urandom")?.read_exact(&mut id)?;
    let name: String = id[..8].iter().map(|byte| format!("{byte:02x}")).collect();
    let mut verb = "--serve";
    let open: Opener = Box::new(move || {
        let mut command = Command::new("samhost");
        let mut host = command.args([verb, &name]).stdin(Stdio::piped()).stdout(Stdio::piped()).spawn()?;
        verb = "--attach";
        Ok((host.stdout.take().expect("a pipe"), host.stdin.take().expect("a pipe")))
    });
    Ok(Session::new(id, false, open)?)
}

/// Goes on until something holds. An editor takes the splices of each event into its own text, and goes on whenever a key comes, too.
fn until(session: &mut Host, mut holds: impl FnMut(&mut Client, ClientEvent) -> bool) -> Result<(), Box<dyn Error>> {
    let mut is_so = false;
    while !is_so {
        session.go_on(LONG, |client, event, _splices| is_so |= holds(client, event))?;
    }
    Ok(())
}

/// Returns the file of the host's answer to a task.
fn answer(session: &mut Host, task: u32) -> Result<u16, Box<dyn Error>> {
    let mut bytes = Vec::new();
    until(session, |client, event| {
        if event == ClientEvent::Answered(task) {
            bytes = client.note();
        }
        !bytes.is_empty()
    })?;
    let note = read_note(&bytes)?;
    match note.kind {
        NoteKind::Refused | NoteKind::NotSaved => Err(note.text.into()),
        _ => Ok(note.tag),
    }
}

/// Whether a message says that the session is over.
fn is_last(note: &[u8]) -> bool {
    matches!(read_note(note), Ok(note) if note.kind == NoteKind::Ended)
}

fn append(path: &str, text: &str) -> Result<(), Box<dyn Error>> {
    let mut session = begin()?;
    until(&mut session, |_, event| event == ClientEvent::Note)?; // the first message says which version all have
    let first = session.client.note();
    if !matches!(read_note(&first), Ok(note) if note.kind == NoteKind::Session && note.number == MESSAGES_VERSION) {
        return Err("samhost is of another version".into());
    }
    let task = session.client.begin(NoteKind::Open, 0, path.as_bytes(), session.now())?;
    let tag = answer(&mut session, task)?;
    session.client.ask(Event::OfferVersion(2))?; // asks for the names of the files, of which this one is new
    session.client.ask(Event::Open(tag))?;
    until(&mut session, |client, _| client.file(tag).is_open)?;
    let end = session.client.len(tag).expect("it is open");
    session.client.replace(tag, end, end, text)?; // it is shown from now on, whatever the line does
    let task = session.client.write(tag)?;
    answer(&mut session, task)?;
    session.client.ask(Event::Exit)?; // ends the session; one that is left alone stays at the host
    until(&mut session, |client, event| event == ClientEvent::Note && is_last(&client.note()))?;
    session.client.acknowledge()?; // the host goes once it knows that its last message has come
    session.go_on(Duration::ZERO, |_, _, _| ())?;
    Ok(())
}

fn main() {
    let words: Vec<String> = env::args().skip(1).collect();
    let done = match &words[..] {
        [path, text] => append(path, text),
        _ => Err("usage: append FILE TEXT".into()),
    };
    match done {
        Ok(()) => println!("written"),
        Err(why) => {
            eprintln!("{why}");
            process::exit(1);
        }
    }
}
