//! Each script of tests/core/scripts that `sam_play replay` reads prints the output that is stored of it; the head of
//! tests/core/run_scripts says what the files of a pair are. `cargo test -- --include-ignored` runs it in the repository. It fails where
//! the scripts are not there.

use std::collections::BTreeSet;
use std::fs;
use std::path::{Path, PathBuf};
use sulgrevad::{replay, Error};

/// The statuses of a pair whose output follows from the script alone: it is replayed, or it is wrong.
const TOLD_BY_SCRIPT: [&str; 2] = ["0", "1"];

fn scripts() -> PathBuf {
    Path::new(env!("CARGO_MANIFEST_DIR")).join("../../../tests/core/scripts")
}

fn read(name: &str, kind: &str) -> Option<Vec<u8>> {
    fs::read(scripts().join(format!("{name}.{kind}"))).ok()
}

/// The names of the pairs of `sam_play replay` that need no device and no limit of its own.
fn names() -> BTreeSet<String> {
    let entries = |folder: PathBuf| fs::read_dir(folder).expect("a folder").map(|entry| entry.expect("an entry").path());
    let files = entries(scripts()).flat_map(entries);
    let name = |file: PathBuf| {
        file.strip_prefix(scripts())
            .unwrap()
            .to_str()
            .expect("a name in ASCII")
            .split('.')
            .next()
            .unwrap()
            .to_owned()
    };
    let status = |name: &str| read(name, "status").map_or("0".to_owned(), |text| String::from_utf8(text).expect("a number"));
    files
        .map(name)
        .filter(|name| read(name, "args").is_none() && TOLD_BY_SCRIPT.contains(&status(name).trim()))
        .collect()
}

/// The text that a line of NAME.repeat writes with `\n` for a newline and `\\` for a backslash.
fn unescaped(text: &str) -> String {
    let mut runes = text.chars();
    std::iter::from_fn(|| match runes.next()? {
        '\\' => runes.next().map(|rune| if rune == 'n' { '\n' } else { rune }),
        rune => Some(rune),
    })
    .collect()
}

/// The bytes of a NAME.repeat: each of its lines is a number and a text that stands so many times.
fn repeated(text: &str) -> Vec<u8> {
    text.lines()
        .flat_map(|line| {
            let (count, part) = line.split_once(' ').expect("a number and a text");
            unescaped(part).into_bytes().repeat(count.parse().expect("a number"))
        })
        .collect()
}

/// What is read: one script, or one for each line of NAME.lines.
fn inputs(name: &str) -> Vec<Vec<u8>> {
    if let Some(script) = read(name, "script") {
        return vec![script];
    }
    if let Some(text) = read(name, "repeat") {
        return vec![repeated(std::str::from_utf8(&text).expect("UTF-8"))];
    }
    let lines = read(name, "lines").expect("a script");
    lines.split_inclusive(|byte| *byte == b'\n').map(<[u8]>::to_vec).collect()
}

/// What is printed, or the line that `sam_play replay` prints where a script can't be replayed.
fn printed(script: &[u8]) -> Result<Vec<u8>, Error> {
    match replay(script) {
        Err(Error::ScriptLine(line)) => Ok(format!("= fault script {line}\n").into_bytes()),
        other => other,
    }
}

#[test]
#[ignore = "it reads tests/core/scripts of the repository"]
fn each_script_prints_what_is_stored() {
    let names = names();
    assert!(names.len() > 60, "only {} scripts", names.len());
    for name in names {
        let wanted = read(&name, "out").expect("an output");
        for script in inputs(&name) {
            assert!(printed(&script) == Ok(wanted.clone()), "{name} prints something else");
        }
    }
}
