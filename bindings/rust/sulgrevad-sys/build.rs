//! Links the library: README.md says which one.

use std::path::{Path, PathBuf};
use std::{env, process::Command};

/// Links the archive of a folder into the program.
fn link_archive(folder: &Path) {
    println!("cargo:rustc-link-search=native={}", folder.display());
    println!("cargo:rustc-link-lib=static=sulgrevad");
    println!("cargo:rerun-if-changed={}", folder.join("libsulgrevad.a").display());
}

/// The folder of the archive that `./build` left, if this crate lies in the repository. If there is none yet, this program runs again
/// at the next build.
fn folder_of_tree() -> Option<PathBuf> {
    let tree = PathBuf::from(env::var_os("CARGO_MANIFEST_DIR")?).join("../../..");
    if !tree.join("include/sulgrevad.h").exists() {
        return None;
    }
    let out = tree.join("out");
    println!("cargo:rerun-if-changed={}", out.join("libsulgrevad.a").display());
    out.join("libsulgrevad.a").exists().then_some(out)
}

/// The words by which pkg-config has a program linked with the installed library.
fn ask_pkg_config() -> Result<String, String> {
    let program = env::var("PKG_CONFIG").unwrap_or_else(|_| "pkg-config".to_owned());
    let asked = Command::new(&program)
        .args(["--libs", "--print-errors", "sulgrevad >= 0.1.0", "sulgrevad < 0.2.0"])
        .output()
        .map_err(|why| format!("{program}: {why}"))?;
    if asked.status.success() {
        Ok(String::from_utf8_lossy(&asked.stdout).into_owned())
    } else {
        Err(String::from_utf8_lossy(&asked.stderr).trim().to_owned())
    }
}

/// Returns the words of pkg-config's output, in which a backslash stands before a blank that is part of a word.
fn words_of(printed: &str) -> Vec<String> {
    let (mut words, mut word, mut is_escaped) = (Vec::new(), String::new(), false);
    for letter in printed.chars() {
        if letter == '\\' && !is_escaped {
            is_escaped = true;
            continue;
        }
        if letter.is_whitespace() && !is_escaped {
            words.push(std::mem::take(&mut word));
        } else {
            word.push(letter);
        }
        is_escaped = false;
    }
    words.push(word);
    words
}

fn main() {
    for name in ["SAM_OUT", "PKG_CONFIG", "PKG_CONFIG_PATH"] {
        println!("cargo:rerun-if-env-changed={name}");
    }
    println!("cargo:rerun-if-changed=build.rs");
    if let Some(folder) = env::var_os("SAM_OUT").map(PathBuf::from).or_else(folder_of_tree) {
        // Neither this program nor rustc runs in the folder where cargo was started.
        assert!(
            folder.is_absolute(),
            "SAM_OUT is {}: it has to be an absolute path",
            folder.display()
        );
        return link_archive(&folder);
    }
    // Without it a check or the documentation can be made, and no program: the linker looks for it then, and doesn't find it.
    let words = ask_pkg_config().unwrap_or_else(|why| {
        println!("cargo:warning=no libsulgrevad: set SAM_OUT to the folder of libsulgrevad.a, or install the library ({why})");
        "-lsulgrevad".to_owned()
    });
    for word in words_of(&words) {
        if let Some(folder) = word.strip_prefix("-L") {
            println!("cargo:rustc-link-search=native={folder}");
        } else if let Some(name) = word.strip_prefix("-l") {
            println!("cargo:rustc-link-lib={name}");
        }
    }
}
