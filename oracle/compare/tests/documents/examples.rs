//! Each `sh` block of a document is run, and writes what is shown behind it.

use crate::{document, root};
use std::env;
use std::fs::{self, Permissions};
use std::os::unix::fs::{PermissionsExt, symlink};
use std::path::{Path, PathBuf};
use std::process::{Command, Output};

/// What `tools/build` makes is there already.
const BUILT: &str = "#!/bin/sh\n";

/// A command as a document shows it, and what it is said to write.
struct Example {
    line: usize,
    script: String,
    shown: String,
}

/// The blocks between fences: the line of the first fence, its language, the text.
fn blocks(document: &str) -> Vec<(usize, &str, String)> {
    let mut blocks: Vec<(usize, &str, String)> = Vec::new();
    let mut inside = false;
    for (number, line) in document.lines().enumerate() {
        if let Some(language) = line.strip_prefix("```") {
            if !inside {
                blocks.push((number + 1, language, String::new()));
            }
            inside = !inside;
        } else if inside {
            let (_, _, text) = blocks.last_mut().expect("a fence opened it");
            text.push_str(line);
            text.push('\n');
        }
    }
    assert!(!inside, "the last fence is open");
    blocks
}

/// Each `sh` block, with the `text` block behind it; one without writes nothing.
fn examples(document: &str) -> Vec<Example> {
    let mut examples: Vec<Example> = Vec::new();
    for (line, language, text) in blocks(document) {
        match language {
            "sh" => examples.push(Example {
                line,
                script: text,
                shown: String::new(),
            }),
            "text" => examples.last_mut().expect("a command before it").shown = text,
            other => panic!("line {line}: a block of {other:?}, which nothing checks"),
        }
    }
    examples
}

/// Lets `there` lead to a place seen from the repository's root.
fn link(place: &Path, there: &Path) {
    let place = root().join(place).canonicalize().expect("it is built");
    symlink(place, there).expect("a link can be made");
}

/// A folder of the test's own that looks like the repository's root to the
/// examples: the programs, the crates, and a place for files.
fn folder(name: &str) -> PathBuf {
    let folder = Path::new(env!("CARGO_TARGET_TMPDIR")).join(name);
    if folder.exists() {
        fs::remove_dir_all(&folder).expect("it is the test's own");
    }
    let programs = env::var_os("MASSEY_BIN_DIR").unwrap_or("target/bin".into());
    fs::create_dir_all(folder.join("target")).expect("a folder can be made");
    link(Path::new(&programs), &folder.join("target/bin"));
    link(Path::new("crates"), &folder.join("crates"));
    let build = folder.join("tools/build");
    fs::create_dir_all(folder.join("tools")).expect("a folder can be made");
    fs::write(&build, BUILT).expect("a file can be made");
    fs::set_permissions(&build, Permissions::from_mode(0o755)).expect("it is the test's own");
    folder
}

fn run(script: &str, folder: &Path) -> Output {
    Command::new("/bin/sh")
        .args(["-c", script])
        .current_dir(folder)
        .env("LC_ALL", "C")
        .output()
        .expect("there is a shell")
}

/// Runs a document's examples in their order.
fn replay(name: &str, folder_name: &str) {
    let folder = folder(folder_name);
    let examples = examples(&document(name));
    assert!(!examples.is_empty(), "{name} has examples");
    for example in examples {
        let line = example.line;
        let ended = run(&example.script, &folder);
        let complaint = String::from_utf8_lossy(&ended.stderr);
        assert!(complaint.is_empty(), "{name}, line {line}: {complaint}");
        let written = String::from_utf8_lossy(&ended.stdout);
        assert_eq!(written, example.shown, "{name}, line {line}");
    }
}

#[test]
fn the_readme_shows_what_its_commands_write() {
    replay("README.md", "readme");
}

#[test]
fn the_formats_show_what_their_commands_write() {
    replay("docs/FORMATS.md", "formats");
}
