//! The built programs, run in a folder, and folders to run them in.

use crate::proved::peer::kit;
use std::collections::BTreeSet;
use std::fs;
use std::os::unix::fs::MetadataExt;
use std::path::{Path, PathBuf};
use std::process::Command;
use std::sync::Mutex;
use std::thread;
use std::time::{Duration, Instant};

/// What has not happened by then never happens. The one limit of all tests that wait for something.
pub const LONGEST_WAIT: Duration = Duration::from_secs(60);

/// A path below the repository's root.
pub fn at_root(path: &str) -> PathBuf {
    Path::new(env!("CARGO_MANIFEST_DIR")).join("..").join(path)
}

static HANDED_OUT: Mutex<BTreeSet<PathBuf>> = Mutex::new(BTreeSet::new());

/// An empty folder of that name below a test's `CARGO_TARGET_TMPDIR`. Tests run side by side,
/// so none is handed out twice.
pub fn empty_folder(below: &str, name: &str) -> PathBuf {
    let folder = Path::new(below).join(name);
    let is_new = HANDED_OUT.lock().unwrap().insert(folder.clone());
    assert!(is_new, "two tests name a folder {name}");
    let _ = fs::remove_dir_all(&folder);
    fs::create_dir_all(&folder).unwrap();
    folder
}

/// The command that runs the built program there: by itself, or if the processor is another under the emulator.
pub fn program_in(name: &str, folder: &Path) -> Command {
    let program = built_program(name);
    let mut command = if cfg!(target_arch = "x86_64") {
        Command::new(program)
    } else {
        kit().runner(&program)
    };
    command.current_dir(folder);
    command
}

/// The same by `tools/program`, as the commands run it; it takes `PROGRAM_STACK` from the environment.
pub fn program_by_script(name: &str, folder: &Path) -> Command {
    built_program(name);
    let mut command = Command::new(at_root("tools/program"));
    command.arg(name).current_dir(folder);
    command
}

/// A test fails if its program is not built.
fn built_program(name: &str) -> PathBuf {
    let program = at_root(&format!("crates/{name}/out/{name}"));
    assert!(
        program.exists(),
        "{} is missing: run `rt run` in crates/{name} first",
        program.display()
    );
    program
}

/// The folders and files in that folder.
pub fn entries_below(folder: &Path) -> Vec<PathBuf> {
    let entries = fs::read_dir(folder).unwrap();
    entries.map(|entry| entry.unwrap().path()).collect()
}

/// The folders below that one, at any depth, in which a log of our own is kept: one that is kept to be
/// judged stands beside what is printed of it.
pub fn cases_below(folder: &Path) -> Vec<PathBuf> {
    let mut cases = Vec::new();
    for below in entries_below(folder) {
        if below.join("judged.txt").exists() {
            continue;
        }
        if below.join("log.txt").exists() {
            cases.push(below);
        } else if below.is_dir() {
            cases.extend(cases_below(&below));
        }
    }
    cases
}

/// What a file holds; a missing one counts as empty.
pub fn contents(file: &Path) -> Vec<u8> {
    if file.exists() {
        return fs::read(file).unwrap();
    }
    Vec::new()
}

/// The program printed this, and had nothing else to say.
pub fn expect_printed(mut program: Command, wanted: &[u8]) {
    let output = program.output().unwrap();
    let (printed, said) = (output.stdout, output.stderr);
    assert!(
        printed == wanted,
        "{program:?}: printed\n{}instead of\n{}",
        String::from_utf8_lossy(&printed),
        String::from_utf8_lossy(wanted)
    );
    assert_eq!(String::from_utf8_lossy(&said), "", "{program:?}");
    assert!(output.status.success(), "{program:?}");
}

/// One line on standard error that begins with the name.
pub fn expect_said(said: &[u8], name: &str) {
    let said = String::from_utf8_lossy(said);
    assert!(said.starts_with(&format!("{name}: ")), "said {said:?}");
    assert_eq!(said.matches('\n').count(), 1, "said {said:?}");
    assert!(said.ends_with('\n'));
}

/// The command as somebody who may do only what a file's mode allows: root's own rights are taken away.
pub fn without_rights(command: &Path, words: &[&str]) -> Command {
    // Whose process this is.
    if fs::metadata("/proc/self").unwrap().uid() != 0 {
        let mut plain = Command::new(command);
        plain.args(words);
        return plain;
    }
    let mut limited = Command::new("setpriv");
    limited
        .args(["--bounding-set=-all", "--inh-caps=-all"])
        .arg(command)
        .args(words);
    limited
}

/// The command as on a disk that takes so many bytes of a file. It keeps its folder, not its input and output.
pub fn on_full_disk(command: &Command, bytes: usize) -> Command {
    let mut limited = Command::new("bash");
    let line = "trap '' XFSZ; limit=$0; exec prlimit --fsize=\"$limit\" \"$@\"";
    limited
        .args(["-c", line, &bytes.to_string()])
        .arg(command.get_program())
        .args(command.get_args());
    if let Some(folder) = command.get_current_dir() {
        limited.current_dir(folder);
    }
    limited
}

/// Runs the command on a terminal of its own. Each step is a pattern that is awaited, and then the keys to press.
pub fn on_terminal(steps: &[&str], command: &Path) -> Command {
    let mut terminal = Command::new("python3");
    terminal.arg(at_root("rust/tests/on_terminal.py"));
    terminal.args(steps).arg("--").arg(command);
    terminal
}

/// Whether it comes true before the longest wait is over.
pub fn comes_true(mut is_true: impl FnMut() -> bool) -> bool {
    let until = Instant::now() + LONGEST_WAIT;
    while !is_true() {
        if until < Instant::now() {
            return false;
        }
        thread::sleep(Duration::from_millis(2));
    }
    true
}

/// Whether the process whose number is in that file has gone.
pub fn is_gone(file: &Path) -> bool {
    let process = fs::read_to_string(file).unwrap();
    !Path::new("/proc").join(process.trim_end()).exists()
}

/// Puts a folder in the file's place: it is there, and cannot be read.
pub fn make_unreadable(folder: &Path, name: &str) {
    fs::remove_file(folder.join(name)).unwrap();
    fs::create_dir(folder.join(name)).unwrap();
}
