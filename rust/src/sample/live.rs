//! The desk driven through pipes: lines in, each answer as it comes.

use super::program::{at_root, program_in, LONGEST_WAIT};
use crate::second::desk::LAST_WORDS;
use crate::second::fields::first_field;
use std::fs;
use std::io::{BufRead, BufReader, Read, Write};
use std::path::{Path, PathBuf};
use std::process::{Child, ChildStdin, Command, ExitStatus, Stdio};
use std::sync::mpsc::{channel, Receiver};
use std::thread;

pub struct Live {
    pub child: Child,
    into: Option<ChildStdin>,
    lines: Receiver<Vec<u8>>,
}

/// What was left when a desk ended.
pub struct Left {
    pub printed: Vec<u8>,
    pub said: String,
    pub status: ExitStatus,
}

/// The program alone, in that folder.
pub fn desk_program(folder: &Path) -> Command {
    program_in("desk", folder)
}

/// The command that users call.
pub fn desk_command(folder: &Path) -> Command {
    let mut command = Command::new(at_root("desk"));
    command.arg(folder);
    command
}

/// A file system in memory, where flushing costs nothing; where there is none, the one given.
pub fn quick_place(other: &str) -> String {
    let place = format!("/dev/shm/cloverdusk-{}", std::process::id());
    match fs::create_dir_all(&place) {
        Ok(()) => place,
        Err(_) => other.to_owned(),
    }
}

/// A folder with that plan and no `ends.txt`.
pub fn folder_with(folder: PathBuf, plan: &[u8]) -> PathBuf {
    fs::write(folder.join("plan.txt"), plan).unwrap();
    folder
}

impl Live {
    pub fn start(mut command: Command) -> Live {
        let mut child = command
            .stdin(Stdio::piped())
            .stdout(Stdio::piped())
            .stderr(Stdio::piped())
            .spawn()
            .unwrap();
        let mut out = BufReader::new(child.stdout.take().unwrap());
        let (sender, lines) = channel();
        thread::spawn(move || loop {
            let mut line = Vec::new();
            let is_over = out.read_until(b'\n', &mut line).unwrap() == 0;
            if is_over || sender.send(line).is_err() {
                return;
            }
        });
        Live {
            into: child.stdin.take(),
            child,
            lines,
        }
    }

    /// Hands the bytes over, as one write where the pipe takes it; a desk that has gone takes none.
    pub fn hand(&mut self, bytes: &[u8]) {
        let _ = self.into.as_mut().unwrap().write_all(bytes);
    }

    /// The lines up to the last one of an answer; all that is left where the desk ends before.
    pub fn answer(&mut self) -> Vec<u8> {
        let mut answer = Vec::new();
        while let Ok(line) = self.lines.recv_timeout(LONGEST_WAIT) {
            answer.extend_from_slice(&line);
            if is_last(&line) {
                break;
            }
        }
        answer
    }

    /// So many answers, one after the other.
    pub fn answers(&mut self, many: usize) -> Vec<u8> {
        (0..many).flat_map(|_| self.answer()).collect()
    }

    /// The answer to a line, its LF included, before any other line is handed over.
    pub fn ask(&mut self, line: &[u8]) -> Vec<u8> {
        self.hand(line);
        self.answer()
    }

    /// Ends the input, and waits for the desk's end.
    pub fn end(mut self) -> Left {
        drop(self.into.take());
        self.left()
    }

    pub fn kill(mut self) -> Left {
        self.child.kill().unwrap();
        self.left()
    }

    /// Waits for a desk that ends of itself.
    pub fn left(mut self) -> Left {
        let mut printed = Vec::new();
        while let Ok(line) = self.lines.recv_timeout(LONGEST_WAIT) {
            printed.extend(line);
        }
        let mut said = String::new();
        let errors = self.child.stderr.as_mut().unwrap();
        errors.read_to_string(&mut said).unwrap();
        Left {
            printed,
            said,
            status: self.child.wait().unwrap(),
        }
    }
}

/// Whether the line, with its LF, is the last of an answer.
pub fn is_last(line: &[u8]) -> bool {
    let Some(line) = line.strip_suffix(b"\n") else {
        return false;
    };
    let word = first_field(line);
    LAST_WORDS.iter().any(|last| last.as_bytes() == word)
}

/// How many answers the text has in it.
pub fn answers_in(printed: &[u8]) -> usize {
    let lines = printed.split_inclusive(|&byte| byte == b'\n');
    lines.filter(|line| is_last(line)).count()
}
