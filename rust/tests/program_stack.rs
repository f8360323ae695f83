//! How much stack the built programs take: the least with which each runs.

use crate::folders::new_folder;
use dispatcher::judged_text;
use dispatcher::proved::EMULATED;
use dispatcher::sample::desk_lines::opened;
use dispatcher::sample::program::{at_root, program_by_script};
use dispatcher::sample::tally::say;
use std::fs::{self, File};
use std::path::PathBuf;

const MOST_KIB_RUNLOG: u32 = 336;
const MOST_KIB_JUDGELOG: u32 = 192;
const MOST_KIB_DESK: u32 = 448;

/// Where the system cannot be kept from putting a random distance before a stack, one of some tries has little of it.
const TRIES: u32 = 12;

/// A program, the folder and the lines it is run with, what it then prints, and where it writes to `ends.txt` what that
/// is to hold before.
struct Run {
    program: &'static str,
    folder: PathBuf,
    lines: PathBuf,
    printed: Vec<u8>,
    ends: Option<Vec<u8>>,
}

impl Run {
    fn runs_with(&self, kib: u32) -> bool {
        (0..TRIES).any(|_| self.runs_once_with(kib))
    }

    /// Whether the program prints all it should with so much stack, which holds its environment too.
    fn runs_once_with(&self, kib: u32) -> bool {
        if let Some(ends) = &self.ends {
            fs::write(self.folder.join("ends.txt"), ends).unwrap();
        }
        let mut command = program_by_script(self.program, &self.folder);
        command.env_clear();
        for name in ["PATH", "RATTLE_HOME"] {
            if let Some(value) = std::env::var_os(name) {
                command.env(name, value);
            }
        }
        let command = command.stdin(File::open(&self.lines).unwrap());
        let output = command.env("PROGRAM_STACK", kib.to_string()).output();
        let output = output.unwrap();
        output.status.success() && output.stdout == self.printed
    }

    fn expect_at_most(&self, too_little: u32, most: u32) {
        if EMULATED {
            return self.expect_enough(most);
        }
        // The program's buffers alone are longer than the one, and the other is the usual limit.
        let (mut too_little, mut enough) = (too_little, 8_192);
        assert!(!self.runs_with(too_little));
        assert!(self.runs_with(enough));
        while enough - too_little > 4 {
            let middle = (too_little + enough) / 2;
            if self.runs_with(middle) {
                enough = middle;
            } else {
                too_little = middle;
            }
        }
        let program = self.program;
        say(&format!("stack of the program {program}: {enough} KiB"));
        assert!(enough <= most, "{program} takes {enough} KiB of stack");
    }

    /// Under the emulator a stack of 128 KiB is the least, and the page below it so small that a large frame passes it:
    /// what lies there may be written over, and the program still prints all it should. So no least is looked for.
    fn expect_enough(&self, most: u32) {
        let program = self.program;
        assert!(
            self.runs_with(most),
            "{program} takes over {most} KiB of stack"
        );
        say(&format!(
            "stack of the program {program}: at most {most} KiB; the least is measured on x86-64 alone"
        ));
    }
}

fn full_morning(name: &str) -> PathBuf {
    at_root("examples/full-morning").join(name)
}

#[test]
fn runlog_takes_no_more_than_336_kib() {
    let run = Run {
        program: "runlog",
        folder: full_morning(""),
        lines: full_morning("ends.txt"),
        printed: fs::read(full_morning("log.txt")).unwrap(),
        ends: None,
    };
    run.expect_at_most(192, MOST_KIB_RUNLOG);
}

/// The log of that morning, judged: two texts in, and a short one out.
#[test]
fn judgelog_takes_no_more_than_192_kib() {
    let texts = ["plan.txt", "log.txt"].map(|name| fs::read(full_morning(name)).unwrap());
    let run = Run {
        program: "judgelog",
        folder: full_morning(""),
        lines: full_morning("ends.txt"),
        printed: judged_text(&texts[0], &texts[1]),
        ends: None,
    };
    assert!(run.printed.ends_with(b"accepted\n"));
    run.expect_at_most(64, MOST_KIB_JUDGELOG);
}

/// All that the second desk prints for these lines.
fn printed_at_desk(plan: &[u8], ends: &[u8], lines: &[u8]) -> Vec<u8> {
    let (mut printed, mut desk) = opened(plan, ends);
    for line in lines.split_inclusive(|&byte| byte == b'\n') {
        printed.extend(desk.take(&line[..line.len() - 1], true).answer);
    }
    printed
}

/// Half of the morning is in `ends.txt`. The other half is told line by line, and then everything is asked.
#[test]
fn the_desk_takes_no_more_than_448_kib() {
    let folder = new_folder("desk-stack");
    let plan = fs::read(full_morning("plan.txt")).unwrap();
    fs::write(folder.join("plan.txt"), &plan).unwrap();
    let whole = fs::read(full_morning("ends.txt")).unwrap();
    let told: Vec<&[u8]> = whole.split_inclusive(|&byte| byte == b'\n').collect();
    let (before, after) = told.split_at(told.len() / 2);
    let (ends, mut lines) = (before.concat(), after.concat());
    lines.extend(b"early\nexact\nnow\nend\t1\t1\ndrop\t2\nrule\tclash\n");
    for number in 1..=64 {
        lines.extend(format!("why\t{number}\ndrive\t{number}\n").bytes());
    }
    fs::write(folder.join("lines"), &lines).unwrap();
    let run = Run {
        program: "desk",
        lines: folder.join("lines"),
        printed: printed_at_desk(&plan, &ends, &lines),
        ends: Some(ends),
        folder,
    };
    run.expect_at_most(192, MOST_KIB_DESK);
}
