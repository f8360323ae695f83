//! The programs in one table: which files each reads, how long these may be, and how it fails.
//! What one must print is the second dispatcher's, never the program's own.

use crate::folders::{new_folder, put_files};
use dispatcher::sample::lent::{shown, text};
use dispatcher::sample::plan_a::{ENDS_A, OPENING_A, PLAN_A};
use dispatcher::sample::program::{
    at_root, expect_said, make_unreadable, on_full_disk, program_in, without_rights,
};
use dispatcher::second::desk::Start;
use dispatcher::second::values::LONGEST_TEXT;
use dispatcher::{convert_text, judged_text, run_log, timetable_text, year_text, Desk};
use std::fs::{self, File};
use std::io::Write;
use std::os::unix::fs::{symlink, PermissionsExt};
use std::path::{Path, PathBuf};
use std::process::{Command, Output};
use std::thread;
use std::time::Duration;

const PLAN: &str = "plan.txt";
const ENDS: &str = "ends.txt";
const LENGTHS: &str = "lengths.txt";
const LOG: &str = "log.txt";

/// The texts of a program's files, in their order.
type Texts = Vec<Vec<u8>>;

struct Program {
    name: &'static str,
    /// In the order in which they are read.
    files: &'static [&'static str],
    /// What its standard input holds.
    input: &'static [u8],
    /// What its command is called with, in the folder.
    word: &'static str,
    /// What stands before a file's name in a sentence about it.
    place: &'static str,
    needs_all_files: bool,
    /// What the second dispatcher makes of the texts.
    outcome: fn(&[Vec<u8>]) -> Outcome,
}

/// What a program prints, and how a sentence begins that it says beside it.
struct Outcome {
    printed: Vec<u8>,
    said: Option<&'static str>,
}

static PROGRAMS: [Program; 6] = [
    Program {
        name: "runlog",
        files: &[PLAN, ENDS],
        outcome: |texts| printed(run_log(&texts[0], &texts[1])),
        ..ON_A_FOLDER
    },
    Program {
        name: "convert",
        files: &[PLAN],
        outcome: |texts| printed(convert_text(&texts[0])),
        ..ON_A_FOLDER
    },
    Program {
        name: "timetable",
        files: &[PLAN, LENGTHS],
        outcome: |texts| printed(timetable_text(&texts[0], &texts[1])),
        ..ON_A_FOLDER
    },
    Program {
        name: "judgelog",
        files: &[PLAN, LOG],
        outcome: |texts| printed(judged_text(&texts[0], &texts[1])),
        ..ON_A_FOLDER
    },
    Program {
        name: "desk",
        files: &[PLAN, ENDS],
        input: b"early\n",
        outcome: at_desk,
        ..ON_A_FOLDER
    },
    // Its list names the folder that it runs in.
    Program {
        name: "year",
        files: &[PLAN, LOG],
        input: b".\n",
        word: INPUT,
        place: "./",
        needs_all_files: true,
        outcome: |texts| printed(year_text([(&texts[0][..], &texts[1][..])])),
    },
];

const ON_A_FOLDER: Program = Program {
    name: "",
    files: &[],
    input: b"",
    word: ".",
    place: "",
    needs_all_files: false,
    outcome: |_| printed(Vec::new()),
};

/// The file that is a program's standard input.
const INPUT: &str = "input.txt";

fn printed(printed: Vec<u8>) -> Outcome {
    Outcome {
        printed,
        said: None,
    }
}

/// A desk that opens is asked `early`; a torn last line of `ends.txt` is told of.
fn at_desk(texts: &[Vec<u8>]) -> Outcome {
    match Desk::start(&texts[0], &texts[1]) {
        Start::PlanRefused(line) => printed(line),
        Start::EndsRefused(log) => Outcome {
            printed: log,
            said: Some(ENDS),
        },
        Start::Open(log, mut desk) => Outcome {
            said: (desk.kept < texts[1].len()).then_some("note"),
            printed: [log, desk.take(b"early", true).answer].concat(),
        },
    }
}

/// A text for that file, of plan A, with which nothing is refused.
fn good_text(file: &str) -> Vec<u8> {
    match file {
        PLAN => PLAN_A.to_vec(),
        ENDS => ENDS_A.to_vec(),
        LENGTHS => b"length\t1\t4\nlength\t2\t3\n".to_vec(),
        LOG => run_log(PLAN_A, ENDS_A),
        _ => panic!("no program reads {file}"),
    }
}

impl Program {
    fn good_texts(&self) -> Texts {
        self.files.iter().map(|file| good_text(file)).collect()
    }

    /// The good texts, but for this one.
    fn texts_with(&self, file: &str, text: &[u8]) -> Texts {
        let of = |name: &&str| {
            if *name == file {
                text.to_vec()
            } else {
                good_text(name)
            }
        };
        self.files.iter().map(of).collect()
    }

    fn folder(&self, name: &str) -> PathBuf {
        let folder = new_folder(&format!("programs-{}-{name}", self.name));
        put_files(&folder, &[(INPUT, self.input)]);
        folder
    }

    /// Each text in its file, whatever was there before.
    fn put(&self, folder: &Path, texts: &[Vec<u8>]) {
        for (file, text) in self.files.iter().zip(texts) {
            let path = folder.join(file);
            let _ = fs::remove_file(&path).or_else(|_| fs::remove_dir(&path));
            fs::write(path, text).unwrap();
        }
    }

    fn good_folder(&self, name: &str) -> PathBuf {
        let folder = self.folder(name);
        self.put(&folder, &self.good_texts());
        folder
    }

    fn input_in(&self, folder: &Path) -> File {
        File::open(folder.join(INPUT)).unwrap()
    }

    fn program_in(&self, folder: &Path) -> Command {
        let mut program = program_in(self.name, folder);
        program.stdin(self.input_in(folder));
        program
    }

    /// The command that users call.
    fn command_in(&self, folder: &Path) -> Command {
        let mut command = Command::new(at_root(self.name));
        let input = self.input_in(folder);
        command.arg(self.word).current_dir(folder).stdin(input);
        command
    }

    /// A shell in the folder that runs the line, in which `"$@"` is the command and its word.
    fn shell_in(&self, folder: &Path, line: &str) -> Command {
        let mut shell = Command::new("bash");
        shell.args(["-c", line, "bash"]);
        shell.arg(at_root(self.name)).arg(self.word);
        shell.current_dir(folder).stdin(self.input_in(folder));
        shell
    }

    /// The program, in a folder with these texts, prints and says what it should, and changes no whole line.
    fn expect_outcome(&self, folder: &Path, texts: &[Vec<u8>]) {
        self.put(folder, texts);
        let outcome = (self.outcome)(texts);
        expect_output(self.program_in(folder), &outcome);
        for (file, text) in self.files.iter().zip(texts) {
            let left = fs::read(folder.join(file)).unwrap();
            let is_kept = left == *text || outcome.said == Some("note") && text.starts_with(&left);
            assert!(is_kept, "{}: {file} was changed", self.name);
        }
    }

    /// Program and command print nothing, and name the file.
    fn expect_unread(&self, folder: &Path, file: &str) {
        let output = self.program_in(folder).output().unwrap();
        assert_eq!(text(&output.stdout), "", "{}", self.name);
        expect_said(&output.stderr, &format!("{}{file}", self.place));
        let output = self.command_in(folder).output().unwrap();
        self.expect_failed(&output, &format!("{}{file}: ", self.place));
    }

    /// The command printed nothing, said one sentence that goes on so, and has status 2.
    fn expect_failed(&self, output: &Output, why: &str) {
        assert_eq!(text(&output.stdout), "", "{}", self.name);
        expect_said(&output.stderr, self.name);
        let said = text(&output.stderr);
        assert!(said.starts_with(&format!("{}: {why}", self.name)), "{said}");
        assert_eq!(output.status.code(), Some(2), "{}", self.name);
    }
}

fn expect_output(mut program: Command, outcome: &Outcome) {
    let output = program.output().unwrap();
    assert!(
        output.stdout == outcome.printed,
        "{program:?}: printed {} instead of {}",
        shown(&output.stdout),
        shown(&outcome.printed)
    );
    match outcome.said {
        Some(name) => expect_said(&output.stderr, name),
        None => assert_eq!(text(&output.stderr), "", "{program:?}"),
    }
    assert!(output.status.success(), "{program:?}");
}

/// A number of so many digits between the two texts that the whole has the greatest length.
fn with_long_number(before: &str, after: &str) -> Vec<u8> {
    let digits = "7".repeat(LONGEST_TEXT - before.len() - after.len());
    format!("{before}{digits}{after}").into_bytes()
}

/// A text of the greatest length whose last byte, an LF, is a 7 instead.
fn without_lf(mut text: Vec<u8>) -> Vec<u8> {
    assert_eq!(text.pop(), Some(b'\n'));
    text.push(b'7');
    text
}

/// Our own log of plan A and further lines behind it, up to the greatest length.
fn longest_log() -> Vec<u8> {
    let mut log = run_log(PLAN_A, ENDS_A);
    while log.len() + 20 <= LONGEST_TEXT {
        log.extend(b"early\t0\t0\n");
    }
    let figure = "1".repeat(LONGEST_TEXT - log.len() - b"early\t10000\t\n".len());
    log.extend(format!("early\t10000\t{figure}\n").bytes());
    log
}

/// Texts of the greatest length for that file, and what is printed of each beside good ones: by `convert`,
/// `runlog`, `timetable` and `judgelog`, typed from the rules. Of two that differ in their last byte the
/// answer differs too.
fn longest_texts(file: &str) -> Vec<(Vec<u8>, String)> {
    match file {
        PLAN => {
            let before = "plan\t1\t1\t1\ntask\t1\t1\t0\t";
            let number = with_long_number(before, "\t-\t-\n");
            let mut lfs = PLAN_A.to_vec();
            lfs.resize(LONGEST_TEXT, b'\n');
            vec![
                (vec![b'x'; LONGEST_TEXT], "refused\t2\t1\t0\n".into()),
                (lfs, "refused\t5\t7\t0\n".into()),
                (number.clone(), "refused\t4\t2\t12\n".into()),
                (without_lf(number), "refused\t3\t2\t32756\n".into()),
            ]
        }
        ENDS => {
            let reports = b"end\t0\t0\n".repeat(4_096);
            let refused = "refused\t10\t0\t0\n";
            let whole = OPENING_A.to_owned() + &refused.repeat(4_096);
            let torn = OPENING_A.to_owned() + &refused.repeat(4_095) + "refused\t3\t4096\t7\n";
            vec![(reports.clone(), whole), (without_lf(reports), torn)]
        }
        LENGTHS => {
            let number = with_long_number("length\t1\t", "\n");
            let word = with_long_number("rule\tclash\nlength\t1\t4\n", "");
            vec![
                (number.clone(), "refused\t4\t1\t10\n".into()),
                (without_lf(number), "refused\t3\t1\t32769\n".into()),
                (word, "refused\t3\t3\t1\n".into()),
            ]
        }
        LOG => {
            let log = longest_log();
            let lines = log.iter().filter(|&&byte| byte == b'\n').count();
            let figures = "1\t2\n2\t1\n3\t3\n4\t3\n5\t6\naccepted\n".into();
            let refused = format!("refused\t23\t{lines}\t0\n");
            vec![(log.clone(), figures), (without_lf(log), refused)]
        }
        _ => panic!("no program reads {file}"),
    }
}

#[test]
fn the_second_dispatcher_prints_what_is_typed_of_texts_of_the_greatest_length() {
    for (file, name) in [
        (PLAN, "convert"),
        (ENDS, "runlog"),
        (LENGTHS, "timetable"),
        (LOG, "judgelog"),
    ] {
        let program = PROGRAMS
            .iter()
            .find(|program| program.name == name)
            .unwrap();
        for (text, typed) in longest_texts(file) {
            assert_eq!(text.len(), 32_768);
            let outcome = (program.outcome)(&program.texts_with(file, &text));
            assert!(outcome.printed == typed.as_bytes(), "{name}: {typed}");
        }
    }
}

#[test]
fn texts_of_the_greatest_length_are_read_whole() {
    for program in &PROGRAMS {
        let folder = program.folder("longest");
        for file in program.files {
            for (text, _) in longest_texts(file) {
                program.expect_outcome(&folder, &program.texts_with(file, &text));
            }
        }
    }
}

/// Whatever stands in its last bytes.
#[test]
fn longer_texts_are_too_long() {
    for program in &PROGRAMS {
        let folder = program.folder("too-long");
        for file in program.files {
            let (longest, _) = longest_texts(file).swap_remove(0);
            for more in [b"\n".as_slice(), b"x", b"end\t1\t4\n"] {
                let texts = program.texts_with(file, &[&longest, more].concat());
                let refused = (program.outcome)(&texts).printed;
                let wanted = if program.name == "year" {
                    "logs\t0\t1\n"
                } else {
                    "refused\t1\t0\t0\n"
                };
                assert!(text(&refused).starts_with(wanted));
                program.expect_outcome(&folder, &texts);
            }
            // As large a file as nobody would read into memory.
            program.put(&folder, &program.good_texts());
            let large = File::create(folder.join(file)).unwrap();
            large.set_len(50_000_000).unwrap();
            let outcome = (program.outcome)(&program.texts_with(file, &[0; LONGEST_TEXT + 1]));
            expect_output(program.program_in(&folder), &outcome);
            assert_eq!(large.metadata().unwrap().len(), 50_000_000);
        }
    }
}

/// The other file may then be as long as it likes.
#[test]
fn a_plan_is_judged_before_another_text_that_is_too_long() {
    let mut lfs = PLAN_A.to_vec();
    lfs.resize(LONGEST_TEXT, b'\n');
    let longer = [&lfs[..], b"\n"].concat();
    for program in PROGRAMS.iter().filter(|program| program.files.len() > 1) {
        let folder = program.folder("both-faulty");
        for plan in [b"plan\n", &lfs[..], &longer] {
            let texts = vec![plan.to_vec(), vec![b'7'; LONGEST_TEXT + 1]];
            program.expect_outcome(&folder, &texts);
        }
    }
}

/// A pipe hands out what is written to it piece by piece.
#[test]
fn a_file_that_comes_in_pieces_is_read_whole() {
    for program in &PROGRAMS {
        for file in program.files {
            let folder = program.good_folder(&format!("pieces-{file}"));
            let path = folder.join(file);
            fs::remove_file(&path).unwrap();
            let made = Command::new("mkfifo").arg(&path).status().unwrap();
            assert!(made.success());
            let text = good_text(file);
            let writer = thread::spawn(move || {
                let mut pipe = File::options().write(true).open(path).unwrap();
                for piece in text.chunks(7) {
                    pipe.write_all(piece).unwrap();
                    thread::sleep(Duration::from_millis(1));
                }
            });
            let outcome = (program.outcome)(&program.good_texts());
            expect_output(program.program_in(&folder), &outcome);
            writer.join().unwrap();
        }
    }
}

#[test]
fn a_missing_file_counts_as_empty_or_is_named() {
    for program in &PROGRAMS {
        let folder = program.folder("missing");
        let mut missing: Vec<Vec<&str>> = program.files.iter().map(|file| vec![*file]).collect();
        missing.push(program.files.to_vec());
        for files in missing {
            program.put(&folder, &program.good_texts());
            let mut texts = program.good_texts();
            for (file, text) in program.files.iter().zip(&mut texts) {
                if files.contains(file) {
                    text.clear();
                    fs::remove_file(folder.join(file)).unwrap();
                }
            }
            if program.needs_all_files {
                program.expect_unread(&folder, files[0]);
            } else {
                expect_output(program.program_in(&folder), &(program.outcome)(&texts));
            }
            let is_there = |file: &&str| folder.join(file).exists();
            assert!(!files.iter().any(is_there), "{} made a file", program.name);
        }
    }
}

#[test]
fn a_file_that_cannot_be_read_is_named_and_nothing_printed() {
    for program in &PROGRAMS {
        let folder = program.folder("unreadable");
        for file in program.files {
            program.put(&folder, &program.good_texts());
            make_unreadable(&folder, file);
            program.expect_unread(&folder, file);

            // A link to itself is there too, and opens for nobody.
            fs::remove_dir(folder.join(file)).unwrap();
            symlink(file, folder.join(file)).unwrap();
            program.expect_unread(&folder, file);
        }
    }
}

/// All files are read before anything is printed, whatever the plan says.
#[test]
fn a_file_that_cannot_be_read_hides_the_refusal_of_a_plan() {
    for program in PROGRAMS.iter().filter(|program| program.files.len() > 1) {
        let (folder, other) = (program.folder("unreadable-other"), program.files[1]);
        for plan in [b"".as_slice(), b"plan\n"] {
            program.expect_outcome(&folder, &program.texts_with(PLAN, plan));
            make_unreadable(&folder, other);
            program.expect_unread(&folder, other);
            // Of two such files the plan is named.
            make_unreadable(&folder, PLAN);
            program.expect_unread(&folder, PLAN);
        }
    }
}

#[test]
fn output_that_cannot_be_written_is_said() {
    let full = || File::options().write(true).open("/dev/full").unwrap();
    for program in &PROGRAMS {
        let folder = program.good_folder("full-device");
        let output = program.program_in(&folder).stdout(full()).output();
        expect_said(&output.unwrap().stderr, "standard output");
        let output = program.command_in(&folder).stdout(full()).output();
        program.expect_failed(&output.unwrap(), "standard output: ");
    }
}

/// Under a limit on a file's size the first write takes a part, and the next fails.
#[test]
fn a_write_that_takes_a_part_goes_on_with_the_rest() {
    for program in &PROGRAMS {
        // Where a log can be longer than any buffer of the system, it is.
        let texts = match program.files {
            [_, ENDS] => program.texts_with(ENDS, &b"end\t0\t0\n".repeat(4_096)),
            _ => program.good_texts(),
        };
        let folder = program.folder("limited");
        program.put(&folder, &texts);
        let wanted = (program.outcome)(&texts).printed;
        let room = wanted.len() / 8;
        let out = folder.join("out");
        let output = on_full_disk(&program.program_in(&folder), room)
            .stdin(program.input_in(&folder))
            .stdout(File::create(&out).unwrap())
            .output();
        expect_said(&output.unwrap().stderr, "standard output");
        assert!(
            fs::read(&out).unwrap() == wanted[..room],
            "{}",
            program.name
        );
    }
}

#[test]
fn closed_standard_output_is_said() {
    for program in &PROGRAMS {
        let folder = program.good_folder("closed-output");
        for line in ["\"$@\" >&-", "\"$1\" --help >&-"] {
            let output = program.shell_in(&folder, line).output();
            program.expect_failed(&output.unwrap(), "standard output is closed");
        }
    }
}

/// The reader has gone before the first byte is written; a caller may ignore the signal that tells of it.
#[test]
fn a_reader_that_has_gone_is_no_failure() {
    for program in &PROGRAMS {
        let folder = program.good_folder("no-reader");
        for line in ["exec \"$@\"", "trap '' PIPE; exec \"$@\""] {
            let (reader, writer) = std::io::pipe().unwrap();
            drop(reader);
            let output = program.shell_in(&folder, line).stdout(writer).output();
            let output = output.unwrap();
            assert_eq!(text(&output.stderr), "", "{}", program.name);
            assert_eq!(output.status.code(), Some(0), "{}", program.name);
        }
    }
}

#[test]
fn the_commands_print_what_the_programs_do() {
    for program in &PROGRAMS {
        let folder = program.good_folder("command");
        let outcome = (program.outcome)(&program.good_texts());
        assert!(!text(&outcome.printed).contains("refused"));
        expect_output(program.command_in(&folder), &outcome);
        // A refusal is an answer like any other.
        let texts = program.texts_with(PLAN, b"plan\n");
        program.put(&folder, &texts);
        expect_output(program.command_in(&folder), &(program.outcome)(&texts));
    }
}

#[test]
fn without_a_word_most_commands_take_plan_a() {
    let example = at_root("examples/plan-a");
    let takes_example = |program: &&Program| !["desk", "year"].contains(&program.name);
    for program in PROGRAMS.iter().filter(takes_example) {
        let of = |file: &&str| fs::read(example.join(file)).unwrap();
        let texts: Texts = program.files.iter().map(of).collect();
        let command = Command::new(at_root(program.name));
        expect_output(command, &(program.outcome)(&texts));
    }
}

/// All but `year`, which takes a list.
fn programs_on_a_folder() -> impl Iterator<Item = &'static Program> {
    PROGRAMS.iter().filter(|program| program.word == ".")
}

#[test]
fn a_word_that_is_no_folder_is_said() {
    for program in programs_on_a_folder() {
        let folder = program.good_folder("no-folder");
        for word in ["", "nowhere", PLAN] {
            let mut command = Command::new(at_root(program.name));
            let output = command.arg(word).current_dir(&folder).output().unwrap();
            program.expect_failed(&output, &format!("'{word}' is no folder"));
        }
    }
}

#[test]
fn a_folder_that_may_not_be_entered_is_said() {
    for program in programs_on_a_folder() {
        let folder = program.good_folder("locked");
        fs::set_permissions(&folder, fs::Permissions::from_mode(0o600)).unwrap();
        let words = [folder.to_str().unwrap()];
        let output = without_rights(&at_root(program.name), &words).output();
        fs::set_permissions(&folder, fs::Permissions::from_mode(0o700)).unwrap();
        let output = output.unwrap();
        program.expect_failed(&output, "");
        assert!(text(&output.stderr).ends_with(" may not be entered\n"));
    }
}
