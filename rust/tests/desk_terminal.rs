//! The desk at a terminal: a prompt, blanks for tabs, `help`, and keys that end a line or the desk.

use crate::folders::plan_folder;
use dispatcher::sample::plan_a::{OPENING_A, PLAN_A};
use dispatcher::sample::program::{at_root, on_terminal};
use std::fs;
use std::path::Path;
use std::process::{Command, Output};

/// What is shown where at each prompt the next of these keys are pressed.
fn at_terminal(folder: &Path, keys: &[&str]) -> Output {
    let steps: Vec<&str> = keys.iter().flat_map(|keys| ["desk> $", keys]).collect();
    let mut command = on_terminal(&steps, &at_root("desk"));
    command.arg(folder).env("TERM", "dumb").output().unwrap()
}

fn shown(output: &Output) -> String {
    assert_eq!(String::from_utf8_lossy(&output.stderr), "");
    let shown = String::from_utf8(output.stdout.clone()).unwrap();
    shown.replace("\r\n", "\n")
}

/// Each answer is shown before the next prompt, and the next keys are pressed only there.
#[test]
fn a_dialogue_at_a_terminal() {
    let folder = plan_folder("desk-terminal", PLAN_A);
    let output = at_terminal(
        &folder,
        &[
            "end 2 3\r",
            "  drive   1 \r",
            "\r",
            "nox\x7fw\r",
            "x\r",
            "end 1 4\r",
            "\x04",
        ],
    );
    let dialogue = format!(
        "{OPENING_A}desk> end 2 3
end\t2\t2\t3\t1\nstart\t3\t2\t3\t1\nearly\t3\t0
desk>   drive   1 \ndrive\t1\t1\t5
desk> \ndesk> nox\x08 \x08w
runs\t1\t1\t0\t6\nruns\t3\t2\t3\t8\nnow\t3\t2
desk> x\nrefused\t3\t4\t1
desk> end 1 4\nend\t1\t1\t4\t2\nearly\t4\t1
desk> \n"
    );
    assert_eq!(shown(&output), dialogue);
    assert_eq!(output.status.code(), Some(0));
    let kept = fs::read(folder.join("ends.txt")).unwrap();
    assert_eq!(kept, b"end\t2\t3\nend\t1\t4\n");

    // Started again it shows the log so far, and then asks.
    let output = at_terminal(&folder, &["early\r", "\x04"]);
    let log = "end\t2\t2\t3\t1\nstart\t3\t2\t3\t1\nearly\t3\t0\nend\t1\t1\t4\t2\nearly\t4\t1\n";
    let dialogue = format!("{OPENING_A}{log}desk> early\nearly\t4\t1\ndesk> \n");
    assert_eq!(shown(&output), dialogue);
}

/// Every line in is listed, and the list is no line of the desk's: the next slip is its first line.
#[test]
fn help_lists_the_lines() {
    let folder = plan_folder("desk-help", PLAN_A);
    let output = at_terminal(&folder, &["help\r", "help me\r", "\x04"]);
    let shown = shown(&output);
    let (list, slip) = shown.split_once("desk> help me\n").unwrap();
    for word in [
        "end", "drop", "rule", "early", "exact", "now", "drive", "why", "help",
    ] {
        assert!(list.contains(&format!("\n{word} ")), "{list}");
    }
    assert_eq!(slip, "refused\t3\t1\t1\ndesk> \n");
    assert!(!folder.join("ends.txt").exists());
}

/// Ctrl-C gives up the line, not the desk; Ctrl-D ends it.
#[test]
fn ctrl_c_gives_up_a_line() {
    let folder = plan_folder("desk-ctrl-c", PLAN_A);
    let output = at_terminal(&folder, &["\x03", "end 2 3\r", "\x03", "early\r", "\x04"]);
    let shown = shown(&output);
    assert!(
        shown.ends_with("desk> early\nearly\t3\t0\ndesk> \n"),
        "{shown:?}"
    );
    assert_eq!(output.status.code(), Some(0));
}

/// Whatever the moment: the keys are pressed as soon as the prompt shows, when the desk does not wait for keys yet.
#[test]
fn ctrl_c_is_seen_the_moment_the_prompt_shows() {
    let folder = plan_folder("desk-ctrl-c-often", PLAN_A);
    let mut keys = vec!["\x03"; 100];
    keys.extend(["early\r", "\x04"]);
    let output = at_terminal(&folder, &keys);
    let given_up = "desk> \n".repeat(100);
    let dialogue = format!("{OPENING_A}{given_up}desk> early\nearly\t0\t0\ndesk> \n");
    assert_eq!(shown(&output), dialogue);
    assert_eq!(output.status.code(), Some(0));
}

/// The one moment that keys cannot be pressed at: the prompt is written, and nobody waits for keys yet.
#[test]
fn ctrl_c_between_prompt_and_keys_is_seen() {
    let folder = plan_folder("desk-ctrl-c-between", PLAN_A);
    let mut command = Command::new("python3");
    let command = command
        .arg(at_root("rust/tests/interrupted.py"))
        .arg("20")
        .arg(at_root("desk"))
        .arg(folder);
    let output = command.env("TERM", "dumb").output().unwrap();
    let given_up = "desk> \n".repeat(20);
    let dialogue = format!("{OPENING_A}{given_up}desk> early\nearly\t0\t0\ndesk> \n");
    assert_eq!(shown(&output), dialogue);
    assert_eq!(output.status.code(), Some(0));
}

/// The log of a morning by the clash rule has one answer less than `ends.txt` has lines.
#[test]
fn the_prompt_follows_the_whole_log() {
    for (k, (ends, log)) in [
        (
            "rule\tclash\n",
            "run\t2\t2\t5\tclash\nstart\t1\t1\t0\t0\nstart\t2\t2\t0\t0\nearly\t0\t0\n".to_owned(),
        ),
        (
            "end\t9\t9\ndrop\t1\n",
            format!("{OPENING_A}refused\t10\t9\t9\nrefused\t19\t1\t0\n"),
        ),
    ]
    .into_iter()
    .enumerate()
    {
        let folder = plan_folder(&format!("desk-prompt-{k}"), PLAN_A);
        fs::write(folder.join("ends.txt"), ends).unwrap();
        let output = at_terminal(&folder, &["early\r", "\x04"]);
        assert_eq!(
            shown(&output),
            format!("{log}desk> early\nearly\t0\t0\ndesk> \n")
        );
    }
}

/// A desk that does not open asks nothing.
#[test]
fn a_desk_that_fails_shows_why_and_no_prompt() {
    let folder = plan_folder("desk-terminal-refused", b"plan\t1\t1\t0\n");
    let output = at_terminal(&folder, &[]);
    assert_eq!(shown(&output), "refused\t2\t1\t0\n");
    assert_eq!(output.status.code(), Some(0));

    let folder = plan_folder("desk-terminal-stops", PLAN_A);
    fs::write(folder.join("ends.txt"), "foo\n").unwrap();
    let output = at_terminal(&folder, &[]);
    let said = "desk: ends.txt: runlog stops in it; nothing was changed\n";
    let stopped = format!("{OPENING_A}refused\t3\t1\t1\n{said}");
    assert_eq!(shown(&output), stopped);
    assert_eq!(output.status.code(), Some(2));
}

/// What the program says is shown behind the log or the line that it belongs to, and never beside a prompt.
#[test]
fn what_is_said_stands_on_lines_of_its_own() {
    let folder = plan_folder("desk-terminal-torn", PLAN_A);
    fs::write(folder.join("ends.txt"), "end\t9\t9\nend\t2").unwrap();
    let output = at_terminal(&folder, &["early\r", "\x04"]);
    let note =
        "desk: note: what followed the last LF of ends.txt was never answered, and is cut off\n";
    let log = format!("{OPENING_A}refused\t10\t9\t9\n{note}");
    let dialogue = format!("{log}desk> early\nearly\t0\t0\ndesk> \n");
    assert_eq!(shown(&output), dialogue);
    assert_eq!(output.status.code(), Some(0));
}

/// A line that cannot be kept is not answered; why is said, and the desk ends.
#[test]
fn a_line_that_cannot_be_kept_ends_the_desk_at_a_terminal() {
    let folder = plan_folder("desk-terminal-unkept", PLAN_A);
    let link = folder.join("ends.txt");
    std::os::unix::fs::symlink("nowhere/ends.txt", &link).unwrap();
    let output = at_terminal(&folder, &["early\r", "end 2 3\r"]);
    let said = "desk: ends.txt: File exists\n";
    let dialogue = format!("{OPENING_A}desk> early\nearly\t0\t0\ndesk> end 2 3\n{said}");
    assert_eq!(shown(&output), dialogue);
    assert_eq!(output.status.code(), Some(2));
}

/// The dialogues that a document shows, one text a desk that is opened: fenced, with what is typed behind the prompt.
fn dialogues_in(document: &str) -> Vec<String> {
    let document = fs::read_to_string(at_root(document)).unwrap();
    let blocks = document.split("```\n").skip(1).step_by(2);
    let shown: String = blocks.filter(|block| block.contains("desk> ")).collect();
    let opened = shown.split("$ ./desk morning\n").skip(1);
    opened.map(str::to_owned).collect()
}

/// What the documents show is what is shown where the same is typed, each on a folder with plan A.
#[test]
fn the_dialogues_of_the_documents_are_true() {
    for (k, (document, many)) in [("README.md", 1), ("docs/USING.md", 2)]
        .into_iter()
        .enumerate()
    {
        let folder = plan_folder(&format!("desk-document-{k}"), PLAN_A);
        let dialogues = dialogues_in(document);
        assert_eq!(dialogues.len(), many, "{document}");
        for dialogue in dialogues {
            let typed = dialogue
                .lines()
                .filter_map(|line| line.strip_prefix("desk> "));
            let mut keys: Vec<String> = typed.map(|line| format!("{line}\r")).collect();
            keys.push("\x04".into());
            let keys: Vec<&str> = keys.iter().map(String::as_str).collect();
            let output = at_terminal(&folder, &keys);
            assert_eq!(shown(&output), format!("{dialogue}desk> \n"), "{document}");
        }
    }
}
