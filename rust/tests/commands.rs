//! How the commands are called: their use, links to them, how they fail, and what one that runs a program tells while it proves.

use crate::folders::{copy_command, copy_files, folder_of, new_folder, put_script};
use dispatcher::run_log;
use dispatcher::sample::lent::text;
use dispatcher::sample::plan_a::PLAN_A;
use dispatcher::sample::program::{
    at_root, comes_true, expect_said, is_gone, on_terminal, without_rights,
};
use std::os::unix::fs::{symlink, PermissionsExt};
use std::path::{Path, PathBuf};
use std::process::{Command, Output};
use std::{env, fs};

const COMMANDS: [&str; 13] = [
    "runlog",
    "desk",
    "convert",
    "timetable",
    "judgelog",
    "year",
    "explain",
    "test",
    "tools/bench",
    "tools/library",
    "tools/program",
    "tools/picture",
    "tools/year",
];

fn call(command: &Path, words: &[&str]) -> Output {
    Command::new(command).args(words).output().unwrap()
}

fn expect_printed(output: &Output, printed: &[u8]) {
    assert_eq!(text(&output.stderr), "");
    assert!(output.stdout == printed, "{}", text(&output.stdout));
    assert_eq!(output.status.code(), Some(0));
}

/// A link to a link to the command, by a path that is relative to the link's folder.
fn link_to(folder: &Path, command: &str) -> PathBuf {
    let (link, other) = (folder.join("link"), folder.join("other"));
    symlink(at_root(command).canonicalize().unwrap(), &other).unwrap();
    symlink("other", &link).unwrap();
    link
}

#[test]
fn every_command_tells_its_use() {
    for command in COMMANDS {
        let link = link_to(&new_folder(&format!("use-{command}")), command);
        for path in [at_root(command), link] {
            for option in ["--help", "-h"] {
                let output = call(&path, &[option]);
                assert_eq!(output.status.code(), Some(0), "{command}");
                assert_eq!(text(&output.stderr), "", "{command}");
                let told = text(&output.stdout).trim_start_matches("./");
                assert!(told.starts_with(command), "{told}");
            }
        }
    }
}

#[test]
fn no_command_takes_an_option_or_word_that_it_does_not_know() {
    for command in COMMANDS {
        for words in [&["--helpp"] as &[&str], &["-x"], &["a", "b", "c"]] {
            let output = call(&at_root(command), words);
            assert_eq!(output.status.code(), Some(2), "{command} {words:?}");
            assert_eq!(text(&output.stdout), "", "{command} {words:?}");
            let said = text(&output.stderr);
            assert!(said.contains("--help"), "{command} {words:?}: {said}");
            assert!(words.len() > 1 || said.contains(words[0]), "{said}");
        }
    }
}

#[test]
fn links_to_the_commands_do_as_the_commands_do() {
    let example = at_root("examples/plan-a").canonicalize().unwrap();
    let log = fs::read(example.join("log.txt")).unwrap();
    let link = link_to(&new_folder("link-runlog"), "runlog");
    expect_printed(&call(&link, &[]), &log);
    expect_printed(&call(&link, &[example.to_str().unwrap()]), &log);

    let link = link_to(&new_folder("link-desk"), "desk");
    expect_printed(&call(&link, &[example.to_str().unwrap()]), &log);

    let mut program = Command::new(link_to(&new_folder("link-program"), "tools/program"));
    let ran = program.arg("runlog").current_dir(&example).output();
    expect_printed(&ran.unwrap(), &log);

    let mut picture = Command::new(link_to(&new_folder("link-picture"), "tools/picture"));
    let drawn = picture.args([example.join("plan.txt"), example.join("log.txt")]);
    let committed = fs::read(example.join("picture.svg")).unwrap();
    expect_printed(&drawn.output().unwrap(), &committed);

    let told = call(&at_root("explain"), &[]).stdout;
    assert!(text(&told).starts_with("No refusals: "));
    expect_printed(
        &call(&link_to(&new_folder("link-explain"), "explain"), &[]),
        &told,
    );

    let counted = call(&at_root("tools/believed"), &[]).stdout;
    assert!(text(&counted).starts_with("| What you trust |"));
    let link = link_to(&new_folder("link-believed"), "tools/believed");
    expect_printed(&call(&link, &[]), &counted);
}

/// Nothing is printed, one sentence says why, and the status is 2.
fn expect_failed(output: &Output, why: &str) {
    assert_eq!(text(&output.stdout), "");
    expect_said(&output.stderr, "runlog");
    assert!(
        text(&output.stderr).contains(why),
        "{}",
        text(&output.stderr)
    );
    assert_eq!(output.status.code(), Some(2));
}

/// A folder's name that `CDPATH` would find elsewhere is that of the working directory.
#[test]
fn a_folder_is_found_from_where_the_command_is_called() {
    let elsewhere = new_folder("cdpath");
    fs::create_dir_all(elsewhere.join("examples/plan-a")).unwrap();
    for command in [
        "runlog",
        "convert",
        "timetable",
        "judgelog",
        "desk",
        "explain",
    ] {
        let called = |path: &Path| {
            let mut command = Command::new(at_root(command).canonicalize().unwrap());
            let command = command.arg("examples/plan-a").current_dir(at_root(""));
            command.env("CDPATH", path).output().unwrap()
        };
        let expected = called(Path::new("")).stdout;
        assert!(!text(&expected).contains("refused"));
        expect_printed(&called(&elsewhere), &expected);
    }
}

fn in_shell(line: &str, words: &[&str]) -> Output {
    let mut shell = Command::new("bash");
    let shell = shell.args(["-c", line, "bash"]).args(words);
    shell.current_dir(at_root("")).output().unwrap()
}

/// More than a pipe holds is left when the reader goes, so that a write meets it; also where a caller ignores the signal.
#[test]
fn a_reader_that_goes_away_is_no_failure() {
    let ends = b"drop\t0\n".repeat(4_681);
    let large = folder_of("large", &[("plan.txt", PLAN_A), ("ends.txt", &ends)]);
    assert!(run_log(PLAN_A, &ends).len() > 65_536);
    for before in ["", "trap '' PIPE; "] {
        let line = format!("{before}./runlog \"$1\" | head -n 1; exit ${{PIPESTATUS[0]}}");
        let output = in_shell(&line, &[large.to_str().unwrap()]);
        expect_printed(&output, b"run\t1\t2\t5\n");
    }
}

/// A project of two programs and three crates, one of which both do without, with the command in it and an `rt`
/// that proves nothing: it notes what it is asked for and in which crate's folder, and talks as much as the real one.
fn project(command: &str, name: &str, rt: &str) -> PathBuf {
    let root = new_folder(name);
    fs::create_dir_all(root.join("examples/plan-a")).unwrap();
    let crates =
        "# NAME: DEP DEP\nlow:\nhigh: low io\nbeside: low high\nconvert: low\nrunlog: high os\ntimetable: low\njudgelog: low\ndesk: low\n";
    fs::write(root.join("crates.txt"), crates).unwrap();
    for line in crates.lines().skip(1) {
        let (name, _) = line.split_once(':').unwrap();
        fs::create_dir_all(root.join("crates").join(name)).unwrap();
    }
    put_script(&root.join("tools/program"), "echo \"$* ran\"");
    for script in [command, "tools/run.bash", "tools/use.bash"] {
        copy_command(script, &root);
    }
    copy_files("tools/common", &root);
    copy_files("tools/desk", &root);
    let noted = "name=${PWD##*/}; cd ../..; echo \"$* $name\" >>asked";
    put_script(&root.join("own/rt"), &format!("{noted}\n{rt}"));
    root
}

/// Calls it with the project's own commands before all others.
fn call_in(root: &Path, mut command: Command) -> Output {
    let path = env::var("PATH").unwrap();
    let path = format!("{}:{path}", root.join("own").display());
    command.env("PATH", path).output().unwrap()
}

fn asked_in(root: &Path) -> String {
    fs::read_to_string(root.join("asked")).unwrap_or_default()
}

fn run_unbuilt(command: &str, name: &str, rt: &str) -> (Output, String) {
    let root = project(command, name, rt);
    let output = call_in(&root, Command::new(root.join(command)));
    (output, asked_in(&root))
}

const BUILDS: &str = "echo 'logic=proved functions=1'; echo loud >&2; mkdir -p crates/$name/out; touch crates/$name/out/$name; chmod +x crates/$name/out/$name";
const FIRST_WORDS: &str =
    "runlog: first the program is proved and built: minutes from nothing, seconds where all is proved already
runlog: Ctrl-C is safe: the next call goes on where this one stopped
";

#[test]
fn the_script_tells_which_crate_is_being_proved() {
    let (output, asked) = run_unbuilt("runlog", "proving", BUILDS);
    assert_eq!(text(&output.stdout), "runlog ran\n");
    let said = text(&output.stderr).strip_prefix(FIRST_WORDS).unwrap();
    let crates = "runlog: proving 1 of 3: low
runlog: proving 2 of 3: high
runlog: proving 3 of 3: runlog
runlog: proved and built, 3 of 3 crates anew, ";
    let seconds = said.strip_prefix(crates).unwrap();
    assert!(seconds.trim_end_matches(" s\n").parse::<u32>().is_ok());
    assert_eq!(output.status.code(), Some(0));
    assert_eq!(asked, "lib low\nlib high\nrun runlog\n");
}

#[test]
fn the_script_says_where_all_was_proved_already() {
    // Of a library that is proved already rt says nothing, and of a program that nothing has changed.
    let unchanged = BUILDS.replace("logic=proved", "rt: nothing has changed");
    let (output, _) = run_unbuilt("runlog", "proved-already", &unchanged);
    assert_eq!(text(&output.stdout), "runlog ran\n");
    let said = text(&output.stderr);
    assert!(said.starts_with(FIRST_WORDS), "{said}");
    assert!(
        said.ends_with("runlog: all 3 crates were proved already\n"),
        "{said}"
    );
}

#[test]
fn each_script_builds_and_runs_its_own_program() {
    let (output, asked) = run_unbuilt("convert", "own-program", BUILDS);
    assert_eq!(text(&output.stdout), "convert ran\n");
    let said = text(&output.stderr);
    assert!(
        said.contains("convert: proving 2 of 2: convert\n"),
        "{said}"
    );
    assert_eq!(asked, "lib low\nrun convert\n");
}

/// The desk writes into its folder, so it takes no example where none is named.
#[test]
fn the_desk_builds_its_program_and_runs_it_in_the_folder_named() {
    let root = project("desk", "own-desk", BUILDS);
    let mut command = Command::new(root.join("desk"));
    command.arg("examples/plan-a").current_dir(&root);
    let output = call_in(&root, command);
    assert_eq!(text(&output.stdout), "desk ran\n");
    let said = text(&output.stderr);
    assert!(said.contains("desk: proving 2 of 2: desk\n"), "{said}");
    assert_eq!(asked_in(&root), "lib low\nrun desk\n");

    let output = call(&root.join("desk"), &[]);
    let said = text(&output.stderr);
    assert_eq!(said, "desk: no folder is named; --help tells the use\n");
    let mut command = Command::new(root.join("desk"));
    let command = command.arg(&root).env("PATH", path_without_rt(&root));
    let said = command.output().unwrap().stderr;
    assert_eq!(text(&said), "desk: python3 is not here\n");
}

#[test]
fn the_script_stops_at_the_first_crate_that_is_not_proved() {
    let refusing = "[ \"$name\" = low ] || { echo \"rt: $name NOT PROVED\"; exit 1; }";
    let (output, asked) = run_unbuilt("runlog", "not-proved", refusing);
    assert_eq!(text(&output.stdout), "");
    let said = text(&output.stderr);
    let ending = "proving 2 of 3: high\nrunlog: it is not proved:\nrt: high NOT PROVED\n";
    assert!(said.ends_with(ending), "{said}");
    assert_eq!(output.status.code(), Some(2));
    assert_eq!(asked, "lib low\nlib high\n");
}

/// `rt run` runs what it has built, and ends with the program's own status.
#[test]
fn how_the_program_ends_that_is_only_built_says_nothing_of_its_proof() {
    let failing =
        format!("{BUILDS}; [ $1 = lib ] || {{ echo \"rt: running out/$name; so\"; exit 1; }}");
    let (output, asked) = run_unbuilt("runlog", "fails-in-its-folder", &failing);
    assert_eq!(text(&output.stdout), "runlog ran\n");
    assert_eq!(output.status.code(), Some(0));
    assert_eq!(asked, "lib low\nlib high\nrun runlog\n");
}

#[test]
fn an_rt_that_fails_is_not_called_a_failed_proof() {
    let (output, _) = run_unbuilt("runlog", "rt-fails", "echo 'rt: no room'; exit 2");
    let said = text(&output.stderr);
    let ending =
        "proving 1 of 3: low\nrunlog: rt lib in crates/low ended with status 2:\nrt: no room\n";
    assert!(said.ends_with(ending), "{said}");
    assert_eq!(output.status.code(), Some(2));
}

#[test]
fn a_clone_that_cannot_be_written_is_said_before_anything_is_proved() {
    let root = project("runlog", "read-only", BUILDS);
    let crate_folder = root.join("crates/high");
    fs::set_permissions(&crate_folder, fs::Permissions::from_mode(0o555)).unwrap();
    let output = call_in(&root, without_rights(&root.join("runlog"), &[]));
    fs::set_permissions(&crate_folder, fs::Permissions::from_mode(0o755)).unwrap();
    expect_failed(&output, "crates cannot be written");
    assert_eq!(asked_in(&root), "");

    // So too where a folder of what rt keeps is another's.
    let kept = root.join("crates/high/out/incremental");
    fs::create_dir_all(&kept).unwrap();
    fs::set_permissions(&kept, fs::Permissions::from_mode(0o555)).unwrap();
    let output = call_in(&root, without_rights(&root.join("runlog"), &[]));
    expect_failed(&output, "crates cannot be written");
}

/// The commands that the scripts use, in a folder of their own: so `rt` is not among them.
fn path_without_rt(root: &Path) -> PathBuf {
    let path = root.join("some");
    fs::create_dir_all(&path).unwrap();
    let tools = [
        "bash", "sh", "env", "dirname", "readlink", "find", "awk", "sed", "mkdir", "uname",
    ];
    for tool in tools {
        let found = in_shell("command -v \"$1\"", &[tool]);
        symlink(text(&found.stdout).trim_end(), path.join(tool)).unwrap();
    }
    path
}

fn call_without_rt(root: &Path) -> Output {
    let mut command = Command::new(root.join("runlog"));
    let command = command.env("PATH", path_without_rt(root));
    command.env_remove("RATTLE_HOME").output().unwrap()
}

#[test]
fn a_missing_toolchain_is_said() {
    let root = project("runlog", "without-rt", "");
    expect_failed(&call_without_rt(&root), "(rt) is not here to build it");
}

/// On Arm the built program needs it too: the emulator is the toolchain's.
#[test]
fn a_missing_toolchain_is_said_where_it_runs_the_program() {
    let root = project("runlog", "without-rt-on-arm", "");
    put_script(&root.join("crates/runlog/out/runlog"), "");
    let path = path_without_rt(&root);
    fs::remove_file(path.join("uname")).unwrap();
    put_script(&path.join("uname"), "echo aarch64");
    let mut command = Command::new(root.join("runlog"));
    let command = command.env("PATH", path).env_remove("RATTLE_HOME");
    expect_failed(
        &command.output().unwrap(),
        "on this processor the Rattle toolchain (rt) runs the program",
    );
}

#[test]
fn a_program_that_ends_without_a_word_is_a_failure() {
    let root = project("runlog", "killed", "");
    put_script(&root.join("crates/runlog/out/runlog"), "");
    put_script(&root.join("tools/program"), "kill -KILL $$");
    let output = call_in(&root, Command::new(root.join("runlog")));
    expect_failed(&output, "the program ended with status 137");
}

/// Runs the project's command on a terminal, with these steps.
fn runlog_on_terminal(root: &Path, steps: &[&str]) -> (String, Option<i32>) {
    let mut command = on_terminal(steps, &root.join("runlog"));
    command.env("TERM", "xterm");
    let output = call_in(root, command);
    assert_eq!(text(&output.stderr), "");
    (text(&output.stdout).to_owned(), output.status.code())
}

/// A crate is proved once its line was seen, and the second one once that was seen to count.
#[test]
fn on_a_terminal_the_line_tells_the_seconds_and_is_gone_in_the_end() {
    let slow = format!("until [ -e seen-$name ]; do sleep 0.1; done; {BUILDS}");
    let root = project("runlog", "terminal", &slow);
    let line = |words: &str| format!("\r\x1b\\[Krunlog: proving {words}");
    let seen = |name: &str| format!("touch:{}", root.join(format!("seen-{name}")).display());
    let steps = [
        (line("1 of 3: low, [0-9]+ s"), seen("low")),
        (line("2 of 3: high, [1-9][0-9]* s"), seen("high")),
        (line("3 of 3: runlog, [0-9]+ s"), seen("runlog")),
    ];
    let steps: Vec<&str> = steps
        .iter()
        .flat_map(|(pattern, keys)| [pattern.as_str(), keys])
        .collect();
    let (shown, status) = runlog_on_terminal(&root, &steps);
    assert_eq!(status, Some(0), "{shown:?}");
    let (before, after) = shown.rsplit_once("\r\x1b[K").unwrap();
    assert_eq!(before.matches("\r\n").count(), 2, "{shown:?}");
    assert!(
        after.starts_with("runlog: proved and built, 3 of 3 crates anew, "),
        "{shown:?}"
    );
    assert!(after.ends_with("runlog ran\r\n"), "{shown:?}");
}

/// An `rt` as the real one: it keeps what it has proved, and proves beside itself, where Ctrl-C is not heard.
const KEEPS: &str = "if [ -e proved-$name ]; then exit; fi
[ \"$name\" != high ] || [ -e again ] || { touch again; sh -c 'echo $$ >prover; sleep 600; touch late' & wait; }
echo 'logic=proved functions=1'; touch proved-$name; mkdir -p crates/$name/out; touch crates/$name/out/$name; chmod +x crates/$name/out/$name";

#[test]
fn ctrl_c_leaves_nothing_running_and_the_next_call_goes_on() {
    let root = project("runlog", "ctrl-c", KEEPS);
    let steps = ["proving 2 of 3: high, [1-9]", "\x03"];
    let (shown, status) = runlog_on_terminal(&root, &steps);
    assert_eq!(status, Some(130), "{shown:?}");
    assert!(
        shown.ends_with("runlog: broken off; the next call goes on where this one stopped\r\n"),
        "{shown:?}"
    );
    let prover = root.join("prover");
    assert!(comes_true(|| is_gone(&prover)), "the prover runs on");

    let output = call_in(&root, Command::new(root.join("runlog")));
    assert_eq!(text(&output.stdout), "runlog ran\n");
    let said = text(&output.stderr);
    assert!(
        said.contains("runlog: proved and built, 2 of 3 crates anew, "),
        "{said}"
    );
    assert!(!root.join("late").exists());
}
