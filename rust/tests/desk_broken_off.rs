//! Mornings at the desk that are broken off again and again, by SIGKILL and by a disk that is full: nothing that was
//! answered is lost, and of what was not answered at most the line in flight is kept.

use crate::folders::plan_folder;
use dispatcher::run_log;
use dispatcher::sample::desk_lines::{any_line, next_step, opened};
use dispatcher::sample::events::rule_line;
use dispatcher::sample::live::{desk_command, desk_program, Left, Live};
use dispatcher::sample::plans::full_plan_of_either;
use dispatcher::sample::program::{contents, expect_said, on_full_disk};
use dispatcher::sample::tally::say;
use dispatcher::sample::waiting::either_rule;
use dispatcher::sample::Rng;
use dispatcher::second::desk::Reply;
use dispatcher::second::text::plan_text;
use dispatcher::Desk;
use std::path::{Path, PathBuf};
use std::process::Command;
use std::thread;
use std::time::Duration;

const KILLS: u32 = 300;
const KILLS_OF_THE_COMMAND: u32 = 12;
const FULL_DISKS: u32 = 60;

/// How a desk is started in a folder.
type Way = fn(&Path) -> Command;

/// A line with its LF, and what it is answered.
type Line = (Vec<u8>, Reply);

struct Morning {
    title: &'static str,
    way: Way,
    many: u32,
    folder: PathBuf,
    plan: Vec<u8>,
    /// The lines kept of those that were answered.
    kept: Vec<u8>,
    /// The first line that was not answered, where it is one to be kept.
    in_flight: Vec<u8>,
}

impl Morning {
    fn new(rng: &mut Rng, title: &'static str, way: Way) -> Morning {
        let mut morning = Morning {
            title,
            way,
            many: 0,
            folder: PathBuf::new(),
            plan: Vec::new(),
            kept: Vec::new(),
            in_flight: Vec::new(),
        };
        morning.begin(rng);
        morning
    }

    /// Another plan, in a folder of its own.
    fn begin(&mut self, rng: &mut Rng) {
        self.many += 1;
        self.plan = plan_text(&full_plan_of_either(rng, 64));
        let name = format!("{}-{}", self.title, self.many);
        self.folder = plan_folder(&name, &self.plan);
        self.kept.clear();
        self.in_flight.clear();
    }

    /// Lines of the rest of the morning, and what each is to be answered; a new morning where it is over.
    fn lines(&mut self, rng: &mut Rng) -> Vec<Line> {
        let lines = rest_of_morning(rng, &self.plan, &self.kept);
        if !lines.is_empty() {
            return lines;
        }
        self.begin(rng);
        rest_of_morning(rng, &self.plan, &self.kept)
    }

    fn start(&self) -> Live {
        Live::start((self.way)(&self.folder))
    }

    /// What a desk that was broken off has printed is its log and then the answers, as far as it came.
    fn note(&mut self, printed: &[u8], lines: &[Line]) {
        let log = run_log(&self.plan, &self.kept);
        let Some(mut rest) = printed.strip_prefix(log.as_slice()) else {
            assert!(log.starts_with(printed), "{}", self.folder.display());
            return;
        };
        for (line, reply) in lines {
            let Some(next) = rest.strip_prefix(reply.answer.as_slice()) else {
                assert!(reply.answer.starts_with(rest), "{}", self.folder.display());
                if reply.is_kept {
                    self.in_flight = line.clone();
                }
                return;
            };
            rest = next;
            if reply.is_kept {
                self.kept.extend_from_slice(line);
            }
        }
        assert!(rest.is_empty());
    }

    /// Starts the desk again: its log is that of the lines answered, or of these and the one in flight.
    /// Answers whether that line was kept, and whether a torn one was cut off.
    fn compare(&mut self) -> (bool, bool) {
        let left = self.start().end();
        let with_it = [self.kept.as_slice(), &self.in_flight].concat();
        let is_kept = !self.in_flight.is_empty() && left.printed == run_log(&self.plan, &with_it);
        if is_kept {
            self.kept = with_it;
        }
        let folder = self.folder.display();
        assert!(left.printed == run_log(&self.plan, &self.kept), "{folder}");
        assert!(contents(&self.folder.join("ends.txt")) == self.kept);
        let is_cut = left
            .said
            .contains("note: what followed the last LF of ends.txt");
        assert!(is_cut || left.said.is_empty(), "{folder}: {}", left.said);
        assert!(left.status.success());
        self.in_flight.clear();
        (is_kept, is_cut)
    }
}

/// Some of the lines that are left of a morning whose kept lines are these, with questions and slips among them.
fn rest_of_morning(rng: &mut Rng, plan: &[u8], kept: &[u8]) -> Vec<Line> {
    let (_, mut desk) = opened(plan, kept);
    let mut taken = Vec::new();
    let mut take = |desk: &mut Desk, line: &[u8]| {
        if !line.is_empty() {
            let reply = desk.take(&line[..line.len() - 1], true);
            taken.push((line.to_vec(), reply));
        }
    };
    if kept.is_empty() {
        take(&mut desk, rule_line(either_rule(rng)));
    }
    for _ in 0..40 {
        let Some(step) = next_step(rng, &desk, 10) else {
            break;
        };
        if rng.chance(20) {
            let line = any_line(rng, &desk);
            take(&mut desk, &line);
        }
        take(&mut desk, &step);
    }
    taken
}

fn text_of(lines: &[Line]) -> Vec<u8> {
    lines.iter().flat_map(|(line, _)| line.clone()).collect()
}

/// Kills a desk that has its lines before it, again and again: mostly some milliseconds after it began to print, and of
/// five times once at any moment of its first milliseconds. Answers how often a line was in flight.
fn kill_often(title: &'static str, way: Way, kills: u32, longest_start: u32) -> u32 {
    let mut rng = Rng::announced(title);
    let mut morning = Morning::new(&mut rng, title, way);
    let (mut in_flight, mut kept, mut cut) = (0, 0, 0);
    for round in 0..kills {
        let lines = morning.lines(&mut rng);
        let mut live = morning.start();
        live.hand(&text_of(&lines));
        let (mut printed, longest) = match round % 5 {
            0 => (Vec::new(), 1_000 * longest_start),
            // Where the disk is quick, all lines are answered within the shortest of these.
            _ => (live.answer(), rng.pick(&[200, 1_000, 3_000, 8_000])),
        };
        thread::sleep(Duration::from_micros(rng.within(0, longest).into()));
        printed.extend(live.kill().printed);
        morning.note(&printed, &lines);
        in_flight += u32::from(!morning.in_flight.is_empty());
        let (is_kept, is_cut) = morning.compare();
        kept += u32::from(is_kept);
        cut += u32::from(is_cut);
    }
    let many = morning.many;
    say(&format!(
        "{title}: {kills} kills in {many} mornings, {in_flight} with a line in flight, of which {kept} were kept and {cut} cut off"
    ));
    in_flight
}

#[test]
fn a_killed_desk_has_lost_nothing() {
    let in_flight = kill_often("desk-killed", desk_program, KILLS, 20);
    assert!(in_flight > KILLS / 10);
}

/// By the command that users call: who kills it kills the desk, and the next one opens at once.
#[test]
fn a_killed_command_has_lost_nothing() {
    kill_often(
        "desk-killed-command",
        desk_command,
        KILLS_OF_THE_COMMAND,
        250,
    );
}

/// Runs a desk until the disk is full, and answers what was left; nothing more is handed over.
fn fill_disk(rng: &mut Rng, morning: &mut Morning) -> Left {
    let lines = morning.lines(rng);
    let all: usize = lines
        .iter()
        .filter(|(_, reply)| reply.is_kept)
        .map(|(line, _)| line.len())
        .sum();
    let room = morning.kept.len() + rng.index(all);
    let mut live = Live::start(on_full_disk(&(morning.way)(&morning.folder), room));
    live.hand(&text_of(&lines));
    let left = live.left();
    morning.note(&left.printed, &lines);
    // The line that no longer fits, in part or as a whole, was not answered.
    assert!(!morning.in_flight.is_empty());
    assert!(morning.kept.len() <= room && room < morning.kept.len() + morning.in_flight.len());
    left
}

#[test]
fn a_full_disk_ends_the_desk_and_loses_nothing() {
    let mut rng = Rng::announced("full disks");
    let mut morning = Morning::new(&mut rng, "desk-full", desk_program);
    let mut cut = 0;
    for _ in 0..FULL_DISKS {
        let left = fill_disk(&mut rng, &mut morning);
        expect_said(left.said.as_bytes(), "ends.txt");
        let (is_kept, is_cut) = morning.compare();
        assert!(!is_kept);
        cut += u32::from(is_cut);
    }
    say(&format!(
        "{FULL_DISKS} full disks, {cut} torn lines cut off"
    ));
    assert!(cut > FULL_DISKS / 4);
}

#[test]
fn the_command_says_that_the_disk_is_full() {
    let mut rng = Rng::announced("the command and a full disk");
    let mut morning = Morning::new(&mut rng, "desk-full-command", desk_command);
    for _ in 0..2 {
        let left = fill_disk(&mut rng, &mut morning);
        expect_said(left.said.as_bytes(), "desk: ends.txt");
        assert_eq!(left.status.code(), Some(2));
        morning.compare();
    }
}
