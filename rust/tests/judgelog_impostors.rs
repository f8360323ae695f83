//! Judges that are nearly the log judge: each is told from it by a folder whose answer is typed, and
//! by the logs on which the two implementations are compared.

use dispatcher::proved::{self, LONGEST_JUDGED};
use dispatcher::sample::log_damage::any_log;
use dispatcher::sample::logs::plan_of_a_log;
use dispatcher::sample::program::{at_root, contents};
use dispatcher::sample::tally::say;
use dispatcher::sample::Rng;
use dispatcher::second::judge::clash;
use dispatcher::second::text::plan_text;
use dispatcher::{judged_text, read_plan, Plan};

/// What an impostor does otherwise; with nothing of this it is the judge.
#[derive(Clone, Copy, PartialEq)]
enum Twist {
    None,
    AnyOrder,
    PairsBeforeLengths,
    ReadyIgnored,
    EarlyFromTheLog,
    AgreeingEndTaken,
    LateAsZero,
    BoardOfEndUnseen,
    TaskPastTheLast,
    /// Beside those of the request: starts alone may be late.
    LateEndRefused,
    MissingBeforeForm,
    KnownOnItsBoardAlone,
}

/// Each with the folder that tells it.
const IMPOSTORS: [(&str, Twist, &str); 11] = [
    (
        "any order taken for plan order",
        Twist::AnyOrder,
        "against-plan-order",
    ),
    ("26 before 25", Twist::PairsBeforeLengths, "25-before-26"),
    ("ready ignored", Twist::ReadyIgnored, "unready"),
    (
        "ticks early taken from the log",
        Twist::EarlyFromTheLog,
        "ticks-early-invented",
    ),
    (
        "a doubled end that agrees taken",
        Twist::AgreeingEndTaken,
        "end-doubled",
    ),
    (
        "a negative difference printed as 0",
        Twist::LateAsZero,
        "start-and-end-late",
    ),
    (
        "the board of an end not looked at",
        Twist::BoardOfEndUnseen,
        "end-on-other-board",
    ),
    ("a task past T", Twist::TaskPastTheLast, "63-tasks-and-64"),
    (
        "a late end taken for a late start",
        Twist::LateEndRefused,
        "start-late",
    ),
    ("24 before 23", Twist::MissingBeforeForm, "23-before-24"),
    (
        "figures of its board alone",
        Twist::KnownOnItsBoardAlone,
        "end-on-other-board",
    ),
];

/// A `start` or `end` line.
struct Said<'a> {
    is_end: bool,
    task: u32,
    board: u32,
    tick: u32,
    early: &'a str,
}

fn number(field: &str) -> Option<u32> {
    let is_spelt = field == "0" || !field.starts_with('0');
    let digits = !field.is_empty() && field.bytes().all(|byte| byte.is_ascii_digit());
    let value: u64 = (is_spelt && digits && field.len() <= 7)
        .then(|| field.parse().ok())
        .flatten()?;
    (value <= 1_000_000).then_some(value as u32)
}

fn is_early(field: &str) -> bool {
    match field.strip_prefix('-') {
        Some(late) => number(late).is_some_and(|late| late != 0),
        None => number(field).is_some(),
    }
}

/// The fields of the lines of which something is judged, or the first faulty line.
fn read(twist: Twist, plan: &Plan, log: &[u8]) -> Result<Vec<Vec<String>>, usize> {
    // Other bytes than ASCII are in no line of its form, and stay so.
    let text: String = log.iter().map(|&byte| char::from(byte)).collect();
    let (boards, tasks) = (u32::from(plan.boards), u32::from(plan.tasks));
    let most = if twist == Twist::TaskPastTheLast {
        64
    } else {
        tasks
    };
    let first = [
        format!("run\t1\t{boards}\t{tasks}\n"),
        format!("run\t2\t{boards}\t{tasks}\tclash\n"),
    ];
    let mut said = Vec::new();
    let mut lines = text.split_inclusive('\n').enumerate();
    match lines.next() {
        Some((_, line)) if first.iter().any(|first| first == line) => {}
        _ => return Err(1),
    }
    for (k, line) in lines {
        let fields: Vec<&str> = line.trim_end_matches('\n').split('\t').collect();
        let in_range = |from: usize| fields[from..].iter().all(|field| number(field).is_some());
        let within = |field: &str, most: u32| number(field).is_some_and(|n| n >= 1 && n <= most);
        let is_of_form = match (fields[0], fields.len()) {
            ("start" | "end", 5) => {
                within(fields[1], most)
                    && within(fields[2], boards)
                    && number(fields[3]).is_some()
                    && is_early(fields[4])
            }
            ("early", 3) | ("refused", 4) => in_range(1),
            _ => false,
        };
        if !is_of_form || !line.ends_with('\n') {
            return Err(k + 1);
        }
        if fields.len() == 5 {
            said.push(fields.into_iter().map(String::from).collect());
        }
    }
    Ok(said)
}

/// Of one task: its starts, its ends, and the board that the plan has.
struct Of<'a> {
    starts: Vec<&'a Said<'a>>,
    ends: Vec<&'a Said<'a>>,
    board: u32,
}

impl Of<'_> {
    fn times(&self) -> Option<(u32, u32)> {
        match (&self.starts[..], &self.ends[..]) {
            ([start], [end]) => Some((start.tick, end.tick)),
            _ => None,
        }
    }
}

impl Twist {
    fn of<'a>(self, plan: &Plan, said: &'a [Said], i: usize) -> Of<'a> {
        let own = |is_end: bool| {
            let own = said
                .iter()
                .filter(move |said| said.task == i as u32 + 1 && said.is_end == is_end);
            own.collect::<Vec<&Said>>()
        };
        let mut ends = own(true);
        if self == Twist::AgreeingEndTaken {
            ends.dedup_by_key(|end| (end.board, end.tick));
        }
        Of {
            starts: own(false),
            ends,
            board: plan.board[i].into(),
        }
    }

    /// Whether it has one start and one end on its board.
    fn is_whole(self, of: &Of) -> bool {
        let starts = of.starts.iter().all(|said| said.board == of.board);
        let ends = of.ends.iter().all(|said| said.board == of.board);
        of.times().is_some() && starts && (ends || self == Twist::BoardOfEndUnseen)
    }

    /// Refusal 26 or none.
    fn pair(self, plan: &Plan, times: &[(u32, u32)]) -> Option<String> {
        for a in 0..times.len() {
            for b in a + 1..times.len() {
                let (first, second) = if plan.begin[a] < plan.begin[b] {
                    (a, b)
                } else {
                    (b, a)
                };
                let overlap = times[a].0 < times[b].1 && times[b].0 < times[a].1;
                let against = times[second].0 < times[first].0 && self != Twist::AnyOrder;
                if clash(plan, a, b) && (overlap || against) {
                    return Some(format!("refused\t26\t{}\t{}", a + 1, b + 1));
                }
            }
        }
        None
    }

    fn of_times(self, plan: &Plan, times: &[(u32, u32)]) -> String {
        let lowest = |code: u32, is_bad: &dyn Fn(usize) -> bool| {
            let i = (0..times.len()).find(|&i| is_bad(i));
            i.map(|i| format!("refused\t{code}\t{}\t0", i + 1))
        };
        let length = lowest(25, &|i| {
            let took = i64::from(times[i].1) - i64::from(times[i].0);
            took < 1 || took > i64::from(plan.finish[i] - plan.begin[i])
        });
        let pair = self.pair(plan, times);
        let timely = lowest(27, &|i| {
            let unready = times[i].0 < plan.ready[i] && self != Twist::ReadyIgnored;
            let late = match self {
                Twist::LateEndRefused => times[i].1 > plan.finish[i],
                _ => times[i].0 > plan.begin[i],
            };
            unready || late
        });
        let faults = if self == Twist::PairsBeforeLengths {
            [pair, length, timely]
        } else {
            [length, pair, timely]
        };
        let fault = faults.into_iter().flatten().next();
        fault.unwrap_or("accepted".to_string())
    }

    fn figure(self, plan: &Plan, of: &Of, i: usize) -> Option<String> {
        let (_, end) = of.times()?;
        if self == Twist::KnownOnItsBoardAlone && !self.is_whole(of) {
            return None;
        }
        let early = i64::from(plan.finish[i]) - i64::from(end);
        let early = match self {
            Twist::EarlyFromTheLog => of.ends[0].early.to_string(),
            Twist::LateAsZero => early.max(0).to_string(),
            _ => early.to_string(),
        };
        Some(format!("{}\t{early}\n", i + 1))
    }

    /// All that it prints of an accepted plan and a log.
    fn judged(self, plan: &Plan, log: &[u8]) -> String {
        if log.len() > 32_768 {
            return "refused\t1\t0\t0\n".to_string();
        }
        let read = read(self, plan, log);
        let (lines, faulty) = match read {
            Ok(lines) => (lines, None),
            Err(line) if self == Twist::MissingBeforeForm && line > 1 => {
                let upto: Vec<&[u8]> = log.split_inclusive(|&byte| byte == b'\n').collect();
                let others = [&upto[..line - 1], &upto[line..]].concat().concat();
                (
                    self::read(self, plan, &others).unwrap_or_default(),
                    Some(line),
                )
            }
            Err(line) => return format!("refused\t23\t{line}\t0\n"),
        };
        let said: Vec<Said> = lines
            .iter()
            .map(|fields| Said {
                is_end: fields[0] == "end",
                task: fields[1].parse().unwrap(),
                board: fields[2].parse().unwrap(),
                tick: fields[3].parse().unwrap(),
                early: &fields[4],
            })
            .collect();
        let tasks: Vec<Of> = (0..plan.task_count())
            .map(|i| self.of(plan, &said, i))
            .collect();
        let broken = tasks.iter().position(|of| !self.is_whole(of));
        if let (Some(line), None) = (faulty, broken) {
            return format!("refused\t23\t{line}\t0\n");
        }
        let figures = (0..tasks.len()).filter_map(|i| self.figure(plan, &tasks[i], i));
        let figures: String = figures.collect();
        let last = match broken {
            Some(i) => format!("refused\t24\t{}\t0", i + 1),
            None => {
                let times: Vec<(u32, u32)> = tasks.iter().filter_map(Of::times).collect();
                self.of_times(plan, &times)
            }
        };
        format!("{figures}{last}\n")
    }
}

fn printed(plan: &[u8], log: &[u8]) -> String {
    let mut out = [0; LONGEST_JUDGED];
    let length = proved::write_judged(plan, log, &mut out);
    String::from_utf8(out[..length].to_vec()).unwrap()
}

#[test]
fn typed_folders_tell_them() {
    for (name, twist, folder) in IMPOSTORS {
        let folder = at_root("rust/tests/judgelog").join(folder);
        let [text, log, judged] =
            ["plan.txt", "log.txt", "judged.txt"].map(|name| contents(&folder.join(name)));
        let (plan, judged) = (read_plan(&text).plan, String::from_utf8(judged).unwrap());
        assert_eq!(printed(&text, &log), judged);
        assert_eq!(judged_text(&text, &log), judged.as_bytes());
        assert_eq!(Twist::None.judged(&plan, &log), judged, "{name}");
        assert_ne!(twist.judged(&plan, &log), judged, "{name}");
    }
}

#[test]
fn the_logs_of_the_comparison_tell_them_all() {
    let mut rng = Rng::announced("judgelog_impostors");
    let mut told = [0; IMPOSTORS.len()];
    for _ in 0..4_000 {
        let plan = plan_of_a_log(&mut rng);
        let log = any_log(&mut rng, &plan);
        let found = printed(&plan_text(&plan), &log);
        assert_eq!(Twist::None.judged(&plan, &log), found);
        for ((_, twist, _), times) in IMPOSTORS.iter().zip(&mut told) {
            *times += u32::from(twist.judged(&plan, &log) != found);
        }
    }
    for ((name, _, _), times) in IMPOSTORS.iter().zip(told) {
        say(&format!(
            "judgelog_impostors: {name}: told in {times} of 4000"
        ));
        assert!(times >= 15, "{name}");
    }
}
