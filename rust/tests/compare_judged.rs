//! Logs judged: the proved judge must answer every plan and log as the second one does, and print
//! every pair of texts alike, to the last byte; and both keep the request's own sentences.

use dispatcher::proved::{self, write_judged, LONGEST_JUDGED};
use dispatcher::sample::damage::mutated_plan;
use dispatcher::sample::faults::{damaged_text, faulty_pair_plan, late_plan, sharing_plan};
use dispatcher::sample::lengths::planned_length;
use dispatcher::sample::lent::{expect_room, shown, text, Lent};
use dispatcher::sample::lines::noise;
use dispatcher::sample::log_damage::{
    any_log, damaged_log, in_other_order, long_log, odd_log_lines,
};
use dispatcher::sample::logs::{
    moved_times, own_log, plan_of_a_log, school_log, school_times, Times,
};
use dispatcher::sample::one_fault::one_fault;
use dispatcher::sample::plan_a::{ENDS_A, PLAN_A};
use dispatcher::sample::plan_b::PLAN_B;
use dispatcher::sample::plans::{full_plan, in_either_edition};
use dispatcher::sample::tally::{Printed, Tally};
use dispatcher::sample::waiting::either_rule;
use dispatcher::sample::wild::{one_rule_broken, wild_plan};
use dispatcher::sample::Rng;
use dispatcher::second::judge::clash;
use dispatcher::second::text::plan_text;
use dispatcher::{judge_log, judged_text, read_plan, run_log, timetable};
use dispatcher::{Answer, JudgedLog, Lengths, Plan, Rule};

/// Bytes that are right in some places of a log and wrong in others.
const LIKELY_BYTES: &[u8] = b"\t\n-01269+s";

/// A log of plan B, by another rule than ours, with a line of each word and a negative number.
const LOG_B: &[u8] = b"run\t2\t2\t5\tclash
start\t2\t2\t0\t0
start\t1\t1\t2\t2
early\t0\t0
end\t1\t1\t4\t2
end\t2\t2\t5\t0
refused\t11\t3\t5
start\t3\t2\t5\t0
end\t3\t2\t8\t-1
start\t4\t1\t9\t0
end\t4\t1\t10\t2
start\t5\t2\t12\t0
end\t5\t2\t14\t0
";

/// A `start` or `end` line: its word, task, board and tick.
type Said = (String, usize, u8, u32);

/// The `start` and `end` lines of a log whose lines are of their form.
fn said_in(log: &[u8]) -> Vec<Said> {
    let log = std::str::from_utf8(log).expect("its lines are of their form");
    let lines = log
        .lines()
        .map(|line| line.split('\t').collect::<Vec<&str>>());
    let said = lines.filter(|fields| ["start", "end"].contains(&fields[0]));
    said.map(|fields| {
        let number = |k: usize| fields[k].parse::<u32>().unwrap();
        (
            fields[0].to_string(),
            number(1) as usize,
            number(2) as u8,
            number(3),
        )
    })
    .collect()
}

/// The ticks at which the log has that word of task index i, on whatever board.
fn ticks_of(said: &[Said], word: &str, i: usize) -> Vec<u32> {
    let of_task = said
        .iter()
        .filter(|(is, task, _, _)| is == word && *task == i + 1);
    of_task.map(|(_, _, _, tick)| *tick).collect()
}

/// One start and one end on its board.
fn is_whole(plan: &Plan, said: &[Said], i: usize) -> bool {
    let is_one = |word: &str| ticks_of(said, word, i).len() == 1;
    let on_board = |(_, task, board, _): &Said| *task != i + 1 || *board == plan.board[i];
    is_one("start") && is_one("end") && said.iter().all(on_board)
}

/// They overlap, or the one that is planned to finish by the other's start comes second.
fn is_bad_pair(plan: &Plan, times: &Times, a: usize, b: usize) -> bool {
    let overlap = times.start[a] < times.end[b] && times.start[b] < times.end[a];
    let (first, second) = if plan.finish[a] <= plan.begin[b] {
        (a, b)
    } else {
        (b, a)
    };
    clash(plan, a, b) && (overlap || times.start[second] < times.start[first])
}

/// What the request says of the times of whole tasks, code by code.
fn wanted_of_times(plan: &Plan, times: &Times) -> Answer {
    let count = plan.task_count();
    let of_task = |code: u32, i: usize| Answer {
        code,
        first: i as u32 + 1,
        second: 0,
    };
    let length = |i: usize| i64::from(times.end[i]) - i64::from(times.start[i]);
    let is_long = |i: &usize| length(*i) < 1 || length(*i) > planned_length(plan, *i).into();
    if let Some(i) = (0..count).find(is_long) {
        return of_task(25, i);
    }
    let pairs = (0..count).flat_map(|a| (a + 1..count).map(move |b| (a, b)));
    let bad = pairs
        .into_iter()
        .find(|&(a, b)| is_bad_pair(plan, times, a, b));
    if let Some((a, b)) = bad {
        return Answer {
            second: b as u32 + 1,
            ..of_task(26, a)
        };
    }
    let is_untimely = |i: &usize| !(plan.ready[*i]..=plan.begin[*i]).contains(&times.start[*i]);
    let untimely = (0..count).find(is_untimely);
    untimely.map_or(Answer::ACCEPTED, |i| of_task(27, i))
}

/// A log that is read to its end: who is known, and the answer, by the request's sentences.
fn check_read(plan: &Plan, log: &[u8], found: &JudgedLog) {
    let said = said_in(log);
    let count = plan.task_count();
    for i in 0..64 {
        let [starts, ends] = ["start", "end"].map(|word| ticks_of(&said, word, i));
        let ticks = match (&starts[..], &ends[..]) {
            ([start], [end]) => (1, *start, *end),
            _ => (0, 0, 0),
        };
        assert_eq!((found.known[i], found.start[i], found.end[i]), ticks);
    }
    let broken = (0..count).find(|&i| !is_whole(plan, &said, i));
    let wanted = match broken {
        Some(i) => Answer {
            code: 24,
            first: i as u32 + 1,
            second: 0,
        },
        None => wanted_of_times(
            plan,
            &Times {
                start: found.start,
                end: found.end,
            },
        ),
    };
    assert_eq!(found.answer, wanted, "{} of {plan:?}", shown(log));
}

/// The first line that stands where no log has it: everything before it is read.
fn check_faulty_line(plan: &Plan, log: &[u8], found: &JudgedLog) {
    let number = found.answer.first as usize;
    let lines: Vec<&[u8]> = log.split_inclusive(|&byte| byte == b'\n').collect();
    assert!(number >= 1 && number <= lines.len().max(1));
    assert_eq!(found.answer.second, 0);
    if number > 1 {
        let before = judge_log(plan, &lines[..number - 1].concat());
        assert!(![9, 1, 23].contains(&before.answer.code), "{}", shown(log));
        let with_it = judge_log(plan, &lines[..number].concat());
        assert_eq!(with_it.answer, found.answer);
    }
}

fn compare(tally: &mut Tally, plan: &Plan, log: &[u8]) -> JudgedLog {
    let wanted = judge_log(plan, log);
    let got = proved::judge_log(plan, log);
    assert_eq!(got.answer, wanted.answer, "{} of {plan:?}", shown(log));
    assert!(got == wanted, "{} of {plan:?}", shown(log));
    tally.count(wanted.answer);
    match wanted.answer.code {
        9 | 1 => assert!(wanted == JudgedLog::nothing(wanted.answer)),
        23 => {
            assert!(wanted == JudgedLog::nothing(wanted.answer));
            check_faulty_line(plan, log, &wanted);
        }
        _ => check_read(plan, log, &wanted),
    }
    wanted
}

/// The lengths that a judged log has.
fn lengths_in(found: &JudgedLog) -> Lengths {
    Lengths {
        length: std::array::from_fn(|i| found.end[i] - found.start[i]),
        dropped: [0; 64],
    }
}

/// Nobody is late, and with the same lengths the clash rule starts nobody later.
fn check_accepted(plan: &Plan, found: &JudgedLog) {
    assert_eq!(found.answer, Answer::ACCEPTED);
    let by_rule = timetable(plan, Rule::Clash, &lengths_in(found));
    assert_eq!(by_rule.answer, Answer::ACCEPTED);
    for i in 0..plan.task_count() {
        assert!(found.end[i] <= plan.finish[i]);
        assert!(by_rule.start[i] <= found.start[i]);
    }
}

/// Each is accepted, in any order of its lines, and printed with its own `end` lines' figures.
fn compare_own_logs(rng: &mut Rng, tally: &mut Tally) {
    for _ in 0..1_200 {
        let (plan, rule) = (plan_of_a_log(rng), either_rule(rng));
        let log = own_log(rng, &plan, rule);
        let found = compare(tally, &plan, &log);
        check_accepted(&plan, &found);
        assert!(compare(tally, &plan, &in_other_order(rng, &log)) == found);
        let text = String::from_utf8(judged_text(&plan_text(&plan), &log)).unwrap();
        let log = String::from_utf8(log).unwrap();
        for line in log.lines().filter(|line| line.starts_with("end\t")) {
            let fields: Vec<&str> = line.split('\t').collect();
            let printed = format!("{}\t{}\n", fields[1], fields[4]);
            assert!(text.starts_with(&printed) || text.contains(&format!("\n{printed}")));
        }
        let figures = text.lines().count() - 1;
        assert_eq!(figures, plan.task_count());
    }
    tally.finish_kind("logs of our own, also in another order");
}

fn compare_schools_logs(rng: &mut Rng, tally: &mut Tally) {
    for _ in 0..2_500 {
        let plan = plan_of_a_log(rng);
        let times = school_times(rng, &plan);
        let log = school_log(rng, &plan, &times);
        let found = compare(tally, &plan, &log);
        assert!(found.start == times.start && found.end == times.end);
        check_accepted(&plan, &found);
        for _ in 0..3 {
            let moved = moved_times(rng, &plan, &times);
            compare(tally, &plan, &school_log(rng, &plan, &moved));
        }
    }
    tally.finish_kind("schools' logs, as they are and with ticks moved");
}

fn compare_damaged_logs(rng: &mut Rng, tally: &mut Tally) {
    for _ in 0..2_500 {
        let plan = plan_of_a_log(rng);
        let log = any_log(rng, &plan);
        for _ in 0..6 {
            compare(tally, &plan, &damaged_log(rng, &plan, &log));
        }
        compare(tally, &plan, &noise(rng));
        // The log of another plan.
        compare(tally, &plan_of_a_log(rng), &log);
    }
    tally.finish_kind("logs damaged by line, field, byte, number, sign, order, board and tick");
}

fn compare_long_logs(rng: &mut Rng, tally: &mut Tally) {
    for _ in 0..700 {
        let plan = plan_of_a_log(rng);
        let log = any_log(rng, &plan);
        compare(tally, &plan, &long_log(rng, &log));
    }
    tally.finish_kind("logs of 32,768 bytes and one more");
}

fn compare_changed_plans(rng: &mut Rng, tally: &mut Tally) {
    for _ in 0..300 {
        let plan = plan_of_a_log(rng);
        let log = any_log(rng, &plan);
        compare(tally, &mutated_plan(rng, &plan), &log);
        compare(tally, &one_rule_broken(rng, &plan), &log);
        compare(tally, &faulty_pair_plan(rng, &plan), &log);
        compare(tally, &late_plan(rng, &plan), &log);
        compare(tally, &sharing_plan(rng, &plan), &log);
        compare(tally, &wild_plan(rng), &log);
    }
    for log in [&b""[..], b"run\t1\t0\t0\n", &[b'7'; 32_769]] {
        compare(tally, &Plan::ZERO, log);
    }
    tally.finish_kind("logs of changed plans");
}

#[test]
fn logs_are_judged_alike() {
    let (mut rng, mut tally) = Tally::seeded("compare_judged");
    compare_own_logs(&mut rng, &mut tally);
    compare_schools_logs(&mut rng, &mut tally);
    compare_damaged_logs(&mut rng, &mut tally);
    compare_long_logs(&mut rng, &mut tally);
    compare_changed_plans(&mut rng, &mut tally);
    tally.finish(30_000, &[0, 9, 1, 23, 24, 25, 26, 27]);
}

/// Plans of two tasks on one board, by number and against it, the first of them ready at its planned start, and
/// a third one as planned before or behind them.
const TWO_TASKS: [(&str, &str); 2] = [
    (
        "plan\t2\t1\t3\ntask\t1\t1\t1\t1\t3\t-\t-\ntask\t2\t1\t0\t3\t5\t-\t-\ntask\t3\t1\t0\t0\t1\t-\t-\n",
        "start\t3\t1\t0\t0\nend\t3\t1\t1\t0\n",
    ),
    (
        "plan\t2\t1\t3\ntask\t1\t1\t1\t3\t5\t-\t-\ntask\t2\t1\t0\t0\t3\t-\t-\ntask\t3\t1\t0\t6\t7\t-\t-\n",
        "start\t3\t1\t6\t0\nend\t3\t1\t7\t0\n",
    ),
];

/// Each start and end of the two from 0 to 5.
#[test]
fn every_log_of_two_tasks_is_judged_alike() {
    let mut tally = Tally::new("compare_judged, two tasks");
    for (plan, third) in TWO_TASKS {
        let plan = read_plan(plan.as_bytes());
        assert_eq!(plan.answer, Answer::ACCEPTED);
        for times in 0..6u32.pow(4) {
            let [start, end, other, last] = [0, 1, 2, 3].map(|k| times / 6u32.pow(k) % 6);
            let log = format!(
                "run\t1\t1\t3\nstart\t1\t1\t{start}\t0\nend\t1\t1\t{end}\t0\nstart\t2\t1\t{other}\t0\nend\t2\t1\t{last}\t0\n{third}"
            );
            compare(&mut tally, &plan.plan, log.as_bytes());
        }
    }
    tally.finish(2_592, &[25]);
}

fn print_random_logs(rng: &mut Rng, printed: &mut Printed) {
    for _ in 0..5_000 {
        let plan = plan_of_a_log(rng);
        let log = any_log(rng, &plan);
        let text = plan_text(&plan);
        printed.compare(&text, &log);
        printed.compare(&text, &damaged_log(rng, &plan, &log));
    }
    printed.tally.finish_kind("logs as they are, and damaged");
}

fn print_refused_plans(rng: &mut Rng, printed: &mut Printed) {
    for _ in 0..4_000 {
        let plan = plan_of_a_log(rng);
        let times = school_times(rng, &plan);
        let log = school_log(rng, &plan, &times);
        printed.compare(&one_fault(rng, &plan).text, &log);
        printed.compare(&plan_text(&faulty_pair_plan(rng, &plan)), &log);
        printed.compare(&damaged_text(rng, &plan_text(&plan)), &log);
    }
    printed.tally.finish_kind("logs of refused plans");
}

fn print_long_logs(rng: &mut Rng, printed: &mut Printed) {
    for _ in 0..300 {
        let plan = plan_of_a_log(rng);
        let log = any_log(rng, &plan);
        let long = long_log(rng, &log);
        printed.compare(&plan_text(&plan), &long);
        printed.compare(b"plan\t1\t1\t0\n", &long);
        printed.compare(&long, &log);
    }
    printed.tally.finish_kind("long logs, and long plans");
}

/// Every beginning of the log, and each of its bytes replaced, taken out or put in.
fn print_changed_bytes(printed: &mut Printed) {
    let log_a = run_log(PLAN_A, ENDS_A);
    for (plan, log) in [(PLAN_A, &log_a[..]), (PLAN_B, LOG_B)] {
        printed.compare(plan, log);
        for at in 0..log.len() {
            let (before, behind) = (&log[..at], &log[at + 1..]);
            printed.compare(plan, before);
            printed.compare(plan, &[before, behind].concat());
            for byte in LIKELY_BYTES {
                printed.compare(plan, &[before, &[*byte], behind].concat());
                printed.compare(plan, &[before, &[*byte], &log[at..]].concat());
            }
        }
        let first = log.iter().position(|&byte| byte == b'\n').unwrap() + 1;
        for odd in odd_log_lines() {
            printed.compare(plan, odd);
            printed.compare(plan, &[log, odd].concat());
            printed.compare(plan, &[odd, log].concat());
            printed.compare(plan, &[&log[..first], odd, &log[first..]].concat());
        }
    }
    printed
        .tally
        .finish_kind("logs of plans A and B with one byte changed, and with odd lines");
}

#[test]
fn judged_logs_are_printed_alike() {
    let (mut rng, tally) = Tally::seeded("compare_judged, printed");
    let mut printed = Printed::new(tally, LONGEST_JUDGED, judged_text, write_judged);
    print_random_logs(&mut rng, &mut printed);
    print_refused_plans(&mut rng, &mut printed);
    print_long_logs(&mut rng, &mut printed);
    print_changed_bytes(&mut printed);
    let of_plans = [1, 2, 3, 4, 5, 6, 7, 8, 17, 18, 20];
    let of_logs = [0, 23, 24, 25, 26, 27];
    printed
        .tally
        .finish(30_000, &[&of_plans[..], &of_logs].concat());
}

/// 64 tasks, all planned to finish at 1 or 2 and ended at 1,000,000, or the plan's and the log's longest ticks.
fn longest_texts() -> (Vec<u8>, Vec<u8>) {
    let mut plan = String::from("plan\t1\t8\t64\n");
    let mut log = String::from("run\t1\t8\t64\n");
    for task in 1..=64 {
        let (board, begin) = ((task - 1) % 8 + 1, (task - 1) / 8);
        plan += &format!("task\t{task}\t{board}\t{begin}\t{}\t-\t-\n", begin + 1);
        log += &format!("start\t{task}\t{board}\t0\t0\nend\t{task}\t{board}\t1000000\t0\n");
    }
    (plan.into_bytes(), log.into_bytes())
}

#[test]
fn a_buffer_that_is_too_short_gets_nothing_and_a_longer_one_only_what_is_printed() {
    let full = full_plan(&mut Rng::new(7), 64);
    let full = in_either_edition(&mut Rng::new(8), &full);
    let times = school_times(&mut Rng::new(9), &full);
    let log = school_log(&mut Rng::new(10), &full, &times);
    let full = plan_text(&full);
    let (late_plan, late_log) = longest_texts();
    for (plan, log) in [
        (b"".as_slice(), b"".as_slice()),
        (PLAN_A, b""),
        (PLAN_B, LOG_B),
        (&full, &log),
        (&late_plan, &late_log),
    ] {
        let wanted = judged_text(plan, log);
        expect_room(LONGEST_JUDGED, &wanted, |out| write_judged(plan, log, out));
    }
}

/// Each of 64 lines has a number of seven digits and a sign.
#[test]
fn the_longest_text_is_within_its_bound() {
    let (plan, log) = longest_texts();
    let text = judged_text(&plan, &log);
    assert!(text.ends_with(b"64\t-999992\nrefused\t25\t1\t0\n"));
    assert!(text.len() < LONGEST_JUDGED);
}

/// What logs of plan A are judged, worked out by hand.
#[test]
fn logs_of_plan_a_are_judged_as_worked_out_by_hand() {
    let log = String::from_utf8(run_log(PLAN_A, ENDS_A)).unwrap();
    let figures = "1\t2\n2\t1\n3\t3\n4\t3\n5\t6\n";
    let judged = |log: &str| String::from_utf8(judged_text(PLAN_A, log.as_bytes())).unwrap();
    assert_eq!(judged(&log), format!("{figures}accepted\n"));
    for (instead, of, printed) in [
        ("run\t2\t2\t5\tclash\n", "run\t1\t2\t5\n", "accepted"),
        ("run\t2\t2\t5\n", "run\t1\t2\t5\n", "23\t1\t0"),
        ("run\t1\t2\t5\tclash\n", "run\t1\t2\t5\n", "23\t1\t0"),
        ("run\t1\t3\t5\n", "run\t1\t2\t5\n", "23\t1\t0"),
        ("run\t1\t2\t05\n", "run\t1\t2\t5\n", "23\t1\t0"),
        ("", "run\t1\t2\t5\n", "23\t1\t0"),
        ("early\t0\t-0\n", "early\t0\t0\n", "23\t4\t0"),
        ("end\t2\t2\t3\t-0\n", "end\t2\t2\t3\t1\n", "23\t5\t0"),
        ("end\t2\t2\t3\t-1000000\n", "end\t2\t2\t3\t1\n", "accepted"),
        ("end\t2\t2\t3\t-1000001\n", "end\t2\t2\t3\t1\n", "23\t5\t0"),
        ("end\t6\t2\t3\t1\n", "end\t2\t2\t3\t1\n", "23\t5\t0"),
        ("end\t2\t3\t3\t1\n", "end\t2\t2\t3\t1\n", "23\t5\t0"),
        ("end\t2\t2\t3\t1", "end\t2\t2\t3\t1\n", "23\t5\t0"),
        ("end\t2\t1\t3\t1\n", "end\t2\t2\t3\t1\n", "24\t2\t0"),
        ("end\t2\t2\t0\t1\n", "end\t2\t2\t3\t1\n", "25\t2\t0"),
        ("end\t2\t2\t5\t1\n", "end\t2\t2\t3\t1\n", "25\t2\t0"),
        ("end\t2\t2\t4\t1\n", "end\t2\t2\t3\t1\n", "26\t2\t3"),
        ("start\t5\t2\t5\t1\n", "start\t5\t2\t6\t4\n", "26\t3\t5"),
    ] {
        let text = judged(&log.replacen(of, instead, 1));
        let last = text.lines().last().unwrap();
        assert_eq!(last.trim_start_matches("refused\t"), printed, "{instead:?}");
    }
    // Tasks 3 and 4 hold drive 2, one of them exclusively, and 4 comes after 1.
    for (start, end, printed) in [
        (6, 9, "accepted"),
        (9, 12, "accepted"),
        (9, 13, "refused\t25\t4\t0"),
        (5, 8, "refused\t26\t3\t4"),
        (3, 6, "refused\t26\t1\t4"),
        (0, 1, "refused\t26\t1\t4"),
        (10, 13, "refused\t27\t4\t0"),
    ] {
        let other = log
            .replace("start\t4\t1\t6\t3\n", &format!("start\t4\t1\t{start}\t3\n"))
            .replace("end\t4\t1\t9\t3\n", &format!("end\t4\t1\t{end}\t3\n"));
        assert_eq!(judged(&other).lines().last().unwrap(), printed);
    }
}

/// Ticks at their bounds: a difference of a million both ways.
#[test]
fn a_difference_is_exact_at_and_below_zero() {
    let mut rng = Rng::announced("compare_judged, differences");
    let mut out = Lent::new(LONGEST_JUDGED);
    for _ in 0..2_000 {
        let near = rng.within(1, 1_000_000);
        let finish = rng.pick(&[1, 2, near, 999_999, 1_000_000]);
        let far = rng.within(0, 1_000_000);
        let below = finish - 1;
        let above = (finish + 1).min(1_000_000);
        let end = rng.pick(&[0, 1, far, below, finish, above, 1_000_000]);
        let plan = format!("plan\t1\t1\t1\ntask\t1\t1\t0\t{finish}\t-\t-\n");
        let log = format!("run\t1\t1\t1\nstart\t1\t1\t0\t0\nend\t1\t1\t{end}\t0\n");
        let answer = if (1..=finish).contains(&end) {
            "accepted"
        } else {
            "refused\t25\t1\t0"
        };
        let early = i64::from(finish) - i64::from(end);
        let wanted = format!("1\t{early}\n{answer}\n");
        let (plan, log) = (plan.as_bytes(), log.as_bytes());
        out.expect(wanted.as_bytes(), &[plan, log], |out| {
            write_judged(plan, log, out)
        });
        assert_eq!(text(&judged_text(plan, log)), wanted);
    }
}
