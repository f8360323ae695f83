//! A year's totals: the proved side must add every log to any totals as the second one does, and
//! write every report alike; and both keep the sums, greatest and least over the list of logs.

use dispatcher::proved::{self, LONGEST_REPORT};
use dispatcher::sample::lent::{expect_room, pattern, shown};
use dispatcher::sample::logs::{school_log, school_times};
use dispatcher::sample::plan_a::{ENDS_A, PLAN_A};
use dispatcher::sample::plans::full_plan;
use dispatcher::sample::tally::Tally;
use dispatcher::sample::years::{
    any_folder, any_totals, broken_totals, wild_totals, Folder, ALL_ONES,
};
use dispatcher::sample::Rng;
use dispatcher::second::values::{refusal, MOST_LOGS};
use dispatcher::{add_log, judge_log, read_plan, report_text, run_log, year_text};
use dispatcher::{AddResult, Answer, JudgedLog, Plan, Totals};

const NINE: Answer = Answer::UNSOUND;
const ONE_TOO_MANY: Answer = refusal(28, 0, 0);

/// Whether totals are refused, each sentence of the request by itself, in numbers that cannot overflow.
fn wanted_of_totals(totals: &Totals) -> Answer {
    let logs = i128::from(totals.accepted) + i128::from(totals.refused);
    let ended: i128 = totals.ended.iter().map(|&ended| i128::from(ended)).sum();
    let is_over = |b: usize| {
        i128::from(totals.sum[b]) > 1_000_000 * i128::from(totals.ended[b])
            || totals.greatest[b] > 1_000_000
            || totals.least[b] > 1_000_000
    };
    if logs > 10_000 || ended > 64 * i128::from(totals.accepted) || (0..8).any(is_over) {
        return NINE;
    }
    if logs == 10_000 {
        return ONE_TOO_MANY;
    }
    Answer::ACCEPTED
}

/// Totals that are refused stay, and nothing is found; a log that is refused is counted apart.
fn check(totals: &Totals, plan: &Plan, log: &[u8], added: &AddResult) {
    assert_eq!(added.answer, wanted_of_totals(totals), "{totals:?}");
    if !added.answer.is_accepted() {
        assert!(added.totals == *totals);
        assert!(added.judged == JudgedLog::nothing(Answer::ACCEPTED));
        return;
    }
    assert!(added.judged == judge_log(plan, log));
    let is_accepted = added.judged.answer.is_accepted();
    let counted = Totals {
        accepted: totals.accepted + u32::from(is_accepted),
        refused: totals.refused + u32::from(!is_accepted),
        ..added.totals
    };
    assert!(added.totals == counted);
    if !is_accepted {
        let others = Totals {
            refused: totals.refused,
            ..added.totals
        };
        assert!(others == *totals);
    }
    // What calls hand out is never refused by 9.
    assert_ne!(wanted_of_totals(&added.totals), NINE);
}

fn compare(tally: &mut Tally, totals: &Totals, plan: &Plan, log: &[u8]) -> Totals {
    let wanted = add_log(totals, plan, log);
    let got = proved::add_log(totals, plan, log);
    assert_eq!(got.answer, wanted.answer, "{totals:?}");
    assert!(got == wanted, "{totals:?}, {} of {plan:?}", shown(log));
    check(totals, plan, log, &wanted);
    tally.count(wanted.answer);
    wanted.totals
}

#[test]
fn logs_are_added_alike_to_any_totals() {
    let (mut rng, mut tally) = Tally::seeded("compare_year");
    for _ in 0..1_500 {
        let (plan, log) = any_folder(&mut rng);
        for _ in 0..3 {
            let totals = any_totals(&mut rng);
            let after = compare(&mut tally, &totals, &plan, &log);
            // Once more, where the bound may be reached now.
            compare(&mut tally, &after, &plan, &log);
            compare(&mut tally, &broken_totals(&mut rng), &plan, &log);
        }
        compare(&mut tally, &wild_totals(&mut rng), &plan, &log);
        // A plan that is not accepted makes its log a refused one.
        compare(&mut tally, &any_totals(&mut rng), &Plan::ZERO, &log);
    }
    tally.finish_kind("logs added to totals of all sorts");
    tally.finish(15_000, &[0, 9, 28]);
}

/// By the definition: sums, greatest and least over the list, of the planned finish less the
/// end in each `end` line of each accepted log.
fn defined(folders: &[Folder]) -> Totals {
    let mut totals = Totals::ZERO;
    let mut figures: [Vec<u32>; 8] = Default::default();
    for (plan, log) in folders {
        if !judge_log(plan, log).answer.is_accepted() {
            totals.refused += 1;
            continue;
        }
        totals.accepted += 1;
        for line in std::str::from_utf8(log).unwrap().lines() {
            let fields: Vec<&str> = line.split('\t').collect();
            if fields[0] == "end" {
                let [task, board, tick] = [1, 2, 3].map(|k| fields[k].parse::<u32>().unwrap());
                figures[board as usize - 1].push(plan.finish[task as usize - 1] - tick);
            }
        }
    }
    for (b, figures) in figures.iter().enumerate() {
        totals.ended[b] = figures.len() as u32;
        totals.sum[b] = figures.iter().copied().map(u64::from).sum();
        totals.greatest[b] = figures.iter().copied().max().unwrap_or(0);
        totals.least[b] = figures.iter().copied().min().unwrap_or(0);
    }
    totals
}

fn added_all(tally: &mut Tally, folders: &[Folder]) -> Totals {
    folders.iter().fold(Totals::ZERO, |totals, (plan, log)| {
        compare(tally, &totals, plan, log)
    })
}

/// A report of the proved side, which the second one's is held against.
fn report_of(totals: &Totals) -> Vec<u8> {
    report_when(totals, true);
    report_when(totals, false)
}

/// The same where names were left over, or not.
fn report_when(totals: &Totals, past: bool) -> Vec<u8> {
    let mut out = pattern(LONGEST_REPORT + 64);
    let length = proved::write_report(totals, past, &mut out);
    assert!(out[length..] == pattern(LONGEST_REPORT + 64)[length..]);
    out.truncate(length);
    assert_eq!(
        String::from_utf8_lossy(&out),
        String::from_utf8_lossy(&report_text(totals, past)),
        "{totals:?}"
    );
    out
}

#[test]
fn lists_of_logs_come_to_the_definition_in_any_order() {
    let (mut rng, mut tally) = Tally::seeded("compare_year, lists");
    for round in 0..120 {
        let many = rng.pick(&[0, 1, 2, 3, 10, 40]);
        let mut folders: Vec<Folder> = (0..many).map(|_| any_folder(&mut rng)).collect();
        if round % 4 == 0 {
            // The same folder may be named again.
            folders.extend(folders.clone());
        }
        let totals = added_all(&mut tally, &folders);
        assert!(totals == defined(&folders));
        let report = report_of(&totals);
        for _ in 0..2 {
            rng.shuffle(&mut folders);
            let other = added_all(&mut tally, &folders);
            assert!(other == totals);
            assert!(report_of(&other) == report);
        }
    }
    tally.finish(3_000, &[0]);
}

/// Totals of so many accepted and refused logs, in which nothing has ended.
fn counted(accepted: u32, refused: u32) -> Totals {
    Totals {
        accepted,
        refused,
        ..Totals::ZERO
    }
}

#[test]
fn each_bound_holds_at_its_edge_and_one_past_it() {
    let (plan, log) = (read_plan(PLAN_A).plan, run_log(PLAN_A, ENDS_A));
    let mut tally = Tally::new("compare_year, bounds");
    let mut answer_of = |totals: &Totals| {
        compare(&mut tally, totals, &plan, &log);
        report_of(totals);
        add_log(totals, &plan, &log).answer
    };
    for (accepted, refused, answer) in [
        (0, 0, Answer::ACCEPTED),
        (9_999, 0, Answer::ACCEPTED),
        (0, 9_999, Answer::ACCEPTED),
        (5_000, 4_999, Answer::ACCEPTED),
        (10_000, 0, ONE_TOO_MANY),
        (0, 10_000, ONE_TOO_MANY),
        (1, 9_999, ONE_TOO_MANY),
        (10_001, 0, NINE),
        (0, 10_001, NINE),
        (1, 10_000, NINE),
        (u32::MAX, 1, NINE),
        (u32::MAX, u32::MAX, NINE),
        (u32::MAX, 10_001, NINE),
        (1 << 31, 1 << 31, NINE),
    ] {
        assert_eq!(answer_of(&counted(accepted, refused)), answer);
    }
    // 64 tasks a log, on one board and on all; a million ticks a task.
    let full = Totals {
        accepted: 100,
        ended: [800; 8],
        sum: [800_000_000; 8],
        greatest: [1_000_000; 8],
        least: [1_000_000; 8],
        ..Totals::ZERO
    };
    assert_eq!(answer_of(&full), Answer::ACCEPTED);
    for b in 0..8 {
        let changes: [fn(&mut Totals, usize); 4] = [
            |totals, b| totals.ended[b] += 1,
            |totals, b| totals.sum[b] += 1,
            |totals, b| totals.greatest[b] += 1,
            |totals, b| totals.least[b] += 1,
        ];
        for change in changes {
            let mut past = full;
            change(&mut past, b);
            assert_eq!(answer_of(&past), NINE, "{past:?}");
        }
        let mut alone = counted(100, 0);
        alone.ended[b] = 6_400;
        alone.sum[b] = 6_400_000_000;
        assert_eq!(answer_of(&alone), Answer::ACCEPTED);
        alone.ended[b] += 1;
        assert_eq!(answer_of(&alone), NINE);
        // Where nothing has ended a sum must be 0, and the two others are only held to the bound.
        let mut idle = counted(1, 0);
        (idle.greatest[b], idle.least[b]) = (0, 1_000_000);
        assert_eq!(answer_of(&idle), Answer::ACCEPTED);
        idle.sum[b] = 1;
        assert_eq!(answer_of(&idle), NINE);
        (idle.sum[b], idle.least[b]) = (0, 1_000_001);
        assert_eq!(answer_of(&idle), NINE);
    }
    // 9 before 28.
    let mut both = counted(10_000, 0);
    both.least[7] = 1_000_001;
    assert_eq!(answer_of(&both), NINE);
    assert_eq!(answer_of(&ALL_ONES), NINE);
    assert_eq!(report_of(&ALL_ONES), b"refused\t9\t0\t0\n");
}

/// The first figure of a board replaces whatever stands there.
#[test]
fn the_first_figure_replaces_the_greatest_and_the_least() {
    let (plan, log) = (read_plan(PLAN_A).plan, run_log(PLAN_A, ENDS_A));
    let totals = Totals {
        greatest: [1_000_000; 8],
        least: [0; 8],
        ..Totals::ZERO
    };
    let after = compare(
        &mut Tally::new("compare_year, first figures"),
        &totals,
        &plan,
        &log,
    );
    // Plan A: tasks 1 and 4 of board 1 ended 2 and 3 early, tasks 2, 3 and 5 of board 2 1, 3 and 6.
    let wanted = Totals {
        accepted: 1,
        refused: 0,
        ended: [2, 3, 0, 0, 0, 0, 0, 0],
        sum: [5, 10, 0, 0, 0, 0, 0, 0],
        greatest: [
            3, 6, 1_000_000, 1_000_000, 1_000_000, 1_000_000, 1_000_000, 1_000_000,
        ],
        least: [2, 1, 0, 0, 0, 0, 0, 0],
    };
    assert_eq!(after, wanted);
    let report = String::from_utf8(report_of(&after)).unwrap();
    let idle: String = (3..=8)
        .map(|b| format!("board\t{b}\t0\t0\t-\t-\n"))
        .collect();
    let boards = "board\t1\t2\t5\t3\t2\nboard\t2\t3\t10\t6\t1\n";
    assert_eq!(
        report,
        format!("logs\t1\t0\n{boards}{idle}all\t5\t15\t6\t1\n")
    );
}

/// From zero to the 10,001st: accepted and refused ones alike count, and a year passes 32 bits.
#[test]
fn ten_thousand_logs_are_added_and_no_more() {
    // Task k of board k ends 999,999 ticks early: it takes one of a million.
    let mut text = String::from("plan\t1\t8\t8\n");
    let mut log = String::from("run\t1\t8\t8\n");
    for k in 1..=8 {
        text += &format!("task\t{k}\t{k}\t0\t1000000\t-\t-\n");
        log += &format!("start\t{k}\t{k}\t0\t0\nend\t{k}\t{k}\t1\t999999\n");
    }
    let plan = read_plan(text.as_bytes()).plan;
    let mut totals = Totals::ZERO;
    for k in 0..10_000 {
        let log = if k % 1_000 == 0 { b"" } else { log.as_bytes() };
        let added = proved::add_log(&totals, &plan, log);
        assert_eq!(added.answer, Answer::ACCEPTED);
        totals = added.totals;
    }
    let wanted = Totals {
        accepted: 9_990,
        refused: 10,
        ended: [9_990; 8],
        sum: [9_989_990_010; 8],
        greatest: [999_999; 8],
        least: [999_999; 8],
    };
    assert_eq!(totals, wanted);
    for log in [b"".as_slice(), log.as_bytes()] {
        let added = proved::add_log(&totals, &plan, log);
        assert_eq!(added.answer, ONE_TOO_MANY);
        assert!(added == add_log(&totals, &plan, log));
    }
    let report = String::from_utf8(report_of(&totals)).unwrap();
    assert!(report.ends_with("all\t79920\t79919920080\t999999\t999999\n"));
    let folders = |many: u64| {
        let log = log.as_bytes();
        (0..many).map(move |k| if k % 1_000 == 0 { b"" } else { log })
    };
    let texts = |many: u64| year_text(folders(many).map(|log| (text.as_bytes(), log)));
    assert_eq!(texts(MOST_LOGS), report.as_bytes());
    let refused = [report.as_bytes(), b"refused\t28\t0\t0\n"].concat();
    assert_eq!(texts(MOST_LOGS + 1), refused);
}

#[test]
fn reports_are_written_alike() {
    let mut rng = Rng::announced("compare_year, reports");
    for _ in 0..4_000 {
        for totals in [
            any_totals(&mut rng),
            broken_totals(&mut rng),
            wild_totals(&mut rng),
        ] {
            report_of(&totals);
        }
    }
    report_of(&Totals::ZERO);
}

#[test]
fn a_buffer_that_is_too_short_gets_nothing_and_a_longer_one_only_the_report() {
    let largest = Totals {
        accepted: 10_000,
        refused: 0,
        ended: [80_000; 8],
        sum: [80_000_000_000; 8],
        greatest: [1_000_000; 8],
        least: [1_000_000; 8],
    };
    for totals in [Totals::ZERO, largest, ALL_ONES] {
        let wanted = report_text(&totals, true);
        expect_room(LONGEST_REPORT, &wanted, |out| {
            proved::write_report(&totals, true, out)
        });
    }
}

/// Full mornings, many of them: the second side's totals are the definition's.
#[test]
fn a_month_of_full_mornings_comes_to_the_definition() {
    let mut rng = Rng::announced("compare_year, full mornings");
    let mut tally = Tally::new("compare_year, full mornings");
    let plan = full_plan(&mut rng, 64);
    let folders: Vec<Folder> = (0..30)
        .map(|_| {
            let times = school_times(&mut rng, &plan);
            (plan, school_log(&mut rng, &plan, &times))
        })
        .collect();
    let totals = added_all(&mut tally, &folders);
    assert!(totals == defined(&folders));
    assert_eq!(totals.ended.iter().sum::<u32>(), 30 * 64);
}
