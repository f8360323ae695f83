//! Totals that are nearly the year's: each is told from them by logs worked out by hand, and by the
//! totals on which the two implementations are compared.

use dispatcher::sample::plan_a::{ENDS_A, PLAN_A};
use dispatcher::sample::tally::say;
use dispatcher::sample::years::{any_folder, any_totals, broken_totals};
use dispatcher::sample::Rng;
use dispatcher::second::values::refusal;
use dispatcher::{add_log, judge_log, proved, read_plan, run_log};
use dispatcher::{AddResult, Answer, JudgedLog, Plan, Totals};

/// What an impostor does otherwise; with nothing of this it adds as it should.
#[derive(Clone, Copy, PartialEq)]
enum Twist {
    None,
    SumOf32Bits,
    RefusedAdded,
    RefusedNotCounted,
    RefusedPlanNotCounted,
    LeastFromZero,
    OldEndsKept,
    LookedAtBefore28,
    CountedAt28,
    EndedOverABoardAlone,
    CountsOf32Bits,
    IdleEndsUnseen,
    StartsForEnds,
}

const IMPOSTORS: [(&str, Twist); 12] = [
    ("a sum of 32 bits", Twist::SumOf32Bits),
    ("a refused log's figures added", Twist::RefusedAdded),
    ("a refused log not counted", Twist::RefusedNotCounted),
    (
        "a refused plan's log not counted",
        Twist::RefusedPlanNotCounted,
    ),
    ("a least that begins at 0", Twist::LeastFromZero),
    ("ends kept where no task had ended", Twist::OldEndsKept),
    ("the log looked at before 28", Twist::LookedAtBefore28),
    ("the 10,001st log counted", Twist::CountedAt28),
    ("64 tasks a log on each board", Twist::EndedOverABoardAlone),
    ("logs counted in 32 bits", Twist::CountsOf32Bits),
    (
        "ends of an idle board not held to a bound",
        Twist::IdleEndsUnseen,
    ),
    ("early at start summed", Twist::StartsForEnds),
];

impl Twist {
    fn logs(self, totals: &Totals) -> u64 {
        if self == Twist::CountsOf32Bits {
            return totals.accepted.wrapping_add(totals.refused).into();
        }
        u64::from(totals.accepted) + u64::from(totals.refused)
    }

    fn is_refused(self, totals: &Totals) -> bool {
        let most = 64 * u64::from(totals.accepted);
        let all: u64 = totals.ended.iter().copied().map(u64::from).sum();
        let most_of = totals.ended.iter().copied().max().map(u64::from);
        let ended = match self {
            Twist::EndedOverABoardAlone => most_of.unwrap_or(0),
            _ => all,
        };
        let is_over = |b: usize| {
            let unseen = self == Twist::IdleEndsUnseen && totals.ended[b] == 0;
            let ends = totals.greatest[b].max(totals.least[b]);
            totals.sum[b] > 1_000_000 * u64::from(totals.ended[b]) || ends > 1_000_000 && !unseen
        };
        self.logs(totals) > 10_000 || ended > most || (0..8).any(is_over)
    }

    fn take(self, totals: &mut Totals, b: usize, early: u32) {
        let is_first = totals.ended[b] == 0 && self != Twist::OldEndsKept;
        let least_is_first = is_first && self != Twist::LeastFromZero;
        if is_first || early > totals.greatest[b] {
            totals.greatest[b] = early;
        }
        if least_is_first || early < totals.least[b] {
            totals.least[b] = early;
        }
        totals.ended[b] = totals.ended[b].wrapping_add(1);
        totals.sum[b] += u64::from(early);
        if self == Twist::SumOf32Bits {
            totals.sum[b] %= 1 << 32;
        }
    }

    fn added(self, totals: &Totals, plan: &Plan, log: &[u8]) -> AddResult {
        let mut added = AddResult {
            answer: Answer::ACCEPTED,
            judged: JudgedLog::nothing(Answer::ACCEPTED),
            totals: *totals,
        };
        if self.is_refused(totals) {
            added.answer = Answer::UNSOUND;
            return added;
        }
        if self.logs(totals) == 10_000 {
            added.answer = refusal(28, 0, 0);
            if self == Twist::LookedAtBefore28 {
                added.judged = judge_log(plan, log);
            }
            if self == Twist::CountedAt28 {
                added.totals.refused += 1;
            }
            return added;
        }
        let judged = judge_log(plan, log);
        let is_accepted = judged.answer.is_accepted();
        let counts = match self {
            Twist::RefusedNotCounted => false,
            Twist::RefusedPlanNotCounted => judged.answer.code != 9,
            _ => true,
        };
        let totals = &mut added.totals;
        totals.accepted = totals.accepted.wrapping_add(u32::from(is_accepted));
        totals.refused = totals
            .refused
            .wrapping_add(u32::from(!is_accepted && counts));
        for i in (0..64).filter(|&i| judged.is_known(i)) {
            let early = if self == Twist::StartsForEnds {
                plan.begin[i].saturating_sub(judged.start[i])
            } else {
                plan.finish[i].saturating_sub(judged.end[i])
            };
            if is_accepted || self == Twist::RefusedAdded {
                self.take(&mut added.totals, usize::from(plan.board[i]) - 1, early);
            }
        }
        added.judged = judged;
        added
    }
}

/// Totals, a plan and a log that tell the impostor, and what is right.
fn told_by(twist: Twist) -> (Totals, Plan, Vec<u8>, Totals) {
    let (plan, log) = (read_plan(PLAN_A).plan, run_log(PLAN_A, ENDS_A));
    let once = Totals {
        accepted: 1,
        ended: [2, 3, 0, 0, 0, 0, 0, 0],
        sum: [5, 10, 0, 0, 0, 0, 0, 0],
        greatest: [3, 6, 0, 0, 0, 0, 0, 0],
        least: [2, 1, 0, 0, 0, 0, 0, 0],
        ..Totals::ZERO
    };
    let one_refused = Totals {
        refused: 1,
        ..Totals::ZERO
    };
    let full_year = Totals {
        accepted: 10_000,
        ..Totals::ZERO
    };
    match twist {
        Twist::SumOf32Bits => {
            let mut large = once;
            (large.accepted, large.ended[0]) = (9_000, 5_000);
            (large.sum[0], large.least[0]) = (u64::from(u32::MAX), 0);
            let mut wanted = large;
            (wanted.accepted, wanted.ended[0], wanted.ended[1]) = (9_001, 5_002, 6);
            (wanted.sum[0], wanted.sum[1]) = (u64::from(u32::MAX) + 5, 20);
            (large, plan, log, wanted)
        }
        Twist::RefusedAdded | Twist::RefusedNotCounted => {
            let late = [&log[..], b"start\t5\t2\t7\t3\n"].concat();
            (Totals::ZERO, plan, late, one_refused)
        }
        Twist::RefusedPlanNotCounted => (Totals::ZERO, Plan::ZERO, log, one_refused),
        Twist::OldEndsKept => {
            let old = Totals {
                greatest: [9, 9, 0, 0, 0, 0, 0, 0],
                ..Totals::ZERO
            };
            (old, plan, log, once)
        }
        Twist::LookedAtBefore28 | Twist::CountedAt28 => (full_year, plan, log, full_year),
        Twist::EndedOverABoardAlone => {
            let mut many = once;
            many.ended[..2].copy_from_slice(&[32, 33]);
            (many, plan, log, many)
        }
        Twist::CountsOf32Bits => {
            let many = Totals {
                accepted: u32::MAX,
                refused: 1,
                ..Totals::ZERO
            };
            (many, plan, log, many)
        }
        Twist::IdleEndsUnseen => {
            let mut idle = once;
            idle.least[7] = 1_000_001;
            (idle, plan, log, idle)
        }
        _ => (Totals::ZERO, plan, log, once),
    }
}

#[test]
fn logs_worked_out_by_hand_tell_them() {
    for (name, twist) in IMPOSTORS {
        let (totals, plan, log, wanted) = told_by(twist);
        let found = add_log(&totals, &plan, &log);
        assert_eq!(found.totals, wanted, "{name}");
        assert!(proved::add_log(&totals, &plan, &log) == found, "{name}");
        assert!(Twist::None.added(&totals, &plan, &log) == found, "{name}");
        assert!(twist.added(&totals, &plan, &log) != found, "{name}");
    }
}

#[test]
fn the_totals_of_the_comparison_tell_them_all() {
    let mut rng = Rng::announced("year_impostors");
    let mut told = [0; IMPOSTORS.len()];
    for round in 0..4_000 {
        let (plan, log) = any_folder(&mut rng);
        let plan = if round % 20 == 0 { Plan::ZERO } else { plan };
        let totals = if round % 2 == 0 {
            any_totals(&mut rng)
        } else {
            broken_totals(&mut rng)
        };
        let found = proved::add_log(&totals, &plan, &log);
        assert!(Twist::None.added(&totals, &plan, &log) == found);
        for ((_, twist), times) in IMPOSTORS.iter().zip(&mut told) {
            *times += u32::from(twist.added(&totals, &plan, &log) != found);
        }
    }
    for ((name, _), times) in IMPOSTORS.iter().zip(told) {
        say(&format!("year_impostors: {name}: told in {times} of 4000"));
        assert!(times >= 5, "{name}");
    }
}
