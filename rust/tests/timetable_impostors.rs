//! Engines that are nearly the one without reports: each is told from it on a small plan worked out
//! by hand, and by the inputs on which the two implementations are compared.

use dispatcher::sample::lengths::{planned_length, random_case, Case};
use dispatcher::sample::tally::say;
use dispatcher::sample::waiting::awaited;
use dispatcher::sample::Rng;
use dispatcher::second::values::{refusal, DROPPED};
use dispatcher::{accepted, proved, read_plan, timetable};
use dispatcher::{Answer, Lengths, Plan, Rule, Timetable};

/// What an impostor does otherwise; with nothing of this it is the engine.
#[derive(Clone, Copy)]
struct Twist {
    always_full: bool,
    dropped_keep_lengths: bool,
    dropped_lengths_judged: bool,
    ready_ignored: bool,
    dropped_ready_read: bool,
    by_task_number: bool,
    drops_judged_first: bool,
    judged_past_the_last: bool,
    timed_past_the_last: bool,
}

const NONE: Twist = Twist {
    always_full: false,
    dropped_keep_lengths: false,
    dropped_lengths_judged: false,
    ready_ignored: false,
    dropped_ready_read: false,
    by_task_number: false,
    drops_judged_first: false,
    judged_past_the_last: false,
    timed_past_the_last: false,
};

const ALWAYS_FULL: Twist = Twist {
    always_full: true,
    ..NONE
};
const DROPPED_KEEP_LENGTHS: Twist = Twist {
    dropped_keep_lengths: true,
    ..NONE
};
const DROPPED_LENGTHS_JUDGED: Twist = Twist {
    dropped_lengths_judged: true,
    ..NONE
};
const READY_IGNORED: Twist = Twist {
    ready_ignored: true,
    ..NONE
};
const DROPPED_READY_READ: Twist = Twist {
    dropped_ready_read: true,
    ..NONE
};
const BY_TASK_NUMBER: Twist = Twist {
    by_task_number: true,
    ..NONE
};
const DROPS_JUDGED_FIRST: Twist = Twist {
    drops_judged_first: true,
    ..NONE
};
const JUDGED_PAST_THE_LAST: Twist = Twist {
    judged_past_the_last: true,
    ..NONE
};
const TIMED_PAST_THE_LAST: Twist = Twist {
    timed_past_the_last: true,
    ..NONE
};

const IMPOSTORS: [(&str, Twist); 9] = [
    ("full length always", ALWAYS_FULL),
    ("a dropped task keeps its length", DROPPED_KEEP_LENGTHS),
    ("a dropped task's length is judged", DROPPED_LENGTHS_JUDGED),
    ("ready ignored", READY_IGNORED),
    ("a dropped task's ready tick read", DROPPED_READY_READ),
    ("by rising task number", BY_TASK_NUMBER),
    ("19 before 22", DROPS_JUDGED_FIRST),
    ("a length past T judged", JUDGED_PAST_THE_LAST),
    ("a length past T added", TIMED_PAST_THE_LAST),
];

/// The first task by number of which that is so, as its refusal.
fn refused(code: u32, count: usize, is_faulty: impl Fn(usize) -> bool) -> Option<Answer> {
    let first = (0..count).find(|&i| is_faulty(i))?;
    Some(refusal(code, first as u32 + 1, 0))
}

impl Twist {
    fn refusal(self, plan: &Plan, rule: Rule, given: &Lengths) -> Option<Answer> {
        let tasks = plan.task_count();
        let judged = if self.judged_past_the_last { 64 } else { tasks };
        let wrong_length = refused(22, judged, |i| {
            // Past the last task there is no plan, only the length 0 is out of any range.
            let most = if i < tasks {
                planned_length(plan, i)
            } else {
                u32::MAX
            };
            let read = self.dropped_lengths_judged || !given.is_dropped(i);
            read && !(1..=most).contains(&given.length[i])
        });
        let free_drop = refused(19, tasks, |i| {
            given.is_dropped(i) && awaited(plan, rule, i).is_empty()
        });
        if self.drops_judged_first {
            return free_drop.or(wrong_length);
        }
        wrong_length.or(free_drop)
    }

    fn ready(self, plan: &Plan, given: &Lengths, i: usize) -> u32 {
        let counts = !given.is_dropped(i) || self.dropped_ready_read;
        if counts && !self.ready_ignored {
            plan.ready[i]
        } else {
            0
        }
    }

    fn length(self, plan: &Plan, given: &Lengths, i: usize) -> u32 {
        match given.is_dropped(i) {
            true if self.dropped_keep_lengths => given.length[i],
            true => 0,
            false if self.always_full => planned_length(plan, i),
            false => given.length[i],
        }
    }

    fn timetable(self, plan: &Plan, rule: Rule, given: &Lengths) -> Timetable {
        let refusal = if accepted(plan) {
            self.refusal(plan, rule, given)
        } else {
            Some(Answer::UNSOUND)
        };
        let mut found = Timetable {
            answer: refusal.unwrap_or(Answer::ACCEPTED),
            ..Timetable::ZERO
        };
        if refusal.is_some() {
            return found;
        }
        let mut order: Vec<usize> = (0..plan.task_count()).collect();
        if !self.by_task_number {
            order.sort_by_key(|&i| plan.begin[i]);
        }
        for i in order {
            let ends = awaited(plan, rule, i).into_iter().map(|j| found.end[j]);
            found.start[i] = ends.fold(self.ready(plan, given, i), u32::max);
            let length = self.length(plan, given, i);
            found.end[i] = found.start[i].wrapping_add(length);
        }
        if self.timed_past_the_last {
            let past = plan.task_count()..64;
            found.end[past.clone()].copy_from_slice(&given.length[past]);
        }
        found
    }
}

/// On this the engine answers so, and the impostor otherwise.
fn check_told(twist: Twist, plan: &[u8], given: &Lengths, starts: &[u32], ends: &[u32]) {
    let plan = read_plan(plan).plan;
    let mut wanted = Timetable::ZERO;
    wanted.start[..starts.len()].copy_from_slice(starts);
    wanted.end[..ends.len()].copy_from_slice(ends);
    check_both(twist, &plan, given, &wanted);
}

fn check_told_refused(twist: Twist, plan: &[u8], given: &Lengths, answer: Answer) {
    let plan = read_plan(plan).plan;
    let wanted = Timetable {
        answer,
        ..Timetable::ZERO
    };
    check_both(twist, &plan, given, &wanted);
}

fn check_both(twist: Twist, plan: &Plan, given: &Lengths, wanted: &Timetable) {
    let rule = Rule::EarlyStart;
    assert!(timetable(plan, rule, given) == *wanted);
    assert!(proved::timetable(plan, rule, given) == *wanted);
    assert!(NONE.timetable(plan, rule, given) == *wanted);
    assert!(twist.timetable(plan, rule, given) != *wanted);
}

/// Task 2 waits for 1, and 3 for both; 2 is not ready before 2, and 3 not before 5.
const THREE: &[u8] = b"plan\t2\t1\t3
task\t1\t1\t0\t0\t4\t-\t-
task\t2\t1\t2\t4\t6\t-\t-
task\t3\t1\t5\t6\t9\t-\t-
";

/// The same tasks by falling planned start, always ready.
const FALLING: &[u8] = b"plan\t1\t1\t3
task\t1\t1\t6\t9\t-\t-
task\t2\t1\t4\t6\t-\t-
task\t3\t1\t0\t4\t-\t-
";

fn lengths(of_tasks: &[u32]) -> Lengths {
    let mut given = Lengths {
        length: [0; 64],
        dropped: [0; 64],
    };
    given.length[..of_tasks.len()].copy_from_slice(of_tasks);
    given
}

fn dropping(task: usize, mut given: Lengths) -> Lengths {
    given.dropped[task - 1] = DROPPED;
    given
}

#[test]
fn small_plans_tell_them() {
    let short = lengths(&[3, 1, 1]);
    check_told(ALWAYS_FULL, THREE, &short, &[0, 3, 5], &[3, 4, 6]);
    let quick = lengths(&[1, 1, 1]);
    check_told(READY_IGNORED, THREE, &quick, &[0, 2, 5], &[1, 3, 6]);
    // Task 2 passes at 1, before it is ready; 3 at 3, though its length is 2.
    let dropped = dropping(2, quick);
    check_told(DROPPED_READY_READ, THREE, &dropped, &[0, 1, 5], &[1, 1, 6]);
    let last = dropping(3, lengths(&[1, 1, 2]));
    check_told(DROPPED_KEEP_LENGTHS, THREE, &last, &[0, 2, 3], &[1, 3, 3]);
    let unread = dropping(2, lengths(&[1, 9, 1]));
    check_told(
        DROPPED_LENGTHS_JUDGED,
        THREE,
        &unread,
        &[0, 1, 5],
        &[1, 1, 6],
    );
    let falling = lengths(&[1, 1, 3]);
    check_told(BY_TASK_NUMBER, FALLING, &falling, &[4, 3, 0], &[5, 4, 3]);
    // Nothing stands past task 3 here, and something there.
    check_told(JUDGED_PAST_THE_LAST, THREE, &short, &[0, 3, 5], &[3, 4, 6]);
    let behind = lengths(&[3, 1, 1, 8]);
    check_told(TIMED_PAST_THE_LAST, THREE, &behind, &[0, 3, 5], &[3, 4, 6]);
    let both = dropping(1, lengths(&[1, 0, 1]));
    check_told_refused(DROPS_JUDGED_FIRST, THREE, &both, refusal(22, 2, 0));
}

#[test]
fn the_inputs_of_the_comparison_tell_them_all() {
    let mut rng = Rng::announced("timetable_impostors");
    let mut told = [0; IMPOSTORS.len()];
    for _ in 0..1500 {
        let Case { plan, rule, given } = random_case(&mut rng);
        let found = proved::timetable(&plan, rule, &given);
        assert!(NONE.timetable(&plan, rule, &given) == found);
        for ((_, twist), times) in IMPOSTORS.iter().zip(&mut told) {
            *times += u32::from(twist.timetable(&plan, rule, &given) != found);
        }
    }
    for ((name, _), times) in IMPOSTORS.iter().zip(told) {
        say(&format!(
            "timetable_impostors: {name}: told in {times} of 1500"
        ));
        assert!(times >= 30, "{name}");
    }
}
