//! Judging a plan handed in as a value, whatever its bytes hold.
//!
//! Settled here where the document is silent: `first_faulty_pair` of a plan
//! that breaks other rules looks at no more than 64 tasks and at each list up
//! to its first empty place, so that it answers for any bytes.

use super::values::{
    drive_of, is_exclusive, items, refusal, Answer, Plan, EDITION_1, EDITION_2, LAST_TICK,
    MOST_BOARDS, MOST_DRIVES, MOST_TASKS,
};

/// Whether the plan is accepted.
pub fn accepted(plan: &Plan) -> bool {
    clashes_if_accepted(plan).is_some()
}

/// What the plan is judged: 9 where its ranges are broken, then 17, then the first faulty pair.
pub fn judge_plan(plan: &Plan) -> Answer {
    if !keeps_ranges(plan) {
        return Answer::UNSOUND;
    }
    let fault = late_beginning(plan).or_else(|| first_faulty_pair(plan));
    fault.unwrap_or(Answer::ACCEPTED)
}

/// The plan's clashes, which are looked at to judge it, where it is accepted.
pub fn clashes_if_accepted(plan: &Plan) -> Option<Clashes<'_>> {
    if !keeps_ranges(plan) || late_beginning(plan).is_some() {
        return None;
    }
    let clashes = Clashes::of(plan);
    clashes.first_faulty_pair().is_none().then_some(clashes)
}

/// Refusal 17 with the least planned start, when that is not tick 0.
pub fn late_beginning(plan: &Plan) -> Option<Answer> {
    let least = plan.begin[..plan.task_count()].iter().min()?;
    (*least > 0).then(|| refusal(17, *least, 0))
}

/// The first faulty pair by a, then b, as its refusal; None when there is none.
pub fn first_faulty_pair(plan: &Plan) -> Option<Answer> {
    Clashes::of(plan).first_faulty_pair()
}

/// Numbers and lists keep their ranges and rules, and nothing is kept past
/// the last task or a list's last item.
fn keeps_ranges(plan: &Plan) -> bool {
    if ![EDITION_1, EDITION_2].contains(&plan.edition) {
        return false;
    }
    if !(1..=MOST_BOARDS).contains(&plan.boards) || !(1..=MOST_TASKS).contains(&plan.tasks) {
        return false;
    }
    let count = plan.task_count();
    (0..count).all(|i| task_keeps_ranges(plan, i)) && (count..64).all(|i| place_is_empty(plan, i))
}

fn task_keeps_ranges(plan: &Plan, i: usize) -> bool {
    (1..=plan.boards).contains(&plan.board[i])
        && plan.ready[i] <= plan.begin[i]
        && (plan.edition == EDITION_2 || plan.ready[i] == 0)
        && plan.begin[i] < plan.finish[i]
        && plan.finish[i] <= LAST_TICK
        && holds_keep_rules(plan.hold_places(i))
        && shares_as_its_edition(plan, i)
        && after_keeps_rules(plan.after_places(i), plan.tasks)
}

fn place_is_empty(plan: &Plan, i: usize) -> bool {
    plan.board[i] == 0
        && plan.ready[i] == 0
        && plan.begin[i] == 0
        && plan.finish[i] == 0
        && is_all_zero(plan.hold_places(i))
        && is_all_zero(plan.after_places(i))
}

fn holds_keep_rules(places: &[u8]) -> bool {
    let held = items(places);
    held.iter()
        .all(|&hold| (1..=MOST_DRIVES).contains(&drive_of(hold)))
        && held.windows(2).all(|w| drive_of(w[0]) < drive_of(w[1]))
        && is_all_zero(&places[held.len()..])
}

/// In edition 2 every hold is exclusive.
fn shares_as_its_edition(plan: &Plan, i: usize) -> bool {
    plan.edition == EDITION_1 || plan.hold_places(i).iter().all(|&hold| is_exclusive(hold))
}

fn after_keeps_rules(places: &[u8], tasks: u8) -> bool {
    let listed = items(places);
    listed.iter().all(|&task| task <= tasks)
        && listed.windows(2).all(|w| w[0] < w[1])
        && is_all_zero(&places[listed.len()..])
}

fn is_all_zero(places: &[u8]) -> bool {
    places.iter().all(|&byte| byte == 0)
}

/// The first of 6, 7, 8 that the pair of task indices breaks, or 0.
fn pair_fault(plan: &Plan, sets: &[Sets; 64], a: usize, b: usize) -> u32 {
    if a != b && overlap(plan, a, b) {
        if plan.board[a] == plan.board[b] {
            return 6;
        }
        if sets[a].clash_by_drive(&sets[b]) {
            return 7;
        }
    }
    let breaks_after = |i: usize, j: usize| plan.finish[j] > plan.begin[i] && sets[i].lists(j);
    if breaks_after(a, b) || breaks_after(b, a) {
        return 8;
    }
    0
}

/// Planned times are half open.
pub fn overlap(plan: &Plan, a: usize, b: usize) -> bool {
    plan.begin[a] < plan.finish[b] && plan.begin[b] < plan.finish[a]
}

/// A common drive that at least one of the two holds exclusively.
pub fn clash_by_drive(plan: &Plan, a: usize, b: usize) -> bool {
    sets_of(plan, a).clash_by_drive(&sets_of(plan, b))
}

/// Same board, a drive, or after: the two may never be at work at once.
pub fn clash(plan: &Plan, a: usize, b: usize) -> bool {
    clash_by_sets(plan, (a, &sets_of(plan, a)), (b, &sets_of(plan, b)))
}

fn clash_by_sets(plan: &Plan, (a, one): (usize, &Sets), (b, other): (usize, &Sets)) -> bool {
    plan.board[a] == plan.board[b] || one.clash_by_drive(other) || one.lists(b) || other.lists(a)
}

/// The lists of all tasks of a plan as sets, for who asks about many pairs.
pub struct Clashes<'a> {
    plan: &'a Plan,
    sets: [Sets; 64],
}

impl Clashes<'_> {
    pub fn of(plan: &Plan) -> Clashes<'_> {
        let mut sets = [Sets::NONE; 64];
        for (i, set) in sets[..plan.task_count()].iter_mut().enumerate() {
            *set = sets_of(plan, i);
        }
        Clashes { plan, sets }
    }

    fn first_faulty_pair(&self) -> Option<Answer> {
        let count = self.plan.task_count();
        for a in 0..count {
            for b in a..count {
                let code = pair_fault(self.plan, &self.sets, a, b);
                if code != 0 {
                    return Some(refusal(code, a as u32 + 1, b as u32 + 1));
                }
            }
        }
        None
    }

    pub fn between(&self, a: usize, b: usize) -> bool {
        clash_by_sets(self.plan, (a, &self.sets[a]), (b, &self.sets[b]))
    }
}

/// One task's lists as sets: bit n stands for drive n, or for task number n.
#[derive(Clone, Copy)]
struct Sets {
    held: u128,
    exclusive: u128,
    after: u128,
}

fn sets_of(plan: &Plan, i: usize) -> Sets {
    let mut sets = Sets::NONE;
    for &hold in items(plan.hold_places(i)) {
        let drive = 1 << drive_of(hold);
        sets.held |= drive;
        if is_exclusive(hold) {
            sets.exclusive |= drive;
        }
    }
    for &task in items(plan.after_places(i)) {
        // A number past 127 names no task that could be looked for.
        sets.after |= 1u128.checked_shl(task.into()).unwrap_or(0);
    }
    sets
}

impl Sets {
    const NONE: Sets = Sets {
        held: 0,
        exclusive: 0,
        after: 0,
    };

    fn clash_by_drive(&self, other: &Sets) -> bool {
        self.exclusive & other.held != 0 || self.held & other.exclusive != 0
    }

    /// Whether task index j is listed under after.
    fn lists(&self, j: usize) -> bool {
        self.after & (2 << j) != 0
    }
}
