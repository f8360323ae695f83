//! Rules of waiting that are nearly the clash rule: each is told from it on a small plan
//! worked out by hand, and on random mornings.

use dispatcher::sample::mornings::random_morning;
use dispatcher::sample::plans::random_plan;
use dispatcher::sample::Rng;
use dispatcher::second::judge::{clash, clash_by_drive};
use dispatcher::second::values::{drive_of, is_exclusive, items, ENDED, RUNNING, WAITING};
use dispatcher::{open_book, read_plan, report, sound, Answer, Book, Plan, Rule};

/// Whether task index i waits for task index j.
type WaitRule = fn(plan: &Plan, i: usize, j: usize) -> bool;

fn is_planned_before(plan: &Plan, i: usize, j: usize) -> bool {
    plan.finish[j] <= plan.begin[i]
}

fn has_same_board(plan: &Plan, i: usize, j: usize) -> bool {
    plan.board[i] == plan.board[j]
}

fn lists(plan: &Plan, i: usize, j: usize) -> bool {
    items(plan.after_places(i)).contains(&(j as u8 + 1))
}

/// A common drive, each hold of which is as asked.
fn have_common_drive(plan: &Plan, i: usize, j: usize, counts: fn(u8, u8) -> bool) -> bool {
    let (mine, others) = (items(plan.hold_places(i)), items(plan.hold_places(j)));
    mine.iter().any(|&a| {
        let same_drive = |b: &&u8| drive_of(**b) == drive_of(a);
        others.iter().filter(same_drive).any(|&b| counts(a, b))
    })
}

fn true_rule(plan: &Plan, i: usize, j: usize) -> bool {
    is_planned_before(plan, i, j) && clash(plan, i, j)
}

/// Impostor: only tasks of the same board clash.
fn board_alone(plan: &Plan, i: usize, j: usize) -> bool {
    is_planned_before(plan, i, j) && has_same_board(plan, i, j)
}

/// Impostor: a drive that both only share makes them clash too.
fn any_common_drive(plan: &Plan, i: usize, j: usize) -> bool {
    let drive = have_common_drive(plan, i, j, |_, _| true);
    is_planned_before(plan, i, j) && (drive || clash(plan, i, j))
}

/// Impostor: a drive makes them clash only where both hold it exclusively.
fn both_exclusive(plan: &Plan, i: usize, j: usize) -> bool {
    let drive = have_common_drive(plan, i, j, |a, b| is_exclusive(a) && is_exclusive(b));
    let after = lists(plan, i, j) || lists(plan, j, i);
    is_planned_before(plan, i, j) && (drive || after || has_same_board(plan, i, j))
}

/// Impostor: a drive makes them clash only where the one that waits holds it exclusively.
fn own_exclusive(plan: &Plan, i: usize, j: usize) -> bool {
    let drive = have_common_drive(plan, i, j, |own, _| is_exclusive(own));
    let after = lists(plan, i, j) || lists(plan, j, i);
    is_planned_before(plan, i, j) && (drive || after || has_same_board(plan, i, j))
}

/// Impostor: of after only whether the other one lists this one is looked at, which
/// it cannot where it is planned before.
fn listed_by_the_other(plan: &Plan, i: usize, j: usize) -> bool {
    let clash = has_same_board(plan, i, j) || clash_by_drive(plan, i, j) || lists(plan, j, i);
    is_planned_before(plan, i, j) && clash
}

/// Impostor: waits for all that clash, whatever their planned times.
fn whatever_the_times(plan: &Plan, i: usize, j: usize) -> bool {
    i != j && clash(plan, i, j)
}

const IMPOSTORS: [(&str, WaitRule); 6] = [
    ("board alone", board_alone),
    ("any common drive", any_common_drive),
    ("both exclusive", both_exclusive),
    ("own hold exclusive", own_exclusive),
    ("listed by the other", listed_by_the_other),
    ("whatever the times", whatever_the_times),
];

/// Whether the rule holds the task back, with those ended that have in the book.
fn holds_back(waits: WaitRule, plan: &Plan, book: &Book, i: usize) -> bool {
    let left = (0..plan.task_count()).filter(|&j| book.mark[j] != ENDED);
    left.into_iter().any(|j| waits(plan, i, j))
}

/// Whether just those tasks wait in the book that the rule holds back.
fn agrees(waits: WaitRule, plan: &Plan, book: &Book) -> bool {
    let waiting = |i: usize| book.mark[i] == WAITING;
    (0..plan.task_count()).all(|i| waiting(i) == holds_back(waits, plan, book, i))
}

/// Two tasks, the second planned from the first one's finish on, with these lists.
fn two_tasks(boards: [u8; 2], holds: [&str; 2], after: &str) -> Plan {
    let [a, b] = boards;
    let [first, second] = holds;
    let text = format!(
        "plan\t1\t2\t2\ntask\t1\t{a}\t0\t4\t{first}\t-\ntask\t2\t{b}\t4\t6\t{second}\t{after}\n"
    );
    let reading = read_plan(text.as_bytes());
    assert_eq!(reading.answer, Answer::ACCEPTED, "{text:?}");
    reading.plan
}

/// Opened by the clash rule, the second task has this mark; the impostor would have it
/// otherwise.
fn check_told(plan: &Plan, impostor: WaitRule, second: u8) {
    let book = open_book(plan, Rule::Clash).book;
    assert_eq!(book.mark[..2], [RUNNING, second]);
    assert!(agrees(true_rule, plan, &book));
    assert!(!agrees(impostor, plan, &book));
}

#[test]
fn clash_by_board_alone() {
    // Both would hold drive 1 at once; or 2 would run beside the one it comes after.
    check_told(&two_tasks([1, 2], ["e1", "e1"], "-"), board_alone, WAITING);
    check_told(&two_tasks([1, 2], ["-", "-"], "1"), board_alone, WAITING);
}

#[test]
fn drives_without_shared_against_exclusive() {
    // Two that share a drive need not wait for one another.
    let shared = two_tasks([1, 2], ["s1", "s1"], "-");
    check_told(&shared, any_common_drive, RUNNING);
    // One of the two exclusive is enough, whichever it is.
    let exclusive_first = two_tasks([1, 2], ["e1", "s1"], "-");
    let exclusive_second = two_tasks([1, 2], ["s1", "e1"], "-");
    check_told(&exclusive_first, both_exclusive, WAITING);
    check_told(&exclusive_second, both_exclusive, WAITING);
    check_told(&exclusive_first, own_exclusive, WAITING);
    // Of several drives each counts, and different drives do not.
    let second_drive = two_tasks([1, 2], ["s1,e2", "s1,s2"], "-");
    check_told(&second_drive, own_exclusive, WAITING);
    let apart = open_book(&two_tasks([1, 2], ["e1,s2", "s2,e3"], "-"), Rule::Clash);
    assert_eq!(apart.book.mark[..2], [RUNNING, RUNNING]);
    // The last drive counts as the first does.
    let last = open_book(&two_tasks([1, 2], ["s32", "e32"], "-"), Rule::Clash);
    assert_eq!(last.book.mark[..2], [RUNNING, WAITING]);
}

#[test]
fn after_in_one_direction_only() {
    let plan = two_tasks([1, 2], ["-", "-"], "1");
    check_told(&plan, listed_by_the_other, WAITING);
}

#[test]
fn waiting_for_all_that_clash_whatever_their_planned_times() {
    // Each would wait for the other, and nobody would ever start.
    let plan = two_tasks([1, 1], ["-", "-"], "-");
    check_told(&plan, whatever_the_times, WAITING);
    let book = open_book(&plan, Rule::Clash).book;
    assert!(holds_back(whatever_the_times, &plan, &book, 0));
}

#[test]
fn a_book_that_changes_its_rule_at_a_report() {
    // 4 waits for 1 and 3 of its board, and by Early Start for 2 besides.
    let text = b"plan\t1\t2\t4
task\t1\t1\t0\t2\t-\t-
task\t2\t2\t0\t6\t-\t-
task\t3\t1\t2\t4\t-\t-
task\t4\t1\t6\t8\t-\t-
";
    let plan = read_plan(text).plan;
    let (early_start, clash) = (Rule::EarlyStart, Rule::Clash);
    for (rule, other, last_mark) in [(clash, early_start, RUNNING), (early_start, clash, WAITING)] {
        let book = report(&open_book(&plan, rule).book, 1, 1).book;
        assert_eq!(book.rule, rule as u8);
        let mut changed = book;
        changed.rule = other as u8;
        // The change cannot be seen yet: by both rules 1 has ended and 2 and 3 run.
        assert!(sound(&book) && sound(&changed));
        let next = report(&book, 3, 2).book;
        let impostor = report(&changed, 3, 2).book;
        assert_eq!(next.mark[3], last_mark, "{rule:?}");
        assert_ne!(impostor.mark[3], last_mark, "{rule:?}");
    }
}

#[test]
fn random_mornings_tell_them_all() {
    let mut rng = Rng::announced("random_mornings_tell_them_all");
    let mut told = [0; IMPOSTORS.len()];
    for _ in 0..1000 {
        let plan = random_plan(&mut rng);
        let books = random_morning(&mut rng, &plan, Rule::Clash).books;
        assert!(books.iter().all(|book| agrees(true_rule, &plan, book)));
        for ((_, impostor), times) in IMPOSTORS.iter().zip(&mut told) {
            *times += u32::from(!books.iter().all(|book| agrees(*impostor, &plan, book)));
        }
    }
    for ((name, _), times) in IMPOSTORS.iter().zip(told) {
        println!("{name}: told in {times} of 1000 mornings");
        assert!(times >= 10, "{name}");
    }
}
