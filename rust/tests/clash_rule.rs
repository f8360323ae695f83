//! Request P10's clash rule by examples worked out by hand, and what it shares with Early
//! Start on random mornings. Each random test prints its seed.

use dispatcher::sample::damage::by_the_other_rule;
use dispatcher::sample::events::{book_after, check_refused, must_take, random_book, Event};
use dispatcher::sample::mornings::random_morning;
use dispatcher::sample::pairs::{every_pair, Pair};
use dispatcher::sample::plans::random_plan;
use dispatcher::sample::reports::accepted_report;
use dispatcher::sample::waiting::{either_rule, rule_of};
use dispatcher::sample::Rng;
use dispatcher::second::values::{ENDED, RUNNING, WAITING};
use dispatcher::{drop_task, minimum_early, open_book, report, sound, Answer, Book, Plan, Rule};
use Event::{Drop, End};

/// Seven tasks on three boards. By the clash rule 4 waits for 2, 5 for 3, 6 for 1 and 4,
/// and 7 for 2, 3 and 5; by Early Start 4 and 5 wait for 2 and 3, 6 for 1 to 5, 7 for all.
const SEVEN: &[u8] = b"plan\t1\t3\t7
task\t1\t1\t0\t6\te1\t-
task\t2\t2\t0\t4\ts2\t-
task\t3\t3\t0\t3\ts2\t-
task\t4\t2\t4\t8\ts3\t-
task\t5\t3\t4\t7\ts2\t-
task\t6\t1\t8\t10\te3\t-
task\t7\t3\t10\t13\t-\t2
";

/// The same in edition 2, where 2, 3 and 5 hold no drive; 4 is ready at 3, 7 at 9.
const SEVEN_AWAITED: &[u8] = b"plan\t2\t3\t7
task\t1\t1\t0\t0\t6\te1\t-
task\t2\t2\t0\t0\t4\t-\t-
task\t3\t3\t0\t0\t3\t-\t-
task\t4\t2\t3\t4\t8\te3\t-
task\t5\t3\t0\t4\t7\t-\t-
task\t6\t1\t0\t8\t10\te3\t-
task\t7\t3\t9\t10\t13\t-\t2
";

/// The tasks of that mark, by number.
fn marked(book: &Book, mark: u8) -> Vec<usize> {
    let all = 1..=usize::from(book.tasks);
    all.filter(|task| book.mark[task - 1] == mark).collect()
}

#[test]
fn the_later_of_two_waits_by_the_clash_rule_just_where_they_clash() {
    let (mut clashing, mut others) = (0, 0);
    for pair in every_pair() {
        let Pair { plan, second, .. } = &pair;
        let waits = |rule| open_book(plan, rule).book.mark[*second] == WAITING;
        assert!(waits(Rule::EarlyStart));
        assert_eq!(waits(Rule::Clash), pair.clash, "{plan:?}");
        clashing += u32::from(pair.clash);
        others += u32::from(!pair.clash);
        let marks = open_book(plan, Rule::Clash).book.mark;
        assert_eq!(marks[pair.first], RUNNING);
    }
    println!("{clashing} pairs clash, {others} do not");
    assert!(clashing > 1000 && others > 100);
}

#[test]
fn a_book_carries_the_rule_it_was_opened_by() {
    for (rule, byte) in [(Rule::EarlyStart, 0), (Rule::Clash, 1)] {
        let mut book = book_after(SEVEN, rule, &[]);
        assert_eq!(book.rule, byte);
        for event in [Drop(7), End(2, 1), End(3, 2), Drop(6)] {
            book = must_take(&book, event);
            assert_eq!(book.rule, byte, "{event:?}");
        }
        check_refused(&book, End(7, 3), 11);
        let refused = open_book(&Plan::ZERO, rule);
        assert_eq!(
            (refused.answer, refused.book),
            (Answer::UNSOUND, Book::ZERO)
        );
        assert_eq!(refused.book.rule, 0);
    }
}

#[test]
fn a_task_goes_once_those_that_clash_with_it_have_ended() {
    let fresh = book_after(SEVEN, Rule::Clash, &[]);
    assert_eq!(marked(&fresh, RUNNING), [1, 2, 3]);
    // 5 shares drive 2 with 2, and does not wait for it.
    let book = must_take(&fresh, End(3, 1));
    assert_eq!(marked(&book, RUNNING), [1, 2, 5]);
    assert_eq!(book.start[4], 1);
    let book = must_take(&book, End(2, 2));
    assert_eq!(marked(&book, RUNNING), [1, 4, 5]);
    // 7 goes with the end of 5: it does not wait for 6, which is planned before it.
    let book = must_take(&book, End(5, 3));
    assert_eq!(marked(&book, RUNNING), [1, 4, 7]);
    assert_eq!((book.start[6], minimum_early(&book).early), (3, 0));
    let book = must_take(&book, End(1, 4));
    assert_eq!(marked(&book, WAITING), [6]);
    // 4 is 2 ticks early and 7 is 7.
    assert_eq!(minimum_early(&book).early, 2);
    let book = must_take(&book, End(4, 6));
    assert_eq!((book.start[5], book.begin[5]), (6, 8));
    // 6 may run until 8, 7 only until 6.
    check_refused(&book, End(6, 7), 15);
    check_refused(&book, End(7, 7), 14);
    assert_eq!(must_take(&book, End(7, 6)).clock, 6);
}

#[test]
fn by_early_start_the_same_reports_let_fewer_go() {
    let book = book_after(SEVEN, Rule::EarlyStart, &[End(3, 1)]);
    assert_eq!(marked(&book, RUNNING), [1, 2]);
    let book = must_take(&book, End(2, 2));
    assert_eq!(marked(&book, RUNNING), [1, 4, 5]);
    let book = must_take(&book, End(5, 3));
    assert_eq!(marked(&book, RUNNING), [1, 4]);
}

#[test]
fn ready_ticks_hold_by_the_clash_rule() {
    let book = book_after(SEVEN_AWAITED, Rule::Clash, &[End(3, 1), End(2, 2)]);
    // 4 is known to start at its ready tick, past the clock.
    assert_eq!(marked(&book, RUNNING), [1, 4, 5]);
    assert_eq!((book.start[3], book.start[4]), (3, 1));
    check_refused(&book, End(4, 3), 13);
    check_refused(&book, Drop(4), 19);
    let book = must_take(&book, End(5, 3));
    // 7 waits for 2, 3 and 5, and is not ready before 9.
    assert_eq!((book.mark[6], book.start[6]), (RUNNING, 9));
    // 1 is at work and on time.
    assert_eq!(minimum_early(&book).early, 0);
    let book = must_take(&book, End(1, 4));
    // 4 is at work a tick early; 10 - 9 of 7 and 8 - 0 of 6 are to come.
    assert_eq!(minimum_early(&book).early, 1);
}

#[test]
fn a_dropped_task_passes_once_those_that_clash_with_it_have_ended() {
    let book = book_after(SEVEN, Rule::Clash, &[Drop(5), Drop(7), End(3, 1)]);
    // 5 passes with the end of 3; 7 waits for 2 besides.
    assert_eq!(marked(&book, ENDED), [3, 5]);
    assert_eq!((book.start[4], book.end[4]), (1, 1));
    let book = must_take(&book, End(2, 2));
    assert_eq!(marked(&book, ENDED), [2, 3, 5, 7]);
    assert_eq!((book.start[6], book.end[6]), (2, 2));
    // By Early Start 5 waits for 2 too, and 7 for all.
    let book = book_after(SEVEN, Rule::EarlyStart, &[Drop(5), Drop(7), End(3, 1)]);
    assert_eq!(marked(&book, ENDED), [3]);
}

/// Who waits for nobody by a rule cannot be dropped by it.
#[test]
fn whether_a_task_can_be_dropped_goes_by_the_rule() {
    let text = b"plan\t1\t2\t2\ntask\t1\t1\t0\t4\t-\t-\ntask\t2\t2\t4\t6\t-\t-\n";
    let early_start = book_after(text, Rule::EarlyStart, &[Drop(2)]);
    assert_eq!(early_start.dropped[1], 1);
    let clash = book_after(text, Rule::Clash, &[]);
    assert_eq!((clash.mark[1], clash.start[1]), (RUNNING, 0));
    check_refused(&clash, Drop(2), 19);
    // A passed task that waits for nobody by the book's rule is not sound.
    let mut passed = must_take(&early_start, End(1, 3));
    assert_eq!((passed.mark[1], passed.start[1]), (ENDED, 3));
    passed.rule = Rule::Clash as u8;
    assert!(!sound(&passed));
    (passed.start[1], passed.end[1]) = (0, 0);
    assert!(!sound(&passed));
}

#[test]
fn a_book_whose_rule_is_changed_is_judged_by_the_other() {
    // 5 runs by the clash rule, and by Early Start still waits for 2.
    let clash = book_after(SEVEN, Rule::Clash, &[End(3, 1)]);
    let early_start = book_after(SEVEN, Rule::EarlyStart, &[End(3, 1)]);
    for book in [clash, early_start] {
        let other = by_the_other_rule(&book);
        assert!(!sound(&other));
        assert_eq!(report(&other, 1, 2).answer, Answer::UNSOUND);
        assert_eq!(report(&other, 1, 2).book, other);
        assert_eq!(drop_task(&other, 6).answer, Answer::UNSOUND);
        assert_eq!(minimum_early(&other).answer, Answer::UNSOUND);
    }
    // On a fresh book of this plan both rules let the same tasks go, and later differ.
    let fresh = by_the_other_rule(&book_after(SEVEN, Rule::EarlyStart, &[]));
    assert_eq!(fresh, book_after(SEVEN, Rule::Clash, &[]));
    assert_eq!(must_take(&fresh, End(3, 1)), clash);
}

#[test]
fn no_other_byte_is_a_rule() {
    for byte in 2..=255 {
        let mut book = book_after(SEVEN, Rule::Clash, &[]);
        book.rule = byte;
        assert!(!sound(&book), "{byte}");
        let reported = report(&book, 2, 3);
        assert_eq!((reported.answer, reported.book), (Answer::UNSOUND, book));
        let dropped = drop_task(&book, 4);
        assert_eq!((dropped.answer, dropped.book), (Answer::UNSOUND, book));
        let figure = minimum_early(&book);
        assert_eq!((figure.answer, figure.early), (Answer::UNSOUND, 0));
    }
    assert!(!sound(&Book {
        rule: 1,
        ..Book::ZERO
    }));
}

#[test]
fn nothing_changes_the_rule_of_a_book() {
    let mut rng = Rng::announced("nothing_changes_the_rule_of_a_book");
    for _ in 0..300 {
        let (plan, rule) = (random_plan(&mut rng), either_rule(&mut rng));
        let morning = random_morning(&mut rng, &plan, rule);
        assert!(morning.books.iter().all(|book| rule_of(book) == rule));
    }
}

/// Where all tasks clash with all before them, both rules wait for the same.
#[test]
fn on_one_board_both_rules_are_one() {
    let mut rng = Rng::announced("on_one_board_both_rules_are_one");
    let mut reports = 0;
    for _ in 0..400 {
        let plan = random_plan(&mut rng);
        if plan.boards > 1 {
            continue;
        }
        for book in random_morning(&mut rng, &plan, Rule::EarlyStart).books {
            let other = by_the_other_rule(&book);
            assert!(sound(&other));
            assert_eq!(minimum_early(&other), minimum_early(&book));
            if let Some((task, tick)) = accepted_report(&mut rng, &book) {
                let next = must_take(&book, End(task, tick));
                assert!(must_take(&other, End(task, tick)) == by_the_other_rule(&next));
                reports += 1;
            }
        }
    }
    println!("{reports} reports");
    assert!(reports > 300);
}

/// So that a random test by one rule is none of the other.
#[test]
fn many_random_books_tell_the_rules_apart() {
    let mut rng = Rng::announced("many_random_books_tell_the_rules_apart");
    let (mut apart, mut alike) = (0, 0);
    for _ in 0..1000 {
        let book = random_book(&mut rng);
        if sound(&by_the_other_rule(&book)) {
            alike += 1;
        } else {
            apart += 1;
        }
    }
    println!("{apart} books of one rule alone, {alike} of both");
    assert!(apart > 150 && alike > 150);
}
