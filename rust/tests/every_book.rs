//! Small plans with every book listed: none is missing, and none too many.

use dispatcher::sample::events::starts_past_the_clock;
use dispatcher::sample::every_book::{every_book, morning_of, Morning, AWAITED, CHAIN};
use dispatcher::sample::plans::accepted_plan;
use dispatcher::{open_book, sound, Book, Rule};
use std::collections::HashSet;

/// By Early Start task 2 waits for 1, and 3 for both; 2 and 3 can be dropped.
const THREE: &[u8] = b"plan\t1\t2\t3
task\t1\t1\t0\t2\t-\t-
task\t2\t2\t2\t3\t-\t-
task\t3\t1\t3\t4\t-\t-
";

/// Edition 2. Task 2 waits for nobody and is ready at 1; 3 waits for both, and is
/// not ready before its planned start.
const THREE_AWAITED: &[u8] = b"plan\t2\t2\t3
task\t1\t1\t0\t0\t2\t-\t-
task\t2\t2\t1\t1\t3\t-\t-
task\t3\t1\t3\t3\t4\t-\t-
";

/// What a book can hold of one task, sense or nonsense.
#[derive(Clone, Copy)]
struct State {
    mark: u8,
    dropped: u8,
    start: u32,
    end: u32,
}

fn every_state() -> Vec<State> {
    let mut states = Vec::new();
    for mark in 0..=2 {
        for (dropped, start) in (0..=3).flat_map(|start| [(0, start), (1, start)]) {
            states.extend((0..=4).map(|end| State {
                mark,
                dropped,
                start,
                end,
            }));
        }
    }
    states
}

fn put(book: &mut Book, i: usize, state: State) {
    book.mark[i] = state.mark;
    book.dropped[i] = state.dropped;
    book.start[i] = state.start;
    book.end[i] = state.end;
}

#[test]
fn a_book_of_three_tasks_is_sound_exactly_when_a_run_gives_it() {
    check_every_book_of_three(THREE, Rule::EarlyStart);
}

#[test]
fn so_is_one_with_starts_past_the_clock() {
    check_every_book_of_three(THREE_AWAITED, Rule::EarlyStart);
}

/// Task 2 waits for nobody and cannot be dropped, and 3 waits for 1 alone.
#[test]
fn so_is_one_by_the_clash_rule() {
    check_every_book_of_three(THREE, Rule::Clash);
}

fn check_every_book_of_three(text: &[u8], rule: Rule) {
    let plan = accepted_plan(text);
    let given: HashSet<Morning> = every_book(&plan, rule).iter().map(morning_of).collect();
    let states = every_state();
    let mut found = 0;
    let mut book = open_book(&plan, rule).book;
    for &first in &states {
        put(&mut book, 0, first);
        for &second in &states {
            put(&mut book, 1, second);
            for &third in &states {
                put(&mut book, 2, third);
                book.clock = book.end[..3].iter().max().copied().unwrap_or(0);
                let sound = sound(&book);
                assert_eq!(sound, given.contains(&morning_of(&book)), "{book:?}");
                found += usize::from(sound);
            }
        }
    }
    println!("{found} sound books of {}", states.len().pow(3));
    assert_eq!(found, given.len());
}

/// How many last books have just these tasks dropped.
fn last_books(books: &[Book], dropped: &[usize]) -> usize {
    let finished = |book: &&Book| book.mark[..5] == [2; 5];
    let is_dropped = |i: usize| u8::from(dropped.contains(&(i + 1)));
    let same_drops = |book: &&Book| (0..5).all(|i| book.dropped[i] == is_dropped(i));
    books.iter().filter(finished).filter(same_drops).count()
}

/// Worked out by hand: each drop set's endings of the tasks that run.
#[test]
fn the_last_books_of_the_chain_are_as_many_as_its_endings() {
    // The two rules let the same tasks of the chain go on the same ticks.
    for rule in Rule::BOTH {
        let books = every_book(&accepted_plan(CHAIN), rule);
        let last_books = |dropped: &[usize]| last_books(&books, dropped);
        // Tasks 1, 2 and 4 may take one tick or two, 3 and 5 only one.
        assert_eq!(last_books(&[]), 8);
        assert_eq!(last_books(&[4]), 4);
        assert_eq!(last_books(&[5]), 8);
        assert_eq!(last_books(&[1, 4]), 2);
        assert_eq!(last_books(&[1, 4, 5]), 2);
        assert!(books.iter().all(sound));
    }
}

/// Worked out by hand. Task 1 ends at 2 or 3, 2 at 1 or 2, 3 a tick or two after
/// it starts at the end of 2; 4 takes a tick from 3 on, and 5 one or two.
#[test]
fn the_last_books_with_ready_ticks_are_as_many_as_their_endings() {
    let books = every_book(&accepted_plan(AWAITED), Rule::EarlyStart);
    let last_books = |dropped: &[usize]| last_books(&books, dropped);
    // 1, 2, 3 and 5 have two endings each.
    assert_eq!(last_books(&[]), 16);
    assert_eq!(last_books(&[5]), 8);
    assert_eq!(last_books(&[3]), 8);
    // Without 4, that is 5 as well at the latest end of the others.
    assert_eq!(last_books(&[4]), 16);
    assert_eq!(last_books(&[4, 5]), 8);
    // A task that waits for nobody is never dropped.
    assert_eq!(last_books(&[1]), 0);
    // At clock 0 that of 1, with any of 3, 4 and 5 dropped. At 2 that of 4, 5 dropped or
    // not: where 2 ended at 1, task 3 runs, has ended or is dropped; at 2, it runs or is dropped.
    let past_the_clock = |book: &&Book| !starts_past_the_clock(book).is_empty();
    assert_eq!(books.iter().filter(past_the_clock).count(), 8 + 2 * 5);
    assert!(books.iter().all(sound));
}

/// Worked out by hand. Task 3 waits for nobody and starts at 1, 4 for 2 alone, and 5
/// for 1 and 4.
#[test]
fn the_last_books_by_the_clash_rule_are_as_many_as_their_endings() {
    let books = every_book(&accepted_plan(AWAITED), Rule::Clash);
    let last_books = |dropped: &[usize]| last_books(&books, dropped);
    // 1 and 3 end at 2 or 3, 2 at 1 or 2, 4 at 4, and 5 at 5 or 6.
    assert_eq!(last_books(&[]), 16);
    assert_eq!(last_books(&[5]), 8);
    // Without 4, that is 5 a tick or two after the end of 1.
    assert_eq!(last_books(&[4]), 16);
    assert_eq!(last_books(&[4, 5]), 8);
    // 3 waits for nobody by this rule.
    assert_eq!(last_books(&[3]), 0);
    // At clock 0 those of 1 and 3, with any of 4 and 5 dropped. Then that of 4, 5 dropped or
    // not: at 1 where 2 has ended; at 2 where it ended at 1 and 1, 3 or both at 2, or it
    // ended at 2 and any of 1 and 3 too.
    let past_the_clock = |book: &&Book| !starts_past_the_clock(book).is_empty();
    assert_eq!(
        books.iter().filter(past_the_clock).count(),
        4 + 2 + 2 * (3 + 4)
    );
    assert!(books.iter().all(sound));
}
