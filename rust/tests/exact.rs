//! The exact figure: values worked out by hand, every later sequence of small plans, and
//! figures that are nearly it.

use dispatcher::sample::events::{book_after, Event};
use dispatcher::sample::every_book::{AWAITED, CHAIN};
use dispatcher::sample::every_later::EveryLater;
use dispatcher::sample::mornings::random_morning;
use dispatcher::sample::plan_a::{PLAN_A, REPORTS_A};
use dispatcher::sample::plans::{accepted_plan, random_plan};
use dispatcher::sample::tally::say;
use dispatcher::sample::waiting::{awaited, either_rule, rule_of};
use dispatcher::sample::Rng;
use dispatcher::second::values::{DROPPED, ENDED, RUNNING, WAITING};
use dispatcher::{exact_early, minimum_early, proved};
use dispatcher::{Answer, Book, Exact, Plan, Rule};
use Event::{Drop, End};

/// One board with a gap: M is 0 until task 1 has ended, and task 2 cannot start after 4.
const GAP: &[u8] = b"plan\t1\t1\t2
task\t1\t1\t0\t4\t-\t-
task\t2\t1\t10\t12\t-\t-
";

/// Edition 2. Tasks 3 and 4 wait for 1 and 2, and 5 for all; 4 is ready only at 9.
const GAPS: &[u8] = b"plan\t2\t2\t5
task\t1\t1\t0\t0\t4\t-\t-
task\t2\t2\t0\t0\t6\t-\t-
task\t3\t1\t2\t10\t14\t-\t-
task\t4\t2\t9\t12\t15\t-\t-
task\t5\t1\t0\t20\t22\t-\t-
";

/// Edition 2, small enough for every later sequence: 3 is ready late, 4 waits for it.
const SMALL_GAPS: &[u8] = b"plan\t2\t2\t4
task\t1\t1\t0\t0\t2\t-\t-
task\t2\t2\t0\t0\t3\t-\t-
task\t3\t2\t4\t6\t8\te1\t-
task\t4\t1\t1\t9\t10\te1\t-
";

fn after(text: &[u8], events: &[Event]) -> Book {
    book_after(text, Rule::EarlyStart, events)
}

fn shown(figure: Option<u32>) -> Exact {
    Exact {
        answer: Answer::ACCEPTED,
        known: figure.is_some(),
        early: figure.unwrap_or(0),
    }
}

/// Both say so, and M is no larger.
fn check(book: &Book, figure: Option<u32>) {
    assert_eq!(exact_early(book), shown(figure), "{book:?}");
    assert_eq!(proved::exact_early(book), shown(figure), "{book:?}");
    let least = minimum_early(book).early;
    assert!(figure.is_none_or(|figure| least <= figure), "{book:?}");
}

fn check_after(text: &[u8], events: &[Event], early: u32, figure: Option<u32>) {
    let book = after(text, events);
    assert_eq!(minimum_early(&book).early, early, "{events:?}");
    check(&book, figure);
}

#[test]
fn along_plan_a() {
    let wanted = [(0, Some(0)), (0, Some(1)), (1, Some(1)), (3, None)];
    let wanted = wanted.into_iter().chain([(3, None), (0, None)]);
    for (reports, (early, figure)) in wanted.enumerate() {
        let told = REPORTS_A[..reports].iter();
        let events: Vec<Event> = told.map(|&(task, tick)| End(task, tick)).collect();
        check_after(PLAN_A, &events, early, figure);
    }
}

#[test]
fn across_a_gap() {
    check_after(GAP, &[], 0, Some(6));
    check_after(GAP, &[Drop(2)], 0, Some(6));
    check_after(GAP, &[End(1, 3)], 7, None);
    check_after(GAP, &[Drop(2), End(1, 3)], 0, None);
    // 3 at 6, 4 at 9, 5 at 12 at the latest.
    check_after(GAPS, &[], 0, Some(3));
    // Then 4 at 6 too, its ready tick ignored, and 5 at 10.
    check_after(GAPS, &[Drop(4)], 0, Some(4));
    // Dropped tasks that wait have not started: 3 and 4 at 6.
    check_after(GAPS, &[Drop(3), Drop(4)], 0, Some(4));
    // The start of 4 is known to be 9, and the clock is at 3.
    check_after(GAPS, &[End(1, 2), End(2, 3)], 3, Some(3));
    check_after(GAPS, &[End(1, 2), End(2, 3), End(3, 5)], 3, Some(3));
    let to_five = [End(1, 2), End(2, 3), End(3, 5), End(4, 11)];
    check_after(GAPS, &to_five, 9, None);
}

#[test]
fn a_book_that_is_not_sound_has_none() {
    let refused = Exact {
        answer: Answer::UNSOUND,
        known: false,
        early: 0,
    };
    for unsound in [Book::ZERO, ahead_of_time(&after(GAP, &[]))] {
        assert_eq!(exact_early(&unsound), refused);
        assert_eq!(proved::exact_early(&unsound), refused);
    }
}

/// With a clock that no report gave.
fn ahead_of_time(book: &Book) -> Book {
    Book { clock: 1, ..*book }
}

/// The least planned start less latest start over the tasks not started at the clock.
fn largest_true(book: &Book, latest_starts: &[Option<u32>; 64]) -> Option<u32> {
    let left = (0..usize::from(book.tasks)).filter(|&i| is_left(book, i));
    left.map(|i| book.begin[i] - latest_starts[i].expect("every task can start"))
        .min()
}

fn is_left(book: &Book, i: usize) -> bool {
    book.mark[i] == WAITING || book.clock < book.start[i]
}

/// Every book of the plan with every later sequence, by reports alone and with further
/// drops; how many have a figure, and how many one above M.
fn check_every_later(text: &[u8], rule: Rule) -> [u32; 3] {
    let every = EveryLater::of(&accepted_plan(text), rule);
    let with_drops = every.latest_starts(true);
    let by_reports = every.latest_starts(false);
    let mut counted = [0; 3];
    for (at, book) in every.books.iter().enumerate() {
        let figure = largest_true(book, &by_reports[at]);
        check(book, figure);
        assert_eq!(largest_true(book, &with_drops[at]), figure, "{book:?}");
        let above = figure.is_some_and(|figure| minimum_early(book).early < figure);
        let seen = [true, figure.is_some(), above];
        for (times, is_seen) in counted.iter_mut().zip(seen) {
            *times += u32::from(is_seen);
        }
    }
    counted
}

/// No larger figure is true, and this one is, with further drops too.
#[test]
fn it_is_the_largest_over_every_later_sequence() {
    check_largest("plan A", PLAN_A, &[Rule::EarlyStart]);
    check_largest("the chain", CHAIN, &Rule::BOTH);
    check_largest("ready ticks", AWAITED, &Rule::BOTH);
    check_largest("a gap", GAP, &Rule::BOTH);
    check_largest("gaps", SMALL_GAPS, &Rule::BOTH);
}

fn check_largest(name: &str, text: &[u8], rules: &[Rule]) {
    for &rule in rules {
        let [books, figures, above] = check_every_later(text, rule);
        say(&format!(
            "{name} by {rule:?}: {books} books, {figures} with a figure, {above} above M"
        ));
        assert!(figures > 0 && books > figures);
    }
}

/// A figure, right or wrong; late by its minus.
type Figure = Option<i64>;

/// How a morning is run ahead.
struct Ahead {
    /// The end of a running task.
    running: fn(&Book, usize) -> u32,
    /// The length of a waiting one that is not dropped.
    waiting: fn(&Book, usize) -> u32,
    /// Whether the ready tick of a dropped one is read.
    dropped_ready: bool,
    /// Whose starts count.
    counts: fn(&Book, usize) -> bool,
}

fn length(book: &Book, i: usize) -> u32 {
    book.finish[i] - book.begin[i]
}

fn limit(book: &Book, i: usize) -> u32 {
    book.start[i] + length(book, i)
}

const RIGHT: Ahead = Ahead {
    running: limit,
    waiting: length,
    dropped_ready: false,
    counts: is_left,
};

impl Ahead {
    fn start(&self, (plan, book): (&Plan, &Book), ends: &[u32], i: usize) -> u32 {
        if book.mark[i] != WAITING {
            return book.start[i];
        }
        let waited = awaited(plan, rule_of(book), i);
        let due = waited.iter().map(|&j| ends[j]).max().unwrap_or(0);
        if book.dropped[i] == DROPPED && !self.dropped_ready {
            return due;
        }
        due.max(book.ready[i])
    }

    fn end(&self, book: &Book, start: u32, i: usize) -> u32 {
        match (book.mark[i], book.dropped[i]) {
            (ENDED, _) => book.end[i],
            (RUNNING, _) => (self.running)(book, i),
            (_, DROPPED) => start,
            _ => start + (self.waiting)(book, i),
        }
    }

    fn figure(&self, book: &Book) -> Figure {
        let mut tasks: Vec<usize> = (0..usize::from(book.tasks)).collect();
        tasks.sort_by_key(|&i| book.begin[i]);
        let plan = book.plan();
        let mut ends = [0; 64];
        let mut least = None;
        for i in tasks {
            let start = self.start((&plan, book), &ends, i);
            ends[i] = self.end(book, start, i);
            let early = i64::from(book.begin[i]) - i64::from(start);
            if (self.counts)(book, i) {
                least = Some(least.map_or(early, |least: i64| least.min(early)));
            }
        }
        least
    }
}

fn right(book: &Book) -> Figure {
    RIGHT.figure(book)
}

/// Impostor: M itself.
fn m_itself(book: &Book) -> Figure {
    Some(minimum_early(book).early.into())
}

/// Impostor: running tasks counted too.
fn running_too(book: &Book) -> Figure {
    let counts = |book: &Book, i: usize| book.mark[i] != ENDED;
    Ahead { counts, ..RIGHT }.figure(book)
}

/// Impostor: a running task ends at the clock.
fn ended_by_the_clock(book: &Book) -> Figure {
    let running = |book: &Book, _: usize| book.clock;
    Ahead { running, ..RIGHT }.figure(book)
}

/// Impostor: a running task takes its whole length from the clock on.
fn begun_at_the_clock(book: &Book) -> Figure {
    let running = |book: &Book, i: usize| book.clock + length(book, i);
    Ahead { running, ..RIGHT }.figure(book)
}

/// Impostor: a known start past the clock counts as started.
fn known_is_started(book: &Book) -> Figure {
    let counts = |book: &Book, i: usize| book.mark[i] == WAITING;
    Ahead { counts, ..RIGHT }.figure(book)
}

/// Impostor: a dropped task's ready tick is read.
fn dropped_awaited(book: &Book) -> Figure {
    let dropped_ready = true;
    Ahead {
        dropped_ready,
        ..RIGHT
    }
    .figure(book)
}

/// Impostor: dropped tasks are left out, as they are of M's terms.
fn dropped_left_out(book: &Book) -> Figure {
    let counts = |book: &Book, i: usize| is_left(book, i) && book.dropped[i] != DROPPED;
    Ahead { counts, ..RIGHT }.figure(book)
}

/// Impostor: 0 for "none".
fn zero_for_none(book: &Book) -> Figure {
    Some(right(book).unwrap_or(0))
}

/// No impostor: the lengths of waiting tasks do not matter, so they may be none.
fn waiting_at_no_length(book: &Book) -> Figure {
    let waiting = |_: &Book, _: usize| 0;
    Ahead { waiting, ..RIGHT }.figure(book)
}

const IMPOSTORS: [(&str, fn(&Book) -> Figure); 8] = [
    ("M itself", m_itself),
    ("running tasks counted too", running_too),
    ("a running task ends at the clock", ended_by_the_clock),
    ("a running task begins at the clock", begun_at_the_clock),
    ("a known start past the clock is started", known_is_started),
    ("a dropped task's ready tick is read", dropped_awaited),
    ("dropped tasks are left out", dropped_left_out),
    ("0 for none", zero_for_none),
];

#[test]
fn impostors_on_a_plan_with_gaps() {
    let fresh = after(GAPS, &[]);
    assert_eq!(right(&fresh), Some(3));
    assert_eq!(m_itself(&fresh), Some(0));
    assert_eq!(running_too(&fresh), Some(0));
    let dropped = after(GAPS, &[Drop(4)]);
    assert_eq!(right(&dropped), Some(4));
    assert_eq!(ended_by_the_clock(&dropped), Some(8));
    assert_eq!(dropped_awaited(&dropped), Some(3));
    let both = after(GAPS, &[Drop(3), Drop(4)]);
    assert_eq!(right(&both), Some(4));
    assert_eq!(dropped_left_out(&both), Some(14));
    let one_ended = after(GAPS, &[Drop(4), End(1, 2)]);
    assert_eq!(right(&one_ended), Some(4));
    assert_eq!(begun_at_the_clock(&one_ended), Some(2));
    let known = after(GAPS, &[End(1, 2), End(2, 3)]);
    assert_eq!(right(&known), Some(3));
    assert_eq!(known_is_started(&known), Some(8));
    let all_started = after(GAP, &[End(1, 3)]);
    assert_eq!(right(&all_started), None);
    assert_eq!(zero_for_none(&all_started), Some(0));
}

const MORNINGS: u32 = 400;

fn proved_figure(book: &Book) -> Figure {
    let figure = proved::exact_early(book);
    figure.known.then_some(i64::from(figure.early))
}

#[test]
fn random_mornings_tell_them_all() {
    let mut rng = Rng::announced("exact::random_mornings_tell_them_all");
    let mut told = [0; IMPOSTORS.len()];
    for _ in 0..MORNINGS {
        let (plan, rule) = (random_plan(&mut rng), either_rule(&mut rng));
        let books = random_morning(&mut rng, &plan, rule).books;
        let figures: Vec<Figure> = books.iter().map(proved_figure).collect();
        for (book, &figure) in books.iter().zip(&figures) {
            assert_eq!(right(book), figure);
            assert_eq!(waiting_at_no_length(book), figure);
        }
        for ((_, impostor), times) in IMPOSTORS.iter().zip(&mut told) {
            let mut pairs = books.iter().zip(&figures);
            *times += u32::from(pairs.any(|(book, figure)| impostor(book) != *figure));
        }
    }
    for ((name, _), times) in IMPOSTORS.iter().zip(told) {
        say(&format!("{name}: told in {times} of {MORNINGS} mornings"));
        assert!(times >= 8, "{name}");
    }
}
