//! Chains that are nearly right: each is told from the right one on a small plan worked
//! out by hand, and on random mornings.

use dispatcher::sample::events::{accepted_event, first_drops, is_started, must_take, Event};
use dispatcher::sample::plans::random_plan;
use dispatcher::sample::waiting::{awaited, either_rule, rule_of};
use dispatcher::sample::Rng;
use dispatcher::second::values::DROPPED;
use dispatcher::{open_book, read_plan, why, Book, Rule};

/// The chain of a started task index, as an impostor would have it.
type Told = fn(book: &Book, asked: usize) -> Vec<usize>;

/// The links from the asked task on, by who is the cause of each; an impostor's may go round.
fn links_by(book: &Book, asked: usize, cause: fn(&Book, usize) -> Option<usize>) -> Vec<usize> {
    let mut links = vec![asked];
    while let Some(next) = cause(book, links[links.len() - 1]) {
        links.push(next);
        if links.len() > 64 {
            break;
        }
    }
    links
}

/// Those waited for that ended last, where the chain goes on: the ready tick counts as asked.
fn last_awaited(book: &Book, i: usize, awaits_class: fn(&Book, usize, u32) -> bool) -> Vec<usize> {
    let waited = awaited(&book.plan(), rule_of(book), i);
    let Some(latest) = waited.iter().map(|&j| book.end[j]).max() else {
        return Vec::new();
    };
    if book.start[i] == 0 || awaits_class(book, i, latest) {
        return Vec::new();
    }
    waited
        .into_iter()
        .filter(|&j| book.end[j] == latest)
        .collect()
}

fn is_ready_later(book: &Book, i: usize, latest: u32) -> bool {
    book.dropped[i] != DROPPED && book.ready[i] > latest
}

fn true_chain(book: &Book, asked: usize) -> Vec<usize> {
    links_by(book, asked, |book, i| {
        last_awaited(book, i, is_ready_later).first().copied()
    })
}

/// Impostor: of those that ended last the highest number.
fn highest(book: &Book, asked: usize) -> Vec<usize> {
    links_by(book, asked, |book, i| {
        last_awaited(book, i, is_ready_later).last().copied()
    })
}

/// Impostor: any task that ended then, waited for or not, the lowest.
fn whoever_ended(book: &Book, asked: usize) -> Vec<usize> {
    links_by(book, asked, |book, i| {
        let last = last_awaited(book, i, is_ready_later);
        let tick = book.end[*last.first()?];
        let every = 0..usize::from(book.tasks);
        every.into_iter().find(|&j| j != i && book.end[j] == tick)
    })
}

/// Impostor: a dropped link is left out.
fn without_dropped(book: &Book, asked: usize) -> Vec<usize> {
    let kept = |&(k, i): &(usize, usize)| k == 0 || book.dropped[i] != DROPPED;
    let links = true_chain(book, asked).into_iter().enumerate();
    links.filter(kept).map(|(_, i)| i).collect()
}

/// Impostor: the chain stops where the ready tick equals the latest end.
fn stops_at_equal(book: &Book, asked: usize) -> Vec<usize> {
    links_by(book, asked, |book, i| {
        let awaits =
            |book: &Book, i: usize, latest| book.dropped[i] != DROPPED && book.ready[i] >= latest;
        last_awaited(book, i, awaits).first().copied()
    })
}

/// Impostor: a dropped task's ready tick is read.
fn reads_dropped_ready(book: &Book, asked: usize) -> Vec<usize> {
    links_by(book, asked, |book, i| {
        let awaits = |book: &Book, i: usize, latest| book.ready[i] > latest;
        last_awaited(book, i, awaits).first().copied()
    })
}

/// Impostor: the last task of each board answers, of those the one that ended last: the table
/// by which a report lets tasks go knows no other.
fn last_of_a_board(book: &Book, asked: usize) -> Vec<usize> {
    links_by(book, asked, |book, i| {
        let last = last_awaited(book, i, is_ready_later);
        let tick = book.end[*last.first()?];
        let waited = awaited(&book.plan(), rule_of(book), i);
        let is_last = |j: usize| {
            let beside = waited.iter().filter(|&&k| book.board[k] == book.board[j]);
            beside
                .into_iter()
                .all(|&k| book.finish[k] <= book.finish[j])
        };
        let lasts = waited.iter().filter(|&&j| is_last(j));
        lasts.copied().find(|&j| book.end[j] == tick)
    })
}

const IMPOSTORS: [(&str, Told); 6] = [
    ("the highest of equals", highest),
    ("whoever ended then", whoever_ended),
    ("a dropped link left out", without_dropped),
    ("stopping where ready equals", stops_at_equal),
    ("a dropped task's ready tick", reads_dropped_ready),
    ("the last of each board", last_of_a_board),
];

fn right_chain(book: &Book, asked: usize) -> Vec<usize> {
    let chain = why(book, asked as u32 + 1);
    let numbers = chain.numbers().iter();
    numbers.map(|&number| usize::from(number) - 1).collect()
}

/// The run times along the chain, the asked one's too: an impostor's sum.
fn sum_with_the_asked(book: &Book, links: &[usize]) -> u32 {
    let ran = |&i: &usize| book.end[i].saturating_sub(book.start[i]);
    links.iter().map(ran).sum()
}

/// After the drops and reports the chain of the task by numbers, the right one and the impostor's.
fn check_told(
    text: &str,
    events: &[Event],
    task: usize,
    right: &[usize],
    impostor: (Told, &[usize]),
) {
    let reading = read_plan(text.as_bytes());
    assert!(reading.answer.is_accepted(), "{text:?}");
    let opened = open_book(&reading.plan, Rule::EarlyStart).book;
    let book = events
        .iter()
        .fold(opened, |book, &event| must_take(&book, event));
    let numbers = |links: Vec<usize>| links.iter().map(|i| i + 1).collect::<Vec<_>>();
    assert_eq!(numbers(right_chain(&book, task - 1)), right);
    assert_eq!(numbers(true_chain(&book, task - 1)), right);
    assert_eq!(numbers(impostor.0(&book, task - 1)), impostor.1);
}

const THREE: &str =
    "plan\t1\t3\t3\ntask\t1\t1\t0\t4\t-\t-\ntask\t2\t2\t0\t4\t-\t-\ntask\t3\t1\t4\t6\t-\t-\n";

#[test]
fn of_two_that_ended_last_the_lowest_counts() {
    let events = [Event::End(1, 3), Event::End(2, 3)];
    check_told(THREE, &events, 3, &[3, 1], (highest, &[3, 2]));
}

/// Task 1 ends at 2, when 3 does, and 4 waited for 2 and 3 alone.
#[test]
fn only_a_task_waited_for_counts() {
    let text = "plan\t1\t3\t4\ntask\t1\t1\t0\t9\t-\t-\ntask\t2\t2\t0\t4\t-\t-\ntask\t3\t3\t0\t4\t-\t-\ntask\t4\t2\t4\t6\t-\t-\n";
    let events = [Event::End(2, 1), Event::End(1, 2), Event::End(3, 2)];
    check_told(text, &events, 4, &[4, 3], (whoever_ended, &[4, 1]));
}

/// Task 2 is dropped and passes when 3 ends; it has the lower number, and a link of its own.
#[test]
fn a_dropped_task_is_a_link() {
    let text =
        "plan\t1\t1\t3\ntask\t1\t1\t6\t8\t-\t-\ntask\t2\t1\t4\t6\t-\t-\ntask\t3\t1\t0\t4\t-\t-\n";
    let events = [Event::Drop(2), Event::End(3, 2)];
    check_told(text, &events, 1, &[1, 2, 3], (without_dropped, &[1, 3]));
}

/// Task 2 is ready at 3, when 1 ends.
#[test]
fn a_chain_goes_on_where_ready_equals_the_latest_end() {
    let text = "plan\t2\t1\t2\ntask\t1\t1\t0\t0\t4\t-\t-\ntask\t2\t1\t3\t4\t6\t-\t-\n";
    check_told(
        text,
        &[Event::End(1, 3)],
        2,
        &[2, 1],
        (stops_at_equal, &[2]),
    );
}

/// Task 2 is ready at 4, and is dropped and passes at 3.
#[test]
fn a_dropped_tasks_ready_tick_is_ignored() {
    let text = "plan\t2\t1\t2\ntask\t1\t1\t0\t0\t4\t-\t-\ntask\t2\t1\t4\t4\t6\t-\t-\n";
    let events = [Event::Drop(2), Event::End(1, 3)];
    check_told(text, &events, 2, &[2, 1], (reads_dropped_ready, &[2]));
}

/// Task 2, the last of its board, is dropped and passes when 1 ends, which has the lower number.
#[test]
fn the_last_tasks_of_the_boards_do_not_suffice() {
    let text =
        "plan\t1\t1\t3\ntask\t1\t1\t0\t4\t-\t-\ntask\t2\t1\t4\t6\t-\t-\ntask\t3\t1\t6\t8\t-\t-\n";
    let events = [Event::Drop(2), Event::End(1, 3)];
    check_told(text, &events, 3, &[3, 1], (last_of_a_board, &[3, 2, 1]));
}

/// Task 3 has run from 3 to 5: its own time is no part of its start.
#[test]
fn the_asked_tasks_run_time_is_left_out() {
    let plan = read_plan(THREE.as_bytes()).plan;
    let events = [Event::End(1, 3), Event::End(2, 3), Event::End(3, 5)];
    let opened = open_book(&plan, Rule::EarlyStart).book;
    let book = events
        .iter()
        .fold(opened, |book, &event| must_take(&book, event));
    assert_eq!(right_chain(&book, 2), [2, 0]);
    assert_eq!(book.start[2], 3);
    assert_eq!(sum_with_the_asked(&book, &[2, 0]), 5);
}

/// On random mornings the true chain always agrees, and each impostor is caught.
#[test]
fn random_mornings_catch_every_impostor() {
    let mut rng = Rng::announced("why_impostors");
    let mut caught = [0; IMPOSTORS.len()];
    let mut wrong_sums = 0;
    for _ in 0..300 {
        let book = book_of_a_morning(&mut rng);
        for asked in (0..usize::from(book.tasks)).filter(|&i| is_started(&book, i)) {
            let right = right_chain(&book, asked);
            assert_eq!(true_chain(&book, asked), right, "{book:?}");
            for ((_, told), caught) in IMPOSTORS.iter().zip(&mut caught) {
                *caught += u32::from(told(&book, asked) != right);
            }
            let since = book.start[right[right.len() - 1]];
            let wanted = book.start[asked] - since;
            wrong_sums += u32::from(sum_with_the_asked(&book, &right) != wanted);
        }
    }
    for ((name, _), caught) in IMPOSTORS.iter().zip(caught) {
        println!("{name}: caught {caught} times");
        assert!(caught >= 20, "{name} was caught {caught} times");
    }
    assert!(wrong_sums >= 100, "the asked task's run time: {wrong_sums}");
}

/// A book somewhere along a morning by either rule.
fn book_of_a_morning(rng: &mut Rng) -> Book {
    let plan = random_plan(rng);
    let mut book = open_book(&plan, either_rule(rng)).book;
    for task in first_drops(rng, &book) {
        book = must_take(&book, Event::Drop(task));
    }
    for _ in 0..rng.index(2 * plan.task_count() + 1) {
        let Some(event) = accepted_event(rng, &book, 20) else {
            break;
        };
        book = must_take(&book, event);
    }
    book
}
