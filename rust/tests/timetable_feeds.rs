//! The two engines agree: a dispatcher that is fed a timetable's drops and then its ends in order of
//! time accepts every one and has its starts and ends, and a book in which all has ended is the
//! timetable of its own lengths and drops.

use dispatcher::sample::events::Event;
use dispatcher::sample::every_book::{every_book, AWAITED, CHAIN};
use dispatcher::sample::lengths::{planned_length, taken_lengths};
use dispatcher::sample::mornings::random_morning;
use dispatcher::sample::plan_a::PLAN_A;
use dispatcher::sample::plan_b::PLAN_B;
use dispatcher::sample::plans::{full_plan_of_either, random_plan, small_plan};
use dispatcher::sample::program::{at_root, contents};
use dispatcher::sample::tally::say;
use dispatcher::sample::waiting::{awaited, either_rule, rule_of};
use dispatcher::sample::Rng;
use dispatcher::second::values::{refusal, BookResult, DROPPED, ENDED, WAITING};
use dispatcher::{drop_task, open_book, proved, read_plan, report, timetable};
use dispatcher::{Answer, Book, Lengths, Plan, Rule, Timetable};
use std::collections::{BTreeMap, HashSet};

/// The calls on a book.
struct Dispatcher {
    open: fn(&Plan, Rule) -> BookResult,
    report: fn(&Book, u32, u32) -> BookResult,
    drop: fn(&Book, u32) -> BookResult,
}

const DISPATCHERS: [Dispatcher; 2] = [
    Dispatcher {
        open: proved::open_book,
        report: proved::report,
        drop: proved::drop_task,
    },
    Dispatcher {
        open: open_book,
        report,
        drop: drop_task,
    },
];

const ENGINES: [fn(&Plan, Rule, &Lengths) -> Timetable; 2] = [proved::timetable, timetable];

impl Dispatcher {
    fn answer(&self, book: &Book, event: Event) -> BookResult {
        match event {
            Event::End(task, tick) => (self.report)(book, task, tick),
            Event::Drop(task) => (self.drop)(book, task),
        }
    }

    fn fresh(&self, plan: &Plan, rule: Rule) -> Book {
        let opening = (self.open)(plan, rule);
        assert_eq!(opening.answer, Answer::ACCEPTED);
        opening.book
    }

    /// The book after an event that must be accepted.
    fn fed(&self, book: &Book, event: Event) -> Book {
        let handed = self.answer(book, event);
        assert_eq!(handed.answer, Answer::ACCEPTED, "{event:?}, {book:?}");
        handed.book
    }

    /// Whichever of the events came last, the book is the same, and so is it in every order.
    fn fed_in_every_order(&self, book: &Book, events: &[Event]) -> Book {
        // The books after each set of the events, by its bits.
        let mut books = vec![None; 1 << events.len()];
        books[0] = Some(*book);
        for set in 0..books.len() {
            let before = books[set].expect("a smaller set was fed before");
            for (k, &event) in events.iter().enumerate() {
                let larger = set | 1 << k;
                if larger == set {
                    continue;
                }
                let after = self.fed(&before, event);
                let known = *books[larger].get_or_insert(after);
                assert!(known == after, "{event:?} came last, {known:?}");
            }
        }
        books.pop().flatten().expect("all were fed")
    }
}

/// The drops, and the ends of the others by their ticks.
fn events_of(plan: &Plan, given: &Lengths, found: &Timetable) -> (Vec<Event>, Vec<Vec<Event>>) {
    let mut drops = Vec::new();
    let mut ends: BTreeMap<u32, Vec<Event>> = BTreeMap::new();
    for i in 0..plan.task_count() {
        let (task, tick) = (i as u32 + 1, found.end[i]);
        if given.is_dropped(i) {
            drops.push(Event::Drop(task));
        } else {
            let at_that_tick = ends.entry(tick).or_default();
            at_that_tick.push(Event::End(task, tick));
        }
    }
    (drops, ends.into_values().collect())
}

/// Every task has ended, where the timetable has it.
fn check_finished(book: &Book, given: &Lengths, found: &Timetable) {
    let count = usize::from(book.tasks);
    assert_eq!(book.mark[..count], [ENDED; 64][..count]);
    assert_eq!(book.mark[count..], [WAITING; 64][count..]);
    assert!(book.start == found.start, "{book:?}");
    assert!(book.end == found.end, "{book:?}");
    assert_eq!(Some(&book.clock), found.end.iter().max());
    let is_same = |i: usize| (book.dropped[i] == DROPPED) == given.is_dropped(i);
    assert!((0..count).all(is_same));
}

/// Both engines' timetable, which must be there.
fn found_by_both(plan: &Plan, rule: Rule, given: &Lengths) -> Timetable {
    let [found, by_rust] = ENGINES.map(|engine| engine(plan, rule, given));
    assert_eq!(found.answer, Answer::ACCEPTED, "{given:?}, {plan:?}");
    assert!(found == by_rust, "{given:?}, {plan:?}");
    found
}

/// The end of a dropped task is no report that could be fed.
fn check_dropped_ends(dispatcher: &Dispatcher, book: &Book, found: &Timetable) {
    for i in (0..usize::from(book.tasks)).filter(|&i| book.dropped[i] == DROPPED) {
        let (task, tick) = (i as u32 + 1, found.end[i]);
        let handed = dispatcher.answer(book, Event::End(task, tick));
        assert_eq!(handed.answer, refusal(11, task, tick));
    }
}

/// Feeds both dispatchers in every order; answers whether some tick is that of several ends.
fn feed_in_every_order(plan: &Plan, rule: Rule, given: &Lengths) -> bool {
    let found = found_by_both(plan, rule, given);
    let (drops, ends) = events_of(plan, given, &found);
    for dispatcher in &DISPATCHERS {
        let mut book = dispatcher.fresh(plan, rule);
        for group in [&drops].into_iter().chain(&ends) {
            book = dispatcher.fed_in_every_order(&book, group);
        }
        check_finished(&book, given, &found);
        check_dropped_ends(dispatcher, &book, &found);
    }
    ends.iter().any(|group| group.len() > 1)
}

/// All lengths, each from 1 to the planned one.
fn every_length(plan: &Plan) -> Vec<Lengths> {
    let mut all = vec![Lengths::planned(plan)];
    for i in 0..plan.task_count() {
        let with = |given: Lengths| {
            (1..=planned_length(plan, i)).map(move |ticks| {
                let mut other = given;
                other.length[i] = ticks;
                other
            })
        };
        all = all.into_iter().flat_map(with).collect();
    }
    all
}

/// Those lengths with these tasks dropped, each once: what a dropped task would take is 0 in all.
fn with_drops(plan: &Plan, lengths: &[Lengths], set: u32) -> Vec<Lengths> {
    let is_dropped = |i: usize| set >> i & 1 == 1;
    let of_others = lengths.iter().filter(|given| {
        let full = |i: usize| given.length[i] == planned_length(plan, i);
        (0..plan.task_count()).all(|i| !is_dropped(i) || full(i))
    });
    let dropped = of_others.map(|given| {
        let mut other = *given;
        for i in (0..plan.task_count()).filter(|&i| is_dropped(i)) {
            other.length[i] = 0;
            other.dropped[i] = DROPPED;
        }
        other
    });
    dropped.collect()
}

/// What was fed of small plans.
#[derive(Default, Debug)]
struct Fed {
    timetables: u32,
    with_equal_ticks: u32,
    with_drops: u32,
    refused: u32,
}

/// The first of the tasks that waits for nobody.
fn free_task(plan: &Plan, rule: Rule, set: u32) -> Option<usize> {
    let mut dropped = (0..plan.task_count()).filter(|&i| set >> i & 1 == 1);
    dropped.find(|&i| awaited(plan, rule, i).is_empty())
}

/// Every set of drops: those of tasks that wait for somebody are taken, with all lengths.
fn feed_every_timetable(plan: &Plan, rule: Rule, fed: &mut Fed) {
    let lengths = every_length(plan);
    for set in 0..1 << plan.task_count() {
        let free = free_task(plan, rule, set);
        for given in with_drops(plan, &lengths, set) {
            if let Some(i) = free {
                let answers = ENGINES.map(|engine| engine(plan, rule, &given).answer);
                assert_eq!(answers, [refusal(19, i as u32 + 1, 0); 2]);
                fed.refused += 1;
                continue;
            }
            fed.with_equal_ticks += u32::from(feed_in_every_order(plan, rule, &given));
            fed.with_drops += u32::from(set != 0);
            fed.timetables += 1;
        }
    }
}

#[test]
fn every_timetable_of_small_plans_is_taken_in_every_order() {
    let mut rng = Rng::announced("timetable_feeds, small plans");
    let mut fed = Fed::default();
    for (tasks, plans) in [(2, 100), (3, 200), (4, 150)] {
        for _ in 0..plans {
            let plan = small_plan(&mut rng, tasks);
            for rule in Rule::BOTH {
                feed_every_timetable(&plan, rule, &mut fed);
            }
        }
    }
    say(&format!("timetable_feeds: of small plans {fed:?}"));
    assert!(fed.timetables >= 15_000 && fed.refused >= 10_000);
    assert!(fed.with_equal_ticks >= 3_000 && fed.with_drops >= 5_000);
}

#[test]
fn so_is_every_timetable_of_plans_worked_out_by_hand() {
    let mut fed = Fed::default();
    for text in [CHAIN, AWAITED, PLAN_A, PLAN_B] {
        for rule in Rule::BOTH {
            feed_every_timetable(&read_plan(text).plan, rule, &mut fed);
        }
    }
    say(&format!("timetable_feeds: of known plans {fed:?}"));
    assert!(fed.timetables >= 3_000 && fed.with_equal_ticks >= 1_000);
}

/// Starts, ends and drops.
type Times = ([u32; 64], [u32; 64], [u8; 64]);

/// All timetables of a plan by the rule.
fn every_timetable(plan: &Plan, rule: Rule) -> HashSet<Times> {
    let lengths = every_length(plan);
    let mut all = HashSet::new();
    for set in 0..1 << plan.task_count() {
        if free_task(plan, rule, set).is_some() {
            continue;
        }
        for given in with_drops(plan, &lengths, set) {
            let found = found_by_both(plan, rule, &given);
            all.insert((found.start, found.end, given.dropped));
        }
    }
    all
}

/// Whatever reports and drops were accepted, in whatever order: the books in which all has ended
/// are the timetables of the plan, none missing and none too many.
#[test]
fn the_last_books_of_small_plans_are_their_timetables() {
    for (text, rule) in [CHAIN, AWAITED]
        .into_iter()
        .flat_map(|text| Rule::BOTH.map(|rule| (text, rule)))
    {
        let plan = read_plan(text).plan;
        let books = every_book(&plan, rule);
        let finished = books.iter().filter(|book| book.mark[..5] == [ENDED; 5]);
        let finished: HashSet<Times> = finished
            .map(|book| (book.start, book.end, book.dropped))
            .collect();
        assert!(finished.len() >= 16);
        assert!(finished == every_timetable(&plan, rule));
    }
}

/// Feeds both dispatchers the drops and the ends of each tick in one random order.
fn feed_in_some_order(rng: &mut Rng, plan: &Plan, rule: Rule, given: &Lengths) -> bool {
    let found = found_by_both(plan, rule, given);
    let (mut drops, mut ends) = events_of(plan, given, &found);
    for group in [&mut drops].into_iter().chain(&mut ends) {
        rng.shuffle(group);
    }
    for dispatcher in &DISPATCHERS {
        let mut book = dispatcher.fresh(plan, rule);
        for &event in drops.iter().chain(ends.iter().flatten()) {
            book = dispatcher.fed(&book, event);
        }
        check_finished(&book, given, &found);
    }
    ends.iter().any(|group| group.len() > 2)
}

#[test]
fn timetables_of_many_tasks_are_taken_in_random_orders() {
    let mut rng = Rng::announced("timetable_feeds, many tasks");
    let mut with_equal_ticks = 0;
    for round in 0..210 {
        let plan = if round % 3 == 0 {
            random_plan(&mut rng)
        } else {
            full_plan_of_either(&mut rng, 64)
        };
        for rule in Rule::BOTH {
            let given = taken_lengths(&mut rng, &plan, rule);
            for _ in 0..2 {
                let equal = feed_in_some_order(&mut rng, &plan, rule, &given);
                with_equal_ticks += u32::from(equal);
            }
        }
    }
    say(&format!(
        "timetable_feeds: {with_equal_ticks} of 840 with three ends on a tick"
    ));
    assert!(with_equal_ticks >= 150);
}

/// What each task took in a book where all have ended; what is not read is 7.
fn lengths_of(book: &Book) -> Lengths {
    let mut given = Lengths {
        length: [7; 64],
        dropped: [DROPPED; 64],
    };
    for i in 0..usize::from(book.tasks) {
        given.dropped[i] = book.dropped[i];
        if book.dropped[i] != DROPPED {
            given.length[i] = book.end[i] - book.start[i];
        }
    }
    given
}

/// Drops come before and between the reports, and reports in any order that is accepted.
#[test]
fn a_book_in_which_all_has_ended_is_the_timetable_of_its_lengths_and_drops() {
    let mut rng = Rng::announced("timetable_feeds, finished books");
    let mut with_drops = 0;
    for round in 0..700 {
        let plan = if round % 10 == 0 {
            full_plan_of_either(&mut rng, 64)
        } else {
            random_plan(&mut rng)
        };
        let rule = either_rule(&mut rng);
        let morning = random_morning(&mut rng, &plan, rule);
        let book = morning.now();
        assert_eq!(rule_of(book), rule);
        let found = found_by_both(&plan, rule, &lengths_of(book));
        assert!(found.start == book.start && found.end == book.end);
        with_drops += u32::from(book.dropped.contains(&DROPPED));
    }
    assert!(with_drops >= 200, "{with_drops}");
}

/// Where the clash rule takes the drops Early Start does too, and no task starts earlier by it.
fn check_rules(plan: &Plan, given: &Lengths) -> [u32; 2] {
    let mut sums = [0, 0];
    for engine in ENGINES {
        let clash = engine(plan, Rule::Clash, given);
        assert_eq!(clash.answer, Answer::ACCEPTED);
        let early_start = engine(plan, Rule::EarlyStart, given);
        assert_eq!(early_start.answer, Answer::ACCEPTED);
        for i in 0..plan.task_count() {
            assert!(clash.start[i] <= early_start.start[i], "{given:?} {plan:?}");
        }
        sums = [clash, early_start].map(|found| found.start.iter().sum());
    }
    sums
}

#[test]
fn no_task_starts_later_by_the_clash_rule() {
    let mut rng = Rng::announced("timetable_feeds, rules");
    let (mut earlier, mut only_early_start) = (0, 0);
    for _ in 0..6_000 {
        let plan = random_plan(&mut rng);
        let given = taken_lengths(&mut rng, &plan, Rule::Clash);
        let [clash, early_start] = check_rules(&plan, &given);
        earlier += u32::from(clash < early_start);
        // Drops of tasks that wait by Early Start alone.
        let given = taken_lengths(&mut rng, &plan, Rule::EarlyStart);
        let refused = ENGINES.map(|engine| engine(&plan, Rule::Clash, &given).answer.code);
        assert_eq!(refused[0], refused[1]);
        only_early_start += u32::from(refused[0] == 19);
    }
    for _ in 0..60 {
        let plan = small_plan(&mut rng, 3);
        for given in every_length(&plan) {
            check_rules(&plan, &given);
        }
    }
    say(&format!(
        "timetable_feeds: earlier by the clash rule in {earlier} of 6000, {only_early_start} with drops that it does not take"
    ));
    assert!(earlier >= 1_000 && only_early_start >= 200);
}

/// One plan and the same lengths by both rules, as the example has them.
#[test]
fn the_example_of_two_rules_has_the_starts_of_both() {
    let plan = contents(&at_root("examples/two-rules/clash/plan.txt"));
    let plan = read_plan(&plan).plan;
    let mut given = Lengths::planned(&plan);
    given.length[..9].copy_from_slice(&[7, 5, 12, 4, 6, 5, 8, 5, 6]);
    let early_start = found_by_both(&plan, Rule::EarlyStart, &given);
    assert_eq!(early_start.start[..9], [0, 0, 0, 5, 12, 12, 12, 18, 20]);
    let clash = found_by_both(&plan, Rule::Clash, &given);
    assert_eq!(clash.start[..9], [0, 0, 0, 5, 7, 12, 12, 13, 17]);
}

/// The example's ends are its timetable's: what a class feeds to `runlog`.
#[test]
fn the_example_feeds_the_ends_of_its_timetable() {
    let text = |name: &str| {
        let file = at_root("examples/timetable").join(name);
        String::from_utf8(contents(&file)).unwrap()
    };
    let fields = |line: &str| -> Vec<String> { line.split('\t').map(String::from).collect() };
    let rows: Vec<Vec<String>> = text("timetable.txt").lines().map(fields).collect();
    let dropped = |task: &str| text("lengths.txt").contains(&format!("drop\t{task}\n"));
    let (mut drops, mut ends, mut clock) = (0, 0, 0);
    for line in text("ends.txt").lines().map(fields) {
        match &line[..] {
            [word, rule] if word == "rule" => assert_eq!(rule, "clash"),
            [word, task] if word == "drop" => {
                assert!(dropped(task) && ends == 0);
                drops += 1;
            }
            [word, task, tick] if word == "end" => {
                let tick: u32 = tick.parse().unwrap();
                let row = rows.iter().find(|row| row[1] == *task).unwrap();
                assert_eq!(row[4], tick.to_string());
                assert!(!dropped(task) && clock <= tick);
                clock = tick;
                ends += 1;
            }
            _ => panic!("{line:?}"),
        }
    }
    assert!(drops >= 1 && drops + ends == rows.len());
    let has_rule = |name: &str| text(name).starts_with("rule\tclash\n");
    assert_eq!(has_rule("ends.txt"), has_rule("lengths.txt"));
    for row in &rows {
        let word = if dropped(&row[1]) { "skip" } else { "start" };
        let start = format!("{word}\t{}\t{}\t{}\t", row[1], row[2], row[3]);
        let log = text("log.txt");
        assert_eq!(log.matches(&start).count(), 1, "{start:?}");
    }
    assert!(!text("log.txt").contains("refused"));
}
