//! What must hold on random plans, runs and damaged inputs.
//! Each test prints its seed; set SEED to repeat or to try another.

use dispatcher::sample::damage::{
    by_the_other_rule, late_book, mutated_book, mutated_plan, ruleless_book, wrongly_dropped_book,
};
use dispatcher::sample::events::{
    accepted_event, any_drop, ends_text, is_chain_over_boards, is_started, must_take, passed_tasks,
    random_book, take, Event,
};
use dispatcher::sample::faults::{damaged_text, faulty_pair_plan, late_plan};
use dispatcher::sample::mornings::{random_morning, Morning};
use dispatcher::sample::one_fault::one_fault;
use dispatcher::sample::plans::{moved_later, random_plan};
use dispatcher::sample::reports::{
    any_report, last_moment_report, one_tick_reports, running_tasks,
};
use dispatcher::sample::waiting::{awaited, either_rule, rule_of};
use dispatcher::sample::Rng;
use dispatcher::second::judge::{clash, Clashes};
use dispatcher::second::text::plan_text;
use dispatcher::second::values::{items, refusal, EDITION_2, LONGEST_TEXT};
use dispatcher::{
    accepted, drop_task, first_faulty_pair, minimum_early, open_book, read_plan, report, run_log,
    sound, write_plan,
};
use dispatcher::{Answer, Book, Plan, Rule};

fn count(book: &Book) -> usize {
    usize::from(book.tasks)
}

fn written_text(plan: &Plan) -> Vec<u8> {
    let mut out = vec![7u8; LONGEST_TEXT];
    let written = write_plan(plan, &mut out);
    assert_eq!(written.answer, Answer::ACCEPTED);
    out.truncate(written.length as usize);
    out
}

#[test]
fn written_plans_read_back_the_same() {
    let mut rng = Rng::announced("written_plans_read_back_the_same");
    let (mut tasks, mut longest, mut of_edition_2) = (0, 0, 0);
    for _ in 0..1500 {
        let plan = random_plan(&mut rng);
        let text = written_text(&plan);
        let reading = read_plan(&text);
        assert_eq!(reading.answer, Answer::ACCEPTED);
        assert!(reading.plan == plan);
        assert_eq!(written_text(&reading.plan), text);
        tasks += usize::from(plan.tasks);
        longest = longest.max(text.len());
        of_edition_2 += u32::from(plan.edition == EDITION_2);
    }
    println!(
        "1500 plans, {of_edition_2} of edition 2, {tasks} tasks, longest text {longest} bytes"
    );
    assert!(of_edition_2 > 500 && of_edition_2 < 1000);
}

/// Ten damaged texts of each of that many plans.
fn damaged_texts(rng: &mut Rng, plans: u32) -> Vec<Vec<u8>> {
    let mut texts = Vec::new();
    for _ in 0..plans {
        let text = plan_text(&random_plan(rng));
        texts.extend((0..10).map(|_| damaged_text(rng, &text)));
    }
    texts
}

#[test]
fn read_texts_write_back_the_same_bytes() {
    let mut rng = Rng::announced("read_texts_write_back_the_same_bytes");
    let mut read = 0;
    for text in damaged_texts(&mut rng, 3000) {
        let reading = read_plan(&text);
        if reading.answer.is_accepted() {
            assert_eq!(written_text(&reading.plan), text);
            read += 1;
        } else {
            assert!(reading.plan == Plan::ZERO);
            assert!((1..=8)
                .chain([17, 18, 20])
                .any(|code| code == reading.answer.code));
        }
    }
    println!("30000 damaged texts, {read} of them still plans");
    assert!(read > 100);
}

#[test]
fn one_fault_texts_meet_their_refusal() {
    let mut rng = Rng::announced("one_fault_texts_meet_their_refusal");
    for _ in 0..2000 {
        let plan = random_plan(&mut rng);
        for _ in 0..10 {
            let fault = one_fault(&mut rng, &plan);
            let reading = read_plan(&fault.text);
            let shown = String::from_utf8_lossy(&fault.text);
            assert_eq!(reading.answer, fault.answer, "{shown}");
            assert!(reading.plan == Plan::ZERO);
        }
    }
    println!("20000 texts of one fault");
}

#[test]
fn a_plan_with_no_task_at_0_is_refused_for_that_alone() {
    let mut rng = Rng::announced("a_plan_with_no_task_at_0");
    let mut late_as_a_whole = 0;
    for _ in 0..3000 {
        let plan = random_plan(&mut rng);
        assert!(accepted(&plan));
        let late = late_plan(&mut rng, &plan);
        assert!(!accepted(&late));
        let least = *late.begin[..late.task_count()].iter().min().unwrap();
        let reading = read_plan(&plan_text(&late));
        assert_eq!(reading.answer, refusal(17, least, 0));
        late_as_a_whole += u32::from(late == moved_later(&plan, least));
    }
    println!("3000 late plans, {late_as_a_whole} of them late as a whole");
    assert!(late_as_a_whole > 1000 && late_as_a_whole < 2900);
}

/// All faults of all pairs, straight from the document's table, as (a, b, code).
fn every_pair_fault(plan: &Plan) -> Vec<(u32, u32, u32)> {
    let mut faults = Vec::new();
    for a in 0..plan.task_count() {
        for b in a..plan.task_count() {
            let pair = (a as u32 + 1, b as u32 + 1);
            let both_busy =
                plan.begin[a].max(plan.begin[b]) < plan.finish[a].min(plan.finish[b]) && a != b;
            if both_busy && plan.board[a] == plan.board[b] {
                faults.push((pair.0, pair.1, 6));
            }
            if both_busy && (1..=32).any(|drive| drive_in_conflict(plan, a, b, drive)) {
                faults.push((pair.0, pair.1, 7));
            }
            if late_for(plan, a, b) || late_for(plan, b, a) {
                faults.push((pair.0, pair.1, 8));
            }
        }
    }
    faults
}

fn drive_in_conflict(plan: &Plan, a: usize, b: usize, drive: u8) -> bool {
    let hold = |i: usize, byte: u8| items(plan.hold_places(i)).contains(&byte);
    let (exclusive, shared) = (2 * drive, 2 * drive + 1);
    let any = |i: usize| hold(i, exclusive) || hold(i, shared);
    (hold(a, exclusive) && any(b)) || (hold(b, exclusive) && any(a))
}

fn late_for(plan: &Plan, i: usize, j: usize) -> bool {
    let listed = items(plan.after_places(i)).contains(&(j as u8 + 1));
    listed && plan.begin[i] < plan.finish[j]
}

#[test]
fn the_least_faulty_pair_is_the_one_named() {
    let mut rng = Rng::announced("the_least_faulty_pair_is_the_one_named");
    let mut by_code = [0u32; 9];
    for _ in 0..2000 {
        let accepted_plan = random_plan(&mut rng);
        assert!(every_pair_fault(&accepted_plan).is_empty());
        let plan = faulty_pair_plan(&mut rng, &accepted_plan);
        let expected = every_pair_fault(&plan).into_iter().min();
        let found = first_faulty_pair(&plan).map(|f| (f.first, f.second, f.code));
        assert_eq!(found, expected);
        let reading = read_plan(&plan_text(&plan));
        assert_eq!(reading.answer.code, expected.map_or(0, |f| f.2));
        by_code[reading.answer.code as usize] += 1;
    }
    println!(
        "accepted {}, by code 6 to 8: {:?}",
        by_code[0],
        &by_code[6..]
    );
    assert!(by_code[6..].iter().all(|&n| n > 0));
}

#[test]
fn a_plan_value_is_accepted_exactly_when_its_text_reads_back_as_it() {
    let mut rng = Rng::announced("a_plan_value_is_accepted_exactly");
    let mut kept = 0;
    for _ in 0..3000 {
        let plan = random_plan(&mut rng);
        for _ in 0..10 {
            let changed = mutated_plan(&mut rng, &plan);
            let reading = read_plan(&plan_text(&changed));
            let same = reading.answer.is_accepted() && reading.plan == changed;
            assert_eq!(accepted(&changed), same, "{changed:?}");
            kept += u32::from(same);
        }
    }
    println!("30000 changed plans, {kept} of them accepted");
    assert!(kept > 100 && kept < 29_900);
}

fn check_clashing_tasks_keep_plan_order(last: &Book) {
    let plan = last.plan();
    for a in 0..count(last) {
        for b in 0..count(last) {
            if clash(&plan, a, b) && plan.finish[a] <= plan.begin[b] {
                assert!(last.end[a] <= last.start[b]);
            }
        }
    }
}

fn check_starts_are_the_latest_awaited_ends(last: &Book) {
    let (plan, rule) = (last.plan(), rule_of(last));
    for i in 0..count(last) {
        // A dropped task need not be ready.
        let mut latest = if last.dropped[i] == 1 {
            0
        } else {
            last.ready[i]
        };
        for j in awaited(&plan, rule, i) {
            latest = latest.max(last.end[j]);
        }
        assert_eq!(last.start[i], latest);
        assert!(last.start[i] <= last.begin[i]);
        if last.dropped[i] == 1 {
            assert_eq!(last.end[i], last.start[i]);
            continue;
        }
        assert!(last.start[i] < last.end[i] && last.end[i] <= last.finish[i]);
    }
}

/// Planned start less start of each task at work at a moment, and planned start
/// less ready of each that is not started then and not dropped.
fn terms_of_the_figure(moment: &Book) -> Vec<u32> {
    let (started, to_come): (Vec<usize>, Vec<usize>) =
        (0..count(moment)).partition(|&i| is_started(moment, i));
    let at_work = started.into_iter().filter(|&i| moment.mark[i] == 1);
    let expected = to_come.into_iter().filter(|&i| moment.dropped[i] == 0);
    at_work
        .map(|i| moment.begin[i] - moment.start[i])
        .chain(expected.map(|i| moment.begin[i] - moment.ready[i]))
        .collect()
}

/// What starts or ends after a moment is at least that moment's figure early.
fn check_figure_is_kept(moment: &Book, last: &Book) {
    let figure = minimum_early(moment);
    assert_eq!(figure.answer, Answer::ACCEPTED);
    for i in 0..count(last) {
        if !is_started(moment, i) {
            assert!(last.begin[i] - last.start[i] >= figure.early);
        }
        if moment.mark[i] != 2 {
            assert!(last.finish[i] - last.end[i] >= figure.early);
        }
    }
}

/// The figure is the least of its terms, 0 once there is none, and before that
/// it never falls; how many books showed more than 0.
fn check_figures_along(books: &[Book]) -> u32 {
    let (mut figure_before, mut early) = (0, 0);
    for book in books {
        let figure = minimum_early(book).early;
        let Some(least) = terms_of_the_figure(book).into_iter().min() else {
            assert_eq!(figure, 0, "there is no term");
            continue;
        };
        assert_eq!(figure, least);
        assert!(figure >= figure_before, "M never falls");
        figure_before = figure;
        early += u32::from(figure > 0);
    }
    early
}

/// How many of a morning's reports let dropped tasks pass one after the other.
fn chains_in(morning: &Morning) -> usize {
    let steps = morning.books.windows(2);
    steps
        .filter(|step| is_chain_over_boards(&step[1], &passed_tasks(&step[0], &step[1])))
        .count()
}

#[test]
fn mornings_keep_what_the_plan_promises() {
    let mut rng = Rng::announced("mornings_keep_what_the_plan_promises");
    let (mut events, mut early, mut chains) = (0, 0, 0);
    for _ in 0..800 {
        let (plan, rule) = (random_plan(&mut rng), either_rule(&mut rng));
        let morning = random_morning(&mut rng, &plan, rule);
        let last = morning.now();
        assert!(last.mark[..count(last)].iter().all(|&mark| mark == 2));
        // Each task is dropped or reported, and never both.
        assert_eq!(morning.events.len(), count(last));
        check_clashing_tasks_keep_plan_order(last);
        check_starts_are_the_latest_awaited_ends(last);
        for book in &morning.books {
            assert!(sound(book) && book.rule == rule as u8);
            check_figure_is_kept(book, last);
        }
        early += check_figures_along(&morning.books);
        events += morning.events.len();
        chains += chains_in(&morning);
    }
    println!("800 mornings, {events} reports and drops, M above 0 in {early} books");
    println!("{chains} chains of dropped tasks over several boards");
    assert!(early > 100 && chains > 100);
}

#[test]
fn no_two_clashing_tasks_ever_run_at_once() {
    let mut rng = Rng::announced("no_two_clashing_tasks_ever_run_at_once");
    for _ in 0..300 {
        let (plan, rule) = (random_plan(&mut rng), either_rule(&mut rng));
        for book in random_morning(&mut rng, &plan, rule).books {
            let running = running_tasks(&book);
            for (k, &a) in running.iter().enumerate() {
                assert!(running[k + 1..].iter().all(|&b| !clash(&plan, a, b)));
            }
        }
    }
}

#[test]
fn the_least_limit_is_always_accepted() {
    let mut rng = Rng::announced("the_least_limit_is_always_accepted");
    let (mut tried, mut dropped) = (0, 0);
    for _ in 0..150 {
        let (plan, rule) = (random_plan(&mut rng), either_rule(&mut rng));
        let mut book = open_book(&plan, rule).book;
        let drop_percent = rng.pick(&[0, 15, 70]);
        while let Some((task, tick)) = last_moment_report(&book) {
            tried += 1;
            let at_limit = must_take(&book, Event::End(task, tick));
            let event = accepted_event(&mut rng, &book, drop_percent).unwrap();
            let other = must_take(&book, event);
            book = if rng.chance(30) { at_limit } else { other };
        }
        // Nobody runs, so nobody may be left that has not ended.
        assert!(book.mark[..count(&book)].iter().all(|&mark| mark == 2));
        dropped += book.dropped.iter().filter(|&&dropped| dropped == 1).count();
    }
    println!("{tried} least limits, {dropped} tasks dropped");
    assert!(dropped > 100);
}

#[test]
fn reports_of_one_tick_may_come_in_any_order() {
    let mut rng = Rng::announced("reports_of_one_tick_may_come_in_any_order");
    let mut groups = 0;
    for _ in 0..600 {
        let book = random_book(&mut rng);
        let mut reports = one_tick_reports(&mut rng, &book);
        rng.shuffle(&mut reports);
        reports.truncate(8);
        let take_all = |order: &[(u32, u32)]| {
            let take_one = |b: Book, r: &(u32, u32)| must_take(&b, Event::End(r.0, r.1));
            order.iter().fold(book, take_one)
        };
        let first = take_all(&reports);
        for _ in 0..3 {
            rng.shuffle(&mut reports);
            assert!(take_all(&reports) == first);
        }
        groups += u32::from(reports.len() > 1);
    }
    println!("{groups} groups of two or more reports");
    assert!(groups > 50);
}

/// The book after all the events; None when one of them is refused.
fn book_after(plan: &Plan, rule: Rule, events: &[Event]) -> Option<Book> {
    let mut book = open_book(plan, rule).book;
    for &event in events {
        let (answer, next) = take(&book, event);
        if !answer.is_accepted() {
            return None;
        }
        book = next;
    }
    Some(book)
}

/// The events with reports still by rising tick, but those of one tick in any
/// order, and each drop anywhere among them.
fn reordered(rng: &mut Rng, events: &[Event]) -> Vec<Event> {
    let mut order = events.to_vec();
    rng.shuffle(&mut order);
    let is_drop = |event: &Event| matches!(event, Event::Drop(_));
    let (drops, mut mixed): (Vec<Event>, Vec<Event>) = order.into_iter().partition(is_drop);
    mixed.sort_by_key(|event| match event {
        Event::End(_, tick) => *tick,
        Event::Drop(_) => 0,
    });
    for drop in drops {
        mixed.insert(rng.index(mixed.len() + 1), drop);
    }
    mixed
}

#[test]
fn the_same_reports_and_drops_leave_the_same_book() {
    let mut rng = Rng::announced("the_same_reports_and_drops_leave_the_same_book");
    let (mut taken, mut refused) = (0, 0);
    for _ in 0..600 {
        let (plan, rule) = (random_plan(&mut rng), either_rule(&mut rng));
        let mut events = random_morning(&mut rng, &plan, rule).events;
        events.truncate(rng.index(events.len() + 1));
        let first = book_after(&plan, rule, &events);
        assert!(first.is_some());
        for _ in 0..5 {
            let order = reordered(&mut rng, &events);
            let other = book_after(&plan, rule, &order);
            if other.is_none() {
                refused += 1;
                continue;
            }
            assert!(other == first);
            taken += u32::from(order != events);
        }
        // A task that waits at some time waits from the first, so drops may come first.
        events.sort_by_key(|event| matches!(event, Event::End(..)));
        assert!(book_after(&plan, rule, &events) == first);
    }
    println!("{taken} other orders taken, {refused} refused");
    assert!(taken > 500 && refused > 100);
}

/// The code a report must meet, from the table's sentences, on a sound book.
fn expected_code(book: &Book, task: u32, tick: u32) -> u32 {
    if !(1..=u32::from(book.tasks)).contains(&task) {
        return 10;
    }
    let limit = |i: usize| u64::from(book.start[i] + book.finish[i] - book.begin[i]);
    let i = task as usize - 1;
    let late = |j: &usize| *j != i && limit(*j) < u64::from(tick);
    let checks = [
        (11, book.mark[i] != 1),
        (12, tick < book.clock),
        (13, tick <= book.start[i]),
        (14, u64::from(tick) > limit(i)),
        (15, running_tasks(book).iter().any(late)),
    ];
    checks
        .iter()
        .find(|check| check.1)
        .map_or(0, |check| check.0)
}

#[test]
fn refused_reports_leave_the_book() {
    let mut rng = Rng::announced("refused_reports_leave_the_book");
    let mut by_code = [0u32; 17];
    for _ in 0..400 {
        let book = random_book(&mut rng);
        for _ in 0..30 {
            let (task, tick) = any_report(&mut rng, &book);
            let reported = report(&book, task, tick);
            let code = expected_code(&book, task, tick);
            assert_eq!(reported.answer.code, code, "end {task} at {tick}");
            by_code[code as usize] += 1;
            if code != 0 {
                assert_eq!(
                    (reported.answer.first, reported.answer.second),
                    (task, tick)
                );
                assert!(reported.book == book);
            }
        }
    }
    println!(
        "accepted {}, codes 10 to 15: {:?}",
        by_code[0],
        &by_code[10..16]
    );
    assert!(by_code[10..16].iter().all(|&n| n > 0));
}

/// The code a drop must meet, from the request's sentence, on a sound book.
fn expected_drop_code(book: &Book, task: u32) -> u32 {
    if !(1..=u32::from(book.tasks)).contains(&task) {
        return 10;
    }
    let i = task as usize - 1;
    let start_is_known = book.mark[i] == 1 || book.mark[i] == 2;
    if start_is_known || book.dropped[i] == 1 {
        return 19;
    }
    0
}

#[test]
fn refused_drops_leave_the_book_and_accepted_ones_nearly() {
    let mut rng = Rng::announced("refused_drops_leave_the_book_and_accepted_ones_nearly");
    let mut by_code = [0u32; 20];
    for _ in 0..400 {
        let book = random_book(&mut rng);
        for _ in 0..20 {
            let task = any_drop(&mut rng, &book);
            let answered = drop_task(&book, task);
            let code = expected_drop_code(&book, task);
            assert_eq!(answered.answer.code, code, "drop {task}");
            by_code[code as usize] += 1;
            let mut expected = book;
            if code == 0 {
                expected.dropped[task as usize - 1] = 1;
                assert!(sound(&expected));
            } else {
                let said = (answered.answer.first, answered.answer.second);
                assert_eq!(said, (task, 0));
            }
            assert!(answered.book == expected);
        }
    }
    let [accepted, unknown, started] = [0, 10, 19].map(|code: usize| by_code[code]);
    println!("accepted {accepted}, code 10: {unknown}, code 19: {started}");
    assert!(accepted > 100 && unknown > 100 && started > 100);
}

/// The book that its own plan, its own rule, its own drops and its own ends give, if
/// those are accepted.
fn replayed(book: &Book) -> Option<Book> {
    let rule = Rule::of_byte(book.rule)?;
    if !open_book(&book.plan(), rule).answer.is_accepted() {
        return None;
    }
    let dropped = (0..count(book)).filter(|&i| book.dropped[i] == 1);
    let mut events: Vec<Event> = dropped.map(|i| Event::Drop(i as u32 + 1)).collect();
    let ended_itself = |i: &usize| book.mark[*i] == 2 && book.dropped[*i] != 1;
    let mut ended: Vec<usize> = (0..count(book)).filter(ended_itself).collect();
    ended.sort_by_key(|&i| book.end[i]);
    events.extend(ended.iter().map(|&i| Event::End(i as u32 + 1, book.end[i])));
    book_after(&book.plan(), rule, &events)
}

#[test]
fn sound_books_are_exactly_those_a_run_gives() {
    let mut rng = Rng::announced("sound_books_are_exactly_those_a_run_gives");
    let (mut kept, mut with_drops) = (0, 0);
    for _ in 0..900 {
        let book = random_book(&mut rng);
        assert!(sound(&book) && replayed(&book) == Some(book));
        for _ in 0..15 {
            let changed = mutated_book(&mut rng, &book);
            let given_by_a_run = replayed(&changed) == Some(changed);
            assert_eq!(sound(&changed), given_by_a_run, "{changed:?}");
            kept += u32::from(given_by_a_run);
            with_drops += u32::from(given_by_a_run && changed.dropped != [0; 64]);
        }
    }
    println!("13500 changed books, {kept} of them sound, {with_drops} with drops");
    assert!(kept < 13_000 && with_drops > 50);
}

#[test]
fn a_book_on_a_plan_with_no_task_at_0_is_never_sound() {
    let mut rng = Rng::announced("a_book_on_a_plan_with_no_task_at_0");
    for _ in 0..2000 {
        let book = random_book(&mut rng);
        let late = late_book(&mut rng, &book);
        assert!(!sound(&late), "{late:?}");
        let (task, tick) = any_report(&mut rng, &book);
        assert_eq!(report(&late, task, tick).answer, Answer::UNSOUND);
        assert_eq!(drop_task(&late, task).answer, Answer::UNSOUND);
        assert_eq!(minimum_early(&late).answer, Answer::UNSOUND);
        let opening = open_book(&late.plan(), rule_of(&book));
        assert_eq!(opening.answer, Answer::UNSOUND);
    }
}

#[test]
fn a_book_is_judged_by_the_rule_it_holds() {
    let mut rng = Rng::announced("a_book_is_judged_by_the_rule_it_holds");
    let (mut sound_by_both, mut by_its_own) = (0, 0);
    for _ in 0..2000 {
        let book = random_book(&mut rng);
        let other = by_the_other_rule(&book);
        let given_by_a_run = replayed(&other) == Some(other);
        assert_eq!(sound(&other), given_by_a_run, "{other:?}");
        sound_by_both += u32::from(given_by_a_run);
        by_its_own += u32::from(!given_by_a_run);
        let ruleless = ruleless_book(&mut rng, &book);
        assert!(!sound(&ruleless));
        let (task, tick) = any_report(&mut rng, &book);
        let reported = report(&ruleless, task, tick);
        assert_eq!(reported.answer, Answer::UNSOUND);
        assert!(reported.book == ruleless);
    }
    println!("{sound_by_both} books sound by both rules, {by_its_own} by their own alone");
    assert!(sound_by_both > 200 && by_its_own > 200);
}

/// The document's sentence on clashes, drive by drive.
fn plainly_clash(plan: &Plan, a: usize, b: usize) -> bool {
    let lists = |i: usize, j: usize| items(plan.after_places(i)).contains(&(j as u8 + 1));
    plan.board[a] == plan.board[b]
        || (1..=32).any(|drive| drive_in_conflict(plan, a, b, drive))
        || lists(a, b)
        || lists(b, a)
}

#[test]
fn clashes_are_as_the_document_says() {
    let mut rng = Rng::announced("clashes_are_as_the_document_says");
    for _ in 0..300 {
        let plan = random_plan(&mut rng);
        let clashes = Clashes::of(&plan);
        for a in 0..plan.task_count() {
            for b in 0..plan.task_count() {
                let wanted = plainly_clash(&plan, a, b);
                assert_eq!(clash(&plan, a, b), wanted);
                assert_eq!(clashes.between(a, b), wanted);
            }
        }
    }
}

#[test]
fn a_wrong_drop_is_never_sound() {
    let mut rng = Rng::announced("a_wrong_drop_is_never_sound");
    for _ in 0..600 {
        let book = random_book(&mut rng);
        for _ in 0..10 {
            let wrong = wrongly_dropped_book(&mut rng, &book);
            assert!(!sound(&wrong), "{wrong:?}");
            let answered = drop_task(&wrong, any_drop(&mut rng, &book));
            assert_eq!(answered.answer, Answer::UNSOUND);
            assert!(answered.book == wrong);
        }
    }
}

/// The lines of a log between two `early` lines, without those.
fn paragraphs(log: &str) -> Vec<Vec<&str>> {
    let lines: Vec<&str> = log.lines().collect();
    lines
        .split_inclusive(|line| line.starts_with("early\t"))
        .map(|part| part[..part.len() - 1].to_vec())
        .collect()
}

/// After its first line, `start` and `skip` lines by rising task number.
fn check_starts_rise(paragraph: &[&str]) {
    let mut number_before = 0;
    for line in &paragraph[1..] {
        let fields: Vec<&str> = line.split('\t').collect();
        assert!(["start", "skip"].contains(&fields[0]), "{line}");
        let number: u32 = fields[1].parse().unwrap();
        assert!(number_before < number, "{line}");
        number_before = number;
    }
}

#[test]
fn runlog_prints_each_task_once_and_ends_with_the_last_figure() {
    let mut rng = Rng::announced("runlog_prints_each_task_once");
    let mut skipped = 0;
    for _ in 0..150 {
        let (plan, rule) = (random_plan(&mut rng), either_rule(&mut rng));
        let morning = random_morning(&mut rng, &plan, rule);
        let last = morning.now();
        let ends = ends_text(rule, &morning.events);
        let log = String::from_utf8(run_log(&plan_text(&plan), &ends)).unwrap();
        let lines_of = |word: &str| log.lines().filter(|l| l.starts_with(word)).count();
        let dropped = last.dropped.iter().filter(|&&dropped| dropped == 1).count();
        assert_eq!(lines_of("start\t"), count(last) - dropped);
        assert_eq!(lines_of("end\t"), count(last) - dropped);
        assert_eq!((lines_of("drop\t"), lines_of("skip\t")), (dropped, dropped));
        assert_eq!(lines_of("early\t"), count(last) + 1);
        assert_eq!(lines_of("refused\t"), 0);
        paragraphs(&log)
            .iter()
            .for_each(|part| check_starts_rise(part));
        let closing = format!("early\t{}\t{}\n", last.clock, minimum_early(last).early);
        assert!(log.ends_with(&closing));
        skipped += dropped;
    }
    println!("150 logs, {skipped} tasks skipped");
    assert!(skipped > 100);
}

/// One damaged input of a random kind; the refusal number it met, or 0.
fn code_of_a_damaged_input(rng: &mut Rng) -> u32 {
    let plan = random_plan(rng);
    match rng.within(1, 7) {
        1 => read_plan(&one_fault(rng, &plan).text).answer.code,
        2 => read_plan(&damaged_text(rng, &plan_text(&plan))).answer.code,
        3 => {
            read_plan(&plan_text(&faulty_pair_plan(rng, &plan)))
                .answer
                .code
        }
        4 => {
            let plan = if rng.chance(50) {
                mutated_plan(rng, &plan)
            } else {
                plan
            };
            let mut out = vec![7u8; rng.within(0, 4000) as usize];
            write_plan(&plan, &mut out).answer.code
        }
        5 => {
            let book = random_book(rng);
            let (task, tick) = any_report(rng, &book);
            report(&book, task, tick).answer.code
        }
        6 => {
            let book = random_book(rng);
            drop_task(&book, any_drop(rng, &book)).answer.code
        }
        _ => {
            let book = random_book(rng);
            minimum_early(&mutated_book(rng, &book)).answer.code
        }
    }
}

#[test]
fn every_refusal_number_is_reached() {
    let mut rng = Rng::announced("every_refusal_number_is_reached");
    let mut by_code = [0u32; 21];
    for _ in 0..8000 {
        by_code[code_of_a_damaged_input(&mut rng) as usize] += 1;
    }
    for (code, times) in by_code.into_iter().enumerate() {
        println!("code {code}: {times}");
        assert!(times > 0, "code {code} was never reached");
    }
}
