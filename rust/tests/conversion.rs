//! What must hold of converted plans, of both dispatchers, on random plans and texts.
//! Each test prints its seed; set SEED to repeat or try another.

use dispatcher::proved::{self, CONVERTED_ROOM, LONGEST_LOG};
use dispatcher::sample::damage::mutated_plan;
use dispatcher::sample::events::{any_event, ends_text, Event};
use dispatcher::sample::lent::shown;
use dispatcher::sample::mornings::random_morning;
use dispatcher::sample::old_texts::{old_text, second_edition, with_shared_holds};
use dispatcher::sample::plans::{exclusively_held, random_plan};
use dispatcher::sample::waiting::either_rule;
use dispatcher::sample::Rng;
use dispatcher::second::judge::overlap;
use dispatcher::second::text::plan_text;
use dispatcher::second::values::{drive_of, items, made_exclusive, refusal, EDITION_1, EDITION_2};
use dispatcher::{Answer, Book, BookResult, Figure, Plan, Reading, Rule};

/// One of the two dispatchers.
struct Side {
    accepted: fn(&Plan) -> bool,
    convert: fn(&Plan) -> Reading,
    read_plan: fn(&[u8]) -> Reading,
    read_exclusive: fn(&[u8]) -> Reading,
    convert_text: fn(&[u8]) -> Vec<u8>,
    run_log: fn(&[u8], &[u8]) -> Vec<u8>,
    open_book: fn(&Plan, Rule) -> BookResult,
    report: fn(&Book, u32, u32) -> BookResult,
    drop_task: fn(&Book, u32) -> BookResult,
    minimum_early: fn(&Book) -> Figure,
}

const SIDES: [Side; 2] = [
    Side {
        accepted: dispatcher::accepted,
        convert: dispatcher::convert,
        read_plan: dispatcher::read_plan,
        read_exclusive: dispatcher::read_exclusive,
        convert_text: dispatcher::convert_text,
        run_log: dispatcher::run_log,
        open_book: dispatcher::open_book,
        report: dispatcher::report,
        drop_task: dispatcher::drop_task,
        minimum_early: dispatcher::minimum_early,
    },
    Side {
        accepted: proved::accepted,
        convert: proved::convert,
        read_plan: proved::read_plan,
        read_exclusive: proved::read_exclusive,
        convert_text: proved_convert_text,
        run_log: proved_run_log,
        open_book: proved::open_book,
        report: proved::report,
        drop_task: proved::drop_task,
        minimum_early: proved::minimum_early,
    },
];

fn proved_convert_text(text: &[u8]) -> Vec<u8> {
    let mut out = vec![0; CONVERTED_ROOM];
    let length = proved::write_converted(text, &mut out);
    out.truncate(length);
    out
}

fn proved_run_log(plan: &[u8], ends: &[u8]) -> Vec<u8> {
    let mut out = vec![0; LONGEST_LOG];
    let length = proved::write_log(plan, ends, &mut out);
    out.truncate(length);
    out
}

impl Side {
    fn take(&self, book: &Book, event: Event) -> (Answer, Book) {
        match event {
            Event::End(task, tick) => {
                let reported = (self.report)(book, task, tick);
                (reported.answer, reported.book)
            }
            Event::Drop(task) => {
                let dropped = (self.drop_task)(book, task);
                (dropped.answer, dropped.book)
            }
        }
    }
}

/// An accepted plan of edition 1, drives shared where it happens so.
fn old_plan(rng: &mut Rng) -> Plan {
    let mut plans = std::iter::repeat_with(|| random_plan(rng));
    let old = plans.find(|plan| plan.edition == EDITION_1);
    old.expect("there is no end of plans")
}

/// What P12 says of the result: boards, times, drives and after lists are kept.
fn in_edition_2(plan: &Plan) -> Plan {
    Plan {
        edition: EDITION_2,
        holds: plan.holds.map(made_exclusive),
        ..*plan
    }
}

fn accepted_with(plan: Plan) -> Reading {
    Reading {
        answer: Answer::ACCEPTED,
        plan,
    }
}

fn refused_with(answer: Answer) -> Reading {
    Reading {
        answer,
        plan: Plan::ZERO,
    }
}

#[test]
fn without_shared_holds_every_accepted_plan_of_edition_1_converts() {
    let mut rng = Rng::announced("without_shared_holds_every_accepted_plan_of_edition_1_converts");
    for _ in 0..1500 {
        let plan = exclusively_held(&old_plan(&mut rng));
        let wanted = accepted_with(Plan {
            edition: EDITION_2,
            ..plan
        });
        for side in &SIDES {
            assert!((side.accepted)(&plan));
            assert!((side.convert)(&plan) == wanted, "{plan:?}");
        }
    }
}

/// The first pair, by a and then b, that holds a drive at the same time.
fn first_pair_on_a_drive(plan: &Plan) -> Option<(u32, u32)> {
    let count = plan.task_count();
    let pairs = (0..count).flat_map(|a| (a + 1..count).map(move |b| (a, b)));
    let drives = |i: usize| {
        items(plan.hold_places(i))
            .iter()
            .map(|&hold| drive_of(hold))
    };
    let at_once = |&(a, b): &(usize, usize)| {
        overlap(plan, a, b) && drives(a).any(|drive| drives(b).any(|other| drive == other))
    };
    let (a, b) = pairs.into_iter().find(at_once)?;
    Some((a as u32 + 1, b as u32 + 1))
}

#[test]
fn a_plan_converts_exactly_when_no_two_tasks_hold_a_drive_at_once() {
    let mut rng = Rng::announced("a_plan_converts_exactly_when_no_two_tasks_hold_a_drive_at_once");
    let (mut converted, mut refused) = (0, 0);
    for _ in 0..2000 {
        let plan = old_plan(&mut rng);
        let wanted = match first_pair_on_a_drive(&plan) {
            None => accepted_with(in_edition_2(&plan)),
            Some((a, b)) => refused_with(refusal(7, a, b)),
        };
        for side in &SIDES {
            assert!((side.convert)(&plan) == wanted, "{plan:?}");
        }
        let has_shared = plan.holds != in_edition_2(&plan).holds;
        converted += u32::from(wanted.answer.is_accepted() && has_shared);
        refused += u32::from(!wanted.answer.is_accepted());
    }
    println!("{converted} plans with shared holds converted, {refused} refused by 7");
    assert!(converted > 200 && refused > 200);
}

#[test]
fn any_other_plan_is_9_for_the_converter() {
    let mut rng = Rng::announced("any_other_plan_is_9_for_the_converter");
    let unsound = refused_with(Answer::UNSOUND);
    let (mut changed, mut second) = (0, 0);
    for _ in 0..2000 {
        let plan = random_plan(&mut rng);
        let sharing = with_shared_holds(&mut rng, &plan);
        let mutated = mutated_plan(&mut rng, &plan);
        for any in [plan, sharing, mutated, second_edition(&plan)] {
            let is_edition_1 = any.edition == EDITION_1;
            for side in &SIDES {
                if is_edition_1 && (side.accepted)(&any) {
                    continue;
                }
                assert!((side.convert)(&any) == unsound, "{any:?}");
                changed += u32::from(is_edition_1);
                second += u32::from(any.edition == EDITION_2);
            }
        }
    }
    println!("{changed} of edition 1 that are not accepted, {second} of edition 2");
    assert!(changed > 500 && second > 2000);
}

/// The book of the same plan in edition 2.
fn book_in_edition_2(book: &Book) -> Book {
    Book {
        edition: EDITION_2,
        holds: book.holds.map(made_exclusive),
        ..*book
    }
}

/// A rule by which the plan and the converted one wait alike. Two that share a drive
/// clash once each holds it alone, so where there are such it is Early Start.
fn rule_that_stays(rng: &mut Rng, plan: &Plan) -> Rule {
    if plan.holds == in_edition_2(plan).holds {
        return either_rule(rng);
    }
    Rule::EarlyStart
}

#[test]
fn a_converted_morning_goes_as_the_old_one() {
    let mut rng = Rng::announced("a_converted_morning_goes_as_the_old_one");
    let mut mornings = 0;
    while mornings < 200 {
        let plan = old_plan(&mut rng);
        let rule = rule_that_stays(&mut rng, &plan);
        let morning = random_morning(&mut rng, &plan, rule);
        let others: Vec<Event> = morning
            .books
            .iter()
            .map(|b| any_event(&mut rng, b))
            .collect();
        for side in &SIDES {
            let converted = (side.convert)(&plan);
            if !converted.answer.is_accepted() {
                continue;
            }
            mornings += 1;
            let opened = (side.open_book)(&converted.plan, rule);
            assert_eq!(opened.answer, Answer::ACCEPTED);
            let mut book = opened.book;
            for (k, old) in morning.books.iter().enumerate() {
                // Starts, ends, marks, drops and the clock are the old book's.
                assert!(book == book_in_edition_2(old));
                assert_eq!((side.minimum_early)(&book), (side.minimum_early)(old));
                let (answer, after) = side.take(old, others[k]);
                assert!(side.take(&book, others[k]) == (answer, book_in_edition_2(&after)));
                if let Some(&event) = morning.events.get(k) {
                    let (answer, next) = side.take(&book, event);
                    assert_eq!(answer, Answer::ACCEPTED, "{event:?}");
                    book = next;
                }
            }
        }
    }
}

#[test]
fn a_converted_plan_gives_the_same_log() {
    let mut rng = Rng::announced("a_converted_plan_gives_the_same_log");
    let mut logs = 0;
    for _ in 0..200 {
        let plan = old_plan(&mut rng);
        let rule = rule_that_stays(&mut rng, &plan);
        let events = random_morning(&mut rng, &plan, rule).events;
        let ends = ends_text(rule, &events);
        let text = plan_text(&plan);
        for side in &SIDES {
            let converted = (side.convert_text)(&text);
            if converted.starts_with(b"plan\t2\t") {
                let log = (side.run_log)(&text, &ends);
                assert!((side.run_log)(&converted, &ends) == log, "{}", shown(&text));
                logs += 1;
            }
        }
    }
    println!("{logs} logs");
    assert!(logs > 100);
}

/// Tasks 1 and 2 share drive 1 one after the other: in edition 1 they do not clash.
#[test]
fn by_the_clash_rule_tasks_that_shared_a_drive_wait_once_converted() {
    let text = b"plan\t1\t2\t2\ntask\t1\t1\t0\t4\ts1\t-\ntask\t2\t2\t4\t6\ts1\t-\n";
    for side in &SIDES {
        let plan = (side.read_plan)(text).plan;
        let converted = (side.convert)(&plan).plan;
        let marks = |plan: &Plan, rule| (side.open_book)(plan, rule).book.mark[..2].to_vec();
        assert_eq!(marks(&plan, Rule::Clash), [1, 1]);
        assert_eq!(marks(&converted, Rule::Clash), [1, 0]);
        assert_eq!(marks(&plan, Rule::EarlyStart), [1, 0]);
        assert_eq!(marks(&converted, Rule::EarlyStart), [1, 0]);
    }
}

/// The text with each `s` made `e`, but in the word of its lines.
fn made_exclusive_in(text: &[u8]) -> Vec<u8> {
    let mut exclusive = Vec::new();
    for line in text.split_inclusive(|&byte| byte == b'\n') {
        let word = if line.starts_with(b"task") { 4 } else { 0 };
        exclusive.extend_from_slice(&line[..word]);
        let rest = line[word..].iter();
        exclusive.extend(rest.map(|&byte| if byte == b's' { b'e' } else { byte }));
    }
    exclusive
}

#[test]
fn the_second_call_reads_the_text_with_s_made_e() {
    let mut rng = Rng::announced("the_second_call_reads_the_text_with_s_made_e");
    let (mut without, mut with, mut read) = (0, 0, 0);
    for _ in 0..6000 {
        let plan = random_plan(&mut rng);
        let text = old_text(&mut rng, &plan);
        let exclusive = made_exclusive_in(&text);
        for side in &SIDES {
            let reading = (side.read_exclusive)(&text);
            if text.starts_with(b"plan\t1\t") {
                let code = if text.len() > 32_768 { 1 } else { 2 };
                let wanted = refusal(code, code - 1, 0);
                assert!(reading == refused_with(wanted), "{}", shown(&text));
                continue;
            }
            let wanted = (side.read_plan)(&exclusive);
            assert!(reading == wanted, "{}", shown(&text));
            without += u32::from(text == exclusive);
            with += u32::from(text != exclusive);
            read += u32::from(text != exclusive && reading.answer.is_accepted());
        }
    }
    println!("{without} texts without a shared hold, {with} with, {read} of these read");
    assert!(without > 500 && with > 500 && read > 200);
}

#[test]
fn what_is_printed_reads_back_and_stays() {
    let mut rng = Rng::announced("what_is_printed_reads_back_and_stays");
    let (mut first, mut second, mut refused) = (0, 0, 0);
    for _ in 0..3000 {
        let plan = random_plan(&mut rng);
        let text = old_text(&mut rng, &plan);
        for side in &SIDES {
            let printed = (side.convert_text)(&text);
            if printed.starts_with(b"refused\t") {
                assert_eq!(printed.split(|&byte| byte == b'\n').count(), 2);
                refused += 1;
                continue;
            }
            let reading = (side.read_plan)(&printed);
            assert_eq!(reading.answer, Answer::ACCEPTED);
            assert!(plan_text(&reading.plan) == printed);
            assert!((side.convert_text)(&printed) == printed);
            first += u32::from(text.starts_with(b"plan\t1"));
            second += u32::from(text.starts_with(b"plan\t2"));
        }
    }
    println!("{first} texts of edition 1, {second} of edition 2, {refused} refused");
    assert!(first > 200 && second > 200 && refused > 1000);
}

#[test]
fn what_is_printed_is_by_the_call_of_its_edition() {
    let mut rng = Rng::announced("what_is_printed_is_by_the_call_of_its_edition");
    for _ in 0..3000 {
        let plan = random_plan(&mut rng);
        let text = old_text(&mut rng, &plan);
        for side in &SIDES {
            let read = (side.read_plan)(&text);
            let reading = match read.answer.code {
                0 if read.plan.edition == EDITION_1 => (side.convert)(&read.plan),
                _ if text.starts_with(b"plan\t2\t") => (side.read_exclusive)(&text),
                _ => read,
            };
            let Answer {
                code,
                first,
                second,
            } = reading.answer;
            let wanted = match code {
                0 => plan_text(&reading.plan),
                _ => format!("refused\t{code}\t{first}\t{second}\n").into_bytes(),
            };
            assert!((side.convert_text)(&text) == wanted, "{}", shown(&text));
        }
    }
}
