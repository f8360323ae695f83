//! The drive sheet: the proved implementation must answer every input as the second dispatcher does, to the last byte;
//! and the wrong ways to keep a sheet are told from the right one.

use dispatcher::sample::damage::mutated_book;
use dispatcher::sample::events::{accepted_event, any_event, random_book, Event};
use dispatcher::sample::plan_a::{PLAN_A, REPORTS_A};
use dispatcher::sample::plan_b::PLAN_B;
use dispatcher::sample::plans::{full_plan_of_either, random_plan};
use dispatcher::sample::tally::{say, Tally};
use dispatcher::sample::waiting::either_rule;
use dispatcher::sample::wild::wild_book;
use dispatcher::sample::Rng;
use dispatcher::second::sheet::{drop_sheet, fresh_sheet, make_sheet, on_drive, report_sheet};
use dispatcher::second::values::{
    drive_of, is_exclusive, items, BookAndSheet, DROPPED, ENDED, RUNNING, WAITING,
};
use dispatcher::{open_book, proved, read_plan, Book, Plan, Rule, Sheet};
use std::collections::BTreeSet;

fn compare_making(tally: &mut Tally, book: &Book) -> Sheet {
    let wanted = make_sheet(book);
    assert!(proved::make_sheet(book) == wanted, "{book:?}");
    tally.count(wanted.answer);
    wanted.sheet
}

fn compare_event(tally: &mut Tally, book: &Book, sheet: &Sheet, event: Event) -> BookAndSheet {
    let (wanted, got) = match event {
        Event::End(task, tick) => (
            report_sheet(book, sheet, task, tick),
            proved::report_sheet(book, sheet, task, tick),
        ),
        Event::Drop(task) => (
            drop_sheet(book, sheet, task),
            proved::drop_sheet(book, sheet, task),
        ),
    };
    assert_eq!(
        got.result.answer, wanted.result.answer,
        "{event:?}, {book:?}"
    );
    assert!(got == wanted, "{event:?}, {book:?}");
    tally.count(wanted.result.answer);
    wanted
}

fn compare_asking(tally: &mut Tally, book: &Book, sheet: &Sheet, drive: u32) {
    let wanted = on_drive(book, sheet, drive);
    assert_eq!(
        proved::on_drive(book, sheet, drive),
        wanted,
        "drive {drive}, {book:?}"
    );
    tally.count(wanted.answer);
}

/// What the document says of a sheet, drive by drive, where two boards never run one task and an exclusive holder runs alone.
fn check_words(book: &Book, sheet: &Sheet) {
    for drive in 1..=32 {
        let on: Vec<u8> = items(&sheet.running_on(drive)).to_vec();
        assert!(on.windows(2).all(|two| two[0] < two[1]));
        let boards: BTreeSet<u8> = on.iter().map(|&k| book.board[k as usize - 1]).collect();
        assert_eq!(boards.len(), on.len(), "one a board");
        let alone = |&k: &u8| {
            let holds = &book.holds[32 * (k as usize - 1)..32 * k as usize];
            items(holds)
                .iter()
                .any(|&h| drive_of(h) == drive && is_exclusive(h))
        };
        assert!(
            on.len() < 2 || !on.iter().any(alone),
            "an exclusive holder is alone"
        );
    }
}

/// A morning with wrong events before each right one, its sheet carried along; the number of accepted ones.
fn compare_morning(
    rng: &mut Rng,
    tally: &mut Tally,
    plan: &Plan,
    rule: Rule,
    wrong_ones: u32,
) -> u64 {
    let mut book = open_book(plan, rule).book;
    let mut sheet = compare_making(tally, &book);
    let mut accepted = 0;
    for _ in 0..=2 * plan.tasks {
        for _ in 0..wrong_ones {
            let event = any_event(rng, &book);
            compare_event(tally, &book, &sheet, event);
        }
        let drive = rng.within(0, 40);
        compare_asking(tally, &book, &sheet, drive);
        let Some(event) = accepted_event(rng, &book, 15) else {
            break;
        };
        let kept = compare_event(tally, &book, &sheet, event);
        assert!(kept.result.answer.is_accepted());
        assert!(
            kept.sheet == fresh_sheet(&kept.result.book),
            "kept is afresh"
        );
        // a sheet of the book one step earlier is not the book's, unless nothing on it moved
        if sheet != kept.sheet {
            assert_eq!(
                compare_event(tally, &kept.result.book, &sheet, event)
                    .result
                    .answer
                    .code,
                9
            );
            compare_asking(tally, &kept.result.book, &sheet, 1);
        }
        (book, sheet) = (kept.result.book, kept.sheet);
        check_words(&book, &sheet);
        accepted += 1;
    }
    accepted
}

#[test]
fn sheets_along_whole_mornings_agree() {
    let (mut rng, mut tally) = Tally::seeded("compare_sheets, mornings");
    let mut accepted = 0;
    for _ in 0..700 {
        let (plan, rule) = (random_plan(&mut rng), either_rule(&mut rng));
        accepted += compare_morning(&mut rng, &mut tally, &plan, rule, 3);
    }
    tally.finish_kind("sheets along random mornings");
    for _ in 0..10 {
        let plan = full_plan_of_either(&mut rng, 64);
        let rule = either_rule(&mut rng);
        accepted += compare_morning(&mut rng, &mut tally, &plan, rule, 2);
    }
    tally.finish_kind("sheets along mornings of 64 tasks");
    for text in [PLAN_A, PLAN_B] {
        for rule in Rule::BOTH {
            accepted += compare_morning(&mut rng, &mut tally, &read_plan(text).plan, rule, 20);
        }
    }
    tally.finish_kind("sheets along plans A and B");
    assert!(accepted > 1000, "{accepted}");
    tally.finish(40_000, &[0, 9, 10, 11, 12, 13, 14, 15, 19, 21]);
}

/// Wild and changed books, with their own sheets worked out, with others', and with damaged ones.
#[test]
fn sheets_of_wild_books_agree() {
    let (mut rng, mut tally) = Tally::seeded("compare_sheets, wild");
    for n in 0..4000 {
        let good = random_book(&mut rng);
        let book = match n % 3 {
            0 => wild_book(&mut rng, &good),
            1 => mutated_book(&mut rng, &good),
            _ => good,
        };
        compare_making(&mut tally, &book);
        let mut sheet = fresh_sheet(&book);
        match rng.within(0, 3) {
            0 => sheet = fresh_sheet(&random_book(&mut rng)),
            1 => sheet.running[rng.index(256)] ^= rng.within(1, 64) as u8,
            2 => sheet.next[rng.index(32)] ^= rng.within(1, 64) as u8,
            _ => (),
        }
        let event = any_event(&mut rng, &good);
        compare_event(&mut tally, &book, &sheet, event);
        let drive = rng.within(0, 36);
        compare_asking(&mut tally, &book, &sheet, drive);
    }
    tally.finish_kind("sheets of wild books");
    tally.finish(12_000, &[0, 9]);
}

/// Ways to work a sheet out that are wrong, each with a name.
fn impostors() -> [(&'static str, fn(&Book) -> Sheet); 5] {
    [
        ("shared holders left out", |book| {
            let mut alone = *book;
            for place in alone.holds.chunks_mut(32) {
                let kept: Vec<u8> = items(place)
                    .iter()
                    .copied()
                    .filter(|&h| is_exclusive(h))
                    .collect();
                place.fill(0);
                place[..kept.len()].copy_from_slice(&kept);
            }
            fresh_sheet(&alone)
        }),
        ("next by task number", |book| {
            let mut flat = *book;
            flat.begin = [0; 64];
            fresh_sheet(&flat)
        }),
        ("a dropped holder shown as next", |book| {
            let mut there = *book;
            for i in 0..64 {
                if there.mark[i] == WAITING && there.dropped[i] == DROPPED {
                    there.dropped[i] = 0;
                }
            }
            fresh_sheet(&there)
        }),
        ("a start past the clock shown as running", |book| {
            let mut begun = *book;
            for i in 0..64 {
                if begun.mark[i] == RUNNING && begun.start[i] > begun.clock {
                    begun.start[i] = begun.clock;
                }
            }
            fresh_sheet(&begun)
        }),
        ("ended holders kept", |book| {
            let mut kept = *book;
            for i in 0..64 {
                if kept.mark[i] == ENDED && kept.dropped[i] != DROPPED {
                    kept.mark[i] = RUNNING;
                }
            }
            fresh_sheet(&kept)
        }),
    ]
}

/// Each is caught along random mornings, and so is a sheet kept by the old clock.
#[test]
fn impostors_of_the_sheet_are_caught() {
    let (mut rng, _) = Tally::seeded("compare_sheets, impostors");
    let mut caught = [0; 6];
    for _ in 0..800 {
        let book = random_book(&mut rng);
        let right = proved::make_sheet(&book).sheet;
        for (i, (_, wrong)) in impostors().iter().enumerate() {
            caught[i] += usize::from(wrong(&book) != right);
        }
        let Some(Event::End(task, tick)) = accepted_event(&mut rng, &book, 10) else {
            continue;
        };
        let after = proved::report_sheet(&book, &right, task, tick);
        let mut late = after.result.book;
        late.clock = book.clock;
        caught[5] += usize::from(fresh_sheet(&late) != after.sheet);
    }
    for (i, times) in caught.iter().enumerate() {
        let name = impostors().get(i).map_or("the old clock", |known| known.0);
        say(&format!("{name}: caught {times} times"));
        assert!(*times > 0, "{name}");
    }
}

/// Plan A: the drives of its five tasks, at opening and after each report.
#[test]
fn the_drives_of_plan_a() {
    let mut book = open_book(&read_plan(PLAN_A).plan, Rule::EarlyStart).book;
    let mut sheet = proved::make_sheet(&book).sheet;
    let mut seen = Vec::new();
    let look = |book: &Book, sheet: &Sheet| {
        [1, 2].map(|drive| {
            let on = proved::on_drive(book, sheet, drive);
            (on.running[0], on.next)
        })
    };
    seen.push(look(&book, &sheet));
    for (task, tick) in REPORTS_A {
        let kept = proved::report_sheet(&book, &sheet, task, tick);
        (book, sheet) = (kept.result.book, kept.sheet);
        seen.push(look(&book, &sheet));
    }
    let wanted = [
        [(1, 5), (0, 3)],
        [(1, 5), (3, 4)],
        [(0, 5), (3, 4)],
        [(5, 0), (4, 0)],
        [(0, 0), (4, 0)],
        [(0, 0), (0, 0)],
    ];
    assert_eq!(seen, wanted);
}
