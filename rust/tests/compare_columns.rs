//! Damaged lines of both files: the proved implementation must name the same
//! fault at the same column as the second dispatcher.

use dispatcher::proved;
use dispatcher::sample::columns::{
    every_damaged_ends, every_damaged_plan, every_damaged_rule_line,
};
use dispatcher::sample::lent::Lent;
use dispatcher::sample::mixtures::every_mixture;
use dispatcher::sample::plan_a::PLAN_A;
use dispatcher::sample::tally::Tally;
use dispatcher::second::values::{EDITION_1, EDITION_2};
use dispatcher::{read_exclusive, read_plan, run_log};

#[test]
fn damaged_task_lines_are_answered_alike() {
    let mut tally = Tally::new("compare_columns");
    for text in every_damaged_plan() {
        let wanted = read_plan(&text);
        let shown = String::from_utf8_lossy(&text);
        assert_eq!(proved::read_plan(&text), wanted, "{shown:?}");
        tally.count(wanted.answer);
    }
    tally.finish_kind("plans with one to three faults in a line");
    tally.finish(25_000, &[3, 4]);
}

#[test]
fn damaged_task_lines_are_answered_alike_by_the_second_call() {
    let mut tally = Tally::new("compare_columns");
    for text in every_damaged_plan() {
        let wanted = read_exclusive(&text);
        let shown = String::from_utf8_lossy(&text);
        assert_eq!(proved::read_exclusive(&text), wanted, "{shown:?}");
        tally.count(wanted.answer);
    }
    tally.finish_kind("plans with one to three faults in a line");
    tally.finish(25_000, &[2, 3, 4]);
}

#[test]
fn every_mixture_of_3_4_18_and_20_is_answered_alike() {
    let mut tally = Tally::new("compare_columns, mixtures");
    for mixture in [EDITION_1, EDITION_2].into_iter().flat_map(every_mixture) {
        let text = &mixture.text;
        let shown = String::from_utf8_lossy(text);
        let wanted = read_plan(text);
        assert_eq!(proved::read_plan(text), wanted, "{shown:?}");
        tally.count(wanted.answer);
        let second = read_exclusive(text);
        assert_eq!(proved::read_exclusive(text), second, "{shown:?}");
    }
    tally.finish_kind("plans with any of four faults in each of three lines");
    tally.finish(8_192, &[3, 4, 18, 20]);
}

#[test]
fn damaged_lines_of_ends_are_answered_alike() {
    let mut tally = Tally::new("compare_columns");
    let mut out = Lent::new(proved::LONGEST_LOG);
    for text in [every_damaged_ends(), every_damaged_rule_line()].concat() {
        let wanted = run_log(PLAN_A, &text);
        out.expect(&wanted, &[&text], |out| {
            proved::write_log(PLAN_A, &text, out)
        });
        tally.count_printed(&wanted);
    }
    tally.finish_kind("ends with one to three faults in a line");
    tally.finish(1_500, &[3]);
}
