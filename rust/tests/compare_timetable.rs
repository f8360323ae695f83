//! The engine without reports: the proved implementation must answer every plan, rule, length and
//! drop as the second one does, and print every pair of texts alike, to the last byte.

use dispatcher::proved::{self, write_timetable, LONGEST_TIMETABLE};
use dispatcher::sample::damage::mutated_plan;
use dispatcher::sample::faults::{damaged_text, faulty_pair_plan, late_plan, sharing_plan};
use dispatcher::sample::lengths::{
    any_lengths, lengths_text, odd_lengths_texts, planned_length, random_case, taken_lengths,
    with_odd_field, with_odd_lengths_line, Case,
};
use dispatcher::sample::lent::{expect_room, shown, Lent};
use dispatcher::sample::lines::{
    damaged_lines, damaged_rule_lines, noise, rule_lines_with_one_byte_wrong, stretched_text,
    with_odd_rule_line,
};
use dispatcher::sample::one_fault::one_fault;
use dispatcher::sample::pairs::every_pair;
use dispatcher::sample::plan_a::PLAN_A;
use dispatcher::sample::plan_b::PLAN_B;
use dispatcher::sample::plans::{full_plan, full_plan_of_either, random_plan};
use dispatcher::sample::program::{at_root, contents};
use dispatcher::sample::tally::{Printed, Tally};
use dispatcher::sample::waiting::{awaited, either_rule};
use dispatcher::sample::wild::{one_rule_broken, wild_plan};
use dispatcher::sample::Rng;
use dispatcher::second::lengths::asking;
use dispatcher::second::text::plan_text;
use dispatcher::second::values::{Lengths, LONGEST_TEXT};
use dispatcher::{timetable, timetable_text, Plan, Rule, Timetable};

/// Bytes that are right in some places of a text and wrong in others.
const LIKELY_BYTES: &[u8] = b"\t\n-0129cdr";

/// A text for plan A, in which each kind of line stands.
const LENGTHS_A: &[u8] = b"rule\tclash\nlength\t4\t2\ndrop\t3\nlength\t3\t9\nlength\t1\t6\n";

fn compare(tally: &mut Tally, plan: &Plan, rule: Rule, given: &Lengths) -> Timetable {
    let wanted = timetable(plan, rule, given);
    let got = proved::timetable(plan, rule, given);
    assert_eq!(got.answer, wanted.answer, "{rule:?}, {given:?}, {plan:?}");
    assert!(got == wanted, "{rule:?}, {given:?}, {plan:?}");
    tally.count(wanted.answer);
    wanted
}

/// The two lines that a class reads, of each task: its start from the ends of those it waits for,
/// its end from its start. Past the last task there is nothing.
fn check_two_lines(plan: &Plan, rule: Rule, given: &Lengths, found: &Timetable) {
    let count = plan.task_count();
    for i in 0..count {
        let ends = awaited(plan, rule, i).into_iter().map(|j| found.end[j]);
        let latest = ends.max().unwrap_or(0);
        let (start, length) = if given.is_dropped(i) {
            (latest, 0)
        } else {
            (latest.max(plan.ready[i]), given.length[i])
        };
        assert_eq!(found.start[i], start, "task {}, {plan:?}", i + 1);
        assert_eq!(found.end[i], start + length, "task {}, {plan:?}", i + 1);
    }
    let empty = [0; 64];
    assert_eq!(found.start[count..], empty[count..]);
    assert_eq!(found.end[count..], empty[count..]);
}

/// What a refusal names: the first task that meets its sentence.
fn check_refusal(plan: &Plan, rule: Rule, given: &Lengths, found: &Timetable) {
    let free = |i: &usize| given.is_dropped(*i) && awaited(plan, rule, *i).is_empty();
    let wrong = |i: &usize| {
        let length = given.length[*i];
        !given.is_dropped(*i) && (length == 0 || length > planned_length(plan, *i))
    };
    let (free, wrong) = (
        (0..plan.task_count()).find(free),
        (0..plan.task_count()).find(wrong),
    );
    let named = match found.answer.code {
        22 => wrong,
        19 if wrong.is_none() => free,
        _ => None,
    };
    let named = named.map(|i| i as u32 + 1);
    assert_eq!(Some(found.answer.first), named, "{given:?}, {plan:?}");
    assert_eq!(found.answer.second, 0);
    let zeros = [0; 64];
    assert!(found.start == zeros && found.end == zeros);
}

fn check(plan: &Plan, rule: Rule, given: &Lengths, found: &Timetable) {
    if found.answer.is_accepted() {
        check_two_lines(plan, rule, given, found);
    } else {
        check_refusal(plan, rule, given, found);
    }
}

fn compare_random_cases(rng: &mut Rng, tally: &mut Tally) {
    for _ in 0..12_000 {
        let Case { plan, rule, given } = random_case(rng);
        let found = compare(tally, &plan, rule, &given);
        check(&plan, rule, &given, &found);
        // By the other rule some of the drops may not be taken.
        let other = match rule {
            Rule::EarlyStart => Rule::Clash,
            Rule::Clash => Rule::EarlyStart,
        };
        let found = compare(tally, &plan, other, &given);
        check(&plan, other, &given, &found);
    }
    tally.finish_kind("lengths and drops of random plans, by both rules");
}

fn compare_full_plans(rng: &mut Rng, tally: &mut Tally) {
    for _ in 0..400 {
        let plan = full_plan_of_either(rng, 64);
        for rule in Rule::BOTH {
            for _ in 0..4 {
                let given = any_lengths(rng, &plan, rule);
                let found = compare(tally, &plan, rule, &given);
                check(&plan, rule, &given, &found);
            }
        }
    }
    tally.finish_kind("lengths and drops of plans of 64 tasks");
}

/// Two tasks, the one that may wait dropped and not.
fn compare_every_pair(rng: &mut Rng, tally: &mut Tally) {
    for pair in every_pair() {
        for rule in Rule::BOTH {
            let mut given = taken_lengths(rng, &pair.plan, rule);
            for byte in [0, 1, 2] {
                given.dropped[pair.second] = byte;
                let length = planned_length(&pair.plan, pair.second);
                given.length[pair.second] = if byte == 1 { 0 } else { length };
                let found = compare(tally, &pair.plan, rule, &given);
                check(&pair.plan, rule, &given, &found);
            }
        }
    }
    tally.finish_kind("lengths and drops of pairs with every sort of clash");
}

fn compare_changed_plans(rng: &mut Rng, tally: &mut Tally) {
    for _ in 0..800 {
        let (plan, rule) = (random_plan(rng), either_rule(rng));
        let given = any_lengths(rng, &plan, rule);
        for _ in 0..3 {
            compare(tally, &mutated_plan(rng, &plan), rule, &given);
            compare(tally, &one_rule_broken(rng, &plan), rule, &given);
            compare(tally, &faulty_pair_plan(rng, &plan), rule, &given);
            compare(tally, &late_plan(rng, &plan), rule, &given);
            compare(tally, &sharing_plan(rng, &plan), rule, &given);
            compare(tally, &wild_plan(rng), rule, &given);
        }
    }
    let nothing = Lengths::planned(&Plan::ZERO);
    for rule in Rule::BOTH {
        compare(tally, &Plan::ZERO, rule, &nothing);
    }
    tally.finish_kind("lengths and drops of changed plans");
}

#[test]
fn timetables_are_found_alike() {
    let (mut rng, mut tally) = Tally::seeded("compare_timetable");
    compare_random_cases(&mut rng, &mut tally);
    compare_full_plans(&mut rng, &mut tally);
    compare_every_pair(&mut rng, &mut tally);
    compare_changed_plans(&mut rng, &mut tally);
    tally.finish(40_000, &[0, 9, 19, 22]);
}

fn print_random_texts(rng: &mut Rng, printed: &mut Printed) {
    for _ in 0..4_000 {
        let case = random_case(rng);
        let plan = plan_text(&case.plan);
        let lengths = lengths_text(rng, &case);
        printed.compare(&plan, &lengths);
        printed.compare(&plan, &damaged_text(rng, &lengths));
        printed.compare(&plan, &with_odd_lengths_line(rng, &lengths));
        printed.compare(&plan, &with_odd_field(rng, &lengths));
        printed.compare(&plan, &with_odd_rule_line(rng, &lengths));
        if !lengths.is_empty() {
            printed.compare(&plan, &damaged_lines(rng, &lengths));
        }
    }
    printed
        .tally
        .finish_kind("lengths as they are, and damaged by byte, field, line and order");
}

fn print_faulty_plans(rng: &mut Rng, printed: &mut Printed) {
    for _ in 0..5_000 {
        let case = random_case(rng);
        let lengths = lengths_text(rng, &case);
        printed.compare(&one_fault(rng, &case.plan).text, &lengths);
        printed.compare(&plan_text(&faulty_pair_plan(rng, &case.plan)), &lengths);
        printed.compare(&damaged_text(rng, &plan_text(&case.plan)), &lengths);
    }
    printed.tally.finish_kind("lengths of refused plans");
}

fn print_long_texts(rng: &mut Rng, printed: &mut Printed) {
    for _ in 0..250 {
        let case = random_case(rng);
        let (plan, lengths) = (plan_text(&case.plan), lengths_text(rng, &case));
        for length in [LONGEST_TEXT, LONGEST_TEXT + 1] {
            printed.compare(&plan, &stretched_text(rng, &lengths, length));
        }
        printed.compare(
            b"plan\t1\t1\t0\n",
            &stretched_text(rng, &lengths, LONGEST_TEXT + 1),
        );
        printed.compare(&plan, &noise(rng));
    }
    printed
        .tally
        .finish_kind("lengths of 32,768 bytes and one more, and noise");
}

/// Every beginning of the text, and each of its bytes replaced, taken out or put in.
fn print_changed_bytes(printed: &mut Printed) {
    for plan in [PLAN_A, PLAN_B] {
        for at in 0..LENGTHS_A.len() {
            let (before, behind) = (&LENGTHS_A[..at], &LENGTHS_A[at + 1..]);
            printed.compare(plan, before);
            printed.compare(plan, &[before, behind].concat());
            for byte in LIKELY_BYTES {
                printed.compare(plan, &[before, &[*byte], behind].concat());
                printed.compare(plan, &[before, &[*byte], &LENGTHS_A[at..]].concat());
            }
        }
        for lengths in odd_lengths_texts() {
            printed.compare(plan, &lengths);
        }
        for line in damaged_rule_lines() {
            printed.compare(plan, &line);
            printed.compare(plan, &[&line, b"drop\t5\n".as_slice()].concat());
        }
        for line in rule_lines_with_one_byte_wrong() {
            printed.compare(plan, &line);
        }
    }
    printed
        .tally
        .finish_kind("lengths of plans A and B with one byte changed, and with odd lines");
}

#[test]
fn timetables_are_printed_alike() {
    let (mut rng, tally) = Tally::seeded("compare_timetable, printed");
    let mut printed = Printed::new(tally, LONGEST_TIMETABLE, timetable_text, write_timetable);
    print_random_texts(&mut rng, &mut printed);
    print_faulty_plans(&mut rng, &mut printed);
    print_long_texts(&mut rng, &mut printed);
    print_changed_bytes(&mut printed);
    let of_plans = [1, 2, 3, 4, 5, 6, 7, 8, 17, 18, 20];
    printed
        .tally
        .finish(40_000, &[&of_plans[..], &[0, 19, 22]].concat());
}

fn compare_asking(tally: &mut Tally, plan: &Plan, text: &[u8]) {
    let wanted = asking(plan, text);
    let got = proved::read_lengths(plan, text);
    assert_eq!(got, wanted, "{}, {plan:?}", shown(text));
    tally.count(wanted.answer);
}

/// Of any plan that is handed in, also of one that no text says.
#[test]
fn lengths_are_read_alike() {
    let (mut rng, mut tally) = Tally::seeded("compare_timetable, lengths");
    let rng = &mut rng;
    for _ in 0..3_000 {
        let case = random_case(rng);
        let text = lengths_text(rng, &case);
        let too_long = stretched_text(rng, &text, LONGEST_TEXT + 1);
        for plan in [case.plan, mutated_plan(rng, &case.plan), wild_plan(rng)] {
            compare_asking(&mut tally, &plan, &text);
            compare_asking(&mut tally, &plan, &damaged_text(rng, &text));
            compare_asking(&mut tally, &plan, &with_odd_field(rng, &text));
            compare_asking(&mut tally, &plan, &with_odd_rule_line(rng, &text));
        }
        compare_asking(&mut tally, &case.plan, &too_long);
    }
    tally.finish(30_000, &[0, 1, 3, 4]);
}

#[test]
fn a_buffer_that_is_too_short_gets_nothing_and_a_longer_one_only_what_is_printed() {
    let full = plan_text(&full_plan(&mut Rng::new(7), 64));
    for (plan, lengths) in [
        (b"".as_slice(), b"".as_slice()),
        (PLAN_A, LENGTHS_A),
        (PLAN_A, b"length\n"),
        (&full, b""),
    ] {
        let wanted = timetable_text(plan, lengths);
        expect_room(LONGEST_TIMETABLE, &wanted, |out| {
            write_timetable(plan, lengths, out)
        });
    }
}

/// What lines of `lengths.txt` for plan A are refused by, worked out by hand.
#[test]
fn lines_are_refused_where_their_first_fault_begins() {
    for (lengths, said) in [
        ("length\t1\t1\nlength\t1\t1\n", "4\t2\t8"),
        ("drop\t3\nlength\t3\t1\ndrop\t3\n", "4\t3\t6"),
        ("length\t6\t1000001\n", "4\t1\t8"),
        ("length\t0\t1\n", "4\t1\t8"),
        ("drop\t6\n", "4\t1\t6"),
        ("drop\t3\nlength\t3\t1000001\n", "4\t2\t10"),
        ("length\t1\t1000001\n", "4\t1\t10"),
        ("length\t9\t01\n", "3\t1\t10"),
        ("length\t9\t1", "3\t1\t11"),
        ("length\t1\t1\t1\n", "3\t1\t12"),
        ("length\t1\n", "3\t1\t9"),
        ("length\t\t1\n", "3\t1\t8"),
        ("drop\t3\t1\n", "3\t1\t8"),
        ("end\t1\t1\n", "3\t1\t1"),
        ("\n", "3\t1\t1"),
        ("rule\n", "3\t1\t5"),
        ("rule\tclash\nrule\tclash\n", "3\t2\t1"),
        ("rule\tclash\nlength\t1\t0\n", "22\t1\t0"),
        // A task of plan A that waits for nobody, and one whose length is not read.
        ("drop\t2\nlength\t2\t0\n", "19\t2\t0"),
        ("drop\t1\nlength\t3\t6\n", "22\t3\t0"),
        ("length\t5\t0\nlength\t3\t1000000\n", "22\t3\t0"),
    ] {
        let refused = format!("refused\t{said}\n");
        let printed = timetable_text(PLAN_A, lengths.as_bytes());
        assert_eq!(String::from_utf8_lossy(&printed), refused, "{lengths:?}");
    }
}

/// The plan's document run: its lengths, and the starts and ends of the document's log.
#[test]
fn plan_a_has_the_starts_and_ends_of_its_run() {
    let lengths = b"length\t1\t4\nlength\t2\t3\nlength\t3\t3\nlength\t4\t3\nlength\t5\t2\n";
    let wanted = "task\t1\t1\t0\t4\ntask\t2\t2\t0\t3\ntask\t3\t2\t3\t6\ntask\t4\t1\t6\t9\ntask\t5\t2\t6\t8\n";
    let printed = timetable_text(PLAN_A, lengths);
    assert_eq!(String::from_utf8_lossy(&printed), wanted);
}

#[test]
fn the_example_prints_its_timetable() {
    let [plan, lengths, wanted] = ["plan.txt", "lengths.txt", "timetable.txt"]
        .map(|name| contents(&at_root("examples/timetable").join(name)));
    assert!(timetable_text(&plan, &lengths) == wanted);
    let mut out = Lent::new(LONGEST_TIMETABLE);
    out.expect(&wanted, &[&plan, &lengths], |out| {
        write_timetable(&plan, &lengths, out)
    });
}
