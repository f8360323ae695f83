//! `include/cloverdusk.h` against the Rattle source, against `values.rs` and against what is refused.
//! The build holds `values.rs` against the source, and the peer calls by the header.

use crate::folders::new_folder;
use dispatcher::library::exports::Table;
use dispatcher::library::header::{constants_in, declared_in, drift, is_enum};
use dispatcher::proved::{self, peer::kit};
use dispatcher::sample::plan_a::PLAN_A;
use dispatcher::sample::program::at_root;
use dispatcher::second::values::*;
use std::collections::{BTreeMap, BTreeSet};
use std::fs;
use std::path::Path;

fn text_of(path: &str) -> String {
    fs::read_to_string(at_root(path)).unwrap()
}

fn header() -> String {
    text_of("include/cloverdusk.h")
}

/// The build has asked this already; here it is seen that it does, on headers with something more and something less.
#[test]
fn the_header_declares_every_export_and_struct_and_no_other() {
    let (table, header) = (Table::of(&at_root(".")), header());
    assert_eq!(drift(&table, &header), "");
    for (right, wrong, said) in [
        (
            "CLOVER_RESULT bool clover_is_sound(CloverBook book);",
            "",
            1,
        ),
        (
            "CloverSheet sheet, uint32_t drive",
            "CloverSheet sheet, int32_t drive",
            2,
        ),
        (
            "    uint8_t dropped[64];\n    uint8_t holds",
            "    uint8_t holds",
            2,
        ),
        ("CLOVER_PLACE(CloverBook, clock, 4);", "", 1),
        ("/* ---- plans */", "int clover_more(void);", 1),
    ] {
        let changed = header.replace(right, wrong);
        let told = drift(&table, &changed);
        assert_eq!(told.lines().count(), said, "{wrong}: {told}");
    }
}

#[test]
fn a_header_is_read_as_it_is_written() {
    let header = "#ifndef A\n/* f(); */\n#define B(x) \\\n    x;\nextern \"C\" {\nenum {\n    C = 3, /* three */\n    D = 4\n};\n\
                  int f(int a, /* b */\n      int c);\n#endif\n}\n#undef B\n";
    let declared: Vec<String> = declared_in(header).into_iter().collect();
    assert_eq!(declared, ["enum { C = 3, D = 4 };", "int f(int a, int c);"]);
    let constants = [("C".to_string(), 3), ("D".to_string(), 4)];
    assert_eq!(constants_in(&declared[0]), constants);
}

fn constants() -> BTreeMap<String, u32> {
    let enums = declared_in(&header())
        .into_iter()
        .filter(|item| is_enum(item));
    enums.flat_map(|item| constants_in(&item)).collect()
}

/// The number that a definition in a file of `specs/` stands for.
fn defined(path: &str, name: &str) -> u32 {
    let text = text_of(path);
    let number = text
        .lines()
        .find_map(|line| line.strip_prefix(&format!("{name} = ")));
    number
        .unwrap_or_else(|| panic!("{path} has no {name}"))
        .parse()
        .unwrap()
}

#[test]
fn sizes_and_bytes_are_those_of_the_source_and_of_the_values() {
    let log = defined("crates/log_run/specs/Log.antt", "log_most");
    let converted = defined("crates/plan_convert/specs/Renewed.antt", "text_most");
    let timetable = defined("crates/engine_write/specs/Rows.antt", "table_most");
    let judged = defined("crates/school/specs/Text.antt", "judged_most");
    let report = defined("crates/year_write/specs/Report.antt", "report_most");
    let logs = defined("crates/year_rules/specs/Totals.antt", "logs_most");
    assert_eq!(log as usize, proved::LONGEST_LOG);
    assert_eq!(converted as usize, proved::CONVERTED_ROOM);
    assert_eq!(timetable as usize, proved::LONGEST_TIMETABLE);
    let wanted = [
        ("MOST_BOARDS", MOST_BOARDS.into()),
        ("MOST_TASKS", MOST_TASKS.into()),
        ("MOST_DRIVES", MOST_DRIVES),
        ("LAST_TICK", LAST_TICK),
        ("LONGEST_TEXT", LONGEST_TEXT as u32),
        ("HOLD_PLACES", HOLD_PLACES as u32),
        ("AFTER_PLACES", AFTER_PLACES as u32),
        (
            "RUNNING_PLACES",
            size_of_val(&Sheet::ZERO.running_on(1)) as u32,
        ),
        ("LONGEST_LOG", log),
        ("LONGEST_CONVERTED", converted),
        ("LONGEST_TIMETABLE", timetable),
        ("LONGEST_JUDGED", judged),
        ("LONGEST_REPORT", report),
        ("MOST_LOGS", logs),
        ("EDITION_1", EDITION_1.into()),
        ("EDITION_2", EDITION_2.into()),
        ("EARLY_START", Rule::EarlyStart as u32),
        ("CLASH", Rule::Clash as u32),
        ("WAITING", WAITING.into()),
        ("RUNNING", RUNNING.into()),
        ("ENDED", ENDED.into()),
        ("DROPPED", DROPPED.into()),
        ("ACCEPTED", Answer::ACCEPTED.code),
    ];
    let wanted = wanted.map(|(name, number)| (format!("CLOVER_{name}"), number));
    let mut found = constants();
    found.retain(|name, _| !name.starts_with("CLOVER_REFUSED_"));
    assert_eq!(found, BTreeMap::from(wanted));
}

/// Plan A with one piece of its text replaced, which stands there once.
fn with(old: &str, new: &str) -> Vec<u8> {
    let text = std::str::from_utf8(PLAN_A).unwrap();
    assert_eq!(text.matches(old).count(), 1, "{old}");
    text.replace(old, new).into_bytes()
}

fn task_of_edition_2(rest: &str) -> Vec<u8> {
    format!("plan\t2\t1\t1\ntask\t1\t1\t{rest}\t-\n").into_bytes()
}

/// What a text is refused by that fits each name.
fn refused_texts() -> Vec<(&'static str, Vec<u8>)> {
    vec![
        ("TOO_LONG", vec![b'\n'; LONGEST_TEXT + 1]),
        ("FIRST_LINE", with("plan\t1\t2", "plan\t1\t9")),
        ("MALFORMED", PLAN_A[..PLAN_A.len() - 1].to_vec()),
        ("OUT_OF_RANGE", with("0\t6\te1", "6\t6\te1")),
        ("BYTES_FOLLOW", [PLAN_A, b"\n"].concat()),
        ("BOARD", with("2\t4\t9", "2\t3\t9")),
        ("DRIVE", with("0\t4\t-", "0\t4\te1")),
        ("AFTER", with("0\t4\t-\t-", "0\t4\t-\t2")),
        (
            "LATE_BEGINNING",
            b"plan\t1\t1\t1\ntask\t1\t1\t5\t6\t-\t-\n".to_vec(),
        ),
        ("READY_LATE", task_of_edition_2("1\t0\t5\t-")),
        ("SHARED_HOLD", task_of_edition_2("0\t0\t5\ts1")),
    ]
}

/// The calls that are refused by what fits each name; the reports are those of the build's rules.
fn refused_calls() -> Vec<(&'static str, Answer)> {
    let plan = proved::read_plan(PLAN_A).plan;
    let book = proved::open_book(&plan, Rule::EarlyStart).book;
    let later = proved::report(&book, 2, 3).book;
    let sheet = proved::make_sheet(&book).sheet;
    vec![
        (
            "UNSOUND",
            proved::open_book(&Plan::ZERO, Rule::EarlyStart).answer,
        ),
        ("NO_TASK", proved::report(&book, 6, 3).answer),
        ("NOT_RUNNING", proved::report(&book, 3, 3).answer),
        ("BEFORE_CLOCK", proved::report(&later, 1, 2).answer),
        ("NOT_PAST_START", proved::report(&later, 3, 3).answer),
        ("PAST_LIMIT", proved::report(&book, 2, 5).answer),
        ("OTHER_OVERDUE", proved::report(&book, 1, 5).answer),
        (
            "SHORT_BUFFER",
            proved::write_plan(&plan, &mut [0; 9]).answer,
        ),
        ("NOT_DROPPABLE", proved::drop_task(&book, 1).answer),
        ("NO_DRIVE", proved::on_drive(&book, &sheet, 33).answer),
        (
            "LENGTH",
            proved::timetable(&plan, Rule::EarlyStart, &Lengths::ZERO).answer,
        ),
    ]
}

/// Logs of plan A, each changed in the places that are named, and refused by what fits its name.
fn refused_logs() -> Vec<(&'static str, Answer)> {
    let (plan, log) = (
        proved::read_plan(PLAN_A).plan,
        text_of("examples/plan-a/log.txt"),
    );
    let changed = |changes: &[(&str, &str)]| {
        let log = changes.iter().fold(log.clone(), |log, (old, new)| {
            assert_eq!(log.matches(old).count(), 1, "{old}");
            log.replace(old, new)
        });
        proved::judge_log(&plan, log.as_bytes()).answer
    };
    let (start, end) = ("start\t4\t1\t6\t3", "end\t4\t1\t9\t3");
    vec![
        ("LOG_LINE", changed(&[("run\t1\t2\t5", "run\t1\t2\t4")])),
        ("LOG_TASK", changed(&[("end\t4\t1\t9\t3\n", "")])),
        ("LOG_LENGTH", changed(&[(end, "end\t4\t1\t10\t2")])),
        (
            "LOG_CLASH",
            changed(&[(start, "start\t4\t1\t3\t6"), (end, "end\t4\t1\t6\t6")]),
        ),
        (
            "LOG_START",
            changed(&[(start, "start\t4\t1\t10\t-1"), (end, "end\t4\t1\t11\t1")]),
        ),
    ]
}

/// A year that is full, and a log more.
fn refused_log_too_many() -> (&'static str, Answer) {
    let full = Totals {
        accepted: 10_000,
        refused: 0,
        ended: [0; 8],
        sum: [0; 8],
        greatest: [0; 8],
        least: [0; 8],
    };
    let plan = proved::read_plan(PLAN_A).plan;
    ("TOO_MANY_LOGS", proved::add_log(&full, &plan, b"").answer)
}

#[test]
fn each_refusal_number_is_given_where_its_name_says() {
    let texts = refused_texts().into_iter();
    let texts = texts.map(|(name, text)| (name, proved::read_plan(&text).answer.code));
    let calls = refused_calls().into_iter().chain(refused_logs());
    let calls = calls.chain([refused_log_too_many()]);
    let calls = calls.map(|(name, answer)| (name, answer.code));
    let met = texts.chain(calls);
    let met = met.map(|(name, code)| (format!("CLOVER_REFUSED_{name}"), code));
    let mut named = constants();
    named.retain(|name, _| name.starts_with("CLOVER_REFUSED_"));
    assert_eq!(named, met.collect::<BTreeMap<_, _>>());
    let numbers: BTreeSet<u32> = named.into_values().collect();
    assert_eq!(numbers, (1..=28).collect());
}

#[test]
fn the_numbers_of_the_handbook_have_names() {
    let handbook = text_of("docs/USING.md");
    let (_, table) = handbook.split_once("\n## Refusal numbers\n").unwrap();
    let rows = table.lines().take_while(|line| line.starts_with('|'));
    let number = |row: &str| row.split('|').nth(1)?.trim().parse::<u32>().ok();
    let told: Vec<u32> = rows.filter_map(number).collect();
    assert!(told.len() >= 22, "{told:?}");
    let named: BTreeSet<u32> = constants().into_values().collect();
    assert!(told.iter().all(|number| named.contains(number)));
}

/// Whether the compiler takes the file, with warnings as errors.
fn compiles(file: &Path, language: &[&str]) -> bool {
    let mut compiler = kit().compiler(&at_root("."));
    compiler
        .args(language)
        .args(["-fsyntax-only", "-Wall", "-Wextra"]);
    compiler.args(["-Wpedantic", "-Wconversion", "-Wshadow", "-Werror"]);
    let output = compiler.arg(file).output().unwrap();
    assert!(output.status.success() || !output.stderr.is_empty());
    output.status.success()
}

const LANGUAGES: [&[&str]; 2] = [
    &["-x", "c", "-std=c11", "-Wstrict-prototypes"],
    &["-x", "c++", "-std=c++17", "-Wold-style-cast"],
];

/// The header twice, and a call of each sort by its own declaration.
const CLIENT: &str = "#include \"cloverdusk.h\"\n#include \"cloverdusk.h\"\n\
    CloverAnswer judged(CloverPlan plan);\n\
    CloverAnswer judged(CloverPlan plan) { return clover_judge_plan(plan); }\n\
    bool is_whole(uint8_t *out, size_t length);\n\
    bool is_whole(uint8_t *out, size_t length) { return clover_run_log(out, 0, out, 0, out, length) < length; }\n";

#[test]
fn c11_and_cpp17_take_the_header_without_a_warning() {
    let folder = new_folder("header");
    let file = folder.join("client.c");
    fs::write(&file, CLIENT).unwrap();
    for language in LANGUAGES {
        assert!(compiles(&file, language), "{language:?}");
    }
}

/// A header beside the client goes before the right one.
#[test]
fn a_wrong_field_place_or_size_is_refused_by_the_compiler() {
    let folder = new_folder("wrong-header");
    let file = folder.join("client.c");
    fs::write(&file, CLIENT).unwrap();
    for (right, wrong) in [
        ("uint32_t ready[64];", "uint16_t ready[64];"),
        ("uint8_t rule;          /*", "uint64_t rule; /*"),
        ("CloverBook, mark, 1352)", "CloverBook, mark, 1353)"),
        (
            "CLOVER_SIZE(CloverBookAndSheet, 7924)",
            "CLOVER_SIZE(CloverBookAndSheet, 7925)",
        ),
        ("defined(__x86_64__)", "defined(__aarch64__)"),
    ] {
        let header = header();
        assert!(header.contains(right), "{right}");
        fs::write(folder.join("cloverdusk.h"), header.replace(right, wrong)).unwrap();
        for language in LANGUAGES {
            assert!(!compiles(&file, language), "{wrong}, {language:?}");
        }
    }
}

/// How the library's source calls a function of the README's table.
fn call_of(function: &str) -> String {
    match function.split_once("::") {
        Some((owner, method)) if owner.starts_with(char::is_uppercase) => format!(".{method}("),
        _ => format!("{function}("),
    }
}

#[test]
fn everything_that_the_readme_lists_as_a_library_is_exported() {
    let readme = text_of("README.md");
    let (_, listed) = readme.split_once("\n## As a library\n").unwrap();
    let rows = listed
        .lines()
        .take_while(|line| line.starts_with('|'))
        .skip(2);
    let functions: Vec<&str> = rows
        .flat_map(|row| row.split('|').nth(2).unwrap().split('`').skip(1).step_by(2))
        .collect();
    assert!(functions.len() > 20, "{functions:?}");
    let source = text_of("crates/cloverdusk/src/lib.rt");
    for function in functions {
        let call = call_of(function);
        assert!(source.contains(&call), "{function} is not exported");
    }
}
