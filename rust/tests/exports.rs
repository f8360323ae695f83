//! The table of exports is the library's Rattle source. It is held against the archive here; what it
//! says of structs is held against `values.rs` by the build. And both ways to call the library agree.

use dispatcher::library::exports::{
    exports_in, struct_in, without_comments, Export, Field, Kind, Table,
};
use dispatcher::proved::{self, peer};
use dispatcher::sample::plan_a::PLAN_A;
use dispatcher::sample::plans::{full_plan, with_even_ready_ticks};
use dispatcher::sample::program::at_root;
use dispatcher::sample::reports::last_moment_report;
use dispatcher::sample::years::ALL_ONES;
use dispatcher::sample::Rng;
use dispatcher::second::text::plan_text;
use dispatcher::{Lengths, Plan, Rule, Totals};
use std::fs;

/// The names that the archive's index lists: a count, so many offsets of 4 bytes, so many names.
fn names_in_archive() -> Vec<String> {
    const INDEX: usize = 8 + 60;
    let archive = fs::read(at_root("crates/cloverdusk/out/libcloverdusk.a")).unwrap();
    assert!(
        archive.starts_with(b"!<arch>\n/ "),
        "no archive with an index"
    );
    let count = archive[INDEX..INDEX + 4].try_into().map(u32::from_be_bytes);
    let count = count.unwrap() as usize;
    let names = archive[INDEX + 4 + 4 * count..].split(|&byte| byte == 0);
    let names = names
        .take(count)
        .map(|name| String::from_utf8(name.to_vec()).unwrap());
    names.collect()
}

#[test]
fn the_archive_has_these_functions_and_no_other() {
    let table = Table::of(&at_root("."));
    let mut written: Vec<String> = table
        .exports
        .into_iter()
        .map(|export| export.name)
        .collect();
    let mut built = names_in_archive();
    written.sort();
    built.sort();
    assert_eq!(built, written);
}

fn field(name: &str, kind: Kind) -> Field {
    let name = name.to_string();
    Field { name, kind }
}

fn number(name: &str) -> Kind {
    Kind::Number(name.to_string())
}

#[test]
fn an_export_is_read_as_it_is_written() {
    let source = "// pub extern \"C\" fn no() -> u8\n#[unsafe(no_mangle)]\npub extern \"C\" fn clover_all(\n    \
        plan: Plan, // a comment\n    text: &[u8],\n    clash: bool,\n    out: &mut [u8],\n    tick: i32,\n) -> WriteResult\n    \
        ensures { result ≡ (λ (x : ℕ). x) 1 }\n{\n}\n\nfn own(yes: bool) -> u32\n{\n}\n";
    let wanted = Export {
        name: "clover_all".to_string(),
        arguments: vec![
            field("plan", Kind::Struct("Plan".to_string())),
            field("text", Kind::Slice),
            field("clash", Kind::Truth),
            field("out", Kind::Lent),
            field("tick", number("i32")),
        ],
        answer: Kind::Struct("WriteResult".to_string()),
    };
    assert_eq!(exports_in(&without_comments(source)), [wanted]);
}

#[test]
fn a_struct_is_read_and_laid_out_as_c_does() {
    let source = "#[repr(C)]\n#[derive(Drop)]\npub struct Sheet {\n    pub known: u8,\n    pub next: [[u16; 8]; 32],\n    pub sum: u64,\n    pub last: u8,\n}\n";
    let sheet = struct_in(source, "Sheet").expect("it is there");
    assert_eq!(struct_in(source, "Sheets"), None);
    let rows = Kind::Array(Box::new(Kind::Array(Box::new(number("u16")), 8)), 32);
    assert_eq!(sheet.fields[1], field("next", rows));
    let table = Table {
        exports: Vec::new(),
        structs: Vec::new(),
        files: Vec::new(),
    };
    assert_eq!(table.places(&sheet), (vec![0, 2, 520, 528], 536, 8));
}

#[test]
#[should_panic(expected = "there is no way yet to hand over &[u32]")]
fn a_kind_that_is_not_known_stops_the_build() {
    exports_in("#[unsafe(no_mangle)]\npub extern \"C\" fn clover_sum(of: &[u32]) -> u32\n{\n}\n");
}

#[test]
#[should_panic(expected = "clover_one is not marked #[unsafe(no_mangle)]")]
fn an_export_that_the_archive_does_not_name_stops_the_build() {
    exports_in("pub extern \"C\" fn clover_one() -> u32\n{\n}\n");
}

#[test]
#[should_panic(expected = "Sheet is not marked #[repr(C)]")]
fn a_struct_that_c_cannot_lay_out_stops_the_build() {
    struct_in("pub struct Sheet {\n    pub known: u8,\n}\n", "Sheet");
}

/// What a call answered and what its buffer holds then.
fn with_buffer<A>(length: usize, call: impl Fn(&mut [u8]) -> A) -> (A, Vec<u8>) {
    let mut buffer = vec![b'~'; length];
    let answer = call(&mut buffer);
    (answer, buffer)
}

/// Texts, lent buffers and answers of every kind; on a processor that is not x86-64 the peer is asked twice.
fn compare_on_plan(plan: &Plan) {
    let text = plan_text(plan);
    for text in [&text[..], &text[1..], b""] {
        assert!(peer::read_plan(text) == proved::read_plan(text));
        assert!(peer::read_exclusive(text) == proved::read_exclusive(text));
    }
    assert!(peer::convert(plan) == proved::convert(plan));
    assert_eq!(peer::is_accepted(plan), proved::is_accepted(plan));
    assert_eq!(peer::judge_plan(plan), proved::judge_plan(plan));
    for length in [0, 10, text.len(), 40_000] {
        let by_peer = with_buffer(length, |out| peer::write_plan(plan, out));
        assert!(by_peer == with_buffer(length, |out| proved::write_plan(plan, out)));
        let by_peer = with_buffer(length, |out| peer::convert_text(&text, out));
        assert!(by_peer == with_buffer(length, |out| proved::convert_text(&text, out)));
    }
    for lengths in [&b""[..], b"length\t1\t1\n", b"rule\tclash\n"] {
        let length = proved::LONGEST_TIMETABLE;
        let by_peer = with_buffer(length, |out| peer::write_timetable(&text, lengths, out));
        assert!(by_peer == with_buffer(length, |out| proved::write_timetable(&text, lengths, out)));
        assert!(peer::read_lengths(plan, lengths) == proved::read_lengths(plan, lengths));
    }
    let log = format!("run\t1\t{}\t{}\n", plan.boards, plan.tasks);
    for log in [&b""[..], log.as_bytes(), b"run\n"] {
        assert!(peer::judge_log(plan, log) == proved::judge_log(plan, log));
        let length = proved::LONGEST_JUDGED;
        let by_peer = with_buffer(length, |out| peer::write_judged(&text, log, out));
        assert!(by_peer == with_buffer(length, |out| proved::write_judged(&text, log, out)));
        for totals in [Totals::ZERO, ALL_ONES] {
            let added = proved::add_log(&totals, plan, log);
            assert!(peer::add_log(&totals, plan, log) == added);
            let length = proved::LONGEST_REPORT;
            for past in [false, true] {
                let by_peer =
                    with_buffer(length, |out| peer::write_report(&added.totals, past, out));
                let report =
                    with_buffer(length, |out| proved::write_report(&added.totals, past, out));
                assert!(by_peer == report);
            }
        }
    }
    for ends in [&b""[..], b"end\t1\t1\n", b"rule\tclash\n"] {
        let length = proved::LONGEST_LOG;
        let by_peer = with_buffer(length, |out| peer::run_log(&text, ends, out));
        assert!(by_peer == with_buffer(length, |out| proved::run_log(&text, ends, out)));
    }
}

/// A struct of arrays that is handed in, and one that comes back.
fn compare_timetables(plan: &Plan, rule: Rule) {
    let planned = Lengths::planned(plan);
    let none = Lengths {
        length: [0; 64],
        ..planned
    };
    for given in [planned, none] {
        let by_peer = peer::timetable(plan, rule == Rule::Clash, &given);
        assert!(by_peer == proved::timetable(plan, rule, &given));
    }
}

/// Books, numbers and a truth value.
fn compare_on_books(plan: &Plan, rule: Rule) {
    let opening = proved::open_book(plan, rule);
    assert!(peer::open_book(plan, rule == Rule::Clash) == opening);
    let mut book = opening.book;
    while let Some((task, tick)) = last_moment_report(&book) {
        assert_eq!(peer::is_sound(&book), proved::is_sound(&book));
        assert_eq!(peer::minimum_early(&book), proved::minimum_early(&book));
        assert!(peer::drop(&book, task) == proved::drop_task(&book, task));
        let reported = proved::report(&book, task, tick);
        assert!(peer::report(&book, task, tick) == reported);
        book = reported.book;
    }
}

#[test]
fn the_peer_answers_as_the_library_does() {
    let full = full_plan(&mut Rng::announced("exports"), 64);
    let plan_a = proved::read_plan(PLAN_A).plan;
    for plan in [plan_a, full, with_even_ready_ticks(&full), Plan::ZERO] {
        compare_on_plan(&plan);
        for rule in Rule::BOTH {
            compare_on_books(&plan, rule);
            compare_timetables(&plan, rule);
        }
    }
}
