//! What `tools/believed` counts, on a made-up repository: which table a definition stands in, and what is refused.

use dispatcher::sample::program::{at_root, empty_folder};
use std::path::PathBuf;
use std::process::Command;
use std::{env, fs, process};

const README: &str = "# Made up
## As a library
| What | Function | Crate |
|---|---|---|
| two at once | `high::outer`, `high::deep::deeper` | `high` |
| of a type | `Kept::method` | `high` |
## Read on
";

const CRATES: &str =
    "laws:\nlow: laws\nhigh: low\nshow: high\npromises: high\ncloverdusk staticlib: high\n";

const STATEMENTS: [&str; 6] = [
    "Demand1",
    "Demand2",
    "Demand3",
    "Claims",
    "Edition1",
    "Conversion",
];

/// A function that says that it answers by the definition, which stands at that place.
fn function(head: &str, place: &str, definition: &str) -> String {
    let using = format!("ghost use Rattle.{place}.{{{definition}}};\n");
    format!(
        "{using}{head}(n: u32) -> u32\n    ensures {{ result ≡ {definition} n }}\n{{\n    n\n}}\n"
    )
}

fn definition(name: &str, on: &str) -> String {
    format!("use Rattle.std.specs.Prelude.{{ℕ}}\n{on}\n-- a comment\npub {name} : ℕ → ℕ\n{name} n = n\n")
}

/// Outside this repository, in which every source is to be of a crate; and gone after the test, passed or failed.
struct MadeUp(PathBuf);

impl Drop for MadeUp {
    fn drop(&mut self) {
        let _ = fs::remove_dir_all(&self.0);
    }
}

impl MadeUp {
    fn new(name: &str) -> Self {
        let name = format!("{name}-{}", process::id());
        let made = Self(empty_folder(env::temp_dir().to_str().unwrap(), &name));
        made.put("README.md", README);
        made.put("crates.txt", CRATES);
        made.put_functions();
        made.put_definitions();
        for name in STATEMENTS {
            made.put(&format!("crates/promises/proofs/{name}.antt"), "");
        }
        let claim =
            "use Rattle.high.specs.Words.Word.{word}\n\npub claim : word 0 ≡ 0\nclaim = refl\n";
        made.put("crates/promises/proofs/Claims.antt", claim);
        made
    }

    fn put(&self, path: &str, text: &str) {
        let path = self.0.join(path);
        fs::create_dir_all(path.parent().unwrap()).unwrap();
        fs::write(path, text).unwrap();
    }

    fn put_functions(&self) {
        let method = function("pub fn method", "high.specs.Method", "method_of");
        let (using, method) = method.split_once('\n').unwrap();
        let outer = function("pub fn outer", "high.specs.Outer", "outer_of");
        let own = function("fn own", "high.specs.Private.Own", "own_of");
        let high = format!("{using}\n{outer}{own}impl Kept {{\n{method}}}\n");
        self.put("crates/high/src/lib.rt", &high);
        let deep = function("pub fn deeper", "high.specs.Deep", "deep_of");
        self.put("crates/high/src/deep.rt", &deep);
        let inner = function("pub fn inner", "low.specs.Trick", "trick_of");
        self.put("crates/low/src/lib.rt", &inner);
        let shown = function("fn put_shown", "high.specs.Shown", "shown_of");
        self.put("crates/show/src/main.rt", &shown);
        let exported = "#[unsafe(no_mangle)]\npub extern \"C\" fn clover_it";
        let exported = function(exported, "high.specs.Exported", "exported_of");
        self.put("crates/cloverdusk/src/lib.rt", &exported);
    }

    fn put_definitions(&self) {
        for (path, name) in [
            ("low/specs/Trick", "trick_of"),
            ("low/specs/Rest", "rest_of"),
            ("high/specs/Deep", "deep_of"),
            ("high/specs/Exported", "exported_of"),
            ("high/specs/Method", "method_of"),
            ("high/specs/Shown", "shown_of"),
            ("high/specs/Words/Word", "word"),
            ("high/specs/Private/Own", "own_of"),
        ] {
            self.put(&format!("crates/{path}.antt"), &definition(name, ""));
        }
        let outer = definition("outer_of", "use Rattle.low.specs.Rest.{rest_of}");
        let outer = outer.replace("outer_of n = n", "outer_of n = rest_of n");
        self.put("crates/high/specs/Outer.antt", &outer);
    }

    /// The status, and what is printed.
    fn counted(&self, options: &[&str]) -> (i32, String) {
        let mut command = Command::new(at_root("tools/believed"));
        let output = command.args(options).arg(&self.0).output().unwrap();
        assert_eq!(String::from_utf8_lossy(&output.stderr), "");
        let printed = String::from_utf8(output.stdout).unwrap();
        (output.status.code().unwrap(), printed)
    }

    /// Each is said, in a line of its own, and nothing else is.
    fn expect_refused(&self, options: &[&str], reasons: &[&str]) {
        let (status, printed) = self.counted(options);
        let said = printed
            .lines()
            .filter_map(|line| line.strip_prefix("believed: "));
        assert_eq!(said.collect::<Vec<_>>(), reasons);
        assert_eq!(status, 1);
    }
}

/// The rows of each table, without its head.
fn tables(printed: &str) -> Vec<Vec<&str>> {
    let tables = printed.split("|---|\n").skip(1);
    tables
        .map(|table| {
            table
                .lines()
                .take_while(|row| row.starts_with('|'))
                .collect()
        })
        .collect()
}

#[test]
fn what_callers_believe_stands_apart_from_inner_functions_and_statements() {
    let (status, printed) = MadeUp::new("believed-tables").counted(&["--most", "12"]);
    assert_eq!(status, 0, "{printed}");
    let called = [
        "| `low` | Rest | 1 | 2 |",
        "| `high` | Deep, Exported, Method, Outer, Shown | 5 | 10 |",
        "| | in all | 6 | 12 |",
    ];
    let inner = ["| `low` | Trick | 1 | 2 |", "| | in all | 1 | 2 |"];
    let words = ["| `high` | Words/Word | 1 | 2 |", "| | in all | 1 | 2 |"];
    let trusted = [
        "| all calls of the library | 1 | 2 |",
        "| what `show` prints | 1 | 2 |",
    ];
    let found = tables(&printed);
    assert_eq!(found[0], trusted);
    assert_eq!(found[1], called);
    assert_eq!(found[2], inner);
    assert_eq!(found.last().unwrap()[..], words);
}

#[test]
fn no_more_than_the_limit_is_believed() {
    let made = MadeUp::new("believed-most");
    made.expect_refused(&["--most", "11"], &["12 lines, and at most 11 are allowed"]);
    let options = ["--most-for", "show=2", "--most-for", "library=1"];
    made.expect_refused(
        &options,
        &["library rests on 2 lines, and at most 1 are allowed"],
    );
    made.expect_refused(
        &["--most-for", "lost=9"],
        &["lost has no row: there are library, show"],
    );
}

#[test]
fn a_readme_that_lists_what_is_not_there_is_refused() {
    let made = MadeUp::new("believed-readme");
    let missing = [
        "Kept::outer",
        "Lost::method",
        "high::deeper",
        "high::method",
        "high::outest",
        "high::own",
        "high::shallow::deeper",
        "low::inner",
    ];
    let listed = missing.map(|path| format!("`{path}`")).join(", ");
    let row = format!("| not there | {listed} | `high` |\n## Read on");
    made.put("README.md", &README.replace("## Read on", &row));
    let reasons = missing.map(|path| {
        format!("README.md lists {path} of crate high, and there is no such public function")
    });
    made.expect_refused(&[], &reasons.each_ref().map(String::as_str));
}

#[test]
fn a_readme_that_lists_nothing_is_refused() {
    let made = MadeUp::new("believed-nothing");
    made.put("README.md", &README.replace("As a library", "As a book"));
    let (status, printed) = made.counted(&[]);
    assert!(printed.contains("\nbelieved: README.md lists no function under `As a library`\n"));
    assert_eq!(status, 1);
}

#[test]
fn a_definition_in_a_wrong_room_is_refused() {
    let made = MadeUp::new("believed-rooms");
    for room in ["", "Words/", "Private/"] {
        let place = format!("crates/high/specs/{room}Free.antt");
        made.put(&place, &definition("free_of", ""));
    }
    made.expect_refused(&[], &[
        "no public contract rests on free_of of crates/high/specs/Free.antt: it belongs to specs/Words/, specs/Private/ or proofs/",
        "no function says or asks free_of of crates/high/specs/Private/Free.antt: it belongs to proofs/",
        "no statement of the promises uses free_of of crates/high/specs/Words/Free.antt: it belongs to specs/Private/ or proofs/",
    ]);
}

#[test]
fn a_public_contract_that_cites_a_word_or_a_private_name_is_refused() {
    let made = MadeUp::new("believed-cited");
    let inner = function("pub fn inner", "low.specs.Trick", "trick_of");
    let word = function("pub fn told", "high.specs.Words.Word", "word");
    let own = function("pub fn owned", "high.specs.Private.Own", "own_of");
    made.put("crates/low/src/lib.rt", &(inner + &word + &own));
    made.expect_refused(&[], &[
        "a public contract rests on word of crates/high/specs/Words/Word.antt, by fn told of crates/low/src/lib.rt",
        "a public contract rests on own_of of crates/high/specs/Private/Own.antt, by fn owned of crates/low/src/lib.rt",
    ]);
}

#[test]
fn the_promises_of_a_request_stand_in_a_crate_of_their_own() {
    let made = MadeUp::new("believed-own");
    made.put("crates.txt", &format!("{CRATES}promises_own: high\n"));
    let place = "crates/promises_own/specs/Said.antt";
    made.put(place, &definition("said_of", ""));
    made.expect_refused(&[], &[
        "there is no crates/promises_own/proofs/Promises*.antt",
        "no statement of the promises uses said_of of crates/promises_own/specs/Said.antt: it belongs to specs/Private/ or proofs/",
    ]);
    let claim =
        "use Rattle.promises_own.specs.Said.{said_of}\n\npub claim : said_of 0 ≡ 0\nclaim = refl\n";
    made.put("crates/promises_own/proofs/PromisesSaid.antt", claim);
    let (status, printed) = made.counted(&[]);
    assert_eq!(status, 0, "{printed}");
    assert!(tables(&printed)
        .last()
        .unwrap()
        .contains(&"| `promises_own` | Said | 1 | 2 |"));
}

/// The committed tables are counted by `./test`; here only that what is said of them is so.
#[test]
fn nobody_who_calls_believes_a_set_of_bits() {
    let output = Command::new(at_root("tools/believed")).output().unwrap();
    let printed = String::from_utf8(output.stdout).unwrap();
    let found = tables(&printed);
    let has_row = |table: usize, start: &str| found[table].iter().any(|row| row.starts_with(start));
    assert!(has_row(1, "| `theory` |"));
    assert!(has_row(2, "| `book_waits` |") && !has_row(1, "| `book_waits` |"));
}
