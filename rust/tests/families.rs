//! What `tools/families` makes of `crates.txt`: the committed table and picture are current, and what is refused.

use dispatcher::sample::program::{at_root, empty_folder};
use std::fs;
use std::path::{Path, PathBuf};
use std::process::Command;

/// The document with the table, and the picture.
const DOCUMENT: &str = "docs/ENGINEERING.md";
const PICTURE: &str = "docs/families.svg";

/// The status, and what is printed.
fn families(options: &[&str], root: &Path) -> (i32, String) {
    let mut command = Command::new(at_root("tools/families"));
    let output = command.args(options).arg(root).output().unwrap();
    assert_eq!(String::from_utf8_lossy(&output.stderr), "");
    let printed = String::from_utf8(output.stdout).unwrap();
    (output.status.code().unwrap(), printed)
}

fn text_of(path: &Path) -> String {
    fs::read_to_string(path).unwrap()
}

/// `crates.txt`, the document and the picture in a folder of their own.
struct Copied(PathBuf);

impl Copied {
    fn new(name: &str) -> Self {
        let copied = Self(empty_folder(env!("CARGO_TARGET_TMPDIR"), name));
        fs::create_dir_all(copied.0.join("docs")).unwrap();
        for path in ["crates.txt", DOCUMENT, PICTURE] {
            fs::copy(at_root(path), copied.0.join(path)).unwrap();
        }
        copied
    }

    /// In that file the first such text is made another.
    fn change(&self, path: &str, from: &str, to: &str) {
        let path = self.0.join(path);
        let text = text_of(&path);
        assert!(text.contains(from), "{from}");
        fs::write(path, text.replacen(from, to, 1)).unwrap();
    }

    fn checked(&self) -> (i32, String) {
        let (document, picture) = (self.0.join(DOCUMENT), self.0.join(PICTURE));
        let document = ["--check", document.to_str().unwrap()];
        let picture = ["--check-picture", picture.to_str().unwrap()];
        families(&[document, picture].concat(), &self.0)
    }

    /// This is said, in a line of its own, and nothing else is.
    fn expect_refused(&self, reasons: &[&str]) {
        let (status, printed) = self.checked();
        let said = printed
            .lines()
            .filter_map(|line| line.strip_prefix("families: "));
        assert_eq!(said.collect::<Vec<_>>(), reasons);
        assert_eq!(status, 1);
    }
}

#[test]
fn the_committed_table_and_picture_are_current() {
    let (document, picture) = (at_root(DOCUMENT), at_root(PICTURE));
    let document = ["--check", document.to_str().unwrap()];
    let picture = ["--check-picture", picture.to_str().unwrap()];
    let (status, printed) = families(&[document, picture].concat(), &at_root(""));
    assert_eq!((status, printed.as_str()), (0, ""));
}

#[test]
fn a_copy_is_current_too() {
    let (status, printed) = Copied::new("families-copied").checked();
    assert_eq!((status, printed.as_str()), (0, ""));
}

#[test]
fn a_crate_without_its_purpose_is_refused() {
    let copied = Copied::new("families-purpose");
    let crates = text_of(&copied.0.join("crates.txt"));
    let lines: Vec<&str> = crates.lines().collect();
    let place = lines
        .iter()
        .position(|line| line.starts_with("book_sound:"));
    let purpose = lines[place.unwrap() - 1];
    copied.change("crates.txt", &format!("{purpose}\n"), "");
    copied.expect_refused(&["crate book_sound has no purpose: no line `# ..` stands above it"]);
}

#[test]
fn a_crate_that_has_not_its_familys_name_is_refused() {
    let copied = Copied::new("families-name");
    copied.change("crates.txt", "\ntables_desk:", "\ndialogues:");
    copied.expect_refused(&[
        "crate dialogues is of family tables, whose crates are named tables or tables_NAME",
    ]);
    let copied = Copied::new("families-own-name");
    copied.change(
        "crates.txt",
        "\ncloverdusk staticlib:",
        "\nlibrary staticlib:",
    );
    copied
        .expect_refused(&["crate library is of family library, whose crates are named cloverdusk"]);
}

#[test]
fn a_crate_that_names_one_below_it_is_refused() {
    let copied = Copied::new("families-order");
    copied.change("crates.txt", "\ntext: laws", "\ntext: laws plan");
    copied.expect_refused(&["crate text names plan, which does not stand above it"]);
}

#[test]
fn names_of_a_family_that_differ_by_one_letter_are_refused() {
    let copied = Copied::new("families-alike");
    let more = "\n# another\nplan_reads: laws\n# whatever\nplan_read:";
    copied.change("crates.txt", "\nplan_read:", more);
    copied.expect_refused(&[
        "crates plan_reads and plan_read of family plan have names that differ by one letter",
    ]);
}

#[test]
fn more_than_60_crates_are_refused() {
    let copied = Copied::new("families-many");
    let crates = text_of(&copied.0.join("crates.txt"));
    let is_crate = |line: &&str| line.split('#').next().unwrap().contains(':');
    let many = crates.lines().filter(is_crate).count();
    assert!(many <= 60, "{many}");
    let new = (many..61).map(|k| format!("# another\ntables_number_{k}{k}: laws\n"));
    let library = "\n## library";
    let more = format!("{}{library}", new.collect::<String>());
    copied.change("crates.txt", library, &more);
    copied.expect_refused(&["there are 61 crates, and at most 60 are allowed"]);
}

#[test]
fn a_table_or_a_picture_that_is_old_is_refused() {
    let copied = Copied::new("families-old");
    copied.change(DOCUMENT, "| | `book_sound` |", "| | `sound` |");
    let (status, printed) = copied.checked();
    assert_eq!(status, 1);
    assert!(printed.contains("\n-| | `sound` |"), "{printed}");
    assert!(printed.contains("\n+| | `book_sound` |"), "{printed}");
    let document = copied.0.join(DOCUMENT).display().to_string();
    let old = format!("{document} is not current: tools/families --write {document}");
    copied.expect_refused(&[&old]);

    copied.change(PICTURE, ">book_sound<", ">sound<");
    let picture = copied.0.join(PICTURE).display().to_string();
    let drawn = format!("{picture} is not current: tools/families --picture {picture}");
    copied.expect_refused(&[&old, &drawn]);
}

/// What `--write` and `--picture` make of files that are old is what is committed.
#[test]
fn what_is_old_is_made_anew() {
    let copied = Copied::new("families-anew");
    copied.change(DOCUMENT, "| | `book_sound` |", "| | `sound` |");
    copied.change(PICTURE, ">book_sound<", ">sound<");
    let (document, picture) = (copied.0.join(DOCUMENT), copied.0.join(PICTURE));
    let written = ["--write", document.to_str().unwrap()];
    let drawn = ["--picture", picture.to_str().unwrap()];
    let (status, printed) = families(&[written, drawn].concat(), &copied.0);
    assert_eq!((status, printed.as_str()), (0, ""));
    assert!(text_of(&document) == text_of(&at_root(DOCUMENT)));
    assert!(text_of(&picture) == text_of(&at_root(PICTURE)));
}
