//! All tests, one binary, which is built and linked once; a module for each file beside this one.

mod archive;
mod believed;
mod both_sides;
mod cases;
mod clash_impostors;
mod clash_rule;
mod columns;
mod commands;
mod compare_book;
mod compare_columns;
mod compare_convert;
mod compare_exact;
mod compare_judged;
mod compare_log;
mod compare_sheets;
mod compare_text;
mod compare_timetable;
mod compare_year;
mod conversion;
mod convert;
mod desk;
mod desk_broken_off;
mod desk_folder;
mod desk_impostors;
mod desk_terminal;
mod drops;
mod editions;
mod embed;
mod every_book;
mod exact;
mod explain;
mod exports;
mod families;
mod folders;
mod header;
mod judgelog;
mod judgelog_impostors;
mod listing;
mod pictures;
mod program_stack;
mod programs;
mod properties;
mod ready;
mod refusals;
mod rule_lines;
mod shared_holds;
mod shortcuts;
mod stack;
mod timetable;
mod timetable_feeds;
mod timetable_impostors;
mod why;
mod why_impostors;
mod year;
mod year_impostors;

use dispatcher::sample::program::{at_root, entries_below};
use std::fs;
use std::path::PathBuf;

/// A file that is no module here would not be tested.
#[test]
fn every_file_is_a_module() {
    for file in entries_below(&at_root("rust/tests")) {
        let Some(name) = file.to_str().and_then(|path| path.strip_suffix(".rs")) else {
            continue;
        };
        let name = name.rsplit('/').next().unwrap();
        let is_module = include_str!("all.rs").contains(&format!("\nmod {name};\n"));
        assert!(is_module || name == "all", "{name}");
    }
}

/// The files below that folder, at any depth, and their texts.
fn sources_below(folder: &str) -> Vec<(PathBuf, String)> {
    let (mut folders, mut sources) = (vec![at_root(folder)], Vec::new());
    while let Some(folder) = folders.pop() {
        for path in entries_below(&folder) {
            if path.is_dir() {
                folders.push(path);
            } else {
                let text = fs::read_to_string(&path).unwrap();
                sources.push((path, text));
            }
        }
    }
    sources
}

/// The library is not built for tests of its own, so one that stands there would not be run.
#[test]
fn no_test_stands_in_the_library() {
    for (file, text) in sources_below("rust/src") {
        assert!(!text.contains("#[test]"), "{}", file.display());
    }
}

/// It is written from the rules alone, so it uses nothing of the proved one and no sample.
#[test]
fn the_second_dispatcher_uses_itself_alone() {
    let sources = sources_below("rust/src/second");
    assert!(sources.len() > 15);
    for (file, text) in sources {
        for way_out in ["crate::", "super::super", "include!", "extern"] {
            assert!(!text.contains(way_out), "{}: {way_out}", file.display());
        }
    }
}
