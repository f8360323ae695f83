//! The exports in C, as `include/cloverdusk.h` has to declare them. The prose there is written by hand.

use super::exports::{Export, Field, Kind, Struct, Table};
use std::collections::BTreeSet;

/// What the header lacks, ready to be put in, and what it has too many; nothing where it is right.
pub fn drift(table: &Table, header: &str) -> String {
    let wanted = declarations(table);
    let mut found = declared_in(header);
    found.retain(|item| !is_enum(item));
    let lacking = wanted.difference(&found);
    let lacking = lacking.map(|item| format!("include/cloverdusk.h lacks {item}\n"));
    let wrong = found.difference(&wanted);
    let wrong = wrong.map(|item| format!("include/cloverdusk.h has no business with {item}\n"));
    lacking.chain(wrong).collect()
}

pub fn is_enum(item: &str) -> bool {
    item.starts_with("enum ")
}

/// What stands in the header but for its enums, each on one line: structs, their sizes and places, functions.
fn declarations(table: &Table) -> BTreeSet<String> {
    let structs = table.structs.iter().flat_map(|known| {
        let mut lines = places(table, known);
        lines.push(structure(known));
        lines
    });
    structs
        .chain(table.exports.iter().map(declaration))
        .collect()
}

/// What a header declares, its enums too, each on one line: no comments, no preprocessor, no line ends.
pub fn declared_in(header: &str) -> BTreeSet<String> {
    let text = without_preprocessor(&without_comments(header)).replacen("extern \"C\" {", "", 1);
    let text = text.split_whitespace().collect::<Vec<_>>().join(" ");
    let text = text.strip_suffix('}').expect("extern \"C\" is closed last");
    let (mut found, mut item, mut depth) = (BTreeSet::new(), String::new(), 0);
    for letter in text.trim_end().chars() {
        item.push(letter);
        depth += i32::from(letter == '{') - i32::from(letter == '}');
        // the header's own functions, which hand a null pointer on as another
        if letter == '}' && depth == 0 && item.trim_start().starts_with("static inline ") {
            item.clear();
            continue;
        }
        if letter == ';' && depth == 0 {
            let is_new = found.insert(item.trim().to_string());
            assert!(is_new, "{item} stands there twice");
            item.clear();
        }
    }
    assert_eq!(item, "", "something has no end");
    found
}

fn without_comments(text: &str) -> String {
    let mut pieces = text.split("/*");
    let first = pieces.next().unwrap_or("").to_string();
    pieces.fold(first, |so_far, piece| {
        let (_, rest) = piece.split_once("*/").expect("a comment is closed");
        so_far + " " + rest
    })
}

fn without_preprocessor(text: &str) -> String {
    let text = text.replace("\\\n", " ");
    let lines = text.lines().filter(|line| !line.starts_with('#'));
    lines.collect::<Vec<_>>().join("\n")
}

/// The constants of an enum's text, with their numbers.
pub fn constants_in(item: &str) -> Vec<(String, u32)> {
    let inside = item
        .strip_prefix("enum { ")
        .and_then(|rest| rest.strip_suffix(" };"));
    let constant = |text: &str| {
        let (name, number) = text.trim().split_once(" = ").expect("a name and a number");
        (name.to_string(), number.parse().expect("a number"))
    };
    inside
        .expect("an enum without a name")
        .split(',')
        .map(constant)
        .collect()
}

/// The struct's name in C.
fn name_of(known: &str) -> String {
    format!("Clover{known}")
}

fn number_in_c(number: &str) -> String {
    match number {
        "usize" => "size_t".to_string(),
        "isize" => "ptrdiff_t".to_string(),
        _ => match number.strip_prefix('u') {
            Some(bits) => format!("uint{bits}_t"),
            None => format!("int{}_t", number.trim_start_matches('i')),
        },
    }
}

/// Of what C passes by value.
pub fn type_of(kind: &Kind) -> String {
    match kind {
        Kind::Number(number) => number_in_c(number),
        Kind::Truth => "bool".to_string(),
        Kind::Struct(of) => name_of(of),
        Kind::Array(..) | Kind::Slice | Kind::Lent => panic!("{kind:?} is not passed by value"),
    }
}

/// The name as C declares it to be of that kind.
pub fn declared(kind: &Kind, name: &str) -> String {
    match kind {
        Kind::Number(_) | Kind::Truth | Kind::Struct(_) => format!("{} {name}", type_of(kind)),
        Kind::Array(of, count) => declared(of, &format!("{name}[{count}]")),
        Kind::Slice => format!("const uint8_t *{name}, size_t {name}_length"),
        Kind::Lent => format!("uint8_t *{name}, size_t {name}_length"),
    }
}

fn structure(known: &Struct) -> String {
    let name = name_of(&known.name);
    let fields: String = known
        .fields
        .iter()
        .map(|field| format!("{}; ", declared(&field.kind, &field.name)))
        .collect();
    format!("typedef struct {name} {{ {fields}}} {name};")
}

/// Its size and where each field lies, which the compiler holds the struct to.
fn places(table: &Table, known: &Struct) -> Vec<String> {
    let name = name_of(&known.name);
    let (places, size, _) = table.places(known);
    let placed = known.fields.iter().zip(places);
    placed
        .map(|(field, place)| format!("CLOVER_PLACE({name}, {}, {place});", field.name))
        .chain([format!("CLOVER_SIZE({name}, {size});")])
        .collect()
}

pub fn declaration(export: &Export) -> String {
    let arguments: Vec<String> = export
        .arguments
        .iter()
        .map(|Field { name, kind }| declared(kind, name))
        .collect();
    let function = format!("{}({})", export.name, arguments.join(", "));
    format!("CLOVER_RESULT {};", declared(&export.answer, &function))
}
