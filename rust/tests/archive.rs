//! What the archive holds and asks for: nothing that could be changed between two calls, and hardly anything
//! of the C library. So any thread may call at any time.

use dispatcher::sample::program::at_root;
use std::collections::BTreeSet;
use std::fs;

const SYMBOLS: u64 = 2;
const WRITABLE: u64 = 1;

/// The number of so many bytes at a place, little end first.
fn number(bytes: &[u8], place: usize, length: usize) -> u64 {
    let read = bytes[place..place + length].iter().rev();
    read.fold(0, |number, &byte| number << 8 | u64::from(byte))
}

/// The object files of an archive, whose heads have 60 bytes: the name first, the size in digits at 48.
fn objects_in(archive: &[u8]) -> Vec<&[u8]> {
    let mut rest = archive.strip_prefix(b"!<arch>\n").expect("an archive");
    let mut objects = Vec::new();
    while rest.len() > 60 {
        let (head, behind) = rest.split_at(60);
        let size = std::str::from_utf8(&head[48..58]).unwrap().trim_end();
        let size: usize = size.parse().unwrap();
        if head[0] != b'/' {
            objects.push(&behind[..size]);
        }
        rest = behind.get(size.next_multiple_of(2)..).unwrap_or(&[]);
    }
    objects
}

struct Section<'a> {
    kind: u64,
    flags: u64,
    size: u64,
    /// Of symbols, the section with their names.
    link: usize,
    bytes: &'a [u8],
}

/// The sections of an object file, ELF of 64 bits.
fn sections_of(object: &[u8]) -> Vec<Section<'_>> {
    assert!(object.starts_with(b"\x7fELF\x02\x01"));
    let (table, count) = (
        number(object, 0x28, 8) as usize,
        number(object, 0x3c, 2) as usize,
    );
    let section = |place: usize| {
        let (kind, begin) = (
            number(object, place + 4, 4),
            number(object, place + 0x18, 8) as usize,
        );
        let size = number(object, place + 0x20, 8);
        Section {
            kind,
            flags: number(object, place + 8, 8),
            size,
            link: number(object, place + 0x28, 4) as usize,
            bytes: object.get(begin..begin + size as usize).unwrap_or(&[]),
        }
    };
    (0..count).map(|i| section(table + 64 * i)).collect()
}

/// The names that the object file asks others for: symbols of 24 bytes that have no section.
fn needed_by(sections: &[Section<'_>]) -> BTreeSet<String> {
    let mut needed = BTreeSet::new();
    for symbols in sections.iter().filter(|section| section.kind == SYMBOLS) {
        for symbol in symbols
            .bytes
            .chunks(24)
            .filter(|symbol| number(symbol, 6, 2) == 0)
        {
            let names = &sections[symbols.link].bytes[number(symbol, 0, 4) as usize..];
            let name = names.split(|&byte| byte == 0).next().unwrap();
            needed.insert(String::from_utf8(name.to_vec()).unwrap());
        }
    }
    needed.remove("");
    needed
}

#[test]
fn the_library_keeps_nothing_and_needs_three_functions_of_the_c_library() {
    let archive = fs::read(at_root("crates/cloverdusk/out/libcloverdusk.a")).unwrap();
    let objects = objects_in(&archive);
    assert_eq!(objects.len(), 1);
    let sections = sections_of(objects[0]);
    assert!(sections.iter().any(|section| section.kind == SYMBOLS));
    for section in &sections {
        assert!(
            section.flags & WRITABLE == 0 || section.size == 0,
            "something can be changed"
        );
    }
    // Which of the three the compiler calls is its own choice.
    let three = ["memcpy", "memmove", "memset"];
    for needed in needed_by(&sections) {
        assert!(three.contains(&needed.as_str()), "{needed} is needed");
    }
}
