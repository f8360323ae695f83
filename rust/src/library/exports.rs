//! What the static library exports, read from its Rattle source: the one place where it is written.
//!
//! The build makes the bindings and the peer's ops from this, and holds `values.rs` against it.

use std::fs;
use std::path::{Path, PathBuf};

/// Every exported name begins so, and the rest is the name of its binding.
pub const PREFIX: &str = "clover_";

/// The peer's op that measures another; the exports have theirs by their order.
pub const MEASURE_OP: u8 = 255;

/// Their names in Rattle and in Rust, and their sizes.
pub const NUMBERS: [(&str, usize); 10] = [
    ("u8", 1),
    ("u16", 2),
    ("u32", 4),
    ("u64", 8),
    ("usize", 8),
    ("i8", 1),
    ("i16", 2),
    ("i32", 4),
    ("i64", 8),
    ("isize", 8),
];

/// How an argument, an answer or a field is handed over.
#[derive(Clone, PartialEq, Eq, Debug)]
pub enum Kind {
    /// By its name.
    Number(String),
    Truth,
    /// By value.
    Struct(String),
    Array(Box<Kind>, usize),
    /// Bytes to read: a pointer and a length.
    Slice,
    /// A lent buffer: the same, to write to.
    Lent,
}

#[derive(Clone, PartialEq, Eq, Debug)]
pub struct Field {
    pub name: String,
    pub kind: Kind,
}

#[derive(PartialEq, Eq, Debug)]
pub struct Struct {
    pub name: String,
    pub fields: Vec<Field>,
}

#[derive(PartialEq, Eq, Debug)]
pub struct Export {
    pub name: String,
    pub arguments: Vec<Field>,
    pub answer: Kind,
}

impl Export {
    /// The name of its binding.
    pub fn short_name(&self) -> &str {
        let short = self.name.strip_prefix(PREFIX);
        short.unwrap_or_else(|| panic!("{} does not begin with {PREFIX}", self.name))
    }
}

pub struct Table {
    pub exports: Vec<Export>,
    /// Those that the exports name and those that these are made of, inner ones first.
    pub structs: Vec<Struct>,
    /// Where all this is written.
    pub files: Vec<PathBuf>,
}

impl Table {
    /// Of the repository at that root.
    pub fn of(root: &Path) -> Table {
        let library = Source::of(root, "cloverdusk::");
        let mut table = Table {
            exports: exports_in(&library.text),
            structs: Vec::new(),
            files: vec![library.file.clone()],
        };
        let named: Vec<Kind> = table.exports.iter().flat_map(kinds_of).collect();
        for kind in named {
            table.add_structs(root, &library, &kind);
        }
        table
    }

    fn add_structs(&mut self, root: &Path, source: &Source, kind: &Kind) {
        match kind {
            Kind::Array(of, _) => self.add_structs(root, source, of),
            Kind::Struct(name) if !self.structs.iter().any(|found| found.name == *name) => {
                let home = source.home_of(root, name);
                let found = struct_in(&home.text, name).expect("its home has it");
                for field in &found.fields {
                    self.add_structs(root, &home, &field.kind);
                }
                self.structs.push(found);
                self.files.push(home.file);
            }
            _ => {}
        }
    }

    /// Size and alignment, as C lays the kind out.
    pub fn layout(&self, kind: &Kind) -> (usize, usize) {
        match kind {
            Kind::Number(name) => {
                let known = NUMBERS.iter().find(|(number, _)| number == name);
                let (_, size) = known.expect("a number is one of these");
                (*size, *size)
            }
            Kind::Truth => (1, 1),
            Kind::Array(of, count) => {
                let (size, alignment) = self.layout(of);
                (size * count, alignment)
            }
            Kind::Struct(name) => {
                let known = self.structs.iter().find(|known| known.name == *name);
                let (_, size, alignment) = self.places(known.expect("all structs are known"));
                (size, alignment)
            }
            Kind::Slice | Kind::Lent => panic!("two arguments, and no value"),
        }
    }

    /// Where each field lies, and the whole's size and alignment.
    pub fn places(&self, of: &Struct) -> (Vec<usize>, usize, usize) {
        let (mut offsets, mut end, mut widest) = (Vec::new(), 0usize, 1);
        for field in &of.fields {
            let (size, alignment) = self.layout(&field.kind);
            let offset = end.next_multiple_of(alignment);
            offsets.push(offset);
            end = offset + size;
            widest = widest.max(alignment);
        }
        (offsets, end.next_multiple_of(widest), widest)
    }
}

fn kinds_of(export: &Export) -> Vec<Kind> {
    let arguments = export
        .arguments
        .iter()
        .map(|argument| argument.kind.clone());
    arguments.chain([export.answer.clone()]).collect()
}

/// A file of Rattle without its comments.
struct Source {
    file: PathBuf,
    text: String,
}

impl Source {
    /// The file of a module's path, as `plan::` or `judge::read::`.
    fn of(root: &Path, path: &str) -> Source {
        let (crate_name, inner) = path.split_once("::").expect("a path names its crate");
        let module = match inner.strip_suffix("::") {
            Some(module) => module.replace("::", "/"),
            None => "lib".to_string(),
        };
        let file = root.join(format!("crates/{crate_name}/src/{module}.rt"));
        let text =
            fs::read_to_string(&file).unwrap_or_else(|error| panic!("{}: {error}", file.display()));
        let text = without_comments(&text);
        Source { file, text }
    }

    /// The source that declares the struct: this one, or where it is used from.
    fn home_of(&self, root: &Path, name: &str) -> Source {
        if struct_in(&self.text, name).is_some() {
            let (file, text) = (self.file.clone(), self.text.clone());
            return Source { file, text };
        }
        let used = items_used(&self.text)
            .into_iter()
            .find(|(_, item)| *item == name);
        let (used, _) =
            used.unwrap_or_else(|| panic!("{} does not say whose {name} is", self.file.display()));
        let home = Source::of(root, &format!("{used}::"));
        assert!(
            struct_in(&home.text, name).is_some(),
            "{used} has no {name}"
        );
        home
    }
}

/// What the `use` items of a source name, one or several in braces: the path up to the name, and the name.
fn items_used(text: &str) -> Vec<(&str, &str)> {
    let mut items = Vec::new();
    for piece in text.split(';') {
        let used = piece
            .rsplit_once("use ")
            .filter(|(before, _)| before.is_empty() || before.ends_with('\n'));
        let Some((path, listed)) = used.and_then(|(_, used)| used.rsplit_once("::")) else {
            continue;
        };
        let listed = listed.trim_matches(['{', '}']).split(',');
        items.extend(listed.map(|item| (path, item.trim())));
    }
    items
}

/// Whether the mark is among the attributes, a line each, in which the text ends.
fn is_marked(before: &str, mark: &str) -> bool {
    let lines = before.trim_end().lines().rev();
    let mut attributes = lines.take_while(|line| line.starts_with("#["));
    attributes.any(|line| line.trim_end() == mark)
}

pub fn without_comments(text: &str) -> String {
    let lines = text
        .lines()
        .map(|line| line.split("//").next().unwrap_or(""));
    lines.collect::<Vec<_>>().join("\n")
}

/// The exported functions of a source without comments, in its order.
pub fn exports_in(text: &str) -> Vec<Export> {
    let mut pieces = text.split("pub extern \"C\" fn ");
    let mut before = pieces.next().unwrap_or("");
    let mut exports = Vec::new();
    for piece in pieces {
        let export = export_in(piece);
        let is_marked = is_marked(before, "#[unsafe(no_mangle)]");
        assert!(
            is_marked,
            "{} is not marked #[unsafe(no_mangle)]",
            export.name
        );
        exports.push(export);
        before = piece;
    }
    exports
}

/// The function whose name stands first.
fn export_in(text: &str) -> Export {
    let parts = text.split_once('(').and_then(|(name, rest)| {
        let (arguments, rest) = rest.split_once(')')?;
        let answer = rest.trim_start().strip_prefix("->")?;
        Some((name, arguments, answer.split_whitespace().next()?))
    });
    let (name, arguments, answer) = parts.unwrap_or_else(|| panic!("no function: {text}"));
    Export {
        name: name.trim().to_string(),
        arguments: fields_in(arguments),
        answer: kind_of(answer),
    }
}

/// The struct of that name, if the source declares it.
pub fn struct_in(text: &str, name: &str) -> Option<Struct> {
    let (before, after) = text.split_once(&format!("pub struct {name} {{"))?;
    let is_marked = is_marked(before, "#[repr(C)]");
    assert!(is_marked, "{name} is not marked #[repr(C)]");
    let (fields, _) = after.split_once('}')?;
    Some(Struct {
        name: name.to_string(),
        fields: fields_in(fields),
    })
}

/// Names and kinds, parted by commas; a field is marked `pub`.
fn fields_in(text: &str) -> Vec<Field> {
    let items = text
        .split(',')
        .map(str::trim)
        .filter(|item| !item.is_empty());
    let field = |item: &str| {
        let parts = item.trim_start_matches("pub ").split_once(':');
        let (name, kind) = parts.unwrap_or_else(|| panic!("no name and kind: {item}"));
        Field {
            name: name.trim().to_string(),
            kind: kind_of(kind.trim()),
        }
    };
    items.map(field).collect()
}

fn kind_of(text: &str) -> Kind {
    let array = text
        .strip_prefix('[')
        .and_then(|rest| rest.strip_suffix(']'));
    if let Some((of, count)) = array.and_then(|inside| inside.rsplit_once(';')) {
        let count = count.trim().parse();
        let count = count.unwrap_or_else(|error| panic!("{text}: {error}"));
        return Kind::Array(Box::new(kind_of(of.trim())), count);
    }
    match text {
        "bool" => Kind::Truth,
        "&[u8]" => Kind::Slice,
        "&mut [u8]" => Kind::Lent,
        _ if NUMBERS.iter().any(|(number, _)| *number == text) => Kind::Number(text.to_string()),
        _ if is_name_of_struct(text) => Kind::Struct(text.to_string()),
        _ => panic!("there is no way yet to hand over {text}"),
    }
}

fn is_name_of_struct(text: &str) -> bool {
    text.starts_with(|first: char| first.is_ascii_uppercase())
        && text.chars().all(|c| c.is_ascii_alphanumeric())
}
