//! The exports in Rust: what can be called, and a binding each for the two ways to call it.

use crate::exports::{Export, Field, Kind, Struct, Table, MEASURE_OP, NUMBERS};

/// An answer that is larger has a place in memory, and no register.
const MOST_IN_REGISTERS: usize = 16;

/// `Function`, the measured calls and what holds the structs of `values.rs` against the source's.
pub fn functions(table: &Table) -> String {
    assert!(table.exports.len() + 2 <= usize::from(MEASURE_OP));
    let names = joined(&table.exports, |export| {
        format!("    {},\n", camel_case(export.short_name()))
    });
    let measured = joined(&table.exports, |export| measured(table, export));
    let layouts = joined(&table.structs, |known| layout(table, known));
    format!(
        "/// What can be called and measured, by its op in the peer.\n\
         #[derive(Clone, Copy, PartialEq, Eq, Debug)]\n\
         #[repr(u8)]\n\
         pub enum Function {{\n{names}    \
             /// Two that are not the library's, to try the measure itself: this has no frame.\n    \
             Nothing,\n    \
             /// A frame of 20,000 bytes, and little more.\n    \
             KnownFrame,\n\
         }}\n\n\
         /// The stack that a call takes. What it writes to a lent buffer does not come back.\n\
         pub mod measured {{\n    \
             use super::{{Function, Measured, Measuring}};\n    \
             use crate::second::values::*;\n\
         {measured}}}\n{layouts}"
    )
}

/// The library's own functions, and a safe one for each.
pub fn direct(table: &Table, answers_in_place: bool) -> String {
    let is_placed = |export: &Export| answers_in_place && has_place(table, export);
    let declarations = joined(&table.exports, |export| declared(export, is_placed(export)));
    let bindings = joined(&table.exports, |export| called(export, is_placed(export)));
    format!("extern \"C\" {{\n{declarations}}}\n{bindings}")
}

/// A function for each export that asks the peer, and which values cross.
pub fn by_peer(table: &Table) -> String {
    for export in &table.exports {
        let name = &export.name;
        assert!(
            is_raw(&export.answer),
            "{name} answers no number, truth value or struct"
        );
    }
    for known in &table.structs {
        let is_plain = known.fields.iter().all(|field| is_raw(&field.kind));
        assert!(
            is_plain,
            "{} is not made of numbers and truth values alone",
            known.name
        );
    }
    let names = NUMBERS.iter().map(|(number, _)| *number).chain(["bool"]);
    let names = names.chain(table.structs.iter().map(|known| known.name.as_str()));
    let values: String = names
        .map(|name| format!("unsafe impl Raw for {name} {{}}\n"))
        .collect();
    format!("{}\n{values}", joined(&table.exports, asked))
}

fn joined<T>(items: &[T], text: impl Fn(&T) -> String) -> String {
    items.iter().map(text).collect()
}

/// The same for an export's arguments, parted by commas.
fn listed(export: &Export, text: impl Fn(&Field) -> String) -> String {
    let items: Vec<String> = export.arguments.iter().map(text).collect();
    items.join(", ")
}

fn camel_case(name: &str) -> String {
    let words = name.split('_').map(|word| {
        let (first, rest) = word.split_at(1);
        first.to_ascii_uppercase() + rest
    });
    words.collect()
}

fn is_raw(kind: &Kind) -> bool {
    match kind {
        Kind::Number(_) | Kind::Struct(_) | Kind::Truth => true,
        Kind::Array(of, _) => is_raw(of),
        Kind::Slice | Kind::Lent => false,
    }
}

fn has_place(table: &Table, export: &Export) -> bool {
    table.layout(&export.answer).0 > MOST_IN_REGISTERS
}

fn type_of(kind: &Kind) -> String {
    match kind {
        Kind::Number(name) | Kind::Struct(name) => name.clone(),
        Kind::Truth => "bool".to_string(),
        Kind::Array(of, count) => format!("[{}; {count}]", type_of(of)),
        Kind::Slice => "&[u8]".to_string(),
        Kind::Lent => "&mut [u8]".to_string(),
    }
}

/// What a binding takes and answers: structs are lent to it.
fn signature(export: &Export) -> String {
    let arguments = listed(export, |Field { name, kind }| match kind {
        Kind::Struct(of) => format!("{name}: &{of}"),
        _ => format!("{name}: {}", type_of(kind)),
    });
    let (name, answer) = (export.short_name(), type_of(&export.answer));
    format!("pub fn {name}({arguments}) -> {answer}")
}

fn declared(export: &Export, is_placed: bool) -> String {
    let arguments = listed(export, |Field { name, kind }| match kind {
        Kind::Slice => format!("{name}: *const u8, {name}_length: usize"),
        Kind::Lent => format!("{name}: *mut u8, {name}_length: usize"),
        _ => format!("{name}: {}", type_of(kind)),
    });
    let (name, answer) = (&export.name, type_of(&export.answer));
    if is_placed {
        return format!("    fn {name}(place: *mut {answer}, {arguments});\n");
    }
    format!("    fn {name}({arguments}) -> {answer};\n")
}

fn called(export: &Export, is_placed: bool) -> String {
    let arguments = listed(export, |Field { name, kind }| match kind {
        Kind::Slice => format!("{name}.as_ptr(), {name}.len()"),
        Kind::Lent => format!("{name}.as_mut_ptr(), {name}.len()"),
        Kind::Struct(_) => format!("*{name}"),
        _ => name.clone(),
    });
    let (signature, name) = (signature(export), &export.name);
    if is_placed {
        return format!(
            "\n{signature} {{\n    in_place(|place| unsafe {{ {name}(place, {arguments}) }})\n}}\n"
        );
    }
    format!("\n{signature} {{\n    unsafe {{ {name}({arguments}) }}\n}}\n")
}

fn asked(export: &Export) -> String {
    let steps = joined(&export.arguments, |Field { name, kind }| match kind {
        Kind::Slice | Kind::Lent => format!(".slice({name})"),
        Kind::Struct(_) => format!(".value({name})"),
        Kind::Truth => format!(".value(&u8::from({name}))"),
        _ => format!(".value(&{name})"),
    });
    let lent: Vec<&Field> = export
        .arguments
        .iter()
        .filter(|of| of.kind == Kind::Lent)
        .collect();
    let answered = match lent[..] {
        [] if export.answer == Kind::Truth => ".truth()".to_string(),
        [] => ".answer()".to_string(),
        [buffer] => format!(".answer_and_lent({})", buffer.name),
        _ => panic!("{}: an answer carries one lent buffer", export.name),
    };
    let function = camel_case(export.short_name());
    format!(
        "\n{} {{\n    Request::to(Function::{function}){steps}{answered}\n}}\n",
        signature(export)
    )
}

fn measured(table: &Table, export: &Export) -> String {
    let arguments = listed(export, |Field { name, kind }| match kind {
        Kind::Struct(of) => format!("{name}: &{of}"),
        Kind::Lent => format!("{name}: &[u8]"),
        _ => format!("{name}: {}", type_of(kind)),
    });
    let steps = joined(&export.arguments, |Field { name, kind }| match kind {
        Kind::Slice | Kind::Lent => format!(".slice({name})"),
        Kind::Struct(_) => format!(".value({name})"),
        _ => format!(".number({name} as u64)"),
    });
    let place = if has_place(table, export) {
        ".place()"
    } else {
        ""
    };
    let (name, function) = (export.short_name(), camel_case(export.short_name()));
    format!(
        "\n    pub fn {name}({arguments}) -> Measured {{\n        \
             Measuring::of(Function::{function}){place}{steps}.measured()\n    }}\n"
    )
}

/// Refuses to compile where the struct of `values.rs` has another field, type, place or size.
fn layout(table: &Table, known: &Struct) -> String {
    let (offsets, size, alignment) = table.places(known);
    let name = &known.name;
    let names = joined(&known.fields, |field| format!("{}, ", field.name));
    let types = joined(&known.fields, |field| {
        format!(
            "        let _: &{} = {};\n",
            type_of(&field.kind),
            field.name
        )
    });
    let placed: Vec<_> = known.fields.iter().zip(offsets).collect();
    let places = joined(&placed, |(field, offset)| {
        format!(
            "    assert!(std::mem::offset_of!({name}, {}) == {offset});\n",
            field.name
        )
    });
    format!(
        "\nconst _: () = {{\n    \
             use crate::second::values::*;\n    \
             const fn _fields(value: &{name}) {{\n        \
                 let {name} {{ {names}}} = value;\n{types}    }}\n    \
             assert!(size_of::<{name}>() == {size} && align_of::<{name}>() == {alignment});\n{places}}};\n"
    )
}
