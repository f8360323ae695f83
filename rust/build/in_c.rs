//! The exports in C, for the peer, which has their declarations from `include/cloverdusk.h`: an op for each.
//! Each is declared once more, so that the compiler refuses a header that declares another.

use crate::exports::{Export, Field, Kind, Table, MEASURE_OP};
use crate::header::{declaration, declared, type_of};

pub fn ops(table: &Table) -> String {
    let functions: String = table
        .exports
        .iter()
        .map(|export| format!("\n{}\n{}", in_brackets(export), op(export)))
        .collect();
    let rows = table.exports.iter().enumerate().map(|(number, export)| {
        format!(
            " \\\n    [{number}] = {{op_{}, {}}},",
            export.short_name(),
            export.name
        )
    });
    let count = table.exports.len();
    format!(
        "{functions}\n#define OPS{}\n\n\
         enum {{ OP_NOTHING = {count}, OP_KNOWN_FRAME = {}, OP_MEASURE = {MEASURE_OP} }};\n",
        rows.collect::<String>(),
        count + 1
    )
}

/// The declaration with its name in brackets, so that it is the function and not the header's macro of that name.
fn in_brackets(export: &Export) -> String {
    let name = &export.name;
    declaration(export).replacen(&format!("{name}("), &format!("({name})("), 1)
}

/// Takes the arguments from a request, and answers with the value and the lent buffer.
fn op(export: &Export) -> String {
    let taken: String = export.arguments.iter().map(taken).collect();
    let arguments: Vec<String> = export.arguments.iter().map(passed).collect();
    let lent = export
        .arguments
        .iter()
        .find(|argument| argument.kind == Kind::Lent);
    let lent = lent.map_or("NONE", |buffer| &buffer.name);
    format!(
        "static void op_{}(void) {{\n{taken}    {} = {}({});\n    answer(&answered, sizeof answered, {lent});\n}}\n",
        export.short_name(),
        declared(&export.answer, "answered"),
        export.name,
        arguments.join(", ")
    )
}

fn passed(Field { name, kind }: &Field) -> String {
    match kind {
        Kind::Slice | Kind::Lent => format!("{name}.bytes, {name}.length"),
        Kind::Truth => format!("{name} != 0"),
        _ => name.clone(),
    }
}

fn taken(Field { name, kind }: &Field) -> String {
    match kind {
        Kind::Slice | Kind::Lent => format!("    struct slice {name} = take_slice();\n"),
        Kind::Truth => format!("    TAKE(u8, {name});\n"),
        _ => format!("    TAKE({}, {name});\n", type_of(kind)),
    }
}
