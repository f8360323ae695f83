//! Lines, fields and numbers, common to the plan text and `ends.txt`.
//!
//! Settled here where the document is silent: only the ASCII digits 0 to 9
//! spell a number; a trailing tab parts off one more, empty field; an empty
//! line has one empty field.

/// The text's first line without its LF, also when that is missing.
pub fn first_line(text: &[u8]) -> &[u8] {
    let end = text.iter().position(|&byte| byte == b'\n');
    &text[..end.unwrap_or(text.len())]
}

/// The first line without its LF, and the text from the following line on.
/// None when no LF is left.
pub fn split_line(text: &[u8]) -> Option<(&[u8], &[u8])> {
    let line = first_line(text);
    let rest = text.get(line.len() + 1..)?;
    Some((line, rest))
}

/// The line up to its first tab.
pub fn first_field(line: &[u8]) -> &[u8] {
    let end = line.iter().position(|&byte| byte == b'\t');
    &line[..end.unwrap_or(line.len())]
}

/// The line's fields, when there are exactly N.
pub fn split_fields<const N: usize>(line: &[u8]) -> Option<[&[u8]; N]> {
    let mut parts = line.split(|&byte| byte == b'\t');
    let mut fields = [line; N];
    for field in &mut fields {
        *field = parts.next()?;
    }
    parts.next().is_none().then_some(fields)
}

/// Whether a field is well spelt, whatever its number or list comes to.
pub type Spelling = fn(&[u8]) -> bool;

/// The byte column, from 1, where that field of the line begins, fields counted from 0.
pub fn field_column(line: &[u8], field: usize) -> u32 {
    let before = line.split(|&byte| byte == b'\t').take(field);
    before.map(|earlier| earlier.len() as u32 + 1).sum::<u32>() + 1
}

/// The byte column, from 1, of the first fault in a line that is not of its form.
pub fn malformed_column(line: &[u8], form: &[Spelling]) -> u32 {
    let fields = line.split(|&byte| byte == b'\t');
    let of_the_form = fields
        .zip(form)
        .take_while(|(field, is_spelt)| is_spelt(field));
    // What follows these is a misspelt field or one too many; where nothing
    // follows, a field or the LF is missing just past the line.
    field_column(line, of_the_form.count()).min(line.len() as u32 + 1)
}

pub fn is_number(field: &[u8]) -> bool {
    read_number(field).is_some()
}

/// The number a field spells, or None when misspelt. One too large for u32
/// reads as u32::MAX, which is out of every range a caller knows.
pub fn read_number(field: &[u8]) -> Option<u32> {
    if field.is_empty() || !field.iter().all(u8::is_ascii_digit) {
        return None;
    }
    if field.len() > 1 && field[0] == b'0' {
        return None;
    }
    Some(field.iter().fold(0u32, |value, digit| {
        value
            .saturating_mul(10)
            .saturating_add(u32::from(digit - b'0'))
    }))
}

/// One line of a word and numbers, tabs between and LF at the end.
pub fn line_of(word: &str, numbers: &[u32]) -> Vec<u8> {
    let mut line = word.as_bytes().to_vec();
    for &number in numbers {
        line.push(b'\t');
        push_number(&mut line, number);
    }
    line.push(b'\n');
    line
}

/// The decimal digits of a number, put at the end of the text.
pub fn push_number(text: &mut Vec<u8>, number: u32) {
    let mut digits = [0; 10];
    let mut first = digits.len();
    let mut rest = number;
    loop {
        first -= 1;
        digits[first] = b'0' + (rest % 10) as u8;
        rest /= 10;
        if rest == 0 {
            break;
        }
    }
    text.extend_from_slice(&digits[first..]);
}
