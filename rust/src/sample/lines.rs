//! Texts damaged by whole lines or stretched to a length, and texts of noise.

use super::Rng;

/// What a stretched text may be filled with.
const FILLINGS: [&[u8]; 14] = [
    b"\n", b"\t", b"1", b"0", b"9", b"-", b",", b"e1,", b",s2", b"1,2,", b"task\t", b"\0", b"\xff",
    b"e",
];
/// Lines that make sense, and the beginning of another.
const FIRST_LINES: [&[u8]; 2] = [
    b"plan\t1\t2\t3\ntask\t1\t",
    b"plan\t2\t2\t3\ntask\t1\t1\t0\t",
];
/// Bytes of which plan texts are made.
const USUAL_BYTES: &[u8] = b"\t\t\t\n\n-,es0123456789plantask";

/// Lines of `ends.txt` that are not well formed or out of range, and some that
/// are neither but look so.
const ODD_ENDS_LINES: [&[u8]; 32] = [
    b"drop\n",
    b"drop\t\n",
    b"drop\t1",
    b"drop\t1\t2\n",
    b"drop\t1\t\n",
    b"drop\t01\n",
    b"drop\t-\n",
    b"drop\t+1\n",
    b"drop\t1\r\n",
    b"drop 1\n",
    b"Drop\t1\n",
    b"drops\t1\n",
    b"dro\t1\n",
    b"\tdrop\t1\n",
    b"skip\t1\n",
    b"end\t1\n",
    b"end\t1\t1",
    b"end\t\t1\n",
    b"end\t1\t1\t\n",
    b"end\t1000001\t01\n",
    b"end\t1000001\t1000001\n",
    b"end\t1000001\n",
    b"1\n",
    b"\n",
    b"drop\t1000001\n",
    b"drop\t4294967296\n",
    b"drop\t18446744073709551617\n",
    b"drop\t1000000\n",
    b"drop\t0\n",
    b"drop\t65\n",
    b"rule\tclash\n",
    b"rule\n",
];

/// The first line that chooses the clash rule, and what may stand in its place.
const ODD_RULE_LINES: [&[u8]; 36] = [
    b"rule\tclash\n",
    b"rule\n",
    b"rule\t\n",
    b"rule\tClash\n",
    b"rule\tclas\n",
    b"rule\tclashh\n",
    b"rule\tclash \n",
    b"rule\tclash\r\n",
    b"rule\tclash\0\n",
    b"rule\t clash\n",
    b"rule\tearly\n",
    b"rule\tearly start\n",
    b"rule\t0\n",
    b"rule\t1\n",
    b"rule\t2\n",
    b"rule\t-\n",
    b"rule\t\tclash\n",
    b"rule\tclash\t\n",
    b"rule\tclash\tclash\n",
    b"rule\tclash\t\t\n",
    b"rule\tend\t2\t3\n",
    b"rule\tclash\tend\t2\t3\n",
    b"rule\tclash\nrule\tclash\n",
    b"rule\tclash\n\n",
    b"Rule\tclash\n",
    b"RULE\tclash\n",
    b"rule \tclash\n",
    b" rule\tclash\n",
    b"rules\tclash\n",
    b"rul\tclash\n",
    b"rule clash\n",
    b"rule\r\n",
    b"\trule\tclash\n",
    b"\nrule\tclash\n",
    b"clash\trule\n",
    b"clash\n",
];

/// The text with another line in the place of that one, lines counted from 1.
pub fn with_line(text: &[u8], number: usize, line: &str) -> Vec<u8> {
    let text = std::str::from_utf8(text).unwrap();
    let mut lines: Vec<&str> = text.lines().collect();
    lines[number - 1] = line;
    (lines.join("\n") + "\n").into_bytes()
}

pub fn odd_ends_line(rng: &mut Rng) -> Vec<u8> {
    rng.pick(&ODD_ENDS_LINES).to_vec()
}

pub fn odd_rule_line(rng: &mut Rng) -> Vec<u8> {
    rng.pick(&ODD_RULE_LINES).to_vec()
}

/// The text with an odd line of `ends.txt` put between two of its lines.
pub fn with_odd_ends_line(rng: &mut Rng, text: &[u8]) -> Vec<u8> {
    let mut lines: Vec<&[u8]> = text.split_inclusive(|&byte| byte == b'\n').collect();
    lines.insert(rng.index(lines.len() + 1), rng.pick(&ODD_ENDS_LINES));
    lines.concat()
}

/// The text with an odd line put before it, or in the place of its first line.
pub fn with_odd_rule_line(rng: &mut Rng, text: &[u8]) -> Vec<u8> {
    let odd = rng.pick(&ODD_RULE_LINES);
    let mut lines = text.split_inclusive(|&byte| byte == b'\n');
    if rng.chance(50) {
        lines.next();
    }
    let rest: Vec<&[u8]> = lines.collect();
    [odd, &rest.concat()].concat()
}

/// Every odd first line, with its LF and without, and each beginning of the right one.
pub fn damaged_rule_lines() -> Vec<Vec<u8>> {
    let right = ODD_RULE_LINES[0];
    let beginnings = (0..=right.len()).map(|length| &right[..length]);
    let without_lf = ODD_RULE_LINES.iter().map(|line| &line[..line.len() - 1]);
    let lines = ODD_RULE_LINES.into_iter().chain(without_lf);
    lines.chain(beginnings).map(<[u8]>::to_vec).collect()
}

/// The line that chooses the clash rule with one byte replaced, taken out or put in.
pub fn rule_lines_with_one_byte_wrong() -> Vec<Vec<u8>> {
    let right = ODD_RULE_LINES[0];
    let mut lines = Vec::new();
    for at in 0..right.len() {
        let (before, behind) = (&right[..at], &right[at + 1..]);
        lines.push([before, behind].concat());
        for byte in (0..=255).filter(|&byte| byte != right[at]) {
            lines.push([before, &[byte], behind].concat());
            lines.push([before, &[byte], &right[at..]].concat());
        }
    }
    lines
}

/// The text with lines swapped, doubled, moved, taken out or cut off.
pub fn damaged_lines(rng: &mut Rng, text: &[u8]) -> Vec<u8> {
    let mut lines: Vec<&[u8]> = text.split_inclusive(|&byte| byte == b'\n').collect();
    let (i, j) = (rng.index(lines.len()), rng.index(lines.len()));
    match rng.within(1, 6) {
        1 => lines.swap(i, j),
        2 => lines.insert(j, lines[i]),
        3 => drop(lines.remove(i)),
        4 => lines.truncate(i),
        5 => lines[i] = lines[j],
        _ => {
            // Joins the line to the next one.
            lines[i] = &lines[i][..lines[i].len() - 1];
        }
    }
    lines.concat()
}

/// The text with one filling put in at some place, over and over, up to a length.
pub fn stretched_text(rng: &mut Rng, text: &[u8], length: usize) -> Vec<u8> {
    let at = rng.index(text.len() + 1);
    let filling = rng.pick(&FILLINGS);
    let wanted = length.saturating_sub(text.len());
    let mut stretched = text[..at].to_vec();
    stretched.extend(filling.iter().cycle().take(wanted));
    stretched.extend_from_slice(&text[at..]);
    stretched
}

/// Bytes that make no sense, sometimes behind a first line that does.
pub fn noise(rng: &mut Rng) -> Vec<u8> {
    let usual = rng.chance(50);
    let mut text = Vec::new();
    if rng.chance(50) {
        text.extend_from_slice(rng.pick(&FIRST_LINES));
        text.truncate(rng.index(text.len() + 1));
    }
    for _ in 0..rng.within(0, 80) {
        let byte = if usual {
            rng.pick(USUAL_BYTES)
        } else {
            rng.byte()
        };
        text.push(byte);
    }
    text
}
