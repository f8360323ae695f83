//! Texts with one line damaged in one to three of its fields, in every way.

/// The lines that are damaged have an item in each list.
const PLAN_1: &str = "plan\t1\t2\t3
task\t1\t1\t0\t5\te1,s3\t-
task\t2\t2\t5\t7\ts3\t1
task\t3\t1\t8\t9\te1\t1,2
";

const PLAN_2: &str = "plan\t2\t2\t3
task\t1\t1\t0\t0\t5\te1,e3\t-
task\t2\t2\t3\t5\t7\te3\t1
task\t3\t1\t8\t8\t9\te1\t1,2
";

/// Its last task is ready after its planned start, which faults beside it hide.
const READY_TOO_LATE: &str = "plan\t2\t2\t3
task\t1\t1\t0\t0\t5\te1,e3\t-
task\t2\t2\t3\t5\t7\te3\t1
task\t3\t1\t9\t8\t9\te1\t1,2
";

/// Its last task shares a drive, which faults beside it and in the line before hide.
const SHARED: &str = "plan\t2\t2\t3
task\t1\t1\t0\t0\t5\te1,e3\t-
task\t2\t2\t3\t5\t7\te3\t1
task\t3\t1\t8\t8\t9\te1,s2\t1,2
";

/// Its last task shares a drive, which hides that it is ready too late.
const SHARED_AND_TOO_LATE: &str = "plan\t2\t2\t3
task\t1\t1\t0\t0\t5\te1,e3\t-
task\t2\t2\t3\t5\t7\te3\t1
task\t3\t1\t9\t8\t9\ts1\t1,2
";

/// Its first line is damaged, and the second accepted on plan A.
const RULED_ENDS: &str = "rule\tclash\nend\t2\t3\n";

/// The second line is damaged. On plan A the first is refused and read on from,
/// and the third accepted.
const ENDS: [&str; 4] = [
    "end\t9\t1\nend\t2\t3\nend\t2\t3\n",
    "end\t9\t1\nend\t2\t3\n",
    "end\t9\t1\ndrop\t3\nend\t2\t3\n",
    "end\t9\t1\ndrop\t3\n",
];

/// Plans with a middle task line damaged, and with the last one, with LF and without.
pub fn every_damaged_plan() -> Vec<Vec<u8>> {
    let mut texts = Vec::new();
    put_damaged(&mut texts, PLAN_1, 2, 2);
    put_damaged(&mut texts, PLAN_1, 3, 3);
    put_damaged(&mut texts, PLAN_2, 2, 1);
    put_damaged(&mut texts, PLAN_2, 3, 2);
    put_damaged(&mut texts, READY_TOO_LATE, 3, 2);
    put_damaged(&mut texts, SHARED, 2, 1);
    put_damaged(&mut texts, SHARED, 3, 2);
    put_damaged(&mut texts, SHARED_AND_TOO_LATE, 3, 2);
    texts
}

/// Ends with an `end` and a `drop` line damaged, before another line and as the
/// last one, with LF and without.
pub fn every_damaged_ends() -> Vec<Vec<u8>> {
    let mut texts = Vec::new();
    for text in ENDS {
        put_damaged(&mut texts, text, 1, 3);
    }
    texts
}

/// Ends with their first line, which chooses the rule, damaged, before an `end` line and
/// as the only one, with LF and without.
pub fn every_damaged_rule_line() -> Vec<Vec<u8>> {
    let mut texts = Vec::new();
    put_damaged(&mut texts, RULED_ENDS, 0, 3);
    let only_line = RULED_ENDS.split_inclusive('\n').next();
    put_damaged(&mut texts, only_line.unwrap_or_default(), 0, 3);
    texts
}

/// The text with that line, counted from 0, damaged; the last line without its LF too.
fn put_damaged(texts: &mut Vec<Vec<u8>>, text: &str, line: usize, most_faults: u32) {
    let lines: Vec<&str> = text.lines().collect();
    let before: String = lines[..line]
        .iter()
        .map(|line| format!("{line}\n"))
        .collect();
    let after: String = lines[line + 1..]
        .iter()
        .map(|line| format!("{line}\n"))
        .collect();
    for damaged in every_damaged_line(lines[line], most_faults) {
        texts.push(format!("{before}{damaged}\n{after}").into());
        if after.is_empty() {
            texts.push(format!("{before}{damaged}").into());
        }
    }
}

/// The line, and that line with some of its fields damaged, in every choice of
/// fields and of damages.
fn every_damaged_line(line: &str, most_faults: u32) -> Vec<String> {
    let mut beginnings = vec![(0, Vec::new())];
    for field in line.split('\t') {
        let mut longer = Vec::new();
        for (faults, fields) in beginnings {
            if faults < most_faults {
                let damaged = damages(field).map(|instead| (faults + 1, joined(&fields, instead)));
                longer.extend(damaged);
            }
            longer.push((faults, joined(&fields, vec![field.into()])));
        }
        beginnings = longer;
    }
    let fields = beginnings.into_iter().map(|(_, fields)| fields);
    fields.map(|fields| fields.join("\t")).collect()
}

/// What stands in a field's place: misspelt at its front and at its end, emptied,
/// removed, doubled, and below and above its range where it has one.
fn damages(field: &str) -> impl Iterator<Item = Vec<String>> {
    let is_hold = field.starts_with(['e', 's']);
    let (below, above) = if is_hold {
        ("e0", "e1,s33")
    } else {
        ("0", "1000001")
    };
    [
        vec![format!("0{field}")],
        vec![format!("{field},")],
        vec![String::new()],
        vec![],
        vec![field.into(), field.into()],
        vec![below.into()],
        vec![above.into()],
    ]
    .into_iter()
}

fn joined(fields: &[String], more: Vec<String>) -> Vec<String> {
    [fields, &more].concat()
}
