//! Plan A's listing, byte for byte.

use dispatcher::run_log;
use dispatcher::sample::plan_a::{ENDS_A, PLAN_A};

/// Typed in from the document's listing, its last line as request P1 has it.
const LISTING: &str = "run\t1\t2\t5
start\t1\t1\t0\t0
start\t2\t2\t0\t0
early\t0\t0
end\t2\t2\t3\t1
start\t3\t2\t3\t1
early\t3\t0
end\t1\t1\t4\t2
early\t4\t1
end\t3\t2\t6\t3
start\t4\t1\t6\t3
start\t5\t2\t6\t4
early\t6\t3
end\t5\t2\t8\t6
early\t8\t3
end\t4\t1\t9\t3
early\t9\t0
";

#[test]
fn plan_a_prints_the_listing() {
    let log = run_log(PLAN_A, ENDS_A);
    assert_eq!(String::from_utf8(log).unwrap(), LISTING);
}

#[test]
fn a_missing_ends_file_prints_the_opening_lines_only() {
    let opening: String = LISTING.split_inclusive('\n').take(4).collect();
    let log = run_log(PLAN_A, b"");
    assert_eq!(String::from_utf8(log).unwrap(), opening);
}

#[test]
fn refused_reports_stand_between_and_change_nothing() {
    let mut ends = b"end\t6\t3\n".to_vec();
    for line in ENDS_A.split_inclusive(|&byte| byte == b'\n') {
        ends.extend_from_slice(line);
        ends.extend_from_slice(b"end\t2\t0\n");
    }
    let log = String::from_utf8(run_log(PLAN_A, &ends)).unwrap();
    let (refused, kept): (Vec<&str>, Vec<&str>) = log
        .split_inclusive('\n')
        .partition(|line| line.starts_with("refused"));
    assert_eq!(kept.concat(), LISTING);
    assert_eq!(refused[0], "refused\t10\t6\t3\n");
    assert_eq!(&refused[1..], ["refused\t11\t2\t0\n"; 5]);
}
