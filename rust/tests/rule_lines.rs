//! The first line of `ends.txt` that chooses the clash rule, well formed and not.

use dispatcher::run_log;
use dispatcher::sample::lines::rule_lines_with_one_byte_wrong;
use dispatcher::sample::plan_a::{ENDS_A, PLAN_A};

/// Task 2 clashes with nobody: it starts at once by the clash rule, and by Early Start
/// after task 1.
const TWO: &[u8] = b"plan\t1\t2\t2\ntask\t1\t1\t0\t4\t-\t-\ntask\t2\t2\t4\t6\t-\t-\n";
const BY_EARLY_START: &str = "run\t1\t2\t2\nstart\t1\t1\t0\t0\nearly\t0\t0\n";
const BY_CLASH: &str = "run\t2\t2\t2\tclash\nstart\t1\t1\t0\t0\nstart\t2\t2\t0\t4\nearly\t0\t0\n";

fn log_of(ends: &str) -> String {
    String::from_utf8(run_log(TWO, ends.as_bytes())).unwrap()
}

/// The book is opened by Early Start, and the first line refused at that column.
fn check_refused(ends: &str, column: u32) {
    let wanted = format!("{BY_EARLY_START}refused\t3\t1\t{column}\n");
    assert_eq!(log_of(ends), wanted, "{ends:?}");
}

#[test]
fn the_first_line_chooses_the_clash_rule() {
    assert_eq!(log_of(""), BY_EARLY_START);
    assert_eq!(log_of("rule\tclash\n"), BY_CLASH);
    let rest = "end\t2\t2\t1\t5\nearly\t1\t0\nend\t1\t1\t3\t1\nearly\t3\t0\n";
    let log = log_of("rule\tclash\nend\t2\t1\nend\t1\t3\n");
    assert_eq!(log, format!("{BY_CLASH}{rest}"));
    let rest = "refused\t11\t2\t1\nend\t1\t1\t3\t1\nstart\t2\t2\t3\t1\nearly\t3\t1\n";
    let log = log_of("end\t2\t1\nend\t1\t3\n");
    assert_eq!(log, format!("{BY_EARLY_START}{rest}"));
}

/// In plan A the two rules let the same tasks go on the same ticks.
#[test]
fn plan_a_prints_its_listing_by_the_clash_rule_too() {
    let by_early_start = String::from_utf8(run_log(PLAN_A, ENDS_A)).unwrap();
    let ends = [b"rule\tclash\n", ENDS_A].concat();
    let by_clash = String::from_utf8(run_log(PLAN_A, &ends)).unwrap();
    let listing = by_early_start.strip_prefix("run\t1\t2\t5\n").unwrap();
    assert_eq!(by_clash, format!("run\t2\t2\t5\tclash\n{listing}"));
}

#[test]
fn a_rule_line_that_is_none_is_refused_where_it_goes_wrong() {
    let malformed = [
        ("rule", 5),
        ("rule\t", 6),
        ("rule\tClash", 6),
        ("rule\tclas", 6),
        ("rule\tclashh", 6),
        ("rule\tclash ", 6),
        ("rule\t clash", 6),
        ("rule\tclash\r", 6),
        ("rule\tclash\0", 6),
        ("rule\tearly", 6),
        ("rule\tearly start", 6),
        ("rule\t0", 6),
        ("rule\t1", 6),
        ("rule\t-", 6),
        ("rule\t\tclash", 6),
        ("rule\tx\ty", 6),
        ("rule\tend\t1\t3", 6),
        ("rule\tclash\t", 12),
        ("rule\tclash\t\t", 12),
        ("rule\tclash\tclash", 12),
        ("rule\tclash\tend\t1\t3", 12),
    ];
    for (line, column) in malformed {
        check_refused(&format!("{line}\n"), column);
        // A missing LF lies to the right of any other fault.
        check_refused(line, column);
        // Nothing behind it is read.
        check_refused(&format!("{line}\nend\t1\t3\n"), column);
        check_refused(&format!("{line}\nrule\tclash\n"), column);
    }
    check_refused("rule\tclash", 11);
    // It runs into the next line.
    check_refused("rule\tclashend\t1\t3\n", 6);
}

#[test]
fn any_other_word_is_a_wrong_one() {
    for line in [
        "Rule\tclash",
        "RULE\tclash",
        "rule \tclash",
        " rule\tclash",
        "rules\tclash",
        "rul\tclash",
        "rule clash",
        "rule,clash",
        "rule\r",
        "rule\0\tclash",
        "\trule\tclash",
        "",
        "clash",
        "clash\trule",
        "early\tstart",
    ] {
        check_refused(&format!("{line}\n"), 1);
        check_refused(&format!("{line}\nrule\tclash\n"), 1);
    }
}

#[test]
fn below_the_first_line_the_word_is_a_wrong_one() {
    for line in [
        "rule\tclash\n",
        "rule\n",
        "rule\tclash\t\n",
        "rule\tclash",
        "rule",
    ] {
        let log = log_of(&format!("end\t9\t1\n{line}"));
        let wanted = format!("{BY_EARLY_START}refused\t10\t9\t1\nrefused\t3\t2\t1\n");
        assert_eq!(log, wanted, "{line:?}");
        let log = log_of(&format!("rule\tclash\n{line}"));
        assert_eq!(log, format!("{BY_CLASH}refused\t3\t2\t1\n"), "{line:?}");
        let log = log_of(&format!("rule\tclash\ndrop\t9\n{line}"));
        let wanted = format!("{BY_CLASH}refused\t10\t9\t0\nrefused\t3\t3\t1\n");
        assert_eq!(log, wanted, "{line:?}");
    }
}

#[test]
fn the_line_counts() {
    let refused = [
        ("end\t1\n", "refused\t3\t2\t6\n"),
        ("end\t1\t3", "refused\t3\t2\t8\n"),
        ("\n", "refused\t3\t2\t1\n"),
        ("drop\t1\t1\n", "refused\t3\t2\t8\n"),
        ("end\t1\t1000001\n", "refused\t4\t2\t7\n"),
        ("drop\t1000001\n", "refused\t4\t2\t6\n"),
        (
            "drop\t1\nend\tx\t1\n",
            "refused\t19\t1\t0\nrefused\t3\t3\t5\n",
        ),
    ];
    for (rest, wanted) in refused {
        let log = log_of(&format!("rule\tclash\n{rest}"));
        assert_eq!(log, format!("{BY_CLASH}{wanted}"), "{rest:?}");
    }
}

#[test]
fn a_refused_plan_and_too_long_ends_come_before_the_rule() {
    for line in ["rule\tclash\n", "rule\n", "rule"] {
        assert_eq!(run_log(b"plan\n", line.as_bytes()), b"refused\t2\t1\t0\n");
        let late = b"plan\t1\t1\t1\ntask\t1\t1\t1\t4\t-\t-\n";
        assert_eq!(run_log(late, line.as_bytes()), b"refused\t17\t1\t0\n");
        let long = format!("{line:x<32769}");
        assert_eq!(log_of(&long), "refused\t1\t0\t0\n");
    }
    // 32,768 bytes are not too long: 4,094 lines of 8 bytes and a task of five digits more.
    let ends = format!("rule\tclash\n{}end\t10000\t0\n", "end\t9\t0\n".repeat(4093));
    assert_eq!(ends.len(), 32_767);
    let refused = format!(
        "{}refused\t10\t10000\t0\n",
        "refused\t10\t9\t0\n".repeat(4093)
    );
    assert_eq!(log_of(&ends), format!("{BY_CLASH}{refused}"));
    let ends = ends.replace("10000", "100000");
    assert_eq!(
        log_of(&ends),
        format!("{BY_CLASH}{}", refused.replace("10000", "100000"))
    );
    let ends = ends.replace("100000", "1000000");
    assert_eq!(
        (ends.len(), log_of(&ends)),
        (32_769, "refused\t1\t0\t0\n".into())
    );
}

#[test]
fn no_other_first_line_chooses_it() {
    for text in rule_lines_with_one_byte_wrong() {
        let log = String::from_utf8(run_log(TWO, &text)).unwrap();
        let rest = log.strip_prefix(BY_EARLY_START);
        let rest = rest.unwrap_or_else(|| panic!("{text:?}: {log}"));
        assert!(rest.starts_with("refused\t3\t1\t"), "{text:?}: {log}");
        assert_eq!(rest.lines().count(), 1, "{text:?}: {log}");
    }
}
