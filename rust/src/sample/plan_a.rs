//! Plan A and its reports, typed in from the document.

pub const PLAN_A: &[u8] = b"plan\t1\t2\t5
task\t1\t1\t0\t6\te1\t-
task\t2\t2\t0\t4\t-\t-
task\t3\t2\t4\t9\ts2\t-
task\t4\t1\t9\t12\te2\t1
task\t5\t2\t10\t14\te1\t3
";

pub const ENDS_A: &[u8] = b"end\t2\t3
end\t1\t4
end\t3\t6
end\t5\t8
end\t4\t9
";

/// The same reports as (task, tick).
pub const REPORTS_A: [(u32, u32); 5] = [(2, 3), (1, 4), (3, 6), (5, 8), (4, 9)];

/// What is printed of plan A before any report.
pub const OPENING_A: &str = "run\t1\t2\t5\nstart\t1\t1\t0\t0\nstart\t2\t2\t0\t0\nearly\t0\t0\n";
