//! Plan B, of edition 2, and its reports, made for request P8.
//!
//! Task 1 awaits a class until tick 2 and waits for nobody; 3 waits for 2, and is
//! not ready before 3; 4 waits for those three, and is ready at its planned start
//! only; 5 waits for all others.

pub const PLAN_B: &[u8] = b"plan\t2\t2\t5
task\t1\t1\t2\t4\t6\t-\t-
task\t2\t2\t0\t0\t5\te1\t-
task\t3\t2\t3\t5\t8\te2\t-
task\t4\t1\t9\t9\t12\te2\t-
task\t5\t2\t0\t12\t14\te1\t2,4
";

/// Reports as (task, tick) that take the morning to its end.
pub const REPORTS_B: [(u32, u32); 5] = [(2, 1), (1, 3), (3, 5), (4, 11), (5, 13)];
