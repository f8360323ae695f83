//! Two tasks, one planned to finish by the other's start, with every sort of clash
//! between them and with none.

use crate::second::text::read_plan;
use crate::second::values::Plan;

pub struct Pair {
    pub plan: Plan,
    /// Task indices: the one planned first, and the one that may wait for it.
    pub first: usize,
    pub second: usize,
    pub clash: bool,
}

type Holds = &'static [(char, u32)];

const HOLDS: [Holds; 10] = [
    &[],
    &[('e', 1)],
    &[('s', 1)],
    &[('e', 2)],
    &[('e', 1), ('e', 2)],
    &[('e', 1), ('s', 2)],
    &[('s', 1), ('e', 2)],
    &[('s', 1), ('s', 2)],
    &[('e', 32)],
    &[('s', 31), ('s', 32)],
];

/// Every choice of boards, holds, after, planned start, task numbers and, where nobody
/// shares a drive, edition.
pub fn every_pair() -> Vec<Pair> {
    let mut pairs = Vec::new();
    for holds in HOLDS.iter().flat_map(|&a| HOLDS.map(|b| [a, b])) {
        for bits in 0..32 {
            let [same_board, lists, gap, swapped, ready] = [0, 1, 2, 3, 4].map(|k| bits >> k & 1);
            if ready == 0 || !has_shared(holds) {
                let choice = [same_board, lists, gap, swapped, ready].map(|bit| bit == 1);
                pairs.push(pair_of(holds, choice));
            }
        }
    }
    pairs
}

fn pair_of(holds: [Holds; 2], [same_board, lists, gap, swapped, ready]: [bool; 5]) -> Pair {
    let (first, second) = if swapped { (1, 0) } else { (0, 1) };
    let board = if same_board { 1 } else { 2 };
    let begin = if gap { 5 } else { 4 };
    let after = if lists {
        (first + 1).to_string()
    } else {
        "-".into()
    };
    let [no_ready, its_ready] = if ready { ["0\t", "3\t"] } else { ["", ""] };
    let edition = if ready { 2 } else { 1 };
    let [mine, others] = holds.map(spelt);
    let mut lines = [String::new(), String::new()];
    lines[first] = format!("1\t{no_ready}0\t4\t{mine}\t-");
    lines[second] = format!("{board}\t{its_ready}{begin}\t8\t{others}\t{after}");
    let [one, two] = lines;
    let text = format!("plan\t{edition}\t2\t2\ntask\t1\t{one}\ntask\t2\t{two}\n");
    let reading = read_plan(text.as_bytes());
    assert!(reading.answer.is_accepted(), "{text:?}");
    Pair {
        plan: reading.plan,
        first,
        second,
        clash: same_board || lists || by_drive(holds),
    }
}

fn has_shared(holds: [Holds; 2]) -> bool {
    holds.concat().iter().any(|(letter, _)| *letter == 's')
}

fn by_drive([mine, others]: [Holds; 2]) -> bool {
    let conflict = |a: &(char, u32), b: &(char, u32)| a.1 == b.1 && (a.0 == 'e' || b.0 == 'e');
    mine.iter().any(|a| others.iter().any(|b| conflict(a, b)))
}

fn spelt(holds: Holds) -> String {
    let items: Vec<String> = holds
        .iter()
        .map(|(letter, drive)| format!("{letter}{drive}"))
        .collect();
    if items.is_empty() {
        return "-".into();
    }
    items.join(",")
}
