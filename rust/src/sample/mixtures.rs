//! Texts with every mixture of a line's four faults in each of three task lines.

use crate::second::values::{refusal, Answer, EDITION_1, EDITION_2};

/// A line's codes, those that go before others first: for reading and for the second call.
pub const READING: [u32; 4] = [3, 4, 20, 18];
pub const SECOND_CALL: [u32; 3] = [3, 4, 18];

pub struct Mixture {
    pub text: Vec<u8>,
    edition: u8,
    /// The codes put into each line.
    faults: [Vec<u32>; 3],
}

/// All of an edition; in edition 1 there is no ready field, and a drive may be shared.
pub fn every_mixture(edition: u8) -> Vec<Mixture> {
    let choices: Vec<Vec<u32>> = (0..16).map(chosen).collect();
    let mut mixtures = Vec::new();
    for first in &choices {
        for second in &choices {
            for third in &choices {
                let faults = [first, second, third].map(Vec::clone);
                mixtures.push(Mixture::of(edition, faults));
            }
        }
    }
    mixtures
}

/// The codes whose bits are set.
fn chosen(bits: u32) -> Vec<u32> {
    let is_chosen = |place: &usize| bits & (1 << place) != 0;
    let places = (0..READING.len()).filter(is_chosen);
    places.map(|place| READING[place]).collect()
}

impl Mixture {
    fn of(edition: u8, faults: [Vec<u32>; 3]) -> Mixture {
        let mut text = format!("plan\t{edition}\t1\t3\n");
        for (i, codes) in faults.iter().enumerate() {
            text += &task_line(edition, i, codes);
        }
        Mixture {
            text: text.into(),
            edition,
            faults,
        }
    }

    /// What the text must meet by a call that knows these codes: the first line's
    /// that has any, and of those the first.
    pub fn answer(&self, ranked: &[u32]) -> Answer {
        for (i, codes) in self.faults.iter().enumerate() {
            let has = |code: &&u32| codes.contains(code) && column(self.edition, **code) > 0;
            if let Some(&code) = ranked.iter().find(has) {
                return refusal(code, i as u32 + 2, column(self.edition, code));
            }
        }
        Answer::ACCEPTED
    }
}

/// Where the faulty field stands; 0 where the edition knows no such fault.
fn column(edition: u8, code: u32) -> u32 {
    match (edition, code) {
        (_, 4) => 8,
        (EDITION_1, 3) => 17,
        (EDITION_2, 3) => 19,
        (EDITION_2, 18) => 10,
        (EDITION_2, 20) => 16,
        _ => 0,
    }
}

/// A line in which every number has one digit, so that fields stand at the same columns.
fn task_line(edition: u8, i: usize, codes: &[u32]) -> String {
    let (number, begin) = (i + 1, 2 * i);
    let has = |code| codes.contains(&code);
    let board = if has(4) { 9 } else { 1 };
    let ready = if edition == EDITION_1 {
        String::new()
    } else {
        format!("\t{}", begin + usize::from(has(18)))
    };
    let letter = if has(20) { 's' } else { 'e' };
    let after = if has(3) { 'x' } else { '-' };
    let finish = begin + 1;
    format!("task\t{number}\t{board}{ready}\t{begin}\t{finish}\t{letter}{number}\t{after}\n")
}
