//! How many inputs two dispatchers agreed on, and which answers they gave.

use super::lent::Lent;
use super::rng::chosen_seed;
use super::Rng;
use crate::second::values::{refusal, Answer};
use std::io::Write;
use std::time::Instant;

/// The refusal numbers are 1 to 28; 0 is where nothing is refused.
const CODES: usize = 29;

pub struct Tally {
    title: &'static str,
    since: Instant,
    compared: u64,
    compared_before: u64,
    by_code: [u64; CODES],
}

impl Tally {
    pub fn new(title: &'static str) -> Tally {
        Tally {
            title,
            since: Instant::now(),
            compared: 0,
            compared_before: 0,
            by_code: [0; CODES],
        }
    }

    /// An empty table, and random numbers from the seed it announces.
    pub fn seeded(title: &'static str) -> (Rng, Tally) {
        let seed = chosen_seed();
        say(&format!("{title}: SEED={seed}"));
        (Rng::new(seed), Tally::new(title))
    }

    /// Counts one input on which both gave this answer.
    pub fn count(&mut self, answer: Answer) {
        self.compared += 1;
        self.by_code[answer.code as usize] += 1;
    }

    /// Counts one input that both answered yes or no to.
    pub fn count_judged(&mut self, yes: bool) {
        let answer = if yes {
            Answer::ACCEPTED
        } else {
            Answer::UNSOUND
        };
        self.count(answer);
    }

    /// Counts one input on which both printed this, by the code its last line names.
    pub fn count_printed(&mut self, printed: &[u8]) {
        let printed = std::str::from_utf8(printed).expect("what is printed is plain text");
        let last = printed.lines().last().expect("a line is printed");
        let refused = last.strip_prefix("refused\t");
        let code = refused.and_then(|said| said.split('\t').next());
        let code = code.map_or(0, |digits| digits.parse().expect("a code is a number"));
        self.count(refusal(code, 0, 0));
    }

    /// Says how many inputs were compared since the last kind was finished.
    pub fn finish_kind(&mut self, kind: &str) {
        let of_this_kind = self.compared - self.compared_before;
        self.compared_before = self.compared;
        let millis = self.since.elapsed().as_millis();
        say(&format!(
            "{}: {of_this_kind} {kind} ({millis} ms)",
            self.title
        ));
    }

    /// Says how many of the inputs compared were of one sort.
    pub fn say_part(&self, part: u64, sort: &str) {
        say(&format!("{}: {part} {sort} among them", self.title));
    }

    /// Prints the table; every code named must not be rare.
    pub fn finish(&self, least_inputs: u64, codes: &[u32]) {
        say(&format!(
            "{}: {} inputs compared in all",
            self.title, self.compared
        ));
        for (code, times) in self.by_code.iter().enumerate() {
            if *times > 0 {
                say(&format!("{}: code {code:2}: {times}", self.title));
            }
        }
        assert!(self.compared >= least_inputs, "too few inputs");
        for &code in codes {
            assert!(self.by_code[code as usize] >= 200, "code {code} is rare");
        }
    }
}

/// Writes what is printed of two texts into a lent buffer.
type Writer = fn(&[u8], &[u8], &mut [u8]) -> usize;

/// Pairs of texts, each printed by both dispatchers, and what was printed of them.
pub struct Printed {
    pub tally: Tally,
    second: fn(&[u8], &[u8]) -> Vec<u8>,
    proved: Writer,
    out: Lent,
}

impl Printed {
    /// The room is that which the proved side asks for.
    pub fn new(
        tally: Tally,
        room: usize,
        second: fn(&[u8], &[u8]) -> Vec<u8>,
        proved: Writer,
    ) -> Printed {
        Printed {
            tally,
            second,
            proved,
            out: Lent::new(room + 100),
        }
    }

    /// What is printed is the same, and the bytes behind it are left.
    pub fn compare(&mut self, plan: &[u8], other: &[u8]) {
        let wanted = (self.second)(plan, other);
        self.out.expect(&wanted, &[plan, other], |out| {
            (self.proved)(plan, other, out)
        });
        self.tally.count_printed(&wanted);
    }
}

/// Prints a line that is shown also for a test that passes.
pub fn say(line: &str) {
    writeln!(std::io::stdout(), "{line}").expect("standard output takes a line");
}
