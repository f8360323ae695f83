//! The desk: a line in, what is answered to it at once, and whether the line is kept in `ends.txt`.
//!
//! Settled here where the document is silent: a line of more than 64 bytes is 3 at column 65 also
//! where it has no LF; a line that the book refuses is not asked whether it would still fit.

use super::exact::exact_early;
use super::fields::{
    field_column, first_field, is_number, line_of, malformed_column, push_number, read_number,
    Spelling,
};
use super::lines::{DROP_LINE, RULE_LINE};
use super::runlog::{
    go_through, log_drop, log_early, log_opening, log_report, refused_line, END_LINE,
};
use super::sheet::{fresh_sheet, on_drive};
use super::values::{refusal, Answer, Book, Rule, ENDED, LAST_TICK, LONGEST_TEXT, RUNNING};
use super::why::why;

/// How many bytes a line may have before its LF.
pub const LONGEST_LINE: usize = 64;

/// The words of an answer's last line.
pub const LAST_WORDS: [&str; 6] = ["early", "exact", "now", "drive", "why", "refused"];

/// How each field of a question is spelt, by the line's word.
const EARLY_LINE: &[Spelling] = &[|word| word == b"early"];
const EXACT_LINE: &[Spelling] = &[|word| word == b"exact"];
const NOW_LINE: &[Spelling] = &[|word| word == b"now"];
const DRIVE_LINE: &[Spelling] = &[|word| word == b"drive", is_number];
const WHY_LINE: &[Spelling] = &[|word| word == b"why", is_number];

/// What the desk does with a folder when it is started there.
pub enum Start {
    /// The plan is refused: the line is printed, and the desk ends without a failure.
    PlanRefused(Vec<u8>),
    /// `ends.txt` is too long, or `runlog` would stop in it: this is printed, and the desk fails.
    EndsRefused(Vec<u8>),
    /// The log is printed, what lies past the bytes kept is cut off, and lines are read.
    Open(Vec<u8>, Box<Desk>),
}

/// A morning at the desk.
#[derive(Clone)]
pub struct Desk {
    pub book: Book,
    /// How many bytes `ends.txt` has.
    pub kept: usize,
    /// How many lines were read.
    pub lines: u32,
}

/// What is printed for a line, and whether the line is first put at the end of `ends.txt`.
#[derive(Clone, PartialEq, Eq, Debug)]
pub struct Reply {
    pub answer: Vec<u8>,
    pub is_kept: bool,
}

impl Desk {
    pub fn start(plan_text: &[u8], ends_text: &[u8]) -> Start {
        let (opening, book) = go_through(plan_text, b"");
        if book.is_none() {
            return Start::PlanRefused(opening);
        }
        if ends_text.len() > LONGEST_TEXT {
            return Start::EndsRefused(refused_line(refusal(1, 0, 0)));
        }
        let last_lf = ends_text.iter().rposition(|&byte| byte == b'\n');
        let kept = last_lf.map_or(0, |place| place + 1);
        let (log, book) = go_through(plan_text, &ends_text[..kept]);
        let Some(book) = book else {
            return Start::EndsRefused(log);
        };
        let desk = Desk {
            book,
            kept,
            lines: 0,
        };
        Start::Open(log, Box::new(desk))
    }

    /// Takes the bytes before a line's LF; `has_lf` is false where the input ends without one.
    pub fn take(&mut self, line: &[u8], has_lf: bool) -> Reply {
        self.lines += 1;
        match self.read(line, has_lf) {
            Err(answer) => not_kept(refused_line(answer)),
            Ok(fields) => self.answer(&fields, line.len() + 1),
        }
    }

    /// The line's word and its numbers, or its refusal by 3 or 4.
    fn read<'a>(&self, line: &'a [u8], has_lf: bool) -> Result<(&'a [u8], Vec<u32>), Answer> {
        if line.len() > LONGEST_LINE {
            return Err(refusal(3, self.lines, LONGEST_LINE as u32 + 1));
        }
        let form = self.form_of(first_field(line));
        let fields: Vec<&[u8]> = line.split(|&byte| byte == b'\t').collect();
        let is_spelt = |(field, spelling): (&&[u8], &Spelling)| spelling(field);
        let is_of_its_form = fields.len() == form.len() && fields.iter().zip(form).all(is_spelt);
        if !has_lf || !is_of_its_form {
            return Err(refusal(3, self.lines, malformed_column(line, form)));
        }
        let is_over = |field: &&[u8]| read_number(field).is_some_and(|number| number > LAST_TICK);
        if let Some(over) = fields.iter().position(is_over) {
            return Err(refusal(4, self.lines, field_column(line, over)));
        }
        let numbers = fields.iter().filter_map(|field| read_number(field));
        Ok((fields[0], numbers.collect()))
    }

    /// A line with any other word is read as an end.
    fn form_of(&self, word: &[u8]) -> &'static [Spelling] {
        match word {
            b"drop" => &DROP_LINE,
            b"rule" if self.kept == 0 => &RULE_LINE,
            b"early" => EARLY_LINE,
            b"exact" => EXACT_LINE,
            b"now" => NOW_LINE,
            b"drive" => DRIVE_LINE,
            b"why" => WHY_LINE,
            _ => &END_LINE,
        }
    }

    /// The answer to a line of its form, which has so many bytes with its LF.
    fn answer(&mut self, (word, numbers): &(&[u8], Vec<u32>), length: usize) -> Reply {
        let mut printed = Vec::new();
        match *word {
            b"early" => log_early(&mut printed, &self.book),
            b"exact" => printed = self.exact(),
            b"now" => printed = self.now(),
            b"drive" => printed = self.drive(numbers[0]),
            b"why" => printed = self.why(numbers[0]),
            b"rule" => {
                let (opening, book) = log_opening(&self.book.plan(), Rule::Clash);
                return self.step(opening, book, length);
            }
            b"drop" => {
                let book = log_drop(&mut printed, &self.book, numbers[0]);
                return self.step(printed, book, length);
            }
            _ => {
                let book = log_report(&mut printed, &self.book, numbers[0], numbers[1]);
                return self.step(printed, book, length);
            }
        }
        not_kept(printed)
    }

    /// A step that the book takes is kept, as long as `ends.txt` has room for its line.
    fn step(&mut self, printed: Vec<u8>, book: Book, length: usize) -> Reply {
        if printed.starts_with(b"refused\t") {
            return not_kept(printed);
        }
        if self.kept + length > LONGEST_TEXT {
            return not_kept(refused_line(refusal(1, 0, 0)));
        }
        self.kept += length;
        self.book = book;
        Reply {
            answer: printed,
            is_kept: true,
        }
    }

    fn exact(&self) -> Vec<u8> {
        let exact = exact_early(&self.book);
        let figure = if exact.known {
            exact.early.to_string()
        } else {
            "-".into()
        };
        format!("exact\t{}\t{figure}\n", self.book.clock).into_bytes()
    }

    /// Whose start is known and who has not ended, also where that start lies past the clock.
    fn now(&self) -> Vec<u8> {
        let book = &self.book;
        let running = (0..usize::from(book.tasks)).filter(|&i| book.mark[i] == RUNNING);
        let mut printed = Vec::new();
        let mut many = 0;
        for i in running {
            let limit = book.start[i] + book.finish[i] - book.begin[i];
            let numbers = [i as u32 + 1, book.board[i].into(), book.start[i], limit];
            printed.extend(line_of("runs", &numbers));
            many += 1;
        }
        printed.extend(line_of("now", &[book.clock, many]));
        printed
    }

    fn drive(&self, drive: u32) -> Vec<u8> {
        let asked = on_drive(&self.book, &fresh_sheet(&self.book), drive);
        if !asked.answer.is_accepted() {
            return refused_line(asked.answer);
        }
        let running = asked.running.iter().filter(|&&task| task != 0);
        let running: Vec<String> = running.map(u8::to_string).collect();
        let or_none = |text: String, is_some: bool| if is_some { text } else { "-".into() };
        let running = or_none(running.join(","), !running.is_empty());
        let next = or_none(asked.next.to_string(), asked.next != 0);
        format!("drive\t{drive}\t{running}\t{next}\n").into_bytes()
    }

    fn why(&self, task: u32) -> Vec<u8> {
        let book = &self.book;
        let chain = why(book, task);
        if !chain.answer.is_accepted() {
            return refused_line(chain.answer);
        }
        let mut printed = Vec::new();
        for &link in chain.numbers() {
            let i = usize::from(link) - 1;
            let start = book.start[i];
            printed.extend(format!("link\t{link}\t{}\t{start}\t", book.board[i]).into_bytes());
            if book.mark[i] == ENDED {
                push_number(&mut printed, book.end[i]);
            } else {
                printed.push(b'-');
            }
            printed.push(b'\n');
        }
        printed.extend(line_of("why", &[task, chain.count]));
        printed
    }
}

fn not_kept(answer: Vec<u8>) -> Reply {
    Reply {
        answer,
        is_kept: false,
    }
}
