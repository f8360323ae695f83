//! The values handed in and handed back, laid out as C structs.
//!
//! Task number k sits at index k - 1. A hold byte is 2 * drive (exclusive) or
//! 2 * drive + 1 (shared); an after byte is a task number; 0 ends a list early.

/// Tasks of edition 2 have ready ticks and share no drive; in edition 1 each is
/// ready at tick 0, and a drive may be shared.
pub const EDITION_1: u8 = 1;
pub const EDITION_2: u8 = 2;

pub const MOST_BOARDS: u8 = 8;
pub const MOST_TASKS: u8 = 64;
pub const MOST_DRIVES: u32 = 32;
pub const LAST_TICK: u32 = 1_000_000;
pub const LONGEST_TEXT: usize = 32_768;

/// How many logs a year may have.
pub const MOST_LOGS: u64 = 10_000;

/// Places kept for one task's holds and for one task's after list.
pub const HOLD_PLACES: usize = 32;
pub const AFTER_PLACES: usize = 64;

pub const WAITING: u8 = 0;
pub const RUNNING: u8 = 1;
pub const ENDED: u8 = 2;

/// What `dropped` holds for a dropped task; for any other task it holds 0.
pub const DROPPED: u8 = 1;

/// What `known` holds for a task whose ticks a log tells; for any other task it holds 0.
pub const KNOWN: u8 = 1;

/// Whom a task waits for, chosen when a book is opened.
#[repr(u8)]
#[derive(Clone, Copy, PartialEq, Eq, Debug)]
pub enum Rule {
    /// Each task planned to finish by its planned start.
    EarlyStart = 0,
    /// Those of them that clash with it.
    Clash = 1,
}

impl Rule {
    pub const BOTH: [Rule; 2] = [Rule::EarlyStart, Rule::Clash];

    /// The rule for which a book holds that byte.
    pub fn of_byte(byte: u8) -> Option<Rule> {
        Rule::BOTH.into_iter().find(|&rule| rule as u8 == byte)
    }
}

#[repr(C)]
#[derive(Clone, Copy, PartialEq, Eq, Debug)]
pub struct Answer {
    pub code: u32,
    pub first: u32,
    pub second: u32,
}

#[repr(C)]
#[derive(Clone, Copy, PartialEq, Eq, Debug)]
pub struct Plan {
    pub edition: u8,
    pub boards: u8,
    pub tasks: u8,
    pub board: [u8; 64],
    pub ready: [u32; 64],
    pub begin: [u32; 64],
    pub finish: [u32; 64],
    pub holds: [u8; 2048],
    pub after: [u8; 4096],
}

#[repr(C)]
#[derive(Clone, Copy, PartialEq, Eq, Debug)]
pub struct Book {
    pub edition: u8,
    pub boards: u8,
    pub tasks: u8,
    pub rule: u8,
    pub clock: u32,
    pub board: [u8; 64],
    pub ready: [u32; 64],
    pub begin: [u32; 64],
    pub finish: [u32; 64],
    pub start: [u32; 64],
    pub end: [u32; 64],
    pub mark: [u8; 64],
    pub dropped: [u8; 64],
    pub holds: [u8; 2048],
    pub after: [u8; 4096],
}

#[repr(C)]
#[derive(Clone, Copy, PartialEq, Eq, Debug)]
pub struct Reading {
    pub answer: Answer,
    pub plan: Plan,
}

/// An answer, and the book after it.
#[repr(C)]
#[derive(Clone, Copy, PartialEq, Eq, Debug)]
pub struct BookResult {
    pub answer: Answer,
    pub book: Book,
}

#[repr(C)]
#[derive(Clone, Copy, PartialEq, Eq, Debug)]
pub struct Figure {
    pub answer: Answer,
    pub early: u32,
}

/// The exact figure; not `known`, with 0, stands for "none".
#[repr(C)]
#[derive(Clone, Copy, PartialEq, Eq, Debug)]
pub struct Exact {
    pub answer: Answer,
    pub known: bool,
    pub early: u32,
}

/// Why a task started: its own number, then that of its cause, and so on; places
/// past the last link hold 0.
#[repr(C)]
#[derive(Clone, Copy, PartialEq, Eq, Debug)]
pub struct Chain {
    pub answer: Answer,
    pub count: u32,
    pub links: [u8; 64],
}

#[repr(C)]
#[derive(Clone, Copy, PartialEq, Eq, Debug)]
pub struct WriteResult {
    pub answer: Answer,
    pub length: u32,
}

/// What the engine without reports is given of each task. Where `dropped` is
/// 1 the task is dropped, and its length is not read.
#[repr(C)]
#[derive(Clone, Copy, PartialEq, Eq, Debug)]
pub struct Lengths {
    pub length: [u32; 64],
    pub dropped: [u8; 64],
}

/// What a text of lengths asks of the engine, its rule as a book has it.
#[repr(C)]
#[derive(Clone, Copy, PartialEq, Eq, Debug)]
pub struct LengthsResult {
    pub answer: Answer,
    pub rule: u8,
    pub given: Lengths,
}

/// An answer, and each task's start and end.
#[repr(C)]
#[derive(Clone, Copy, PartialEq, Eq, Debug)]
pub struct Timetable {
    pub answer: Answer,
    pub start: [u32; 64],
    pub end: [u32; 64],
}

/// What a log says: an answer, and `known` 1 for each task with exactly one start and one end
/// in it, whatever boards they name, beside their ticks. For any other task all three hold 0.
#[repr(C)]
#[derive(Clone, Copy, PartialEq, Eq, Debug)]
pub struct JudgedLog {
    pub answer: Answer,
    pub known: [u8; 64],
    pub start: [u32; 64],
    pub end: [u32; 64],
}

/// What a year's logs come to: how many are accepted and refused; and of board b, at index b - 1,
/// over the accepted ones, tasks ended, their ticks early summed, the greatest and the least. Where
/// no task has ended there is no greatest and no least, whatever stands there.
#[repr(C)]
#[derive(Clone, Copy, PartialEq, Eq, Debug)]
pub struct Totals {
    pub accepted: u32,
    pub refused: u32,
    pub ended: [u32; 8],
    pub sum: [u64; 8],
    pub greatest: [u32; 8],
    pub least: [u32; 8],
}

/// An answer of the totals, what is found of the log, and the totals after it. Where the totals
/// are refused the log is not looked at, and nothing but zeros is found.
#[repr(C)]
#[derive(Clone, Copy, PartialEq, Eq, Debug)]
pub struct AddResult {
    pub answer: Answer,
    pub judged: JudgedLog,
    pub totals: Totals,
}

/// Of drive d the eight places from 8 (d - 1): its running holders by rising number, 0 past the last; and
/// the next holder, or 0, at index d - 1.
#[repr(C)]
#[derive(Clone, Copy, PartialEq, Eq, Debug)]
pub struct Sheet {
    pub running: [u8; 256],
    pub next: [u8; 32],
}
#[repr(C)]
#[derive(Clone, Copy, PartialEq, Eq, Debug)]
pub struct SheetResult {
    pub answer: Answer,
    pub sheet: Sheet,
}

#[repr(C)]
#[derive(Clone, Copy, PartialEq, Eq, Debug)]
pub struct BookAndSheet {
    pub result: BookResult,
    pub sheet: Sheet,
}

#[repr(C)]
#[derive(Clone, Copy, PartialEq, Eq, Debug)]
pub struct OnDrive {
    pub answer: Answer,
    pub running: [u8; 8],
    pub next: u8,
}

impl Sheet {
    pub const ZERO: Sheet = Sheet {
        running: [0; 256],
        next: [0; 32],
    };

    /// The eight places of a drive.
    pub fn running_on(&self, drive: u32) -> [u8; 8] {
        let place = 8 * (drive as usize - 1);
        self.running[place..place + 8]
            .try_into()
            .expect("eight places")
    }
}

impl Answer {
    pub const ACCEPTED: Answer = refusal(0, 0, 0);
    /// A plan handed in is not accepted, or a book is not sound.
    pub const UNSOUND: Answer = refusal(9, 0, 0);

    pub fn is_accepted(&self) -> bool {
        *self == Answer::ACCEPTED
    }
}

/// A refusal's number and the two numbers it says besides.
pub const fn refusal(code: u32, first: u32, second: u32) -> Answer {
    Answer {
        code,
        first,
        second,
    }
}

impl Chain {
    pub const fn empty(answer: Answer) -> Chain {
        Chain {
            answer,
            count: 0,
            links: [0; 64],
        }
    }

    /// The task numbers, the asked one first.
    pub fn numbers(&self) -> &[u8] {
        &self.links[..self.count as usize]
    }
}

impl Plan {
    pub const ZERO: Plan = Plan {
        edition: 0,
        boards: 0,
        tasks: 0,
        board: [0; 64],
        ready: [0; 64],
        begin: [0; 64],
        finish: [0; 64],
        holds: [0; 2048],
        after: [0; 4096],
    };

    /// How many tasks can be looked at, also when the count itself is out of range.
    pub fn task_count(&self) -> usize {
        self.tasks.min(MOST_TASKS) as usize
    }

    /// All places of task index i's holds, the empty ones included.
    pub fn hold_places(&self, i: usize) -> &[u8] {
        &self.holds[HOLD_PLACES * i..HOLD_PLACES * (i + 1)]
    }

    /// All places of task index i's after list, the empty ones included.
    pub fn after_places(&self, i: usize) -> &[u8] {
        &self.after[AFTER_PLACES * i..AFTER_PLACES * (i + 1)]
    }
}

impl Book {
    pub const ZERO: Book = Book {
        edition: 0,
        boards: 0,
        tasks: 0,
        rule: Rule::EarlyStart as u8,
        clock: 0,
        board: [0; 64],
        ready: [0; 64],
        begin: [0; 64],
        finish: [0; 64],
        start: [0; 64],
        end: [0; 64],
        mark: [0; 64],
        dropped: [0; 64],
        holds: [0; 2048],
        after: [0; 4096],
    };

    /// A book on the plan by that rule, in which nothing is known yet.
    pub fn on(plan: &Plan, rule: Rule) -> Book {
        Book {
            edition: plan.edition,
            boards: plan.boards,
            tasks: plan.tasks,
            rule: rule as u8,
            board: plan.board,
            ready: plan.ready,
            begin: plan.begin,
            finish: plan.finish,
            holds: plan.holds,
            after: plan.after,
            ..Book::ZERO
        }
    }

    /// The plan the book was opened on.
    pub fn plan(&self) -> Plan {
        Plan {
            edition: self.edition,
            boards: self.boards,
            tasks: self.tasks,
            board: self.board,
            ready: self.ready,
            begin: self.begin,
            finish: self.finish,
            holds: self.holds,
            after: self.after,
        }
    }
}

impl Lengths {
    pub const ZERO: Lengths = Lengths {
        length: [0; 64],
        dropped: [0; 64],
    };

    /// Every task takes its planned length, and none is dropped. In a plan that is not accepted a task
    /// whose finish is not above its start has the length 0.
    pub fn planned(plan: &Plan) -> Lengths {
        let mut length = [0; 64];
        for (i, length) in length[..plan.task_count()].iter_mut().enumerate() {
            *length = plan.finish[i].saturating_sub(plan.begin[i]);
        }
        Lengths {
            length,
            ..Lengths::ZERO
        }
    }

    pub fn is_dropped(&self, i: usize) -> bool {
        self.dropped[i] == DROPPED
    }
}

impl Timetable {
    pub const ZERO: Timetable = Timetable {
        answer: Answer::ACCEPTED,
        start: [0; 64],
        end: [0; 64],
    };
}

impl JudgedLog {
    /// Nothing is known of any task.
    pub const fn nothing(answer: Answer) -> JudgedLog {
        JudgedLog {
            answer,
            known: [0; 64],
            start: [0; 64],
            end: [0; 64],
        }
    }

    pub fn is_known(&self, i: usize) -> bool {
        self.known[i] == KNOWN
    }
}

impl Totals {
    pub const ZERO: Totals = Totals {
        accepted: 0,
        refused: 0,
        ended: [0; 8],
        sum: [0; 8],
        greatest: [0; 8],
        least: [0; 8],
    };
}

/// The items of a list: its places up to the first empty one.
pub fn items(places: &[u8]) -> &[u8] {
    let length = places.iter().position(|&b| b == 0);
    &places[..length.unwrap_or(places.len())]
}

/// The drive a hold byte names.
pub fn drive_of(hold: u8) -> u32 {
    u32::from(hold / 2)
}

/// Whether a hold byte is for exclusive use.
pub fn is_exclusive(hold: u8) -> bool {
    hold.is_multiple_of(2)
}

/// The byte for exclusive use of the same drive.
pub fn made_exclusive(hold: u8) -> u8 {
    hold - hold % 2
}
