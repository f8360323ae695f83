//! Reports on a sound book: ones that must be accepted, and any others.

use super::Rng;
use crate::second::values::{Book, RUNNING};

/// A report as (task, tick).
pub type Report = (u32, u32);

/// A report the document accepts; None once every task has ended.
pub fn accepted_report(rng: &mut Rng, book: &Book) -> Option<Report> {
    let latest = least_limit(book)?;
    let mut choices = Vec::new();
    for i in running_tasks(book) {
        let earliest = book.clock.max(book.start[i] + 1);
        if earliest <= latest {
            choices.push((i as u32 + 1, earliest));
        }
    }
    let (task, earliest) = rng.pick(&choices);
    let tick = match rng.within(1, 4) {
        1 => latest,
        2 => earliest,
        3 => latest.min(earliest + rng.within(0, 2)),
        _ => rng.within(earliest, latest),
    };
    Some((task, tick))
}

/// Accepted reports of several tasks, all at one tick; none once all ended.
pub fn one_tick_reports(rng: &mut Rng, book: &Book) -> Vec<Report> {
    let Some((_, tick)) = accepted_report(rng, book) else {
        return Vec::new();
    };
    let started_before = |i: &usize| book.start[*i] < tick;
    let chosen = running_tasks(book).into_iter().filter(started_before);
    chosen.map(|i| (i as u32 + 1, tick)).collect()
}

/// The running task of least limit, at its limit.
pub fn last_moment_report(book: &Book) -> Option<Report> {
    let i = running_tasks(book)
        .into_iter()
        .min_by_key(|&i| limit(book, i))?;
    Some((i as u32 + 1, limit(book, i)))
}

/// Any report, mostly near the ones that are accepted.
pub fn any_report(rng: &mut Rng, book: &Book) -> Report {
    let last = u32::from(book.tasks);
    let running = running_tasks(book);
    let task = match rng.within(1, 8) {
        1 => rng.pick(&[0, last + 1, 65, 256 + last, u32::MAX]),
        2..=6 if !running.is_empty() => rng.pick(&running) as u32 + 1,
        _ => rng.within(1, last),
    };
    let i = task.clamp(1, last) as usize - 1;
    let tick = match rng.within(1, 7) {
        1 => book.clock,
        2 => book.clock.saturating_sub(1),
        3 => book.start[i],
        4 => limit(book, i),
        5 => limit(book, i) + 1,
        6 => least_limit(book).unwrap_or(0) + 1,
        _ => rng.pick(&[0, 1, 1_000_000, u32::MAX]),
    };
    (task, tick)
}

pub fn running_tasks(book: &Book) -> Vec<usize> {
    (0..usize::from(book.tasks))
        .filter(|&i| book.mark[i] == RUNNING)
        .collect()
}

fn limit(book: &Book, i: usize) -> u32 {
    book.start[i] + book.finish[i] - book.begin[i]
}

fn least_limit(book: &Book) -> Option<u32> {
    running_tasks(book)
        .into_iter()
        .map(|i| limit(book, i))
        .min()
}
