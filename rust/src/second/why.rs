//! Why a task started when it did: back from it, each link the task whose end
//! let the one before it start.

use super::book::waits_if_sound;
use super::values::{refusal, Answer, Book, Chain, DROPPED, WAITING};
use super::waits::Waits;

/// The asked task and the chain behind it, or why it is refused and no link.
pub fn why(book: &Book, task: u32) -> Chain {
    let Some(waits) = waits_if_sound(book) else {
        return Chain::empty(Answer::UNSOUND);
    };
    if task == 0 || task > u32::from(book.tasks) {
        return Chain::empty(refusal(10, task, 0));
    }
    let asked = task as usize - 1;
    if book.mark[asked] == WAITING {
        return Chain::empty(refusal(11, task, 0));
    }
    let mut chain = Chain::empty(Answer::ACCEPTED);
    let mut link = Some(asked);
    while let Some(i) = link {
        chain.links[chain.count as usize] = i as u8 + 1;
        chain.count += 1;
        link = cause(book, &waits, i);
    }
    chain
}

/// Of those that i waited for with the latest end the lowest. None where i started
/// at 0, where it waits for nobody, and where it became ready only after all those
/// ends; of a dropped task the ready tick counts for nothing.
fn cause(book: &Book, waits: &Waits, i: usize) -> Option<usize> {
    if book.start[i] == 0 {
        return None;
    }
    let latest = waits.of(i).map(|j| book.end[j]).max()?;
    if book.dropped[i] != DROPPED && book.ready[i] > latest {
        return None;
    }
    waits.of(i).find(|&j| book.end[j] == latest)
}
