//! Inputs for tests: seeded random plans, texts, damaged values, reports, drops and logs.

pub mod columns;
pub mod damage;
pub mod desk_lines;
pub mod events;
pub mod every_book;
pub mod every_later;
pub mod faults;
pub mod lengths;
pub mod lent;
pub mod lines;
pub mod live;
pub mod log_damage;
pub mod logs;
pub mod mixtures;
pub mod mornings;
pub mod old_texts;
pub mod one_fault;
pub mod pairs;
pub mod plan_a;
pub mod plan_b;
pub mod plans;
pub mod program;
pub mod reports;
pub mod rng;
pub mod tally;
pub mod waiting;
pub mod wild;
pub mod years;

pub use rng::Rng;
