//! Converting old plans: the proved implementation must answer every plan and text
//! as the second dispatcher does, to the last byte.

use dispatcher::proved::{self, write_converted, CONVERTED_ROOM};
use dispatcher::sample::damage::mutated_plan;
use dispatcher::sample::faults::{damaged_text, faulty_pair_plan, late_plan, sharing_plan};
use dispatcher::sample::lent::{expect_room, shown, Lent};
use dispatcher::sample::lines::{noise, stretched_text};
use dispatcher::sample::old_texts::{old_text, second_edition, with_shared_holds};
use dispatcher::sample::plan_a::PLAN_A;
use dispatcher::sample::plan_b::PLAN_B;
use dispatcher::sample::plans::{exclusively_held, first_edition, full_plan, random_plan};
use dispatcher::sample::tally::Tally;
use dispatcher::sample::wild::{one_rule_broken, wild_plan};
use dispatcher::sample::Rng;
use dispatcher::second::text::plan_text;
use dispatcher::second::values::LONGEST_TEXT;
use dispatcher::{convert, convert_text, read_exclusive, read_plan, Plan};

/// Bytes that are right in some places of a text and wrong in others.
const LIKELY_BYTES: &[u8] = b"\t\n-,es0129";

fn compare_converting(tally: &mut Tally, plan: &Plan) {
    let wanted = convert(plan);
    let got = proved::convert(plan);
    assert_eq!(got.answer, wanted.answer, "{plan:?}");
    assert!(got.plan == wanted.plan, "{plan:?}");
    tally.count(wanted.answer);
}

#[test]
fn plans_are_converted_alike() {
    let (mut rng, mut tally) = Tally::seeded("compare_convert, plans");
    let rng = &mut rng;
    for _ in 0..3000 {
        let plan = random_plan(rng);
        let first = first_edition(&plan);
        for old in [
            plan,
            first,
            exclusively_held(&first),
            second_edition(&first),
        ] {
            compare_converting(&mut tally, &old);
            compare_converting(&mut tally, &with_shared_holds(rng, &old));
            compare_converting(&mut tally, &mutated_plan(rng, &old));
            compare_converting(&mut tally, &one_rule_broken(rng, &old));
            compare_converting(&mut tally, &faulty_pair_plan(rng, &old));
        }
        compare_converting(&mut tally, &late_plan(rng, &first));
        compare_converting(&mut tally, &sharing_plan(rng, &plan));
    }
    tally.finish_kind("plans of both editions, right and changed");
    compare_converting(&mut tally, &Plan::ZERO);
    for _ in 0..5000 {
        compare_converting(&mut tally, &wild_plan(rng));
    }
    tally.finish_kind("plans of random bytes");
    for _ in 0..200 {
        let full = full_plan(rng, 64);
        compare_converting(&mut tally, &full);
        compare_converting(&mut tally, &exclusively_held(&full));
    }
    tally.finish_kind("plans of 64 tasks");
    tally.finish(70_000, &[0, 7, 9]);
}

/// The calls on one text, and what each of them was answered.
struct Texts {
    read: Tally,
    second: Tally,
    printed: Tally,
    out: Lent,
}

impl Texts {
    fn compare(&mut self, text: &[u8]) {
        let wanted = read_plan(text);
        assert!(proved::read_plan(text) == wanted, "{}", shown(text));
        self.read.count(wanted.answer);
        let wanted = read_exclusive(text);
        let got = proved::read_exclusive(text);
        assert_eq!(got.answer, wanted.answer, "{}", shown(text));
        assert!(got.plan == wanted.plan, "{}", shown(text));
        self.second.count(wanted.answer);
        self.compare_printed(text);
    }

    /// What is printed is the same, and the bytes behind it are left.
    fn compare_printed(&mut self, text: &[u8]) {
        let wanted = convert_text(text);
        self.out
            .expect(&wanted, &[text], |out| write_converted(text, out));
        self.printed.count_printed(&wanted);
    }

    fn finish_kind(&mut self, kind: &str) {
        for tally in [&mut self.read, &mut self.second, &mut self.printed] {
            tally.finish_kind(kind);
        }
    }
}

fn compare_old_texts(rng: &mut Rng, texts: &mut Texts) {
    for _ in 0..3000 {
        let plan = random_plan(rng);
        for _ in 0..12 {
            texts.compare(&old_text(rng, &plan));
        }
    }
    texts.finish_kind("texts of old plans, right, faulty and damaged");
}

fn compare_changed_bytes(texts: &mut Texts) {
    for plan in [PLAN_A, PLAN_B] {
        for at in 0..plan.len() {
            texts.compare(&plan[..at]);
            for &byte in LIKELY_BYTES {
                let mut text = plan.to_vec();
                text[at] = byte;
                texts.compare(&text);
            }
        }
    }
    texts.finish_kind("texts of plans A and B cut, and with one byte changed");
}

fn compare_long_texts(rng: &mut Rng, texts: &mut Texts) {
    for _ in 0..400 {
        let plan = random_plan(rng);
        let text = plan_text(&with_shared_holds(rng, &plan));
        let length = LONGEST_TEXT + 1 - rng.index(3);
        texts.compare(&stretched_text(rng, &text, length));
        texts.compare(&stretched_text(rng, PLAN_B, length));
    }
    for _ in 0..100 {
        let full = second_edition(&full_plan(rng, 64));
        let text = plan_text(&full);
        texts.compare(&text);
        texts.compare(&damaged_text(rng, &text));
        let exclusive = exclusively_held(&full);
        texts.compare(&plan_text(&with_shared_holds(rng, &exclusive)));
    }
    texts.finish_kind("texts of 64 tasks, and of 32,767 to 32,769 bytes");
}

fn compare_noise(rng: &mut Rng, texts: &mut Texts) {
    texts.compare(b"");
    for _ in 0..3000 {
        texts.compare(&noise(rng));
    }
    texts.finish_kind("texts of noise");
}

#[test]
fn texts_are_converted_alike() {
    let (mut rng, read) = Tally::seeded("compare_convert, reading");
    let mut texts = Texts {
        read,
        second: Tally::new("compare_convert, second call"),
        printed: Tally::new("compare_convert, printed"),
        out: Lent::new(CONVERTED_ROOM + 100),
    };
    compare_old_texts(&mut rng, &mut texts);
    compare_changed_bytes(&mut texts);
    compare_long_texts(&mut rng, &mut texts);
    compare_noise(&mut rng, &mut texts);
    let codes = [0, 1, 2, 3, 4, 5, 6, 7, 8, 17, 18];
    texts.read.finish(40_000, &[&codes[..], &[20]].concat());
    texts.second.finish(40_000, &codes);
    texts.printed.finish(40_000, &codes);
}

#[test]
fn a_buffer_that_is_too_short_gets_nothing_and_a_longer_one_only_what_is_printed() {
    let edition_1 = plan_text(&exclusively_held(&full_plan(&mut Rng::new(7), 64)));
    for text in [
        b"".as_slice(),
        PLAN_A,
        PLAN_B,
        &edition_1,
        b"plan\t1\t1\t1\n",
    ] {
        let wanted = convert_text(text);
        expect_room(CONVERTED_ROOM, &wanted, |out| write_converted(text, out));
    }
}
