//! Rules of E6 that are wrong: each shows in the default mix and in the cases by hand.

mod flat;
mod misclipped;
mod shows;
mod watched;

use misclipped::{Rule, AMOUNTS, DELAYS, PLACES, TICKS};
use oracle::generate::generate;
use oracle::script::{expected, play, Command};
use shows::cases;
use std::cell::RefCell;
use watched::{Call, Reporting};

fn rules() -> impl Iterator<Item = &'static Rule> {
    AMOUNTS.iter().chain(&DELAYS).chain(&TICKS).chain(&PLACES)
}

/// In how many cases each rule shows: their calls are worked once, and a rule differs in a case
/// where it reports another number of a call.
fn differences(cases: &[&[Command]]) -> Vec<usize> {
    let mut counts = vec![0; rules().count()];
    for case in cases {
        let differs = RefCell::new(vec![false; counts.len()]);
        let report = |call: &Call| {
            let right = call.right();
            for (differs, rule) in differs.borrow_mut().iter_mut().zip(rules()) {
                *differs |= (rule.report)(call) != right;
            }
            right
        };
        assert_eq!(play(case, &Reporting::new(report)), expected(case));
        let differs = differs.into_inner();
        counts
            .iter_mut()
            .zip(differs)
            .for_each(|(c, d)| *c += usize::from(d));
    }
    counts
}

#[test]
fn in_the_mix() {
    let counts = differences(&cases(&generate(1, 3000)));
    for (rule, count) in rules().zip(counts) {
        println!("{}: {count} cases", rule.name);
        assert!(count >= rule.least, "{}", rule.name);
    }
}

#[test]
fn by_hand() {
    let counts = differences(&[&shows::by_hand()]);
    for (rule, count) in rules().zip(counts) {
        assert!(count > 0, "{}", rule.name);
    }
}
