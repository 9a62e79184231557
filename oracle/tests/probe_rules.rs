//! Rules of E5 that are wrong: each shows in the default mix and in the cases by hand.

mod flat;
mod misprobed;
mod shows;

use misprobed::{Rule, KINDS, RECORDED, REFUSED, RIGHT};
use oracle::generate::generate;
use oracle::script::Command;
use shows::{all_show, cases};

fn rules() -> impl Iterator<Item = &'static Rule> {
    RECORDED.iter().chain(&KINDS).chain(&REFUSED)
}

#[test]
fn in_the_mix() {
    let commands = generate(1, 3000);
    let mut probed = cases(&commands);
    probed.retain(|case| case.iter().any(|c| matches!(c, Command::Probed(_))));
    assert!(probed.len() >= 400, "{} cases", probed.len());
    let least = |rule: &Rule| (rule.name, rule.least);
    all_show(&probed, &RIGHT, rules(), least);
}

#[test]
fn by_hand() {
    shows::in_the_cases(&RIGHT, rules(), |rule| rule.name);
}
