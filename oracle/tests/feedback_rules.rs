//! Rules of E7 that are wrong: each shows in the default mix and in the cases by hand.

mod flat;
mod found;
mod misfed;
mod shows;

use misfed::{Rule, CALLS, GIVEN, NODES, ORDERS, RIGHT};

fn rules() -> impl Iterator<Item = &'static Rule> {
    NODES.iter().chain(&ORDERS).chain(&GIVEN).chain(&CALLS)
}

#[test]
fn in_the_mix() {
    shows::in_the_mix(&RIGHT, rules(), |rule| (rule.name, rule.least));
}

#[test]
fn by_hand() {
    shows::in_the_cases(&RIGHT, rules(), |rule| rule.name);
}
