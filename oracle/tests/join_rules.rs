//! Rules of E8 that are wrong: each shows in the default mix and in the cases by hand.

mod flat;
mod misjoined;
mod shows;

use misjoined::{Rule, CHECKS, MOVES, NODES, ORDERS, RIGHT, WRITES};

fn rules() -> impl Iterator<Item = &'static Rule> {
    let drawn = MOVES.iter().chain(&NODES);
    drawn.chain(&ORDERS).chain(&CHECKS).chain(&WRITES)
}

#[test]
fn in_the_mix() {
    shows::in_the_mix(&RIGHT, rules(), |rule| (rule.name, rule.least));
}

#[test]
fn by_hand() {
    shows::in_the_cases(&RIGHT, rules(), |rule| rule.name);
}
