//! Wrong rules show: each in so many cases of the default mix, and in the cases by hand.
#![allow(dead_code)] // a test uses a part of it

use oracle::engine::Engine;
use oracle::generate::generate;
use oracle::parse::parse;
use oracle::script::{expected, play, Command};

/// A script case by case.
pub fn cases(commands: &[Command]) -> Vec<&[Command]> {
    let cases = commands.chunk_by(|_, next| !matches!(next, Command::Title(_)));
    cases.collect()
}

/// The cases by hand, as one.
pub fn by_hand() -> Vec<Command> {
    let script = concat!(env!("CARGO_MANIFEST_DIR"), "/../crates/cases/stdin");
    parse(&std::fs::read(script).expect("a script"))
}

/// The right rule answers every case as expected, and each of the others so many otherwise, at
/// least; `least` has a rule's name with that number.
pub fn all_show<'a, R: Engine + 'a>(
    cases: &[&[Command]],
    right: &R,
    wrong: impl Iterator<Item = &'a R>,
    least: impl Fn(&R) -> (&'static str, usize),
) {
    let wanted: Vec<String> = cases.iter().map(|case| expected(case)).collect();
    let differences = |rule: &R| {
        let answered = cases.iter().map(|case| play(case, rule));
        answered.zip(&wanted).filter(|(a, w)| a != *w).count()
    };
    assert_eq!(differences(right), 0);
    for rule in wrong {
        let (count, (name, least)) = (differences(rule), least(rule));
        println!("{name}: {count} cases");
        assert!(count >= least, "{name}");
    }
}

/// They show in the default mix.
pub fn in_the_mix<'a, R: Engine + 'a>(
    right: &R,
    wrong: impl Iterator<Item = &'a R>,
    least: impl Fn(&R) -> (&'static str, usize),
) {
    all_show(&cases(&generate(1, 3000)), right, wrong, least);
}

/// They show in the cases by hand.
pub fn in_the_cases<'a, R: Engine + 'a>(
    right: &R,
    wrong: impl Iterator<Item = &'a R>,
    name: impl Fn(&R) -> &'static str,
) {
    all_show(&[&by_hand()], right, wrong, |rule| (name(rule), 1));
}
