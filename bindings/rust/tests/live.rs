//! The engine against the oracle, another implementation of the document, on fresh random cases.
use oracle::generate::generate;
use oracle::script::{expected, play, render, Command};
use proved::{seeded, Proved};

mod proved;

/// Plays a case on both, and tells the first line in which they differ.
fn compare(seed: u64, case: &[Command]) {
    let (wanted, got) = (expected(case), play(case, &Proved));
    if wanted == got {
        return;
    }
    let script = String::from_utf8_lossy(&render(case)).into_owned();
    let at = wanted
        .lines()
        .zip(got.lines())
        .take_while(|(a, b)| a == b)
        .count();
    let line = |text: &str| text.lines().nth(at).unwrap_or("(no line)").to_string();
    panic!(
        "seed {seed}, line {at} of the output of this script:\n{script}\nexpected: {}\n     got: {}",
        line(&wanted),
        line(&got)
    );
}

#[test]
fn fresh_cases() {
    let (seed, count) = seeded("live", 3000);
    let commands = generate(seed, count as usize);
    let cases = commands.chunk_by(|_, next| !matches!(next, Command::Title(_)));
    let mut played = 0;
    for case in cases {
        compare(seed, case);
        played += 1;
    }
    assert_eq!(played, count);
}
